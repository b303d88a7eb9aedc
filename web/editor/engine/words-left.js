// What words of a light leave, and the words that an entered light could have: asked while a setter looks at a light.
import { ask, clear, counts, isRefused, knownOf, putBack } from './session.js';
import { cellsOf, isWhole, named } from './told.js';

/** @typedef {import('./told.js').ToldLight} ToldLight */
/** @typedef {import('./session.js').Filled} Filled */

// How long a call may count words, in milliseconds: a key waits no longer.
const SLICE = 4;

// The most words that are judged which need other words changed, and the most that are told.
const MOST_JUDGED = 2000;
const MOST_OTHERS = 100;

// What words of a light leave: each is placed, the counts are read, and the letters are put back. It ends when its time is over, with the words
// that are counted by then. `cleared` has the letters that a word needs cleared, as lists of cells by the word: the first list that leaves each
// light a word is taken, and its number is in `taken`; it is -1 if none does.
/** @param {{ light: string, words: string[], cleared?: Record<string, string[][]> }} sent */
export function probe({ light, words, cleared = {} }) {
  const end = performance.now() + SLICE;
  const lights = ask('lights');
  const here = lights.find((one) => one.light === light);
  // an edit was ahead of this query, and the light is gone
  if (!here) return { left: {}, taken: {} };
  const isDead = deadWithout(here);
  const isOpen = openWith(here, lights);
  const standing = Object.keys(cleared).length ? lettersIn(lights) : new Map();
  const entered = (/** @type {string} */ coordinates) => ({ coordinates, letter: standing.get(coordinates) ?? '.' });
  /** @type {Record<string, number | 'done'>} */
  const left = {};
  /** @type {Record<string, number>} */
  const taken = {};
  for (const word of words) {
    const gone = (cleared[word] ?? [[]]).map((cells) => cells.map(entered).filter(({ letter }) => letter !== '.'));
    taken[word] = gone.findIndex((cells) => {
      left[word] = leftAfter(here, word, cells, (at) => isOpen(at, cells) && !isDead[at]);
      return left[word] !== 0;
    });
    if (performance.now() > end) break;
  }
  return { left, taken };
}

// The letters of all lights, by coordinates.
/** @param {ToldLight[]} lights */
const lettersIn = (lights) => new Map(lights.flatMap(cellsOf).map(({ coordinates, letter }) => [coordinates, letter]));

// Tells by the number of a light whether it has an empty cell after a word is placed in the given one, and other cells are cleared.
/**
 * @param {ToldLight} light
 * @param {ToldLight[]} lights
 */
function openWith(light, lights) {
  const own = new Set(cellsOf(light).map(({ coordinates }) => coordinates));
  const cells = lights.map((other) => cellsOf(other).map(({ coordinates, letter }) => ({ coordinates, isEmpty: letter === '.' && !own.has(coordinates) })));
  const isOpen = cells.map((some) => some.some(({ isEmpty }) => isEmpty));
  const isCleared = (/** @type {number} */ at, /** @type {Filled[]} */ cleared) => cells[at].some(({ coordinates }) => !own.has(coordinates) && cleared.some((cell) => cell.coordinates === coordinates));
  return (/** @type {number} */ at, /** @type {Filled[]} */ cleared) => isOpen[at] || (cleared.length > 0 && isCleared(at, cleared));
}

// Whether each light has no word whatever stands in the given one, as where the dead end is in another part of the grid.
/** @param {ToldLight} light */
function deadWithout(light) {
  const deadNow = () => [...counts()].map((count) => count === 0);
  const isDead = deadNow();
  if (!isWhole(light) || !isDead.includes(true)) return isDead;
  const cells = cellsOf(light);
  clear(cells.map(({ coordinates }) => coordinates));
  const isDeadStill = deadNow();
  putBack(cells);
  return isDeadStill;
}

// The fewest words that one of some lights has after a word is placed in one and letters elsewhere are cleared, or that this fills the grid.
// `isCounted` tells by the number of a light whether it is one of them.
/**
 * @param {ToldLight} light
 * @param {string} word
 * @param {Filled[]} cleared
 * @param {(at: number) => boolean} isCounted
 * @returns {number | 'done'}
 */
function leftAfter(light, word, cleared, isCounted) {
  clear(cleared.map(({ coordinates }) => coordinates));
  const left = isRefused(`place ${light.light} ${word}`) ? [0] : counts().filter((_, at) => isCounted(at));
  putBack([...cellsOf(light), ...cleared]);
  return left.length ? Math.min(...left) : 'done';
}

// The letters that the words of a light have in a cell, with the other letters of that light as they stand; null for all.
/**
 * @param {Filled[]} cells
 * @param {number} at
 */
function lettersAt(cells, at) {
  const pattern = cells.map(({ letter }, index) => (index === at ? '.' : letter)).join('');
  return /[A-Z]/.test(pattern) ? new Set(ask('match', pattern).map((word) => word[at])) : null;
}

// The words that an entered light could have: those that fit what crosses it as it stands, and those that would if its crossing lights were
// without their letters in pencil, each with the names of the crossing lights that it needs changed. All is put back before the call ends.
/** @param {{ light: string, pencil: string[] }} sent */
export function alternatives({ light, pencil }) {
  const lights = ask('lights');
  const here = lights.find((one) => one.light === light);
  if (!here) return { fit: [], others: [] };
  const own = cellsOf(here);
  const crossed = crossingsOf(here, own, lights);
  const marked = new Set(pencil);
  const open = crossed.flatMap(({ cells, at }) => cells.filter((cell, index) => cell.letter !== '.' && marked.has(cell.coordinates) && index !== at));
  const allowed = crossed.map(({ name, cells, at, own: index }) => ({ name, at: index, letters: lettersAt(cells, at) }));
  const wordsNow = () => ask('words', light).words.filter((word) => word !== here.letters);
  clear(own.map(({ coordinates }) => coordinates));
  const fit = wordsNow();
  clear(open.map(({ coordinates }) => coordinates));
  const known = new Set(fit);
  const wide = open.length ? wordsNow().filter((word) => !known.has(word)).slice(0, MOST_JUDGED) : [];
  putBack([...open, ...own]);
  const needs = (/** @type {string} */ word) => allowed.filter(({ at, letters }) => letters && !letters.has(word[at])).map(({ name }) => name);
  // those first that change the fewest words; no name means all that cross
  const changes = (/** @type {{ needs: string[] }} */ other) => other.needs.length || Infinity;
  const others = wide.map((word) => ({ word, needs: needs(word) })).sort((a, b) => (changes(a) === changes(b) ? 0 : changes(a) - changes(b))).slice(0, MOST_OTHERS);
  const told = [...fit, ...others.map(({ word }) => word)];
  return { fit, others, ...knownOf(told) };
}

// The lights that cross one: their names and cells, the number of the cell in them that is shared, and the number of that cell in the other light.
/**
 * @param {ToldLight} light
 * @param {Filled[]} own
 * @param {ToldLight[]} lights
 */
function crossingsOf(light, own, lights) {
  const index = new Map(own.map(({ coordinates }, at) => [coordinates, at]));
  const directionOf = (/** @type {ToldLight} */ one) => named(one.light).direction;
  const crossing = lights.filter((other) => directionOf(other) !== directionOf(light)).map((other) => ({ name: other.light, cells: cellsOf(other) }));
  const shared = crossing.map(({ name, cells }) => ({ name, cells, at: cells.findIndex(({ coordinates }) => index.has(coordinates)) }));
  return shared.filter(({ at }) => at >= 0).map((one) => ({ ...one, own: index.get(one.cells[one.at].coordinates) ?? -1 }));
}
