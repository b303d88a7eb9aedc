// Searches in slices, in a worker that helps, and what they tell of a grid that has no fill.
import { MOST, totalOf } from '../model/grades.js';
import { closeNew } from '../model/kin.js';
import { letterIn, lettersOf } from '../model/record.js';
import { reachOf } from './reach.js';
import { ask, clear, counts, isRefused, outcome, putBack, recordNow, scoreOf, send } from './session.js';
import { cellsOf, isWhole } from './told.js';

/** @typedef {import('./told.js').ToldLight} ToldLight */
/** @typedef {import('./session.js').Found} Found */
/** @typedef {import('../../xw.js').Arguments['best']} Asked what a search is given */

// The most words of a light that are weighed, and the most lights without a word that are asked for the reason.
const MOST_WEIGHED = 8;

// The most words that are tried in place of one that stands already.
const MOST_TRIED = 20;

// The most fills that a slice makes until the words of one are apart.
const MOST_APART = 30;

// Whether the grid has a fill without the letters of some cells, as far as so many placements tell. All is put back before the call ends.
/** @param {{ cells: string[], most: number }} sent */
export function fillsWithout({ cells, most }) {
  const before = lettersOf(recordNow());
  clear(cells);
  const { answer } = outcome('autofill', most, 0);
  const [was, is] = [new Set(before), lettersOf(recordNow())];
  clear(is.filter((line) => !was.has(line)).map((line) => letterIn(line)[0]));
  send(...before.filter((line) => !is.includes(line)));
  return answer === 'filled';
}

// The light that runs out of words first, if words are entered as `suggest` has them, so many at most; with their number. Or null. It is for a worker
// that helps, since the words stay.
/** @param {{ most: number }} sent */
export function firstDead({ most }) {
  for (let entered = 0; entered <= most; entered++) {
    const { kind, light, word } = ask('suggest');
    if (kind === 'dead' || kind === 'noword') return { light, entered };
    if (!light || !word) return null;
    if (!enterNew(light, word)) return { light, entered };
  }
  return null;
}

// Enters a word that does not stand in the grid yet and leaves each light a word: the given one, or else another one. Returns whether there is one.
/**
 * @param {string} light
 * @param {string} word
 */
function enterNew(light, word) {
  const lights = ask('lights');
  const isNew = (/** @type {string} */ other) => !lights.some(({ letters }) => letters === other);
  const others = () => ask('words', light).words.filter(isNew).slice(0, MOST_TRIED);
  const cells = lights.filter((one) => one.light === light).flatMap(cellsOf);
  for (const one of isNew(word) ? [word] : others()) {
    send(`place ${light} ${one}`);
    if (Math.min(...counts()) > 0) return true;
    putBack(cells);
  }
  return false;
}

// A slice of a fill of the session.
/** @param {{ given: Asked }} sent */
export const autofill = ({ given }) => outcome('autofill', ...given);

// A slice of a search in a worker that helps: what it answers, and if there is a fill, the lines of its letters.
/** @param {{ command: 'autofill' | 'best', given: Asked, cells?: string[], isApart?: boolean }} sent */
export function search({ command, given, cells = [], isApart = false }) {
  const { answer } = apart(isApart, cells, () => outcome(command, ...given));
  return { answer, letters: answer === 'filled' ? lettersOf(recordNow()) : [] };
}

// words that searches struck in a worker that helps, which come back with the next record
/** @type {string[]} */
const struck = [];

// Takes back what searches struck.
export function unstrike() {
  if (struck.length) send('least 0', ...struck.splice(0).map((word) => `add ${word}`));
}

// Has a search of some cells go on, if that is wanted, until it finds a fill whose new words are close to no others: the one with the lower score of two is
// struck, and what is near it is filled again. What is proved without these words is not told.
/**
 * @param {boolean} isWanted
 * @param {string[]} cells
 * @param {() => Found} find
 * @returns {Found}
 */
function apart(isWanted, cells, find) {
  let told = find();
  for (let tries = 0; isWanted && told.answer === 'filled'; tries++) {
    const close = closeIn(cells);
    if (!close.length) return { ...told, bound: struck.length ? null : told.bound };
    for (const { letters } of close) if (!isRefused(`strike ${letters}`)) struck.push(letters);
    const isOver = tries === MOST_APART;
    clear(isOver ? cells : near(close, cells));
    if (!isOver) told = find();
    if (told.answer !== 'filled' || isOver) clear(cells);
    if (isOver) return { answer: 'limit', grade: null, bound: null };
    if (told.answer !== 'filled') told = find();
  }
  return isWanted && struck.length ? { ...told, answer: 'limit', bound: null } : told;
}

// The lights that are new with some cells, and whose words are close to others.
/** @param {string[]} cells */
function closeIn(cells) {
  const whole = ask('lights').filter(isWhole);
  const isNew = isNewWith(cells);
  const close = new Set(closeNew(whole.map((light) => ({ word: light.letters, isNew: isNew(light), score: scoreOf(light.letters) ?? 0 }))));
  return whole.filter((light) => isNew(light) && close.has(light.letters));
}

// Tells whether a light has one of some cells.
/**
 * @param {string[]} cells
 * @returns {(light: ToldLight) => boolean}
 */
function isNewWith(cells) {
  const open = new Set(cells);
  return (light) => cellsOf(light).some(({ coordinates }) => open.has(coordinates));
}

// Those of some cells that are in lights, in the lights that cross these, or in those that cross these again.
/**
 * @param {ToldLight[]} lights
 * @param {string[]} cells
 */
function near(lights, cells) {
  const all = ask('lights').map((light) => cellsOf(light).map(({ coordinates }) => coordinates));
  const found = reachOf(all, lights.flatMap(cellsOf).map(({ coordinates }) => coordinates), 2);
  return cells.filter((cell) => found.has(cell));
}

// The letters of the grid, as lines; the given cells are empty after it.
/** @param {string[]} cells */
function takenLetters(cells) {
  const letters = lettersOf(recordNow());
  clear(cells);
  return letters;
}

// A slice of a search that raises the worst word, in a worker that helps: a fill of words that have this grade at least, and what is proved. With
// a fill it has the sum of their grades and its letters; the grid is then without those of the given cells again, so that the next slice goes on with what this one learned. Words that
// are struck, for fills without words that are close to others, have it begin anew.
/** @param {{ least: number, given: Asked, cells: string[], isApart: boolean }} sent */
export function best({ least, given, cells, isApart }) {
  send(`least ${least}`);
  const told = apart(isApart, cells, () => outcome('best', ...given));
  if (told.answer !== 'filled') return told;
  const names = ask('lights').filter(isNewWith(cells)).filter(isWhole).map(({ light }) => light);
  const known = names.length ? ask('grades', ...names).map((one) => one.grade ?? NaN) : [];
  // of a fill in several parts all words count
  const grade = isApart && known.length ? Math.min(...known) : told.grade;
  return { ...told, grade, sum: totalOf(known), letters: takenLetters(cells) };
}

// The lights that keep each fill below a grade, in a worker that helps: those that no word of this grade matches, each with the word of another grade that
// leaves the best fills; or else `near`, the light that loses its words for the fewest letters; or neither. `words` has those of the fill, which are taken
// where others are no better. The grid is as it was before.
/** @param {{ least: number, grade: number, words: Record<string, string> }} sent */
export function forced({ least, grade, words }) {
  send(`least ${least}`);
  const whole = new Set(ask('lights').filter(isWhole).map(({ light }) => light));
  const names = ask('unmatched').map(({ light }) => light).filter((name) => !whole.has(name));
  const near = names.length ? null : nearestDead();
  send(`least ${grade}`);
  /** @type {import('./session.js').Filled[][]} */
  const before = [];
  const lights = names.map((name) => {
    const cells = ask('lights').filter(({ light }) => light === name).flatMap(cellsOf);
    const word = bestWord(name, cells, words[name]);
    before.unshift(cells);
    send(`place ${name} ${word}`);
    return { name, word };
  });
  before.forEach(putBack);
  return { lights, near };
}

// The light without a word that the fewest letters leave none, of those with the most letters; or null.
function nearestDead() {
  const left = counts();
  const known = (/** @type {ToldLight} */ { letters }) => letters.replaceAll('.', '').length;
  const dead = ask('lights').filter((light, at) => left[at] === 0 && !isWhole(light) && known(light)).sort((a, b) => known(b) - known(a));
  const reasons = dead.slice(0, MOST_WEIGHED).map(({ light }) => ({ light, length: ask('why', light).length }));
  return reasons.sort((a, b) => a.length - b.length)[0]?.light ?? null;
}

// The word of a light after which the bound of the best fill is the highest.
/**
 * @param {string} name
 * @param {import('./session.js').Filled[]} cells
 * @param {string | undefined} own
 */
function bestWord(name, cells, own) {
  const others = ask('words', name).words.filter((word) => word !== own);
  const words = [...(own ? [own] : []), ...others].slice(0, MOST_WEIGHED);
  const bounds = words.map((word) => {
    const { answer, bound } = isRefused(`place ${name} ${word}`) ? { answer: 'nofill', bound: 0 } : outcome('best', 0);
    putBack(cells);
    return answer === 'nofill' ? 0 : bound ?? MOST + 1;
  });
  return words[bounds.indexOf(Math.max(...bounds))];
}
