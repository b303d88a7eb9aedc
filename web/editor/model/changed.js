// What a step of the history changes outside of the grid, so that it can be said and shown.
import { isCellField } from './rebus.js';
import { bodyOf, wordsOf } from './record.js';

/** @typedef {import('./state.js').Step} Step */
/** @typedef {(coordinates: string, direction: string) => string} Titled names the light of a clue */

// The lines of a step, with those of the words that clues were written for, and of what is kept beside the record.
/** @param {Step} step */
const linesOf = ({ record, written, originals }) => [
  ...wordsOf(record), ...bodyOf(record), ...written.map((pair) => `written ${pair.join(' ')}`),
  ...originals.filter(([field]) => !isCellField(field)).map((pair) => `kept ${pair.join(' ')}`),
];

// The lines that one of two steps has alone.
/**
 * @param {Step} one
 * @param {Step} other
 */
function linesBetween(one, other) {
  const [here, there] = [one, other].map((step) => new Set(linesOf(step)));
  return [...[...here].filter((line) => !there.has(line)), ...[...there].filter((line) => !here.has(line))];
}

// The lines of a kind, the tab that shows it, what a line is about, and what several are.
/** @type {{ pattern: RegExp, tab: import('./commands.js').Tab | '', nameOf: (titled: Titled, place: string, direction: string) => string, several: string }[]} */
const KINDS = [
  { pattern: /^kept note (\d+ \d+) (\w+)/, tab: 'clues', nameOf: (titled, ...place) => `the note on ${titled(...place)}`, several: 'notes' },
  { pattern: /^kept comment (\d+ \d+) (\w+)/, tab: 'clues', nameOf: (titled, ...place) => `the comments on ${titled(...place)}`, several: 'comments' },
  { pattern: /^(?:text|more|written|kept(?= (?:link|clue))) (?:clue|link) (\d+ \d+) (\w+)/, tab: 'clues', nameOf: (titled, ...place) => `the clue of ${titled(...place)}`, several: 'clues' },
  { pattern: /^(?:text|more|written|kept) (?:clue|link|note|comment) (\d+ \d+) (\w+)/, tab: 'clues', nameOf: (titled, ...place) => titled(...place), several: 'clues and notes' },
  { pattern: /^(?:text|more|kept(?! (?:colour|note|comment|link|clue) )) (\w+)/, tab: 'puzzle', nameOf: (_, field) => `the ${field}`, several: 'texts' },
  { pattern: /^(?:add|strike) (\w+)/, tab: 'puzzle', nameOf: (_, word) => `${word} in the words of this puzzle`, several: 'words of this puzzle' },
  { pattern: /^sym /, tab: '', nameOf: () => 'the symmetry', several: '' },
];

// What lies between two steps, and the tab that shows it; null if some of it is in the grid.
/**
 * @param {Step} one
 * @param {Step} other
 * @param {Titled} titled
 */
export function changeBeside(one, other, titled) {
  const lines = linesBetween(one, other);
  const kind = KINDS.find(({ pattern }) => lines.length && lines.every((line) => pattern.test(line)));
  if (!kind || one.puzzle !== other.puzzle) return null;
  const names = new Set(lines.map((line) => {
    const [, place = '', direction = ''] = kind.pattern.exec(line) ?? [];
    return kind.nameOf(titled, place, direction);
  }));
  return { tab: kind.tab, text: names.size === 1 ? [...names][0] : `${names.size} ${kind.several}` };
}
