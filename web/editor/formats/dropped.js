// What a file has that the page does not keep, each in a few words.
import { keptRebus } from '../model/rebus.js';
import { rebusOf, sectionsOf } from './puz-sections.js';

const HEADER = 0x34;
const CIRCLE = 0x80;
// the sections of a .puz that are kept, or told with others
export const TOLD = new Set(['GEXT', 'GRBS', 'RTBL', 'RUSR', 'LTIM']);

// A text of a file as a message has it, which is not long.
/** @param {string} text */
export const shortened = (text) => (text.length > 20 ? `${text.slice(0, 19)}…` : text);

// Cells with several characters that are not all letters are told with the letters that are in their places.
/** @param {{ row: number, column: number, entry: string, letter: string }[]} cells */
export function rebusText(cells) {
  if (!cells.length) return [];
  const [{ row, column, entry, letter }] = cells;
  const place = `row ${row}, column ${column}`;
  const now = `${shortened(entry)} is ${letter} now`;
  return [cells.length === 1 ? `the rebus in ${place} (${now})` : `${cells.length} rebus cells (in ${place} ${now})`];
}

/**
 * @param {number} count
 * @param {string} one
 * @param {string} several
 */
export const countText = (count, one, several) => (count ? [count === 1 ? one : `${count} ${several}`] : []);

// Counts what is not kept, under the words for one and those for several.
export class Dropped {
  #counts = new Map();

  /** @param {string} one */
  add(one, several = one) {
    this.#counts.set(one, { several, count: (this.#counts.get(one)?.count ?? 0) + 1 });
  }

  get phrases() {
    return [...this.#counts].flatMap(([one, { several, count }]) => (several === one ? [one] : countText(count, one, several)));
  }
}

// Phrases as one: “a, b and c”.
/** @param {readonly string[]} phrases */
export const joinedText = (phrases) => [phrases.slice(0, -1).join(', '), ...phrases.slice(-1)].filter(Boolean).join(' and ');

// The first of some names, and how many more there are, as in “1 Across, 2 Down and 3 more”.
/**
 * @param {readonly string[]} names
 * @param {number} most
 */
export const namesText = (names, most) => joinedText(names.length > most ? [...names.slice(0, most), `${names.length - most} more`] : names);

// What a .puz has.
/** @param {Uint8Array} bytes */
export function droppedOfPuz(bytes, sections = sectionsOf(bytes)) {
  const [width, height] = [bytes[0x2c], bytes[0x2d]];
  const size = width * height;
  const state = bytes.subarray(HEADER + size, HEADER + 2 * size);
  const marks = [...(sections.get('GEXT') ?? [])].filter((mark) => mark & ~CIRCLE).length;
  return [
    ...rebusText(keptRebus(rebusOf(bytes, sections)).others),
    ...countText([...state].filter((entry) => !'-.\0'.includes(String.fromCharCode(entry))).length, 'a letter of a solver', 'letters of a solver'),
    ...countText(marks, 'the mark of a cell', 'marks of cells'),
    ...(sections.has('LTIM') ? ['the timer'] : []),
    ...[...sections.keys()].filter((name) => !TOLD.has(name)).map((name) => `the section ${name}`),
  ];
}
