// What the engine tells, as the page has it. The answers themselves are read by the package (`ask` of xw.js), in the worker.

/** @typedef {import('../../xw.js').Answers} Answers what each command answers */
/** @typedef {Answers['lights'][number]} ToldLight a light with its first cell and its letters, where `.` is an empty cell */
/** @typedef {'across' | 'down'} Direction */

// A light by its name, `N DIR`.
/** @param {string} name */
export function named(name) {
  const [number, direction] = name.split(' ');
  return { name, number, direction: /** @type {Direction} */ (direction) };
}

// Whether a light is wholly entered.
/** @param {ToldLight} light */
export const isWhole = ({ letters }) => !letters.includes('.');

// The cells of a light: their coordinates, as commands have them, and their letters.
/** @param {ToldLight} light */
export function cellsOf({ light, row, column, letters }) {
  const [down, right] = named(light).direction === 'down' ? [1, 0] : [0, 1];
  return Array.from(letters, (letter, at) => ({ coordinates: `${row + down * at} ${column + right * at}`, letter }));
}

// The grid that `show` tells: its size, and the cells in reading order. A line with `=` has the bars below the row before it.
/** @param {string[]} lines */
export function gridIn(lines) {
  const isOfBars = (/** @type {string} */ line) => line.includes('=');
  const rows = lines.filter((line) => !isOfBars(line));
  const width = (rows[0].length + 1) / 2;
  const cells = [];
  for (const line of lines) {
    if (isOfBars(line)) for (let at = 0; at < width; at++) cells[cells.length - width + at].below = line[2 * at] === '=';
    else for (let at = 0; at < width; at++) cells.push(cellIn(line[2 * at], line[2 * at + 1]));
  }
  return { width, height: rows.length, cells };
}

/**
 * @param {string} entry
 * @param {string} after
 */
const cellIn = (entry, after) => ({ block: entry === '#', letter: /[A-Z]/.test(entry) ? entry : '', right: after === '|', below: false });

// Many words as one text, which is posted to the page faster than a list.
/** @param {string[]} list */
export const packed = (list) => list.join('\n');

/** @param {string} text */
export const unpacked = (text) => (text ? text.split('\n') : []);
