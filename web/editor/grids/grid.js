// What a new grid is, what a setter wants of it, which ones are alike, and how it gets into a record.

// the cells by which grids differ, in a grid of 225 cells
const APART = 12;
const USUAL_SIZE = 225;

/** @typedef {'american' | 'british' | 'barred'} Style */
/** @typedef {import('./symmetry.js').Symmetry} Symmetry */
/**
 * @typedef {object} Wanted
 * @property {Style} style
 * @property {number} width
 * @property {number} height
 * @property {Symmetry} sym
 * @property {string[]} entries theme entries, in capitals
 * @property {string[]} seeds entries that stand anywhere
 * @property {import('./outlets.js').Limits} limits
 */
// Cells are numbers in reading order, a light is a list of cells, and bars are edges as barred.js has them. The lower the cost, the better.
/**
 * @typedef {object} Grid
 * @property {number} width
 * @property {number} height
 * @property {Symmetry} sym
 * @property {Set<number>} blocks
 * @property {Set<number>} bars
 * @property {Map<number, string>} letters
 * @property {number[][]} lights
 * @property {number} cost
 */
// A board that is no grid, and what it has too much of.
/** @typedef {{ grid: Grid, faults: string[] }} Miss */

// Throws what keeps entries from standing in a grid.
/** @param {Wanted} wanted */
export function checkWanted({ style, width, height, sym, entries, seeds }) {
  const [longest, all] = [Math.max(width, height), [...entries, ...seeds]];
  const short = all.find((entry) => entry.length < 3);
  if (short) throw new Error(`${short} is too short`);
  const long = all.find((entry) => entry.length > longest);
  if (long) throw new Error(`${long} is too long for a grid of ${longest}`);
  if (style !== 'american' && width !== height) throw new Error('a British grid is made with as many rows as columns');
  if (style === 'british' && width % 2 === 0) throw new Error('a lattice has an odd number of rows');
  if (sym === 'quarter' && width !== height) throw new Error('a quarter turn needs as many rows as columns');
  if (sym === 'half') checkPairs(style === 'american' ? entries : all, width, height, style === 'american');
}

// Throws what keeps entries from standing under a half turn.
/**
 * @param {string[]} entries
 * @param {number} width
 * @param {number} height
 * @param {boolean} hasSeeds
 */
function checkPairs(entries, width, height, hasSeeds) {
  const left = [...entries].sort((a, b) => b.length - a.length);
  /** @type {string[]} */
  const alone = [];
  for (let entry = left.shift(); entry !== undefined; entry = left.shift()) {
    if (left[0]?.length === entry.length) left.shift();
    else alone.push(entry);
  }
  const others = hasSeeds ? '; a seed stands anywhere' : '';
  if (alone.length > 1) throw new Error(`${alone.slice(0, 2).join(' and ')} have no partner of the same length: under a half turn one entry at most stands alone, in the middle${others}`);
  if (!alone.length) return;
  // a middle has as many cells as its row or column, or two, four and so on less, and there is one if the number of lines is odd
  const isMiddle = (/** @type {number} */ room, /** @type {number} */ lines) => lines % 2 === 1 && alone[0].length <= room && alone[0].length % 2 === room % 2;
  if (isMiddle(width, height) || isMiddle(height, width)) return;
  const isSquare = width === height && width % 2 === 1;
  throw new Error(`${alone[0]} cannot stand in the middle${isSquare ? ': its length is not odd' : ''}${others}`);
}

// The lights of a grid that cross entries, with a dot for each cell without a letter, those with the most letters first.
/** @param {Grid} grid */
export function crossingPatterns({ lights, letters }) {
  const patterns = lights.map((light) => light.map((cell) => letters.get(cell) ?? '.').join('')).filter((pattern) => /[A-Z]/.test(pattern) && pattern.includes('.'));
  const known = (/** @type {string} */ pattern) => pattern.replaceAll('.', '').length;
  return patterns.sort((a, b) => known(b) - known(a));
}

// In how many blocks and bars two grids differ.
/**
 * @param {Grid} one
 * @param {Grid} other
 */
function difference(one, other) {
  const without = (/** @type {Set<number>} */ some, /** @type {Set<number>} */ others) => [...some].filter((each) => !others.has(each)).length;
  return without(one.blocks, other.blocks) + without(other.blocks, one.blocks) + without(one.bars, other.bars) + without(other.bars, one.bars);
}

// Whether two grids differ in few cells. A small grid has few that are not like it.
/**
 * @param {Grid} one
 * @param {Grid} other
 */
export function areAlike(one, other) {
  const size = Math.min(one.width * one.height, USUAL_SIZE);
  return difference(one, other) < Math.max(1, Math.floor((APART * size) / USUAL_SIZE));
}

export const threesOf = (/** @type {Grid} */ { lights }) => lights.filter(({ length }) => length === 3).length;

// The lines of a grid in a record.
/** @param {Grid} grid */
export function linesOf({ width, height, sym, blocks, bars, letters }) {
  const at = (/** @type {number} */ cell) => `${Math.floor(cell / width) + 1} ${(cell % width) + 1}`;
  return [
    `size ${width} ${height}`, ...[...bars].map((edge) => `bar ${at(edge >> 1)} ${edge & 1 ? 'below' : 'right'}`), ...[...blocks].map((cell) => `block ${at(cell)}`),
    `sym ${sym}`, ...[...letters].map(([cell, letter]) => `set ${at(cell)} ${letter}`),
  ];
}

export const recordOfGrid = (/** @type {Grid} */ grid) => `${linesOf(grid).join('\n')}\n`;
