// Blocks that a grid could have more: which cells and their images, and what is found of each.
import { byFigures } from '../model/grades.js';
import { isBritishGrid } from '../model/terms.js';
import { Turns } from './symmetry.js';

// Cells that become blocks together, by index; none is the grid as it is. No fill is at the grade `bound`; `logs` tells how many words the lights have; and
// `figures` those of the best fill that a short search found, if it was looked for.
/** @typedef {{ cells: number[], bound: number, logs: number, isFilled: boolean, figures: ReturnType<typeof import('../model/grades.js').figuresOf> }} Move */

// The cells that could be blocks with their images, each set once: they have no letters but in pencil, all lights stay three letters long, and what was
// connected stays so. There are none in a grid with bars.
/**
 * @param {import('../model/board.js').Board} board
 * @param {import('./symmetry.js').Symmetry} sym
 * @param {ReadonlySet<string>} pencil
 * @returns {number[][]}
 */
export function movesIn(board, sym, pencil) {
  const { width, height, cells } = board;
  if (cells.some(({ right, below }) => right || below)) return [];
  const turns = new Turns(sym, width, height);
  /** @param {number} index */
  const isFree = (index) => !cells[index].block && (!cells[index].letter || pencil.has(cells[index].coordinates));
  const orbits = [...cells.keys()].map((index) => turns.orbit(index)).filter((orbit, index) => Math.min(...orbit) === index && orbit.every(isFree));
  const isBritish = isBritishGrid(board);
  const parts = partsWithout(board, []);
  return orbits.filter((orbit) => roomsBeside(board, orbit).every((room) => room === 0 || room > 2 || (room === 1 && isBritish)) && partsWithout(board, orbit) <= parts);
}

// How many open cells there are on each side of cells that become blocks, up to the next block.
/**
 * @param {import('../model/board.js').Board} board
 * @param {number[]} shut
 */
function roomsBeside({ width, height, cells }, shut) {
  /**
   * @param {number} row
   * @param {number} column
   */
  const isOpen = (row, column) => row >= 0 && column >= 0 && row < height && column < width && !cells[row * width + column].block && !shut.includes(row * width + column);
  /**
   * @param {number} index
   * @param {number} down
   * @param {number} right
   */
  const roomFrom = (index, down, right) => {
    let room = 0;
    while (isOpen(Math.floor(index / width) + (room + 1) * down, (index % width) + (room + 1) * right)) room++;
    return room;
  };
  return shut.flatMap((index) => [[0, 1], [0, -1], [1, 0], [-1, 0]].map(([down, right]) => roomFrom(index, down, right)));
}

// In how many parts the open cells are, if some more are blocks.
/**
 * @param {import('../model/board.js').Board} board
 * @param {number[]} shut
 */
function partsWithout({ width, cells }, shut) {
  /** @type {Set<number>} */
  const left = new Set([...cells.keys()].filter((index) => !cells[index].block && !shut.includes(index)));
  let parts = 0;
  for (; left.size; parts++) {
    const [first] = left;
    const part = new Set([first]);
    for (const one of part) {
      left.delete(one);
      const sides = [one - width, one + width, ...(one % width ? [one - 1] : []), ...((one + 1) % width ? [one + 1] : [])];
      for (const next of sides) if (left.has(next)) part.add(next);
    }
  }
  return parts;
}

// Orders moves: the better the fills that may be, the earlier; then by the words that the lights have.
/**
 * @param {Move} one
 * @param {Move} other
 */
export const byBound = (one, other) => other.bound - one.bound || other.logs - one.logs;

// Orders moves that were looked at closely: those that fill come first, the best words first.
/**
 * @param {Move} one
 * @param {Move} other
 */
export const byFill = (one, other) => Number(other.isFilled) - Number(one.isFilled) || byFigures(one, other) || byBound(one, other);
