// The images of cells under the symmetries of a grid. Cells are numbers in reading order, from 0.

/** @typedef {'none' | 'half' | 'quarter' | 'leftright' | 'updown'} Symmetry */

// Where a row and a column go, in a grid whose last row and last column have these numbers; the identity is left out. Only a square has a quarter turn.
/** @type {Record<Symmetry, ((row: number, column: number, bottom: number, right: number) => [number, number])[]>} */
const TURNS = {
  none: [],
  half: [(row, column, bottom, right) => [bottom - row, right - column]],
  quarter: [(row, column, bottom) => [column, bottom - row], (row, column, bottom) => [bottom - row, bottom - column], (row, column, bottom) => [bottom - column, row]],
  leftright: [(row, column, bottom, right) => [row, right - column]],
  updown: [(row, column, bottom) => [bottom - row, column]],
};

// What a symmetry does to cells.
export class Turns {
  // for each turn the image of each cell
  #maps;

  /**
   * @param {Symmetry} sym
   * @param {number} width
   * @param {number} height
   */
  constructor(sym, width, height = width) {
    this.isQuarter = sym === 'quarter';
    const cells = Array.from({ length: width * height }, (_, cell) => cell);
    this.#maps = TURNS[sym].map((turn) => cells.map((cell) => {
      const [row, column] = turn(Math.floor(cell / width), cell % width, height - 1, width - 1);
      return row * width + column;
    }));
  }

  // A cell and its images, each once.
  /**
   * @param {number} cell
   * @returns {number[]}
   */
  orbit(cell) {
    return [...new Set([cell, ...this.#maps.map((map) => map[cell])])];
  }

  // A run of cells and its images, each once and in reading order.
  /**
   * @param {readonly number[]} cells
   * @returns {number[][]}
   */
  runs(cells) {
    const images = [[...cells], ...this.#maps.map((map) => cells.map((cell) => map[cell]).sort((a, b) => a - b))];
    return [...new Map(images.map((run) => [run.join(), run])).values()];
  }
}
