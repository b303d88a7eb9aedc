// A grid in a border of one cell on each side, so that each of its cells has four neighbours. Cells are numbers here that count the border too.
import { Turns } from './symmetry.js';

// Cells side by side in a row or, if it reads down, in a column: the number of that line, the first cell in it, and how many there are.
/** @typedef {{ isDown: boolean, line: number, from: number, length: number }} Run */

export class Frame {
  /** @type {Turns} */
  #turns;

  /**
   * @param {number} width
   * @param {number} height
   * @param {import('./symmetry.js').Symmetry} sym
   */
  constructor(width, height, sym) {
    this.width = width;
    this.height = height;
    this.sym = sym;
    // the step down
    this.stride = width + 2;
    // how many numbers cells have
    this.room = this.stride * (height + 2);
    this.#turns = new Turns(sym, width, height);
    this.rows = Int32Array.from({ length: this.room }, (_, cell) => Math.floor(cell / this.stride) - 1);
    this.columns = Int32Array.from({ length: this.room }, (_, cell) => (cell % this.stride) - 1);
    /** @type {number[][]} the cells that are blocks together */
    this.orbits = [];
    /** @type {(number[] | undefined)[]} the orbit of each cell; those of the border have none */
    this.orbitOf = new Array(this.room);
    for (let number = 0; number < width * height; number++) if (!this.orbitOf[this.#numbered(number)]) this.#addOrbit(number);
  }

  /** @param {number} number */
  #addOrbit(number) {
    const orbit = this.#turns.orbit(number).map((one) => this.#numbered(one));
    this.orbits.push(orbit);
    for (const cell of orbit) this.orbitOf[cell] = orbit;
  }

  /**
   * @param {number} row
   * @param {number} column
   */
  cell(row, column) {
    return (row + 1) * this.stride + column + 1;
  }

  // The cell of a number in reading order, and back.
  /** @param {number} number */
  #numbered(number) {
    return this.cell(Math.floor(number / this.width), number % this.width);
  }

  /** @param {number} cell */
  numberOf(cell) {
    return this.rows[cell] * this.width + this.columns[cell];
  }

  // The cells of a run.
  /**
   * @param {Run} run
   * @returns {number[]}
   */
  cellsOf({ isDown, line, from, length }) {
    const [first, step] = isDown ? [this.cell(from, line), this.stride] : [this.cell(line, from), 1];
    return Array.from({ length }, (_, at) => first + at * step);
  }

  // The other images of a run.
  /**
   * @param {Run} run
   * @returns {Run[]}
   */
  images(run) {
    const [, ...images] = this.#turns.runs(this.cellsOf(run).map((cell) => this.numberOf(cell)));
    return images.map(([first, second]) => {
      const [row, column] = [Math.floor(first / this.width), first % this.width];
      return second === first + 1 ? { isDown: false, line: row, from: column, length: run.length } : { isDown: true, line: column, from: row, length: run.length };
    });
  }
}
