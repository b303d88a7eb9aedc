// Blocks around entries that have their places. Rows and columns are sets of bits, so that a board is judged anew at each move, in a microsecond or two.
import { shortIn, stretches } from './bits.js';

/** @typedef {{ word: string, run: number[] }} Place an entry and its cells; `word` is empty for a light that has no letters yet */

// what cells are that do not change
export const [OPEN, SHUT] = [1, 2];
// the most orbits that change in one move
const MOST_CHANGED = 5;

export class Board {
  /** @param {import('./frame.js').Frame} frame */
  constructor(frame) {
    this.frame = frame;
    this.fixed = new Uint8Array(frame.room);
    // the letters of entries, A being 0, and -1 for none
    this.letters = new Int8Array(frame.room);
    // rows, and columns
    this.lines = [new Int32Array(frame.height), new Int32Array(frame.width)];
    // the bits of the cells of a line, and of the border
    this.inner = [(2 << frame.width) - 2, (2 << frame.height) - 2];
    this.borders = [1 | (2 << frame.width), 1 | (2 << frame.height)];
    /** @type {Place[]} */
    this.places = [];
  }

  // Empties the board and puts entries into it, and blocks into cells and their images. Returns the orbits that may change, or null if these leave no
  // lawful board.
  /**
   * @param {Place[]} places
   * @param {number[]} shut
   * @returns {number[][] | null}
   */
  hold(places, shut = []) {
    const { fixed, letters } = this;
    this.places = places;
    fixed.fill(0);
    letters.fill(-1);
    for (const isDown of [0, 1]) this.lines[isDown].fill(this.borders[isDown]);
    for (const { word, run } of places) {
      run.forEach((cell, at) => {
        fixed[cell] = OPEN;
        if (word) letters[cell] = word.charCodeAt(at) - 65;
      });
    }
    const ends = places.flatMap(({ run }) => [2 * run[0] - run[1], 2 * run[run.length - 1] - run[run.length - 2]]);
    if (![...ends, ...shut].every((cell) => this.#force(cell)) || !this.#forceShort()) return null;
    return this.frame.orbits.filter(([cell]) => !fixed[cell]);
  }

  // Puts blocks where no light has room, which leaves others without; returns whether it could.
  #forceShort() {
    for (let short = this.#shortRuns(); short.length; short = this.#shortRuns()) if (!short.flat().every((cell) => this.#force(cell))) return false;
    return true;
  }

  #shortRuns() {
    return this.runs().filter(({ length }) => length < 3);
  }

  // Puts a block into a cell and its images for good, unless it is of the border; returns whether it could.
  /** @param {number} cell */
  #force(cell) {
    const { fixed } = this;
    const orbit = this.frame.orbitOf[cell];
    if (!orbit || fixed[cell] === SHUT) return true;
    if (orbit.some((one) => fixed[one])) return false;
    this.toggle(orbit);
    for (const one of orbit) fixed[one] = SHUT;
    return true;
  }

  /** @param {number} cell */
  isShut(cell) {
    return (this.lines[0][this.frame.rows[cell]] >> (this.frame.columns[cell] + 1)) & 1;
  }

  /** @param {readonly number[]} orbit */
  toggle(orbit) {
    const { rows, columns } = this.frame;
    const [across, down] = this.lines;
    for (let at = 0; at < orbit.length; at++) {
      const cell = orbit[at];
      across[rows[cell]] ^= 2 << columns[cell];
      down[columns[cell]] ^= 2 << rows[cell];
    }
  }

  // Changes orbits, or undoes that.
  /** @param {readonly number[][]} changed */
  undo(changed) {
    for (const orbit of changed) this.toggle(orbit);
  }

  // Changes an orbit, or shifts its block to a cell beside it, and then mends what is too short. Returns the orbits that changed; or null if the board
  // is as it was, since that takes too many.
  /**
   * @param {number[]} orbit
   * @param {() => number} random
   */
  change(orbit, random) {
    const changed = random() < 0.5 ? this.#shift(orbit, random) : [orbit];
    this.undo(changed);
    for (let short = this.#shortBy(changed); short; short = this.#shortBy(changed)) {
      const next = changed.length < MOST_CHANGED ? this.#mending(short, changed, random) : null;
      if (!next) {
        this.undo(changed);
        return null;
      }
      this.undo(next);
      changed.push(...next);
    }
    return changed;
  }

  // An orbit, and if it has blocks one beside it without, if that is free.
  /**
   * @param {number[]} orbit
   * @param {() => number} random
   */
  #shift(orbit, random) {
    const { frame: { orbitOf, stride }, fixed } = this;
    if (!this.isShut(orbit[0])) return [orbit];
    const beside = orbit[0] + [1, -1, stride, -stride][Math.floor(4 * random())];
    const other = orbitOf[beside];
    return !other || other === orbit || fixed[beside] || this.isShut(beside) ? [orbit] : [orbit, other];
  }

  // A run that is too short for a light, in a row or a column of changed cells; or null. If there is one, there is one with the first cell of an orbit.
  /** @param {readonly number[][]} changed */
  #shortBy(changed) {
    const { frame } = this;
    for (const [cell] of changed) {
      const [row, column] = [frame.rows[cell], frame.columns[cell]];
      const across = shortIn(this.lines[0][row], this.inner[0]);
      if (across) return { first: frame.cell(row, across.first), step: 1, length: across.length };
      const down = shortIn(this.lines[1][column], this.inner[1]);
      if (down) return { first: frame.cell(down.first, column), step: frame.stride, length: down.length };
    }
    return null;
  }

  // One of the ways to do away with a short run, as orbits: it becomes blocks, or a block at its end is opened. Or null. No orbit changes twice.
  /**
   * @param {{ first: number, step: number, length: number }} short
   * @param {number[][]} changed
   * @param {() => number} random
   * @returns {number[][] | null}
   */
  #mending({ first, step, length }, changed, random) {
    const { frame: { orbitOf }, fixed } = this;
    const last = first + (length - 1) * step;
    const isFree = (/** @type {number} */ cell) => orbitOf[cell] && !fixed[cell] && !changed.includes(orbitOf[cell] ?? []);
    // two of four ways fill the run
    const start = Math.floor(4 * random());
    for (let at = 0; at < 4; at++) {
      const way = (start + at) % 4;
      const ends = way < 2 ? [first, last] : way === 2 ? [first - step] : [last + step];
      if (ends.every(isFree)) return [...new Set(ends.flatMap((cell) => [orbitOf[cell] ?? []]))];
    }
    return null;
  }

  // The runs of open cells, across and then down.
  /** @returns {number[][]} */
  runs() {
    return [...this.lines[0].keys()].flatMap((row) => this.#runsIn(0, row)).concat([...this.lines[1].keys()].flatMap((column) => this.#runsIn(1, column)));
  }

  /**
   * @param {number} isDown
   * @param {number} line
   */
  #runsIn(isDown, line) {
    const { frame } = this;
    const [start, step, count] = isDown ? [frame.cell(0, line), frame.stride, frame.height] : [frame.cell(line, 0), 1, frame.width];
    return stretches(this.lines[isDown][line], count).map(({ first, length }) => Array.from({ length }, (_, at) => start + (first + at) * step));
  }
}
