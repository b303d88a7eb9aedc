// British lattices by the usual rules, around entries that have their places: they have blocks in every other cell of every other row.
import { shuffled } from '../model/random.js';

// the most cells of a light that is no theme entry, and the most blocks, as a part of the cells
const LONGEST_LIGHT = 10;
const MOST_BLOCKS = 0.42;
// the most cells of a light, side by side, that no other light crosses
const MOST_UNCHECKED = 2;
const MOST_PARTINGS = 60;

export class Lattice {
  /**
   * @param {number} size
   * @param {import('./symmetry.js').Turns} turns
   * @param {number[]} parities those of the rows and of the columns that have the blocks
   */
  constructor(size, turns, [top, left]) {
    this.size = size;
    this.turns = turns;
    this.parities = [top, left];
    /** @type {Set<number>} */
    this.blocks = new Set();
    // cells of the places of entries, which stay open
    /** @type {Set<number>} */
    this.held = new Set();
    // the places of entries, as the names of their runs
    /** @type {Set<string>} */
    this.places = new Set();
    for (let row = top; row < size; row += 2) for (let column = left; column < size; column += 2) this.blocks.add(row * size + column);
  }

  /** @returns {Lattice} */
  copy() {
    const other = new Lattice(this.size, this.turns, this.parities);
    other.blocks = new Set(this.blocks);
    other.held = this.held;
    other.places = this.places;
    return other;
  }

  // Keeps runs of cells open, with blocks at their ends; returns whether they could.
  /** @param {number[][]} runs */
  hold(runs) {
    const { size } = this;
    const ends = [];
    for (const run of runs) {
      const isDown = run[1] !== run[0] + 1;
      const [step, at] = isDown ? [size, Math.floor(run[0] / size)] : [1, run[0] % size];
      this.places.add(run.join());
      for (const cell of run) {
        this.held.add(cell);
        this.blocks.delete(cell);
      }
      if (at > 0) ends.push(run[0] - step);
      if (at + run.length < size) ends.push(run[run.length - 1] + step);
    }
    return ends.every((cell) => this.block(cell));
  }

  // Puts blocks into a cell and its images; returns whether no entry is in the way.
  /** @param {number} cell */
  block(cell) {
    const orbit = this.turns.orbit(cell);
    if (orbit.some((one) => this.held.has(one))) return false;
    for (const one of orbit) this.blocks.add(one);
    return true;
  }

  // The runs of cells without blocks, as lists of cells, across and down.
  /** @returns {number[][]} */
  get runs() {
    const runs = [];
    const { size } = this;
    for (const [line, step] of [[size, 1], [1, size]]) {
      for (let at = 0; at < size; at++) {
        /** @type {number[]} */
        let run = [];
        for (let along = 0; along <= size; along++) {
          const cell = at * line + along * step;
          if (along < size && !this.blocks.has(cell)) run.push(cell);
          else if (run.length) [run] = [[], runs.push(run)];
        }
      }
    }
    return runs;
  }

  // Blocks what is too short for a light; returns whether all runs are long enough then.
  mend() {
    for (let round = 0; round < this.size; round++) {
      const short = this.runs.filter(({ length }) => length === 2);
      if (!short.length) return this.#isConnected;
      if (!short.every((run) => run.every((cell) => this.block(cell)))) return false;
    }
    return false;
  }

  get #isConnected() {
    const { size, blocks } = this;
    const open = Array.from({ length: size ** 2 }, (_, cell) => cell).filter((cell) => !blocks.has(cell));
    const seen = new Set(open.slice(0, 1));
    for (const cell of seen) for (const next of this.#beside(cell)) if (!blocks.has(next)) seen.add(next);
    return open.length > 0 && seen.size === open.length;
  }

  /** @param {number} cell */
  #beside(cell) {
    const { size } = this;
    const column = cell % size;
    const sides = [[column > 0, cell - 1], [column < size - 1, cell + 1], [cell >= size, cell - size], [cell < size * (size - 1), cell + size]];
    return sides.flatMap(([isThere, one]) => (isThere ? [Number(one)] : []));
  }

  get lights() {
    return this.runs.filter((run) => run.length > 1);
  }

  // Parts the longest lights with blocks until none is too long; returns the lattice, or null.
  /**
   * @param {() => number} random
   * @returns {Lattice | null}
   */
  parted(random) {
    /** @type {Lattice} */
    let lattice = this;
    for (let round = 0; round < MOST_PARTINGS; round++) {
      const [long] = lattice.#longLights;
      if (!long) return lattice.#isChecked ? lattice : null;
      const parted = lattice.#part(long, random);
      if (!parted) return null;
      lattice = parted;
    }
    return null;
  }

  // The lights that are too long and are no places of entries, the longest first.
  get #longLights() {
    return this.lights.filter((run) => run.length > LONGEST_LIGHT && !this.places.has(run.join())).sort((a, b) => b.length - a.length);
  }

  /**
   * @param {number[]} run
   * @param {() => number} random
   */
  #part(run, random) {
    for (const cell of shuffled(run.slice(3, -3), random)) {
      const other = this.copy();
      if (other.block(cell) && other.mend() && other.isUsual) return other;
    }
    return null;
  }

  get isUsual() {
    return this.blocks.size <= MOST_BLOCKS * this.size ** 2;
  }

  // Whether half of the cells of each light are checked, but for one, and no three unchecked ones stand side by side.
  get #isChecked() {
    const crossed = new Map();
    for (const run of this.lights) for (const cell of run) crossed.set(cell, (crossed.get(cell) ?? 0) + 1);
    return this.lights.every((run) => {
      const isChecked = run.map((cell) => crossed.get(cell) === 2);
      const runs = isChecked.map((one) => (one ? 'c' : 'u')).join('').split('c');
      return 2 * isChecked.filter(Boolean).length >= run.length - 1 && runs.every((unchecked) => unchecked.length <= MOST_UNCHECKED);
    });
  }
}
