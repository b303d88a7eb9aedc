// Barred grids by the usual British rules: no light under four letters, or three where it cannot be helped; every cell is in a light; a light of
// N letters has at most N / 2 - 1 unchecked ones, rounded down, and no two of them side by side; all cells connect. The bars are found by
// toggling them at random, with their images, and keeping what lowers a cost.
import { randoms } from '../model/random.js';

const STEPS = 14000;
// the heat at the beginning and at the end: a change that costs as much more is kept once in 2.7 times
const [HOT, COLD] = [6, 0.25];
// the most letters of a light, other than of a theme entry, and the mean length of lights
const LONGEST = 9;
const MEAN = 6.4;

// What breaks a rule, and what is only unusual.
const COST = { short: 40, unchecked: 12, pair: 12, alone: 40, three: 5, long: 2, checked: 1.5, count: 1 };

/** @typedef {{ size: number, turns: import('./symmetry.js').Turns, open: Set<number>, closed: Set<number> }} BarredPlan */

// Edges are numbers: twice the cell, for the edge to its right, and one more for the edge below it.
export const edgeAfter = (/** @type {number} */ cell, /** @type {boolean} */ isDown) => 2 * cell + (isDown ? 1 : 0);

class BarredGrid {
  /**
   * @param {BarredPlan} plan
   * @param {() => number} random
   */
  constructor({ size, turns, open, closed }, random) {
    this.turns = turns;
    this.random = random;
    this.size = size;
    this.bars = new Uint8Array(2 * size ** 2);
    this.lights = 0;
    for (const edge of closed) this.bars[edge] = 1;
    const isFree = (/** @type {number[]} */ edges) => edges.every((edge) => !open.has(edge) && !closed.has(edge));
    // the edges that are toggled together
    this.orbits = this.#edges().map((edge) => this.#orbit(edge)).filter(([first, ...others]) => others.every((edge) => edge > first)).filter(isFree);
    for (const orbit of this.orbits) if (random() < 0.25) for (const edge of orbit) this.bars[edge] = 1;
    this.costs = [0, 1].map((down) => Float64Array.from({ length: size }, (_, at) => this.#costOf(down, at)));
    this.counts = [0, 1].map((down) => Int32Array.from({ length: size }, (_, at) => this.#lightsIn(down, at)));
    this.target = Math.round((2 * size ** 2 * 0.86) / MEAN);
    this.lights = this.counts[0].reduce((sum, one) => sum + one, 0) + this.counts[1].reduce((sum, one) => sum + one, 0);
  }

  #edges() {
    const { size } = this;
    const cells = Array.from({ length: size ** 2 }, (_, cell) => cell);
    return cells.flatMap((cell) => [...(cell % size < size - 1 ? [2 * cell] : []), ...(cell < size * (size - 1) ? [2 * cell + 1] : [])]);
  }

  // An edge lies between two cells, and so do its images.
  /** @param {number} edge */
  #orbit(edge) {
    const cell = edge >> 1;
    const other = edge & 1 ? cell + this.size : cell + 1;
    return this.turns.runs([cell, other]).map(([first, second]) => 2 * first + (second === first + 1 ? 0 : 1));
  }

  // Whether a bar or the border is before a cell and after it, across (0) or down (1).
  /**
   * @param {number} cell
   * @param {number} down
   */
  #isAlone(cell, down) {
    const { size, bars } = this;
    const [at, step] = down ? [Math.floor(cell / size), size] : [cell % size, 1];
    return (at === 0 || bars[2 * (cell - step) + down] === 1) && (at === size - 1 || bars[2 * cell + down] === 1);
  }

  /**
   * @param {number} down
   * @param {number} at
   */
  #lightsIn(down, at) {
    let lights = 0;
    this.#eachRun(down, at, (_, length) => {
      if (length > 1) lights++;
    });
    return lights;
  }

  // Tells the first cell and the length of each run of a row or a column.
  /**
   * @param {number} down
   * @param {number} at
   * @param {(first: number, length: number) => void} tell
   */
  #eachRun(down, at, tell) {
    const { size, bars } = this;
    const step = down ? size : 1;
    const begin = down ? at : at * size;
    let [first, length] = [begin, 0];
    for (let along = 0; along < size; along++) {
      const cell = begin + along * step;
      length++;
      if (along < size - 1 && !bars[2 * cell + down]) continue;
      tell(first, length);
      [first, length] = [cell + step, 0];
    }
  }

  /**
   * @param {number} down
   * @param {number} at
   */
  #costOf(down, at) {
    let cost = 0;
    this.#eachRun(down, at, (first, length) => {
      cost += this.#faultOf(first, length, down) + unusual(length);
    });
    return cost;
  }

  // What the faults of a run cost: two letters, a cell in no light, and too many unchecked letters, or two side by side.
  /**
   * @param {number} first
   * @param {number} length
   * @param {number} down
   */
  #faultOf(first, length, down) {
    if (length === 1) return this.#isAlone(first, 1 - down) ? COST.alone : 0;
    const step = down ? this.size : 1;
    let [unchecked, pairs, wasAlone] = [0, 0, false];
    for (let at = 0; at < length; at++) {
      const isAlone = this.#isAlone(first + at * step, 1 - down);
      if (isAlone) unchecked++;
      if (isAlone && wasAlone) pairs++;
      wasAlone = isAlone;
    }
    const isFull = length > 4 && unchecked === 0;
    return (length === 2 ? COST.short : 0) + COST.pair * pairs + COST.unchecked * Math.max(0, unchecked - mostUnchecked(length)) + (isFull ? COST.checked : 0);
  }

  // The rows and columns whose cost an edge is part of.
  /** @param {number} edge */
  #linesOf(edge) {
    const { size } = this;
    const [cell, down] = [edge >> 1, edge & 1];
    const [row, column] = [Math.floor(cell / size), cell % size];
    return down ? [[1, column], [0, row], [0, row + 1]] : [[0, row], [1, column], [1, column + 1]];
  }

  // Toggles edges, and undoes that if it costs too much.
  /**
   * @param {number[]} orbit
   * @param {number} heat
   */
  #try(orbit, heat) {
    const lines = [...new Map(orbit.flatMap((edge) => this.#linesOf(edge)).map((line) => [line[0] * this.size + line[1], line])).values()];
    for (const edge of orbit) this.bars[edge] ^= 1;
    const after = lines.map(([down, at]) => [this.#costOf(down, at), this.#lightsIn(down, at)]);
    let [change, lights] = [0, this.lights];
    lines.forEach(([down, at], index) => {
      change += after[index][0] - this.costs[down][at];
      lights += after[index][1] - this.counts[down][at];
    });
    change += COST.count * (Math.abs(lights - this.target) - Math.abs(this.lights - this.target));
    if (change > 0 && this.random() >= Math.exp(-change / heat)) {
      for (const edge of orbit) this.bars[edge] ^= 1;
      return;
    }
    lines.forEach(([down, at], index) => {
      [this.costs[down][at], this.counts[down][at]] = after[index];
    });
    this.lights = lights;
  }

  settle() {
    if (!this.orbits.length) return;
    for (let step = 0; step < STEPS; step++) {
      const heat = HOT * (COLD / HOT) ** (step / STEPS);
      this.#try(this.orbits[Math.floor(this.random() * this.orbits.length)], heat);
    }
  }

  // Whether no light breaks a rule.
  get isUsual() {
    let isKept = this.isConnected;
    for (const down of [0, 1]) {
      for (let at = 0; at < this.size; at++) this.#eachRun(down, at, (first, length) => {
        isKept &&= this.#faultOf(first, length, down) < COST.unchecked;
      });
    }
    return isKept;
  }

  // Whether lights lead from each cell to each other.
  get isConnected() {
    const { size, bars } = this;
    const seen = new Set([0]);
    for (const cell of seen) {
      if (cell % size < size - 1 && !bars[2 * cell]) seen.add(cell + 1);
      if (cell % size > 0 && !bars[2 * (cell - 1)]) seen.add(cell - 1);
      if (cell < size * (size - 1) && !bars[2 * cell + 1]) seen.add(cell + size);
      if (cell >= size && !bars[2 * (cell - size) + 1]) seen.add(cell - size);
    }
    return seen.size === size ** 2;
  }
}

// What a light costs by its length.
const unusual = (/** @type {number} */ length) => (length === 3 ? COST.three : 0) + COST.long * Math.max(0, length - LONGEST);

// The most unchecked letters that a light in a barred grid usually has.
export const mostUnchecked = (/** @type {number} */ length) => Math.max(0, Math.floor((length - 2) / 2));

// The bars of a grid, as edges; null if none were found that keep the rules. The plan says which edges stay open, and which are bars.
/**
 * @param {BarredPlan} plan
 * @param {number} seed
 * @returns {Set<number> | null}
 */
export function barredGrid(plan, seed) {
  const grid = new BarredGrid(plan, randoms(seed));
  grid.settle();
  return grid.isUsual ? new Set([...grid.bars.keys()].filter((edge) => grid.bars[edge])) : null;
}
