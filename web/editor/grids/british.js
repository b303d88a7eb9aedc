// British grids around theme entries or without any: lattices with blocks, and barred grids. A seed makes each grid, or none.
import { randoms, shuffled } from '../model/random.js';
import { barredGrid, edgeAfter } from './barred.js';
import { crossingPatterns, threesOf } from './grid.js';
import { Lattice } from './lattice.js';
import { Turns } from './symmetry.js';

/** @typedef {import('./grid.js').Grid} Grid */
/** @typedef {import('./grid.js').Wanted} Wanted */

// the least room beside an entry, if there is some: a block and a light of three cells
const LEAST_ROOM = 4;
// how many of the entries may read down in a lattice
const DOWN = 0.1;

// The places of entries: runs of cells, with the images of each under the symmetry.
class Places {
  /**
   * @param {number} size
   * @param {boolean} isBarred
   * @param {Turns} turns
   * @param {() => number} random
   */
  constructor(size, isBarred, turns, random) {
    this.size = size;
    this.isBarred = isBarred;
    this.turns = turns;
    this.random = random;
    // as a rule a lattice has no blocks at the border; others give entries the middle row of some grids
    const parities = [1, random() < 0.5 ? 1 : 0];
    this.parities = random() < 0.5 ? [1, 1] : turns.isQuarter ? [parities[1], parities[1]] : shuffled(parities, random);
    // runs without an entry yet, and all runs, as lists of cells
    /** @type {number[][]} */
    this.free = [];
    /** @type {number[][]} */
    this.runs = [];
    /** @type {Map<number, string>} */
    this.letters = new Map();
  }

  // Gives a place to each entry; returns whether all have one, and none is left over.
  /** @param {string[]} entries */
  takes(entries) {
    return entries.every((word, at) => this.#take(word, entries.slice(at + 1).filter((other) => other.length === word.length).length));
  }

  // `partners` are as many later entries of the same length.
  /**
   * @param {string} word
   * @param {number} partners
   */
  #take(word, partners) {
    const free = this.free.find((run) => run.length === word.length && this.#fits(word, run));
    if (free) {
      this.free.splice(this.free.indexOf(free), 1);
      this.#enter(word, free);
      return true;
    }
    // as a rule entries of a lattice read across
    const isMixed = this.isBarred || this.turns.isQuarter || this.random() < DOWN;
    const down = isMixed ? [false, true] : [false];
    for (const run of shuffled(down.flatMap((isDown) => this.#possible(word.length, isDown)), this.random)) {
      const images = this.turns.runs(run);
      // other images than of a quarter turn are for other entries
      if (this.turns.isQuarter ? images.length > 4 : images.length - 1 > partners) continue;
      if (!this.#fits(word, run) || !images.every((image, at) => this.#isApart(image, images.slice(0, at)))) continue;
      this.free.push(...images.slice(1));
      this.runs.push(...images);
      this.#enter(word, run);
      return true;
    }
    return false;
  }

  /**
   * @param {string} word
   * @param {number[]} run
   */
  #fits(word, run) {
    return run.every((cell, at) => (this.letters.get(cell) ?? word[at]) === word[at]);
  }

  /**
   * @param {string} word
   * @param {number[]} run
   */
  #enter(word, run) {
    run.forEach((cell, at) => this.letters.set(cell, word[at]));
  }

  // The runs of a length in which entries may stand.
  /**
   * @param {number} length
   * @param {boolean} isDown
   */
  #possible(length, isDown) {
    const { size } = this;
    const runs = [];
    for (let line = 0; line < size; line++) {
      if (!this.isBarred && line % 2 === this.parities[isDown ? 1 : 0]) continue;
      for (let first = 0; first + length <= size; first++) {
        if (!this.#hasRoom(first, size - first - length, length)) continue;
        runs.push(Array.from({ length }, (_, at) => (isDown ? (first + at) * size + line : line * size + first + at)));
      }
    }
    return runs;
  }

  // Whether what is left on each side of an entry is nothing, or has room for a light. An entry that fits nowhere else stands at the border.
  /**
   * @param {number} before
   * @param {number} after
   * @param {number} length
   */
  #hasRoom(before, after, length) {
    if (this.isBarred) return true;
    if (length > this.size - LEAST_ROOM) return before === 0 || after === 0;
    return [before, after].every((room) => room === 0 || room >= LEAST_ROOM);
  }

  // Whether a run crosses the others, or has a row or column between itself and them.
  /**
   * @param {number[]} run
   * @param {number[][]} others
   */
  #isApart(run, others) {
    const cells = new Set(run);
    const isDown = run[1] !== run[0] + 1;
    const around = new Set(run.flatMap((cell) => (isDown ? [cell - 1, cell + 1] : [cell - this.size, cell + this.size])));
    const [before, after] = [run[0] - (run[1] - run[0]), lastOf(run) + (run[1] - run[0])];
    return [...this.runs, ...others].every((other) => {
      const otherDown = other[1] !== other[0] + 1;
      if (other.includes(before) || other.includes(after)) return false;
      return isDown === otherDown ? !other.some((cell) => cells.has(cell) || (!this.isBarred && around.has(cell))) : !isAtEnd(run, other) && !isAtEnd(other, run);
    });
  }
}

const lastOf = (/** @type {number[]} */ run) => run[run.length - 1];

// Whether the block at an end of a run would be in another one.
/**
 * @param {number[]} run
 * @param {number[]} other
 */
function isAtEnd(run, other) {
  const step = run[1] - run[0];
  return other.includes(run[0] - step) || other.includes(lastOf(run) + step);
}

/**
 * @param {number} size
 * @param {Grid['sym']} sym
 * @param {Pick<Grid, 'letters' | 'lights'> & Partial<Grid>} made
 * @returns {Grid}
 */
const gridOf = (size, sym, made) => ({ width: size, height: size, sym, blocks: new Set(), bars: new Set(), ...made, cost: -made.lights.length });

// A lattice around places; or null.
/**
 * @param {Places} places
 * @param {number} size
 * @param {Grid['sym']} sym
 * @param {Turns} turns
 * @param {() => number} random
 * @returns {Grid | null}
 */
function latticeAround(places, size, sym, turns, random) {
  const lattice = new Lattice(size, turns, places.parities);
  if (!lattice.hold(places.runs) || !lattice.mend() || !lattice.isUsual) return null;
  const parted = lattice.parted(random);
  return parted && gridOf(size, sym, { blocks: parted.blocks, letters: places.letters, lights: parted.lights });
}

// A grid with bars around places; or null.
/**
 * @param {Places} places
 * @param {number} size
 * @param {Grid['sym']} sym
 * @param {Turns} turns
 * @param {number} seed
 * @returns {Grid | null}
 */
function barsAround(places, size, sym, turns, seed) {
  /** @type {[Set<number>, Set<number>]} */
  const [open, closed] = [new Set(), new Set()];
  for (const run of places.runs) {
    const isDown = run[1] !== run[0] + 1;
    const [step, at] = isDown ? [size, Math.floor(run[0] / size)] : [1, run[0] % size];
    for (const cell of run.slice(0, -1)) open.add(edgeAfter(cell, isDown));
    if (at > 0) closed.add(edgeAfter(run[0] - step, isDown));
    if (at + run.length < size) closed.add(edgeAfter(lastOf(run), isDown));
  }
  if ([...open].some((edge) => closed.has(edge))) return null;
  const bars = barredGrid({ size, turns, open, closed }, seed);
  return bars && gridOf(size, sym, { bars, letters: places.letters, lights: lightsBetween(bars, size) });
}

// The lights between bars.
/**
 * @param {Set<number>} bars
 * @param {number} size
 */
function lightsBetween(bars, size) {
  const lights = [];
  for (const isDown of [false, true]) {
    const [line, step] = isDown ? [1, size] : [size, 1];
    for (let at = 0; at < size; at++) {
      /** @type {number[]} */
      let light = [];
      for (let along = 0; along < size; along++) {
        const cell = at * line + along * step;
        light.push(cell);
        if (along < size - 1 && !bars.has(edgeAfter(cell, isDown))) continue;
        if (light.length > 1) lights.push(light);
        light = [];
      }
    }
  }
  return lights;
}

// Tries to make a grid from a seed; null if that one makes none.
/**
 * @param {Pick<Wanted, 'entries' | 'width' | 'style' | 'sym'>} wanted
 * @param {number} seed
 * @returns {Grid | null}
 */
export function gridFrom({ entries, width, style, sym }, seed) {
  const turns = new Turns(sym, width);
  const random = randoms(seed);
  const places = new Places(width, style === 'barred', turns, random);
  // the longest first, and those of one length in any order
  const order = shuffled(entries, random).sort((a, b) => b.length - a.length);
  if (!places.takes(order) || (places.free.length && sym !== 'quarter')) return null;
  return style === 'barred' ? barsAround(places, width, sym, turns, seed) : latticeAround(places, width, sym, turns, random);
}

// Grids from seeds, one after another, as Search makes American ones.
export class BritishSearch {
  #wanted;
  #counts;
  #seed;
  tried = 0;
  isPossible = true;
  /** @type {Map<string, number>} */
  faults = new Map();
  /** @type {import('./grid.js').Miss | null} */
  nearest = null;

  /**
   * @param {Wanted} wanted
   * @param {import('./counts.js').Counts} counts
   * @param {number} seed
   */
  constructor(wanted, counts, seed) {
    this.#wanted = { ...wanted, entries: [...wanted.entries, ...wanted.seeds] };
    this.#counts = counts;
    this.#seed = seed;
  }

  // A grid within the limits whose crossing lights have words, or null.
  /** @returns {Grid | null} */
  next() {
    this.tried++;
    const grid = gridFrom(this.#wanted, this.#seed++);
    if (!grid) return this.#miss(['places']);
    /** @type {Record<string, number>} */
    const limits = this.#wanted.limits;
    /** @type {Record<string, number>} */
    const figures = { words: grid.lights.length, blocks: grid.blocks.size, threes: threesOf(grid), dead: this.#deadIn(grid) };
    const faults = Object.keys(figures).filter((name) => figures[name] > (limits[name] ?? 0));
    return faults.length ? this.#miss(faults, grid) : grid;
  }

  // Each grid is made on its own.
  judge() {}

  /** @param {Grid} grid */
  #deadIn(grid) {
    const codes = (/** @type {string} */ pattern) => Array.from(pattern, (letter) => (letter === '.' ? -1 : letter.charCodeAt(0) - 65));
    return crossingPatterns(grid).filter((pattern) => !this.#counts.count(codes(pattern))).length;
  }

  /**
   * @param {string[]} faults
   * @param {Grid | null} grid
   */
  #miss(faults, grid = null) {
    for (const fault of faults) this.faults.set(fault, (this.faults.get(fault) ?? 0) + 1);
    if (grid) this.nearest ??= { grid, faults };
    return null;
  }
}
