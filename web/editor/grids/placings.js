// The places of entries that a search for American grids tries: the most promising ones, those that are like them, and which one is next.
import { Crossings } from './crossings.js';
import { areAlike } from './grid.js';
import { Places } from './places.js';

// what the forced blocks of a placing cost
const FORCED = { cheater: 3, lump: 8 };
// how far chance goes in the choice of a placing
const CHANCE = 30;
// what each board that is nothing new adds to the cost of its placing, until one is
const VAIN = 1;
// by how much a grid lowers it for each grade that its fills may reach
const REACHED = 1;
// the most placings, how many others are made after a board that is no grid, and of how many of the most promising ones
const MOST = 400;
const NEAR = 4;
const PROMISING = 20;
// with how many of the last grids of a placing a new one is compared
const MOST_COMPARED = 20;

/** @typedef {import('./grid.js').Grid} Grid */
/** @typedef {{ guess: number, mean: number, tries: number, vain: number, grids: Grid[] }} Tries a guess of what boards around a placing cost, what they did cost, how many there were, how many of the last ones were nothing new, and the last grids, of which none is like another */
/** @typedef {import('./places.js').Placing & Tries} Tried */

export class Placings {
  #board;
  #cost;
  #limits;
  #places;
  #crossings;
  #random;
  // the most promising first
  /** @type {Tried[]} */
  #all = [];

  /**
   * @param {import('./board.js').Board} board
   * @param {import('./cost.js').Cost} cost of the board
   * @param {Pick<import('./grid.js').Wanted, 'entries' | 'seeds' | 'limits'>} wanted
   * @param {import('./counts.js').Counts} counts
   * @param {() => number} random
   */
  constructor(board, cost, { entries, seeds, limits }, counts, random) {
    this.#board = board;
    this.#cost = cost;
    this.#limits = limits;
    this.#places = new Places(board.frame, { entries, seeds, gap: limits.gap }, random);
    this.#crossings = new Crossings(board, limits.longest, counts);
    this.#random = random;
    this.#add(this.#places.best());
  }

  get isEmpty() {
    return !this.#all.length;
  }

  // Adds placings whose forced blocks keep the limits, and keeps the most promising ones.
  /** @param {import('./places.js').Placing[]} placings */
  #add(placings) {
    const added = placings.flatMap((placing) => this.#guessed(placing) ?? []);
    if (added.length) this.#all = [...this.#all, ...added].sort((a, b) => a.guess - b.guess).slice(0, MOST);
  }

  /**
   * @param {import('./places.js').Placing} placing
   * @returns {Tried | null}
   */
  #guessed(placing) {
    if (!this.#board.hold(placing.places)) return null;
    this.#cost.of(-Infinity);
    const { cheaters, lumps, blocks } = this.#cost.figures;
    const limits = this.#limits;
    // what is forced stays: a block beside others stays one that parts no light
    if (cheaters > limits.cheaters || blocks > limits.blocks || lumps > limits.lumps) return null;
    const guess = placing.score + FORCED.cheater * cheaters + FORCED.lump * lumps + this.#crossings.cost();
    return { ...placing, guess, mean: 0, tries: 0, vain: 0, grids: [] };
  }

  // The next one: that with the lowest mean cost, but for chance, which counts less the more often a placing was tried.
  next() {
    const random = this.#random;
    const means = this.#all.filter(({ tries }) => tries).map(({ mean }) => mean);
    // what a placing costs that is as good as the first one
    const usual = means.length ? Math.min(...means) - this.#all[0].guess : 0;
    const costOf = (/** @type {Tried} */ { guess, mean, tries, vain }) => (tries ? mean + VAIN * vain : usual + guess);
    const values = this.#all.map((placing) => costOf(placing) + ((random() + random() + random() - 1.5) * CHANCE) / Math.sqrt(placing.tries + 1));
    return this.#all[values.indexOf(Math.min(...values))];
  }

  // Takes over what a board around a placing cost, and the grid if it is one. If it is none there will be other placings.
  /**
   * @param {Tried} placing
   * @param {number} cost
   * @param {Grid | null} grid
   */
  tell(placing, cost, grid) {
    placing.tries++;
    placing.mean += (cost - placing.mean) / placing.tries;
    const isNew = grid && !placing.grids.some((other) => areAlike(grid, other));
    if (isNew) placing.grids = [...placing.grids, grid].slice(-MOST_COMPARED);
    placing.vain = isNew ? 0 : placing.vain + 1;
    if (!grid && placing.groups.length) this.#widen();
  }

  // Takes over the least grade at which a grid that was found around a placing has no fill, 0 if it has none at all.
  /**
   * @param {Tried} placing
   * @param {number} bound
   */
  judge(placing, bound) {
    placing.mean -= (REACHED * bound) / placing.tries;
  }

  // Looks for placings that are like the most promising ones.
  #widen() {
    for (let count = 0; count < NEAR; count++) {
      const other = this.#places.near(this.#all[Math.floor(Math.min(PROMISING, this.#all.length) * this.#random())]);
      if (other) this.#add([other]);
    }
  }
}
