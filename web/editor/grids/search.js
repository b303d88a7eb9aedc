// A search for American grids whose limits are part of it: the places of the entries first, and then simulated annealing over blocks and their images.
import { randoms } from '../model/random.js';
import { Board } from './board.js';
import { Cost } from './cost.js';
import { Frame } from './frame.js';
import { narrowest } from './passage.js';
import { Placings } from './placings.js';

// the temperatures at the start and at the end, in the unit of costs, and how many moves there are for each orbit of cells: at least, at most, and by their
// number. Many boards that are cooled down fast have more grids among them than a few that are cooled down slowly.
const [HOT, COLD] = [7, 0.8];
const MOVES_EACH = { least: 6, most: 26, orbits: 13 };
// the fewest open cells in a wall that parts a region: what a grid has to have, what is usual, and what each cell less than that costs
const [LEAST_NARROW, USUAL_NARROW, NARROW] = [2, 3, 3];
// grids of so many cells at most are cooled down to one and the same, unless one of their blocks is left to chance
const MOST_ALIKE = 150;

export class Search {
  #random;
  #frame;
  #board;
  #cost;
  #placings;
  // the grids that were told, and the placing that each is around
  /** @type {Set<string>} */
  #keys = new Set();
  /** @type {WeakMap<import('./grid.js').Grid, import('./placings.js').Tried>} */
  #around = new WeakMap();
  // how many boards were made, and how many of them have each fault
  tried = 0;
  /** @type {Map<string, number>} */
  faults = new Map();
  // the cheapest board that has faults
  /** @type {import('./grid.js').Miss | null} */
  nearest = null;

  /**
   * @param {import('./grid.js').Wanted} wanted
   * @param {import('./counts.js').Counts} counts
   * @param {number} seed
   */
  constructor({ width, height, sym, entries, seeds, limits }, counts, seed) {
    this.#random = randoms(seed);
    this.#frame = new Frame(width, height, sym);
    this.#board = new Board(this.#frame);
    this.#cost = new Cost(this.#board, limits, counts);
    this.#placings = new Placings(this.#board, this.#cost, { entries, seeds, limits }, counts, this.#random);
  }

  // Whether the entries can stand together at all.
  get isPossible() {
    return !this.#placings.isEmpty;
  }

  // Makes one board; returns it if it keeps the limits and was not told before, or null.
  /** @returns {import('./grid.js').Grid | null} */
  next() {
    if (!this.isPossible) return null;
    this.tried++;
    const placing = this.#placings.next();
    const cost = placing.score + this.#anneal(this.#begun(placing.places));
    const grid = this.#asGrid(cost);
    this.#cost.learn();
    this.#placings.tell(placing, cost, grid);
    if (grid) this.#around.set(grid, placing);
    return grid;
  }

  // Takes over the least grade at which a grid that was made has no fill: there are more boards around placings that leave good fills.
  /**
   * @param {import('./grid.js').Grid} grid
   * @param {number} bound
   */
  judge(grid, bound) {
    const placing = this.#around.get(grid);
    if (placing) this.#placings.judge(placing, bound);
  }

  // The board as a grid, unless it has faults or was told before.
  /**
   * @param {number} cost
   * @returns {import('./grid.js').Grid | null}
   */
  #asGrid(cost) {
    const { faults } = this.#cost;
    if (faults.length) return this.#miss(faults, cost);
    const grid = this.#grid(cost);
    const narrow = narrowest(grid);
    if (narrow < LEAST_NARROW) return this.#miss(['narrow'], cost);
    const key = [...grid.blocks, ...grid.letters].join();
    if (this.#keys.has(key)) return null;
    this.#keys.add(key);
    return { ...grid, cost: cost + NARROW * Math.max(0, USUAL_NARROW - narrow) };
  }

  // Holds entries, in a small grid with a block at random; returns the orbits that may change.
  /** @param {import('./board.js').Place[]} places */
  #begun(places) {
    const { orbits, width, height } = this.#frame;
    const isSmall = width * height <= MOST_ALIKE;
    const shut = isSmall ? orbits[Math.floor(this.#random() * orbits.length)].slice(0, 1) : [];
    return /** @type {number[][]} */ (this.#board.hold(places, shut) ?? this.#board.hold(places));
  }

  /**
   * @param {string[]} faults
   * @param {number} cost
   */
  #miss(faults, cost) {
    for (const fault of faults) this.faults.set(fault, (this.faults.get(fault) ?? 0) + 1);
    if (cost < (this.nearest?.grid.cost ?? Infinity)) this.nearest = { grid: this.#grid(cost), faults };
    return null;
  }

  // Changes orbits at random, and keeps what costs no more than the temperature allows; returns the cost at the end.
  /** @param {number[][]} orbits */
  #anneal(orbits) {
    const [board, judge, random] = [this.#board, this.#cost, this.#random];
    judge.begin();
    let cost = judge.of();
    judge.keep();
    const { least, most, orbits: each } = MOVES_EACH;
    const moves = Math.round(Math.min(most, Math.max(least, orbits.length / each)) * orbits.length);
    const cooling = (COLD / HOT) ** (1 / moves);
    for (let move = 0, heat = HOT; move < moves; move++, heat *= cooling) {
      const changed = board.change(orbits[Math.floor(random() * orbits.length)], random);
      if (!changed) continue;
      const bound = cost - heat * Math.log(random());
      const next = judge.of(bound);
      if (next <= bound) {
        cost = next;
        judge.keep();
      } else board.undo(changed);
    }
    // the figures of the board as it stands
    return judge.of();
  }

  /**
   * @param {number} cost
   * @returns {import('./grid.js').Grid}
   */
  #grid(cost) {
    const [board, frame] = [this.#board, this.#frame];
    const { width, height, sym } = frame;
    const cells = frame.orbits.flat();
    const numbered = (/** @type {number[]} */ some) => some.map((cell) => frame.numberOf(cell)).sort((a, b) => a - b);
    const blocks = new Set(numbered(cells.filter((cell) => board.isShut(cell))));
    const letters = new Map(numbered(cells.filter((cell) => board.letters[cell] >= 0)).map((number) => {
      const cell = frame.cell(Math.floor(number / width), number % width);
      return [number, String.fromCharCode(65 + board.letters[cell])];
    }));
    return { width, height, sym, blocks, bars: new Set(), letters, lights: board.runs().map(numbered), cost };
  }
}
