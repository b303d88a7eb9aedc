// What is wrong with a board, and what that costs. While a search goes on nothing is forbidden, but each fault has its price.
import { ones, stretched } from './bits.js';
import { Ease } from './ease.js';

// What is counted on a board; `cut` cells are not connected with the first one.
/** @typedef {{ words: number, blocks: number, threes: number, cheaters: number, lumps: number, long: number, dead: number, cut: number }} Figures */
/** @typedef {keyof Figures} Fault what a board has too much of */

// The prices at first. A fault that spoils a grid costs so much that no board has it at the end, if another can be had.
export const PRICES = {
  // each word, block and so on over its limit, and each cell by which a light is too long
  words: 7, blocks: 7, threes: 6, cheaters: 7, lumps: 7, long: 6,
  // a light that no word matches, and one that weak words match alone
  dead: 20, poor: 15,
  // what is not connected, and each cell of it
  apart: 20, cut: 0.1,
  // within the limits: each light of three, each cheater, and each word that there could still be
  anyThree: 0.25, anyCheater: 1.2, spareWord: 0.35,
  // each unit of ease that cells lack
  lack: 1.6,
};

// What has a limit. After a board that breaks it, what is over it costs 6 in 100 more, and after any other board 1 in 100 less: never less than above, nor more than
// three times that. So about one board in seven breaks a limit in the long run, more if it is too tight for such prices, and fewer if it is easy to keep.
const LIMITED = /** @type {const} */ (['words', 'blocks', 'threes', 'cheaters', 'lumps']);
const [RISE, FALL, MOST_TIMES] = [1.06, 0.99, 3];

const over = (/** @type {number} */ count, /** @type {number} */ most) => (count > most ? count - most : 0);

export class Cost {
  /** @type {import('./board.js').Board} */
  #board;
  /** @type {import('./outlets.js').Limits} */
  #limits;
  #ease;
  #reach;
  // by how many cells entries are longer than other lights may be
  #spared = 0;
  // the price of each word, block and so on over its limit, as the boards so far have it
  #prices = { ...PRICES };
  /** @type {Figures} */
  figures = { words: 0, blocks: 0, threes: 0, cheaters: 0, lumps: 0, long: 0, dead: 0, cut: 0 };

  /**
   * @param {import('./board.js').Board} board
   * @param {import('./outlets.js').Limits} limits
   * @param {import('./counts.js').Counts} counts
   */
  constructor(board, limits, counts) {
    const { width, height } = board.frame;
    this.#board = board;
    this.#limits = { ...limits, longest: Math.min(limits.longest, Math.max(width, height)) };
    this.#ease = new Ease(board, counts);
    this.#reach = new Int32Array(board.frame.height + 2);
  }

  // Begins with the entries that the board holds.
  begin() {
    this.#spared = this.#board.places.reduce((sum, { run }) => sum + over(run.length, this.#limits.longest), 0);
    this.#ease.begin();
  }

  // The cost of the board as it stands, or something over `bound` if it is more. If it is not, all figures are right; what is counted always is.
  of(bound = Infinity) {
    const { figures } = this;
    this.#count();
    let cost = this.#priceOfCounts();
    if (cost > bound) return cost;
    this.#ease.measure();
    figures.dead = this.#ease.dead;
    cost += figures.dead * PRICES.dead + this.#ease.poor * PRICES.poor + this.#ease.lack * PRICES.lack;
    if (cost > bound) return cost;
    const { width, height } = this.#board.frame;
    figures.cut = width * height - figures.blocks - this.#reached();
    return figures.cut ? cost + PRICES.apart + figures.cut * PRICES.cut : cost;
  }

  // Has the next costs found from the board as it stands.
  keep() {
    this.#ease.keep();
  }

  // Learns from the board as it stands: what boards often have too much of costs more.
  learn() {
    for (const name of LIMITED) {
      const price = this.#prices[name] * (this.figures[name] > this.#limits[name] ? RISE : FALL);
      this.#prices[name] = Math.min(MOST_TIMES * PRICES[name], Math.max(PRICES[name], price));
    }
  }

  // What the board has too much of, by the figures.
  /** @returns {Fault[]} */
  get faults() {
    const mostOf = { ...this.#limits, long: 0, dead: 0, cut: 0 };
    return /** @type {Fault[]} */ (Object.keys(this.figures)).filter((name) => this.figures[name] > mostOf[name]);
  }

  #priceOfCounts() {
    const { words, blocks, threes, cheaters, lumps, long } = this.figures;
    const limits = this.#limits;
    const prices = this.#prices;
    return long * prices.long + threes * prices.anyThree + cheaters * prices.anyCheater + over(limits.words, words) * prices.spareWord
      + over(words, limits.words) * prices.words + over(blocks, limits.blocks) * prices.blocks + over(threes, limits.threes) * prices.threes
      + over(cheaters, limits.cheaters) * prices.cheaters + over(lumps, limits.lumps) * prices.lumps;
  }

  #count() {
    const { figures } = this;
    figures.words = 0;
    figures.threes = 0;
    figures.lumps = 0;
    figures.long = -this.#spared;
    this.#countLines(0);
    this.#countLines(1);
    this.#countBlocks();
  }

  // Counts the lights of a direction, and blocks that are four in line.
  /** @param {number} isDown */
  #countLines(isDown) {
    const { figures } = this;
    const lines = this.#board.lines[isDown];
    const inner = this.#board.inner[isDown];
    const { longest } = this.#limits;
    for (let line = 0; line < lines.length; line++) {
      const bits = lines[line];
      // each light begins after a block, and has three cells or more
      const lights = bits & ~(bits >> 1) & (inner >> 1);
      figures.words += ones(lights);
      figures.threes += ones(lights & (bits >> 4));
      if (inner >> (longest + 1)) figures.long += ones(stretched(~bits & inner, longest));
      const own = bits & inner;
      figures.lumps += ones(own & (own >> 1) & (own >> 2) & (own >> 3));
    }
  }

  // Counts the blocks, those that part no light, and the squares of four.
  #countBlocks() {
    const { lines: [rows], inner: [inner] } = this.#board;
    let [blocks, cheaters, squares] = [0, 0, 0];
    for (let row = 0; row < rows.length; row++) {
      const bits = rows[row];
      const own = bits & inner;
      const above = row ? rows[row - 1] : -1;
      const below = row < rows.length - 1 ? rows[row + 1] : -1;
      blocks += ones(own);
      cheaters += ones(own & ((bits << 1) | (bits >> 1)) & (above | below));
      if (row) squares += ones(own & (own >> 1) & above & (above >> 1));
    }
    this.figures.blocks = blocks;
    this.figures.cheaters = cheaters;
    this.figures.lumps += squares;
  }

  // How many open cells are connected with the first one.
  #reached() {
    const rows = this.#board.lines[0];
    const reach = this.#reach;
    reach.fill(0);
    const first = rows.findIndex((_, row) => this.#openIn(row) !== 0);
    if (first < 0) return 0;
    const open = this.#openIn(first);
    reach[first + 1] = open & -open;
    for (let wider = 1; wider;) {
      wider = 0;
      for (let row = first; row < rows.length; row++) wider += this.#widen(row);
      for (let row = rows.length - 1; row >= 0; row--) wider += this.#widen(row);
    }
    let sum = 0;
    for (let row = 0; row < rows.length; row++) sum += ones(reach[row + 1]);
    return sum;
  }

  /** @param {number} row */
  #openIn(row) {
    return ~this.#board.lines[0][row] & this.#board.inner[0];
  }

  // Reaches the cells of a row that are beside those reached; returns 1 if there are more, or 0.
  /** @param {number} row */
  #widen(row) {
    const reach = this.#reach;
    const open = this.#openIn(row);
    const before = reach[row + 1];
    let now = (before | reach[row] | reach[row + 2]) & open;
    if (now === before) return 0;
    for (let last = 0; last !== now;) {
      last = now;
      now |= ((now << 1) | (now >> 1)) & open;
    }
    reach[row + 1] = now;
    return 1;
  }
}
