// What it costs at least to part the rows and columns that cross entries into lights. A line and its image have the same blocks, so both are parted at once.
import { OPEN, SHUT } from './board.js';
import { PRICES } from './cost.js';
import { AGREEMENT, EASE, LEAST_COUNT } from './ease.js';

// what a block costs here, since there are not many
const BLOCK = 0.5;
// what a cell should get from one of its two lights
const NEED = (AGREEMENT + EASE) / 2;
// the code of A in texts, before which is that of no letter
const FIRST = 65;
// the most patterns that are remembered
const MOST_KNOWN = 200000;

/** @typedef {{ cells: number[], isReversed: boolean }} Line cells in the order of those of which they are the images, which may be that of reading reversed */

export class Crossings {
  /** @type {import('./board.js').Board} */
  #board;
  #longest;
  #counts;
  // the lines that are parted together
  /** @type {Line[][]} */
  #pairs;
  // what lights cost, by their patterns
  /** @type {Map<string, number>} */
  #known = new Map();

  /**
   * @param {import('./board.js').Board} board
   * @param {number} longest
   * @param {import('./counts.js').Counts} counts
   */
  constructor(board, longest, counts) {
    this.#board = board;
    this.#longest = longest;
    this.#counts = counts;
    this.#pairs = pairsOf(board.frame);
  }

  // The cost of the board as it is held.
  cost() {
    const { letters } = this.#board;
    const isCrossed = (/** @type {Line[]} */ pair) => pair.some(({ cells }) => cells.some((cell) => letters[cell] >= 0));
    return this.#pairs.filter(isCrossed).reduce((sum, pair) => sum + this.#parted(pair), 0);
  }

  // The least cost of a line and its image, from the least costs of the cells before each one that a block or the border is before.
  /** @param {Line[]} pair */
  #parted(pair) {
    const { fixed } = this.#board;
    const [{ cells }] = pair;
    const count = cells.length;
    const texts = pair.map((line) => this.#textOf(line));
    const isEnd = (/** @type {number} */ at) => at === count || fixed[cells[at]] !== OPEN;
    const block = pair.length * BLOCK;
    const least = new Float64Array(count + 2).fill(Infinity);
    const reach = (/** @type {number} */ at, /** @type {number} */ cost) => (least[at] = Math.min(least[at], cost));
    least[0] = 0;
    for (let from = 0; from < count; from++) {
      if (least[from] === Infinity) continue;
      if (isEnd(from)) reach(from + 1, least[from] + block);
      for (let to = from; to === from || (to <= count && fixed[cells[to - 1]] !== SHUT); to++) {
        if (to - from >= 3 && isEnd(to)) reach(to + 1, least[from] + block + this.#lights(pair, texts, from, to));
      }
    }
    return Math.min(least[count], least[count + 1] - block);
  }

  // The letters of a line, in reading order.
  /** @param {Line} line */
  #textOf({ cells, isReversed }) {
    const { letters } = this.#board;
    const codes = Array.from(cells, (cell) => letters[cell] + FIRST);
    return String.fromCharCode(...(isReversed ? codes.reverse() : codes));
  }

  // What the lights of a line and its image cost that have some of its cells.
  /**
   * @param {Line[]} pair
   * @param {string[]} texts
   * @param {number} from
   * @param {number} to
   */
  #lights(pair, texts, from, to) {
    let sum = 0;
    for (let at = 0; at < pair.length; at++) {
      const text = texts[at];
      sum += this.#light(pair[at].isReversed ? text.slice(text.length - to, text.length - from) : text.slice(from, to));
    }
    return sum;
  }

  /** @param {string} text */
  #light(text) {
    const known = this.#known.get(text);
    if (known !== undefined) return known;
    const cost = this.#costOf(Array.from(text, (letter) => letter.charCodeAt(0) - FIRST));
    if (this.#known.size === MOST_KNOWN) this.#known.clear();
    this.#known.set(text, cost);
    return cost;
  }

  /** @param {number[]} pattern */
  #costOf(pattern) {
    const free = pattern.filter((letter) => letter < 0).length;
    // an entry needs no word
    if (!free) return 0;
    if (pattern.length > this.#longest) return (pattern.length - this.#longest) * PRICES.long;
    const count = this.#counts.count(pattern);
    return count < LEAST_COUNT ? PRICES.dead : PRICES.lack * Math.max(0, free * NEED - Math.log(count));
  }
}

// The lines of a frame, each with its image if there is another one.
/**
 * @param {import('./frame.js').Frame} frame
 * @returns {Line[][]}
 */
function pairsOf(frame) {
  const [rows, columns] = [[...Array(frame.height).keys()], [...Array(frame.width).keys()]];
  const lines = [...rows.map((row) => columns.map((column) => frame.cell(row, column))), ...columns.map((column) => rows.map((row) => frame.cell(row, column)))];
  return lines.flatMap((cells) => {
    const line = { cells, isReversed: false };
    const images = cells.map((cell) => (frame.orbitOf[cell] ?? []).find((other) => other !== cell) ?? cell);
    // under a quarter turn a line has several
    if (frame.sym === 'quarter' || images.every((cell) => cells.includes(cell))) return [[line]];
    return Math.min(...images) < cells[0] ? [] : [[line, { cells: images, isReversed: images[1] < images[0] }]];
  });
}
