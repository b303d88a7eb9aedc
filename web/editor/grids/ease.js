// How easily the lights of a board find words. A light gives to each of its cells without a letter the logarithm of the number of words that match it,
// divided by the number of these cells. Two lights agree upon a letter by chance once in e^2.73 times, since the sum of the squares of the frequencies of
// letters is 0.065; so a cell should get so much from its two lights, and some more.

export const AGREEMENT = 2.73;
export const EASE = 0.55;
// what blocks and letters have, which need nothing
const ENOUGH = 100;
// what a light without words gives, and the count of words that is as good as none
const NONE = -9;
export const LEAST_COUNT = 0.04;
const UNKNOWN = 1000;

// What the lights of a line give to its cells, how many of them have no word, and how many have no good one.
/** @typedef {{ each: Float64Array, dead: number, poor: number }} Given */

export class Ease {
  /** @type {import('./board.js').Board} */
  #board;
  /** @type {import('./counts.js').Counts} */
  #counts;
  // by direction: of which bits of the lines the given is kept, what is kept, what a move has in its place, and what holds now
  #given;
  // what a light gives, by its direction, its first cell and its length
  #logs;
  #depth;
  // the places of entries that need no word, by the same numbers
  /** @type {Set<number>} */
  #entered = new Set();
  // how many lights have no word, how many have weak ones only, and how much ease the cells lack in all
  dead = 0;
  poor = 0;
  lack = 0;

  /**
   * @param {import('./board.js').Board} board
   * @param {import('./counts.js').Counts} counts
   */
  constructor(board, counts) {
    this.#board = board;
    this.#counts = counts;
    const { frame } = board;
    this.#given = [[frame.height, frame.width], [frame.width, frame.height]].map(([count, length]) => {
      /** @returns {Given[]} */
      const blank = () => Array.from({ length: count }, () => ({ each: new Float64Array(length), dead: 0, poor: 0 }));
      return { of: new Int32Array(count), kept: blank(), spare: blank(), now: blank() };
    });
    this.#depth = Math.max(frame.width, frame.height) + 1;
    this.#logs = new Float64Array(2 * frame.room * this.#depth);
  }

  // Forgets the entries of the board before.
  begin() {
    this.#logs.fill(UNKNOWN);
    for (const { of } of this.#given) of.fill(0);
    const isDown = (/** @type {import('./board.js').Place} */ { run }) => (run[1] === run[0] + 1 ? 0 : 1);
    this.#entered = new Set(this.#board.places.filter(({ word }) => word).map((place) => this.#key(isDown(place), place.run[0], place.run.length)));
  }

  /**
   * @param {number} isDown
   * @param {number} first
   * @param {number} length
   */
  #key(isDown, first, length) {
    return (isDown * this.#board.frame.room + first) * this.#depth + length;
  }

  // Sees how easy the board is.
  measure() {
    this.dead = 0;
    this.poor = 0;
    this.#give(0);
    this.#give(1);
    this.lack = this.#lackOfCells();
  }

  // Sees what the lights of a direction give now. Lines that are as they were at `keep` give the same.
  /** @param {number} isDown */
  #give(isDown) {
    const lines = this.#board.lines[isDown];
    const { of, kept, spare, now } = this.#given[isDown];
    for (let line = 0; line < lines.length; line++) {
      now[line] = kept[line];
      if (lines[line] !== of[line]) {
        now[line] = spare[line];
        this.#giveLine(isDown, line, spare[line]);
      }
      this.dead += now[line].dead;
      this.poor += now[line].poor;
    }
  }

  // Keeps what was measured, as that of the board as it stands.
  keep() {
    for (const isDown of [0, 1]) {
      const lines = this.#board.lines[isDown];
      const { of, kept, spare, now } = this.#given[isDown];
      for (let line = 0; line < lines.length; line++) {
        if (lines[line] === of[line]) continue;
        of[line] = lines[line];
        spare[line] = kept[line];
        kept[line] = now[line];
      }
    }
  }

  /**
   * @param {number} isDown
   * @param {number} line
   * @param {Given} given
   */
  #giveLine(isDown, line, given) {
    const { frame, letters, lines } = this.#board;
    const [start, step, count] = isDown ? [frame.cell(0, line), frame.stride, frame.height] : [frame.cell(line, 0), 1, frame.width];
    const { each } = given;
    given.dead = 0;
    given.poor = 0;
    for (let at = 0, length = 0, bits = lines[isDown][line] >> 1; at <= count; at++, bits >>= 1) {
      if (!(bits & 1)) {
        length++;
        continue;
      }
      if (at < count) each[at] = ENOUGH;
      if (!length) continue;
      const log = this.#logOf(isDown, start + (at - length) * step, step, length);
      if (log === NONE) given.dead++;
      else if (log < 0) given.poor++;
      for (let one = at - length; one < at; one++) each[one] = letters[start + one * step] < 0 ? log : ENOUGH;
      length = 0;
    }
  }

  /**
   * @param {number} isDown
   * @param {number} first
   * @param {number} step
   * @param {number} length
   */
  #logOf(isDown, first, step, length) {
    const key = this.#key(isDown, first, length);
    if (this.#logs[key] === UNKNOWN) this.#logs[key] = this.#entered.has(key) ? 0 : this.#logOfCount(first, step, length);
    return this.#logs[key];
  }

  /**
   * @param {number} first
   * @param {number} step
   * @param {number} length
   */
  #logOfCount(first, step, length) {
    const pattern = Array.from({ length }, (_, at) => this.#board.letters[first + at * step]);
    const count = this.#counts.count(pattern);
    return count < LEAST_COUNT ? NONE : Math.log(count) / Math.max(1, pattern.filter((letter) => letter < 0).length);
  }

  #lackOfCells() {
    const [{ now: across }, { now: down }] = this.#given;
    const need = EASE + AGREEMENT;
    let sum = 0;
    for (let row = 0; row < across.length; row++) {
      const { each } = across[row];
      for (let column = 0; column < down.length; column++) {
        const lack = need - each[column] - down[column].each[row];
        if (lack > 0) sum += lack;
      }
    }
    return sum;
  }
}
