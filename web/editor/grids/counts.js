// How many words match a pattern: a set of bits for each length, place and letter.
import { ones } from './bits.js';

/** @typedef {{ count(pattern: ArrayLike<number>): number }} Counts patterns are codes of letters, A being 0, and -1 for any letter */

const A = 'A'.charCodeAt(0);
// what a word that is not good counts as, and all of them at most where there is no good one
const REST = 0.05;
const MOST_REST = 0.9;

export class WordCounts {
  /** @type {Map<number, { count: number, bits: Uint32Array[] }>} */
  #lengths = new Map();

  /** @param {string[]} words in capitals */
  constructor(words) {
    /** @type {Map<number, string[]>} */
    const byLength = new Map();
    for (const word of words) {
      const others = byLength.get(word.length);
      if (others) others.push(word);
      else byLength.set(word.length, [word]);
    }
    for (const [length, some] of byLength) this.#add(length, some);
  }

  /**
   * @param {number} length
   * @param {string[]} words
   */
  #add(length, words) {
    const bits = Array.from({ length: 26 * length }, () => new Uint32Array(Math.ceil(words.length / 32)));
    words.forEach((word, at) => {
      for (let place = 0; place < length; place++) bits[26 * place + word.charCodeAt(place) - A][at >> 5] |= 1 << (at & 31);
    });
    this.#lengths.set(length, { count: words.length, bits });
  }

  /** @param {ArrayLike<number>} pattern */
  count(pattern) {
    const words = this.#lengths.get(pattern.length);
    if (!words) return 0;
    const sets = [];
    for (let place = 0; place < pattern.length; place++) if (pattern[place] >= 0) sets.push(words.bits[26 * place + pattern[place]]);
    return sets.length ? common(sets) : words.count;
  }
}

// How many bits all sets have.
/** @param {Uint32Array[]} sets */
function common(sets) {
  let count = 0;
  for (let at = 0; at < sets[0].length; at++) {
    let both = sets[0][at];
    for (let other = 1; other < sets.length; other++) both &= sets[other][at];
    count += ones(both);
  }
  return count;
}

// The count of good words, and of the others at a lower rate: under one where there is no good one.
export class GradedCounts {
  /**
   * @param {string[]} words in capitals
   * @param {(word: string) => boolean} isGood
   */
  constructor(words, isGood) {
    /** @type {string[]} */
    const good = [];
    /** @type {string[]} */
    const rest = [];
    for (const word of words) (isGood(word) ? good : rest).push(word);
    this.good = new WordCounts(good);
    this.rest = new WordCounts(rest);
  }

  /** @param {ArrayLike<number>} pattern */
  count(pattern) {
    const [good, rest] = [this.good.count(pattern), REST * this.rest.count(pattern)];
    return good ? good + rest : Math.min(rest, MOST_REST);
  }
}
