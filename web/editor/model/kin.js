// Words that are close to each other: those of one root, and those that share more letters in a row than they may.

// How many letters in a row two words may share.
const MOST_SHARED = 4;
// The letters that a root has at least.
const LEAST_ROOT = 3;

// A stem of one syllable that ends with one vowel and one consonant. Before a vowel it doubles that consonant, so STALING is of STALE, and not of STAL.
const SHORT = /^[^AEIOU]*[AEIOUY][^AEIOUWXY]$/;
const DOUBLED = /([^AEIOUWXY])\1$/;

// The words that a stem comes from if an ending with a vowel follows it: STONED is of STONE, WALKED of WALK, STOPPED of STOP, and CARRIED of CARRY.
/** @param {string} stem */
function beforeVowel(stem) {
  if (SHORT.test(stem)) return [`${stem}E`];
  const others = [`${stem}E`, ...(DOUBLED.test(stem) ? [stem.slice(0, -1)] : []), ...(stem.endsWith('I') ? [`${stem.slice(0, -1)}Y`] : [])];
  return [stem, ...others];
}

// Endings, each with the words that a stem before it comes from.
/** @type {[string, (stem: string) => string[]][]} */
const ENDINGS = [
  ['S', (stem) => (stem.endsWith('S') ? [] : [stem])],
  ['ES', (stem) => (/([SXZO]|[CS]H)$/.test(stem) ? [stem] : stem.endsWith('I') ? [`${stem.slice(0, -1)}Y`] : [])],
  ['ED', beforeVowel],
  ['ER', beforeVowel],
  ['ING', beforeVowel],
  ['LY', (stem) => [stem, ...(stem.endsWith('I') ? [`${stem.slice(0, -1)}Y`] : [])]],
];

// A word and all words that it may come from, such as WALKERS, WALKER and WALK. A stem of two letters is none: SEED is not of SEE.
/** @param {string} word */
function rootsOf(word) {
  const roots = new Set([word]);
  for (const root of roots) {
    for (const [ending, wordsOf] of ENDINGS) {
      if (!root.endsWith(ending) || root.length < ending.length + LEAST_ROOT) continue;
      for (const one of wordsOf(root.slice(0, -ending.length))) if (one.length >= LEAST_ROOT) roots.add(one);
    }
  }
  return roots;
}

/** @param {string} word */
const piecesOf = (word) => Array.from({ length: Math.max(0, word.length - MOST_SHARED) }, (_, at) => word.slice(at, at + MOST_SHARED + 1));

// Words, each kept with what is told of it.
/** @template Of */
export class Kin {
  // each root and each piece leads to the first word that has it
  /** @type {Map<string, { word: string, of: Of }>} */
  #roots = new Map();
  /** @type {Map<string, { word: string, of: Of }>} */
  #pieces = new Map();

  // Another word that is kept and close to a word: { word, of, shared }, with what is told of it, and the letters that both have in a row, or '' if they
  // have one root; or null.
  /** @param {string} word */
  closeTo(word) {
    for (const root of rootsOf(word)) {
      const other = this.#roots.get(root);
      if (other && other.word !== word) return { ...other, shared: '' };
    }
    const shared = piecesOf(word).find((piece) => this.#pieces.has(piece)) ?? '';
    const other = this.#pieces.get(shared);
    return other && other.word !== word ? { ...other, shared } : null;
  }

  /**
   * @param {string} word
   * @param {Of} of
   */
  add(word, of) {
    const kept = { word, of };
    for (const root of rootsOf(word)) if (!this.#roots.has(root)) this.#roots.set(root, kept);
    for (const piece of piecesOf(word)) if (!this.#pieces.has(piece)) this.#pieces.set(piece, kept);
  }
}

// Words that are close to those before them, of a list of [word, what is told of it].
/**
 * @template Of
 * @param {(readonly [string, Of])[]} words
 */
export function closeWords(words) {
  /** @type {Kin<Of>} */
  const kin = new Kin();
  return words.flatMap(([word, of]) => {
    const close = kin.closeTo(word);
    kin.add(word, of);
    return close ? [{ word, of, other: close.word, otherOf: close.of, shared: close.shared }] : [];
  });
}

// New words that are close to one that stays, given all words of a grid as { word, isNew, score }: of two new ones the one with the lower score.
/** @param {{ word: string, isNew: boolean, score: number }[]} words */
export function closeNew(words) {
  const ordered = [...words].sort((a, b) => Number(a.isNew) - Number(b.isNew) || b.score - a.score);
  return closeWords(ordered.map(({ word, isNew }) => /** @type {[string, boolean]} */ ([word, isNew]))).filter(({ of }) => of).map(({ word }) => word);
}
