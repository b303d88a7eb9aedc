// Several word lists as one, with the personal list. The worker has this module.
import { MOST, UNSCORED, scoreOf } from '../model/grades.js';
import { scoreLines, scoresIn } from './rescoring.js';
import { bestFirst, readList, readPersonal } from './word-list.js';

// A list as it is read: `form` says how its lines have words and scores, and is null where they tell it themselves; `rescored` has the
// scores that differ from the file, as lines, and `offset` is added to all.
/** @typedef {{ bytes: Uint8Array, form?: import('./list-form.js').Form | null, rescored?: string | null, offset?: number, name?: string }} Source */

/** @typedef {ReturnType<typeof readList>} List */
/** @typedef {{ get: (word: string) => number | null | undefined }} Scores */

// the place of the personal list, before those of the others in their order
export const OWN = 0;

// A score with the offset of its list added, within 0 to 100, or to the best score of the list if that is higher.
/**
 * @param {number} score
 * @param {number} offset
 * @param {number} best
 */
const shifted = (score, offset, best) => Math.max(0, Math.min(Math.max(MOST, best), Math.round(100 * (score + offset)) / 100));

// Reads a list with its own scores: those of its file, but for the words that have others.
/**
 * @param {Source} source
 * @returns {List}
 */
export function readOwn(source) {
  const list = readList(source.bytes, source.form ?? null);
  if (!source.rescored) return list;
  const { known } = list;
  for (const [word, score] of scoresIn(source.rescored)) if (known.has(word)) known.set(word, score);
  const best = [...known.values()].reduce((/** @type {number} */ most, score) => Math.max(most, score ?? 0), 0);
  return { ...list, words: ranked(list.words, known, best), scores: known, best, scored: true };
}

// Words with the best scores first.
/**
 * @param {string[]} words
 * @param {Scores} scores
 * @param {number} best
 */
const ranked = (words, scores, best) => bestFirst(words, (word) => scores.get(word) ?? scoreOf(UNSCORED, best));

// Reads a list, with its offset added to its scores.
/** @param {Source} source */
export function readSource(source) {
  const { offset = 0 } = source;
  const list = readOwn(source);
  if (!offset || !list.scored) return list;
  for (const [word, score] of list.known) if (score !== null) list.known.set(word, shifted(score, offset, list.best));
  return { ...list, best: shifted(list.best, offset, list.best) };
}

// What several lists say of words, which are looked up in each: lists are large, so they are not put together once more.
class Several {
  #lists;
  #own;
  #best;

  /**
   * @param {ReturnType<typeof readPersonal>} own
   * @param {{ known: Map<string, number | null>, best: number }[]} lists
   */
  constructor(lists, own) {
    this.#lists = lists;
    this.#own = own;
    this.#best = lists.reduce((most, { best }) => Math.max(most, best), 0);
  }

  get best() {
    return this.#best;
  }

  // The place of the list that decides over a word: OWN, that of the first list that gives it a score, or else of the first that has it; null if none has it.
  /** @param {string} word */
  placeOf(word) {
    if (this.#own.words.has(word)) return OWN;
    const at = this.#decides(word);
    return at < 0 ? null : at + 1;
  }

  // The number of the list that decides over a word, or -1. Each is looked through once, since there are many words.
  /** @param {string} word */
  #decides(word) {
    let first = -1;
    for (let at = 0; at < this.#lists.length; at++) {
      const score = this.#lists[at].known.get(word);
      if (score !== undefined && score !== null) return at;
      if (score === null && first < 0) first = at;
    }
    return first;
  }

  // The score of a word, or null. One of the personal list that has none there is as good as the best.
  /** @param {string} word */
  get(word) {
    if (this.#own.hidden.has(word)) return null;
    const own = this.#own.words.get(word);
    if (own !== undefined && own !== null) return own;
    const score = this.#lists[this.#decides(word)]?.known.get(word) ?? null;
    return own === undefined ? score : Math.max(this.#best, score ?? 0);
  }
}

/** @param {Record<string, number>[]} counts */
function sumOf(counts) {
  /** @type {Record<string, number>} */
  const sum = {};
  for (const [reason, count] of counts.flatMap((one) => Object.entries(one))) sum[reason] = (sum[reason] ?? 0) + count;
  return sum;
}

// Reads lists as one. Of several that have a word, the first one that gives it a score decides; the personal list decides over all. `placeOf` tells where a word
// is from, as OWN or the place of its list; of one list it tells the words of the personal list alone, and it is null if there are none.
/**
 * @param {string} personal
 * @param {Source[]} sources
 */
export function joinLists(sources, personal) {
  const lists = sources.map(readSource);
  if (lists.length === 1 && !personal.trim()) return { ...toldOf(lists), words: lists[0].words, scores: lists[0].scores, placeOf: null };
  const own = readPersonal(personal);
  const several = new Several(lists, own);
  const scored = lists.some((list) => list.scored);
  const ofList = (/** @type {List} */ list, /** @type {number} */ at) => list.words.filter((word) => several.placeOf(word) === at + 1 && !own.hidden.has(word));
  const all = [...lists.flatMap(ofList), ...[...own.words.keys()].filter((word) => !own.hidden.has(word))];
  const placeOf = (/** @type {string} */ word) => (lists.length > 1 || own.words.has(word) ? several.placeOf(word) : null);
  return { ...toldOf(lists), words: scored ? ranked(all, several, several.best) : all, scores: scored ? several : new Map(), placeOf };
}

// What is told of lists beside their words.
/** @param {List[]} lists */
const toldOf = (lists) => ({
  scored: lists.some((list) => list.scored), best: lists.reduce((most, { best }) => Math.max(most, best), 0), leftOut: sumOf(lists.map((list) => list.leftOut)),
  folded: lists.reduce((sum, list) => sum + list.folded, 0), asRead: [...new Set(lists.flatMap((list) => list.asRead))],
});

// A list with its own scores, as lines of a file.
/** @param {Source} source */
export const linesOfList = (source) => scoreLines(readOwn(source).known);
