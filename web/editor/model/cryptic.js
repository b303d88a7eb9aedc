// Helpers of a cryptic setter: anagrams of an answer in words of the lists, and words that hide it.

/** @param {string} letters */
const sorted = (letters) => [...letters].sort().join('');

// The letters of one word without those of another; null if it does not have them all.
/**
 * @param {string} letters
 * @param {string} word
 */
function lettersLeft(letters, word) {
  let rest = letters;
  for (const letter of word) {
    const at = rest.indexOf(letter);
    if (at < 0) return null;
    rest = rest.slice(0, at) + rest.slice(at + 1);
  }
  return rest;
}

// The words and pairs of words that have the letters of an answer, so many at most: the words first, each other than the answer, then the pairs, those of
// like lengths first.
/**
 * @param {string} answer
 * @param {string[]} words
 * @param {number} most
 */
export function anagramsOf(answer, words, most) {
  const letters = sorted(answer);
  const single = words.filter((word) => word.length === answer.length && word !== answer && sorted(word) === letters);
  /** @type {Map<string, string[]>} the parts of the answer, by their letters */
  const parts = new Map();
  for (const word of words) {
    if (word.length < 2 || word.length > answer.length - 2 || lettersLeft(letters, word) === null) continue;
    const key = sorted(word);
    parts.set(key, [...(parts.get(key) ?? []), word]);
  }
  const pairs = [...parts].flatMap(([key, some]) => {
    const others = parts.get(lettersLeft(letters, key) ?? '') ?? [];
    return some.flatMap((one) => others.filter((other) => one <= other).map((other) => [one, other]));
  });
  const isOwn = (/** @type {string[]} */ pair) => pair.join('') === answer || [...pair].reverse().join('') === answer;
  const apart = (/** @type {string[]} */ pair) => Math.abs(pair[0].length - pair[1].length);
  const told = pairs.filter((pair) => !isOwn(pair)).sort((a, b) => apart(a) - apart(b)).map((pair) => pair.join(' '));
  return [...single, ...told].slice(0, most);
}

// the most words for one end of an answer
const MOST_ENDS = 4;

// The words that hide an answer, so many at most: within one word, or at the end of one and the beginning of the next. What is hidden is in capitals.
/**
 * @param {string} answer
 * @param {string[]} words
 * @param {number} most
 */
export function hiddenIn(answer, words, most) {
  const small = (/** @type {string} */ text) => text.toLowerCase();
  const within = words.filter((word) => word.length > answer.length + 1 && word.indexOf(answer) > 0 && !word.endsWith(answer)).map((word) => {
    const at = word.indexOf(answer);
    return small(word.slice(0, at)) + answer + small(word.slice(at + answer.length));
  });
  const ends = Array.from({ length: answer.length - 1 }, (_, at) => [answer.slice(0, at + 1), answer.slice(at + 1)]);
  const across = ends.map(([end, begin]) => {
    const firsts = words.filter((word) => word.length > end.length && word.endsWith(end)).slice(0, MOST_ENDS);
    const seconds = words.filter((word) => word.length > begin.length && word.startsWith(begin)).slice(0, MOST_ENDS);
    return firsts.flatMap((one) => seconds.map((other) => `${small(one.slice(0, -end.length))}${end} ${begin}${small(other.slice(begin.length))}`));
  });
  // some of each place where the answer can be cut, those in its middle first
  const middle = (/** @type {number} */ at) => Math.abs(2 * (at + 1) - answer.length);
  const order = across.map((found, at) => ({ found, at })).sort((a, b) => middle(a.at) - middle(b.at));
  const rounds = Array.from({ length: MOST_ENDS * MOST_ENDS }, (_, round) => order.map(({ found }) => found[round]).filter(Boolean)).flat();
  return [...within, ...rounds].slice(0, most);
}
