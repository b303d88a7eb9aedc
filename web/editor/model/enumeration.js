// Enumerations: the lengths of the words of an answer at the end of its clue, as in “(3,5)”, “(2-4, 6)”, “(1’1,4)” or “(3 wds.)”.

const WORDS = '(wds?|words?|letters?|hyph|hyphenated|abbr)';
const LAST = new RegExp(`\\(\\s*(\\d{1,2}(?:\\s*[-‐–—,;.'’/\\s]\\s*\\d{1,2})*)((?:[\\s,;]+${WORDS}\\.?)*)\\s*\\)[\\s.]*$`, 'i');

// Whether a clue ends with an enumeration. A number of three digits or more, as of a year, is no length.
/** @param {string} clue */
export const hasEnumeration = (clue) => LAST.test(clue);

// A clue without its enumeration, and that: as the clue has it, or else the given one.
/**
 * @param {string} clue
 * @param {string | number} lengths
 */
export function enumerated(clue, lengths) {
  if (!hasEnumeration(clue)) return { text: clue, enumeration: `(${lengths})` };
  const at = clue.lastIndexOf('(');
  return { text: clue.slice(0, at).trim(), enumeration: clue.slice(at).trim() };
}

// A clue with an enumeration: its own, or the given one, as “8” or “3,5”.
/**
 * @param {string} clue
 * @param {string | number} lengths
 */
export function withEnumeration(clue, lengths) {
  const { text, enumeration } = enumerated(clue.trim(), lengths);
  return `${text} ${enumeration}`.trim();
}

// The enumeration of an answer by how it is spelled, as “5,9” of CROSS REFERENCES or “2-4” of RE-SIGN. Signs count for nothing: O'CLOCK has six letters.
/** @param {string} spelling */
export function lengthsOfSpelling(spelling) {
  const counted = (/** @type {(string | number)[]} */ parts, /** @type {string} */ mark) => parts.filter(Boolean).join(mark);
  const lengthOf = (/** @type {string} */ part) => part.replace(/[^A-Za-z]/g, '').length;
  return counted(spelling.split(' ').map((word) => counted(word.split('-').map(lengthOf), '-')), ',');
}

// The lengths that the enumeration of a clue has; null if the clue has none, or one that counts something else, as “(3 wds.)” does.
/** @param {string} clue */
function enumeratedLengths(clue) {
  const [, lengths, words] = LAST.exec(clue) ?? [];
  return !lengths || /w|hyph/i.test(words) ? null : [...lengths.matchAll(/\d+/g)].map(Number);
}

/** @param {readonly number[]} lengths */
const sumOf = (lengths) => lengths.reduce((sum, length) => sum + length, 0);

// How many letters the enumeration of a clue counts; null if it counts none.
/** @param {string} clue */
export function enumeratedLength(clue) {
  const lengths = enumeratedLengths(clue);
  return lengths && sumOf(lengths);
}

// The parts of an answer by the enumeration of its clue, as ICE and CREAM by (3,5); none if that counts other letters.
/**
 * @param {string} clue
 * @param {string} answer
 */
export function partedBy(clue, answer) {
  const lengths = enumeratedLengths(clue);
  if (!lengths || sumOf(lengths) !== answer.length) return [];
  return lengths.map((length, at) => answer.slice(sumOf(lengths.slice(0, at))).slice(0, length));
}
