// Word lists: which lines are words, and why others are left out. The worker has this module too.
import { toText } from '../../xw.js';
import { lengthsOfSpelling } from '../model/enumeration.js';
import { randoms, shuffled } from '../model/random.js';
import { formTexts, formerForm, isMost, linesOf, parsed, toHundred } from './list-form.js';

/** @typedef {import('./list-form.js').Form} Form */

// The text of a list, or of its beginning, in UTF-8, in UTF-16 with its byte order mark, or in Windows-1252.
/** @param {Uint8Array} bytes */
export function listText(bytes) {
  const mark = `${bytes[0]} ${bytes[1]}`;
  if (mark === '255 254') return new TextDecoder('utf-16le').decode(bytes);
  if (mark === '254 255') return new TextDecoder('utf-16be').decode(bytes);
  try {
    // what begins a character at the end, and does not end it, is dropped
    return new TextDecoder('utf-8', { fatal: true }).decode(bytes, { stream: true });
  } catch {
    return toText(bytes);
  }
}

// A phrase of up to six words, which may have signs in them.
const PHRASE = /^[\p{L}\p{M}\p{N}.'’‘!?&/+–-]+( [\p{L}\p{M}\p{N}.'’‘!?&/+–-]+){0,5}$/u;

// Whether a spelling looks like a word or a phrase. Markup, code and prose do not.
/** @param {string} spelling */
function isSpelling(spelling) {
  if (/^[A-Za-z]{1,60}$/.test(spelling)) return true;
  const bare = spelling.trim().replace(/^"([^"]*)"$/, '$1');
  return bare.length <= 60 && PHRASE.test(bare) && 2 * bare.replace(/[^\p{L}]/gu, '').length > bare.length;
}

// The words of a list as its lines spell them.
/**
 * @param {string} text
 * @param {Form | null} chosen
 */
function listLines(text, chosen = null) {
  const lines = linesOf(text);
  const form = chosen ?? formerForm(lines);
  return lines.map((line) => parsed(line, form).spelling);
}

// Whether most lines of a text are words, so that it is a word list.
/** @param {string} text */
export function isWordList(text) {
  const lines = listLines(text).filter((spelling) => !spelling.startsWith('#'));
  return isMost(lines.filter(isSpelling).length, lines.length);
}

// Why a line is left out.
/** @type {Record<string, (count: number) => string>} */
const WHY = {
  letters: () => 'with letters other than A to Z',
  signs: () => 'with signs that are not ASCII',
  unscored: () => 'without a score',
  low: (count) => (count === 1 ? 'with a score below 0' : 'with scores below 0'),
  short: () => 'with fewer than 2 letters',
  long: () => 'with more than 255 letters',
  repeated: (count) => (count === 1 ? 'that repeats a word' : 'that repeat words'),
};

// Letters that are not one of A to Z with an accent, and how they are spelled without it.
/** @type {Record<string, string>} */
const SPELLED = { Æ: 'AE', æ: 'ae', Œ: 'OE', œ: 'oe', Ø: 'O', ø: 'o', ẞ: 'SS', ß: 'ss', Ł: 'L', ł: 'l', Đ: 'D', đ: 'd', Ð: 'D', ð: 'd', Þ: 'TH', þ: 'th' };

// A spelling without accents: É is E, and Œ is OE.
/** @param {string} spelling */
export function unaccented(spelling) {
  if (!/[^\x00-\x7f]/.test(spelling)) return spelling;
  return spelling.normalize('NFD').replace(/\p{M}/gu, '').replace(/\p{L}/gu, (letter) => SPELLED[letter] ?? letter);
}

// What keeps a spelling without accents from being a word of the list, or null.
/**
 * @param {string} spelling
 * @param {string} letters
 * @param {number | null} score
 * @param {boolean} isScored
 */
function reasonToLeave(spelling, letters, score, isScored) {
  if (/[^\x00-\x7f]/.test(spelling)) return /\p{L}/u.test(spelling.replace(/[\x00-\x7f]/g, '')) ? 'letters' : 'signs';
  if (isScored && score === null) return 'unscored';
  if (isScored && Number(score) < 0) return 'low';
  if (letters.length < 2) return 'short';
  return letters.length > 255 ? 'long' : null;
}

// Whether spellings are in the order of the alphabet, but for some.
/** @param {string[]} spellings */
function isAlphabetical(spellings) {
  const ordered = spellings.filter((spelling, at) => at > 0 && spellings[at - 1] <= spelling).length;
  return 10 * ordered > 9 * (spellings.length - 1);
}

// Things by their scores, the best first; equal ones stay in their order.
/**
 * @template T
 * @param {T[]} things
 * @param {(thing: T) => number} scoreOf
 */
export function bestFirst(things, scoreOf) {
  /** @type {Map<number, T[]>} */
  const byScore = new Map();
  for (const thing of things) {
    const score = scoreOf(thing);
    const equal = byScore.get(score);
    if (equal) equal.push(thing);
    else byScore.set(score, [thing]);
  }
  return [...byScore].sort(([one], [other]) => other - one).flatMap(([, equal]) => equal);
}

// The letters of a spelling without accents, in capitals.
/** @param {string} spelled */
const capitals = (spelled) => (/^[A-Z]*$/.test(spelled) ? spelled : spelled.replace(/[^A-Za-z]/g, '').toUpperCase());

// What lines have, each in the order of the file: their letters and scores; the numbers of those that are left out, with why; of those with accents; and for
// each word the number of its line, which is that of its best score.
/**
 * @param {string[]} lines
 * @param {Form} form
 */
function columnsOf(lines, form) {
  const scored = form.score !== null;
  /** @type {string[]} */
  const letters = new Array(lines.length);
  const scores = new Float64Array(lines.length);
  /** @type {Map<number, string>} */
  const leftOut = new Map();
  /** @type {Map<string, number>} */
  const found = new Map();
  /** @type {number[]} */
  const folded = [];
  lines.forEach((line, at) => {
    const { spelling, score } = parsed(line, form);
    const spelled = unaccented(spelling);
    const word = capitals(spelled);
    const reason = reasonToLeave(spelled, word, score, scored);
    letters[at] = word;
    scores[at] = score ?? 0;
    if (reason) {
      leftOut.set(at, reason);
      return;
    }
    if (spelled !== spelling) folded.push(at);
    const other = found.get(word);
    const isBetter = other === undefined || scores[other] < (score ?? NaN);
    if (isBetter) found.set(word, at);
    if (other !== undefined) leftOut.set(isBetter ? other : at, 'repeated');
  });
  return { letters, scores, leftOut, found, folded };
}

// The numbers of lines with the best scores first. Equal ones come in an order that says nothing, and not in that of the alphabet. A list without scores that
// is in another order keeps it.
/**
 * @param {string[]} lines
 * @param {Form} form
 * @param {Float64Array} scores
 */
function inOrder(lines, form, scores) {
  const order = lines.map((_, at) => at);
  const isMixed = form.score !== null || isAlphabetical(lines.map((line) => parsed(line, form).spelling));
  const mixed = isMixed ? shuffled(order, randoms(lines.length)) : order;
  return form.score === null ? mixed : bestFirst(mixed, (at) => scores[at]);
}

// Reads a list: its words in capitals, each once, the best scores first if it has scores; `known` has the score of each, or null, and `scores` the same if
// there are scores; the best score of the list; how many lines are left out, by reason, and the first few of them; how many words were spelled with accents; and how its scores were read. `form` says how its
// lines have words and scores; without it they tell that.
/**
 * @param {Uint8Array} bytes
 * @param {Form | null} form
 */
export function readList(bytes, form = null) {
  const lines = linesOf(listText(bytes));
  return readLines(lines, form ?? formerForm(lines));
}

/**
 * @param {string[]} lines
 * @param {import('./list-form.js').Form} form
 */
export function readLines(lines, form) {
  const scored = form.score !== null;
  const { letters, scores, leftOut, found, folded } = columnsOf(lines, form);
  const words = inOrder(lines, form, scores).filter((at) => !leftOut.has(at)).map((at) => letters[at]);
  /** @type {Map<string, number | null>} */
  const none = new Map();
  const best = scored ? toHundred(scores.reduce((most, score) => Math.max(most, score), 0), form.scale) : 0;
  /** @type {Map<string, number | null>} */
  const known = found;
  for (const [word, at] of found) known.set(word, scored ? toHundred(scores[at], form.scale) : null);
  return {
    words, known, scores: scored ? known : none, scored, best, leftOut: countsOf([...leftOut.values()]), dropped: firstOf(leftOut, lines), folded: folded.filter((at) => !leftOut.has(at)).length,
    asRead: formTexts(form),
  };
}

// how many of the lines that are left out are named, and how much of each
const MOST_NAMED = 5;
const MOST_OF_LINE = 60;

// How many lines are left out for each reason.
/** @param {string[]} reasons */
function countsOf(reasons) {
  /** @type {Record<string, number>} */
  const counts = {};
  for (const reason of reasons) counts[reason] = (counts[reason] ?? 0) + 1;
  return counts;
}

// The first lines that are left out, and why.
/**
 * @param {Map<number, string>} leftOut
 * @param {string[]} lines
 */
const firstOf = (leftOut, lines) => [...leftOut].sort(([one], [other]) => one - other).slice(0, MOST_NAMED).map(([at, reason]) => ({ text: lines[at].slice(0, MOST_OF_LINE), why: WHY[reason](1) }));

// A line of the personal list: { letters, isHidden, score, spelling }. `letters` is '' if it has no word.
/** @param {string} line */
function personalLine(line) {
  const [, minus, spelling, score] = /^\s*(-?)([^;#]*)(?:;\s*(\d+))?/.exec(line) ?? ['', '', ''];
  const letters = unaccented(spelling).replace(/[^A-Za-z]/g, '').toUpperCase();
  const isWord = letters.length >= 2 && letters.length <= 255;
  return { letters: isWord ? letters : '', isHidden: Boolean(minus), score: score === undefined ? null : Number(score), spelling: spelling.trim() };
}

/** @param {string} text */
const splitLines = (text) => text.split(/\r\n?|\n/);

// Reads the personal list. A line is a word, with a score after a semicolon and a note after `#`, or after a minus sign a word that is hidden.
// Returns the words with their scores, the hidden words, and what is no word.
/** @param {string} text */
export function readPersonal(text) {
  /** @type {Map<string, number | null>} */
  const words = new Map();
  /** @type {Set<string>} */
  const hidden = new Set();
  /** @type {string[]} */
  const faults = [];
  for (const { letters, isHidden, score, spelling } of splitLines(text).map(personalLine)) {
    if (letters && isHidden) hidden.add(letters);
    else if (letters) words.set(letters, score);
    else if (spelling) faults.push(spelling);
  }
  return { words, hidden, faults };
}

// The personal list with the lines of another text behind its own, and how many of these were taken, said what is there already, or have no word.
/**
 * @param {string} text
 * @param {string} other
 */
export function joinPersonal(text, other) {
  const { words, hidden } = readPersonal(text);
  const lines = [];
  let [there, faults] = [0, 0];
  for (const line of splitLines(other)) {
    const { letters, isHidden, score, spelling } = personalLine(line);
    const isThere = isHidden ? hidden.has(letters) : words.has(letters) && words.get(letters) === score;
    if (!letters) faults += spelling ? 1 : 0;
    else if (isThere) there++;
    else lines.push(line.trim());
  }
  return { joined: [text.trimEnd(), ...lines].filter(Boolean).join('\n'), taken: lines.length, there, faults };
}

// The personal list with other scores for words: in the last line that a word has there, or in one of its own. A hidden word is no longer hidden.
/**
 * @param {string} text
 * @param {Map<string, number>} scores
 */
export function withScores(text, scores) {
  const lines = splitLines(text);
  const isOf = (/** @type {string} */ word) => (/** @type {string} */ line) => personalLine(line).letters === word;
  for (const [word, score] of scores) {
    const at = lines.map(isOf(word)).lastIndexOf(true);
    const note = /#.*$/.exec(lines[at] ?? '')?.[0];
    const line = [`${word};${score}`, note].filter(Boolean).join(' ');
    if (at < 0) lines.push(line);
    else lines[at] = line;
  }
  return lines.join('\n').trim();
}

// A list shows how its entries part into words if one in so many has a space or a hyphen. Others may write all phrases in one.
const PARTED = 100;
/** @param {string} spelling */
const isParted = (spelling) => /[^ -][ -][^ -]/.test(spelling);

// The spellings of a list, if it shows how they part.
/** @param {{ bytes: Uint8Array, form?: import('./list-form.js').Form | null }} list */
function partedSpellings({ bytes, form = null }) {
  const spellings = listLines(listText(bytes), form).map((spelling) => spelling.trim());
  return PARTED * spellings.filter(isParted).length >= spellings.length ? spellings : [];
}

// The enumerations of words as [word, “5,9”], for those that lists show: each that has the word shows the same one. `plain` is a list of single words. Lines
// of the personal list show them if they part, since others may be of words that the page put there.
/**
 * @param {string[]} words
 * @param {{ sources: { bytes: Uint8Array, form?: import('./list-form.js').Form | null }[], personal: string, plain: Uint8Array }} lists
 * @returns {[string, string][]}
 */
export function enumerationsOf(words, { sources, personal, plain }) {
  /** @type {Map<string, Set<string>>} */
  const found = new Map(words.map((word) => [word, new Set()]));
  const own = splitLines(personal).map((line) => personalLine(line).spelling).filter(isParted);
  const spellings = [...sources.map(partedSpellings), linesOf(listText(plain)), own];
  for (const spelling of spellings.flat()) {
    const spelled = unaccented(spelling);
    found.get(spelled.replace(/[^A-Za-z]/g, '').toUpperCase())?.add(lengthsOfSpelling(spelled));
  }
  return [...found].filter(([, lengths]) => lengths.size === 1).map(([word, [lengths]]) => [word, lengths]);
}

/** @param {number} count */
export const wordCount = (count) => `${count.toLocaleString('en')} ${count === 1 ? 'word' : 'words'}`;

// How many words of a list had accents; or ''.
/** @param {number} folded */
export const foldedText = (folded) => (folded ? `${folded.toLocaleString('en')} without ${folded === 1 ? 'its accent' : 'their accents'}` : '');

// How many lines of a list are left out and why, as in “12 lines left out: 9 that repeat words, 3 with scores below 0”; or ''.
/** @param {Readonly<Record<string, number>>} leftOut */
export function leftOutText(leftOut) {
  const reasons = Object.keys(WHY).filter((reason) => leftOut[reason]);
  const count = reasons.reduce((sum, reason) => sum + leftOut[reason], 0);
  if (!count) return '';
  const told = reasons.map((reason) => `${leftOut[reason].toLocaleString('en')} ${WHY[reason](leftOut[reason])}`);
  return `${count.toLocaleString('en')} ${count === 1 ? 'line' : 'lines'} left out: ${told.join(', ')}`;
}
