// Records of a session: what they say, and the commands that lead from one to another.
import { toText } from '../../xw.js';
import { withoutItalics } from './marks.js';

/** @type {Record<string, string>} */
const ESCAPES = { '\n': '\\n', '\r': '\\r', '\t': '\\t', ' ': '\\s', '\\': '\\\\' };
/** @type {Record<string, string>} */
const SPELLED = { n: '\n', r: '\r', t: '\t', s: ' ', '\\': '\\' };

// A text as commands spell it.
/** @param {string} text */
export function escapeText(text) {
  return text.replace(/[\\\n\r]|^[ \t]|[ \t]$/g, (byte) => ESCAPES[byte]);
}

/** @param {string} spelled */
export function unescapeText(spelled) {
  return spelled.replace(/\\(.)/g, (_, byte) => SPELLED[byte]);
}

const WINDOWS_1252 = toText(Uint8Array.from({ length: 256 }, (_, code) => code));
/** @type {Record<string, string>} */
const NEAR = { '→': '->', '←': '<-', '−': '-', '′': "'", '″': '"', 'ł': 'l', 'Ł': 'L', 'đ': 'd', 'Đ': 'D', 'ı': 'i', '≤': '<=', '≥': '>=', '≠': '/=' };

// A text with near characters in place of those that are not in Windows-1252, or `?`, and how many these are.
/** @param {string} text */
export function nearestText(text) {
  let count = 0;
  const near = Array.from(text, (character) => {
    if (WINDOWS_1252.includes(character)) return character;
    count++;
    const plain = NEAR[character] ?? character.normalize('NFKD').replace(/\p{M}/gu, '');
    return plain && [...plain].every((one) => WINDOWS_1252.includes(one)) ? plain : '?';
  }).join('');
  return { near, count };
}

// The text that the engine gets for one that was typed: with near characters and without italics; and how many characters are others.
/** @param {string} text */
export const engineText = (text) => nearestText(withoutItalics(text));

// The characters of a text that are not in the character set of .puz files, Windows-1252, each once; and the first of them, or null.
/** @param {string} text */
export const strangeCharacters = (text) => [...new Set(Array.from(text).filter((character) => !WINDOWS_1252.includes(character)))];
/** @param {string} text */
export const strangeCharacter = (text) => strangeCharacters(text)[0] ?? null;

// The most bytes of a text that go into one command.
const PIECE = 2000;

// The commands that set a field to what `spelled` spells.
/**
 * @param {string} field
 * @param {string} spelled
 */
export function textLines(field, spelled) {
  const lines = [];
  let rest = spelled;
  do {
    let length = Math.min(PIECE, rest.length);
    // a piece ends before an escape or after it
    const slashes = /\\*$/.exec(rest.slice(0, length))?.[0].length ?? 0;
    if (length < rest.length && slashes % 2) length -= 1;
    const piece = rest.slice(0, length).replace(/^[ \t]|[ \t]$/g, (byte) => ESCAPES[byte]);
    lines.push(`${lines.length ? 'more' : 'text'} ${field} ${piece}`);
    rest = rest.slice(length);
  } while (rest);
  return lines;
}

// What a record says: the words that are added, with their grades, which of them are words of the list, and those that are struck; sets of cells
// and bars by their coordinates (`R C`, and for a bar `R C SIDE`), letters by coordinates, and texts as they are spelled, by field.
/**
 * @typedef {{
 *   added: string[], struck: string[], grades: Map<string, number>, regraded: Set<string>, width: number, height: number, sym: string, blocks: Set<string>,
 *   bars: Set<string>, circles: Set<string>, letters: Map<string, string>, texts: Map<string, string>,
 * }} Said
 */
/**
 * @param {string} text
 * @returns {Said}
 */
export function parseRecord(text) {
  /** @type {Said} */
  const state = {
    added: [], struck: [], grades: new Map(), regraded: new Set(), width: 15, height: 15, sym: 'none', blocks: new Set(), bars: new Set(), circles: new Set(), letters: new Map(),
    texts: new Map(),
  };
  for (const line of text.split('\n')) takeLine(state, line.replace(/\r$/, ''));
  return state;
}

/**
 * @param {Said} state
 * @param {string} line
 */
function takeLine(state, line) {
  const [, name, rest] = /^[ \t]*(\S*)[ \t]*(.*)$/s.exec(line) ?? ['', '', ''];
  switch (name) {
    case 'add':
      takeWord(state, .../** @type {[string, string?]} */ (rest.toUpperCase().split(/[ \t]+/)));
      break;
    case 'strike':
      state.struck.push(rest.toUpperCase());
      break;
    case 'size':
      [state.width, state.height] = rest.split(' ').map(Number);
      break;
    case 'sym':
      state.sym = rest;
      break;
    case 'block':
      state.blocks.add(rest);
      break;
    case 'bar':
      state.bars.add(rest);
      break;
    case 'circle':
      state.circles.add(rest);
      break;
    case 'set':
      state.letters.set(rest.slice(0, -2), rest.slice(-1));
      break;
    case 'text':
    case 'more':
      takeText(state.texts, name, rest);
      break;
  }
}

/**
 * @param {Said} state
 * @param {string} word
 */
function takeWord(state, word, grade = '100') {
  const isAdded = state.added.includes(word);
  if (state.struck.includes(word) && !isAdded) state.regraded.add(word);
  state.struck = state.struck.filter((other) => other !== word);
  if (!isAdded) state.added.push(word);
  state.grades.set(word, Number(grade));
}

/**
 * @param {Map<string, string>} texts
 * @param {string} name
 * @param {string} rest
 */
function takeText(texts, name, rest) {
  const [, field, spelled] = /^(clue \d+ \d+ \w+|\w+) ?(.*)$/s.exec(rest) ?? ['', '', ''];
  texts.set(field, name === 'more' ? (texts.get(field) ?? '') + spelled : spelled);
}

// The lines of a record that enter letters.
/** @param {string} record */
export const lettersOf = (record) => record.split('\n').filter((line) => line.startsWith('set '));

// What a line `set R C L` or `clear R C` enters: the coordinates of a cell, and its letter or ''.
/**
 * @param {string} line
 * @returns {[string, string]}
 */
export function letterIn(line) {
  const [, row, column, letter = ''] = line.split(' ');
  return [`${row} ${column}`, letter];
}

// The row and the column of coordinates.
/**
 * @param {string} coordinates
 * @returns {[number, number]}
 */
export const placeOf = (coordinates) => /** @type {[number, number]} */ (coordinates.split(' ').map(Number));

// A record without the least grade, which belongs to the word lists and not to a puzzle.
/** @param {string} record */
export const withoutLeast = (record) => record.replace(/^least \d+\n/m, '');

// The lines of a record that change the words.
/** @param {string} record */
export const wordsOf = (record) => record.split('\n').filter((line) => /^(add|strike) /.test(line));

// A record without the texts and clues.
/** @param {string} record */
export const withoutTexts = (record) => record.split('\n').filter((line) => !/^(text|more) /.test(line)).join('\n');

// The lines of a record that make its grid and its texts, without notes and those of words, of the least grade and of the watch.
/** @param {string} record */
export function bodyOf(record) {
  return record.split('\n').filter((line) => line && !/^(#|(add|strike|least|watch) )/.test(line));
}

/**
 * @param {Iterable<string>} some
 * @param {{ has: (one: string) => boolean }} others
 */
const without = (some, others) => [...some].filter((one) => !others.has(one));

// The lines that lead from the words of one state to those of another. `gradeOf` tells the grade that a word has in the list. A word that
// comes back would have its grade raised to the least one, so the least grade has to be 0 while these lines are sent.
/**
 * @param {Said} from
 * @param {Said} to
 * @param {(word: string) => number} gradeOf
 */
function wordLines(from, to, gradeOf) {
  const active = (/** @type {Said} */ state) => new Set(state.added.filter((word) => !state.struck.includes(word)));
  const bans = (/** @type {Said} */ state) => new Set(state.struck);
  const [now, then] = [active(from), active(to)];
  // without a grade, a word that was known before would keep its own
  const add = (/** @type {string} */ word, /** @type {number | undefined} */ grade) => `add ${word} ${grade}`;
  // a word that is active may have another grade
  const enter = (/** @type {string} */ word) => [...(now.has(word) || to.regraded.has(word) ? [`strike ${word}`] : []), add(word, to.grades.get(word))];
  // a word of the list that was given another grade gets its own again
  const leave = (/** @type {string} */ word) => [`strike ${word}`, ...(from.regraded.has(word) ? [add(word, gradeOf(word))] : [])];
  return [
    ...[...then].filter((word) => !now.has(word) || from.grades.get(word) !== to.grades.get(word)).flatMap(enter),
    // a word of the list that is no longer struck, which may have been given another grade before
    ...without(bans(from), bans(to)).filter((word) => !then.has(word)).flatMap((word) => {
      if (from.regraded.has(word)) return [add(word, gradeOf(word))];
      return from.added.includes(word) ? [] : [`add ${word}`];
    }),
    ...without(now, then).filter((word) => !to.struck.includes(word)).flatMap(leave),
    ...without(bans(to), bans(from)).map((word) => `strike ${word}`),
  ];
}

/**
 * @param {Said} from
 * @param {Said} to
 */
function gridLines(from, to) {
  const [opened, closed] = [without(from.blocks, to.blocks), without(to.blocks, from.blocks)];
  const bars = [...without(from.bars, to.bars), ...without(to.bars, from.bars)];
  const circles = [...without(from.circles, to.circles), ...without(to.circles, from.circles)];
  const toggles = opened.length + closed.length + bars.length > 0;
  const cleared = without(from.letters.keys(), to.letters);
  const entered = [...to.letters].filter(([coordinates, letter]) => from.letters.get(coordinates) !== letter);
  return [
    ...(toggles ? ['sym none'] : []),
    ...cleared.map((coordinates) => `clear ${coordinates}`),
    ...opened.map((coordinates) => `block ${coordinates}`),
    ...circles.map((coordinates) => `circle ${coordinates}`),
    ...bars.map((coordinates) => `bar ${coordinates}`),
    ...closed.map((coordinates) => `block ${coordinates}`),
    ...(toggles || from.sym !== to.sym ? [`sym ${to.sym}`] : []),
    ...entered.map(([coordinates, letter]) => `set ${coordinates} ${letter}`),
  ];
}

/**
 * @param {Said} from
 * @param {Said} to
 */
function textChanges(from, to) {
  const lines = [];
  for (const field of new Set([...from.texts.keys(), ...to.texts.keys()])) {
    const spelled = to.texts.get(field) ?? '';
    if ((from.texts.get(field) ?? '') !== spelled) lines.push(...textLines(field, spelled));
  }
  return lines;
}

// The commands that lead from one record to another, in a session that began with the same words: those for the words, and those for the rest.
/**
 * @param {string} before
 * @param {string} after
 * @param {(word: string) => number} gradeOf
 */
export function transition(before, after, gradeOf) {
  const [from, to] = [parseRecord(before), parseRecord(after)];
  const words = wordLines(from, to, gradeOf);
  // a circle under a block cannot be toggled
  const circles = [...without(from.circles, to.circles), ...without(to.circles, from.circles)];
  const isHidden = circles.some((coordinates) => from.blocks.has(coordinates) && to.blocks.has(coordinates));
  if (from.width !== to.width || from.height !== to.height || isHidden) {
    // a new size drops clues, and keeps the other texts
    const kept = without(from.texts.keys(), to.texts).filter((field) => !field.startsWith('clue '));
    return { words, rest: [...bodyOf(after), ...kept.map((field) => `text ${field} `)] };
  }
  return { words, rest: [...gridLines(from, to), ...textChanges(from, to)] };
}
