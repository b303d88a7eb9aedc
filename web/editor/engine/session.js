// The session of a worker: its engine, with what the word lists say of words. What asks it more than one line at a time puts all back, unless it says so.
import { Xw, ask as askOf, load, toBytes, toText } from '../../xw.js';
import { joinLists } from '../formats/joined-lists.js';
import { leftOutText } from '../formats/word-list.js';
import { MOST, UNSCORED, gradeOf } from '../model/grades.js';
import { withoutLeast } from '../model/record.js';
import { statusOf } from './engine.js';
import { gridIn, named } from './told.js';

/** @typedef {{ coordinates: string, letter: string }} Filled a cell with its letter, where `.` is none */
/** @typedef {(number | null)[]} Known the scores of words */
/** @typedef {import('./told.js').Answers} Answers */
/** @typedef {import('../../xw.js').Arguments} Arguments */
/** @typedef {{ answer: string, grade: number | null, bound: number | null }} Found how a search ends, or why it is refused */

/** @type {any} */
let module;
/** @type {Xw} */
let xw;
// the score of each word, if the list has scores; a word that has none has null
/** @type {{ get: (word: string) => number | null | undefined }} */
let scores = new Map();
let isScored = false;
let bestScore = 0;
// tells the place of the list that a word is from; or null
/** @type {((word: string) => number | null) | null} */
let placeOf = null;

/** @param {{ bytes: any }} sent */
export async function loadModule({ bytes }) {
  module = await load(bytes);
}

/**
 * What a command answers. One that is refused throws a fault.
 * @template {keyof Answers} C
 * @param {C} command
 * @param {Arguments[C]} given
 * @returns {Answers[C]}
 */
export const ask = (command, ...given) => askOf(xw, command, ...given);

// How a search ends, or why it is refused.
/**
 * @param {'autofill' | 'best'} command
 * @param {Arguments['best']} given
 * @returns {Found}
 */
export function outcome(command, ...given) {
  const told = orRefusal(() => ask(command, ...given), (answer) => answer);
  return typeof told === 'string' ? { answer: told, grade: null, bound: null } : told;
}

/**
 * What an action returns, or what its refusal makes of that.
 * @template T, R
 * @param {() => T} action
 * @param {(name: string) => R} refused
 * @returns {T | R}
 */
function orRefusal(action, refused) {
  try {
    return action();
  } catch (fault) {
    if (statusOf(fault) !== 'Refused') throw fault;
    return refused(/** @type {import('../../xw.js').Fault} */ (fault).answer);
  }
}

// What a command answers; null where it is refused.
/** @param {{ command: any, given: any }} sent */
export const askOrNull = ({ command, given }) => orRefusal(() => ask(command, .../** @type {[]} */ (given)), () => null);

// Sends an edit whose answer nobody reads. Returns whether it is refused.
/** @param {string} line */
export const isRefused = (line) => xw.answer(toBytes(line)).status === 'Refused';

// Sends edits whose answers nobody reads.
/** @param {string[]} lines */
export const send = (...lines) => lines.forEach((line) => isRefused(line));

// Replays lines of a record with a grid, which the engine takes over at once, so it is much faster than its edits one after another.
/** @param {string[]} lines */
export const replay = (lines) => xw.resume(`${lines.join('\n')}\n`);

// How many words each light has left.
export const counts = () => Uint32Array.from(ask('counts'), ({ words }) => words);

export const recordNow = () => toText(xw.record());

// All that the grid shows.
const whole = () => ({ show: ask('show'), lights: ask('lights'), cells: ask('cells'), counts: counts(), circles: ask('circles'), texts: ask('texts') });

/** @typedef {ReturnType<typeof whole>} Whole */

/** @param {readonly string[]} cells */
export const clear = (cells) => send(...cells.map((coordinates) => `clear ${coordinates}`));

/** @param {readonly Filled[]} cells */
export const putBack = (cells) => send(...cells.map(({ coordinates, letter }) => (letter === '.' ? `clear ${coordinates}` : `set ${coordinates} ${letter}`)));

// The score of a word, or null.
/** @param {string} word */
export const scoreOf = (word) => scores.get(word) ?? null;

// The scores of words, and the places of the lists that they are from; each null where the lists have none.
/** @param {string[]} words */
export const knownOf = (words) => ({ scores: isScored ? words.map(scoreOf) : null, places: placeOf && words.map(placeOf) });

// The word list for the engine, with a grade for each word that has a score.
/**
 * @param {string[]} words
 * @param {Known} known
 * @param {number} best
 */
function graded(words, known, best) {
  const line = (/** @type {string} */ word, /** @type {number | null} */ score) => (score === null ? word : `${word};${gradeOf(score, best)}`);
  return words.map((word, at) => line(word, known[at])).join('\n');
}

// The grade that the engine has for a word of a list by its score, or by none.
/**
 * @param {number | null} score
 * @param {number} best
 */
const gradeInList = (score, best) => (score === null ? UNSCORED : gradeOf(score, best));

// How many words have each grade.
/**
 * @param {Known} known
 * @param {number} best
 */
function countByGrade(known, best) {
  const byGrade = new Uint32Array(MOST + 1);
  for (const score of known) byGrade[gradeInList(score, best)]++;
  return byGrade;
}

// The least grade that a least score asks for. Some words are left, those of the best grade at least.
/**
 * @param {number} least
 * @param {number} best
 * @param {Uint32Array} byGrade
 */
function leastGrade(least, best, byGrade) {
  const top = byGrade.reduce((last, count, grade) => (count > 0 ? grade : last), -1);
  return Math.max(0, Math.min(gradeOf(least, best), top));
}

// Opens a session over word lists, and replays a record. If it cannot, the session before stays.
/** @param {{ sources: import('../formats/joined-lists.js').Source[], personal: string, least: number, threes: number, record: string }} sent */
export function open({ sources, personal, least, threes, record }) {
  const { words: all, scores: scoresRead, placeOf: placeRead, ...told } = joinLists(sources, personal);
  const words = threes ? all.filter((word) => word.length !== 3 || (scoresRead.get(word) ?? threes) >= threes) : all;
  if (sources.length && !words.length) throw Object.assign(new Error('no word'), { status: 'NoWord', answer: leftOutText(told.leftOut) });
  const known = words.map((word) => scoresRead.get(word) ?? null);
  const other = Xw.open(module, { list: told.scored ? graded(words, known, told.best) : words.join('\n'), record });
  xw?.close();
  xw = other;
  scores = scoresRead;
  isScored = told.scored;
  placeOf = placeRead;
  bestScore = told.best;
  const byGrade = countByGrade(known, told.best);
  const grade = told.scored ? leastGrade(least, told.best, byGrade) : 0;
  if (grade) send(`least ${grade}`);
  send('watch on');
  return { reports: other.reports, words: words.length, byGrade, grade, ...told, record: withoutLeast(recordNow()), ...whole() };
}

// The record of a puzzle file, or of a record itself. The session is not touched.
/** @param {{ puzzle?: Uint8Array, record?: string }} sent */
export function read({ puzzle, record }) {
  const other = Xw.open(module, puzzle ? { puzzle } : { record });
  const text = withoutLeast(toText(other.record()));
  other.close();
  return text;
}

// The lights of the grid of a record, with their first cells. The session is not touched.
/** @param {{ record: string }} sent */
export function lightsOf({ record }) {
  const other = Xw.open(module, { record });
  const lights = askOf(other, 'lights').map(({ light, row, column }) => ({ ...named(light), row, column }));
  other.close();
  return lights;
}

// The cells that an edit changed, as the watch tells them; or why it is refused.
/** @param {string} line */
function edited(line) {
  const [command, ...given] = line.split(' ');
  return orRefusal(() => askOf(xw, /** @type {import('../../xw.js').Change} */ (command), .../** @type {any} */ (given)), (name) => name);
}

// Sends edits. The answer has the first refusal, or null. With `isWhole` it has all that the grid shows; else the cells that changed, and the counts.
/** @param {{ lines: string[], isWhole: boolean }} sent */
export function edit({ lines, isWhole }) {
  const begin = performance.now();
  const told = lines.map(edited);
  const refusal = told.find((one) => typeof one === 'string') ?? null;
  const shown = isWhole ? whole() : { changed: told.flatMap((one) => (typeof one === 'string' ? [] : one)), counts: counts() };
  return { refusal, ...shown, engine: performance.now() - begin };
}

// The grades that words of the list have in it.
/** @param {{ words: string[] }} sent */
export const listGrades = ({ words }) => words.map((word) => gradeInList(scoreOf(word), bestScore));

// A session without words, in which grids are tried.
/** @type {Xw | undefined} */
let scratch;

// The cells of a block and its images under a symmetry, as the engine toggles them.
/** @param {{ width: number, height: number, sym: string, coordinates: string }} sent */
export function orbit({ width, height, sym, coordinates }) {
  const grid = (scratch ??= Xw.open(module));
  for (const line of [`size ${width} ${height}`, `sym ${sym}`, `block ${coordinates}`]) grid.line(line);
  return gridIn(askOf(grid, 'show')).cells.flatMap(({ block }, at) => (block ? [`${Math.floor(at / width) + 1} ${(at % width) + 1}`] : []));
}

// The puzzle as a file.
/** @param {{ form: 'puz' | 'text' }} sent */
export const file = ({ form }) => (form === 'puz' ? xw.puz() : xw.text());
