// Other scores for words of a list: those that a pattern or a regular expression finds, before anything is changed. The worker has this module.
import { MOST } from '../model/grades.js';

// What words are found, by a pattern in which `?` is a letter and `*` any letters, or by a regular expression; and whether they get the score `value`, or one
// that is so much higher.
/** @typedef {{ kind: 'pattern' | 'regular', text: string, how: 'to' | 'by', value: number }} Rule */

// how many changes are shown
export const SHOWN = 100;
const MOST_VALUE = 1000000;

// What is wrong with a rule, in a few words; or ''.
/** @param {Rule} rule */
export function faultOf(rule) {
  const { kind, text, how, value } = rule;
  if (!text.trim()) return kind === 'pattern' ? 'type a pattern, such as ?AT or *ING' : 'type a regular expression, such as ING$';
  if (kind === 'pattern' && /[^A-Z?*]/i.test(text.trim())) return 'a pattern has the letters A to Z, ? and * alone';
  if (!Number.isFinite(value) || Math.abs(value) > MOST_VALUE || (how === 'to' && value < 0)) return how === 'to' ? 'a score is a number from 0 on' : 'type a number';
  try {
    testOf(rule);
    return '';
  } catch (fault) {
    return `that is no regular expression: ${/** @type {Error} */ (fault).message}`;
  }
}

// A pattern is for whole words. A regular expression is looked for in their capital letters, wherever `^` and `$` do not say more.
/** @param {Rule} rule */
function testOf(rule) {
  const text = rule.text.trim();
  const whole = text.toUpperCase().replaceAll('?', '.').replace(/\*+/g, '.*');
  return rule.kind === 'pattern' ? new RegExp(`^${whole}$`) : new RegExp(text, 'i');
}

// The score of a word after a rule, within 0 to 100, or to the best of its list if that is higher. A word without a score only gets one that is given.
/**
 * @param {number | null} score
 * @param {number} best
 * @param {Rule} rule
 */
function scoreAfter(rule, score, best) {
  if (rule.how === 'by' && score === null) return null;
  const wanted = rule.how === 'to' ? rule.value : Number(score) + rule.value;
  return Math.max(0, Math.min(Math.max(MOST, best), Math.round(100 * wanted) / 100));
}

// Scores as a text of lines, in order of the alphabet. A word without one stands alone.
/** @param {Map<string, number | null>} scores */
export const scoreLines = (scores) => [...scores].map(([word, score]) => (score === null ? word : `${word};${score}`)).sort().map((line) => `${line}\n`).join('');

// The scores that such a text has.
/** @param {string} text */
export function scoresIn(text) {
  const lines = text.split('\n').filter(Boolean).map((line) => line.split(';'));
  return /** @type {Map<string, number>} */ (new Map(lines.map(([word, score]) => [word, Number(score)])));
}

// What a rule changes in a list: how many words it finds and how many change, the first of these, and all scores that differ from the file then, as a text.
// `rescored` has those that differ now.
/**
 * @param {{ words: string[], scores: Map<string, number | null>, best: number }} list
 * @param {Rule} rule
 * @param {string} rescored
 */
export function rescore({ words, scores, best }, rescored, rule) {
  const test = testOf(rule);
  const found = words.filter((word) => test.test(word));
  const all = found.map((word) => ({ word, from: scores.get(word) ?? null, to: scoreAfter(rule, scores.get(word) ?? null, best) }));
  const changes = all.filter(({ from, to }) => from !== to);
  const after = new Map([...scoresIn(rescored), ...changes.map(({ word, to }) => /** @type {[string, number]} */ ([word, to]))]);
  return { found: found.length, changed: changes.length, first: changes.slice(0, SHOWN), rescored: scoreLines(after) };
}

// What a rule changes, in a sentence.
/** @param {{ found: number, changed: number }} told */
export function rescoredText({ found, changed }) {
  const told = (/** @type {number} */ count) => `${count.toLocaleString('en')} ${count === 1 ? 'word' : 'words'}`;
  if (!found) return 'No word of the list is found.';
  const more = changed > SHOWN ? `; the first ${SHOWN} are here` : '';
  return `${told(found)} found; ${changed ? `${changed === found ? 'all' : told(changed)} ${changed === 1 ? 'changes' : 'change'}` : 'none changes'}${more}.`;
}
