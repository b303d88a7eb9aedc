// What a word list has before it is taken over: its first lines in columns, and how many words, scores and lines that are not taken.
import { fieldsOf, formOf, linesOf } from './list-form.js';
import { foldedText, leftOutText, listText, readLines, wordCount } from './word-list.js';

// how many lines are shown
const SHOWN = 8;

/**
 * @typedef {{
 *   form: import('./list-form.js').Form, rows: string[][], words: number, range: [number, number] | null, leftOut: Record<string, number>,
 *   dropped: { text: string, why: string }[], folded: number,
 * }} Preview
 */

// What a list has. `chosen` is what of its form is chosen; its lines tell the rest.
/**
 * @param {Partial<import('./list-form.js').Form>} chosen
 * @param {Uint8Array} bytes
 * @returns {Preview}
 */
export function lookAt(bytes, chosen = {}) {
  const lines = linesOf(listText(bytes));
  const form = formOf(lines, chosen);
  const { words, scores, leftOut, dropped, folded } = readLines(lines, form);
  // the best scores are first
  const range = scores.size ? /** @type {[number, number]} */ ([scores.get(words[words.length - 1]), scores.get(words[0])]) : null;
  return { form, rows: lines.slice(0, SHOWN).map((/** @type {string} */ line) => fieldsOf(line, form)), words: words.length, range, leftOut, dropped, folded };
}

// The counts of a preview, in a sentence.
/**
 * @param {string} name
 * @param {Preview} preview
 */
export function previewText(name, preview) {
  const { words, range, folded, leftOut } = preview;
  const scores = range ? `scores from ${range[0].toLocaleString('en')} to ${range[1].toLocaleString('en')}` : 'no scores';
  return `${name}: ${[wordCount(words), scores, foldedText(folded), leftOutText(leftOut)].filter(Boolean).join('; ')}.`;
}
