// The bank of clues as a table, and a table of clues as entries of the bank.
import { isReference } from '../model/links.js';
import { COLUMNS, inLine, lettersOf } from './clue-table.js';
import { csvOf, tableOf } from './csv.js';
import { Dropped } from './dropped.js';
import { FileFault } from './given.js';

/** @typedef {import('../store/keep.js').KeptClue} KeptClue */

// the most characters of a clue and of a title
const LONGEST = 1000;
const LONGEST_TITLE = 200;
// the last time that there is a date for
const LAST = 8.64e15;

// What the columns may be called.
const BANK = { answer: COLUMNS.answer, clue: COLUMNS.clue, title: ['title'], date: ['date'], puzzle: ['puzzle'] };

// Whether the bank keeps a clue of a word. One that leads to another clue is of no word.
/**
 * @param {string} word
 * @param {string} clue
 */
export const isClueForBank = (word, clue) => /^[A-Z]{2,255}$/.test(word) && clue.trim() && clue.length <= LONGEST && !isReference(clue);

/** @param {string} title */
export const titleForBank = (title) => title.trim().slice(0, LONGEST_TITLE);

// A time of an entry; 0 for one that has no date.
/** @param {number} at */
export const timeForBank = (at) => (at > 0 && at <= LAST ? Math.floor(at) : 0);

// The bank as CSV, by words, and the clues of each by time.
/** @param {KeptClue[]} entries */
export function bankTable(entries) {
  const ordered = [...entries].sort((a, b) => (a.word < b.word ? -1 : Number(a.word > b.word)) || a.at - b.at);
  return csvOf([
    ['Answer', 'Clue', 'Title', 'Date', 'Puzzle'], ...ordered.map(({ word, clue, title, at, puzzle }) => [word, clue, title, at ? new Date(at).toISOString() : '', puzzle]),
  ]);
}

// What of a row is none for the bank, for one and for several; or null.
/**
 * @param {string} word
 * @param {string} clue
 * @returns {[string, string] | null}
 */
function faultOf(word, clue) {
  if (word.includes('.') || !word || !clue) return ['a row without an answer or a clue', 'rows without an answer or a clue'];
  if (clue.length > LONGEST || word.length > 255) return ['a row that is too long', 'rows that are too long'];
  return isClueForBank(word, clue) ? null : ['a row that is no clue of a word', 'rows that are no clues of words'];
}

// The time of a date such as 2026-11-30, with the time of the day or without; NaN for any other text.
/** @param {string} date */
const timeOf = (date) => (/^\d{4}(-\d\d(-\d\d(T[\d:.]+Z)?)?)?$/.test(date) ? timeForBank(Date.parse(date)) || NaN : NaN);

// The entries of a table, and what of it is left out.
/** @param {string} text */
export function readBankTable(text) {
  const rows = tableOf(text, BANK, ['answer', 'clue']);
  if (!rows) throw new FileFault('its first line names no columns Answer and Clue');
  const dropped = new Dropped();
  const entries = rows.flatMap(({ texts }) => {
    const [word, clue, title, date] = [lettersOf(texts.answer), inLine(texts.clue), titleForBank(texts.title), texts.date.trim()];
    const fault = faultOf(word, clue);
    if (fault) dropped.add(...fault);
    if (fault) return [];
    const at = timeOf(date);
    if (date && Number.isNaN(at)) dropped.add('a date that is not as 2026-11-30', 'dates that are not as 2026-11-30');
    return [{ word, clue, title, at: at || 0, puzzle: texts.puzzle.trim() || `table ${title}` }];
  });
  return { entries, dropped: dropped.phrases };
}
