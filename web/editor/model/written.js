// The words that clues were written for. A clue belongs to the word that stood in its light when it was written, or that came there first. It is stale
// once another word stands there. One that leads to another clue, such as “See 1”, belongs to no word.

import { isReference } from './links.js';
import { letterIn, lettersOf } from './record.js';

/** @typedef {import('./board.js').Board} Board */
/** @typedef {import('./board.js').Light} Light */
/** @typedef {ReadonlyMap<string, string>} Written the words, by the names that records have for clues */

// The words of the clues as they are: a clue without one has that of its light in a record, and one that is gone has none. The same map if nothing
// changes. Letters that the board shows ahead of the record belong to later steps.
/**
 * @param {Board} board
 * @param {Written} written
 * @param {string} record
 * @returns {Written}
 */
export function adopted(board, written, record) {
  if (!written.size && !board.texts.size) return written;
  const now = new Map(written);
  const letters = new Map(lettersOf(record).map(letterIn));
  for (const light of board.lights) {
    const field = board.clueField(light);
    if (!board.hasClue(light) || isReference(board.texts.get(light.name) ?? '')) now.delete(field);
    else if (!now.has(field)) {
      const word = light.cells.map((cell) => letters.get(board.cells[cell].coordinates) ?? '.').join('');
      if (!word.includes('.')) now.set(field, word);
    }
  }
  return isSameMap(now, written) ? written : now;
}

/**
 * @param {ReadonlyMap<string, string>} one
 * @param {ReadonlyMap<string, string>} other
 */
const isSameMap = (one, other) => one.size === other.size && [...one].every(([key, value]) => other.get(key) === value);

// The words without those of some clues; the same map if these have none.
/**
 * @param {Written} written
 * @param {readonly string[]} fields
 * @returns {Written}
 */
export const withoutWords = (written, fields) => (fields.some((field) => written.has(field)) ? new Map([...written].filter(([field]) => !fields.includes(field))) : written);

// The word that the clue of a light was written for, if the letters of the light are not those of that word; or ''.
/**
 * @param {Board} board
 * @param {Light} light
 * @param {Written} written
 */
export function staleWord(board, light, written) {
  const word = written.get(board.clueField(light)) ?? '';
  if (!word || !board.hasClue(light)) return '';
  const isOther = (/** @type {number} */ cell, /** @type {number} */ at) => board.cells[cell].letter && board.cells[cell].letter !== word[at];
  return word.length !== light.cells.length || light.cells.some(isOther) ? word : '';
}

// The lights whose clues are stale, each with the word that its clue was written for.
/** @param {{ board: Board, written: Written }} editor */
export const staleClues = ({ board, written }) => (written.size ? board.lights.map((light) => ({ light, word: staleWord(board, light, written) })).filter(({ word }) => word) : []);
