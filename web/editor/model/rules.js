// The usual rules of grids, as warnings: the number of words, lights of two letters, parts that do not connect, unchecked letters, words that
// are close to each other, enumerations of another length than the word, and clues with a word of an answer.

import { mostUnchecked } from '../grids/barred.js';
import { clueWords } from './clue-words.js';
import { enumeratedLength } from './enumeration.js';
import { closeWords } from './kin.js';
import { isBritishGrid } from './terms.js';

/** @typedef {import('./board.js').Board} Board */
/** @typedef {import('./board.js').Light} Light */
// A warning: what is wrong, and the light or the cell to go to; `isClue` if it is about the clue.
/** @typedef {{ text: string, light?: string, cell?: number, isClue?: boolean }} Warning */
/** @typedef {Pick<import('./editor.js').Editor, 'board' | 'textOf' | 'answerOf' | 'entryOf' | 'cluedBy' | 'cluedWith'>} Told what tells of the puzzle */

// The most words of an American grid, by its size.
/** @type {Record<number, number>} */
const MOST_WORDS = { 15: 78, 21: 140 };
// The most cells in a row of a light that no other light crosses, in a grid with blocks.
const MOST_UNCHECKED = 2;

// The parts of the grid that lights connect, each as a set of cells.
/** @param {Board} board */
export function partsOf(board) {
  /** @type {Set<number>[]} */
  const parts = [];
  const seen = new Set();
  board.cells.forEach((cell, index) => {
    if (cell.block || seen.has(index)) return;
    const part = new Set([index]);
    for (const one of part) for (const light of board.through(one)) for (const next of light.cells) part.add(next);
    for (const one of part) seen.add(one);
    parts.push(part);
  });
  return parts;
}

/**
 * @param {Board} board
 * @param {number} index
 */
const isChecked = (board, index) => board.through(index).length === 2;

// The longest run of unchecked cells in a light.
/**
 * @param {Board} board
 * @param {Light} light
 */
function uncheckedRun(board, light) {
  let [run, longest] = [0, 0];
  for (const index of light.cells) {
    run = isChecked(board, index) ? 0 : run + 1;
    longest = Math.max(longest, run);
  }
  return longest;
}

/** @param {Pick<Light, 'number' | 'direction'>} light */
const titled = ({ number, direction }) => `${number} ${direction === 'across' ? 'Across' : 'Down'}`;

/**
 * @param {Board} board
 * @returns {Warning[]}
 */
function countWarnings(board) {
  const most = board.width === board.height && !isBritishGrid(board) ? MOST_WORDS[board.width] : undefined;
  return most && board.lights.length > most ? [{ text: `${board.lights.length} words: an American ${board.width} × ${board.height} has ${most} at most` }] : [];
}

// What the rules say against the blocks and bars, other than of how many words there are.
/**
 * @param {Board} board
 * @returns {Warning[]}
 */
export function shapeWarnings(board) {
  /** @type {Warning[]} */
  const warnings = [];
  const short = board.lights.filter((light) => light.cells.length === 2);
  if (short.length) warnings.push({ text: short.length === 1 ? `${titled(short[0])} has two letters` : `${short.length} lights have two letters`, light: short[0].name });
  const parts = partsOf(board);
  if (parts.length > 1) {
    const [cell] = parts.reduce((least, part) => (part.size < least.size ? part : least));
    warnings.push({ text: `the grid is in ${parts.length} parts that do not connect`, cell });
  }
  const isBarred = board.cells.some((cell) => cell.right || cell.below);
  if (isBarred) return [...warnings, ...barredWarnings(board)];
  return [...warnings, ...(isBritishGrid(board) ? latticeWarnings(board) : uncheckedWarnings(board))];
}

// In an American grid each cell is checked.
/**
 * @param {Board} board
 * @returns {Warning[]}
 */
function uncheckedWarnings(board) {
  const unchecked = [...board.cells.keys()].filter((index) => board.through(index).length === 1);
  if (!unchecked.length) return [];
  const [cell] = unchecked;
  const place = `row ${board.rowOf(cell)}, column ${board.columnOf(cell)}`;
  return [{ text: unchecked.length === 1 ? `the cell in ${place} is in one light only` : `${unchecked.length} cells are in one light only: the first is in ${place}`, cell }];
}

// In a lattice the unchecked cells in a row are counted, and half of the cells of a light are checked, but for one if their number is odd.
/** @param {Board} board */
function latticeWarnings(board) {
  /** @type {Warning[]} */
  const warnings = [];
  const unchecked = board.lights.find((light) => uncheckedRun(board, light) > MOST_UNCHECKED);
  if (unchecked) warnings.push({ text: `${titled(unchecked)} has ${uncheckedRun(board, unchecked)} unchecked cells in a row`, light: unchecked.name });
  const checkedIn = (/** @type {Light} */ light) => light.cells.filter((index) => isChecked(board, index)).length;
  const loose = board.lights.find((light) => checkedIn(light) < Math.floor(light.cells.length / 2));
  if (loose) warnings.push({ text: `${titled(loose)} has ${checkedIn(loose)} of ${loose.cells.length} cells checked; half is usual`, light: loose.name });
  return warnings;
}

// In a barred grid the unchecked letters of a light are counted.
/**
 * @param {Board} board
 * @returns {Warning[]}
 */
function barredWarnings(board) {
  const uncheckedIn = (/** @type {Light} */ light) => light.cells.filter((index) => !isChecked(board, index)).length;
  const loose = board.lights.filter((light) => uncheckedIn(light) > mostUnchecked(light.cells.length));
  if (!loose.length) return [];
  const [{ cells: { length } }] = loose;
  const others = loose.length > 1 ? `, and ${loose.length - 1} more ${loose.length === 2 ? 'light has' : 'lights have'} too many` : '';
  return [{ text: `${titled(loose[0])} has ${uncheckedIn(loose[0])} unchecked letters of ${length}; ${mostUnchecked(length)} at most is usual${others}`, light: loose[0].name }];
}

// Words that are close to each other. Letters that both have in one cell are meant to come again.
/**
 * @param {Told} editor
 * @returns {Warning[]}
 */
function wordWarnings(editor) {
  const { board } = editor;
  const entered = board.lights.filter((light) => board.isEntered(light)).map((light) => /** @type {[string, Light]} */ ([editor.answerOf(light), light]));
  const hasInCell = (/** @type {Light} */ light, /** @type {string} */ shared) => light.cells.some((cell) => editor.entryOf(board.cells[cell]).includes(shared));
  const isMeant = (/** @type {{ of: Light, otherOf: Light, shared: string }} */ { of, otherOf, shared }) => shared && hasInCell(of, shared) && hasInCell(otherOf, shared);
  return closeWords(entered).filter((close) => !isMeant(close)).map(({ word, of, other, otherOf, shared }) => ({
    text: `${other} and ${word} ${shared ? `share ${shared}` : 'have one root'}: ${titled(otherOf)} and ${titled(of)}`, light: of.name,
  }));
}

// Clues whose enumeration counts other letters than their lights have. One that leads to other lights may count theirs too.
/**
 * @param {Told} editor
 * @returns {Warning[]}
 */
function clueWarnings(editor) {
  const { board } = editor;
  return board.lights.flatMap((light) => {
    const clue = board.texts.get(light.name) ?? '';
    const length = enumeratedLength(clue);
    const { length: own } = editor.cluedBy(light).answer;
    if (length === null || length === own || /\b(across|down|ac|dn)\b/i.test(clue)) return [];
    return [{ text: `the clue of ${titled(light)} says ${clue.slice(clue.lastIndexOf('('))} and it has ${own} letters`, light: light.name, isClue: true }];
  });
}

// Clues that have a word of an answer.
/**
 * @param {Told} editor
 * @returns {Warning[]}
 */
const clueWordWarnings = (editor) => clueWords(editor).map(({ light, word, in: other }) => ({
  text: `the clue of ${titled(light)} has ${word}, which is in ${other === light ? 'its answer' : titled(other)}`, light: light.name, isClue: true,
}));

// What the usual rules say against a grid: { text, light or cell to go to, isClue if it is about the clue }.
/**
 * @param {Told} editor
 * @returns {Warning[]}
 */
export const warningsOf = (editor) => [...countWarnings(editor.board), ...shapeWarnings(editor.board), ...wordWarnings(editor), ...clueWarnings(editor), ...clueWordWarnings(editor)];
