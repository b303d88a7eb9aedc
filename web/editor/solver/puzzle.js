// A puzzle as a solver gets it, as plain values: nothing of what a setter has beside it, such as notes and comments. And the page of one file that has it.
import { clueText } from '../formats/manuscript.js';
import { isBritishGrid } from '../model/terms.js';

/** @typedef {import('../model/board.js').Light} Light */

// A cell: `solution` has one letter or several, and `colour` six hexadecimal digits. What is not there is left out.
/** @typedef {{ solution: string, number?: string, right?: true, below?: true, circle?: true, colour?: string }} SolverCell */
// A light: `number` has those of all lights of its clue, and `cells` are indices.
/** @typedef {{ name: string, number: string, direction: 'across' | 'down', clue: string, cells: readonly number[] }} SolverLight */
/**
 * @typedef {object} SolverPuzzle
 * @property {Record<'title' | 'author' | 'copyright' | 'notes', string>} texts
 * @property {string} language
 * @property {number} width
 * @property {number} height
 * @property {(SolverCell | null)[]} cells null is a block
 * @property {SolverLight[]} lights those across first
 */

/**
 * @param {import('../model/editor.js').Editor} editor
 * @returns {SolverPuzzle}
 */
export function solverPuzzle(editor) {
  const { board, language } = editor;
  const text = (/** @type {string} */ field) => editor.textOf(field);
  const hasLengths = isBritishGrid(board);
  const lightOf = (/** @type {Light} */ light) => ({ name: light.name, number: editor.cluedBy(light).numbers, direction: light.direction, clue: clueText(editor, light, hasLengths), cells: light.cells });
  const inDirection = (/** @type {string} */ direction) => board.lights.filter((light) => light.direction === direction).map(lightOf);
  return {
    texts: { title: text('title'), author: text('author'), copyright: text('copyright'), notes: text('notes') }, language, width: board.width, height: board.height,
    cells: board.cells.map((cell) => (cell.block ? null : cellOf(editor, cell))), lights: [...inDirection('across'), ...inDirection('down')],
  };
}

/**
 * @param {import('../model/editor.js').Editor} editor
 * @param {import('../model/board.js').Cell} cell
 * @returns {SolverCell}
 */
function cellOf(editor, cell) {
  const { number, right, below, circle } = cell;
  const colour = editor.colourOf(cell);
  return { solution: editor.entryOf(cell), ...(number && { number }), ...(right && { right }), ...(below && { below }), ...(circle && { circle }), ...(colour && { colour }) };
}

// Why a puzzle cannot be solved; or ''.
/** @param {Pick<import('../model/editor.js').Editor, 'board'>} told */
export function whyUnsolvable({ board }) {
  const empty = board.firstEmpty();
  if (empty >= 0) return `row ${board.rowOf(empty)}, column ${board.columnOf(empty)} is empty`;
  return board.lights.length ? '' : 'there is no light';
}

// what the template has in place of the puzzle
const PLACE = '{"puzzle":"here"}';

// The page of a puzzle: the template with the puzzle as data. In JSON no text begins an element or ends one, since `<` is spelled.
/**
 * @param {string} template
 * @param {SolverPuzzle} puzzle
 */
export function solverPage(template, puzzle) {
  return template.replace(PLACE, () => JSON.stringify(puzzle).replaceAll('<', '\\u003c'));
}
