// The word for a row or column of cells that a word goes into: an entry in American grids, and a light in British ones.

/** @typedef {import('./board.js').Cell} Cell */

// A grid is British if it has bars, or so many of its cells in one light only.
const UNCHECKED = 0.1;

let isBritish = false;

// Whether a grid is British by its bars or its unchecked cells.
/** @param {{ cells: readonly Pick<Cell, 'block' | 'across' | 'down' | 'right' | 'below'>[] }} board */
export function isBritishGrid(board) {
  const open = board.cells.filter((cell) => !cell.block);
  const unchecked = open.filter((cell) => !cell.across || !cell.down);
  return open.some((cell) => cell.right || cell.below) || unchecked.length > UNCHECKED * open.length;
}

// Takes the terms of a grid.
/** @param {import('./board.js').Board} board */
export function useTermsOf(board) {
  isBritish = isBritishGrid(board);
}

/** @type {[RegExp, string | ((all: string, first: string, verb: string) => string)][]} */
const ENTRY = [
  [/\b(l|L)ight (is|are) entered\b/g, (_, first, verb) => `${first === 'L' ? 'Entry' : 'entry'} ${verb} filled`], [/\ba light\b/g, 'an entry'], [/\bA light\b/g, 'An entry'],
  [/\blight\b/g, 'entry'], [/\blights\b/g, 'entries'], [/\bLight\b/g, 'Entry'], [/\bLights\b/g, 'Entries'],
];

// A text that says “light”, in the terms of the grid.
/** @param {string} text */
export function termed(text, british = isBritish) {
  if (british || !/light/i.test(text)) return text;
  return ENTRY.reduce((told, [pattern, word]) => told.replace(pattern, /** @type {any} */ (word)), text);
}
