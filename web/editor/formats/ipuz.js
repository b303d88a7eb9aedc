// Crosswords as .ipuz, version 2 (http://ipuz.org): grids with blocks, bars and circles, letters, texts and clues.
import { PALETTE, colourIn } from '../model/colours.js';
import { hasEnumeration } from '../model/enumeration.js';
import { PLAIN } from '../model/links.js';
import { htmlText, markedUp } from '../model/marks.js';
import { closedJson } from './cut.js';
import { shortened } from './dropped.js';
import { FIELDS, FileFault, Given, markedOf, plainOf, sizeOfRows } from './given.js';
import { CUT, NO_SIZE } from './repairs.js';

/** @typedef {import('../model/board.js').Cell} Cell */
/** @typedef {import('../model/board.js').Light} Light */
/** @typedef {{ heads: ReadonlyMap<Light, Light[]>, headOf: ReadonlyMap<Light, Light> }} Links */

const VERSION = 'http://ipuz.org/v2';
const KIND = 'http://ipuz.org/crossword#1';

export const isIpuz = (/** @type {string} */ head) => /^\s*(ipuz\s*\()?\s*\{/.test(head) && head.includes('ipuz.org/');

// The file of a board. `textOf` gives the text of a field, `entryOf` the letters of a cell, and `more` its colour and the links of clues. Texts are HTML.
/**
 * @param {import('../model/board.js').Board} board
 * @param {(field: string) => string} textOf
 * @param {(cell: Cell) => string} entryOf
 * @param {Pick<typeof PLAIN, 'colourOf'> & { links: Links }} more
 */
export function ipuzOf(board, textOf, entryOf = ({ letter }) => letter, { colourOf, links } = PLAIN) {
  const rows = (/** @type {(cell: Cell) => unknown} */ cellOf) => Array.from({ length: board.height }, (_, row) => Array.from({ length: board.width }, (__, column) => cellOf(board.cells[row * board.width + column])));
  const clues = (/** @type {string} */ direction) => board.lights.filter((light) => light.direction === direction).map((light) => clueOf(light, markedUp(textOf(`clue ${light.name}`), htmlText), links));
  const texts = Object.fromEntries(FIELDS.map((field) => [field, htmlText(textOf(field))]).filter(([, text]) => text));
  const whole = {
    version: VERSION, kind: [KIND], ...texts, dimensions: { width: board.width, height: board.height }, puzzle: rows((cell) => shownIn(cell, colourOf(cell))),
    solution: rows((cell) => (cell.block ? '#' : entryOf(cell) || null)), clues: { Across: clues('across'), Down: clues('down') },
  };
  return `${JSON.stringify(whole, null, 1)}\n`;
}

/**
 * @param {Cell} cell
 * @param {string} colour
 */
function shownIn(cell, colour) {
  if (cell.block) return '#';
  const shown = cell.number ? Number(cell.number) : 0;
  const barred = `${cell.right ? 'R' : ''}${cell.below ? 'B' : ''}`;
  if (!cell.circle && !barred && !colour) return shown;
  return { cell: shown, style: { ...(cell.circle && { shapebg: 'circle' }), ...(barred && { barred }), ...(colour && { color: colour.toUpperCase() }) } };
}

// A clue, with the lights that it goes on in, or the one that it leads to.
/**
 * @param {Light} light
 * @param {string} clue
 * @param {Links} links
 */
function clueOf(light, clue, { heads, headOf }) {
  const number = Number(light.number);
  const named = (/** @type {Light} */ { number: other, direction }) => ({ number: Number(other), direction: direction === 'across' ? 'Across' : 'Down' });
  const [others, head] = [heads.get(light), headOf.get(light)];
  if (others) return { number, clue, continued: others.map(named) };
  return head ? { number, clue, see: [named(head)] } : [number, clue];
}

// The puzzle of a file. Throws a FileFault.
/** @param {string} text */
export function readIpuz(text) {
  const { file, isCut } = parsed(text);
  const given = new Given(...sizeOf(file));
  if (!areRows(file.puzzle)) throw new FileFault('the rows are not of the size that the file gives');
  if (isCut) given.repairs.add(CUT);
  if (!file.dimensions) given.repairs.add(NO_SIZE);
  const numbered = takeGrid(given, { ...file, puzzle: given.repairs.fitted(file.puzzle, given, 0) });
  tellSolution(given, file.solution);
  for (const field of FIELDS) if (file[field]) given.text(field, plainOf(file[field]));
  if (file.intro && !file.notes) given.text('notes', plainOf(file.intro));
  else if (file.intro) given.drops('the introduction');
  if (file.explanation) given.drops('the explanation');
  if (file.saved) given.drops('the letters of a solver');
  if (file.zones?.length) given.drops('zones of the grid');
  for (const [name, clues] of Object.entries(file.clues ?? {})) {
    const direction = name.split(':')[0].toLowerCase();
    if (direction !== 'across' && direction !== 'down') given.drops(`the clues of ${shortened(name)}`);
    else for (const clue of clues) takeClue(given, clue, direction, numbered);
  }
  return given;
}

/** @type {(rows: unknown) => rows is unknown[][]} */
const areRows = (rows) => Array.isArray(rows) && rows.every(Array.isArray);

// A solution that is larger than the grid loses letters.
/**
 * @param {Given} given
 * @param {unknown} solution
 */
function tellSolution({ width, height, repairs }, solution) {
  if (areRows(solution) && (solution.length > height || solution.some((row) => row.length > width))) repairs.add('the solution is larger than the grid: letters outside are left out');
}

// The width and the height, or those of the rows where a file gives none.
/**
 * @param {any} file
 * @returns {[number, number]}
 */
const sizeOf = ({ dimensions, puzzle }) => (dimensions || !areRows(puzzle) ? [dimensions?.width, dimensions?.height] : sizeOfRows(puzzle));

// What a file spells, or as much of it as there is.
/**
 * @param {string} text
 * @returns {{ file: any, isCut: boolean }}
 */
function parsed(text) {
  const spelled = text.trim().replace(/^ipuz\s*\(/, '').replace(/\)\s*;?$/, '');
  const whole = jsonOf(spelled);
  const file = whole ?? jsonOf(closedJson(spelled) ?? '');
  if (file === undefined) throw new FileFault('it is no JSON');
  const kinds = [file?.kind].flat().map(String);
  if (!kinds.some((kind) => kind.includes('ipuz.org/crossword'))) throw new FileFault('it is no crossword');
  return { file, isCut: whole === undefined };
}

/** @param {string} text */
function jsonOf(text) {
  try {
    return JSON.parse(text);
  } catch {
    return undefined;
  }
}

// What a style may have of colours.
const COLOURS = ['colortext', 'colorborder', 'colorbar', 'imagebg'];
/** @type {Record<string, string>} */
const SIDES = { r: 'right', b: 'below', l: 'left', t: 'above' };

// Takes the cells, and returns the coordinates of those that show numbers.
/**
 * @param {Given} given
 * @param {{ puzzle: any[][], solution?: any, block?: unknown, empty?: unknown, styles?: any }} file
 */
function takeGrid(given, { puzzle, solution, block = '#', empty = 0, styles = {} }) {
  /** @type {Map<string, string>} */
  const numbered = new Map();
  puzzle.forEach((cells, above) => cells.forEach((shown, before) => {
    const [row, column] = [above + 1, before + 1];
    const cell = shown?.cell === undefined ? shown : shown.cell;
    if (cell === block || cell === null) {
      if (cell === null) given.drops('a cell that is left out, which is a block now', 'cells that are left out, which are blocks now');
      given.block(row, column);
      return;
    }
    if (cell && cell !== empty && String(cell) !== '0') numbered.set(String(cell), `${row} ${column}`);
    // a style may be the name of one
    takeStyle(given, row, column, styles?.[shown?.style] ?? shown?.style ?? {});
    const told = solution?.[above]?.[before];
    const entry = told?.value ?? told ?? '';
    if (entry !== '' && entry !== empty && String(entry) !== String(block)) given.entry(row, column, entry);
  }));
  return numbered;
}

/**
 * @param {Given} given
 * @param {number} row
 * @param {number} column
 * @param {any} style
 */
function takeStyle(given, row, column, style) {
  if (style.shapebg === 'circle') given.circle(row, column);
  else if (style.shapebg) given.drops('a shape that is no circle', 'shapes that are no circles');
  const colour = colourIn(style.color) || (style.highlight ? PALETTE.yellow : '');
  if (colour) given.colour(row, column, colour);
  if (COLOURS.some((name) => style[name]) || (style.color && !colour)) given.drops('the colour of a cell', 'colours of cells');
  given.bar(row, column, ...String(style.barred ?? '').toLowerCase().split('').flatMap((side) => SIDES[side] ?? []));
}

/**
 * @param {Given} given
 * @param {any} clue
 * @param {'across' | 'down'} direction
 * @param {Map<string, string>} numbered
 */
function takeClue(given, clue, direction, numbered) {
  /** @type {{ number?: any, clue?: any, enumeration?: any, cells?: any[], continued?: any }} */
  const told = Array.isArray(clue) ? { number: clue[0], clue: clue[1] } : typeof clue === 'string' ? { clue } : clue;
  const { number = '', clue: text = '', enumeration = '', cells = [], continued = [] } = told;
  const plain = markedOf(text);
  const [column, row] = cells[0] ?? [];
  const at = numbered.get(String(number)) ?? (row ? `${row} ${column}` : null);
  const links = [continued].flat().map((one) => `${one.number} ${String(one.direction ?? direction).split(':')[0].toLowerCase()}`);
  given.clue({ at, number, direction, links, text: !plain || !enumeration || hasEnumeration(plain) ? plain : `${plain} (${enumeration})` });
}
