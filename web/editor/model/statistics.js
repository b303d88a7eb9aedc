// What a grid and its fill have, in figures, and which limits of the outlets they keep.
import { LIMITS, OUTLETS, limitsFor } from '../grids/outlets.js';
import { Turns } from '../grids/symmetry.js';
import { partsOf, shapeWarnings } from './rules.js';
import { isBritishGrid } from './terms.js';

/** @typedef {import('./board.js').Board} Board */
/** @typedef {{ row: number, column: number }} Place */
/** @typedef {import('../grids/outlets.js').Outlet} Outlet */
/** @typedef {import('../grids/symmetry.js').Symmetry} Symmetry */
/**
 * @typedef {object} GridFigures
 * @property {import('../grids/grid.js').Style} style
 * @property {number} width
 * @property {number} height
 * @property {Symmetry[]} symmetries those that the grid has
 * @property {number} words
 * @property {number} blocks
 * @property {number} threes
 * @property {number[]} lengths those of the lights, the longest first
 * @property {number} cheaters
 * @property {number} lumps
 * @property {number} parts that lights connect
 * @property {string[]} warnings what the usual rules say against the grid
 */
// A limit: whether it is met, missed, or open, which means that the page cannot tell.
/** @typedef {{ text: string, here: string, limit: string, source: string, state: 'met' | 'missed' | 'open' }} Judged */

/** @type {Partial<Record<Symmetry, string>>} */
const SYMMETRIES = { half: 'half turn', quarter: 'quarter turn', leftright: 'left–right', updown: 'up–down' };
const ALPHABET = 'ABCDEFGHIJKLMNOPQRSTUVWXYZ';
const RARE = 'JQXZ';
// how many blocks in line are a lump
const IN_LINE = 4;

/** @param {Board} board */
const styleOf = (board) => (board.cells.some((cell) => cell.right || cell.below) ? 'barred' : isBritishGrid(board) ? 'british' : 'american');

// Whether a symmetry leads blocks to blocks and lights to lights, and so bars to bars.
/**
 * @param {Symmetry} sym
 * @param {Board} board
 */
function hasSymmetry(board, sym) {
  if (sym === 'quarter' && board.width !== board.height) return false;
  const turns = new Turns(sym, board.width, board.height);
  const runs = new Set(board.lights.map(({ cells }) => cells.join()));
  const isOfBlocks = (/** @type {{ block: boolean }} */ { block }, /** @type {number} */ index) => !block || turns.orbit(index).every((one) => board.cells[one].block);
  return board.cells.every(isOfBlocks) && board.lights.every(({ cells }) => turns.runs(cells).every((run) => runs.has(run.join())));
}

// The figures of a grid.
/**
 * @param {Board} board
 * @returns {GridFigures}
 */
export function gridFigures(board) {
  const lengths = board.lights.map(({ cells }) => cells.length).sort((a, b) => b - a);
  const blocks = [...board.cells.keys()].filter((index) => board.cells[index].block).map((index) => ({ row: board.rowOf(index), column: board.columnOf(index) }));
  const isBlock = (/** @type {number} */ row, /** @type {number} */ column) => Boolean(isInside(board, row, column) && board.cells[board.index(row, column)].block);
  const isShut = (/** @type {number} */ row, /** @type {number} */ column) => !isInside(board, row, column) || isBlock(row, column);
  // no open cell on both sides, neither across nor down
  const isCheater = (/** @type {Place} */ { row, column }) => (isShut(row, column - 1) || isShut(row, column + 1)) && (isShut(row - 1, column) || isShut(row + 1, column));
  const areBlocks = (/** @type {number} */ row, /** @type {number} */ column, /** @type {number[][]} */ steps) => steps.every(([down, right]) => isBlock(row + down, column + right));
  const lumpsAt = (/** @type {Place} */ { row, column }) => LUMPS.filter((steps) => areBlocks(row, column, steps)).length;
  return {
    style: styleOf(board), width: board.width, height: board.height,
    symmetries: /** @type {Symmetry[]} */ (Object.keys(SYMMETRIES)).filter((sym) => hasSymmetry(board, sym)),
    words: lengths.length, blocks: blocks.length, threes: lengths.filter((length) => length === 3).length, lengths,
    cheaters: blocks.filter(isCheater).length, lumps: blocks.reduce((sum, block) => sum + lumpsAt(block), 0), parts: partsOf(board).length,
    warnings: shapeWarnings(board).map(({ text }) => text),
  };
}

const inLine = (/** @type {(at: number) => number[]} */ step) => Array.from({ length: IN_LINE }, (_, at) => step(at));
// The cells of lumps, as steps from their first one.
const LUMPS = [[[0, 0], [0, 1], [1, 0], [1, 1]], inLine((at) => [0, at]), inLine((at) => [at, 0])];

/**
 * @param {Board} board
 * @param {number} row
 * @param {number} column
 */
const isInside = ({ width, height }, row, column) => row >= 1 && row <= height && column >= 1 && column <= width;

// The letters that a fill lacks of a pangram, and the rare ones with how often each is there. A cell of several letters has them all.
/**
 * @param {string[]} entries those of the cells
 * @returns {{ missing: string, rare: [string, number][] }}
 */
export function letterFigures(entries) {
  const all = entries.join('');
  const counted = Array.from(RARE, (letter) => /** @type {[string, number]} */ ([letter, all.split(letter).length - 1]));
  return { missing: Array.from(ALPHABET).filter((letter) => !all.includes(letter)).join(''), rare: counted.filter(([, count]) => count) };
}

/**
 * @param {number} width
 * @param {number} height
 */
const sized = (width, height) => `${width} × ${height}`;

// What an outlet asks of a grid, one by one.
/**
 * @param {Outlet} outlet
 * @param {GridFigures} figures
 * @param {import('../grids/outlets.js').Changed} changed
 * @returns {Judged[]}
 */
export function judgedBy(outlet, figures, changed) {
  const { width, height, symmetries, warnings } = figures;
  /**
   * @param {string} text
   * @param {string | number} here
   * @param {string | number} limit
   * @param {boolean} isMet
   * @param {string} source
   */
  const judged = (text, here, limit, isMet, source) => ({ text, here: String(here), limit: String(limit), source, state: isMet ? /** @type {const} */ ('met') : /** @type {const} */ ('missed') });
  const shown = symmetries.map((sym) => SYMMETRIES[sym]).join(', ') || 'none';
  const limits = limitsFor(outlet, width, height, changed);
  return [
    judged('Size', sized(width, height), sized(outlet.width, outlet.height), width === outlet.width && height === outlet.height, outlet.published.includes('size') ? 'published' : 'usual'),
    judged('Symmetry', shown, SYMMETRIES[outlet.sym] ?? 'none', outlet.sym === 'none' || symmetries.includes(outlet.sym), 'usual'),
    judged('Rules of such grids', warnings.join('; ') || 'kept', '', !warnings.length, 'usual'),
    ...COUNTED.flatMap((name) => {
      const { limit, source } = limits[name];
      return limit === null ? [] : [judged(LIMITS[name], figures[name], limit, figures[name] <= limit, source)];
    }),
    ...themeRows(figures, limits),
  ];
}

const COUNTED = /** @type {const} */ (['words', 'blocks', 'threes', 'cheaters', 'lumps']);

// The limits of what is no theme entry. The page does not know which these are: only where no light is too long, none has to be one.
/**
 * @param {GridFigures} figures
 * @param {ReturnType<typeof limitsFor>} limits
 * @returns {Judged[]}
 */
function themeRows({ width, height, lengths }, { longest, gap }) {
  if (longest.limit === null || longest.limit >= Math.max(width, height)) return [];
  const most = longest.limit;
  const long = lengths.filter((length) => length > most);
  const here = long.length ? `theme entries of ${long.join(', ')}?` : String(lengths[0] ?? 0);
  return [
    { text: LIMITS.longest, here, limit: String(longest.limit), source: longest.source, state: long.length ? 'open' : 'met' },
    ...(gap.limit === null ? [] : [{ text: LIMITS.gap, here: 'look yourself', limit: String(gap.limit), source: gap.source, state: /** @type {const} */ ('open') }]),
  ];
}

// The outlets of the kind of a grid, each with what it asks.
/**
 * @param {GridFigures} figures
 * @param {import('../grids/outlets.js').Changed} changed
 */
export const judgedByAll = (figures, changed) =>
  OUTLETS.filter(({ style }) => style === figures.style).map((outlet) => ({ name: outlet.name, judged: judgedBy(outlet, figures, changed) }));

// Whether all is met, in short.
/** @param {Judged[]} judged */
export function verdictOf(judged) {
  const count = (/** @type {string} */ state) => judged.filter((one) => one.state === state).length;
  const [missed, open] = [count('missed'), count('open')];
  return `${missed ? `✗ ${missed} of ${judged.length} not met` : '✓ met'}${open ? `, ${open} to judge` : ''}`;
}

// The rows of the view: each with a name and a text.
/**
 * @param {GridFigures} figures
 * @param {ReturnType<typeof letterFigures>} letters
 * @param {string} scores what is said of the scores of words, or ''
 * @returns {[string, string][]}
 */
export function rowsOfFigures({ threes, lengths, blocks, cheaters, lumps, parts }, { missing, rare }, scores) {
  return [
    ['Words of 3 letters', String(threes)],
    ['Longest', lengths.length ? `${lengths[0]} letters${lengths[1] === lengths[0] ? ` (${lengths.filter((length) => length === lengths[0]).length} words)` : ''}` : 'no word'],
    ...(scores ? [/** @type {[string, string]} */ (['Scores', scores])] : []),
    ['Letters', missing.length === ALPHABET.length ? 'none yet' : missing ? `without ${Array.from(missing).join(' ')}` : 'all 26: a pangram'],
    ['Rare letters', rare.map(([letter, count]) => `${letter} ${count}`).join(', ') || 'none'],
    ...(blocks ? [/** @type {[string, string]} */ (['Cheaters', String(cheaters)]), /** @type {[string, string]} */ (['Lumps of blocks', String(lumps)])] : []),
    ['Connected', parts === 1 ? 'yes' : `no, ${parts} parts`],
  ];
}
