// Grids in text files that the engine does not read: the text format of Across Lite in version 2, and rows of letters.
import { recordOf } from '../grids/patterns.js';
import { keptRebus } from '../model/rebus.js';
import { nearestText, placeOf } from '../model/record.js';
import { rebusText } from './dropped.js';
import { Given, sizeOfRows } from './given.js';
import { NO_SIZE } from './repairs.js';

const MOST_SIDE = 255;
// the mark of an empty cell
const EMPTY = '-';

// Text of Across Lite, version 2.

const TAGS = ['TITLE', 'AUTHOR', 'COPYRIGHT', 'SIZE', 'GRID', 'REBUS', 'ACROSS', 'DOWN', 'NOTEPAD'];
const TAG = new RegExp(`^<(${TAGS.join('|')})>$`, 'i');

export const isVersion2 = (/** @type {string} */ head) => /^\s*<across puzzle v2>/i.test(head);

// The lines of each part.
/** @param {string} text */
function partsOf(text) {
  /** @type {Record<string, string[]>} */
  const parts = Object.fromEntries(TAGS.map((tag) => [tag, []]));
  /** @type {string[]} */
  let part = [];
  for (const line of text.split(/\r\n?|\n/).map((one) => one.trim()).filter(Boolean)) {
    const [, tag] = (part === parts.NOTEPAD ? null : TAG.exec(line)) ?? [];
    if (tag) part = parts[tag.toUpperCase()];
    else part.push(line);
  }
  return parts;
}

// The text as one of version 1, which the engine reads, the lines for what that version cannot have, the cells with several letters, and what of it is
// dropped.
/** @param {string} text */
export function asVersion1(text) {
  const parts = partsOf(text);
  const told = parts.REBUS.flatMap((line) => line.split(';')).map((one) => one.trim());
  // a mark of a cell stands for an entry, and for one letter where there is no room for more
  const entries = new Map(told.map((one) => one.split(':')).filter(({ length }) => length === 3).map(([mark, entry, short]) => /** @type {[string, { entry: string, short: string }]} */ ([mark, { entry: entry.toUpperCase(), short }])));
  const areMarked = told.some((one) => /^mark$/i.test(one));
  /** @type {string[]} */
  const circles = [];
  /** @type {{ row: number, column: number, entry: string, letter: string }[]} */
  const rebus = [];
  const rows = parts.GRID.map((line, row) => [...line].map((mark, column) => {
    const found = entries.get(mark);
    if (areMarked && !found && /[a-z]/.test(mark)) circles.push(`${row + 1} ${column + 1}`);
    if (!found) return mark;
    const letter = (/^[A-Z]$/i.test(found.short) ? found.short : found.entry.slice(0, 1)).toUpperCase();
    if (found.entry.length > 1) rebus.push({ row: row + 1, column: column + 1, entry: found.entry, letter });
    return letter;
  }).join(''));
  const lines = TAGS.filter((tag) => tag !== 'REBUS').flatMap((tag) => [`<${tag}>`, ...(tag === 'GRID' ? rows : parts[tag])]);
  const { near, count } = nearestText(['<ACROSS PUZZLE>', ...lines.slice(0, parts.NOTEPAD.length ? undefined : -1)].join('\n'));
  const { originals, lines: first, others } = keptRebus(rebus);
  return { text: near, lines: [...circles.map((cell) => `circle ${cell}`), ...first], originals, dropped: [...rebusText(others), ...(count ? ['characters that a text file cannot have'] : [])] };
}

// Text of Across Lite, version 1, that the engine refuses.

export const isVersion1 = (/** @type {string} */ head) => /^\s*<across puzzle>/i.test(head);

// The puzzle of a text, with what is wrong in it. Throws a FileFault if it has no grid.
export const readText = (/** @type {string} */ text) => new TextGiven(partsOf(text.replaceAll('\0', '')), text.includes('\0'));

// The same of version 2.
/** @param {string} text */
export function readText2(text) {
  const { text: plain, lines, originals, dropped } = asVersion1(text);
  const given = readText(plain);
  const placeIn = (/** @type {string} */ spelled) => placeOf(spelled.replace(/^(circle|cell) /, ''));
  for (const line of lines) if (line.startsWith('circle ')) given.circle(...placeIn(line));
  originals.forEach(([field, entry]) => given.entry(...placeIn(field), entry));
  dropped.forEach((phrase) => given.drops(phrase));
  return given;
}

class TextGiven extends Given {
  #parts;

  /**
   * @param {Record<string, string[]>} parts
   * @param {boolean} hadNuls
   */
  constructor(parts, hadNuls) {
    const size = /^(\d{1,3})\s*x\s*(\d{1,3})$/i.exec(parts.SIZE[0] ?? '')?.slice(1).map(Number);
    const [width, height] = size ?? sizeOfRows(parts.GRID);
    super(width, height);
    this.#parts = parts;
    if (hadNuls) this.repairs.add('NULs are left out of its texts');
    if (!size) this.repairs.add(NO_SIZE);
    const rows = this.repairs.fitted(parts.GRID.map((row) => [...row]), this, EMPTY);
    rows.forEach((marks, above) => marks.forEach((mark, before) => this.#takeCell(above + 1, before + 1, mark)));
    for (const field of ['title', 'author', 'copyright']) this.text(field, parts[field.toUpperCase()].join(' '));
    this.text('notes', parts.NOTEPAD.join('\n'));
  }

  /**
   * @param {number} row
   * @param {number} column
   * @param {string} mark
   */
  #takeCell(row, column, mark) {
    if (mark === '.') this.block(row, column);
    else if (mark !== EMPTY) this.entry(row, column, mark);
  }

  /** @param {import('./given.js').FirstCell[]} lights */
  recordWith(lights) {
    for (const wanted of ['across', 'down']) this.cluesFor(lights.filter(({ direction }) => direction === wanted), this.#parts[wanted.toUpperCase()], `clue ${wanted}`);
    return super.recordWith(lights);
  }
}

// Rows of letters.

// A letter, a block or an empty cell.
const ROW = /^[A-Za-z.#_?-]+$/;
const isSide = (/** @type {number} */ count) => count >= 2 && count <= MOST_SIDE;

// The rows of a text whose lines are all of one length, with `#` for a block; or null.
/** @param {string} text */
export function letterRows(text) {
  const rows = text.split(/\r\n?|\n/).map((line) => line.trim()).filter(Boolean);
  if (!isSide(rows.length) || !isSide(rows[0].length) || rows.some((row) => row.length !== rows[0].length || !ROW.test(row))) return null;
  // a dot is a block where nothing else is one
  return rows.some((row) => row.includes('#')) ? rows.map((row) => row.replaceAll('.', '-')) : rows.map((row) => row.replaceAll('.', '#'));
}

// The record of a grid in rows.
/** @param {string[]} rows */
export function recordOfRows(rows) {
  const blocks = rows.map((row) => row.replace(/[^#]/g, '.'));
  const isHalf = [...blocks].reverse().every((row, at) => [...row].reverse().join('') === blocks[at]);
  const letters = rows.flatMap((row, at) => [...row].flatMap((mark, column) => (/[a-z]/i.test(mark) ? [`set ${at + 1} ${column + 1} ${mark.toUpperCase()}`] : [])));
  return [recordOf(blocks, isHalf ? 'half' : 'none'), ...letters, ''].join('\n').replace(/\n+/g, '\n');
}
