// Rectangular grids of Qxw: its puzzles (`.qxw`), and decks (`.qxd`) whose lights make such a grid. A puzzle has a line for each cell, `SQ column row bars
// merged flags letter`, and from a later version on its letters in lines `SQCT column row direction "letters"`.
import { FileFault, Given } from './given.js';

const RECTANGLE = 0;
const [BLOCK, CUTOUT] = [1, 8];
const [RIGHT, BELOW] = [1, 2];

export const isQxw = (/** @type {string} */ head) => /^#QXW2/.test(head);

// The numbers behind the name of a line, as many as there are.
const numbersIn = (/** @type {string} */ line) => (/^[A-Z]+((?:\s+-?\d+)*)/.exec(line)?.[1] ?? '').trim().split(/\s+/).map(Number);

// The puzzle of a text. Throws a FileFault.
/** @param {string} text */
export function readQxw(text) {
  const lines = text.split(/\r?\n/);
  const of = (/** @type {string} */ name) => lines.filter((line) => line.startsWith(`${name} `));
  const [kind, width, height] = numbersIn(of('GP')[0] ?? '');
  if (kind !== RECTANGLE) throw new FileFault('the grid is no rectangle of square cells');
  const given = new Given(width, height);
  for (const [name, field] of [['TTL', 'title'], ['AUT', 'author']]) {
    const at = lines.indexOf(name);
    if (at >= 0) given.text(field, (lines[at + 1] ?? '').replace(/^\+/, '').trim());
  }
  /** @type {Map<string, string>} the letters of cells, by coordinates */
  const entries = new Map();
  for (const line of of('SQ')) takeSquare(given, line, entries);
  for (const line of of('SQCT')) takeContents(given, line, entries);
  for (const [coordinates, entry] of entries) if (!given.isBlock(...placeIn(coordinates))) given.entry(...placeIn(coordinates), entry);
  if (of('VL').length) given.drops('lights that bend or leap');
  return given;
}

/**
 * @param {string} coordinates
 * @returns {[number, number]}
 */
function placeIn(coordinates) {
  const [row, column] = coordinates.split(' ').map(Number);
  return [row, column];
}

/**
 * @param {Given} given
 * @param {string} line
 * @param {Map<string, string>} entries
 */
function takeSquare(given, line, entries) {
  const [, letter = ''] = /^SQ(?:\s+\d+){5}\s(.)/u.exec(line) ?? [];
  const [before, above, bars, merged, flags] = numbersIn(line);
  const [row, column] = [above + 1, before + 1];
  if (!given.admits(row, column)) return;
  if (flags & CUTOUT) given.drops('a cell that is left out, which is a block now', 'cells that are left out, which are blocks now');
  if (flags & (BLOCK | CUTOUT)) given.block(row, column);
  if (merged) given.drops('merged cells');
  given.bar(row, column, ...(bars & RIGHT ? ['right'] : []), ...(bars & BELOW ? ['below'] : []));
  if (/[^\s.]/.test(letter)) entries.set(`${row} ${column}`, letter);
}

// The letters of a cell in its first direction, which the others have too unless they have their own.
/**
 * @param {Given} given
 * @param {string} line
 * @param {Map<string, string>} entries
 */
function takeContents(given, line, entries) {
  const [, before, above, direction, quoted, bare] = /^SQCT\s+(\d+)\s+(\d+)\s+(\d+)\s+(?:"(.*)"|(\S*))/.exec(line) ?? [];
  const entry = quoted ?? bare ?? '';
  if (!before || entry === '' || entry === '.' || !given.admits(Number(above) + 1, Number(before) + 1)) return;
  const coordinates = `${Number(above) + 1} ${Number(before) + 1}`;
  if (direction === '0') entries.set(coordinates, entry);
  else if (entry !== entries.get(coordinates)) given.drops('letters that are others down than across');
}

// The puzzle of a deck: each line has the numbers of the cells of a light, row by row from 0 on. Throws a FileFault if they make no rectangle.
/** @param {string} text */
export function readDeck(text) {
  const lines = text.split(/\r?\n/).map((line) => line.trim()).filter((line) => line && !line.startsWith('#'));
  const lights = lines.filter((line) => /^\d/.test(line)).map((line) => line.split(/\s+/));
  const runs = lights.map((light) => light.filter((word) => /^\d+$/.test(word)).map(Number));
  const steps = new Set(runs.flatMap((run) => run.slice(1).map((cell, at) => cell - run[at])));
  const used = new Set(runs.flat());
  const width = Math.max(...steps, 1) > 1 ? Math.max(...steps) : Math.max(...used) + 1;
  const isRun = (/** @type {number[]} */ run) => [1, width].some((step) => run.every((cell, at) => !at || cell === run[at - 1] + step) && (step !== 1 || Math.floor(run[0] / width) === Math.floor(run[run.length - 1] / width)));
  if (!runs.length || !runs.every(isRun)) throw new FileFault('the lights of the deck make no rectangle');
  const given = new Given(width, Math.floor(Math.max(...used) / width) + 1);
  const joined = new Set(runs.flatMap((run) => run.slice(1).map((cell, at) => `${run[at]} ${cell}`)));
  for (let cell = 0; cell < width * given.height; cell++) {
    const [row, column] = [Math.floor(cell / width) + 1, (cell % width) + 1];
    if (!used.has(cell)) given.block(row, column);
    else if (column < width && used.has(cell + 1) && !joined.has(`${cell} ${cell + 1}`)) given.bar(row, column, 'right');
    if (used.has(cell) && used.has(cell + width) && !joined.has(`${cell} ${cell + width}`)) given.bar(row, column, 'below');
  }
  if (lines.some((line) => line.startsWith('.'))) given.drops('the settings of the deck');
  if (lights.some((light) => light.some((word) => !/^\d+$/.test(word)))) given.drops('patterns of lights');
  return given;
}
