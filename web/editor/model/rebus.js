// Cells with several letters. The engine has the first letter of each, which is locked; all its letters are kept beside the record, as the texts are
// that a record cannot have, under a name of the cell.
import { letterIn, lettersOf } from './record.js';

const FIELD = 'cell ';

/** @param {string} coordinates */
export const cellField = (coordinates) => `${FIELD}${coordinates}`;
/** @param {string} field */
export const isCellField = (field) => field.startsWith(FIELD);

// Whether letters are a rebus.
/** @param {string} entry */
export const isRebus = (entry) => /^[A-Z]{2,}$/.test(entry);

// The letters of a cell; '' if it is empty.
/**
 * @param {{ block: boolean, letter: string, coordinates: string }} cell
 * @param {ReadonlyMap<string, string>} originals
 */
export function entryOf({ block, letter, coordinates }, originals) {
  const entry = originals.get(cellField(coordinates));
  return !block && letter && entry?.startsWith(letter) ? entry : letter;
}

// The originals without the cells that lines enter or clear; or null if that leaves them as they are.
/**
 * @param {readonly string[]} lines
 * @param {ReadonlyMap<string, string>} originals
 */
export function withoutEntered(originals, lines) {
  const entered = lines.map((line) => /^(?:set|clear) (\d+ \d+)/.exec(line)?.[1]).flatMap((cell) => (cell && originals.has(cellField(cell)) ? [cell] : []));
  return entered.length ? new Map([...originals].filter(([field]) => !entered.some((cell) => field === cellField(cell)))) : null;
}

// The originals without cells that have another first letter in a record; the same if there are none. Letters that the board shows ahead of the record
// belong to later steps.
/**
 * @param {ReadonlyMap<string, string>} originals
 * @param {string} record
 */
export function standing(originals, record) {
  if (![...originals.keys()].some(isCellField)) return originals;
  const letters = new Map(lettersOf(record).map(letterIn));
  const isGone = (/** @type {string} */ field, /** @type {string} */ entry) => isCellField(field) && !entry.startsWith(letters.get(field.slice(FIELD.length)) ?? '-');
  const kept = [...originals].filter(([field, entry]) => !isGone(field, entry));
  return kept.length < originals.size ? new Map(kept) : originals;
}

// The cells of a file with several letters, given with the letters that they have in its grid: the originals of those that can be kept, the lines that
// enter their first letters where the grid has others, and the other cells.
/** @param {{ row: number, column: number, entry: string, letter: string }[]} cells */
export function keptRebus(cells) {
  const kept = cells.filter(({ entry }) => isRebus(entry));
  return {
    originals: kept.map(({ row, column, entry }) => /** @type {[string, string]} */ ([cellField(`${row} ${column}`), entry])),
    lines: kept.filter(({ entry, letter }) => entry[0] !== letter).map(({ row, column, entry }) => `set ${row} ${column} ${entry[0]}`),
    others: cells.filter(({ entry }) => !isRebus(entry)),
  };
}
