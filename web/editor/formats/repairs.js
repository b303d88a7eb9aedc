// What is wrong in a file that can be opened anyway, each with what is made of it, in the order in which it is found. The page shows them before it opens the file.
import { shortened } from './dropped.js';
import { unaccented } from './word-list.js';

// A text of a file as a line shows it: short, and with codes for what cannot be seen.
/** @param {string} text */
export const shownText = (text) => shortened(text).replace(/[\x00-\x1f\x7f-\x9f]/g, (one) => `\\x${one.charCodeAt(0).toString(16).padStart(2, '0')}`);

// what is said of a file that ends too early, and of one without the size of its grid
export const CUT = 'the file ends too early: what is there is taken';
export const NO_SIZE = 'the file gives no size: that of its rows is taken';

/** @param {string} entry */
const isEntry = (entry) => /^[A-Z]+$/.test(entry);

/**
 * @param {number} count
 * @param {string} one
 */
export const counted = (count, one) => `${count} ${count === 1 ? one : one.replace(/^\w+/, '$&s')}`;

export class Repairs {
  /** @type {string[]} */
  #lines = [];

  get lines() {
    return [...this.#lines];
  }

  /** @param {string} line */
  add(line) {
    this.#lines.push(line);
  }

  // What a cell has in place of what a file has there: its letters in upper case, without accents; or '' if it has something else.
  /**
   * @param {number} row
   * @param {number} column
   * @param {unknown} given
   */
  lettersOf(row, column, given) {
    const entry = String(given).toUpperCase();
    if (isEntry(entry)) return entry;
    const plain = unaccented(entry);
    const letters = isEntry(plain) ? plain : '';
    this.add(`row ${row}, column ${column} has “${shownText(String(given))}” for a letter: ${letters ? `read as ${shortened(letters)}` : 'left empty'}`);
    return letters;
  }

  // What is said of clues where there are so many lights for them.
  /**
   * @param {number} lightCount
   * @param {string[]} texts
   * @param {string} kind
   */
  counts(lightCount, texts, kind) {
    const lacking = lightCount - texts.length;
    if (lacking > 0) this.add(`${counted(lacking, kind)} too few: the last ${lacking === 1 ? 'word has' : 'words have'} none`);
    for (const text of texts.slice(lightCount)) this.add(`a ${kind} too many: “${shownText(text)}” is left out`);
  }

  // As many rows and cells as a grid has, of those that a file has. A missing cell has `empty` in its place.
  /**
   * @template T
   * @param {T[][]} rows
   * @param {{ width: number, height: number }} size
   * @param {T} empty
   */
  fitted(rows, { width, height }, empty) {
    if (rows.length < height) this.add(`the grid has ${counted(height - rows.length, 'row')} too few: they are left empty`);
    if (rows.length > height) this.add(`the grid has ${counted(rows.length - height, 'row')} too many: the last are left out`);
    return Array.from({ length: height }, (_, at) => (rows[at] ? this.#fittedRow(rows[at], at + 1, width, empty) : Array(width).fill(empty)));
  }

  /**
   * @template T
   * @param {T[]} cells
   * @param {number} row
   * @param {number} width
   * @param {T} empty
   */
  #fittedRow(cells, row, width, empty) {
    if (cells.length < width) this.add(`row ${row} has ${counted(width - cells.length, 'cell')} too few: they are left empty`);
    if (cells.length > width) this.add(`row ${row} has ${counted(cells.length - width, 'cell')} too many: the last are left out`);
    return Array.from({ length: width }, (_, at) => (at < cells.length ? cells[at] : empty));
  }
}
