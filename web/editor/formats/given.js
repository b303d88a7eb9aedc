// A puzzle as a file tells it: its cells, texts and clues, what of it the page does not keep, and what is wrong in it. Each reader of a format makes one.
import { colourField } from '../model/colours.js';
import { LANGUAGE, isLanguage } from '../model/language.js';
import { hasItalics, withoutItalics } from '../model/marks.js';
import { cellField } from '../model/rebus.js';
import { engineText, escapeText, textLines } from '../model/record.js';
import { Dropped } from './dropped.js';
import { Repairs, shownText } from './repairs.js';

/** @typedef {import('../engine/told.js').Direction} Direction */
// A clue is at a cell, or at the light that has its number. `links` names the lights that it goes on in, as `N DIR`.
/** @typedef {{ at: string | null, number: string, direction: Direction, text: string, links: string[] }} GivenClue */
// A note of the setter on a clue, at the light that has its number.
/** @typedef {{ number: string, direction: Direction, text: string }} GivenNote */
// How the engine tells the lights of a grid: their names, directions and first cells.
/** @typedef {{ name: string, direction: Direction, row: number, column: number }} FirstCell */

export const FIELDS = ['title', 'author', 'copyright', 'notes'];

// Why a file is not read. The message says it.
export class FileFault extends Error {
  status = 'File';
}

// The width and the height of rows, some of which may be short.
/**
 * @template {{ length: number }} Row
 * @param {Row[]} rows
 * @returns {[number, number]}
 */
export const sizeOfRows = (rows) => [rows.reduce((most, row) => Math.max(most, row.length), 0), rows.length];

const isSide = (/** @type {number} */ side) => Number.isInteger(side) && side >= 1 && side <= 255;

export class Given {
  width;
  height;
  /** @type {Map<string, string>} by field */
  texts = new Map();
  /** @type {GivenClue[]} */
  clues = [];
  #language = '';
  /** @type {GivenNote[]} */
  #notes = [];
  /** @type {Set<string>} */
  #blocks = new Set();
  /** @type {Set<string>} */
  #bars = new Set();
  /** @type {Set<string>} */
  #circles = new Set();
  /** @type {Map<string, string>} by coordinates */
  #letters = new Map();
  // the entries of several letters, as originals are kept
  /** @type {[string, string][]} */
  #rebus = [];
  // the colours of cells, as originals are kept
  /** @type {[string, string][]} */
  #colours = [];
  // what else is not kept
  #dropped = new Dropped();
  // what is wrong, and what is made of it
  repairs = new Repairs();

  // Throws a FileFault if there is no such grid.
  /**
   * @param {number} width
   * @param {number} height
   */
  constructor(width, height) {
    if (!isSide(width) || !isSide(height)) throw new FileFault('the grid has no size from 1 to 255');
    this.width = width;
    this.height = height;
  }

  // Whether a cell lies in the grid. One that does not is told, and is to be left out.
  /**
   * @param {number} row
   * @param {number} column
   */
  admits(row, column) {
    const has = this.#has(row, column);
    if (!has) this.repairs.add(`a cell lies outside the grid, in row ${row}, column ${column}: it is left out`);
    return has;
  }

  /**
   * @param {number} row
   * @param {number} column
   */
  #has(row, column) {
    return Number.isInteger(row) && Number.isInteger(column) && row >= 1 && column >= 1 && row <= this.height && column <= this.width;
  }

  /**
   * @param {number} row
   * @param {number} column
   */
  block(row, column) {
    this.#blocks.add(`${row} ${column}`);
  }

  /**
   * @param {number} row
   * @param {number} column
   */
  isBlock(row, column) {
    return this.#blocks.has(`${row} ${column}`);
  }

  /**
   * @param {number} row
   * @param {number} column
   */
  circle(row, column) {
    if (this.#has(row, column)) this.#circles.add(`${row} ${column}`);
  }

  /**
   * @param {number} row
   * @param {number} column
   * @param {string} colour
   */
  colour(row, column, colour) {
    if (colour !== 'ffffff') this.#colours.push([colourField(`${row} ${column}`), colour]);
  }

  // Sides of a cell: of `right`, `below`, `left` and `above`.
  /**
   * @param {number} row
   * @param {number} column
   * @param {string[]} sides
   */
  bar(row, column, ...sides) {
    for (const side of sides) {
      const [of, beside] = [row - Number(side === 'above'), column - Number(side === 'left')];
      this.#bars.add(`${of} ${beside} ${side === 'above' || side === 'below' ? 'below' : 'right'}`);
    }
  }

  // What is in a cell: a letter, or several. A cell with something else stays empty.
  /**
   * @param {number} row
   * @param {number} column
   * @param {unknown} given
   */
  entry(row, column, given) {
    const entry = this.#has(row, column) ? this.repairs.lettersOf(row, column, given) : '';
    if (!entry) return;
    this.#letters.set(`${row} ${column}`, entry.slice(0, 1));
    if (entry.length > 1) this.#rebus.push([cellField(`${row} ${column}`), entry]);
  }

  /**
   * @param {string} field
   * @param {string} text
   */
  text(field, text) {
    if (text) this.texts.set(field, text);
  }

  // The language of its texts, such as en-GB; or ''.
  /** @param {string} code */
  language(code) {
    if (isLanguage(code)) this.#language = code;
    else if (code) this.drops('the language');
  }

  /** @param {{ at?: string | null, number?: string | number, direction: Direction, text: string, links?: string[] }} clue */
  clue({ at = null, number = '', direction, text, links = [] }) {
    if (text) this.clues.push({ at, number: String(number), direction, text, links });
  }

  // Takes clues in the order of the lights that they are for, and says which are too many and how many are too few. `kind` says which clues they are.
  /**
   * @param {FirstCell[]} lights
   * @param {string[]} texts
   */
  cluesFor(lights, texts, kind = 'clue') {
    lights.slice(0, texts.length).forEach(({ row, column, direction }, at) => this.clue({ at: `${row} ${column}`, direction, text: texts[at] }));
    this.repairs.counts(lights.length, texts, kind);
  }

  /** @param {GivenNote} note */
  note(note) {
    if (note.text) this.#notes.push(note);
  }

  // Counts what is not kept, under the words for one and those for several.
  /** @param {string} one */
  drops(one, several = one) {
    this.#dropped.add(one, several);
  }

  get dropped() {
    return this.#dropped.phrases;
  }

  // The record of the grid and its letters.
  get grid() {
    const bars = [...this.#bars].filter((bar) => this.#isEdge(bar)).map((bar) => `bar ${bar}`);
    const open = (/** @type {[string, string][]} */ lines) => lines.filter(([coordinates]) => !this.#blocks.has(coordinates)).map(([coordinates, letter]) => (letter ? `set ${coordinates} ${letter}` : `circle ${coordinates}`));
    return [
      `size ${this.width} ${this.height}`, 'sym none', ...[...this.#blocks].map((cell) => `block ${cell}`), ...bars, `sym ${this.#isHalf(bars) ? 'half' : 'none'}`,
      ...open([...this.#circles].map((cell) => /** @type {[string, string]} */ ([cell, '']))), ...open([...this.#letters]), '',
    ].join('\n');
  }

  // The whole record, the texts and the cells that have what a record cannot have, and how many clues have no light in the grid. `lights` are those that
  // the engine finds in it.
  /** @param {FirstCell[]} lights */
  recordWith(lights) {
    const byName = new Map(lights.map(({ name, row, column, direction }) => [name, `${row} ${column} ${direction}`]));
    const all = new Set(byName.values());
    const placed = this.clues.map(({ at, number, direction, text, links }) => ({ field: (at ? `${at} ${direction}` : byName.get(`${number} ${direction}`)) ?? '', text, links }));
    const known = this.#eachOnce(placed.filter(({ field }) => all.has(field)));
    /** @type {[string, string][]} */
    const originals = [...this.#rebus, ...this.#colours, ...(this.#language ? [/** @type {[string, string]} */ ([LANGUAGE, this.#language])] : [])];
    const lines = [...this.texts, ...known.map(({ field, text }) => [`clue ${field}`, text])].flatMap(([field, text]) => {
      const { near, count } = engineText(text);
      if (count || hasItalics(text)) originals.push([field, text]);
      return textLines(field, escapeText(near));
    });
    for (const { field, links } of known) {
      const others = links.map((name) => byName.get(name) ?? byName.get(turned(name)));
      if (others.includes(undefined)) this.drops('the link of a clue to other lights', 'links of clues to other lights');
      else if (others.length) originals.push([`link ${field}`, others.join(', ')]);
    }
    originals.push(...this.#placedNotes(byName));
    return { record: [this.grid, ...lines.map((line) => `${line}\n`)].join(''), originals, lost: placed.filter(({ field }) => !all.has(field)).length };
  }

  // The notes as originals are kept, those of one clue as one.
  /** @param {Map<string, string>} byName */
  #placedNotes(byName) {
    /** @type {Map<string, string>} */
    const notes = new Map();
    for (const { number, direction, text } of this.#notes) {
      const place = byName.get(`${number} ${direction}`);
      const before = notes.get(place ?? '');
      if (place) notes.set(place, before ? `${before} ${text}` : text);
      else this.drops('the note on a clue', 'notes on clues');
    }
    return [...notes].map(([place, text]) => /** @type {[string, string]} */ ([`note ${place}`, text]));
  }

  // The last clue of each light.
  /**
   * @template {{ field: string, text: string }} Clue
   * @param {Clue[]} clues
   */
  #eachOnce(clues) {
    const last = new Map(clues.map((clue) => [clue.field, clue]));
    for (const clue of clues) if (last.get(clue.field) !== clue) this.repairs.add(`a clue has the place of another one: “${shownText(clue.text)}” is left out`);
    return [...last.values()];
  }

  // Whether a bar lies between two cells.
  /** @param {string} bar */
  #isEdge(bar) {
    const [spelledRow, spelledColumn, side] = bar.split(' ');
    const [row, column] = [Number(spelledRow), Number(spelledColumn)];
    return row > 0 && column > 0 && (side === 'right' ? column < this.width : row < this.height);
  }

  // Whether blocks and bars are their half turn.
  /** @param {string[]} bars */
  #isHalf(bars) {
    const turned = (/** @type {string} */ row, /** @type {string} */ column) => [this.height + 1 - Number(row), this.width + 1 - Number(column)];
    const isTurned = (/** @type {string} */ cell) => this.#blocks.has(turned(.../** @type {[string, string]} */ (cell.split(' '))).join(' '));
    const barTurned = (/** @type {string} */ bar) => {
      const [, row, column, side] = bar.split(' ');
      const [other, beside] = turned(row, column);
      return side === 'right' ? `bar ${other} ${beside - 1} right` : `bar ${other - 1} ${beside} below`;
    };
    return [...this.#blocks].every(isTurned) && bars.every((bar) => bars.includes(barTurned(bar)));
  }
}

// The other light of a number: a file may leave its direction out.
const turned = (/** @type {string} */ name) => (name.endsWith('across') ? name.replace('across', 'down') : name.replace('down', 'across'));

// What a text of HTML has, with `gap` where a line or a paragraph ends. Nothing of it is shown or run.
const bodyOf = (/** @type {unknown} */ text, /** @type {string} */ gap) => new DOMParser().parseFromString(String(text).replace(/<br\s*\/?>|<\/p>/gi, gap), 'text/html').body;

// A text without its marks, which are those of HTML.
export const plainOf = (/** @type {any} */ text) => (/[<&]/.test(text) ? bodyOf(text, '\n').textContent ?? '' : String(text)).trim();

// The same in one line.
export const lineOf = (/** @type {any} */ text) => plainOf(text).replace(/\s*\n\s*/g, ' ');

// The text of a node without its marks but for italics.
/** @param {Node} node */
export function markedIn(node) {
  /** @type {(part: Node) => string} */
  const spell = (part) => {
    const inner = part.nodeType === Node.TEXT_NODE ? part.textContent ?? '' : [...part.childNodes].map(spell).join('');
    return /^(i|em)$/i.test(part.nodeName) && inner ? `<i>${withoutItalics(inner)}</i>` : inner;
  };
  return spell(node).trim();
}

export const markedOf = (/** @type {any} */ text) => (/[<&]/.test(text) ? markedIn(bodyOf(text, ' ')) : String(text).trim());
