// The grid as the engine last told it.
import { gridIn, named } from '../engine/told.js';
import { placeOf } from './record.js';

// `left` has the feasible letters of a cell, and `right` and `below` say whether a bar is there.
/**
 * @typedef {Readonly<{
 *   coordinates: string, block: boolean, letter: string, left: string, number: string, right: boolean, below: boolean, circle: boolean,
 *   across: Light | null, down: Light | null,
 * }>} Cell
 */
// `cells` are indices.
/** @typedef {Readonly<{ name: string, number: string, direction: 'across' | 'down', cells: readonly number[] }>} Light */
// What makes a board: its cells in reading order, how many words each light has left, in the order of the lights, and the texts: the clues by the
// names of their lights, and the others by their fields.
/**
 * @typedef {{
 *   width: number, height: number, cells: readonly Cell[], lights: readonly Light[], counts: ArrayLike<number>, texts: ReadonlyMap<string, string>,
 * }} Grid
 */

// The cells of a long light, and the part of blocks below which a grid is not done.
const LONG = 9;
const SPARSE = 0.1;

/** @type {Grid} */
const NONE = { width: 0, height: 0, cells: [], lights: [], counts: [], texts: new Map() };

// Nothing of a board changes: what changes in the grid makes another board, which shares what is the same.
export class Board {
  /** @type {ReadonlyMap<string, number>} the places of the lights by name */
  #places;

  /** @param {Grid} grid */
  constructor({ width, height, cells, lights, counts, texts } = NONE) {
    /** @readonly */
    this.width = width;
    /** @readonly */
    this.height = height;
    /** @readonly */
    this.cells = cells;
    /** @readonly */
    this.lights = lights;
    /** @readonly */
    this.counts = counts;
    /** @readonly */
    this.texts = texts;
    /** @type {ReadonlyMap<string, Light>} @readonly */
    this.byName = new Map(lights.map((light) => [light.name, light]));
    this.#places = new Map(lights.map(({ name }, at) => [name, at]));
  }

  // The board of what the worker tells as a whole.
  /** @param {Pick<import('../engine/told.js').Answers, 'show' | 'lights' | 'cells' | 'circles' | 'texts'> & { counts: ArrayLike<number> }} told */
  static of(told) {
    const { width, height, cells: shown } = gridIn(told.show);
    /** @param {{ row: number, column: number }} place */
    const indexOf = ({ row, column }) => (row - 1) * width + column - 1;
    const lights = told.lights.map((light) => lightOf(light, indexOf(light), width));
    const [across, down] = ['across', 'down'].map((direction) => new Map(lights.filter((light) => light.direction === direction).flatMap((light) => light.cells.map((cell) => [cell, light]))));
    const numbers = new Map(lights.map(({ cells: [first], number }) => [first, number]));
    const left = new Map(told.cells.map((cell) => [indexOf(cell), cell.letters]));
    const circled = new Set(told.circles.map(indexOf));
    const cells = shown.map((cell, at) => ({
      ...cell, coordinates: `${Math.floor(at / width) + 1} ${(at % width) + 1}`, left: left.get(at) ?? '', number: numbers.get(at) ?? '', circle: circled.has(at),
      across: across.get(at) ?? null, down: down.get(at) ?? null,
    }));
    return new Board({ width, height, cells, lights, counts: told.counts, texts: new Map(Object.entries(told.texts)) });
  }

  // The board with these letters in cells, and with these that are left for cells, by index, and with these counts.
  /**
   * @param {ReadonlyMap<number, string>} letters
   * @param {ReadonlyMap<number, string>} left
   * @param {ArrayLike<number>} counts
   */
  withLetters(letters, left = new Map(), counts = this.counts) {
    const cells = this.cells.slice();
    for (const [index, letter] of letters) cells[index] = { ...cells[index], letter };
    for (const [index, those] of left) cells[index] = { ...cells[index], left: those };
    return new Board({ ...this, cells, counts });
  }

  /**
   * @param {number} row
   * @param {number} column
   */
  index(row, column) {
    return (row - 1) * this.width + column - 1;
  }

  /** @param {number} index */
  rowOf(index) {
    return Math.floor(index / this.width) + 1;
  }

  /** @param {number} index */
  columnOf(index) {
    return (index % this.width) + 1;
  }

  // The letters that are left, by the index of the cell, in cells that an edit changed.
  /** @param {import('../../xw.js').Cell[]} changed */
  leftIn(changed) {
    return new Map(changed.map(({ row, column, letters }) => [this.index(row, column), letters]));
  }

  // How many words a light has left.
  /** @param {Light} light */
  countOf({ name }) {
    return this.counts[this.#places.get(name) ?? -1] ?? 0;
  }

  /** @param {Light} light */
  spell(light) {
    return light.cells.map((cell) => this.cells[cell].letter || '.').join('');
  }

  /** @param {Light} light */
  isEntered(light) {
    return light.cells.every((cell) => this.cells[cell].letter);
  }

  /** @param {Light} light */
  hasClue(light) {
    return this.texts.has(light.name);
  }

  // The name that records have for the clue of a light.
  /** @param {Light} light */
  clueField(light) {
    return `clue ${this.cells[light.cells[0]].coordinates} ${light.direction}`;
  }

  // The first cell without a letter in reading order, or -1.
  firstEmpty() {
    return this.cells.findIndex((cell) => !cell.block && !cell.letter);
  }

  // Whether the grid is large and has neither blocks nor bars yet.
  get isOpenGrid() {
    return Math.max(this.width, this.height) >= LONG && !this.cells.some((cell) => cell.block || cell.right || cell.below);
  }

  // Whether it has fewer blocks, or bars for them, than a grid that is done.
  get isSparse() {
    const count = this.cells.reduce((sum, cell) => sum + Number(cell.block) + (Number(cell.right) + Number(cell.below)) / 2, 0);
    return count < SPARSE * this.cells.length;
  }

  // Whether a light that no word matches may wait for blocks: it is long, and most of it is empty.
  /** @param {Light} light */
  isLongGap(light) {
    const { length } = light.cells.filter((cell) => !this.cells[cell].letter);
    return light.cells.length >= LONG && 2 * length > light.cells.length;
  }

  get entered() {
    return this.cells.filter((cell) => cell.letter).length;
  }

  get open() {
    return this.cells.filter((cell) => !cell.block).length;
  }

  // The cell with these coordinates; or null.
  /**
   * @param {string} coordinates
   * @returns {Cell | null}
   */
  at(coordinates) {
    const [row, column] = placeOf(coordinates);
    return row <= this.height && column <= this.width ? this.cells[this.index(row, column)] : null;
  }

  // The cells of the lights with these names, by index.
  /** @param {readonly string[]} names */
  cellsOf(names) {
    return new Set(names.flatMap((name) => this.byName.get(name)?.cells ?? []));
  }

  // The lights through a cell.
  /** @param {number} index */
  through(index) {
    const { across, down } = this.cells[index];
    return [across, down].flatMap((light) => light ?? []);
  }
}

/**
 * @param {import('../engine/told.js').ToldLight} light
 * @param {number} first
 * @param {number} width
 * @returns {Light}
 */
function lightOf({ light, letters }, first, width) {
  const one = named(light);
  const step = one.direction === 'across' ? 1 : width;
  return { ...one, cells: Array.from(letters, (_, at) => first + step * at) };
}
