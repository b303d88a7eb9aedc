// What is printed: the blank grid with its clues, the solution, and what an editor is sent. The pages are laid out here, so that each has a head.
import { headLines, manuscriptRows } from '../formats/manuscript.js';
import { brightened } from '../model/colours.js';
import { hasEnumeration } from '../model/enumeration.js';
import { first, nodesOfText, svgElement } from './page.js';

// The room on the papers within the margins, in millimetres.
const ROOM = { A4: { width: 182, height: 269 }, letter: { width: 188, height: 251 } };
// What stays free at the foot of a page, since a line may break elsewhere on paper than on the screen.
const SPARE = 6;
// What a grid has around it.
const AROUND = 6;
const PIXELS = 96 / 25.4;
// Sizes of type in points: of clues that are on one page with their grid, the greatest that fits, and of those that need more pages.
const SIZES = [10, 9.5, 9, 8.5, 8, 7.5, 7, 6.5];
const SIZE_OF_MANY = 9;
// The number of columns from which on a grid is large, and the least width of two grids on one page.
const LARGE = 18;
const LEAST_OF_TWO = 80;
// the least height of a grid, whatever stands above it
const LEAST = 40;
// the side of a cell in the picture of the grid
const SIDE = 30;

/** @typedef {import('../model/board.js').Cell} Cell */
/** @typedef {import('../model/board.js').Light} Light */
/** @typedef {'A4' | 'letter'} Paper */
/**
 * @template Part
 * @typedef {(parts: Part[]) => void} Show what shows parts in an element
 */

export class Printer {
  /** @type {import('../model/editor.js').Editor} */
  #editor;
  #sheet;
  #style;

  /**
   * @param {import('../model/editor.js').Editor} editor
   * @param {HTMLElement} sheet
   */
  constructor(editor, sheet) {
    this.#editor = editor;
    this.#sheet = sheet;
    this.#style = document.head.appendChild(document.createElement('style'));
    addEventListener('beforeprint', () => this.#prepare());
  }

  parts = 'both';
  /** @type {Paper} */
  paper = 'A4';
  // whether clues without an enumeration get the length of their word
  hasLengths = true;
  // of a submission: the name and address, whether its clues are double spaced, and whether it has the comments on them
  address = '';
  isDouble = true;
  hasComments = false;

  print() {
    this.#prepare();
    print();
  }

  #prepare() {
    this.#style.textContent = `@page { size: ${this.paper}; margin: 14mm; }`;
    this.#sheet.replaceChildren(...this.pages());
  }

  // The pages that are printed. They are laid out in the sheet, out of sight.
  pages() {
    this.#sheet.replaceChildren();
    this.#sheet.classList.add('measured');
    if (this.parts === 'submission') this.#submission();
    if (this.parts === 'both' || this.parts === 'puzzle') this.#puzzle();
    if (this.parts === 'both' || this.parts === 'solution') this.#solution();
    this.#sheet.classList.remove('measured');
    return [...this.#sheet.children];
  }

  // Begins a page: its head has the title, and lines beside that.
  /**
   * @param {string} name
   * @param {string} what
   * @param {string[]} lines
   */
  #begin(name, what, lines) {
    const page = make('section', `page ${name}`);
    page.style.width = `${ROOM[this.paper].width}mm`;
    const head = make('header', '');
    head.append(make('h1', '', `${this.#text('title') || 'Crossword'}${what}`), make('p', 'address', lines.filter(Boolean).join('\n')));
    page.append(head);
    this.#sheet.append(page);
    return page;
  }

  /** @param {HTMLElement} page */
  #fits(page) {
    return page.offsetHeight <= (ROOM[this.paper].height - SPARE) * PIXELS;
  }

  // Shows parts on a page, and those that do not fit on further ones; returns the last page. `box` adds a box to a page and returns what shows parts in it,
  // and `begin` begins a page.
  /**
   * @template {Node | string} Part
   * @param {HTMLElement} page
   * @param {Part[]} parts
   * @param {(page: HTMLElement) => Show<Part>} box
   * @param {() => HTMLElement} begin
   */
  #flow(page, parts, box, begin) {
    let [last, rest] = [page, parts];
    while (rest.length) {
      const show = box(last);
      // a part that is too large for any page has one of its own
      const count = this.#countOn(last, rest, show) || Number(last !== page);
      show(rest.slice(0, count));
      rest = rest.slice(count);
      if (rest.length) last = begin();
    }
    return last;
  }

  // How many of the first parts fit on a page. A heading does not come last.
  /**
   * @template {Node | string} Part
   * @param {HTMLElement} page
   * @param {Part[]} parts
   * @param {Show<Part>} show
   */
  #countOn(page, parts, show) {
    let [low, high] = [0, parts.length];
    while (low < high) {
      const middle = Math.ceil((low + high) / 2);
      show(parts.slice(0, middle));
      if (this.#fits(page)) low = middle;
      else high = middle - 1;
    }
    const last = parts[low - 1];
    return low < parts.length && last instanceof Element && last.matches('h2, .heading') ? low - 1 : low;
  }

  // Texts at the foot, such as notes.
  /**
   * @param {HTMLElement} page
   * @param {string[]} texts
   * @param {() => HTMLElement} begin
   */
  #flowTexts(page, texts, begin) {
    const box = (/** @type {HTMLElement} */ on) => {
      const foot = on.appendChild(make('p', 'foot'));
      return (/** @type {string[]} */ words) => {
        foot.textContent = words.join('');
      };
    };
    let last = page;
    for (const text of texts) last = this.#flow(last, text.split(/(?<=\s)/), box, begin);
  }

  // The width of so many grids, one below another, in the room that a page has left; `most` is the greatest one, in millimetres.
  /**
   * @param {HTMLElement} page
   * @param {number} count
   * @param {number} most
   */
  #widthOn(page, count, most) {
    const { board } = this.#editor;
    const { width, height } = ROOM[this.paper];
    const left = height - SPARE - page.offsetHeight / PIXELS;
    return Math.min(most, width, (Math.max(left / count - AROUND, LEAST) * board.width) / board.height);
  }

  /**
   * @param {HTMLElement} page
   * @param {boolean} isSolution
   * @param {number} width
   */
  #addGrid(page, isSolution, width) {
    const grid = this.#grid(isSolution);
    grid.style.width = `${width}mm`;
    page.append(grid);
  }

  get #isLarge() {
    return this.#editor.board.width >= LARGE;
  }

  // The blank grid with its clues: on one page, if they fit in one of the sizes.
  #puzzle() {
    const begin = () => this.#begin('', '', [this.#text('author')]);
    const page = begin();
    this.#addGrid(page, false, this.#widthOn(page, 1, this.#isLarge ? 130 : 100));
    const clues = this.#clues();
    const foot = ['copyright', 'notes'].map((field) => this.#text(field)).filter(Boolean);
    const whole = this.#clueBox(page, SIZES[0]);
    whole.append(...clues);
    const feet = foot.map((text) => page.appendChild(make('p', 'foot', text)));
    const isWhole = SIZES.some((size) => {
      whole.style.fontSize = `${size}pt`;
      return this.#fits(page);
    });
    if (isWhole) return;
    for (const element of [whole, ...feet]) element.remove();
    const last = this.#flow(page, clues, (on) => showIn(this.#clueBox(on, SIZE_OF_MANY)), begin);
    this.#flowTexts(last, foot, begin);
  }

  #solution() {
    const begin = () => this.#begin('solution', ': solution', [this.#text('author')]);
    const page = begin();
    this.#addGrid(page, true, this.#widthOn(page, 1, 140));
    this.#flowTexts(page, [this.#text('copyright')].filter(Boolean), begin);
  }

  // What an editor is sent: the filled grid and the numbered one, and the clues with their answers in the margin, each page with its number and the name and
  // address.
  #submission() {
    const lines = headLines(this.#editor, this.address);
    const begin = (/** @type {string} */ what) => this.#begin('submission', what, [...lines, pageText(1, 1)]);
    const page = begin('');
    const both = this.#widthOn(page, 2, 110);
    const isEach = this.#isLarge || both < LEAST_OF_TWO;
    this.#addGrid(page, true, isEach ? this.#widthOn(page, 1, 160) : both);
    const other = isEach ? begin('') : page;
    this.#addGrid(other, false, isEach ? this.#widthOn(other, 1, 160) : both);
    const beginAnswers = () => begin(': clues and answers');
    const table = () => make('table', `answers${this.isDouble ? ' double' : ''}`);
    this.#flow(beginAnswers(), manuscriptRows(this.#editor, this.hasLengths, this.hasComments).map(rowOf), (on) => showIn(on.appendChild(table())), beginAnswers);
    const pages = [...this.#sheet.children];
    pages.forEach((one, at) => {
      first('.address', one).textContent = [...lines, pageText(at + 1, pages.length)].join('\n');
    });
  }

  // Whether the clue of a light leads to that of another one, which it goes on from.
  /** @param {Light} light */
  #isLinked(light) {
    return this.#editor.links.headOf.has(light);
  }

  /** @param {string} field */
  #text(field) {
    return this.#editor.textOf(field);
  }

  // The grid as a picture. Its parts are elements, so no text of the puzzle is read as markup.
  /** @param {boolean} isSolution */
  #grid(isSolution) {
    const { board } = this.#editor;
    const [width, height] = [board.width * SIDE, board.height * SIDE];
    const cells = board.cells.flatMap((cell, index) => this.#cell(cell, index, isSolution));
    const bars = board.cells.flatMap((cell, index) => barsOf(cell, board.columnOf(index) * SIDE, board.rowOf(index) * SIDE));
    const frame = svgElement('rect', { x: 0, y: 0, width, height, fill: 'none', stroke: '#000', 'stroke-width': 2 });
    const grid = make('div', 'grid');
    grid.append(svgElement('svg', { viewBox: `-1 -1 ${width + 2} ${height + 2}`, 'font-family': 'Helvetica, Arial, sans-serif' }, ...cells, ...bars, frame));
    return grid;
  }

  // The square of a cell, with its circle, its number, and in a solution its letters.
  /**
   * @param {Cell} cell
   * @param {number} index
   * @param {boolean} isSolution
   */
  #cell(cell, index, isSolution) {
    const { board } = this.#editor;
    const [x, y] = [(board.columnOf(index) - 1) * SIDE, (board.rowOf(index) - 1) * SIDE];
    const fill = cell.block ? '#000' : `#${brightened(this.#editor.colourOf(cell) || 'ffffff')}`;
    const parts = [svgElement('rect', { x, y, width: SIDE, height: SIDE, fill, stroke: '#000', 'stroke-width': 0.8 })];
    if (cell.circle && !cell.block) parts.push(svgElement('circle', { cx: x + SIDE / 2, cy: y + SIDE / 2, r: SIDE / 2 - 1, fill: 'none', stroke: '#666', 'stroke-width': 0.7 }));
    if (cell.number) parts.push(svgElement('text', { x: x + 2, y: y + 9, 'font-size': 8 }, cell.number));
    const entry = isSolution ? this.#editor.entryOf(cell) : '';
    // several letters are as small as they must be to fit
    if (entry) parts.push(svgElement('text', { x: x + SIDE / 2, y: y + 23, 'font-size': Math.min(18, 36 / entry.length), 'text-anchor': 'middle' }, entry));
    return parts;
  }

  // Adds a box of clues to a page, with type of a size in points.
  /**
   * @param {HTMLElement} page
   * @param {number} size
   */
  #clueBox(page, size) {
    const box = page.appendChild(make('div', 'clues'));
    box.style.columns = this.#editor.board.lights.length > 50 ? '4' : '3';
    box.style.fontSize = `${size}pt`;
    return box;
  }

  // The clues, with their headings.
  #clues() {
    const { board } = this.#editor;
    return [['across', 'Across'], ['down', 'Down']].flatMap(([direction, title]) => [
      make('h2', '', title), ...board.lights.filter((one) => one.direction === direction).map((light) => this.#clue(light)),
    ]);
  }

  /** @param {Light} light */
  #clue(light) {
    const clue = make('p', '');
    const text = this.#text(`clue ${light.name}`);
    const { numbers, answer } = this.#editor.cluedBy(light);
    clue.append(make('b', '', numbers), ' ', ...nodesOfText(text), ' ');
    if (this.hasLengths && !hasEnumeration(text) && !this.#isLinked(light)) clue.append(make('span', 'length', `(${answer.length})`));
    return clue;
  }
}

// The bars of a cell, whose lower right corner is at a point.
/**
 * @param {Cell} cell
 * @param {number} x
 * @param {number} y
 */
function barsOf({ right, below }, x, y) {
  const bar = (/** @type {string} */ d) => svgElement('path', { d, stroke: '#000', 'stroke-width': 3 });
  return [...(right ? [bar(`M${x} ${y - SIDE}V${y}`)] : []), ...(below ? [bar(`M${x - SIDE} ${y}H${x}`)] : [])];
}

const pageText = (/** @type {number} */ number, /** @type {number} */ count) => `page ${number} of ${count}`;

// A row of the table of clues and answers.
/** @param {Partial<Record<'heading' | 'comments' | 'number' | 'clue' | 'answer', string>>} row */
function rowOf({ heading = '', comments = '', number = '', clue = '', answer = '' }) {
  const row = make('tr', heading ? 'heading' : comments ? 'comments' : '');
  if (heading || comments) {
    const cell = row.appendChild(make(heading ? 'th' : 'td', '', heading || comments));
    cell.colSpan = 3;
    return row;
  }
  const told = make('td', '');
  told.append(...nodesOfText(clue));
  row.append(make('td', '', number), told, make('td', '', answer));
  return row;
}

// What shows parts in an element.
const showIn = (/** @type {HTMLElement} */ element) => (/** @type {Node[]} */ parts) => element.replaceChildren(...parts);

/**
 * @template {keyof HTMLElementTagNameMap} Name
 * @param {Name} name
 * @param {string} className
 * @returns {HTMLElementTagNameMap[Name]}
 */
function make(name, className, text = '') {
  const element = document.createElement(name);
  element.className = className;
  element.textContent = text;
  return element;
}
