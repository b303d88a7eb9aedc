// Where a block helps: in the dialog each cell is tried as a block, with its images, in workers. The grid shows which ones leave room for better fills, and a
// short search fills the most promising.
import { MOST, figuresOf, figuresText, scoreOf } from '../model/grades.js';
import { bodyOf, parseRecord, withoutTexts, wordsOf } from '../model/record.js';
import { openDialog } from '../views/dialogs.js';
import { sketchOf } from '../views/library.js';
import { mayEdit } from '../views/messages.js';
import { byBound, byFill, movesIn } from './moves.js';

/** @typedef {import('./moves.js').Move} Move */
/** @typedef {import('../engine/engine.js').Engine} Engine */
/** @typedef {{ dialog: HTMLDialogElement, map: HTMLElement, told: HTMLElement, moves: HTMLElement }} Elements */

// the most workers, how many moves are filled, by searches of so many placements, and how many of these are shown
const MOST_WORKERS = 4;
const MOST_FILLED = 16;
const PLACEMENTS = 3000;
const MOST_SHOWN = 12;

export class MovesView {
  #editor;
  #helpers;
  #elements;
  // rises with each search, and when one is ended
  #turn = 0;

  /**
   * @param {import('../model/editor.js').Editor} editor
   * @param {import('../engine/helpers.js').Helpers} helpers
   * @param {Elements} elements
   */
  constructor(editor, helpers, elements) {
    this.#editor = editor;
    this.#helpers = helpers;
    this.#elements = elements;
    elements.dialog.addEventListener('close', () => {
      this.#turn++;
      helpers.rest();
    });
  }

  open() {
    const { dialog, map, moves } = this.#elements;
    const turn = ++this.#turn;
    map.replaceChildren();
    moves.replaceChildren();
    openDialog(dialog);
    this.#search(turn).catch((fault) => this.#say(turn, fault.message));
  }

  /** @param {number} turn */
  #isOn(turn) {
    return turn === this.#turn;
  }

  /**
   * @param {number} turn
   * @param {string} text
   */
  #say(turn, text) {
    if (this.#isOn(turn)) this.#elements.told.textContent = text;
  }

  // The grid without letters in pencil, as lines.
  get #lines() {
    const { record, pencil } = this.#editor;
    return bodyOf(withoutTexts(record)).filter((line) => !line.startsWith('set ') || !pencil.has(line.split(' ').slice(1, 3).join(' ')));
  }

  // The lines of the grid with more blocks.
  /** @param {number[]} cells */
  #linesWith(cells) {
    const { board } = this.#editor;
    return [...this.#lines, 'sym none', ...cells.map((index) => `block ${board.cells[index].coordinates}`)];
  }

  /** @param {number} turn */
  async #search(turn) {
    const { board, sym, pencil, record } = this.#editor;
    const orbits = movesIn(board, /** @type {any} */ (sym), pencil);
    if (!orbits.length) return this.#say(turn, 'No empty cell can be a block: all lights keep three letters, and grids with bars stay as they are.');
    const count = Math.min(MOST_WORKERS, this.#helpers.most + 1);
    this.#say(turn, 'trying blocks …');
    const workers = await Promise.all(this.#helpers.begin([...wordsOf(record), 'size 1 1', ''].join('\n'), count));
    // the grid as it is comes first
    /** @type {number[][]} */
    const queue = [[], ...orbits];
    /** @type {Move[]} */
    const tried = [];
    await Promise.all(workers.map((worker) => this.#bound(turn, worker, queue, tried)));
    if (!this.#isOn(turn)) return undefined;
    const now = /** @type {Move} */ (tried.find(({ cells }) => !cells.length));
    const others = tried.filter(({ cells }) => cells.length).sort(byBound);
    const promising = [now, ...others.slice(0, MOST_FILLED)];
    /** @type {Move[]} */
    const filled = [];
    await Promise.all(workers.map((worker) => this.#fill(turn, worker, promising, filled)));
    if (!this.#isOn(turn)) return undefined;
    const better = filled.filter((move) => move.cells.length && byFill(move, now) < 0).length;
    const told = `${orbits.length} blocks were tried, and the ${filled.length - 1} most promising were filled: ${better || 'none'} ${better > 1 ? 'make' : 'makes'} that better.`;
    return this.#say(turn, `As it is: ${this.#verdict(now)}. ${told}`);
  }

  // Has a worker find the bounds of the moves that wait.
  /**
   * @param {number} turn
   * @param {Engine} worker
   * @param {number[][]} queue
   * @param {Move[]} tried
   */
  async #bound(turn, worker, queue, tried) {
    for (let cells = queue.shift(); cells && this.#isOn(turn); cells = queue.shift()) {
      const { bound, logs } = await worker.call('boundOfGrid', { lines: this.#linesWith(cells) });
      tried.push({ cells, bound, logs, isFilled: false, figures: null });
      this.#say(turn, `${tried.length - 1} blocks are tried, ${queue.length} are left …`);
      if (this.#isOn(turn)) this.#showMap(tried);
    }
  }

  // Has a worker fill the moves that wait.
  /**
   * @param {number} turn
   * @param {Engine} worker
   * @param {Move[]} waiting
   * @param {Move[]} filled
   */
  async #fill(turn, worker, waiting, filled) {
    const { scored: isScored, weak } = this.#editor.list;
    for (let move = waiting.shift(); move && this.#isOn(turn); move = waiting.shift()) {
      const { answer, scores } = await worker.call('fillGrid', { lines: this.#linesWith(move.cells), placements: PLACEMENTS, isScored });
      Object.assign(move, { isFilled: answer === 'filled', figures: figuresOf(scores, weak) });
      filled.push(move);
      if (this.#isOn(turn)) this.#showMoves(filled);
    }
  }

  // Tints the cells that leave room for better fills than the grid as it is, and marks those that leave room for worse ones only.
  /** @param {Move[]} tried */
  #showMap(tried) {
    const now = tried.find(({ cells }) => !cells.length);
    if (!now) return;
    /** @param {Move[]} moves */
    const cellsOf = (moves) => new Set(moves.flatMap(({ cells }) => cells).map((index) => this.#editor.board.cells[index].coordinates));
    const [better, worse] = [tried.filter(({ bound }) => bound > now.bound), tried.filter(({ bound }) => bound < now.bound)];
    this.#elements.map.replaceChildren(sketchOf(parseRecord(this.#linesWith([]).join('\n')), new Set(), cellsOf(worse), cellsOf(better)));
  }

  /** @param {Move[]} filled */
  #showMoves(filled) {
    const best = filled.filter(({ cells }) => cells.length).sort(byFill).slice(0, MOST_SHOWN);
    const isShown = this.#elements.moves.contains(document.activeElement);
    if (!isShown) this.#elements.moves.replaceChildren(...best.map((move) => this.#card(move)));
  }

  /** @param {Move} move */
  #card(move) {
    const { board } = this.#editor;
    const [first] = move.cells;
    const marked = new Set(move.cells.map((index) => board.cells[index].coordinates));
    const card = Object.assign(document.createElement('button'), { type: 'button', className: 'pattern' });
    const small = Object.assign(document.createElement('small'), { textContent: this.#verdict(move), className: move.isFilled ? 'here' : '' });
    card.append(sketchOf(parseRecord(this.#linesWith([]).join('\n')), new Set(), new Set(), marked), `row ${board.rowOf(first)}, column ${board.columnOf(first)}`, small);
    card.addEventListener('click', () => {
      this.#elements.dialog.close();
      if (mayEdit(this.#editor)) this.#editor.do('toggleBlock', first);
    });
    return card;
  }

  // What is said of a move.
  /** @param {Move} move */
  #verdict({ bound, isFilled, figures }) {
    const { best, scored } = this.#editor.list;
    const limit = !bound ? 'no fill' : scored && bound <= MOST ? `no fill is better than ${scoreOf(bound - 1, best)}` : '';
    const fill = isFilled ? `it fills${figures ? `: ${figuresText(figures)}` : ''}` : 'a short search finds no fill';
    return [limit, ...(bound ? [fill] : [])].filter(Boolean).join('; ');
  }
}
