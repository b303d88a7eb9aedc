// The fills that were found, side by side as small grids, to look at and choose from: those with the best worst words first, if words have scores.
import { byFigures, figuresOf, figuresText } from '../model/grades.js';
import { letterIn, wordsOf } from '../model/record.js';
import { whenIdle } from './idle.js';
import { sketchOf } from './library.js';
import { mayEdit, say } from './messages.js';

const MOST_KEPT = 5;

/** @typedef {Map<string, string>} Fill the letters of a fill, by coordinates */

export class Fills {
  /** @type {import('../model/editor.js').Editor} */
  #editor;
  #elements;
  // for each fill its letters, by coordinates; the newest first
  /** @type {Fill[]} */
  #kept = [];
  #shape = '';
  // the words at the time when each was found
  /** @type {WeakMap<Fill, string>} */
  #words = new WeakMap();
  // rises with each change, so that late answers are dropped
  #turn = 0;

  // `elements` are the box and the list in it.
  /**
   * @param {import('../model/editor.js').Editor} editor
   * @param {Record<'box' | 'list', HTMLElement>} elements
   */
  constructor(editor, elements) {
    this.#editor = editor;
    this.#elements = elements;
    editor.on(['step', 'board'], () => this.#soon());
  }

  // Keeps the fill that is in the grid; if it is a better one of the fill before, in its place.
  /** @param {boolean} isBetter */
  add(isBetter = false) {
    const letters = this.#letters();
    this.#drop();
    if (isBetter) this.#kept.shift();
    this.#words.set(letters, this.#wordsNow);
    this.#kept = [letters, ...this.#kept.filter((fill) => !isSame(fill, letters))].slice(0, MOST_KEPT);
    this.#soon();
  }

  get count() {
    this.#drop();
    return this.#kept.length;
  }

  // Keeps a fill that is not in the grid, given by lines that set its letters, behind the others.
  /** @param {string[]} lines */
  offer(lines) {
    const letters = new Map(lines.map(letterIn));
    this.#drop();
    this.#words.set(letters, this.#wordsNow);
    if (this.#kept.length < MOST_KEPT && !this.#kept.some((fill) => isSame(fill, letters))) this.#kept.push(letters);
    this.#soon();
  }

  get #wordsNow() {
    const { record, list } = this.#editor;
    return [wordsOf(record), list.name, list.words, list.personal, list.least].join();
  }

  // A fill of the words in use that differs from the grid in some cells alone, and whose worst word there is better, the best of them; or null.
  /**
   * @param {{ coordinates: string }[]} cells
   * @returns {Promise<Fill | null>}
   */
  async better(cells) {
    this.#drop();
    const { board, engine } = this.#editor;
    const [now, own] = [this.#letters(), new Set(cells.map(({ coordinates }) => coordinates))];
    const lights = board.lights.filter((light) => light.cells.some((cell) => own.has(board.cells[cell].coordinates)));
    const worstOf = async (/** @type {Fill} */ letters) => Math.min(...(await engine.call('grades', { words: lights.map((light) => this.#spelled(light, letters)) })).map((/** @type {number | null} */ score) => score ?? Infinity));
    const inUse = this.#kept.filter((fill) => fill.size === now.size && this.#words.get(fill) === this.#wordsNow);
    const others = inUse.filter((fill) => [...fill].every(([coordinates, letter]) => own.has(coordinates) || now.get(coordinates) === letter));
    /** @type {Fill | null} */
    let best = null;
    let worst = await worstOf(now);
    for (const fill of others) {
      const other = await worstOf(fill);
      if (other > worst) [best, worst] = [fill, other];
    }
    return best;
  }

  #spelled = (/** @type {import('../model/board.js').Light} */ light, /** @type {Fill} */ letters) => light.cells.map((cell) => letters.get(this.#editor.board.cells[cell].coordinates) ?? '.').join('');

  #letters() {
    return new Map(this.#editor.board.cells.filter((cell) => cell.letter).map((cell) => [cell.coordinates, cell.letter]));
  }

  // Drops fills of another grid, and those that do not have the letters in ink.
  #drop() {
    const { board, pencil } = this.#editor;
    const shape = board.cells.map((cell) => (cell.block ? '#' : `${cell.right ? '|' : ''}${cell.below ? '=' : '-'}`)).join('');
    const ink = board.cells.filter((cell) => cell.letter && !pencil.has(cell.coordinates));
    const isOfGrid = (/** @type {Fill} */ fill) => shape === this.#shape && ink.every((cell) => fill.get(cell.coordinates) === cell.letter);
    this.#kept = this.#kept.filter(isOfGrid);
    this.#shape = shape;
  }

  #soon() {
    if (!this.#kept.length && this.#elements.box.hidden) return;
    const turn = ++this.#turn;
    whenIdle(() => turn === this.#turn && this.#show(turn).catch(() => {}));
  }

  /** @param {number} turn */
  async #show(turn) {
    this.#drop();
    const { box, list } = this.#elements;
    // one fill, which is in the grid, is no choice
    const isChoice = this.#kept.length > 1;
    const figures = isChoice ? await Promise.all(this.#kept.map((fill) => this.#figures(fill))) : [];
    if (turn !== this.#turn) return;
    box.hidden = !isChoice;
    const cards = isChoice ? this.#kept.map((fill, at) => ({ fill, ...figures[at] })).sort(byFigures) : [];
    list.replaceChildren(...cards.map(({ fill, told }) => this.#card(fill, told)));
  }

  // The figures of the words of a fill, if they have scores, and what is said of it: how good they are, and that it is in the grid, or how many of its words
  // are others.
  /** @param {Fill} fill */
  async #figures(fill) {
    const { board, list, engine } = this.#editor;
    const now = this.#letters();
    const others = board.lights.filter((light) => this.#spelled(light, fill) !== this.#spelled(light, now)).length;
    const told = others ? `${others} other ${others === 1 ? 'word' : 'words'}` : 'in the grid';
    const scores = list.scored ? await engine.call('grades', { words: board.lights.map((light) => this.#spelled(light, fill)) }) : [];
    const figures = figuresOf(scores, list.weak);
    return { figures, told: figures ? `${figuresText(figures)}; ${told}` : told };
  }

  /**
   * @param {Fill} fill
   * @param {string} figures
   */
  #card(fill, figures) {
    const card = fillCard(this.#editor.board, fill, figures);
    card.addEventListener('click', () => this.#choose(fill));
    return card;
  }

  /** @param {Fill} fill */
  async #choose(fill) {
    if (!mayEdit(this.#editor)) return;
    this.#editor.change({ edited: null });
    if ((await this.put(fill)) === null) say('this fill is in the grid; undo takes it back', 'good');
  }

  // Puts letters into the grid in one step, and keeps them. Returns what they are refused for, or null.
  /** @param {Fill} letters */
  async use(letters) {
    if (!mayEdit(this.#editor)) return 'Filling';
    this.#editor.change({ edited: null });
    const refused = await this.put(letters);
    if (!refused) this.add();
    return refused;
  }

  // Puts a fill into the grid, in pencil but for what is in ink: as a step, or within the one that led to a record. Returns what it is refused for, or null;
  // `Known` if it is there already.
  /**
   * @param {Fill} fill
   * @param {string | null} only
   */
  async put(fill, only = null) {
    const editor = this.#editor;
    const { cells } = editor.board;
    const cleared = cells.filter((cell) => cell.letter && !fill.has(cell.coordinates));
    const entered = cells.filter((cell) => fill.has(cell.coordinates) && fill.get(cell.coordinates) !== cell.letter);
    if (!cleared.length && !entered.length) return 'Known';
    const pencil = new Set([...editor.pencil, ...entered.map((cell) => cell.coordinates)]);
    const lines = [...cleared.map((cell) => `clear ${cell.coordinates}`), ...entered.map((cell) => `set ${cell.coordinates} ${fill.get(cell.coordinates)}`)];
    return editor.edit(lines, { pencil, only });
  }
}

// A fill as a button: a small grid, in which the letters that differ from the board are marked, and what is said of it.
/**
 * @param {import('../model/board.js').Board} board
 * @param {Fill} fill
 * @param {string} told
 */
export function fillCard(board, fill, told) {
  const card = Object.assign(document.createElement('button'), { type: 'button', className: 'pattern fill' });
  const changed = new Set([...fill].filter(([coordinates, letter]) => board.at(coordinates)?.letter !== letter).map(([coordinates]) => coordinates));
  const blocks = new Set(board.cells.filter((cell) => cell.block).map((cell) => cell.coordinates));
  const bars = new Set(board.cells.flatMap((cell) => [...(cell.right ? [`${cell.coordinates} right`] : []), ...(cell.below ? [`${cell.coordinates} below`] : [])]));
  card.append(sketchOf({ width: board.width, height: board.height, blocks, bars, letters: fill }, changed), Object.assign(document.createElement('small'), { textContent: told }));
  card.setAttribute('aria-pressed', String(!changed.size));
  card.setAttribute('aria-label', `Fill: ${told}`);
  return card;
}

/**
 * @param {Fill} one
 * @param {Fill} other
 */
const isSame = (one, other) => one.size === other.size && [...one].every(([cell, letter]) => other.get(cell) === letter);
