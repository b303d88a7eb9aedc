// Dead ends: which lights have no word left, and which letters together are the reason.
import { endingMessage, refuse, say } from '../views/messages.js';
import { titleOf } from '../views/words.js';

// how long after an edit into a dead end its reason is shown, in milliseconds
const PATIENCE = 700;
// the most lights that are asked for their reason, and the most letters of one that are named
const MOST_ASKED = 9;
const MOST_NAMED = 8;

const WAITING = 'lights without a word wait for blocks (.) or bars: they are grey';

/** @typedef {import('../model/board.js').Light} Light */
/** @typedef {{ light: Light, cells: number[], letters: string[], own: number, last: number }} Reason */

export class Reasons {
  /** @type {import('../model/editor.js').Editor} */
  #editor;
  /** @type {ReturnType<typeof setTimeout> | undefined} */
  #timer;
  // takes away what was said of a dead end, if it stands still
  #endMessage = () => {};

  /** @param {import('../model/editor.js').Editor} editor */
  constructor(editor) {
    this.#editor = editor;
    editor.takes({ findDeadEnds: () => this.soon(), explainDeadEnd: () => this.ask() });
  }

  #isDead = (/** @type {Light} */ light) => {
    const { board } = this.#editor;
    return board.countOf(light) === 0 && !board.isEntered(light);
  };

  // After an edit that leads into a dead end: says so, marks the lights that no word matches, and after a moment shows the reason.
  soon() {
    clearTimeout(this.#timer);
    const { board } = this.#editor;
    if (!board.lights.some(this.#isDead)) {
      this.#endMessage();
      return;
    }
    if (board.entered === 0) {
      const { list } = this.#editor;
      const other = 'add blocks (.) or bars, or load a longer list';
      refuse(list.grade ? `no words with ${list.least} or more fit these lights: lower the least score, or ${other}` : `the list has no words for these lights yet: ${other}`);
      return;
    }
    if (board.isOpenGrid) {
      // they are grey after the first block too, until the engine has told which ones wait
      this.#editor.change({ waits: true });
      return say(WAITING);
    }
    if (board.isSparse) {
      this.#markUnmatched().then(() => (this.#editor.waits ? say(WAITING) : this.#tell()), () => {});
      return;
    }
    this.mark();
    this.#tell();
  }

  #tell() {
    const entry = this.#entry();
    this.#refuse(`${entry ? `${entry} leads to a dead end` : 'a dead end'}: no word is left for some lights. Click a red cell, or press ?, for the reason`);
    this.#timer = setTimeout(() => this.#explainEntry(), PATIENCE);
  }

  /** @param {string} text */
  #refuse(text) {
    refuse(text);
    this.#endMessage = endingMessage();
  }

  // The word of the last entry, if it is whole; or ''.
  #entry() {
    const { board } = this.#editor;
    const light = this.#lastLight;
    return light && board.isEntered(light) ? board.spell(light) : '';
  }

  get #lastLight() {
    const { board, edited } = this.#editor;
    return edited ? board.cells[edited.cell]?.[edited.direction] : null;
  }

  // The dead end may be over when its moment comes.
  #explainEntry() {
    const lights = this.#afterEntry();
    if (lights.length) this.#explain(lights).catch(() => {});
  }

  // Shows the reason for the lights of the cursor, if they have no word, or else for others.
  ask() {
    const { board, cursor } = this.#editor;
    const here = board.cells[cursor].block ? [] : board.through(cursor).filter(this.#isDead);
    return this.#explain(here.length ? here : this.#afterEntry());
  }

  // Marks the lights that no word matches, but for those that wait for blocks.
  mark() {
    this.#markUnmatched().catch(() => {});
  }

  async #markUnmatched() {
    const editor = this.#editor;
    const { record } = editor;
    const told = await editor.ask('unmatched');
    if (record !== editor.record) throw new Error('another edit came');
    const { board } = editor;
    const names = (told ?? []).map(({ light }) => light);
    const isWaiting = (/** @type {string} */ name) => {
      const light = board.byName.get(name);
      return board.isSparse && light !== undefined && board.isLongGap(light);
    };
    editor.change({ waits: names.some(isWaiting), unmatched: board.cellsOf(names.filter((name) => !isWaiting(name))) });
  }

  // The lights without a word that are asked after an entry: those that cross its light, the nearest first, then that light. If these have
  // words, others.
  #afterEntry() {
    const { board, edited } = this.#editor;
    const light = this.#lastLight;
    const other = edited?.direction === 'across' ? 'down' : 'across';
    const from = edited?.cell ?? 0;
    const near = [...(light?.cells ?? [])].sort((a, b) => Math.abs(a - from) - Math.abs(b - from));
    const asked = [...near.map((cell) => board.cells[cell][other]), light].flatMap((one) => (one && this.#isDead(one) ? [one] : []));
    return asked.length ? asked : board.lights.filter(this.#isDead);
  }

  /** @param {readonly Light[]} lights */
  async #explain(lights) {
    clearTimeout(this.#timer);
    if (this.#editor.fill.isRunning) return;
    const editor = this.#editor;
    if (!lights.length) return say('every light has a word left', 'good');
    const { record } = editor;
    const asked = lights.slice(0, MOST_ASKED);
    const answers = await Promise.all(asked.map((light) => editor.ask('why', light.name)));
    if (record !== editor.record) return;
    const reasons = answers.flatMap((told, at) => this.#reasonOf(asked[at], told) ?? []);
    // one with letters of the last entry, and then one with letters in its own light, so that both are seen together; of these the shortest, and
    // of those the one that lies most in its light
    reasons.sort((a, b) => Math.min(b.last, 1) - Math.min(a.last, 1) || Math.min(b.own, 1) - Math.min(a.own, 1) || a.letters.length - b.letters.length || b.own - a.own);
    if (reasons.length) this.#show(reasons[0]);
  }

  // The cells and letters of a reason, as `why` tells them, and how many of the cells are of the light itself and of the last entry.
  /**
   * @param {Light} light
   * @param {{ row: number, column: number, letter: string }[] | null} told
   * @returns {Reason | null}
   */
  #reasonOf(light, told) {
    if (!told) return null;
    const cells = told.map(({ row, column }) => this.#editor.board.index(row, column));
    const countIn = (/** @type {Light | null} */ other) => cells.filter((cell) => other?.cells.includes(cell)).length;
    return { light, cells, letters: told.map(({ letter }) => letter), own: countIn(light), last: countIn(this.#lastLight) };
  }

  /** @param {Reason} reason */
  #show({ light, cells, letters, last }) {
    this.#editor.change({ reason: { cells: new Set(cells), light: light.name } });
    if (cells.length === 0) {
      this.#refuse(`${titleOf(light)} has no word in this list even without letters: the blocks and the list are the reason`);
      return;
    }
    const named = `${letters.slice(0, MOST_NAMED).join(', ')}${letters.length > MOST_NAMED ? ' …' : ''}`;
    const cause = letters.length === 1 ? `the ${named} alone` : `these ${letters.length} letters together: ${named}`;
    const entry = last ? this.#entry() : '';
    this.#refuse(`${entry ? `${entry} leaves ${titleOf(light)} no word` : `${titleOf(light)} has no word`}, by ${cause}. Change ${letters.length === 1 ? 'it' : 'any one of them'}`);
  }
}
