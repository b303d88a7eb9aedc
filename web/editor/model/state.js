// The state of the editor, which changes by transactions: each says what it changes, and listeners are told of the parts that they name.
import { Board } from './board.js';
import { PALETTE } from './colours.js';
import { Dispatcher } from './commands.js';

/** @typedef {import('../engine/told.js').Direction} Direction */

// The cursor in the light of a direction.
/** @typedef {Readonly<{ cursor: number, direction: Direction }>} Place */

/** @typedef {readonly [string, string]} Pair a text by its field */

// A step of the history, as the browser keeps it too, with the places where the cursor was after it and before it.
/**
 * @typedef {Readonly<{
 *   puzzle: string, record: string, pencil: readonly string[], originals: readonly Pair[], written: readonly Pair[], cursor: number, direction: Direction, from?: Place,
 * }>} Step
 */

// The word lists in use as one. `byGrade` has the number of words of each grade; `least` is the least score, and `grade` its grade; words
// below the score `weak` are marked. `threes` is the least score of words of three letters; with `apart`, candidates and fills have no words that are
// close to others. `target` is the score that no word of a fill is under when its raising ends, or null.
/**
 * @typedef {Readonly<{
 *   name: string, words: number, scored: boolean, best: number, byGrade: Readonly<Uint32Array>, leftOut: Readonly<Record<string, number>>, folded: number,
 *   asRead: readonly string[], least: number, grade: number, weak: number, threes: number, apart: boolean, target: number | null,
 *   sources: readonly import('../formats/joined-lists.js').Source[], personal: string,
 * }>} WordList
 */

// What fills do: whether one has the engine, so that nothing can be edited, whether one is raised until none is better, and how far it is; null after it.
/** @typedef {Readonly<{ isRunning: boolean, isImproving: boolean, progress: import('../engine/fill.js').Progress | null }>} FillState */

// What a click on a cell does, if it does more than move.
/** @typedef {'block' | 'right' | 'below' | 'circle' | 'colour' | 'pencil'} Tool */

// The parts of the state. None is changed itself: another one comes in its place. Cells of the grid are named by index, but those in pencil by
// coordinates.
class Parts {
  // the grid as the engine last told it, and its record
  board = new Board();
  record = '';
  sym = 'none';
  // the cell under the cursor, and the direction of its light
  cursor = 0;
  /** @type {Direction} */
  direction = 'across';
  // cells whose letters a fill entered; another fill may change them
  /** @type {ReadonlySet<string>} */
  pencil = new Set();
  // what was typed into fields, as commands spell them, where it has characters that the engine cannot keep; the engine has near ones. And the cells with
  // several letters, of which the engine has the first
  /** @type {ReadonlyMap<string, string>} */
  originals = new Map();
  // letters of the candidate that is pointed at, by cell, where the grid has others or none
  /** @type {ReadonlyMap<number, string>} */
  ghosts = new Map();
  // the words that clues were written for
  /** @type {import('./written.js').Written} */
  written = new Map();
  // names of the lights to fill; all if there are none
  /** @type {ReadonlySet<string>} */
  chosen = new Set();
  // where the last entry was; null after other edits
  /** @type {Readonly<{ cell: number, direction: Direction }> | null} */
  edited = null;
  // the cells of a reason, and the name of the light that they leave no word
  reason = NO_REASON;
  // whether long lights that no word matches wait for blocks, and the cells of other lights that no word matches
  waits = false;
  /** @type {ReadonlySet<number>} */
  unmatched = new Set();
  // cells of words that are not in use or stand twice
  /** @type {ReadonlySet<number>} */
  faulty = new Set();
  // cells of words below the score that is chosen, and the directions of these words
  /** @type {Readonly<Record<Direction, ReadonlySet<number>>>} */
  weak = { across: new Set(), down: new Set() };
  // cells of the worst of these words
  /** @type {ReadonlySet<number>} */
  worst = new Set();
  /** @type {WordList} */
  list = { name: '', words: 0, scored: false, best: 0, byGrade: new Uint32Array(), leftOut: {}, folded: 0, asRead: [], least: 0, grade: 0, weak: 0, threes: 0, apart: false, target: null, sources: [], personal: '' };
  /** @type {FillState} */
  fill = { isRunning: false, isImproving: false, progress: null };
  // the scores of the words in the grid, by the names of their lights, and better words around a light that are offered
  /** @type {ReadonlyMap<string, number>} */
  scores = new Map();
  /** @type {import('../engine/mending.js').Offer | null} */
  offer = null;
  /** @type {Tool | null} */
  tool = null;
  // the colour that the tool gives
  colour = PALETTE.yellow;
  // names the puzzle: edits keep the name, another file or pattern has another one
  puzzle = newPuzzleName();
}

/** @type {Readonly<{ cells: ReadonlySet<number>, light: string }>} */
export const NO_REASON = { cells: new Set(), light: '' };

// A name that no other puzzle has.
export const newPuzzleName = () => `${Date.now().toString(36)}-${Math.random().toString(36).slice(2)}`;

// What else a transaction tells: letters of the board that changed, and nothing else of it, with all cells that changed with them, and how long the engine
// took; that there is
// another step of the history, with the one before it; that another puzzle is about to come in place of the one that is here, and that it came in place of
// the one of a step.
/** @typedef {{ letters: Readonly<{ cells: ReadonlySet<number>, engine: number }>, step: Step | undefined, leaving: true, left: Step }} Told */

/** @typedef {Partial<Parts & Told>} Changes */
// What was changed, and what was there before.
/** @typedef {Readonly<{ changes: Readonly<Changes>, before: Readonly<Partial<Parts>> }>} Transaction */

/** @returns {{ changes: Changes, before: Partial<Parts> }} */
const nothing = () => ({ changes: {}, before: {} });

export class EditorState extends Dispatcher {
  #parts = new Parts();
  #held = nothing();
  #events = new EventTarget();

  // Makes a transaction of these changes and of those that were held.
  /** @param {Changes} changes */
  change(changes) {
    this.hold(changes);
    this.tell();
  }

  // Changes parts of the state, which the next transaction tells.
  /** @param {Changes} changes */
  hold(changes) {
    const own = Object.fromEntries(Object.entries(changes).filter(([name]) => name in this.#parts));
    this.#held.before = { ...Object.fromEntries(Object.entries(this.#parts).filter(([name]) => name in own)), ...this.#held.before };
    Object.assign(this.#held.changes, changes);
    Object.assign(this.#parts, own);
  }

  // Takes a board that has other letters alone, which the next transaction tells as `letters`.
  /**
   * @protected
   * @param {Board} board
   */
  holdLetters(board) {
    this.#held.before.board ??= this.#parts.board;
    this.#parts.board = board;
  }

  // Tells what was held.
  tell() {
    const detail = this.#held;
    this.#held = nothing();
    if (Object.keys(detail.changes).length) this.#events.dispatchEvent(new CustomEvent('change', { detail }));
  }

  // Does something after each transaction that changes or tells one of these.
  /**
   * @param {(keyof Changes)[]} names
   * @param {(transaction: Transaction) => void} action
   */
  on(names, action) {
    this.#events.addEventListener('change', (event) => {
      const { detail } = /** @type {CustomEvent<Transaction>} */ (event);
      if (names.some((name) => name in detail.changes)) action(detail);
    });
  }

  get board() {
    return this.#parts.board;
  }

  get record() {
    return this.#parts.record;
  }

  get sym() {
    return this.#parts.sym;
  }

  get cursor() {
    return this.#parts.cursor;
  }

  get direction() {
    return this.#parts.direction;
  }

  get pencil() {
    return this.#parts.pencil;
  }

  get originals() {
    return this.#parts.originals;
  }

  get ghosts() {
    return this.#parts.ghosts;
  }

  get written() {
    return this.#parts.written;
  }

  get chosen() {
    return this.#parts.chosen;
  }

  get edited() {
    return this.#parts.edited;
  }

  get reason() {
    return this.#parts.reason;
  }

  get waits() {
    return this.#parts.waits;
  }

  get unmatched() {
    return this.#parts.unmatched;
  }

  get faulty() {
    return this.#parts.faulty;
  }

  get weak() {
    return this.#parts.weak;
  }

  get worst() {
    return this.#parts.worst;
  }

  get list() {
    return this.#parts.list;
  }

  get fill() {
    return this.#parts.fill;
  }

  get scores() {
    return this.#parts.scores;
  }

  get offer() {
    return this.#parts.offer;
  }

  get tool() {
    return this.#parts.tool;
  }

  get colour() {
    return this.#parts.colour;
  }

  get puzzle() {
    return this.#parts.puzzle;
  }
}

/**
 * @template T
 * @param {ReadonlySet<T>} some
 * @param {ReadonlySet<T>} others
 */
export const isSameSet = (some, others) => some.size === others.size && [...some].every((one) => others.has(one));

// A set without some of its members; the same one if all stay.
/**
 * @template T
 * @param {ReadonlySet<T>} set
 * @param {(one: T) => boolean} stays
 * @returns {ReadonlySet<T>}
 */
export function only(set, stays) {
  return [...set].every(stays) ? set : new Set([...set].filter(stays));
}
