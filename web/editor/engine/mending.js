// The mending of a word: the letters in pencil around its light are filled anew for a better worst word, in workers beside the one of the session, while all
// else stays. What is found is an offer: nothing is changed.
import { figuresOf, gradeOf } from '../model/grades.js';
import { letterIn, withoutTexts } from '../model/record.js';
import { statusOf } from './engine.js';
import { Race } from './race.js';
import { reachOf } from './reach.js';

// The placements of a slice, the slices in a row of all workers that lead to nothing better before a search ends, and the most of one.
const PLACEMENTS = 2000;
const MOST_IDLE = 24;
const MOST_SLICES = 96;
// the lights that cross a light, and those that cross these
const RINGS = 2;

/** @typedef {import('../model/board.js').Board} Board */
/** @typedef {import('../model/grades.js').Figures} Figures */
/** @typedef {import('./engine.js').Engine} Engine */
/** @typedef {{ grid: string, isOver: boolean }} Run */
/** @typedef {{ race: Race, letters: string[] | null, slices: number, idle: number, isFailed: boolean }} Search */
/** @typedef {import('../model/board.js').Light} Light */
/** @typedef {import('./race.js').Told} Told */
// The cells that are emptied, by coordinates, and the entered lights that have one of them.
/** @typedef {{ cells: string[], lights: Light[] }} Part */
// `letters` are those of the whole grid, by coordinates, and `changed` counts the words that are others; the figures are those of the words of the part. `grid` is
// what the offer is for.
/**
 * @typedef {{ light: Light, letters: Map<string, string>, changed: number, before: Figures, after: Figures, grid: string }} Offer
 */

// The part of the grid that mending a light empties: the letters in pencil of the light, of those that cross it, and of those that cross these; but not those of
// lights that are to stay.
/**
 * @param {Board} board
 * @param {ReadonlySet<string>} pencil
 * @param {Light} light
 * @param {Light[]} kept
 * @returns {Part}
 */
export function partAround(board, pencil, light, kept = []) {
  const stays = new Set(kept.flatMap(({ cells }) => cells));
  const reach = reachOf(board.lights.map(({ cells }) => cells), light.cells, RINGS);
  // a cell of lights that are not entered would stay empty
  const isFilled = (/** @type {number} */ index) => board.through(index).some((one) => board.isEntered(one));
  const isOpen = (/** @type {number} */ index) => pencil.has(board.cells[index].coordinates) && !stays.has(index) && isFilled(index);
  const open = new Set([...reach].filter(isOpen));
  return {
    cells: [...open].sort((a, b) => a - b).map((index) => board.cells[index].coordinates),
    lights: board.lights.filter((one) => board.isEntered(one) && one.cells.some((index) => open.has(index))),
  };
}

// The parts to try one after another, for words better than a grade: all around the light, and then without the other lights whose words are no better
// than its own, as where one of these cannot be.
/**
 * @param {Board} board
 * @param {ReadonlySet<string>} pencil
 * @param {Light} light
 * @param {(light: Light) => number} gradeIn
 * @returns {Part[]}
 */
export function partsAround(board, pencil, light, gradeIn) {
  const isOpenIn = (/** @type {Part} */ part) => light.cells.some((index) => part.cells.includes(board.cells[index].coordinates));
  const whole = partAround(board, pencil, light);
  const weaker = whole.lights.filter((other) => other !== light && gradeIn(other) <= gradeIn(light));
  const parts = weaker.length ? [whole, partAround(board, pencil, light, weaker)] : [whole];
  return parts.filter(isOpenIn);
}

// The grid with its words and what is in pencil, as a text; without the texts of the puzzle.
/** @param {{ record: string, pencil: ReadonlySet<string> }} editor */
export const gridOf = ({ record, pencil }) => [withoutTexts(record), ...pencil].join();

export class Mender {
  /** @type {import('../model/editor.js').Editor} */
  #editor;
  #helpers;
  /** @type {Run | null} */
  #run = null;

  /**
   * @param {import('../model/editor.js').Editor} editor
   * @param {import('./helpers.js').Helpers} helpers
   */
  constructor(editor, helpers) {
    this.#editor = editor;
    this.#helpers = helpers;
    editor.on(['step'], () => this.#stepped());
  }

  get isRunning() {
    return this.#run !== null;
  }

  // Ends a search, which has its last slices behind it soon.
  stop() {
    if (this.#run) this.#run.isOver = true;
    this.#run = null;
  }

  // Another edit than one of texts ends it, and there is nothing to offer.
  #stepped() {
    if (this.#run && this.#run.grid !== gridOf(this.#editor)) this.stop();
  }

  // Looks for better words around a light. Returns the offer, or null; and whether it is proved that there are none, the grid was changed meanwhile, and
  // no letter of the light can be emptied.
  /**
   * @param {Light} light
   * @param {number} seed
   * @returns {Promise<{ offer: Offer | null, isProved: boolean, isChanged: boolean, isLocked: boolean }>}
   */
  async run(light, seed) {
    const { pencil, board } = this.#editor;
    const run = { grid: gridOf(this.#editor), isOver: false };
    const isChanged = () => run.grid !== gridOf(this.#editor);
    this.#run = run;
    try {
      const grades = await this.#gradesOf(board.lights.filter((one) => board.isEntered(one)));
      const parts = partsAround(board, pencil, light, (one) => grades.get(one.name) ?? Infinity);
      let isProved = parts.length > 0;
      for (const part of parts) {
        const found = await this.#search(run, part, grades.get(light.name) ?? 0, seed);
        if (isChanged()) break;
        if (found.letters) return { offer: await this.#offer(light, part, found.letters), isProved: false, isChanged: false, isLocked: false };
        isProved &&= found.isProved;
      }
      return { offer: null, isProved: isProved && !isChanged(), isChanged: isChanged(), isLocked: !parts.length };
    } finally {
      if (this.#run === run) this.#run = null;
    }
  }

  // The grades of the words in lights, by their names. A word without a score counts as one that is none the worse.
  /** @param {Light[]} lights */
  async #gradesOf(lights) {
    const { engine, list, board } = this.#editor;
    const scores = await engine.call('grades', { words: lights.map((light) => board.spell(light)) });
    return new Map(lights.map((light, at) => [light.name, scores[at] === null ? Infinity : gradeOf(scores[at], list.best)]));
  }

  // Fills a part with words better than a grade, the best ones that some slices find. Returns the lines of the letters, or none, and whether there is no such fill.
  /**
   * @param {Run} run
   * @param {Part} part
   * @param {number} grade
   * @param {number} seed
   */
  async #search(run, { cells, lights }, grade, seed) {
    const workers = Math.max(1, this.#helpers.most);
    /** @type {Search} */
    const search = { race: new Race({ grade, sum: Infinity, bound: Infinity, seed, workers }), letters: null, slices: 0, idle: 0, isFailed: false };
    const base = [this.#editor.record, ...cells.map((coordinates) => `clear ${coordinates}\n`)].join('');
    const asked = { names: lights.map(({ name }) => name), cells };
    await Promise.all(this.#helpers.begin(base, workers).map((begun, at) => this.#work(run, search, asked, begun, at)));
    return { letters: search.letters, isProved: search.race.isBlocked && !search.letters };
  }

  // Searches slice by slice in a worker.
  /**
   * @param {Run} run
   * @param {Search} search
   * @param {{ names: readonly string[], cells: string[] }} asked
   * @param {Promise<Engine>} begun
   * @param {number} at
   */
  async #work(run, search, { names, cells }, begun, at) {
    const { race } = search;
    const isDue = () => !run.isOver && !search.isFailed && !race.isMet && !race.isBlocked && search.idle < MOST_IDLE && search.slices < MOST_SLICES;
    try {
      const engine = await begun;
      while (isDue()) {
        const asked = race.next(at);
        search.slices++;
        search.idle++;
        const told = await engine.call('best', { least: asked.least, given: [PLACEMENTS, asked.seed, ...names], cells, isApart: this.#editor.list.apart });
        this.#take(search, race.take(at, asked, told), told);
      }
    } catch (fault) {
      // a worker that fails leaves the search to the others
      if (!statusOf(fault)) throw fault;
    }
  }

  /**
   * @param {Search} search
   * @param {string} kind
   * @param {Told} told
   */
  #take(search, kind, { letters }) {
    if (kind === 'refused') search.isFailed = true;
    if (kind !== 'better') return;
    search.letters = letters ?? null;
    search.idle = 0;
  }

  // What is offered: the letters, and how good the words of the part are before and after. Null if a letter elsewhere is another one.
  /**
   * @param {Light} light
   * @param {Part} part
   * @param {string[]} lines
   * @returns {Promise<Offer | null>}
   */
  async #offer(light, { lights, cells }, lines) {
    const { board, engine, list } = this.#editor;
    const [letters, grid] = [new Map(lines.map(letterIn)), gridOf(this.#editor)];
    if (board.cells.some(({ letter, coordinates }) => letter && !cells.includes(coordinates) && letters.get(coordinates) !== letter)) return null;
    const [before, after] = [lights.map((one) => board.spell(one)), lights.map((one) => one.cells.map((index) => letters.get(board.cells[index].coordinates)).join(''))];
    const scores = await engine.call('grades', { words: [...before, ...after] });
    const [was, is] = [figuresOf(scores.slice(0, before.length), list.weak), figuresOf(scores.slice(before.length), list.weak)];
    return was && is && {
      light, letters, grid, changed: after.filter((word, at) => word !== before[at]).length, before: was, after: is,
    };
  }
}
