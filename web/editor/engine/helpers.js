// More workers with the engine, on the words of the session: for searches side by side, and for grids that are judged before they are chosen.
import { bodyOf, wordsOf } from '../model/record.js';
import { Engine } from './engine.js';

// the most workers of the page, on a screen that is touched, as of a tablet, and elsewhere
const MOST_TOUCHED = 4;
const MOST = 16;
// the most words that workers hold while they wait for the next search, together
const MOST_HELD = 1200000;

const isTouched = () => matchMedia('(pointer: coarse)').matches;

// `words` tells which words it has: the lists, the personal one, and the changes of a record; or is null.
/** @typedef {{ engine: Engine, words: unknown[] | null }} Helper */

export class Helpers {
  /** @type {import('../model/editor.js').Editor} */
  #editor;
  #make;
  /** @type {Helper[]} */
  #helpers = [];

  /**
   * @param {import('../model/editor.js').Editor} editor
   * @param {() => Worker} makeWorker
   */
  constructor(editor, makeWorker) {
    this.#editor = editor;
    this.#make = makeWorker;
  }

  // How many there can be beside the worker of the session: a worker for each core.
  get most() {
    return Math.max(0, Math.min(navigator.hardwareConcurrency || 1, isTouched() ? MOST_TOUCHED : MOST) - 1);
  }

  // Promises of so many engines that have a record. The words are loaded once for all records.
  /**
   * @param {string} record
   * @param {number} count
   * @returns {Promise<Engine>[]}
   */
  begin(record, count) {
    while (this.#helpers.length < count) {
      const engine = new Engine(this.#make, () => {
        helper.words = null;
      });
      /** @type {Helper} */
      const helper = { engine, words: null };
      this.#helpers.push(helper);
    }
    return this.#helpers.slice(0, count).map((helper) => {
      const opened = this.#open(helper, record);
      // who awaits it gets the fault; one that nobody awaits is none
      opened.catch(() => {});
      return opened;
    });
  }

  /**
   * @param {Helper} helper
   * @param {string} record
   */
  async #open(helper, record) {
    const { list, module } = this.#editor;
    const { sources, personal, least, threes, grade } = list;
    const words = [sources, personal, threes, wordsOf(record).join()];
    if (words.every((part, at) => part === helper.words?.[at])) {
      await helper.engine.call('unstrike');
      await helper.engine.call('edit', { lines: [`least ${grade}`, ...bodyOf(record)], isWhole: false });
      return helper.engine;
    }
    // both are sent at once, and what comes next finds the words
    helper.words = words;
    try {
      await Promise.all([helper.engine.call('load', { bytes: module }), helper.engine.call('open', { sources, personal, least, threes, record })]);
    } catch (fault) {
      helper.words = null;
      throw fault;
    }
    return helper.engine;
  }

  // How many hold words while there is no search: none where there is little memory. Elsewhere as many as need not much of it, but one at least.
  get #resting() {
    return isTouched() ? 0 : Math.max(1, Math.floor(MOST_HELD / this.#editor.list.words));
  }

  // Has those load the words that hold them later, so that the first search does not wait for that.
  warm() {
    this.begin(this.#editor.record, Math.min(this.most, this.#resting));
  }

  // Lets the memory of the others go.
  rest() {
    this.#end(this.#resting);
  }

  // Ends all but the first ones.
  /** @param {number} kept */
  #end(kept) {
    for (const { engine } of this.#helpers.splice(kept)) engine.stop();
  }
}
