// All words in use, for helpers that look through them: asked of the engine once for the lists and the words of the puzzle.
import { wordsOf } from '../model/record.js';

// the lengths of words that are looked through
const [LEAST, MOST] = [2, 21];

export class AllWords {
  /** @type {import('../model/editor.js').Editor} */
  #editor;
  #of = '';
  /** @type {Promise<string[]>} */
  #words = Promise.resolve([]);

  /** @param {import('../model/editor.js').Editor} editor */
  constructor(editor) {
    this.#editor = editor;
  }

  // Promises the words, those of each length in the order of the lists.
  get() {
    const { list, record } = this.#editor;
    const of = [list.name, list.words, list.personal, list.least, list.threes, wordsOf(record)].join();
    if (of !== this.#of) this.#words = this.#ask();
    this.#of = of;
    return this.#words;
  }

  // One length after another, so that edits are answered between them.
  async #ask() {
    const words = [];
    for (let length = LEAST; length <= MOST; length++) words.push((await this.#editor.ask('match', '.'.repeat(length))) ?? []);
    return words.flat();
  }
}
