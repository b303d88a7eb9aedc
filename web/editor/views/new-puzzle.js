// Other puzzles in place of the one that is here: from a pattern, with a blank grid, around theme entries, or out of the library.
import { PATTERNS, blankRows, recordOf, rowsOf } from '../grids/patterns.js';
import { StockView } from '../grids/stock-view.js';
import { parseRecord } from '../model/record.js';
import { sketchOf } from './library.js';
import { mayEdit, refusalText, refuse, say } from './messages.js';
import { $ } from './page.js';

/** @typedef {typeof PATTERNS[number]} Pattern */

export class NewPuzzle {
  /** @type {import('../model/editor.js').Editor} */
  #editor;

  /** @param {import('../model/editor.js').Editor} editor */
  constructor(editor) {
    this.#editor = editor;
    editor.takes({ beginPuzzle: (record, entries) => this.#begin(record, entries), reopen: (session, isVersion) => this.#reopen(session, isVersion) });
    for (const pattern of PATTERNS) $('patterns').append(this.#button(pattern));
    $('new-blank').addEventListener('click', () => this.#beginBlank());
    const [stock, form, themes, words, threes, told, patterns, more] = ['', '-form', '-themes', '-words', '-threes', '-told', '-patterns', '-more'].map((part) => $(`stock${part}`));
    new StockView({ stock, form, themes, words, threes, told, patterns, more }, (record) => this.#beginRecord(record));
  }

  /** @param {Pattern} pattern */
  #button(pattern) {
    const rows = rowsOf(pattern);
    const button = Object.assign(document.createElement('button'), { type: 'button', className: 'pattern' });
    button.append(sketchOf(parseRecord(recordOf(rows, pattern.sym))), pattern.name);
    button.addEventListener('click', () => this.#beginRows(rows, pattern.sym));
    return button;
  }

  #beginBlank() {
    const [width, height] = [Number($('new-width').value), Number($('new-height').value)];
    const isSize = (/** @type {number} */ side) => Number.isInteger(side) && side >= 1 && side <= 255;
    if (!isSize(width) || !isSize(height)) return refuse(refusalText('Size'));
    this.#beginRows(blankRows(width, height), 'half');
  }

  /**
   * @param {string[]} rows
   * @param {string} sym
   */
  #beginRows(rows, sym) {
    return this.#beginRecord(recordOf(rows, sym));
  }

  /** @param {string} record */
  #beginRecord(record) {
    $('new-dialog').close();
    return this.#begin(record);
  }

  // Begins a puzzle with a record. Entries of the setter's own that are in no list become words of the puzzle.
  /**
   * @param {string} record
   * @param {string[]} entries
   */
  async #begin(record, entries = []) {
    if (!mayEdit(this.#editor)) return;
    const editor = this.#editor;
    const found = await Promise.all(entries.map((word) => editor.ask('match', word)));
    const added = [...new Set(entries.filter((_, at) => !found[at]?.length))].map((word) => `add ${word}\n`);
    await editor.replace({ record: await editor.engine.call('read', { record: [...added, record].join('') }) });
    this.#begun('a new puzzle; undo goes back to the old one');
  }

  // Opens a puzzle of the library, or a version, in place of what is here, which stays in the library.
  /**
   * @param {import('../store/keep.js').Session} session
   * @param {boolean} isVersion
   */
  async #reopen(session, isVersion) {
    if (!mayEdit(this.#editor)) return;
    if (isVersion && session.puzzle === this.#editor.puzzle) this.#editor.do('addVersion');
    await this.#editor.replace(session);
    this.#begun(`the ${isVersion ? 'version' : 'puzzle'} is open; undo goes back to what was here`);
  }

  /** @param {string} text */
  #begun(text) {
    say(text, 'good');
    this.#editor.do('findDeadEnds');
    this.#editor.do('toGrid');
  }
}
