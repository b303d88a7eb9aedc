// The line of facts, the buttons that follow the state, and what is said at the end of a fill.
import { wordCount } from '../formats/word-list.js';
import { termed } from '../model/terms.js';
import { staleClues } from '../model/written.js';
import { whenIdle } from './idle.js';
import { leftOf } from './least.js';
import { say } from './messages.js';
import { $, put } from './page.js';

export class Facts {
  /** @type {import('../model/editor.js').Editor} */
  #editor;
  #edits;

  /**
   * @param {import('../model/editor.js').Editor} editor
   * @param {import('./edits.js').Edits} edits
   */
  constructor(editor, edits) {
    this.#editor = editor;
    this.#edits = edits;
    editor.on(['step', 'written'], () => whenIdle(() => this.show()));
    editor.on(['board', 'list'], () => this.show());
    editor.on(['fill'], () => this.#showFill());
    $('symmetry').addEventListener('change', () => this.#useSymmetry());
    editor.on(['board', 'chosen'], () => this.#showChosen());
  }

  show() {
    const { board, list, sym, canUndo, canRedo } = this.#editor;
    const lacking = board.lights.filter((light) => !board.isEntered(light)).length;
    const letters = lacking ? `${board.entered} of ${board.open} letters` : 'filled';
    const left = list.grade ? `${leftOf(list, list.grade).toLocaleString('en')} of ` : '';
    const known = list.name ? `${list.name}, ${left}${wordCount(list.words)}` : 'no word list';
    put($('facts'), 'textContent', [`${board.width} × ${board.height}`, letters, wordCount(board.lights.length), known].join(' · '));
    put($('undo'), 'disabled', !canUndo);
    put($('redo'), 'disabled', !canRedo);
    put($('symmetry'), 'value', sym);
    put($('symmetry').querySelector('[value=quarter]'), 'disabled', board.width !== board.height);
    this.#showDone(lacking);
    const title = board.texts.get('title');
    put(document, 'title', title ? `${title} – xw` : 'xw: a crossword editor');
  }

  // What comes after a fill.
  /** @param {number} lacking */
  #showDone(lacking) {
    const { board } = this.#editor;
    const { lights } = board;
    const clued = lights.filter((light) => board.hasClue(light)).length - staleClues(this.#editor).length;
    put($('done'), 'hidden', lacking > 0 || !lights.length);
    const clues = clued === lights.length ? ', and have clues' : `. Clues: ${clued} of ${lights.length}`;
    put($('done-text'), 'textContent', `All ${lights.length} words are in${clues}`);
  }

  #showChosen() {
    const { size } = this.#editor.chosen;
    $('fill-label').textContent = size ? termed(`Fill ${size} ${size === 1 ? 'light' : 'lights'}`) : 'Fill all';
  }

  // A symmetry that is refused is not the one of the grid.
  async #useSymmetry() {
    if (await this.#edits.edit([`sym ${$('symmetry').value}`])) this.show();
    this.#editor.do('toGrid');
  }

  // How far a fill is, or that it has ended; a raising goes on beside edits.
  #showFill() {
    const { isRunning, progress } = this.#editor.fill;
    $('stop').hidden = !progress;
    $('fill').disabled = $('another').disabled = isRunning;
    $('progress').hidden = !isRunning;
    if (!progress) return toGridIfLost(this.#editor);
    if (progress.isRaising) return;
    $('progress').value = progress.part;
    say(`filling … ${progress.placements?.toLocaleString('en')} placements tried; Esc stops`, 'busy');
  }
}

// Keys go to the grid where what had the focus is gone.
/** @param {import('../model/editor.js').Editor} editor */
export function toGridIfLost(editor) {
  if (document.activeElement === document.body) editor.do('toGrid');
}

// Says whether the browser keeps the puzzle, or why it does not.
/** @param {string} why */
export function showKept(why) {
  put($('kept'), 'textContent', why ? `Not kept: ${why}` : 'Kept in this browser');
  put($('kept').dataset, 'state', why ? 'not' : 'kept');
}
