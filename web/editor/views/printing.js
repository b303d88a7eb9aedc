// The dialog of what is printed.
import { isBritishGrid } from '../model/terms.js';
import { keepAddress, keptAddress } from '../store/keep.js';
import { openDialog } from './dialogs.js';
import { $ } from './page.js';
import { Printer } from './print.js';

// the regions of a language in which Letter is the usual paper
const OF_LETTER = /-(US|CA|MX|PH)$/i;

export class PrintDialog {
  /** @type {import('../model/editor.js').Editor} */
  #editor;
  #printer;
  // whether it was chosen if clues get lengths: as a rule they have them in British puzzles, and not in American ones
  #isLengthsChosen = false;

  /** @param {import('../model/editor.js').Editor} editor */
  constructor(editor) {
    this.#editor = editor;
    this.#printer = new Printer(editor, $('sheet'));
    const paper = OF_LETTER.test(navigator.language) ? 'letter' : 'A4';
    $('print-dialog').querySelector(`[name=paper][value=${paper}]`).checked = true;
    $('print-lengths').addEventListener('input', () => {
      this.#isLengthsChosen = true;
    });
    $('print-dialog').addEventListener('input', () => this.#preview());
    $('print-dialog').addEventListener('close', () => this.#close());
  }

  open() {
    $('print-address').value = keptAddress();
    // an outlet gets them only where that is chosen anew
    $('print-comments').checked = false;
    if (!this.#isLengthsChosen) $('print-lengths').checked = isBritishGrid(this.#editor.board);
    this.#preview();
    openDialog($('print-dialog'));
  }

  #preview() {
    const chosen = (/** @type {string} */ name) => $('print-dialog').querySelector(`[name=${name}]:checked`).value;
    Object.assign(this.#printer, {
      parts: chosen('parts'), paper: chosen('paper'), hasLengths: $('print-lengths').checked, address: $('print-address').value, isDouble: $('print-double').checked,
      hasComments: $('print-comments').checked,
    });
    $('print-sender').hidden = this.#printer.parts !== 'submission';
    $('preview').replaceChildren(...this.#printer.pages());
  }

  #close() {
    $('preview').replaceChildren();
    keepAddress($('print-address').value);
    if ($('print-dialog').returnValue === 'print') this.#printer.print();
  }
}
