// What is said of the word that stands in the light under the cursor: that it is not in use or stands twice, with what can be done.
import { titleOf } from './words.js';

/** @typedef {import('../model/board.js').Light} Light */

export class StandingView {
  /** @type {import('../model/editor.js').Editor} */
  #editor;
  #root;
  #faults;
  #edits;

  /**
   * @param {import('../model/editor.js').Editor} editor
   * @param {HTMLElement} root
   * @param {import('../model/faults.js').Faults} faults
   * @param {import('./edits.js').Edits} edits
   */
  constructor(editor, root, faults, edits) {
    this.#editor = editor;
    this.#root = root;
    this.#faults = faults;
    this.#edits = edits;
    editor.on(['board', 'letters', 'cursor'], () => this.#show());
    faults.addEventListener('told', () => this.#show());
  }

  // The fault of the light, as a text and buttons; or null.
  /**
   * @param {Light} light
   * @returns {{ text: string, buttons: [string, () => void][] } | null}
   */
  #fault(light) {
    const { board } = this.#editor;
    /** @type {[string, () => void]} */
    const erasing = ['Erase it', () => this.#editor.do('eraseLight').then(() => this.#editor.do('toGrid'))];
    const unlisted = this.#faults.unlisted.get(light.name);
    if (unlisted && unlisted.word === this.#editor.answerOf(light)) {
      return { text: unlisted.why, buttons: [['Add it', () => this.#edits.add(unlisted.word)], erasing] };
    }
    const other = board.byName.get(this.#faults.repeated.get(light.name) ?? '');
    if (!other) return null;
    return { text: `${board.spell(other)} stands in ${titleOf(other)} too`, buttons: [['Go there', () => this.#editor.do('goTo', other)], erasing] };
  }

  #show() {
    const { light, board } = this.#editor;
    const fault = light && board.isEntered(light) ? this.#fault(light) : null;
    const { text, buttons } = fault ?? { text: '', buttons: [] };
    if (this.#root.dataset.text === text) return;
    this.#root.dataset.text = text;
    this.#root.hidden = !fault;
    const made = buttons.map(([label, action]) => Object.assign(document.createElement('button'), { type: 'button', textContent: label, onclick: action }));
    this.#root.replaceChildren(Object.assign(document.createElement('span'), { textContent: text }), ...made);
  }
}
