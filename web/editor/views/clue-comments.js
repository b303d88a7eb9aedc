// The comments on the clue of the light under the cursor, such as an editor's and a tester's: a line each, with a button that takes it away, and a field for
// another one.
import { withComment, withoutComment } from '../model/comments.js';
import { titleOf } from './words.js';

/** @typedef {import('../model/board.js').Light} Light */

export class ClueComments {
  /** @type {import('../model/editor.js').Editor} */
  #editor;
  #typed;
  root = Object.assign(document.createElement('div'), { className: 'comments' });
  input = Object.assign(document.createElement('input'), { className: 'comment', placeholder: 'of an editor or a tester', autocomplete: 'off', spellcheck: true });
  #list = document.createElement('ul');
  /** @type {Light | null} */
  #light = null;
  #shown = '';

  /**
   * @param {import('../model/editor.js').Editor} editor
   * @param {import('./typed.js').Typed} typed
   */
  constructor(editor, typed) {
    this.#editor = editor;
    this.#typed = typed;
    const label = Object.assign(document.createElement('label'), { textContent: 'Comment ' });
    label.append(this.input);
    this.#list.hidden = true;
    this.root.append(label, this.#list);
    // an empty field has nothing that is not kept
    this.input.dataset.kept = '';
    this.input.addEventListener('change', () => this.add());
    this.#list.addEventListener('click', ({ target }) => this.#remove(/** @type {HTMLElement} */ (target).closest('button')));
  }

  /** @param {Light} light */
  show(light) {
    // what is typed belongs to the light before
    if (light.name !== this.#light?.name) this.add();
    this.#light = light;
    this.input.setAttribute('aria-label', `comment on the clue of ${titleOf(light)}`);
    const comments = this.#editor.commentsOn(light);
    // a button that has the keys keeps them
    if (comments.join('\n') === this.#shown) return;
    this.#shown = comments.join('\n');
    this.#list.replaceChildren(...comments.map((text, at) => commentOf(text, at)));
    this.#list.hidden = !comments.length;
  }

  // The light as the board has it now.
  get #now() {
    return (this.#light && this.#editor.board.byName.get(this.#light.name)) ?? null;
  }

  // Adds what is typed. What is refused stays in the field.
  async add() {
    const [light, typed] = [this.#now, this.input.value];
    if (!light || !typed.trim()) return;
    this.input.value = '';
    const refused = await this.#typed.comments(this.input, light, withComment(this.#editor.commentsOn(light), typed));
    if (refused && !this.input.value) this.input.value = typed;
  }

  /** @param {HTMLButtonElement | null} button */
  #remove(button) {
    const light = this.#now;
    if (!button || !light) return;
    this.input.focus();
    this.#typed.comments(button, light, withoutComment(this.#editor.commentsOn(light), Number(button.dataset.at)));
  }
}

/**
 * @param {string} text
 * @param {number} at
 */
function commentOf(text, at) {
  const item = document.createElement('li');
  const button = Object.assign(document.createElement('button'), { type: 'button', textContent: '×', title: 'Take the comment away' });
  button.setAttribute('aria-label', `take away the comment: ${text}`);
  button.dataset.at = String(at);
  item.append(text, button);
  return item;
}
