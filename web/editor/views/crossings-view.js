// The lights that cross the one under the cursor, with their letters and the number of words that each has left.
import { onceIdle } from './idle.js';
import { pressed, put } from './page.js';
import { titleOf } from './words.js';

export class CrossingsView {
  /** @type {import('../model/editor.js').Editor} */
  #editor;
  #root;
  /** @type {ReturnType<typeof makeCrossing>[]} */
  #rows = [];

  /**
   * @param {import('../model/editor.js').Editor} editor
   * @param {HTMLElement} root
   */
  constructor(editor, root) {
    this.#editor = editor;
    this.#root = root;
    editor.on(['board', 'letters', 'cursor'], onceIdle(() => this.#show()));
    root.addEventListener('click', (event) => {
      const { light: name, cell } = pressed(event, 'button')?.dataset ?? {};
      const light = editor.board.byName.get(name ?? '');
      if (light) editor.do('goTo', light, Number(cell));
    });
  }

  #show() {
    const editor = this.#editor;
    const { board, light } = editor;
    const crossing = (light?.cells ?? []).flatMap((cell) => board.through(cell).filter((one) => one !== light).map((other) => ({ cell, other })));
    this.#root.hidden = !crossing.length;
    while (this.#rows.length < crossing.length) this.#rows.push(makeCrossing());
    const list = /** @type {Element} */ (this.#root.lastElementChild);
    while (list.childElementCount > crossing.length) list.lastElementChild?.remove();
    crossing.forEach(({ cell, other }, at) => {
      const { root, name, word, count } = this.#rows[at];
      if (!root.parentElement) list.append(root);
      const isEntered = board.isEntered(other);
      put(root.dataset, 'light', other.name);
      put(root.dataset, 'cell', String(cell));
      put(name, 'textContent', titleOf(other));
      put(word, 'textContent', editor.answerOf(other).replaceAll('.', '·'));
      put(count, 'textContent', isEntered ? '' : board.countOf(other).toLocaleString('en'));
      put(root, 'className', `crossing${isEntered ? ' entered' : board.countOf(other) ? '' : ' dead'}`);
      const label = isEntered ? `${titleOf(other)}, ${editor.answerOf(other)}` : `${titleOf(other)}, ${board.countOf(other)} words left`;
      if (root.getAttribute('aria-label') !== label) root.setAttribute('aria-label', label);
    });
  }
}

function makeCrossing() {
  const root = Object.assign(document.createElement('button'), { type: 'button' });
  const [name, word, count] = ['b', 'span', 'small'].map((kind) => root.appendChild(document.createElement(kind)));
  return { root, name, word, count };
}
