// What breaks the usual rules, while the grid changes: the first warning beside the tabs, and their number on the tab that lists them.
import { warningsOf } from '../model/rules.js';
import { termed } from '../model/terms.js';
import { onceIdle } from './idle.js';
import { put } from './page.js';

export class WarningsView {
  /** @type {import('../model/editor.js').Editor} */
  #editor;
  #faults;
  #elements;

  // `elements` are the button of the first warning, which shows the list, the number on the tab, and the tab.
  /**
   * @param {import('../model/editor.js').Editor} editor
   * @param {import('../model/faults.js').Faults} faults
   * @param {Record<'button' | 'count' | 'tab', HTMLElement>} elements
   */
  constructor(editor, faults, elements) {
    this.#editor = editor;
    this.#faults = faults;
    this.#elements = elements;
    // an edit is shown before its warnings are looked for, and its faults are told after each
    faults.addEventListener('told', onceIdle(() => this.#show()));
    elements.button.addEventListener('click', () => editor.do('showTab', 'puzzle'));
  }

  get #texts() {
    const { board } = this.#editor;
    const known = [...this.#faults.repeated.keys()].flatMap((name) => board.byName.get(name) ?? []);
    return [
      ...warningsOf(this.#editor).map(({ text }) => termed(text)), ...known.map((light) => `${board.spell(light)} stands twice`),
      ...[...this.#faults.unlisted.values()].map(({ why }) => why),
    ];
  }

  #show() {
    const { button, count, tab } = this.#elements;
    const texts = this.#texts;
    const told = texts.length ? `${texts.length} ${texts.length === 1 ? 'warning' : 'warnings'}` : '';
    button.hidden = count.hidden = !texts.length;
    count.textContent = texts.length ? String(texts.length) : '';
    put(button.lastElementChild, 'textContent', texts.length > 1 ? `${texts[0]}, and ${texts.length - 1} more` : texts[0] ?? '');
    button.title = texts.join('\n');
    tab.setAttribute('aria-label', told ? `Puzzle, ${told}` : 'Puzzle');
  }
}
