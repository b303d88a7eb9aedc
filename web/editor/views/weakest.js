// The weakest words of the grid: each with its score, its light and what holds it, and the search for better words around it, whose offer is shown before it
// replaces anything.
import { gridOf } from '../engine/mending.js';
import { figuresText } from '../model/grades.js';
import { termed } from '../model/terms.js';
import { holderText, offerText, unmendedText, weakestOf } from '../model/weak-words.js';
import { fillCard } from './fills.js';
import { mayEdit, say, unforeseen } from './messages.js';
import { put } from './page.js';
import { titleOf } from './words.js';

/** @typedef {import('../model/board.js').Light} Light */

export class WeakestView {
  /** @type {import('../model/editor.js').Editor} */
  #editor;
  #elements;
  #figures;
  #fills;
  // what is said of lights around which nothing better was found, by their names, and the grid for which it is said
  /** @type {Map<string, { grid: string, text: string }>} */
  #unmended = new Map();

  // `elements` are the box, the list, and the box of an offer with its text, its place and its buttons. `figures` tell which lights
  // are proved to hold one, and `fills` puts letters into the grid.
  /**
   * @param {import('../model/editor.js').Editor} editor
   * @param {{ box: HTMLDetailsElement } & Record<'list' | 'offered' | 'told' | 'place' | 'use' | 'leave', HTMLElement>} elements
   * @param {import('./figures.js').Figures} figures
   * @param {import('./fills.js').Fills} fills
   */
  constructor(editor, elements, figures, fills) {
    this.#editor = editor;
    this.#elements = elements;
    this.#figures = figures;
    this.#fills = fills;
    elements.box.addEventListener('toggle', () => this.#show());
    elements.list.addEventListener('click', ({ target }) => this.#chosen(/** @type {Element} */ (target).closest('button')));
    elements.use.addEventListener('click', () => this.#use());
    elements.leave.addEventListener('click', () => {
      editor.change({ offer: null });
      editor.do('toGrid');
    });
    editor.on(['step', 'board'], () => this.#stepped());
    editor.on(['scores'], () => {
      put(elements.box, 'hidden', !editor.scores.size);
      this.#show();
    });
    editor.on(['offer'], () => this.#showOffer());
  }

  #show() {
    const { box, list } = this.#elements;
    if (!box.open || box.hidden) return;
    const focused = list.contains(document.activeElement) ? /** @type {HTMLElement} */ (document.activeElement).dataset : null;
    const rows = weakestOf(this.#editor.board, this.#editor.scores).map((one) => this.#row(one));
    list.replaceChildren(...rows);
    // the row that has the keys may have another place
    const same = focused && list.querySelector(`[data-light="${focused.light}"]${focused.mend ? '[data-mend]' : ''}`);
    if (focused) /** @type {HTMLElement | null} */ (same ?? list.querySelector('button'))?.focus();
  }

  /** @param {{ light: Light, score: number }} weak */
  #row({ light, score }) {
    const { board, pencil } = this.#editor;
    const made = (/** @type {string} */ name, given = {}) => Object.assign(document.createElement(name), given);
    const row = made('li');
    const word = made('button', { type: 'button', className: 'word', title: `Go to ${titleOf(light)}` });
    word.append(made('b', { textContent: board.spell(light) }), made('span', { textContent: String(score) }), made('span', { textContent: titleOf(light) }));
    const held = holderText(board, pencil, light, this.#figures.forcedAt(light));
    const unmended = this.#unmended.get(light.name);
    const told = [held, unmended?.grid === gridOf(this.#editor) ? unmended.text : ''].filter(Boolean).join('; ');
    const mend = made('button', { type: 'button', textContent: 'Mend', disabled: held === 'locked', title: termed('Looks for better words around this light, and changes nothing before you choose them') });
    mend.setAttribute('aria-label', `Mend ${board.spell(light)}, ${titleOf(light)}`);
    for (const button of [word, mend]) button.dataset.light = light.name;
    mend.dataset.mend = 'mend';
    row.append(word, made('small', { textContent: told }), mend);
    return row;
  }

  /** @param {HTMLElement | null} button */
  #chosen(button) {
    const light = this.#editor.board.byName.get(button?.dataset.light ?? '');
    if (!button || !light) return;
    if (button.dataset.mend) this.#mend(light);
    else this.#editor.do('goTo', light);
  }

  /** @param {Light} light */
  async #mend(light) {
    const told = mayEdit(this.#editor) ? await this.#editor.do('mend', light).catch(unforeseen) : null;
    if (!told || told.offer || told.isChanged || told.isLocked) return;
    this.#unmended.set(light.name, { grid: gridOf(this.#editor), text: unmendedText(told) });
    this.#show();
  }

  // Shows what is offered in place of the words around a light, or nothing. The keys go to it from the list.
  #showOffer() {
    const { offer } = this.#editor;
    const { offered, told, place, list, use } = this.#elements;
    put(offered, 'hidden', !offer);
    if (!offer) return place.replaceChildren();
    told.textContent = offerText(offer);
    const card = fillCard(this.#editor.board, offer.letters, figuresText(offer.after));
    card.addEventListener('click', () => this.#use());
    place.replaceChildren(card);
    return list.contains(document.activeElement) ? use.focus() : undefined;
  }

  // An offer is for the grid as it was.
  #stepped() {
    const { offer } = this.#editor;
    if (offer && gridOf(this.#editor) !== offer.grid) this.#editor.change({ offer: null });
  }

  async #use() {
    const { offer } = this.#editor;
    if (!offer) return;
    if ((await this.#fills.use(offer.letters)) !== null) return;
    say(`mended around ${titleOf(offer.light)}: ${figuresText(offer.after)}, in place of ${figuresText(offer.before)}; undo takes it back`, 'good');
    this.#editor.do('toGrid');
  }
}
