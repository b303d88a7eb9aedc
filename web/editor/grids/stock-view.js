// The stock of patterns in the dialog of new puzzles: a form is chosen, and theme entries and limits leave some of its patterns.
import { sketchOf } from '../views/library.js';
import { recordOf } from './patterns.js';
import { parseRecord } from '../model/record.js';
import { FORMS, cellsOf, patternsOf, rowsOf, sift, threesIn } from './stock.js';

// how many patterns are shown at once
const SHOWN = 24;

/** @typedef {ReturnType<typeof sift>[number]} Found */
/**
 * @typedef {{
 *   stock: HTMLDetailsElement, form: HTMLSelectElement, themes: HTMLInputElement, words: HTMLInputElement, threes: HTMLInputElement, told: HTMLElement, patterns: HTMLElement,
 *   more: HTMLElement,
 * }} Elements
 */

export class StockView {
  #elements;
  #begin;
  /** @type {Found[]} */
  #found = [];

  // `begin` begins a puzzle with a record.
  /**
   * @param {Elements} elements
   * @param {(record: string) => void} begin
   */
  constructor(elements, begin) {
    this.#elements = elements;
    this.#begin = begin;
    elements.form.append(...FORMS.map(({ name, text }) => new Option(text, name)));
    elements.stock.addEventListener('toggle', () => elements.stock.open && this.#show());
    for (const field of [elements.form, elements.themes, elements.words, elements.threes]) field.addEventListener('input', () => this.#show());
    elements.more.addEventListener('click', () => {
      const first = elements.patterns.childElementCount;
      this.#showMore();
      /** @type {HTMLElement} */ (elements.patterns.children[first]).focus();
    });
    // Enter in a field closes no dialog
    elements.stock.addEventListener('keydown', (event) => {
      if (event.key === 'Enter' && event.target instanceof HTMLInputElement) event.preventDefault();
    });
  }

  get #form() {
    return FORMS.find(({ name }) => name === this.#elements.form.value) ?? FORMS[0];
  }

  // The lengths of theme entries, given as words or as numbers.
  get #lengths() {
    const parts = this.#elements.themes.value.split(/[,;/\n]+|(?<=\d)\s+/).map((part) => part.normalize('NFD').replace(/[^A-Za-z0-9]/g, '')).filter(Boolean);
    return parts.map((part) => (/^\d+$/.test(part) ? Number(part) : part.length));
  }

  #show() {
    const { words, threes, told, patterns } = this.#elements;
    const [form, lengths] = [this.#form, this.#lengths];
    /** @param {HTMLInputElement} field */
    const most = ({ value }) => (value === '' ? Infinity : Number(value));
    const all = patternsOf(form);
    this.#found = sift(all, { lengths, isThemed: form.isThemed, words: most(words), threes: most(threes) });
    const room = lengths.length ? `, with room for ${lengths.join(', ')}` : '';
    told.textContent = `${this.#found.length || 'none'} of ${all.length} patterns${room}`;
    patterns.replaceChildren();
    this.#showMore();
  }

  #showMore() {
    const { patterns, more } = this.#elements;
    const shown = patterns.childElementCount;
    patterns.append(...this.#found.slice(shown, shown + SHOWN).map((one) => this.#card(one)));
    more.hidden = patterns.childElementCount === this.#found.length;
  }

  /** @param {Found} found */
  #card({ pattern, places }) {
    const record = recordOf(rowsOf(pattern), 'half');
    const { size, blocks, lights } = pattern;
    const marked = new Set([...cellsOf(places, size)].map((cell) => `${Math.floor(cell / size) + 1} ${(cell % size) + 1}`));
    const threes = threesIn(pattern);
    const text = `${lights.length} words, ${blocks.size} blocks${threes ? `, ${threes} of 3` : ''}`;
    const card = Object.assign(document.createElement('button'), { type: 'button', className: 'pattern' });
    card.append(sketchOf(parseRecord(record), new Set(), new Set(), marked), text);
    card.addEventListener('click', () => this.#begin(record));
    return card;
  }
}
