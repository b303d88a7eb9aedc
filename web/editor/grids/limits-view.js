// What a new grid is for, its size and symmetry, and its limits in a table, which a setter can change: the browser keeps what is changed for an outlet.
import { keepLimits, keptLimits } from '../store/keep.js';
import { LIMITS, OUTLETS, changedName, limitsFor, wholeLimits } from './outlets.js';

/** @typedef {import('./outlets.js').Limit} Limit */
/** @typedef {import('./outlets.js').Outlet} Outlet */
/** @typedef {import('./grid.js').Style} Style */
/** @typedef {Record<'outlet' | 'sym', HTMLSelectElement> & Record<'width' | 'height', HTMLInputElement> & Record<'table' | 'rules' | 'summary', HTMLElement> & { reset: HTMLButtonElement }} Elements */

const NAMES = /** @type {Limit[]} */ (Object.keys(LIMITS));
// what the groups of outlets are called
/** @type {Record<Style, string>} */
const STYLES = { american: 'American', british: 'British lattices', barred: 'Barred grids' };
// the rules that all grids of a style keep
const RULES = {
  american: 'Each letter is in two words, no word has two letters, and two cells or more join any two larger parts.',
  british: 'No light has two letters, and all cells connect. Half of the letters of a light are checked, but for one if their number is odd, and no three unchecked ones stand side by side.',
  barred: 'A light of four or five letters has one unchecked letter at most, one of six or seven two, and so on. No two unchecked ones stand side by side.',
};

export class LimitsView {
  #elements;
  /** @type {import('./outlets.js').Changed} */
  #changed = keptLimits();
  /** @type {Map<Limit, HTMLInputElement>} */
  #fields = new Map();

  /** @param {Elements} elements */
  constructor(elements) {
    this.#elements = elements;
    elements.outlet.append(.../** @type {Style[]} */ (Object.keys(STYLES)).map(groupOf));
    for (const name of NAMES) elements.table.append(this.#row(name));
    elements.outlet.addEventListener('change', () => this.#choose());
    for (const side of [elements.width, elements.height]) side.addEventListener('change', () => this.#show());
    elements.reset.addEventListener('click', () => this.#forget());
    this.#choose();
  }

  /** @param {Limit} name */
  #row(name) {
    const row = document.createElement('tr');
    const field = Object.assign(document.createElement('input'), { type: 'number', min: '0', id: `themes-${name}` });
    const label = Object.assign(document.createElement('label'), { textContent: LIMITS[name], htmlFor: field.id });
    const [head, cell, source] = ['th', 'td', 'td'].map((tag) => document.createElement(tag));
    head.append(label);
    cell.append(field);
    row.append(head, cell, source);
    field.addEventListener('change', () => this.#change(name));
    this.#fields.set(name, field);
    return row;
  }

  get #outlet() {
    return OUTLETS.find(({ name }) => name === this.#elements.outlet.value) ?? OUTLETS[0];
  }

  get #size() {
    return { width: Number(this.#elements.width.value), height: Number(this.#elements.height.value) };
  }

  get #key() {
    const { width, height } = this.#size;
    return changedName(this.#outlet, width, height);
  }

  // What a search is to find: its style, size, symmetry and limits.
  get wanted() {
    const { width, height } = this.#size;
    const limits = Object.fromEntries([...this.#fields].filter(([, { value }]) => value !== '').map(([name, { value }]) => [name, Number(value)]));
    return { style: this.#outlet.style, width, height, sym: /** @type {import('./symmetry.js').Symmetry} */ (this.#elements.sym.value), limits: wholeLimits(limits, width, height) };
  }

  #choose() {
    const { width, height, sym } = this.#outlet;
    Object.assign(this.#elements.width, { value: width });
    Object.assign(this.#elements.height, { value: height });
    Object.assign(this.#elements.sym, { value: sym });
    this.#show();
  }

  /** @param {Limit} name */
  #change(name) {
    const value = this.#valueOf(name);
    this.#changed[this.#key] = { ...this.#changed[this.#key], [name]: value === '' ? null : Number(value) };
    keepLimits(this.#changed);
    this.#show();
  }

  // What stands in the field of a limit.
  /** @param {Limit} name */
  #valueOf(name) {
    return this.#fields.get(name)?.value ?? '';
  }

  #forget() {
    delete this.#changed[this.#key];
    keepLimits(this.#changed);
    this.#show();
  }

  // Shows the limits of the outlet at this size, and where each comes from.
  #show() {
    const [outlet, { width, height }] = [this.#outlet, this.#size];
    const limits = limitsFor(outlet, width, height, this.#changed);
    const isAmerican = outlet.style === 'american';
    for (const [name, field] of this.#fields) {
      const { limit, source } = limits[name];
      field.value = limit === null ? '' : String(limit);
      const row = /** @type {HTMLElement} */ (field.closest('tr'));
      row.hidden = !isAmerican && !['words', 'blocks', 'threes'].includes(name);
      /** @type {Element} */ (row.lastElementChild).textContent = source;
    }
    this.#elements.reset.disabled = !Object.keys(this.#changed[this.#key] ?? {}).length;
    this.#elements.rules.textContent = `All grids: ${RULES[outlet.style]}`;
    this.#elements.summary.textContent = this.#summary(outlet, width === outlet.width && height === outlet.height);
  }

  /**
   * @param {Outlet} outlet
   * @param {boolean} isAtSize
   */
  #summary({ published }, isAtSize) {
    const shown = { words: 'words', blocks: 'blocks', threes: 'words of 3', cheaters: 'cheaters' };
    const parts = Object.entries(shown).flatMap(([name, text]) => {
      const value = this.#valueOf(/** @type {Limit} */ (name));
      return value === '' ? [] : [`${value} ${text}`];
    });
    const known = isAtSize && published.length ? ` (published: ${published.join(' and ')})` : '';
    return `Limits: ${parts.join(', ') || 'none'}${known}`;
  }
}

/** @param {Style} style */
function groupOf(style) {
  const group = Object.assign(document.createElement('optgroup'), { label: STYLES[style] });
  group.append(...OUTLETS.filter((outlet) => outlet.style === style).map(({ name }) => new Option(name, name)));
  return group;
}
