// The word lists: several, each on or off, and the personal list, which stays over puzzles.
import { keepLists, keptLists } from './keep.js';

/** @typedef {import('../formats/joined-lists.js').Source & { name: string, isOn: boolean, isBuiltIn?: boolean }} Part */

// What the browser keeps of the lists.
/**
 * @typedef {{
 *   parts: Part[], personal?: string, least?: number, weak?: number | null, threes?: number, apart?: boolean, target?: number | null,
 * }} Kept
 */
/** @typedef {{ name: string, bytes: Uint8Array }} BuiltIn */

export class Lists {
  // in the order in which they decide
  /** @type {Part[]} */
  parts = [];
  // the personal list as text; the least score of a word, that of a word of three letters, and the score below which words are marked, or null for the usual
  // one; and whether candidates and fills have no words that are close to others
  personal = '';
  least = 0;
  threes = 0;
  apart = false;
  /** @type {number | null} */
  weak = null;
  // the score that no word of a fill is under when its raising ends; null for none
  /** @type {number | null} */
  target = null;

  /** @param {Kept} lists */
  constructor({ parts, personal = '', least = 0, weak = null, threes = 0, apart = false, target = null }) {
    Object.assign(this, { parts, personal, least, weak, threes, apart, target });
  }

  // What the browser keeps, or the built-in list alone.
  /** @param {BuiltIn} builtIn */
  static async kept(builtIn) {
    const kept = await keptLists().catch(() => null);
    if (!kept) return Lists.builtIn(builtIn);
    const parts = kept.parts.map((/** @type {Part} */ part) => (part.isBuiltIn ? { ...part, ...builtIn } : part));
    return new Lists({ ...kept, parts: parts.some((/** @type {Part} */ { isBuiltIn }) => isBuiltIn) ? parts : [{ ...builtIn, isBuiltIn: true, isOn: false }, ...parts] });
  }

  /** @param {BuiltIn} builtIn */
  static builtIn(builtIn, personal = '') {
    return new Lists({ parts: [{ ...builtIn, isBuiltIn: true, isOn: true }], personal });
  }

  // Keeps them. The built-in list is in the page already.
  keep() {
    const parts = this.parts.map(({ isBuiltIn, bytes, ...part }) => (isBuiltIn ? { ...part, isBuiltIn } : { ...part, bytes }));
    return keepLists({ ...this, parts });
  }

  /** @param {Partial<Kept>} changed */
  #with(changed) {
    return new Lists({ ...this, ...changed });
  }

  // With one more list, which is used in place of the others, and decides before them. These stay, off. One that is there already keeps its offset and its
  // scores.
  /**
   * @param {string} name
   * @param {Uint8Array} bytes
   * @param {import('../formats/list-form.js').Form | null} form
   */
  adding(name, bytes, form = null) {
    const same = this.parts.find((part) => part.name === name && isSameBytes(part.bytes, bytes));
    const others = this.parts.filter((part) => part !== same).map((part) => ({ ...part, isOn: false }));
    const isTaken = (/** @type {string} */ wanted) => others.some((part) => part.name === wanted);
    let free = name;
    for (let count = 2; isTaken(free); count++) free = `${name} (${count})`;
    return this.#with({ parts: [{ ...same, name: free, bytes, form, isOn: true }, ...others], least: 0, weak: null, threes: 0, target: null });
  }

  /**
   * @param {string} name
   * @param {boolean} isOn
   */
  switching(name, isOn) {
    return this.#changing(name, { isOn });
  }

  // With an offset for the scores of a list.
  /**
   * @param {string} name
   * @param {number} offset
   */
  shifting(name, offset) {
    return this.#changing(name, { offset });
  }

  // With scores of a list that differ from its file, as lines; null for none.
  /**
   * @param {string} name
   * @param {string | null} rescored
   */
  rescoring(name, rescored) {
    return this.#changing(name, { rescored });
  }

  /**
   * @param {string} name
   * @param {Partial<Part>} changed
   */
  #changing(name, changed) {
    return this.#with({ parts: this.parts.map((part) => (part.name === name ? { ...part, ...changed } : part)) });
  }

  // With a list one place up, where it decides before the one that was there. A list without words has no place.
  /** @param {string} name */
  raising(name) {
    const listed = this.listed;
    const at = listed.findIndex((part) => part.name === name);
    if (at < 1) return this;
    [listed[at - 1], listed[at]] = [listed[at], listed[at - 1]];
    return this.#with({ parts: [...listed, ...this.parts.filter((part) => !listed.includes(part))] });
  }

  // The lists that have words, in their order.
  get listed() {
    return this.parts.filter(({ bytes }) => bytes.length);
  }

  // With the built-in list alone in use.
  onlyBuiltIn() {
    return this.#with({ parts: this.parts.map((part) => ({ ...part, isOn: Boolean(part.isBuiltIn) })), least: 0, weak: null, threes: 0, target: null });
  }

  /** @param {string} name */
  removing(name) {
    return this.#with({ parts: this.parts.filter((part) => part.name !== name) });
  }

  /** @param {number} least */
  atLeast(least) {
    return this.#with({ least });
  }

  // With what is chosen otherwise: `weak`, `threes`, `apart` or `target`.
  /** @param {Partial<Kept>} chosen */
  choosing(chosen) {
    return this.#with(chosen);
  }

  /** @param {string} personal */
  withPersonal(personal) {
    return this.#with({ personal });
  }

  // The bytes of the list of the page, whose entries are single words.
  get plain() {
    return this.parts.find(({ isBuiltIn }) => isBuiltIn)?.bytes ?? new Uint8Array();
  }

  // What the engine opens.
  get chosen() {
    const on = this.listed.filter(({ isOn }) => isOn);
    const name = on.length === 1 ? on[0].name : on.length ? `${on.length} lists` : '';
    return { name: name || (this.personal.trim() ? 'my words' : ''), sources: on.map(({ name: one, bytes, form = null, rescored = null, offset = 0 }) => ({ name: one, bytes, form, rescored, offset })), personal: this.personal, least: this.least, weak: this.weak, threes: this.threes, apart: this.apart, target: this.target };
  }
}

/**
 * @param {Uint8Array} one
 * @param {Uint8Array} other
 */
function isSameBytes(one, other) {
  let at = one.length === other.length ? 0 : -1;
  while (at >= 0 && at < one.length && one[at] === other[at]) at++;
  return at === one.length;
}
