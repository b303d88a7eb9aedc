// The word lists in the tab of the puzzle, and the dialog of the personal list.
import { joinPersonal, listText, readPersonal } from '../formats/word-list.js';
import { openDialog } from './dialogs.js';

/** @typedef {import('../store/lists.js').Lists} Lists */
/** @typedef {import('../store/lists.js').Part} Part */

const MOST_OFFSET = 100;

export class ListsView {
  #elements;
  /** @type {Lists | null} */
  #lists = null;

  // `actions`: `change` takes the lists over that a function makes of them, and promises whether they are in use; `undo` takes the last change back;
  // `export` saves the personal list, and `exportList` one of the others; `rescore` asks for other scores of one; `kept` is told what takes a text back that Esc keeps.
  /**
   * @param {Record<'list' | 'summary' | 'count', HTMLElement> & Record<'undo' | 'edit' | 'export' | 'import', HTMLButtonElement> & { dialog: HTMLDialogElement, text: HTMLTextAreaElement, file: HTMLInputElement }} elements
   * @param {{ change: (change: (lists: Lists) => Lists) => Promise<boolean>, undo: () => Promise<boolean>, export: (text: string) => void, exportList: (part: Part) => Promise<void>, rescore: (part: Part) => void, kept: (takeBack: () => Promise<unknown>) => void }} actions
   */
  constructor(elements, actions) {
    this.#elements = elements;
    this.actions = actions;
    elements.list.addEventListener('change', ({ target }) => this.#change(/** @type {HTMLInputElement} */ (target)));
    elements.list.addEventListener('click', ({ target }) => this.#press(/** @type {HTMLElement} */ (target).dataset));
    elements.undo.addEventListener('click', () => actions.undo());
    elements.edit.addEventListener('click', () => this.#edit());
    elements.import.addEventListener('click', () => elements.file.click());
    elements.file.addEventListener('change', () => this.#import(elements.file.files?.[0]));
    elements.export.addEventListener('click', () => actions.export(this.#personal));
    elements.dialog.addEventListener('close', () => this.#close(elements.dialog.returnValue));
    elements.text.addEventListener('input', () => this.#count(elements.text.value));
  }

  /**
   * @param {Lists} lists
   * @param {boolean} canUndo
   */
  show(lists, canUndo) {
    this.#lists = lists;
    this.#elements.undo.disabled = !canUndo;
    const on = lists.listed.filter(({ isOn }) => isOn);
    this.#elements.list.replaceChildren(...lists.listed.map((part, at) => row(part, at, on.length > 1 ? on.indexOf(part) + 1 : 0)));
    const { words, hidden } = readPersonal(lists.personal);
    this.#elements.summary.textContent = words.size + hidden.size ? `${words.size} added, ${hidden.size} hidden` : 'none yet';
    this.#elements.export.disabled = !lists.personal.trim();
  }

  // A box that switches a list on or off, or its offset.
  /**
   * @param {HTMLInputElement} field
   * @returns {unknown}
   */
  #change({ dataset: { name, offset }, checked, value }) {
    if (name) return this.actions.change((lists) => lists.switching(name, checked));
    const shift = Math.round(Number(value));
    // what is no number leaves all as it is
    if (offset && Math.abs(shift) <= MOST_OFFSET) return this.actions.change((lists) => lists.shifting(offset, shift));
    return this.#lists && this.show(this.#lists, !this.#elements.undo.disabled);
  }

  /** @param {DOMStringMap} pressed */
  async #press({ remove, raise, rescore, file }) {
    const part = this.#lists?.parts.find(({ name }) => name === (rescore ?? file));
    if (part && rescore) this.actions.rescore(part);
    if (part && file) await this.actions.exportList(part);
    if (remove) await this.actions.change((lists) => lists.removing(remove));
    if (raise) await this.actions.change((lists) => lists.raising(raise));
  }

  get #personal() {
    return this.#lists?.personal ?? '';
  }

  #edit() {
    this.#elements.text.value = this.#personal;
    this.#count(this.#personal);
    openDialog(this.#elements.dialog);
  }

  // Esc keeps the words too.
  /** @param {string} answer */
  async #close(answer) {
    const { value } = this.#elements.text;
    if (answer === 'cancel' || value === this.#personal) return;
    const isInUse = await this.actions.change((lists) => lists.withPersonal(value));
    if (isInUse && !answer) this.actions.kept(this.actions.undo);
  }

  // Puts the lines of a file behind those of the personal list, and tells which.
  /** @param {File | undefined} file */
  async #import(file) {
    const { text, count, file: picker } = this.#elements;
    if (!file) return;
    const bytes = await file.arrayBuffer().catch(() => null);
    picker.value = '';
    if (!bytes) {
      count.textContent = `${file.name} cannot be read`;
      return;
    }
    const { joined, taken, there, faults } = joinPersonal(text.value, listText(new Uint8Array(bytes)));
    text.value = joined;
    const dropped = [there && `${there} there already`, faults && `${faults} with no word`].filter(Boolean);
    count.textContent = `${file.name}: ${taken} taken${dropped.length ? `; ${there + faults} dropped: ${dropped.join(', ')}` : ''}`;
  }

  /** @param {string} text */
  #count(text) {
    const { words, hidden, faults } = readPersonal(text);
    const strange = faults.length ? `; no word: ${faults.slice(0, 3).join(', ')}${faults.length > 3 ? ' …' : ''}` : '';
    this.#elements.count.textContent = `${words.size} added, ${hidden.size} hidden${strange}`;
  }
}

// `at` is the place of a list among all, and `place` that among those in use, if there are several.
/**
 * @param {Part} part
 * @param {number} at
 * @param {number} place
 */
function row({ name, offset = 0, rescored, isOn, isBuiltIn }, at, place) {
  const item = document.createElement('li');
  const label = document.createElement('label');
  const box = Object.assign(document.createElement('input'), { type: 'checkbox', checked: isOn });
  box.dataset.name = name;
  label.append(box, ` ${place ? `${place} ` : ''}${name}${rescored ? ', rescored' : ''}`);
  item.append(label, offsetOf(name, offset), ...(at > 0 ? [button('raise', name, '↑', `Puts ${name} before the list above it, so that it decides before that one`)] : []));
  item.append(button('rescore', name, 'Rescore…', `Other scores for words of ${name}`), button('file', name, 'Export', `Saves ${name} with its scores`));
  if (!isBuiltIn && !isOn) item.append(button('remove', name, 'Remove'));
  return item;
}

// What is added to each score of a list.
/**
 * @param {string} name
 * @param {number} offset
 */
function offsetOf(name, offset) {
  const field = Object.assign(document.createElement('input'), { type: 'number', min: String(-MOST_OFFSET), max: String(MOST_OFFSET), value: String(offset), title: `Added to each score of ${name}` });
  field.setAttribute('aria-label', `Offset of ${name}`);
  field.dataset.offset = name;
  return field;
}

/**
 * @param {string} what
 * @param {string} name
 * @param {string} textContent
 * @param {string} title
 */
function button(what, name, textContent, title = '') {
  const made = Object.assign(document.createElement('button'), { type: 'button', textContent, title });
  made.setAttribute('aria-label', what === 'raise' ? title : `${textContent} ${name}`);
  made.dataset[what] = name;
  return made;
}
