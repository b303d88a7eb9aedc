// The dialog that shows how a word list is read, before it is taken over.
import { MOST_COLUMNS, PLAIN, withColumn } from '../formats/list-form.js';
import { previewText } from '../formats/list-preview.js';
import { askDialog } from './dialogs.js';
import { option } from './page.js';

const NO_SCORE = 'none';
// the most of a field that is shown
const MOST_SHOWN = 40;

/** @typedef {import('../formats/list-form.js').Form} Form */

export class ListDialog {
  #editor;
  #elements;
  // rises with each question, so that late answers are dropped; and the last question
  #turn = 0;
  #asking = Promise.resolve();
  #name = '';
  #bytes = new Uint8Array();
  /** @type {Form} */
  #form = PLAIN;

  /**
   * @param {import('../model/editor.js').Editor} editor
   * @param {{ dialog: HTMLDialogElement } & Record<'separator' | 'word' | 'score' | 'scale', HTMLSelectElement> & Record<'told' | 'scaleRow' | 'lines' | 'left', HTMLElement>} elements
   */
  constructor(editor, elements) {
    this.#editor = editor;
    this.#elements = elements;
    const { separator, word, score, scale } = elements;
    separator.addEventListener('change', () => this.#choose({ separator: separator.value }));
    word.addEventListener('change', () => this.#choose(withColumn(this.#form, 'word', Number(word.value))));
    score.addEventListener('change', () => this.#choose(withColumn(this.#form, 'score', score.value === NO_SCORE ? null : Number(score.value))));
    scale.addEventListener('change', () => this.#choose({ ...this.#form, scale: Number(scale.value) }));
  }

  // Shows a list, and promises the form in which it is to be read, or null if it is not to be taken over.
  /**
   * @param {string} name
   * @param {Uint8Array} bytes
   */
  async ask(name, bytes) {
    this.#name = name;
    this.#bytes = bytes;
    await this.#ask({});
    if ((await askDialog(this.#elements.dialog)) !== 'take') return null;
    // what was chosen last counts, also if it was not shown yet
    await this.#asking;
    return this.#form;
  }

  /** @param {Partial<Form>} chosen */
  #choose(chosen) {
    this.#asking = this.#ask(chosen);
    // who awaits it gets the fault
    this.#asking.catch(() => {});
  }

  /** @param {Partial<Form>} chosen */
  async #ask(chosen) {
    const turn = ++this.#turn;
    this.#elements.told.setAttribute('aria-busy', 'true');
    const preview = await this.#editor.engine.call('lookAtList', { bytes: this.#bytes, chosen });
    if (turn !== this.#turn) return;
    this.#elements.told.setAttribute('aria-busy', 'false');
    this.#show(preview);
  }

  /** @param {import('../formats/list-preview.js').Preview} preview */
  #show(preview) {
    const { form, rows, dropped } = preview;
    this.#form = form;
    const { told, separator, word, score, scale, scaleRow, lines, left } = this.#elements;
    told.textContent = previewText(this.#name, preview);
    const columns = Math.min(MOST_COLUMNS, Math.max(1, form.word + 1, (form.score ?? 0) + 1, ...rows.map(({ length }) => length)));
    const names = Array.from({ length: columns }, (_, at) => /** @type {[string, string]} */ ([String(at), `column ${at + 1}`]));
    separator.value = form.separator;
    putOptions(word, names, form.word);
    putOptions(score, [[NO_SCORE, NO_SCORE], ...(columns > 1 ? names : [])], form.score ?? NO_SCORE);
    scale.value = String(form.scale);
    scaleRow.hidden = form.score === null;
    lines.replaceChildren(headRow(form, columns), ...rows.map((fields) => fieldRow(fields, form, columns)));
    left.replaceChildren(...dropped.map(({ text, why }) => Object.assign(document.createElement('li'), { textContent: `${text.trim()}: ${why}` })));
  }
}

/**
 * @param {HTMLSelectElement} select
 * @param {[string, string][]} options
 * @param {string | number} value
 */
function putOptions(select, options, value) {
  select.replaceChildren(...options.map(([one, text]) => option(one, text)));
  select.value = String(value);
}

/**
 * @param {string} name
 * @param {string[]} texts
 * @param {Form} form
 */
function row(name, texts, { word, score }) {
  const made = document.createElement('tr');
  made.append(...texts.map((textContent, at) => Object.assign(document.createElement(name), { textContent, className: at === word ? 'word' : at === score ? 'score' : '' })));
  return made;
}

/**
 * @param {Form} form
 * @param {number} columns
 */
const headRow = (form, columns) => row('th', Array.from({ length: columns }, (_, at) => (at === form.word ? 'Word' : at === form.score ? 'Score' : '')), form);

/**
 * @param {string[]} fields
 * @param {Form} form
 * @param {number} columns
 */
const fieldRow = (fields, form, columns) => row('td', Array.from({ length: columns }, (_, at) => (fields[at] ?? '').slice(0, MOST_SHOWN)), form);
