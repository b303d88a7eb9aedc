// The dialog that gives words of a list other scores, after it has shown what changes.
import { Aside } from '../engine/aside.js';
import { faultOf, rescoredText } from '../formats/rescoring.js';
import { openDialog } from './dialogs.js';

/** @typedef {import('../store/lists.js').Part} Part */

export class RescoreDialog {
  #elements;
  #aside;
  /** @type {Part | null} */
  #part = null;
  // rises with each change of what is asked, so that late answers are dropped
  #turn = 0;
  // the scores that differ from the file once they are taken over, as they are shown; or null
  /** @type {string | null} */
  #shown = null;

  // `makeWorker` makes the worker that finds the words, and `take` takes over the scores of a list that differ from its file; null for none.
  /**
   * @param {{ dialog: HTMLDialogElement } & Record<'kind' | 'how', HTMLSelectElement> & Record<'text' | 'value', HTMLInputElement> & Record<'preview' | 'stop' | 'back' | 'take', HTMLButtonElement> & Record<'title' | 'told' | 'changes', HTMLElement>} elements
   * @param {() => Worker} makeWorker
   * @param {(name: string, rescored: string | null) => void} take
   */
  constructor(elements, makeWorker, take) {
    this.#elements = elements;
    this.#aside = new Aside(makeWorker);
    this.take = take;
    const { dialog, kind, text, how, value, preview, stop } = elements;
    preview.addEventListener('click', () => this.#preview());
    stop.addEventListener('click', () => this.#aside.stop());
    // each hides where it was pressed
    for (const button of [preview, stop]) button.addEventListener('click', () => text.focus());
    for (const field of [kind, text, how, value]) field.addEventListener('input', () => this.#forget());
    for (const field of [text, value]) field.addEventListener('keydown', (event) => this.#key(event));
    dialog.addEventListener('close', () => this.#close(dialog.returnValue));
  }

  /** @param {Part} part */
  open(part) {
    this.#part = part;
    this.#elements.title.textContent = `Other scores in ${part.name}`;
    this.#elements.back.disabled = !part.rescored;
    this.#forget();
    openDialog(this.#elements.dialog);
  }

  // Enter in a field shows what changes, and takes over what is shown.
  /** @param {KeyboardEvent} event */
  #key(event) {
    if (event.key !== 'Enter' || event.isComposing) return;
    event.preventDefault();
    if (this.#shown === null) this.#preview();
    else this.#elements.take.click();
  }

  // What is shown is no longer what is asked.
  /** @param {string} told */
  #forget(told = '') {
    this.#turn++;
    this.#aside.stop();
    this.#showBusy(false);
    this.#shown = null;
    this.#elements.take.disabled = true;
    this.#elements.told.textContent = told;
    this.#elements.changes.replaceChildren();
  }

  get #rule() {
    const { kind, text, how, value } = this.#elements;
    return /** @type {import('../formats/rescoring.js').Rule} */ ({ kind: kind.value, text: text.value, how: how.value, value: value.value === '' ? NaN : Number(value.value) });
  }

  async #preview() {
    const rule = this.#rule;
    const fault = faultOf(rule);
    this.#forget(fault || 'looking through the list …');
    if (fault) return;
    const turn = this.#turn;
    this.#showBusy(true);
    const found = await this.#aside.ask('rescore', { source: this.#part, rule }).catch(() => null);
    if (turn !== this.#turn) return;
    if (found) this.#show(found);
    else this.#forget('Stopped: nothing is changed.');
  }

  /** @param {boolean} isBusy */
  #showBusy(isBusy) {
    this.#elements.stop.hidden = !isBusy;
    this.#elements.preview.hidden = isBusy;
    this.#elements.told.setAttribute('aria-busy', String(isBusy));
  }

  /** @param {ReturnType<typeof import('../formats/rescoring.js').rescore>} found */
  #show(found) {
    this.#showBusy(false);
    this.#shown = found.changed ? found.rescored : null;
    this.#elements.take.disabled = !found.changed;
    this.#elements.told.textContent = rescoredText(found);
    this.#elements.changes.replaceChildren(...(found.changed ? [row('th', ['Word', 'Now', 'Then'])] : []), ...found.first.map(({ word, from, to }) => row('td', [word, String(from ?? ''), String(to)])));
  }

  /** @param {string} answer */
  #close(answer) {
    const shown = this.#shown;
    this.#forget();
    if (!this.#part) return;
    if (answer === 'take' && shown !== null) this.take(this.#part.name, shown);
    if (answer === 'back') this.take(this.#part.name, null);
  }
}

/**
 * @param {string} name
 * @param {string[]} texts
 */
function row(name, texts) {
  const made = document.createElement('tr');
  made.append(...texts.map((textContent) => Object.assign(document.createElement(name), { textContent })));
  return made;
}
