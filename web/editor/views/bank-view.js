// The bank of clues in the tab of the puzzle: how many clues it has, with what saves, adds to and empties it.
import { readBankTable } from '../formats/bank-table.js';
import { joinedText } from '../formats/dropped.js';
import { FileFault } from '../formats/given.js';
import { listText } from '../formats/word-list.js';
import { MOST_CLUES, whyNotKept } from '../store/keep.js';
import { askDialog } from './dialogs.js';
import { refuseAsIs, sayAsIs } from './messages.js';

/** @param {number} count */
const clues = (count) => `${count.toLocaleString('en')} ${count === 1 ? 'clue' : 'clues'}`;

export class BankView {
  #bank;
  #elements;

  /**
   * @param {import('../model/editor.js').Editor} editor
   * @param {import('../store/clue-bank.js').ClueBank} bank
   * @param {Record<'export' | 'import' | 'clear' | 'take', HTMLButtonElement> & { file: HTMLInputElement, dialog: HTMLDialogElement } & Record<'summary' | 'title' | 'told', HTMLElement>} elements
   */
  constructor(editor, bank, elements) {
    this.#bank = bank;
    this.#elements = elements;
    elements.export.addEventListener('click', () => this.#do(async () => editor.do('saveText', await bank.table(), 'old-clues.csv')));
    elements.import.addEventListener('click', () => elements.file.click());
    elements.file.addEventListener('change', () => this.#do(() => this.#import(elements.file.files?.[0])));
    elements.clear.addEventListener('click', () => this.#do(() => this.#clear()));
  }

  // Does something with the bank, and shows it then.
  /** @param {() => Promise<unknown>} action */
  async #do(action) {
    await action().catch((fault) => refuseAsIs(`the old clues stay as they are: ${whyNotKept(fault)}`, true));
    await this.show();
  }

  async show() {
    const { summary, export: saving, clear } = this.#elements;
    const count = await this.#bank.count().catch(() => null);
    const most = `${clues(MOST_CLUES)} at most; the oldest go first`;
    summary.textContent = count === null ? 'This browser keeps none for this page.' : `${clues(count)} with their words, in this browser alone (${most})`;
    saving.disabled = clear.disabled = !count;
  }

  // Asks whether to do something, and promises whether.
  /**
   * @param {string} title
   * @param {string} text
   * @param {string} label
   */
  async #ask(title, text, label) {
    const { dialog, title: head, told, take } = this.#elements;
    head.textContent = title;
    told.textContent = text;
    take.textContent = label;
    return (await askDialog(dialog)) === 'take';
  }

  /** @param {File | undefined} file */
  async #import(file) {
    if (!file) return;
    const bytes = await file.arrayBuffer().catch(() => null);
    this.#elements.file.value = '';
    if (!bytes) return refuseAsIs(`${file.name} cannot be read`);
    const read = this.#read(file.name, bytes);
    if (!read) return;
    const [{ entries, dropped }, count] = [read, await this.#bank.count()];
    const left = joinedText(dropped);
    const told = left && ` Left out: ${left}.`;
    const goes = count + entries.length > MOST_CLUES ? ` ${clues(MOST_CLUES)} are kept at most, so the oldest go.` : '';
    if (!entries.length) return refuseAsIs(`${file.name} has no clue of a word.${told}`);
    if (!(await this.#ask('Old clues', `${file.name} has ${clues(entries.length)}.${told}${goes}`, 'Add them'))) return;
    await this.#bank.addTable(entries);
    sayAsIs(`${file.name}: ${clues(entries.length)} added to the old clues${left && `; left out: ${left}`}`, left ? 'bad' : 'good');
  }

  // What a file has for the bank; nothing if it is no such table.
  /**
   * @param {string} name
   * @param {ArrayBuffer} bytes
   */
  #read(name, bytes) {
    try {
      return readBankTable(listText(new Uint8Array(bytes)));
    } catch (fault) {
      if (!(fault instanceof FileFault)) throw fault;
      refuseAsIs(`${name}: ${fault.message}`);
      return null;
    }
  }

  async #clear() {
    const count = await this.#bank.count();
    const text = `${clues(count)} of all puzzles go for good, and undo does not bring them back. The clues in the puzzles stay. Export saves the old clues first.`;
    if (!(await this.#ask('Clear the old clues?', text, 'Clear'))) return;
    await this.#bank.clear();
    sayAsIs('the old clues are cleared', 'good', true);
  }
}
