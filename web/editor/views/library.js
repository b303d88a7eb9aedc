// The dialog of puzzles: each can be opened, also as it was before, deleted and restored.
import { parseRecord, placeOf, unescapeText } from '../model/record.js';
import { versionsOf, whyNotKept } from '../store/keep.js';
import { openDialog } from './dialogs.js';
import { unforeseen } from './messages.js';
import { first, svgElement } from './page.js';

/** @typedef {import('../store/keep.js').Session} Session */
/** @typedef {Awaited<ReturnType<import('../store/shelf.js').Shelf['puzzles']>>[number]} Entry */
/** @typedef {import('../model/record.js').Said} Said */

export class LibraryView {
  #dialog;
  #list;
  #shelf;
  /** @type {import('../model/editor.js').Editor} */
  #editor;

  /**
   * @param {import('../model/editor.js').Editor} editor
   * @param {HTMLDialogElement} dialog
   * @param {HTMLElement} list
   * @param {import('../store/shelf.js').Shelf} shelf
   */
  constructor(editor, dialog, list, shelf) {
    this.#editor = editor;
    this.#dialog = dialog;
    this.#list = list;
    this.#shelf = shelf;
  }

  async show() {
    await this.#showPuzzles();
    openDialog(this.#dialog);
  }

  async #showPuzzles() {
    try {
      const puzzles = await this.#shelf.puzzles();
      const [deleted, kept] = [puzzles.filter((entry) => entry.deleted), puzzles.filter((entry) => !entry.deleted)];
      const none = kept.length ? [] : [paragraph('No puzzle is kept yet. A puzzle is kept from its first change on.')];
      this.#list.replaceChildren(...none, gallery(kept.map((entry) => this.#entry(entry))), ...(deleted.length ? [this.#bin(deleted)] : []));
    } catch (fault) {
      this.#list.replaceChildren(paragraph(`There are no puzzles to show: ${whyNotKept(fault)}.`));
    }
  }

  /** @param {Entry} entry */
  #entry(entry) {
    const { isHere, isElsewhere } = entry;
    const note = (isHere && 'open here') || (isElsewhere && 'open in another tab') || '';
    const deleting = puzzleButton('delete', 'Delete', () => this.#change(() => this.#shelf.setDeleted(entry, true)));
    deleting.disabled = isHere || isElsewhere;
    const versions = puzzleButton('versions', 'Versions', () => this.#showVersions(entry));
    return this.#card(entry, { note, open: () => this.#openLatest(entry), buttons: [versions, deleting] });
  }

  // Puzzles that were deleted, which stay until they are destroyed.
  /** @param {Entry[]} entries */
  #bin(entries) {
    const bin = document.createElement('details');
    bin.className = 'bin';
    const summary = Object.assign(document.createElement('summary'), { textContent: `Deleted (${entries.length})` });
    const cards = entries.map((entry) => {
      const restore = puzzleButton('restore', 'Restore', () => this.#change(() => this.#shelf.setDeleted(entry, false)));
      const destroy = puzzleButton('destroy', 'Delete for good', () => this.#change(() => this.#shelf.destroy([entry.puzzle])));
      return this.#card(entry, { note: 'deleted', buttons: [restore, destroy] });
    });
    bin.append(summary, gallery(cards));
    return bin;
  }

  /** @param {() => Promise<unknown>} action */
  async #change(action) {
    await action();
    await this.#showPuzzles();
    first('.pattern, [value=close]', this.#dialog).focus();
  }

  /** @param {Entry} entry */
  async #openLatest(entry) {
    this.#dialog.close();
    if (!entry.isHere) this.#open((await this.#shelf.latest(entry.puzzle)) ?? entry, false);
  }

  // Opens a session; `isVersion` tells whether it is an earlier one of its puzzle.
  /**
   * @param {Session} session
   * @param {boolean} isVersion
   */
  #open(session, isVersion) {
    this.#editor.do('reopen', session, isVersion).catch(unforeseen);
  }

  /** @param {Entry} entry */
  async #showVersions(entry) {
    const versions = (await versionsOf(entry.puzzle)).reverse();
    const back = puzzleButton('back', '← All puzzles', () => this.#showPuzzles());
    const cards = versions.map((version) => this.#card(version, {
      open: () => {
        this.#dialog.close();
        this.#open(version, true);
      },
      buttons: [],
    }));
    const text = versions.length ? `Versions of ${titleOfState(parseRecord(entry.record))}. Opening one keeps what is here as a version too.` : 'There are no versions yet.';
    this.#list.replaceChildren(back, paragraph(text), gallery(cards));
    back.focus();
  }

  // A picture of a session with its title and facts, which opens it, and buttons below.
  /**
   * @param {Session} session
   * @param {{ note?: string, open?: (() => void) | null, buttons: HTMLElement[] }} given
   */
  #card(session, { note = '', open = null, buttons }) {
    const card = document.createElement('div');
    card.className = 'card';
    const opening = puzzleButton('pattern', '', open);
    opening.disabled = !open;
    const state = parseRecord(session.record);
    const facts = Object.assign(document.createElement('small'), { textContent: factsOf(state, session) });
    opening.append(sketchOf(state), titleOfState(state), facts);
    if (note) opening.append(Object.assign(document.createElement('small'), { className: 'here', textContent: note }));
    const row = document.createElement('div');
    row.className = 'card-buttons';
    row.append(...buttons);
    card.append(opening, row);
    return card;
  }
}

/** @param {HTMLElement[]} cards */
function gallery(cards) {
  const made = document.createElement('div');
  made.className = 'patterns';
  made.append(...cards);
  return made;
}

const paragraph = (/** @type {string} */ text) => Object.assign(document.createElement('p'), { textContent: text });

/**
 * @param {string} className
 * @param {string} text
 * @param {(() => unknown) | null} action
 */
function puzzleButton(className, text, action) {
  return Object.assign(document.createElement('button'), { type: 'button', className, textContent: text, onclick: action });
}

const titleOfState = (/** @type {Said} */ { texts, width, height }) => unescapeText(texts.get('title') ?? '').trim() || `${width} × ${height}`;

/**
 * @param {Said} said
 * @param {Session} session
 */
function factsOf({ letters, texts }, { at }) {
  const clues = [...texts].filter(([field, text]) => text && field.startsWith('clue ')).length;
  const count = `${letters.size} ${letters.size === 1 ? 'letter' : 'letters'}${clues ? `, ${clues} ${clues === 1 ? 'clue' : 'clues'}` : ''}`;
  // the time is on one line
  const time = at && new Date(at).toLocaleDateString(undefined, { day: 'numeric', month: 'short', hour: '2-digit', minute: '2-digit' }).replace(/\s/g, '\u00a0');
  return at ? `${count}, ${time}` : count;
}

// the most cells of a grid whose letters are in its picture
const MOST_DRAWN = 1000;

// A small picture of a grid with its letters. Those of `marked` cells are marked, `dead` cells are shaded, and `held` cells are tinted.
/**
 * @param {Pick<Said, 'width' | 'height' | 'blocks' | 'bars' | 'letters'>} grid
 * @param {ReadonlySet<string>} marked
 * @param {ReadonlySet<string>} dead
 * @param {ReadonlySet<string>} held
 */
export function sketchOf({ width, height, blocks, bars, letters }, marked = new Set(), dead = new Set(), held = new Set()) {
  const svg = svgElement('svg', { viewBox: `0 0 ${width} ${height}`, 'aria-hidden': 'true' });
  const square = (/** @type {[number, number]} */ [row, column]) => `M${column - 1} ${row - 1}h1v1h-1z`;
  const squares = (/** @type {Iterable<string>} */ cells) => [...cells].map((cell) => square(placeOf(cell))).join('');
  if (dead.size) svg.append(svgElement('path', { class: 'dead', d: squares(dead) }));
  if (held.size) svg.append(svgElement('path', { class: 'held', d: squares(held) }));
  svg.append(svgElement('path', { d: squares(blocks) }));
  const line = (/** @type {string[]} */ [row, column, side]) => (side === 'right' ? `M${column} ${Number(row) - 1}v1` : `M${Number(column) - 1} ${row}h1`);
  const lines = [...Array.from({ length: width - 1 }, (_, at) => `M${at + 1} 0v${height}`), ...Array.from({ length: height - 1 }, (_, at) => `M0 ${at + 1}h${width}`)];
  svg.append(svgElement('path', { class: 'lines', d: lines.join('') }));
  if (bars.size) svg.append(svgElement('path', { class: 'bars', d: [...bars].map((bar) => line(bar.split(' '))).join('') }));
  if (width * height > MOST_DRAWN) return svg;
  for (const [coordinates, letter] of letters) {
    const [row, column] = placeOf(coordinates);
    svg.append(svgElement('text', { x: column - 0.5, y: row - 0.2, ...(marked.has(coordinates) && { class: 'marked' }) }, letter));
  }
  return svg;
}
