// What dialogs ask, each with what it promises.
import { askDialog } from './dialogs.js';
import { $ } from './page.js';

// the most files of a zip, and the most repairs, that are shown
const MOST_FILES = 200;
const MOST_REPAIRS = 200;

// Asks for the letters of a cell, and promises them; or null.
/** @param {string} entry */
export async function askEntry(entry) {
  const field = /** @type {HTMLInputElement} */ ($('rebus'));
  field.value = entry;
  const answer = askDialog($('rebus-dialog'));
  field.select();
  return (await answer) === 'enter' ? field.value : null;
}

// Asks whether rows of letters are a `grid` or a `list`.
/**
 * @param {string} name
 * @param {string[]} rows
 */
export function askRows(name, rows) {
  $('rows-told').textContent = `${name} has ${rows.length} lines of ${rows[0].length} letters: a grid, or a list of words?`;
  return askDialog($('rows-dialog'));
}

// Asks which file of a zip is meant, and promises its number, or null for none.
/**
 * @param {string} zip
 * @param {string[]} names
 */
export async function askFile(zip, names) {
  $('zip-told').textContent = `${zip} has ${names.length} files. Open which?`;
  $('zip-files').replaceChildren(...names.slice(0, MOST_FILES).map((name, at) => Object.assign(document.createElement('button'), { value: at, textContent: name })));
  const answer = await askDialog($('zip-dialog'));
  return /^\d+$/.test(answer) ? Number(answer) : null;
}

// Shows what is wrong in a file and what is made of it, and promises `open` if it is opened so.
/**
 * @param {string} name
 * @param {string[]} repairs
 */
export function askAnyway(name, repairs) {
  const more = repairs.length - MOST_REPAIRS;
  $('repairs-told').textContent = `${name} has faults. They are these, with what is made of each:`;
  const shown = [...repairs.slice(0, MOST_REPAIRS), ...(more > 0 ? [`and ${more} more`] : [])];
  $('repairs').replaceChildren(...shown.map((textContent) => Object.assign(document.createElement('li'), { textContent })));
  return askDialog($('repairs-dialog'));
}

// Asks for the key of a scrambled file, and promises the answer and what was typed.
/**
 * @param {string} told
 * @param {boolean} maySearch
 */
export async function askKey(told, maySearch) {
  $('key-told').textContent = told;
  const field = /** @type {HTMLInputElement} */ ($('key'));
  field.value = '';
  /** @type {HTMLButtonElement} */ ($('key-search')).disabled = !maySearch;
  return { answer: await askDialog($('key-dialog')), key: field.value.trim() };
}
