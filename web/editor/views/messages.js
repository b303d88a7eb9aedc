// What the page says: a message at a time at its foot, a list of them, and warnings.
import { termed } from '../model/terms.js';
import { keyed } from './key-names.js';

// Refusals of commands, and faults of files, in a few words.
/** @type {Record<string, string>} */
export const REFUSALS = {
  OnBlock: 'a block is here',
  Occupied: 'a letter is in the way of the block, here or at its image: clear that cell first',
  Border: 'the grid ends there, so there is no edge for a bar',
  NotSquare: 'a quarter turn needs as many rows as columns',
  Size: 'a grid has 1 to 255 rows and columns',
  BadLetter: 'a word has the letters A to Z only',
  Length: 'a word has 2 to 255 letters',
  PlaceLength: 'the word does not have the length of the light',
  Known: 'the word is in the list already',
  Unknown: 'the word is not in the list, or is hidden already',
  Full: 'no more words of this length fit into the list',
  NulByte: 'a text cannot hold a NUL',
  Memory: 'the engine is out of memory; a smaller grid or list may help',
  LineTooLong: 'the line is too long',
  OutOfGrid: 'that cell is outside the grid',
  NoLight: 'there is no such light',
  Alive: 'a word still fits this light',
  Arguments: 'that is not a letter or a word',
  Short: 'the file ends too early',
  Magic: 'this is no .puz file',
  Version: 'this version of .puz is not known: it is none of 1.2, 1.3, 1.4 and 2.0',
  Scrambled: 'the solution of this file is scrambled',
  NoNul: 'a text of the file has no end',
  BadSum: 'a checksum of the file is wrong',
  BadCell: 'the file has a cell that is no letter A to Z',
  ClueCount: 'the file has another number of clues than lights',
  GextSize: 'the file has circles for another size of grid',
  GextSum: 'the checksum of the circles is wrong',
  Header: 'this is no text file of a puzzle',
  Tag: 'the text file lacks a tag where one is due',
  SizeLine: 'the size in the text file is no size',
  GridLine: 'a row of the text file has another length than the grid',
  AcrossCount: 'the text file has another number of clues across than lights',
  DownCount: 'the text file has another number of clues down than lights',
  Barred: 'this format cannot hold bars: save the session instead',
  Field: 'a text cannot be spelled in this format: an empty clue, or one with spaces at an end',
  Circled: 'a text file cannot hold circles: save .puz instead',
  NoCommand: 'this is no session: a line of the file is no command',
  NoWord: 'there is no word that the list can take',
  Engine: 'the engine failed and was started again; the grid is kept',
  Restart: 'the engine was started again',
};

/** @param {string} name */
export const refusalText = (name) => REFUSALS[name] ?? `refused: ${name}`;

// from how many characters on a message has small type, so that it fits into two lines
const LONG = 90;
// the most messages that are listed
const MOST_LISTED_MESSAGES = 50;

// how many messages there were
let count = 0;
/** @type {HTMLElement} */
let line;
/** @type {HTMLElement} */
let toast;
/** @type {HTMLElement} */
let history;
/** @type {HTMLElement} */
let warnings;

// `elements` are the text of the message, the box around it, the list of all, and where warnings are.
/** @param {Record<'line' | 'toast' | 'history' | 'warnings', HTMLElement>} elements */
export function useMessages(elements) {
  ({ line, toast, history, warnings } = elements);
}

// Says a sentence in the terms of the grid; `tone` is '', 'good' or 'bad', or 'busy' for what passes, which is not listed.
/**
 * @param {string} text
 * @param {string} tone
 */
export const say = (text, tone = '') => tell(termed(text), tone, true);

// Says something that has names of files or texts of the puzzle. It begins with one, unless it is a sentence.
/**
 * @param {string} text
 * @param {string} tone
 * @param {boolean} isSentence
 */
export const sayAsIs = (text, tone = '', isSentence = false) => tell(text, tone, isSentence);

/**
 * @param {string} told
 * @param {string} tone
 * @param {boolean} isSentence
 */
function tell(told, tone, isSentence) {
  const text = keyed(told);
  count++;
  line.textContent = text;
  line.dataset.tone = tone;
  line.toggleAttribute('data-sentence', isSentence);
  toast.hidden = !text;
  toast.classList.toggle('long', text.length >= LONG);
  toast.dataset.tone = tone;
  if (!text || tone === 'busy' || dataOf(history.firstElementChild)?.text === text) return;
  const item = document.createElement('li');
  item.dataset.tone = tone;
  item.dataset.text = text;
  const said = Object.assign(document.createElement('span'), { textContent: text });
  said.toggleAttribute('data-sentence', isSentence);
  item.append(Object.assign(document.createElement('time'), { textContent: new Date().toLocaleTimeString(undefined, { hour: '2-digit', minute: '2-digit' }) }), said);
  history.prepend(item);
  while (history.childElementCount > MOST_LISTED_MESSAGES) history.lastElementChild?.remove();
}

/** @param {string} text */
export const refuse = (text) => say(text, 'bad');
/**
 * @param {string} text
 * @param {boolean} isSentence
 */
export const refuseAsIs = (text, isSentence = false) => sayAsIs(text, 'bad', isSentence);

// Says that something failed of which nobody thought.
/** @param {Error} error */
export function unforeseen(error) {
  refuse(`that failed: ${error.message}; the grid is kept`);
  console.error(error);
}

// Whether something can be changed now; says why not.
/** @param {Pick<import('../model/state.js').EditorState, 'fill'>} editor */
export function mayEdit({ fill }) {
  if (fill.isRunning) refuse('a fill is running: Esc stops it');
  return !fill.isRunning;
}

// A function that ends the message that stands now. It does nothing if another one has come since.
export function endingMessage() {
  const now = count;
  return () => now === count && say('');
}

// What is kept at an element.
/** @param {Element | null} element */
const dataOf = (element) => /** @type {HTMLElement | null} */ (element)?.dataset;

// Warnings, which stay until what they warn of is over. Each has a name, and may have a button: { label, title, action }.

/** @param {string} name */
const warningOf = (name) => [...warnings.children].find((warning) => dataOf(warning)?.name === name);

/**
 * @param {string} name
 * @param {string} text
 * @param {{ label: string, title: string, action: () => void } | null} button
 */
export function warn(name, text, button = null) {
  if (warningOf(name)?.firstChild?.nodeValue === text) return;
  endWarning(name);
  const warning = document.createElement('p');
  warning.dataset.name = name;
  warning.append(text);
  if (button) warning.append(Object.assign(document.createElement('button'), { type: 'button', textContent: button.label, title: button.title, onclick: button.action }));
  warnings.append(warning);
}

/** @param {string} name */
export const endWarning = (name) => warningOf(name)?.remove();
