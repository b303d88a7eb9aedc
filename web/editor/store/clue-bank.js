// The bank of clues: those of all puzzles that the browser keeps, by the words that they were written for.
import { bankTable, isClueForBank, timeForBank, titleForBank } from '../formats/bank-table.js';
import { engineText, parseRecord, placeOf, unescapeText } from '../model/record.js';
import { whenIdle } from '../views/idle.js';
import { clearClues, countClues, dropClues, everyClue, keepClues, keptClues, makeBank, storedPuzzles } from './keep.js';

/** @typedef {import('./keep.js').KeptClue} KeptClue */
// What a clue is looked for in: a step of the history, or a session that is kept.
/** @typedef {Pick<import('../model/state.js').Step, 'puzzle' | 'record'> & Partial<import('../model/state.js').Step> & { at?: number }} Sitting */

export class ClueBank {
  /** @type {import('../model/editor.js').Editor} */
  #editor;
  // what this page has put into it
  #known = new Set();

  /** @param {import('../model/editor.js').Editor} editor */
  constructor(editor) {
    this.#editor = editor;
    editor.takes({ bankClues: () => this.#addSoon() });
    editor.on(['written'], () => this.#addSoon());
    editor.on(['left'], ({ changes: { left } }) => left && this.add([left]).catch(() => {}));
  }

  // Adds the clues of the puzzle that is here, but for one that is being typed.
  #addSoon() {
    whenIdle(() => this.add([this.#editor.state], this.#editor.do('unfinishedClue')).catch(() => {}));
  }

  // Makes the bank, with the clues of puzzles that are there already.
  async begin() {
    if (await makeBank()) await this.add(await storedPuzzles());
  }

  // Adds the clues of sessions, but for the named one.
  /**
   * @param {Sitting[]} sessions
   * @param {string} unfinished
   */
  async add(sessions, unfinished = '') {
    const entries = sessions.flatMap((session) => cluesIn(session, unfinished)).filter((entry) => !this.#known.has(keyOf(entry)));
    for (const entry of entries) this.#known.add(keyOf(entry));
    if (entries.length) await keepClues(entries);
  }

  /** @param {string[]} puzzles */
  drop(puzzles) {
    return dropClues(puzzles);
  }

  // What the bank has of a word, but for the clue of the puzzle that is here.
  /**
   * @param {string} word
   * @param {string} clue
   */
  async of(word, clue) {
    const entries = await keptClues(word).catch(() => []);
    return entries.filter((entry) => entry.puzzle !== this.#editor.puzzle || entry.clue !== clue);
  }

  // How many clues it has.
  count() {
    return countClues();
  }

  // All clues, as a table.
  async table() {
    return bankTable(await everyClue());
  }

  // Adds the clues of a table.
  /** @param {KeptClue[]} entries */
  addTable(entries) {
    return keepClues(entries);
  }

  // Takes all clues out. Those of the puzzle that is here come in again when they are changed, or when the page is loaded.
  clear() {
    return clearClues();
  }
}

/** @param {KeptClue} entry */
const keyOf = ({ word, clue, puzzle, title }) => [word, clue, puzzle, title].join('\n');

// The clues of a session that are for words, as they were typed.
/**
 * @param {Sitting} session
 * @param {string} unfinished
 */
export function cluesIn({ puzzle, record, written = [], originals = [], at = Date.now() }, unfinished = '') {
  const state = parseRecord(record);
  const [words, typed] = [new Map(written), new Map(originals)];
  const textOf = (/** @type {string} */ field) => {
    const [text, original] = [unescapeText(state.texts.get(field) ?? ''), typed.get(field)];
    return original !== undefined && engineText(original).near === text ? original : text;
  };
  const title = titleForBank(textOf('title'));
  return [...state.texts.keys()].filter((field) => field.startsWith('clue ') && field !== unfinished).flatMap((field) => {
    const [word, clue] = [words.get(field) ?? wordAt(state, field), textOf(field)];
    return isClueForBank(word, clue) ? [{ word, clue, puzzle, at: timeForBank(at), title }] : [];
  });
}

// The word that stands where a clue is; '' if it is not whole.
/**
 * @param {import('../model/record.js').Said} said
 * @param {string} field
 */
function wordAt({ letters, blocks, bars, width, height }, field) {
  const [, first, direction] = /^clue (\d+ \d+) (\w+)$/.exec(field) ?? ['', '', ''];
  let [row, column] = placeOf(first);
  let word = '';
  while (row <= height && column <= width && !blocks.has(`${row} ${column}`)) {
    const [here, side] = [`${row} ${column}`, direction === 'down' ? 'below' : 'right'];
    if (!letters.has(here)) return '';
    word += letters.get(here);
    if (bars.has(`${here} ${side}`)) break;
    if (side === 'below') row++;
    else column++;
  }
  return word;
}
