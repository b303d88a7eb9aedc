// What the user changes, and what is said of it.
import { changeBeside } from '../model/changed.js';
import { colourField } from '../model/colours.js';
import { enumerated } from '../model/enumeration.js';
import { LANGUAGE } from '../model/language.js';
import { commentField, isReference, linkField, linkedTo, namedLights, noteField, referenceTo, spelledLink } from '../model/links.js';
import { hasItalics } from '../model/marks.js';
import { cellField } from '../model/rebus.js';
import { engineText, escapeText, strangeCharacter, textLines } from '../model/record.js';
import { endingMessage, mayEdit, refusalText, refuse, say, sayAsIs } from './messages.js';
import { $ } from './page.js';
import { titleOf } from './words.js';

/** @typedef {import('../model/board.js').Light} Light */
/** @typedef {import('../model/state.js').Pair} Pair */
/** @typedef {import('../model/state.js').Step} Step */
/** @typedef {import('../engine/told.js').Direction} Direction */
/** @typedef {import('../model/editor.js').EditOptions} EditOptions */

export class Edits {
  /** @type {import('../model/editor.js').Editor} */
  #editor;

  /** @param {import('../model/editor.js').Editor} editor */
  constructor(editor) {
    this.#editor = editor;
  }

  // Sends lines as one step; returns what they are refused for, or null.
  /**
   * @param {string[]} lines
   * @param {EditOptions & { isBlock?: boolean }} options
   * @returns {Promise<string | null>}
   */
  async edit(lines, options = {}) {
    if (!mayEdit(this.#editor)) return 'Filling';
    const endMessage = endingMessage();
    const clued = this.#cluesAt(lines);
    const refused = await this.#editor.edit(lines, options);
    if (!refused) {
      this.#tellHidden(clued);
      if (clued.size) await this.#renumber();
      if (options.isWhole !== false || $('status').dataset.tone === 'bad') endMessage();
      // of several letters the last one tells
      if (!this.#editor.hasEdits) this.#editor.do('findDeadEnds');
      return null;
    }
    // what the page showed before the engine answered is taken back; after a failure the restart says so
    if (refused === 'Engine' || refused === 'Restart') return refused;
    // a block over letters is another thing to try
    if (!(options.isBlock && refused === 'Occupied')) refuse(refusalText(refused));
    return refused;
  }

  // The lights with clues before lines that change blocks or bars, by the names that records have for the clues.
  /** @param {string[]} lines */
  #cluesAt(lines) {
    const { board } = this.#editor;
    const isOfGrid = lines.some((line) => /^(block|bar) /.test(line));
    return isOfGrid ? new Map(board.lights.filter((light) => board.hasClue(light)).map((light) => [board.clueField(light), titleOf(light)])) : new Map();
  }

  // Says which clues have no light any more. They are kept for it.
  /** @param {Map<string, string>} clued */
  #tellHidden(clued) {
    if (!clued.size) return;
    const { board } = this.#editor;
    const there = new Set(board.lights.map((light) => board.clueField(light)));
    const [first, ...others] = [...clued].filter(([field]) => !there.has(field)).map(([, title]) => title);
    if (!first) return;
    const hidden = others.length ? `${others.length + 1} clues are hidden, since their lights are gone` : `the clue of ${first} is hidden, since its light is gone`;
    refuse(`${hidden}: undo brings ${others.length ? 'them' : 'it'} back`);
  }

  // The clues of linked lights name the number of the first one, which blocks and bars may change.
  async #renumber() {
    const editor = this.#editor;
    const { board } = editor;
    const isOther = (/** @type {[Light, Light]} */ [light, head]) => isReference(editor.textOf(`clue ${light.name}`)) && editor.textOf(`clue ${light.name}`) !== referenceTo(light, head);
    const others = [...editor.links.headOf].filter(isOther);
    const lines = others.flatMap(([light, head]) => textLines(board.clueField(light), referenceTo(light, head)));
    if (lines.length) await editor.edit(lines, { only: editor.record });
  }

  // Enters letters into a cell: several, of which the engine gets the first, one, or none.
  /**
   * @param {number} index
   * @param {string} typed
   */
  async enter(index, typed) {
    const editor = this.#editor;
    const cell = editor.board.cells[index];
    const entry = typed.normalize('NFD').replace(/[^A-Za-z]/g, '').toUpperCase();
    if (typed.trim() && !entry) return refuse('a cell has letters from A to Z');
    const originals = new Map(editor.dueOriginals);
    originals.delete(cellField(cell.coordinates));
    if (entry.length > 1) originals.set(cellField(cell.coordinates), entry);
    const pencil = new Set([...editor.pencil].filter((other) => other !== cell.coordinates));
    const lines = entry[0] === cell.letter ? [] : [entry ? `set ${cell.coordinates} ${entry[0]}` : `clear ${cell.coordinates}`];
    if (cell.letter || entry) await this.edit(lines, { originals, pencil });
    return undefined;
  }

  // Sets a text; returns what it is refused for, or null. Edits of one `stroke` are one step.
  /**
   * @param {string} field
   * @param {string} typed
   * @param {object | null} stroke
   */
  async text(field, typed, stroke = null) {
    const refused = await this.#texts([[field, typed]], [], stroke);
    const { near, count } = engineText(typed);
    if (!refused && count) sayAsIs(`“${strangeCharacter(typed)}” stays here and in .ipuz; a .puz gets: ${near}`);
    return refused;
  }

  // Sets the texts of fields in one step, and with them what is kept beside those, by field; '' takes it away. The engine gets near characters for those
  // that it cannot keep, and no italics.
  /**
   * @param {Pair[]} texts
   * @param {Pair[]} beside
   * @param {object | null} stroke
   */
  #texts(texts, beside = [], stroke = null) {
    const originals = this.#beside(beside);
    const rewritten = texts.filter(([field, typed]) => this.#isRewritten(field, typed)).map(([field]) => field);
    const light = texts.length === 1 ? this.#lightOf(texts[0][0]) : null;
    const lines = texts.flatMap(([field, typed]) => {
      const { near, count } = engineText(typed);
      if (count || hasItalics(typed)) originals.set(field, typed);
      else originals.delete(field);
      return textLines(field, escapeText(near));
    });
    return this.edit(lines, { originals, rewritten, stroke, ...(light && { at: { cursor: light.cells[0], direction: light.direction } }) });
  }

  // The light of a clue, by the name that records have for it; or null.
  /** @param {string} field */
  #lightOf(field) {
    const [, row, column, direction] = field.split(' ');
    return (direction && this.#editor.board.at(`${row} ${column}`)?.[/** @type {Direction} */ (direction)]) || null;
  }

  // Whether a clue says something else than before: a length at its end says nothing of another word.
  /**
   * @param {string} field
   * @param {string} typed
   */
  #isRewritten(field, typed) {
    const light = this.#lightOf(field);
    const said = (/** @type {string} */ text) => enumerated(text, 0).text.trim();
    return light !== null && said(typed) !== said(this.#editor.textOf(`clue ${light.name}`));
  }

  // Keeps the clue of a light for the word that is there now.
  /** @param {Light} light */
  async keepClue(light) {
    if (mayEdit(this.#editor)) await this.#editor.keepClue(light);
  }

  // Gives a light another clue, or none.
  /**
   * @param {Light} light
   * @param {string} clue
   */
  useClue(light, clue) {
    return this.#texts([[this.#editor.board.clueField(light), clue]]);
  }

  // Takes over clues and private notes of lights, such as those of a table, in one step; null stands for one that stays. Returns what that is refused for, or
  // null.
  /** @param {import('../formats/clue-table.js').Change[]} changes */
  takeClues(changes) {
    const { board } = this.#editor;
    const texts = changes.flatMap(({ light, clue }) => (clue === null ? [] : [pairOf(board.clueField(light), clue)]));
    const notes = changes.flatMap(({ light, note }) => (note === null ? [] : [pairOf(noteField(board, light), note)]));
    return this.#texts(texts, notes);
  }

  // Keeps a private note on the clue of a light; or none. Edits of one `stroke` are one step.
  /**
   * @param {Light} light
   * @param {string} text
   * @param {object | null} stroke
   */
  note(light, text, stroke = null) {
    return this.#keepBeside(noteField(this.#editor.board, light), light, text, stroke);
  }

  // Keeps comments on the clue of a light, or none, in one step.
  /**
   * @param {Light} light
   * @param {string} text
   */
  comments(light, text) {
    return this.#keepBeside(commentField(this.#editor.board, light), light, text, null);
  }

  // Takes over comments on several clues, by the names that they are kept under, in one step. Returns what that is refused for, or null.
  /** @param {Pair[]} texts */
  takeComments(texts) {
    return this.edit([], { originals: this.#beside(texts) });
  }

  /**
   * @param {string} field
   * @param {Light} light
   * @param {string} text
   * @param {object | null} stroke
   */
  #keepBeside(field, light, text, stroke) {
    return this.edit([], { originals: this.#beside([[field, text]]), stroke, at: { cursor: light.cells[0], direction: light.direction } });
  }

  // Has the clue of a light go on in those that a text names, whose clues lead to it; or in none. Returns what that is refused for, or null.
  /**
   * @param {Light} light
   * @param {string} text
   * @param {object | null} stroke
   */
  async link(light, text, stroke = null) {
    const editor = this.#editor;
    const { board, originals, links } = editor;
    const { lights, fault } = namedLights(board, light, text);
    const before = linkedTo(board, light, originals);
    const taken = [light, ...lights].find((one) => (one !== light && links.heads.has(one)) || (links.headOf.get(one) ?? light) !== light);
    if (fault) return this.#refuseLink(`no other light is called ${fault}: name lights such as 17, 4 down`);
    if (taken) return this.#refuseLink(`${titleOf(taken)} is linked to other lights already`);
    const gone = before.filter((one) => !lights.includes(one) && isReference(editor.textOf(`clue ${one.name}`)));
    const texts = [...gone.map((one) => pairOf(board.clueField(one), '')), ...lights.map((one) => pairOf(board.clueField(one), referenceTo(one, light)))];
    return this.#texts(texts, [[linkField(board, light), spelledLink(board, lights)]], stroke);
  }

  /** @param {string} text */
  #refuseLink(text) {
    refuse(text);
    return 'Link';
  }

  // Gives a cell a colour, or takes it away.
  /**
   * @param {number} index
   * @param {string} colour
   * @param {object | null} stroke
   */
  colour(index, colour, stroke = null) {
    const { coordinates } = this.#editor.board.cells[index];
    return this.edit([], { originals: this.#beside([[colourField(coordinates), colour]]), stroke });
  }

  // Gives the puzzle a language, or none.
  /** @param {string} code */
  language(code) {
    return this.edit([], { originals: this.#beside([[LANGUAGE, code]]) });
  }

  // What is kept beside the record, with other texts by field; '' takes one away.
  /** @param {Pair[]} texts */
  #beside(texts) {
    const originals = new Map(this.#editor.dueOriginals);
    for (const [field, text] of texts) {
      if (text) originals.set(field, text);
      else originals.delete(field);
    }
    return originals;
  }

  // Gives clues lengths; so many others have none, since no list shows how their answers part.
  /**
   * @param {Pair[]} texts
   * @param {number} left
   */
  async addLengths(texts, left) {
    if (texts.length && (await this.#texts(texts))) return;
    const told = texts.length ? `${texts.length} ${texts.length === 1 ? 'clue has' : 'clues have'} a length now` : 'no clue has got a length';
    const why = `no list shows whether ${left === 1 ? 'its answer is' : 'their answers are'} one word`;
    say(left ? `${told}; ${left} ${left === 1 ? 'is' : 'are'} left to you: ${why}` : told, texts.length ? 'good' : '');
  }

  // Places a word in a light of the cursor. `needs` names the crossing lights whose letters in pencil are in its way, if there are some: those
  // letters are cleared, or with no name those of all crossing lights.
  /**
   * @param {string} word
   * @param {string[] | null} needs
   * @param {Light | null} light
   * @returns {Promise<string | null>}
   */
  async place(word, needs = null, light = this.#editor.light) {
    const editor = this.#editor;
    const { board } = editor;
    if (!light) return 'NoLight';
    editor.change({ edited: { cell: editor.cursor, direction: light.direction } });
    const cells = light.cells.filter((index, at) => board.cells[index].letter !== word[at]).map((index) => board.cells[index].coordinates);
    const pencil = new Set([...editor.pencil].filter((cell) => !cells.includes(cell)));
    const cleared = needs ? editor.pencilledAcross(light, needs) : [];
    const refused = await this.edit([...cleared.map((cell) => `clear ${cell}`), `place ${light.name} ${word}`], { pencil });
    if (!refused && cleared.length) say(`${word} is entered; ${cleared.length} letters in pencil that crossed it are cleared: fill again (Ctrl F)`);
    return refused;
  }

  /** @param {string} word */
  async strike(word) {
    if (!(await this.edit([`strike ${word}`]))) say(`${word} is hidden in this puzzle; undo takes it back`, 'good');
  }

  /** @param {string} word */
  async add(word) {
    if (!(await this.edit([`add ${word}`]))) say(`${word} is added to this puzzle`, 'good');
    this.#editor.do('toGrid');
  }

  // Goes a step of the history back, or forth.
  /** @param {boolean} isBack */
  async step(isBack) {
    if (!mayEdit(this.#editor)) return;
    const endMessage = endingMessage();
    const done = await (isBack ? this.#editor.undo() : this.#editor.redo());
    if (!done) return say(isBack ? 'there is nothing to undo' : 'there is nothing to redo');
    endMessage();
    this.#showChange(done, isBack);
    this.#editor.do('findDeadEnds');
  }

  // Shows the tab of a step that changes nothing in the grid, and says what it changes.
  /**
   * @param {{ before: Step, now: Step }} steps
   * @param {boolean} isBack
   */
  #showChange({ before, now }, isBack) {
    const { board } = this.#editor;
    const titled = (/** @type {string} */ coordinates, /** @type {string} */ direction) => {
      const light = board.at(coordinates)?.[/** @type {Direction} */ (direction)];
      return light ? titleOf(light) : 'a light that is gone';
    };
    const change = changeBeside(before, now, titled);
    if (!change) return;
    if (change.tab) this.#editor.do('showTab', change.tab);
    say(`${isBack ? 'undone' : 'done again'}: ${change.text}`);
  }
}

/**
 * @param {string} field
 * @param {string} text
 * @returns {Pair}
 */
const pairOf = (field, text) => [field, text];
