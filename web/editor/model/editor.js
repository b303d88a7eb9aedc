// The session: edits go to the engine in order, and each is kept in a history of records.
import { Engine, statusOf } from '../engine/engine.js';
import { whenIdle } from '../views/idle.js';
import { refusalText, refuse } from '../views/messages.js';
import { Board } from './board.js';
import { colourField } from './colours.js';
import { commentsIn } from './comments.js';
import { gradeOf, usualWeak } from './grades.js';
import { LANGUAGE } from './language.js';
import { commentField, linksOf, noteField, numbersOf } from './links.js';
import { entryOf, standing, withoutEntered } from './rebus.js';
import { bodyOf, engineText, letterIn, parseRecord, placeOf, transition } from './record.js';
import { EditorState, NO_REASON, newPuzzleName, only } from './state.js';
import { useTermsOf } from './terms.js';
import { adopted, withoutWords } from './written.js';

/** @typedef {import('./state.js').Step} Step */
/** @typedef {import('./state.js').Place} Place */
/** @typedef {import('../engine/told.js').Direction} Direction */

/** @typedef {import('./board.js').Light} Light */
/** @typedef {import('./board.js').Cell} Cell */
// The word lists that the engine is to open.
/** @typedef {import('../store/lists.js').Lists['chosen'] | import('./state.js').WordList} Chosen */
// A session to begin with, or to put in place of what is here.
/** @typedef {{ record: string } & Partial<Pick<Step, 'pencil' | 'originals' | 'written' | 'puzzle'>>} Session */

/**
 * @typedef {{
 *   isWhole?: boolean, pencil?: Set<string> | null, originals?: Map<string, string> | null, rewritten?: string[], stroke?: object | null, only?: string | null,
 *   at?: Place, to?: Place,
 * }} EditOptions how an edit is made: `Editor.edit` says what each means
 */

const MOST_STEPS = 5000;

export class Editor extends EditorState {
  /** @type {Step[]} */
  #past = [];
  /** @type {Step[]} */
  #future = [];
  #now = this.#state('');
  /** @type {Promise<unknown>} */
  #last = Promise.resolve();
  // for each thing that is not done yet the lines that it sends, or null if it is no edit
  /** @type {(string[] | null)[]} */
  #due = [];
  // what the originals will be after the edits of texts that are not done yet
  /** @type {Map<string, string>[]} */
  #dueOriginals = [];
  // how many things are to be done after the present one, and what ends a wait for an idle page
  #queued = 0;
  /** @type {((value?: undefined) => void) | null} */
  #hurry = null;
  /** @type {Promise<void> | null} */
  #restarting = null;

  /** @param {() => Worker} makeWorker */
  constructor(makeWorker) {
    super();
    this.engine = new Engine(makeWorker, () => this.#restart());
  }

  // Begins with a session, and with its steps, if the browser kept them.
  /**
   * @param {any} module
   * @param {Chosen} list
   * @param {Session} session
   * @param {import('../store/history.js').History | null} history
   */
  async begin(module, list, { record, pencil, puzzle, originals = [], written = [] }, history = null) {
    this.module = module;
    await this.engine.call('load', { bytes: module });
    await this.#open(list, record);
    const words = adopted(this.board, new Map(written), this.record);
    this.hold({ board: this.board, pencil: new Set(pencil), originals: new Map(originals), written: words, puzzle: puzzle ?? this.puzzle });
    this.#now = this.#state(this.record);
    if (history) this.#takeHistory(history);
    this.tell();
  }

  // Takes over the steps that the browser kept. If the session is newer than the last of them, that one comes before it.
  /** @param {import('../store/history.js').History} history */
  #takeHistory({ past, now, future }) {
    const isLast = isSameState(now, this.#now);
    this.#past = isLast ? [...past] : [...past, now];
    this.#future = isLast ? [...future] : [];
    if (isLast) this.#now = { ...this.#now, from: now.from };
  }

  // The steps of the puzzle that is here.
  /** @returns {import('../store/history.js').History} */
  get history() {
    const own = (/** @type {readonly Step[]} */ steps) => steps.slice(steps.map(({ puzzle }) => puzzle === this.#now.puzzle).lastIndexOf(false) + 1);
    return { past: own(this.#past), now: this.#now, future: own(this.#future) };
  }

  // The state as the browser keeps it: with the edits that are under way.
  get state() {
    const end = this.#due.indexOf(null);
    const lines = (end < 0 ? this.#due : this.#due.slice(0, end)).flatMap((some) => some ?? []);
    // a clue that is under way has its word when it is there
    const written = [...this.written].filter(([field]) => !lines.some((line) => line.startsWith(`text ${field} `)));
    return { ...this.#state([this.record, ...lines.map((line) => `${line}\n`)].join('')), originals: [...this.dueOriginals], written };
  }

  // The texts as they were typed, with those of the edits that are under way.
  get dueOriginals() {
    return this.#dueOriginals.at(-1) ?? this.originals;
  }

  get isBusy() {
    return this.#due.length > 0;
  }

  // Whether edits are under way, as where letters come faster than their answers.
  get hasEdits() {
    return this.#due.some(Boolean);
  }

  // Gives the puzzle another name, also in the history, so that another tab's of the same name is not taken for it.
  rename() {
    const [before, name] = [this.puzzle, newPuzzleName()];
    const renamed = (/** @type {Step} */ state) => (state.puzzle === before ? { ...state, puzzle: name } : state);
    [this.#past, this.#future] = [this.#past.map(renamed), this.#future.map(renamed)];
    this.change({ puzzle: name });
    this.#now = { ...this.#now, puzzle: name };
  }

  /**
   * @param {Chosen} list
   * @param {string} record
   */
  async #open(list, record) {
    const { sources, personal, least, threes } = list;
    const opened = await this.engine.call('open', { sources, personal, least, threes, record });
    const { words, scored, best, byGrade, grade, leftOut, folded, asRead } = opened;
    this.hold({ list: { ...list, weak: list.weak ?? usualWeak(best), words, scored, best, byGrade, grade, leftOut, folded, asRead }, record: opened.record });
    this.#takeWhole(opened);
  }

  // After a failure: a new worker, on the list and the last record.
  #restart() {
    this.#restarting ??= this.#startAgain().finally(() => {
      this.#restarting = null;
    });
  }

  async #startAgain() {
    try {
      this.engine.start();
      await this.engine.call('load', { bytes: this.module });
      this.hold({ pencil: new Set(this.#now.pencil) });
      await this.#open(this.list, this.record);
      refuse(refusalText('Engine'));
    } catch {
      refuse('the engine cannot be started; save the session and reload the page');
    }
  }

  // Takes the whole grid as the engine tells it, and what goes with it.
  /** @param {any} told */
  #takeWhole(told) {
    const board = Board.of(told);
    useTermsOf(board);
    const pencil = only(this.pencil, (coordinates) => Boolean(board.at(coordinates)?.letter));
    const chosen = only(this.chosen, (name) => board.byName.has(name));
    this.hold({ board, sym: parseRecord(this.record).sym, pencil, ...(chosen !== this.chosen && { chosen }) });
    if (this.cursor >= board.cells.length) this.hold({ cursor: 0 });
    this.tell();
  }

  /**
   * @param {string} record
   * @returns {Step}
   */
  #state(record) {
    const { puzzle, pencil, originals, written } = this;
    return { puzzle, record, pencil: [...pencil], originals: [...originals], written: [...written], ...this.#place };
  }

  /** @returns {Place} */
  get #place() {
    return { cursor: this.cursor, direction: this.direction };
  }

  // The text of a field (`title` or `clue N DIR`) as it was typed.
  /** @param {string} field */
  textOf(field) {
    const { board } = this;
    const name = field.replace(/^clue /, '');
    const text = board.texts.get(name) ?? '';
    const light = board.byName.get(name);
    const original = this.originals.get(light ? board.clueField(light) : field);
    return original !== undefined && engineText(original).near === text ? original : text;
  }

  // The lights that have one clue, by the first of them, and the first one for each of the others.
  get links() {
    return linksOf(this.board, this.originals);
  }

  // A light with those that its clue goes on in.
  /** @param {Light} light */
  cluedWith(light) {
    return [light, ...(this.links.heads.get(light) ?? [])];
  }

  // What the clue of a light is for: its numbers, and the letters of all its lights.
  /** @param {Light} light */
  cluedBy(light) {
    const [, ...others] = this.cluedWith(light);
    return { numbers: numbersOf(light, others), answer: [light, ...others].map((one) => this.answerOf(one)).join('') };
  }

  // The private note on the clue of a light.
  /** @param {Light} light */
  noteOf(light) {
    return this.originals.get(noteField(this.board, light)) ?? '';
  }

  // The comments on the clue of a light.
  /** @param {Light} light */
  commentsOn(light) {
    return commentsIn(this.originals.get(commentField(this.board, light)) ?? '');
  }

  // The language of the puzzle; '' if it has none.
  get language() {
    return this.originals.get(LANGUAGE) ?? '';
  }

  // The colour of a cell; '' if it has none.
  /** @param {Pick<Cell, 'coordinates' | 'block'>} cell */
  colourOf({ coordinates, block }) {
    return block ? '' : this.originals.get(colourField(coordinates)) ?? '';
  }

  // The letters of a cell; '' if it is empty.
  /** @param {Cell} cell */
  entryOf(cell) {
    return entryOf(cell, this.originals);
  }

  // What is in each cell of a light.
  /** @param {Light} light */
  answerParts(light) {
    return light.cells.map((cell) => this.entryOf(this.board.cells[cell]));
  }

  // The letters of a light, with a dot for an empty cell.
  /** @param {Light} light */
  answerOf(light) {
    return this.answerParts(light).map((entry) => entry || '.').join('');
  }

  // Does one thing after another, each to its end. `lines` are those of an edit.
  /**
   * @template T
   * @param {() => T | Promise<T>} action
   * @param {string[] | null} lines
   * @returns {Promise<T>}
   */
  inOrder(action, lines = null) {
    this.#queued++;
    this.#due.push(lines);
    this.#hurry?.();
    const begun = this.#last.then(() => this.#restarting).then(() => {
      this.#queued--;
      return action();
    });
    const done = begun.finally(() => this.#due.shift());
    this.#last = done.catch(() => {});
    return done;
  }

  // Sends lines as one step of the history. If one is refused, all are taken back, and its name is returned.
  // The answer is shown before the record is read. Edits of one `stroke`, as a drag is, are one step. With `only`, the lines belong to the step
  // before, and are sent only if the record is this one still; else the answer is `Changed`. `rewritten` names the clues that are for other words now.
  // The step is `at` a place, or else at that of the cursor, and the cursor is at `to` after it.
  /**
   * @param {string[]} lines
   * @param {EditOptions} options
   * @returns {Promise<string | null>}
   */
  edit(lines, options = {}) {
    const { at = this.#place, to = at, originals = withoutEntered(this.dueOriginals, lines) } = options;
    if (originals) this.#dueOriginals.push(originals);
    return this.inOrder(async () => {
      try {
        return await this.#edit(lines, { from: at, to }, { ...options, originals });
      } catch (fault) {
        return statusOf(fault) ?? 'Engine';
      } finally {
        if (originals) this.#dueOriginals.shift();
      }
    }, lines);
  }

  /**
   * @param {string[]} lines
   * @param {{ from: Place, to: Place }} places
   * @param {EditOptions} options
   * @returns {Promise<string | null>}
   */
  async #edit(lines, places, { isWhole = true, pencil = null, originals = null, rewritten = [], stroke = null, only = null }) {
    if (only !== null && only !== this.record) return 'Changed';
    const told = await this.engine.call('edit', { lines, isWhole });
    if (told.refusal) {
      this.hold({ pencil: new Set(this.#now.pencil) });
      await this.#goTo(this.record);
      return told.refusal;
    }
    this.#unmark();
    this.hold({ ...(pencil && { pencil }), ...(originals && { originals }) });
    if (isWhole) this.#takeWhole(told);
    else this.#takeLetters(lines, told);
    if (!isWhole) await this.#idle();
    const record = await this.engine.call('record');
    const entries = standing(this.originals, record);
    if (entries !== this.originals) this.hold({ originals: entries });
    this.hold({ record, ...(isWhole && { sym: parseRecord(record).sym }) });
    this.#adopt(withoutWords(this.written, rewritten));
    if (only === null) this.#step(places, stroke);
    else this.#arrive({ ...this.#state(this.record), ...placesOf(this.#now) });
    return null;
  }

  // Waits until the page has drawn, or until there is more to do.
  async #idle() {
    if (this.#queued) return;
    await new Promise((resolve) => {
      this.#hurry = resolve;
      whenIdle(() => resolve(undefined));
    });
    this.#hurry = null;
  }

  /**
   * @param {string[]} lines
   * @param {any} told
   */
  #takeLetters(lines, told) {
    const { board } = this;
    const sent = lines.map(letterIn).map(([coordinates, letter]) => ({ coordinates, letter, index: board.index(...placeOf(coordinates)) }));
    for (const { coordinates } of sent) this.#takeInk(coordinates);
    const letters = new Map(sent.filter(({ coordinates }) => !this.#isTypedOver(coordinates)).map(({ index, letter }) => [index, letter]));
    const left = board.leftIn(told.changed);
    this.holdLetters(board.withLetters(letters, left, told.counts));
    this.change({ letters: { cells: new Set([...sent.map(({ index }) => index), ...left.keys()]), engine: told.engine } });
  }

  // Whether a later edit enters or clears a letter in a cell: that one stays.
  /** @param {string} coordinates */
  #isTypedOver(coordinates) {
    return this.#due.some((lines, at) => at > 0 && lines?.some((line) => line === `clear ${coordinates}` || line.startsWith(`set ${coordinates} `)));
  }

  // A letter that is entered or cleared is in pencil no longer.
  /** @param {string} coordinates */
  #takeInk(coordinates) {
    if (this.pencil.has(coordinates)) this.hold({ pencil: only(this.pencil, (other) => other !== coordinates) });
  }

  // Gives clues that have no word yet those of their lights.
  /** @param {import('./written.js').Written} written */
  #adopt(written) {
    const now = adopted(this.board, written, this.record);
    if (now !== this.written) this.hold({ written: now });
  }

  // the stroke of the last step
  /** @type {object | null} */
  #stroke = null;

  /**
   * @param {{ from: Place, to: Place }} places
   * @param {object | null} stroke
   */
  #step({ from, to }, stroke = null) {
    const now = { ...this.#state(this.record), ...to, from };
    if (isSameState(now, this.#now)) return this.#arrive({ ...now, ...placesOf(this.#now) });
    const isLonger = stroke && stroke === this.#stroke;
    if (!isLonger) this.#past.push(this.#now);
    if (this.#past.length > MOST_STEPS) this.#past.shift();
    this.#future = [];
    this.#stroke = stroke;
    return this.#arrive(isLonger ? { ...now, from: this.#now.from } : now);
  }

  // Tells of a puzzle that is replaced, and then of the step.
  /** @param {Step} now */
  #arrive(now) {
    const before = this.#now;
    this.#now = now;
    if (before.puzzle !== now.puzzle) this.change({ left: before });
    this.change({ step: before });
  }

  // Leads the engine to a record, and checks that it is there. The cursor goes with it to another place, unless it was moved meanwhile.
  /**
   * @param {string} record
   * @param {Place} place
   */
  async #goTo(record, place = this) {
    const { cursor, direction } = this;
    const now = await this.engine.call('record');
    await this.#lead(now, record);
    let after = await this.engine.call('record');
    if (!isSame(after, record)) {
      await this.engine.call('edit', { lines: ['size 1 1'], isWhole: false });
      await this.#lead('size 1 1', record);
      after = await this.engine.call('record');
    }
    const told = await this.engine.call('edit', { lines: [], isWhole: true });
    this.hold({ record: after });
    this.#unmark();
    if (cursor === this.cursor && direction === this.direction) this.hold({ cursor: place.cursor, direction: place.direction });
    this.#takeWhole(told);
  }

  // Sends what leads from one record to another.
  /**
   * @param {string} from
   * @param {string} to
   */
  async #lead(from, to) {
    const regraded = [...parseRecord(from).regraded];
    const grades = regraded.length ? await this.engine.call('listGrades', { words: regraded }) : [];
    const { words, rest } = transition(from, to, (word) => Number(grades[regraded.indexOf(word)]));
    const lines = words.length ? ['least 0', ...words, `least ${this.list.grade}`, ...rest] : rest;
    await this.engine.call('edit', { lines, isWhole: false });
  }

  // What was said of a dead end is over.
  #unmark() {
    if (this.reason !== NO_REASON) this.hold({ reason: NO_REASON });
    if (this.unmatched.size) this.hold({ unmatched: new Set() });
  }

  get canUndo() {
    return this.#past.length > 0;
  }

  get canRedo() {
    return this.#future.length > 0;
  }

  // Goes back to where the cursor was before the last step.
  undo() {
    return this.#move(() => this.#past, () => this.#future, () => this.#now.from);
  }

  // Goes forth to where the cursor was after the next step.
  redo() {
    return this.#move(() => this.#future, () => this.#past, (state) => state);
  }

  // Returns the two steps, or null if there is none to go to. The history is that of the one or of the other at any time.
  /**
   * @param {() => Step[]} from
   * @param {() => Step[]} to
   * @param {(step: Step) => Place | undefined} placeOf
   */
  #move(from, to, placeOf) {
    return this.inOrder(async () => {
      const state = from().at(-1);
      if (!state) return null;
      this.#stroke = null;
      let before = this.#now;
      await this.#take(state, placeOf(state) ?? state, () => {
        before = this.#now;
        to().push(before);
        from().pop();
      });
      return { before, now: this.#now };
    });
  }

  // Goes to a state. `arriving` is called when it is there.
  /**
   * @param {Step} state
   * @param {Place} place
   */
  async #take(state, place, arriving = () => {}) {
    this.hold({ pencil: new Set(state.pencil), originals: new Map(state.originals), written: new Map(state.written) });
    // the board that is here may not have that cell
    await this.#goTo(state.record, place);
    this.hold({ puzzle: state.puzzle, edited: null });
    arriving();
    this.#arrive({ ...state, record: this.record });
  }

  // Goes to another puzzle as one step, such as that of a file.
  /** @param {Session} session */
  replace({ record, pencil = [], originals = [], written = [], puzzle = newPuzzleName() }) {
    this.change({ leaving: true });
    const from = this.#place;
    return this.inOrder(async () => {
      this.hold({ pencil: new Set(pencil), originals: new Map(originals), chosen: new Set() });
      await this.#goTo(record);
      this.hold({ puzzle, cursor: Math.max(0, this.board.cells.findIndex((cell) => !cell.block)), direction: 'across', edited: null });
      this.#adopt(new Map(written));
      this.#step({ from, to: this.#place });
      this.change({ board: this.board });
    });
  }

  // Opens the session anew over another list. Returns the fault if the engine refuses it, or null.
  /**
   * @param {Chosen} list
   * @returns {Promise<any>}
   */
  useList(list) {
    return this.inOrder(async () => {
      const old = this.list;
      try {
        await this.#open(list, this.record);
        this.#now = { ...this.#state(this.record), ...placesOf(this.#now) };
        this.change({ step: undefined });
        return null;
      } catch (fault) {
        this.change({ list: old });
        return fault;
      }
    });
  }

  // Changes what of the lists is no matter of the engine: the score below which words are marked, and whether candidates and fills are apart,
  // and the score at which a raising ends.
  /** @param {{ weak?: number, apart?: boolean, target?: number | null }} changed */
  changeList(changed) {
    this.change({ list: { ...this.list, ...changed }, board: this.board });
  }

  // Chooses the least score of the words in use, which is no step of the history.
  /** @param {number} least */
  useLeast(least) {
    return this.inOrder(async () => {
      const grade = gradeOf(least, this.list.best);
      this.change({ list: { ...this.list, least, grade } });
      const told = await this.engine.call('edit', { lines: [`least ${grade}`], isWhole: true });
      this.#unmark();
      this.#takeWhole(told);
    });
  }

  // Takes back what lines did that are no step of the history, such as an unfinished fill.
  restore() {
    return this.inOrder(() => this.#take(this.#now, this));
  }

  /**
   * @param {ReadonlySet<string>} pencil
   * @param {object | null} stroke
   */
  setPencil(pencil, stroke = null) {
    const place = this.#place;
    return this.inOrder(() => {
      this.change({ pencil, board: this.board });
      this.#step({ from: place, to: place }, stroke);
    });
  }

  // Says that the clue of a light is for the word that stands there, or for the next one that does.
  /** @param {Light} light */
  keepClue(light) {
    const place = { cursor: light.cells[0], direction: light.direction };
    return this.inOrder(() => {
      this.#adopt(withoutWords(this.written, [this.board.clueField(light)]));
      this.#step({ from: place, to: place });
    });
  }

  // The cell and its images under the symmetry, as the engine toggles a block there.
  /**
   * @param {number} index
   * @returns {Promise<import('./board.js').Cell[]>}
   */
  async orbit(index) {
    const { board: { width, height, cells }, sym } = this;
    const found = await this.engine.call('orbit', { width, height, sym, coordinates: cells[index].coordinates });
    return found.flatMap((/** @type {string} */ coordinates) => this.board.at(coordinates) ?? []);
  }

  // What a query answers; null where it is refused.
  /**
   * @template {keyof import('../../xw.js').Answers} C
   * @param {C} command
   * @param {import('../../xw.js').Arguments[C]} given
   * @returns {Promise<import('../../xw.js').Answers[C] | null>}
   */
  ask(command, ...given) {
    return this.engine.call('ask', { command, given });
  }

  get light() {
    const cell = this.board.cells[this.cursor];
    return cell?.[this.direction] ?? null;
  }

  get crossing() {
    const cell = this.board.cells[this.cursor];
    return cell?.[this.direction === 'across' ? 'down' : 'across'] ?? null;
  }

  // The coordinates of the letters in pencil of the lights that cross a light, or of the named ones.
  /**
   * @param {Light} light
   * @param {readonly string[]} names
   */
  pencilledAcross(light, names) {
    const { board, pencil } = this;
    const crossing = light.cells.flatMap((cell) => board.through(cell)).filter((one) => one !== light && (!names.length || names.includes(one.name)));
    const cells = new Set(crossing.flatMap((one) => one.cells).filter((cell) => !light.cells.includes(cell)));
    return [...cells].map((cell) => board.cells[cell]).filter((cell) => cell.letter && pencil.has(cell.coordinates)).map((cell) => cell.coordinates);
  }

  /** @param {number} index */
  moveTo(index, direction = this.direction) {
    this.change(this.placed(index, direction));
  }

  // The cursor in a cell, in the direction of a light there.
  /**
   * @param {number} cursor
   * @returns {Place}
   */
  placed(cursor, direction = this.direction) {
    const cell = this.board.cells[cursor];
    const other = direction === 'across' ? 'down' : 'across';
    return { cursor, direction: !cell[direction] && cell[other] ? other : direction };
  }

  // Enters a letter ahead of the engine, or none, and moves the cursor to a place. The next transaction tells it.
  /**
   * @param {number} index
   * @param {string} letter
   * @param {Place} place
   */
  enter(index, letter, place) {
    this.hold({ edited: { cell: index, direction: this.direction } });
    this.#takeInk(this.board.cells[index].coordinates);
    this.holdLetters(this.board.withLetters(new Map([[index, letter]])));
    this.hold(place);
  }
}

// The places of a step.
/** @param {Step} step */
const placesOf = ({ cursor, direction, from }) => ({ cursor, direction, from });

// Whether two steps differ in their places alone.
/**
 * @param {Step} one
 * @param {Step} other
 */
const isSameState = (one, other) => /** @type {const} */ (['record', 'pencil', 'originals', 'written']).every((part) => String(one[part]) === String(other[part] ?? ''));

/**
 * @param {string} one
 * @param {string} other
 */
const isSame = (one, other) => bodyOf(one).join('\n') === bodyOf(other).join('\n');
