// The tab of words: the candidates of the light under the cursor, or of the one that crosses it, and the letters of its cell.
import { statusOf } from '../engine/engine.js';
import { unpacked } from '../engine/told.js';
import { OWN } from '../formats/joined-lists.js';
import { filtered } from '../model/filter.js';
import { UNSCORED, scoreOf } from '../model/grades.js';
import { Kin } from '../model/kin.js';
import { termed } from '../model/terms.js';
import { onceIdle, whenIdle } from './idle.js';
import { refuse, refusalText } from './messages.js';
import { pressed, put } from './page.js';
import { Roving } from './roving.js';

// The most candidates that are listed, those of them that are listed at once, and the most words that are counted in one call.
const MOST_LISTED = 200;
const FIRST_LISTED = 60;
const MOST_COUNTED = 16;
const MOST_PROBED = 8;
// how many words are counted at most where dead ends make room for others
const MOST_SUNK = 400;
// into how many steps the best score of a list is parted, by which a word is graded again
const STEPS = 10;
// how long the cursor rests before words are asked for, and how long they may take before the old ones are dimmed, in milliseconds
const REST = 40;
const LATE = 250;
// how often counts are shown while more come, in milliseconds
const SHOWN_EACH = 150;
// how long the first candidates stand alone, in milliseconds
const ALONE = 400;

/** @typedef {import('../model/board.js').Light} Light */
/** @typedef {import('../engine/told.js').Answers} Answers */
/** @typedef {number | 'done'} Left the fewest words that a light has after a word, or that this fills the grid */
/** @typedef {HTMLLIElement & { parts: Record<'name' | 'score' | 'from' | 'worse' | 'better' | 'left' | 'strike', HTMLElement> }} Row */
/**
 * @typedef {Record<'name' | 'summary' | 'list' | 'legend', HTMLElement> & Partial<Record<'spelled' | 'letters' | 'coordinates', HTMLElement>> & {
 *   filter?: HTMLInputElement, order?: HTMLSelectElement,
 * }} Elements
 */

export class WordsView {
  /** @type {import('../model/editor.js').Editor} */
  #editor;
  #elements;
  #edits;
  #of;
  #isShown;
  #timer = 0;
  #countTimer = 0;
  #lateTimer = 0;
  #restTimer = 0;
  // rises with each change, so that late answers are dropped; the last one whose words are listed
  #turn = 0;
  #answered = 0;
  // the name of the light whose candidates are shown
  #listed = '';
  // the cell whose letters are shown, by index
  #lettered = -1;
  // elements that are used again: boxes of the light's letters, rows of candidates, buttons of letters
  /** @type {HTMLElement[]} */
  #boxes = [];
  /** @type {Row[]} */
  #rows = [];
  /** @type {HTMLElement[]} */
  #buttons = [];
  // the words that are listed, and whether their counts are under way
  /** @type {string[]} */
  shown = [];
  #isCounting = false;
  /** @type {string[]} */
  #words = [];
  /** @type {Map<string, number | null>} */
  #scores = new Map();
  // the place of the list that a word is from, if there are several
  /** @type {Map<string, number>} */
  #places = new Map();
  /** @type {Map<string, Left>} */
  #left = new Map();
  // for a word of an entered light that needs other words changed, the names of their lights
  /** @type {Map<string, string[]>} */
  #needs = new Map();
  #at = -1;
  #isDead = false;
  #isStanding = false;
  // the word under the pointer, and what the grid shows in ghost letters; or ''
  #hovered = '';
  #ghost = '';
  // rises with each change of the grid, and what the counts are for: a move within a light leaves them
  #version = 0;
  #counted = '';
  // whether words that sank are listed where they were, since the pointer is on the list
  #isLate = false;
  /** @type {Roving | null} */
  #roving = null;

  // `elements` may lack the filter with its order, and the letters: a list alone. `of` tells whose words are listed, that under the cursor or the one that
  // crosses it, and `isShown` whether they are.
  /**
   * @param {import('../model/editor.js').Editor} editor
   * @param {Elements} elements
   * @param {import('./edits.js').Edits} edits
   * @param {'light' | 'crossing'} of
   * @param {() => boolean} isShown
   */
  constructor(editor, elements, edits, of, isShown = () => true) {
    this.#editor = editor;
    this.#elements = elements;
    this.#edits = edits;
    this.#of = of;
    this.#isShown = isShown;
    editor.on(['left'], () => this.clearFilter());
    editor.on(['board', 'letters'], () => {
      this.#version++;
    });
    editor.on(['board', 'letters', 'cursor'], () => this.soon());
    elements.list.addEventListener('click', (event) => this.#click(event));
    elements.list.addEventListener('scroll', () => !this.#isDead && this.#countSoon());
    elements.list.addEventListener('pointermove', (event) => this.#hover(event));
    elements.list.addEventListener('pointerleave', () => this.#leave());
    if (elements.filter && elements.order) this.#takeFilter(elements.filter, elements.order);
    if (elements.letters) this.#takeLetters(elements.letters);
  }

  /**
   * @param {HTMLInputElement} filter
   * @param {HTMLSelectElement} order
   */
  #takeFilter(filter, order) {
    filter.addEventListener('input', () => this.#list());
    filter.addEventListener('keydown', (event) => this.#key(event));
    filter.addEventListener('focus', () => this.#showGhost());
    filter.addEventListener('blur', () => this.#showGhost(this.#hovered));
    order.addEventListener('change', () => this.#list());
  }

  /** @param {HTMLElement} letters */
  #takeLetters(letters) {
    this.#roving = new Roving(letters);
    letters.addEventListener('click', (event) => {
      const letter = pressed(event, 'button')?.dataset.letter;
      if (letter && this.#lettered === this.#editor.cursor) this.#editor.do('enterLetter', letter);
    });
  }

  clearFilter() {
    if (this.#elements.filter) this.#elements.filter.value = '';
  }

  get #filtered() {
    return this.#elements.filter?.value ?? '';
  }

  get #order() {
    return this.#elements.order?.value ?? 'list';
  }

  get #light() {
    return this.#editor[this.#of];
  }

  // Asks anew for what is listed.
  soon() {
    this.#hovered = '';
    this.#showGhost('');
    if (!this.#isShown()) return;
    this.#turn++;
    clearTimeout(this.#timer);
    this.#timer = window.setTimeout(() => whenIdle(() => this.#ask(this.#turn)), REST);
    this.#showBusy();
    this.#headSoon();
  }

  #headSoon = onceIdle(() => this.#head());

  // The name of the light, and its letters. The candidates of another light stay until those of this one come, but cannot be chosen.
  #head() {
    const { board, cursor } = this.#editor;
    const light = this.#light;
    const { name, spelled } = this.#elements;
    setText(name, light ? titleOf(light) : board.cells[cursor]?.block ? 'A block' : 'No light');
    if (!spelled) return;
    fit(spelled, this.#boxes, light?.cells.length ?? 0, makeBox);
    light?.cells.forEach((index, at) => this.#box(this.#boxes[at], index));
  }

  #showBusy() {
    const { list, letters } = this.#elements;
    const isOther = Boolean(letters) && this.#editor.cursor !== this.#lettered;
    list.setAttribute('aria-busy', String(!this.#isCurrent || this.#answered !== this.#turn));
    letters?.setAttribute('aria-busy', String(isOther));
    clearTimeout(this.#lateTimer);
    if (isOther || !this.#isCurrent) this.#lateTimer = window.setTimeout(() => this.#dim(), LATE);
    else this.#dim();
  }

  #dim() {
    this.#elements.list.classList.toggle('late', !this.#isCurrent);
    this.#elements.letters?.classList.toggle('late', this.#editor.cursor !== this.#lettered);
  }

  // Whether what is listed is that of the light under the cursor.
  get #isCurrent() {
    return (this.#light?.name ?? '') === this.#listed;
  }

  /**
   * @param {HTMLElement} box
   * @param {number} index
   */
  #box(box, index) {
    const cell = this.#editor.board.cells[index];
    const names = [];
    if (!cell.letter) names.push(cell.left.length === 1 ? 'only' : 'empty');
    if (index === this.#editor.cursor) names.push('here');
    setText(box, cell.letter || (cell.left.length === 1 ? cell.left : '·'));
    setClass(box, names.join(' '));
  }

  /** @param {number} turn */
  async #ask(turn) {
    const editor = this.#editor;
    const light = this.#light;
    try {
      if (!light) {
        this.#left = new Map();
        this.#take(turn, []);
        await this.#askLetters(turn);
        return;
      }
      this.#isStanding = editor.board.isEntered(light);
      if (this.#isStanding) {
        await this.#askAlternatives(turn, light);
        return;
      }
      const { words, ...known } = await editor.engine.call('words', { light: light.name });
      if (turn !== this.#turn) return;
      const isDead = editor.board.countOf(light) === 0;
      const told = isDead ? await this.#matches(light) : unpacked(words);
      if (turn !== this.#turn) return;
      this.#keepCounts(light);
      this.#isDead = isDead;
      this.#isCounting = !isDead && told.length > 0;
      this.#take(turn, told, known);
      await this.#askLetters(turn);
      if (!isDead) await this.#count(turn, light);
    } catch (fault) {
      if (!statusOf(fault)) throw fault;
    }
  }

  // For an entered light: the words that fit what crosses it, and those that would if the letters in pencil were changed.
  /**
   * @param {number} turn
   * @param {Light} light
   */
  async #askAlternatives(turn, light) {
    /** @type {{ fit: string[], others: { word: string, needs: string[] }[] } & Partial<ReturnType<typeof import('../engine/session.js').knownOf>>} */
    const { fit, others, ...known } = await this.#editor.engine.call('alternatives', { light: light.name, pencil: [...this.#editor.pencil] });
    if (turn !== this.#turn) return;
    this.#left = new Map();
    this.#counted = '';
    this.#isDead = false;
    this.#isCounting = fit.length + others.length > 0;
    this.#needs = new Map(others.map(({ word, needs }) => [word, needs]));
    this.#take(turn, [...fit, ...this.#needs.keys()], known);
    await this.#askLetters(turn);
    await this.#probe(turn, light);
  }

  // Keeps what words leave, as long as they are of the same light in the same grid.
  /** @param {Light} light */
  #keepCounts(light) {
    const counted = `${light.name} ${this.#version}`;
    if (counted !== this.#counted) this.#left = new Map();
    this.#counted = counted;
  }

  // In a dead end: the words that agree with the letters of the light alone.
  /** @param {Light} light */
  async #matches(light) {
    return (await this.#editor.ask('match', this.#editor.board.spell(light))) ?? [];
  }

  // `scores` and `places` have what is known of the words, if anything is.
  /**
   * @param {number} turn
   * @param {string[]} words
   * @param {{ scores?: (number | null)[] | null, places?: (number | null)[] | null }} known
   */
  #take(turn, words, { scores = null, places = null } = {}) {
    const pointed = this.#isCurrent ? this.#pointed : '';
    this.#answered = turn;
    this.#isLate = false;
    if (!this.#isStanding) this.#needs = new Map();
    this.#listed = this.#light?.name ?? '';
    this.#words = this.#apart(words);
    this.#scores = new Map(scores ? words.map((word, at) => [word, scores[at]]) : []);
    const placed = words.map((word, at) => /** @type {[string, number]} */ ([word, places?.[at] ?? NaN]));
    this.#places = new Map(placed.filter(([, place]) => !Number.isNaN(place)));
    this.#at = -1;
    this.#elements.list.scrollTop = 0;
    this.#list();
    if (pointed) this.#pointAt(pointed);
  }

  // The words that are close to none of the other lights, if that is wanted.
  /** @param {string[]} words */
  #apart(words) {
    const { board, list } = this.#editor;
    if (!list.apart) return words;
    const kin = new Kin();
    for (const light of board.lights) if (light.name !== this.#light?.name && board.isEntered(light)) kin.add(this.#editor.answerOf(light), light);
    return words.filter((word) => !kin.closeTo(word));
  }

  // Dead ends come last, but for the word that keys point at, which stays where it is.
  #ordered() {
    const words = this.#inOrder();
    const dead = new Set([...this.#left].filter(([word, left]) => left === 0 && word !== this.#pointed).map(([word]) => word));
    return dead.size ? [...words.filter((word) => !dead.has(word)), ...words.filter((word) => dead.has(word))] : words;
  }

  #inOrder() {
    const words = filtered(this.#words, this.#filtered);
    if (this.#order === 'abc') return [...words].sort();
    if (this.#order !== 'left') return words;
    const rank = (/** @type {string} */ word) => {
      const left = this.#left.get(word);
      return left === 'done' ? Number.MAX_VALUE : left ?? -1;
    };
    // words that need others changed come last
    const isNeedy = (/** @type {string} */ word) => Number(this.#needs.has(word));
    return [...words].sort((a, b) => isNeedy(a) - isNeedy(b) || rank(b) - rank(a));
  }

  #list() {
    const words = this.#ordered();
    const { list, legend } = this.#elements;
    this.shown = words.slice(0, MOST_LISTED);
    if (this.#at >= this.shown.length) this.#at = -1;
    this.#fillRows(FIRST_LISTED);
    clearTimeout(this.#restTimer);
    this.#restTimer = window.setTimeout(() => whenIdle(() => this.#fillRows(MOST_LISTED)), ALONE);
    list.hidden = !words.length && this.#isCurrent;
    // a column has room for a word
    list.style.setProperty('--letters', String(this.shown[0]?.length ?? 0));
    list.classList.toggle('dead-end', this.#isDead);
    list.classList.toggle('alternatives', this.#isStanding && this.#needs.size > 0);
    list.classList.toggle('scored', this.#scores.size > 0);
    list.classList.toggle('several', this.#places.size > 0);
    this.#showBusy();
    setText(legend, this.#legend());
    this.#summary(words.length);
    this.#point();
    if (this.#filtered && !this.#isDead) this.#countSoon();
  }

  // Fills the rows of the first words.
  /** @param {number} most */
  #fillRows(most) {
    const words = this.shown.slice(0, most);
    const { list } = this.#elements;
    fit(list, this.#rows, words.length, (at) => makeRow(`${list.id}-${at}`));
    words.forEach((word, at) => this.#fillRow(this.#rows[at], word));
  }

  #legend() {
    if (!this.#words.length) return this.#isStanding && this.#light ? 'no other word of your lists fits here' : '';
    if (!this.shown.length) return 'no word passes the filter; Esc in it clears it';
    if (this.#isCounting) return 'counting what each word leaves …';
    if (this.#isStanding) return this.#standingLegend();
    if (this.#isDead) return 'these agree with the letters of this light alone';
    return this.#numbersLegend;
  }

  // For a light that is entered.
  #standingLegend() {
    const alive = this.shown.filter((word) => this.#left.get(word) !== 0);
    if (!alive.length) return 'each of these leaves another light without a word';
    if (alive.some((word) => this.#needs.has(word))) return 'beside a word: the crossing words that it changes';
    if (alive.every((word) => this.#left.get(word) === 'done')) return 'these fit the crossing words as they stand';
    return this.#numbersLegend;
  }

  get #numbersLegend() {
    if (this.#places.size) return 'the numbers: score, list in the tab Puzzle, and words left to the tightest light after it';
    return this.#scores.size ? 'the numbers: score, and words left to the tightest light after it' : 'the number: words left to the tightest light after it';
  }

  /** @param {number} count */
  #summary(count) {
    const all = this.#words.length;
    let text = all === 1 ? '1 word' : `${all.toLocaleString('en')} words`;
    if (!this.#light) text = '';
    else if (this.#isStanding && !this.#filtered) text = alternativesText(all - this.#needs.size, this.#needs.size);
    else if (this.#isDead) text = 'no word is left';
    else if (this.#filtered) text = `${count} of ${all} words`;
    setText(this.#elements.summary, text);
  }

  /**
   * @param {Row} row
   * @param {string} word
   */
  #fillRow(row, word) {
    const { name, score, from } = row.parts;
    row.dataset.word = word;
    setText(name, word);
    setText(score, this.#scores.get(word) ?? '');
    const place = this.#places.get(word) ?? null;
    setText(from, place === OWN ? 'M' : place ?? '');
    put(from, 'title', place === null ? '' : `from ${this.#editor.list.sources[place - 1]?.name ?? 'My words'}`);
    this.#fillLeft(row, word);
  }

  // What a word leaves, or a mark where it is not counted yet.
  /**
   * @param {Row} row
   * @param {string} word
   */
  #fillLeft(row, word) {
    const left = this.#left.get(word);
    const needs = this.#needs.get(word);
    setClass(row, [left === 0 ? 'dead' : '', needs ? 'needs' : ''].filter(Boolean).join(' '));
    const uncounted = this.#isDead ? '' : '·';
    // in a grid that is filled each word that fits fills it
    /** @type {Record<string, string>} */
    const shown = { done: this.#isStanding ? '' : 'fills it', 0: 'dead end', undefined: uncounted };
    setText(row.parts.left, needs && left !== 0 ? needsText(needs) : shown[String(left)] ?? String(left));
    setTitle(row.parts.left, needs ? `changes ${needsText(needs)}` : LEFT_TITLE);
  }

  // What each of the first words leaves, and then those in sight.
  /**
   * @param {number} turn
   * @param {Light} light
   */
  async #count(turn, light) {
    if (!this.#left.size) {
      const told = await this.#editor.ask('choices', light.name, MOST_COUNTED);
      if (turn !== this.#turn) return;
      this.#takeLeft((told ?? []).map(({ word, left }) => [word, left ?? 'done']));
    }
    await this.#probe(turn, light);
  }

  #endCounting() {
    this.#isCounting = false;
    setText(this.#elements.legend, this.#legend());
  }

  /** @param {[string, Left][]} pairs */
  #takeLeft(pairs) {
    for (const [word, left] of pairs) this.#left.set(word, left);
    this.#isLate ||= this.#order === 'left' || pairs.some(([, left]) => left === 0);
    if (this.#isLate && !this.#isHeld) this.#listAgain();
    const { childElementCount } = this.#elements.list;
    this.shown.slice(0, childElementCount).forEach((word, at) => this.#left.has(word) && this.#fillLeft(this.#rows[at], word));
  }

  // Counts the words in sight, a few in each call. They are shown now and then, so that frames are left for keys.
  /**
   * @param {number} turn
   * @param {Light} light
   */
  async #probe(turn, light) {
    const { engine } = this.#editor;
    /** @type {Record<string, Left>} */
    let answers = {};
    let shownAt = performance.now();
    const isKnown = (/** @type {string} */ word) => this.#left.has(word) || word in answers;
    const unknown = () => (this.#left.size < MOST_SUNK ? this.#inSight().filter((word) => !isKnown(word)).slice(0, MOST_PROBED) : []);
    while (turn === this.#turn) {
      let words = unknown();
      if (!words.length || performance.now() - shownAt > SHOWN_EACH) {
        this.#takeLeft(Object.entries(answers));
        [answers, shownAt] = [{}, performance.now()];
        // dead ends that have sunk make room for others
        words = unknown();
      }
      if (!words.length || this.#editor.fill.isRunning) return this.#endCounting();
      const { left, taken } = await engine.call('probe', { light: light.name, words, cleared: this.#cleared(light, words) });
      if (turn !== this.#turn) return undefined;
      Object.assign(answers, left);
      for (const word of words) if (taken[word] > 0) this.#needs.set(word, []);
    }
  }

  // The letters in pencil that placing a word clears, by the words that need that: those of the crossing lights in its way, or else of all.
  /**
   * @param {Light} light
   * @param {string[]} words
   */
  #cleared(light, words) {
    const cells = (/** @type {string[]} */ names) => this.#editor.pencilledAcross(light, names);
    const needy = words.filter((word) => this.#needs.has(word));
    return Object.fromEntries(needy.map((word) => [word, [cells(this.#needs.get(word) ?? []), cells([])]]));
  }

  #inSight() {
    const { list } = this.#elements;
    const [row] = this.#rows;
    if (!this.shown.length || !list.clientHeight) return [];
    const height = row.offsetHeight || 24;
    const columns = Math.max(1, Math.floor(list.clientWidth / row.offsetWidth));
    const first = Math.floor(list.scrollTop / height) * columns;
    return this.shown.slice(first, first + Math.ceil(list.clientHeight / height + 1) * columns);
  }

  #countSoon() {
    clearTimeout(this.#countTimer);
    const turn = this.#turn;
    this.#countTimer = window.setTimeout(() => {
      if (this.#light) this.#probe(turn, this.#light).catch(() => {});
    }, REST);
  }

  // The feasible letters of the cell, with what they leave across and down.
  /** @param {number} turn */
  async #askLetters(turn) {
    const { board, cursor } = this.#editor;
    const cell = board.cells[cursor];
    const { letters, coordinates } = this.#elements;
    if (!letters || !coordinates) return this.#showBusy();
    if (cell.block) {
      this.#lettered = cursor;
      setText(coordinates, '');
      this.#showBusy();
      letters.classList.remove('none');
      return fit(letters, this.#buttons, 0, makeButton);
    }
    const told = (await this.#editor.ask('tally', board.rowOf(cursor), board.columnOf(cursor))) ?? [];
    if (turn !== this.#turn) return undefined;
    this.#lettered = cursor;
    letters.parentElement?.classList.toggle('entered', Boolean(this.#editor.board.cells[cursor].letter));
    setText(coordinates, `Row ${board.rowOf(cursor)}, column ${board.columnOf(cursor)}`);
    this.#showBusy();
    letters.classList.toggle('none', !told.length);
    const most = Math.max(1, ...told.map(({ across, down }) => Math.max(across ?? 0, down ?? 0)));
    fit(letters, this.#buttons, told.length, makeButton);
    told.forEach((counts, at) => fillButton(this.#buttons[at], counts, most));
    return this.#roving?.show();
  }

  // The word that is pointed at.

  // The one that keys point at; or ''.
  get #pointed() {
    return this.shown[this.#at] ?? '';
  }

  get #isHeld() {
    return this.#hovered !== '' && this.#elements.list.matches(':hover');
  }

  // Lists the words in their order again. Keys point at the same word.
  #listAgain() {
    const pointed = this.#pointed;
    this.#isLate = false;
    this.#list();
    if (pointed) this.#pointAt(pointed);
  }

  // A list that moves under a pointer at rest is not pointed at.
  /** @param {PointerEvent} event */
  #hover({ target, pointerType }) {
    const word = pointerType === 'touch' ? '' : /** @type {HTMLElement} */ (target).closest('li')?.dataset.word ?? '';
    if (word === this.#hovered) return;
    this.#hovered = word;
    this.#showGhost();
  }

  #leave() {
    this.#hovered = '';
    this.#showGhost();
    if (this.#isLate) this.#listAgain();
  }

  // Shows the word under the pointer in ghost letters, or the one that keys of the filter point at.
  #showGhost(word = this.#hovered || (document.activeElement === this.#elements.filter ? this.#pointed : '')) {
    const { board } = this.#editor;
    const light = this.#isCurrent ? this.#light : null;
    const shown = word && light?.cells.length === word.length ? `${light.name} ${word}` : '';
    if (shown === this.#ghost) return;
    this.#ghost = shown;
    const cells = shown && light ? light.cells.map((cell, at) => /** @type {[number, string]} */ ([cell, word[at]])) : [];
    this.#editor.change({ ghosts: new Map(cells.filter(([cell, letter]) => board.cells[cell].letter !== letter)) });
  }

  // Gives a word a score that is a step better, or worse, in the words of the user.
  /**
   * @param {string} word
   * @param {number} direction
   */
  #regrade(word, direction) {
    const { best } = this.#editor.list;
    if (!this.#scores.size) return refuse('your lists have no scores, so there is nothing to grade');
    const score = this.#scores.get(word) ?? scoreOf(UNSCORED, best);
    const other = Math.max(0, Math.min(best, score + direction * Math.max(1, Math.round(best / STEPS))));
    if (other === score) return refuse(`${word} has ${score} already, the ${direction > 0 ? 'best' : 'least'} score`);
    this.#scores.set(word, other);
    this.#fillRows(this.#elements.list.childElementCount);
    return this.#editor.do('regrade', word, other);
  }

  // The keys of the filter.

  /** @param {KeyboardEvent} event */
  #key(event) {
    const { filter } = this.#elements;
    /** @type {Record<string, number>} */
    const steps = { ArrowDown: 1, ArrowUp: -1, PageDown: 10, PageUp: -10 };
    if (steps[event.key]) {
      event.preventDefault();
      this.#at = Math.min(this.shown.length - 1, Math.max(0, this.#at + steps[event.key]));
      this.#point();
    } else if (event.key === 'Enter') {
      event.preventDefault();
      const word = this.#isCurrent && this.shown[Math.max(0, this.#at)];
      if (word) this.#place(word);
      else if (!this.#isCurrent) refuse('the words of this light are not there yet');
      else refuse('no candidate passes the filter');
    } else if (event.key === 'Delete' && event.shiftKey) {
      event.preventDefault();
      if (this.#pointed) this.#edits.strike(this.#pointed);
    } else if (/^[+-]$/.test(event.key) && this.#pointed && !this.#filtered.startsWith('/')) {
      event.preventDefault();
      this.#regrade(this.#pointed, event.key === '+' ? 1 : -1);
    } else if (event.key === 'Escape') {
      event.preventDefault();
      if (filter?.value) {
        filter.value = '';
        this.#list();
      } else {
        this.#editor.do('toGrid');
        this.#showGhost();
      }
    }
  }

  // Points at a word again after the list was asked for anew, if the word is still in it.
  /** @param {string} word */
  #pointAt(word) {
    this.#at = this.shown.indexOf(word);
    this.#point();
  }

  #point() {
    const { list, filter } = this.#elements;
    for (const row of list.querySelectorAll('[aria-selected=true]')) row.removeAttribute('aria-selected');
    if (this.#at >= list.childElementCount) this.#fillRows(MOST_LISTED);
    const row = list.children[this.#at];
    this.#showGhost();
    if (!row) return filter?.removeAttribute('aria-activedescendant');
    row.setAttribute('aria-selected', 'true');
    row.scrollIntoView({ block: 'nearest' });
    filter?.setAttribute('aria-activedescendant', row.id);
  }

  /** @param {MouseEvent} event */
  #click(event) {
    const word = pressed(event, 'li')?.dataset.word;
    if (!word || !this.#isCurrent) return;
    const step = pressed(event, '.grade')?.dataset.step;
    if (pressed(event, '.strike')) this.#edits.strike(word);
    else if (step) this.#regrade(word, Number(step));
    else this.#place(word);
  }

  /** @param {string} word */
  async #place(word) {
    const refused = await this.#edits.place(word, this.#needs.get(word) ?? null, this.#light);
    if (refused) return refuse(refusalText(refused));
    this.clearFilter();
    this.#editor.do('toGrid');
  }
}

/**
 * @param {number} fit
 * @param {number} others
 */
function alternativesText(fit, others) {
  const text = `${fit.toLocaleString('en')} ${fit === 1 ? 'other word fits' : 'other words fit'}`;
  return others ? `${fit.toLocaleString('en')} fit, ${others} others` : text;
}

// The lights that would change, as in “5D 7D”; or all that cross.
const needsText = (/** @type {string[]} */ names) => names.map((name) => name.replace(/ (.).*/, (_, letter) => letter.toUpperCase())).join(' ') || 'all crossings';

export const titleOf = (/** @type {Pick<Light, 'number' | 'direction'>} */ light) => `${light.number} ${light.direction === 'across' ? 'Across' : 'Down'}`;

// Elements that are used again.

// Gives a parent its first elements, so many; makes those that are lacking.
/**
 * @template {HTMLElement} Kind
 * @param {HTMLElement} parent
 * @param {Kind[]} elements
 * @param {number} count
 * @param {(at: number) => Kind} make
 */
function fit(parent, elements, count, make) {
  while (elements.length < count) elements.push(make(elements.length));
  while (parent.childElementCount > count) parent.lastElementChild?.remove();
  for (let at = parent.childElementCount; at < count; at++) parent.append(elements[at]);
}

/**
 * @param {HTMLElement} element
 * @param {string | number} shown
 */
function setText(element, shown) {
  const spelled = termed(String(shown));
  const text = /** @type {Text | null} */ (element.firstChild);
  if (!text) element.append(spelled);
  else if (text.data !== spelled) text.data = spelled;
}

/**
 * @param {HTMLElement} element
 * @param {string} name
 */
function setClass(element, name) {
  if (element.className !== name) element.className = name;
}

/**
 * @param {HTMLElement} element
 * @param {string} title
 */
function setTitle(element, title) {
  const spelled = termed(title);
  if (element.title !== spelled) element.title = spelled;
}

const LEFT_TITLE = 'the least number of words that a light has then';

const makeBox = () => document.createElement('span');

/**
 * @param {string} id
 * @returns {Row}
 */
function makeRow(id) {
  const row = document.createElement('li');
  row.setAttribute('role', 'option');
  row.id = id;
  const parts = {
    name: document.createElement('span'), score: small('score', 'score'), from: small('from', ''), worse: small('grade', 'a worse score, in My words ( - )'),
    better: small('grade', 'a better score, in My words ( + )'), left: small('left', LEFT_TITLE), strike: small('strike', 'hide this word in this puzzle (Shift Delete)'),
  };
  for (const [part, sign] of /** @type {const} */ ([[parts.worse, '−'], [parts.better, '+'], [parts.strike, '×']])) setText(part, sign);
  parts.worse.dataset.step = '-1';
  parts.better.dataset.step = '1';
  row.append(...Object.values(parts));
  return Object.assign(row, { parts });
}

/**
 * @param {string} name
 * @param {string} title
 */
function small(name, title) {
  const element = document.createElement('small');
  element.className = name;
  element.title = title;
  return element;
}

function makeButton() {
  const button = document.createElement('button');
  button.type = 'button';
  button.append(document.createElement('b'), small('counts', ''));
  return button;
}

/**
 * @param {HTMLElement} button
 * @param {Answers['tally'][number]} counts
 * @param {number} most
 */
function fillButton(button, { letter, across, down }, most) {
  const bar = (/** @type {number | null} */ count) => `${Math.round((100 * Math.log1p(count ?? 0)) / Math.log1p(most))}%`;
  const [right, below] = [across ?? '-', down ?? '-'];
  button.dataset.letter = letter;
  button.style.setProperty('--across', bar(across));
  button.style.setProperty('--down', bar(down));
  button.title = `${letter}: ${right} across, ${below} down`;
  button.setAttribute('aria-label', `enter ${letter}: ${right} words across, ${below} down`);
  const [name, told] = /** @type {HTMLElement[]} */ ([...button.children]);
  setText(name, letter);
  setText(told, `${right}→ ${below}↓`);
}
