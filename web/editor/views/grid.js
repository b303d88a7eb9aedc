// The grid: its cells, the keys and the mouse.
import { nameOfColour } from '../model/colours.js';
import { nearDeadEnd } from '../model/near.js';
import { placeOf } from '../model/record.js';
import { NO_REASON, only } from '../model/state.js';
import { mayEdit, refusalText, refuse, say } from './messages.js';
import { askEntry } from './questions.js';
import { speak, spokenOf } from './spoken.js';
import { tintClass } from './tints.js';
import { TypingField } from './typing.js';
import { titleOf } from './words.js';

// How long a letter waits for the engine's answer, in milliseconds: one frame then shows it with all that it changes. If the answer takes
// longer, the letter is shown alone.
const WAIT = 4;

// The least size of a cell; a larger grid pans. Less room than NARROW has smaller margins.
const LEAST_CELL = 22;
const NARROW = 640;
// Below this size of a cell its letter stands at the foot, and leaves no room for a line below it.
const SMALL = 30;

// cells with so many letters or more have letters of one size
const MOST_SIZED = 6;

/** @typedef {import('../model/board.js').Light} Light */
/** @typedef {import('../engine/told.js').Direction} Direction */
/** @typedef {import('../model/state.js').Tool} Tool */
/** @typedef {Record<'classes' | 'letter' | 'number' | 'label', string>} Painted what a cell shows */
/** @typedef {{ tool: Tool, isOn: boolean, done: Set<number>, at: number, last: Promise<unknown> }} Painting a drag of a tool */
/** @typedef {{ key: string, shiftKey: boolean, timeStamp?: number }} Key */

/** @type {Record<string, [Direction, number]>} */
const ARROWS = { ArrowLeft: ['across', -1], ArrowRight: ['across', 1], ArrowUp: ['down', -1], ArrowDown: ['down', 1] };

export class GridView {
  /** @type {import('../model/editor.js').Editor} */
  #editor;
  #root;
  /** @type {{ root: HTMLElement, number: Text, letter: Text }[]} */
  #cells = [];
  // what each cell shows
  /** @type {Partial<Painted>[]} */
  #painted = [];
  // what lies over the light of the cursor, over the one that crosses it, and around the light of a reason
  #bands = ['light-band', 'crossing-band', 'reason-band'].map((name) => Object.assign(document.createElement('div'), { className: name }));
  #typing = new TypingField((key) => this.#actionOf({ key, shiftKey: false })?.());
  // how many columns the cells stand in
  #width = 0;
  // whether lights without a word wait for blocks, since there are none yet or few
  #isOpenGrid = false;
  // the cells near a dead end; null if all are
  /** @type {ReadonlySet<number> | null} */
  #near = null;
  // cells whose letters are entered but not shown yet, by index
  /** @type {Set<number>} */
  #undrawn = new Set();
  #drawing = 0;
  // a corner of the rectangle that is being chosen, by index
  /** @type {number | null} */
  #anchor = null;
  /** @type {number | null} */
  #far = null;
  #edits;
  #room;

  /**
   * @param {import('../model/editor.js').Editor} editor
   * @param {HTMLElement} root
   * @param {import('./edits.js').Edits} edits
   */
  constructor(editor, root, edits) {
    this.#editor = editor;
    this.#root = root;
    this.#edits = edits;
    editor.takes({
      toGrid: () => this.focus(), goTo: (light, cell) => this.#goTo(light, cell), enterLetter: (letter) => this.enter(letter), eraseLight: () => this.eraseLight(),
      toggleBlock: (index) => this.toggleBlock(index),
    });
    root.addEventListener('keydown', (event) => this.#key(event));
    root.addEventListener('pointerdown', (event) => this.#pointerDown(event));
    root.addEventListener('pointermove', (event) => this.#pointerMove(event));
    root.addEventListener('pointerup', (event) => this.#pointerUp(event));
    root.addEventListener('pointercancel', () => {
      this.#pressed = null;
    });
    root.addEventListener('paste', (event) => {
      event.preventDefault();
      this.paste(event.clipboardData?.getData('text') ?? '');
    });
    root.append(...this.#bands, this.#typing.element);
    editor.on(['board', 'reason', 'unmatched', 'letters', 'faulty', 'weak', 'ghosts', 'cursor', 'chosen', 'originals'], (transaction) => this.#take(transaction));
    document.addEventListener('paste', (event) => {
      if (document.activeElement === document.body) this.paste(event.clipboardData?.getData('text') ?? '');
    });
    this.#room = /** @type {HTMLElement} */ (root.parentElement);
    new ResizeObserver(() => this.#fit()).observe(this.#room);
  }

  // Brings the cursor into sight, in a grid that is larger than its room.
  #show() {
    if (this.#root.classList.contains('pans')) this.#cells[this.#editor.cursor]?.root.scrollIntoView({ block: 'nearest', inline: 'nearest' });
  }

  // The size of a cell, so that the grid fills the room it has.
  #fit() {
    const { board } = this.#editor;
    if (!board.width) return;
    const { clientWidth, clientHeight } = this.#room;
    const margin = clientWidth < NARROW ? 8 : 16;
    const size = Math.floor(Math.min((clientWidth - margin) / board.width, (clientHeight - margin) / board.height, 64));
    this.#root.style.setProperty('--cell', `${Math.max(size, LEAST_CELL)}px`);
    this.#root.classList.toggle('pans', size < LEAST_CELL);
    this.#root.classList.toggle('small', size < SMALL);
    this.#show();
  }

  draw() {
    const { board, chosen } = this.#editor;
    this.#undrawn.clear();
    this.#wasBlank = this.isBlank;
    this.#isOpenGrid = board.isOpenGrid || (this.#editor.waits && board.isSparse);
    this.#near = nearDeadEnd(this.#editor);
    if (!chosen.size) this.#anchor = this.#far = null;
    if (this.#cells.length !== board.cells.length || this.#width !== board.width) this.#make(board);
    for (let index = 0; index < this.#cells.length; index++) this.paint(index);
    this.#fit();
    this.mark();
  }

  /** @param {import('../model/board.js').Board} board */
  #make(board) {
    this.#width = board.width;
    this.#root.style.setProperty('--columns', String(board.width));
    this.#root.style.setProperty('--rows', String(board.height));
    this.#root.setAttribute('aria-rowcount', String(board.height));
    this.#root.setAttribute('aria-colcount', String(board.width));
    this.#cells = [];
    this.#painted = [];
    const rows = [];
    for (let row = 1; row <= board.height; row++) {
      const line = document.createElement('div');
      line.setAttribute('role', 'row');
      line.className = 'row';
      for (let column = 1; column <= board.width; column++) line.append(this.#makeCell(row, column));
      rows.push(line);
    }
    for (const row of this.#root.querySelectorAll('.row')) row.remove();
    this.#root.prepend(...rows);
  }

  /**
   * @param {number} row
   * @param {number} column
   */
  #makeCell(row, column) {
    const root = document.createElement('div');
    root.setAttribute('role', 'gridcell');
    root.id = `cell-${row}-${column}`;
    root.dataset.index = String(this.#cells.length);
    const [circle, number, letter] = ['circle', 'number', 'letter'].map((name) => {
      const part = Object.assign(document.createElement('span'), { className: name });
      root.append(part);
      return part;
    });
    circle.setAttribute('aria-hidden', 'true');
    const texts = [number, letter].map((part) => part.appendChild(document.createTextNode('')));
    this.#cells.push({ root, number: texts[0], letter: texts[1] });
    return root;
  }

  // Shows a cell as the board has it.
  /** @param {number} index */
  paint(index) {
    const { board, pencil, reason, unmatched, faulty, weak, worst, ghosts } = this.#editor;
    const cell = board.cells[index];
    const ghost = ghosts.get(index);
    const classes = ['cell'];
    if (cell.block) classes.push('block');
    if (cell.right) classes.push('bar-right');
    if (cell.below) classes.push('bar-below');
    if (cell.circle && !cell.block) classes.push('circled');
    const colour = this.#editor.colourOf(cell);
    if (colour) classes.push('tinted', tintClass(colour));
    if (cell.letter && pencil.has(cell.coordinates)) classes.push('pencil');
    if (reason.cells.has(index)) classes.push('reason');
    if (unmatched.has(index)) classes.push('unmatched');
    if (faulty.has(index) && cell.letter) classes.push('faulty');
    if (cell.letter) for (const direction of /** @type {const} */ (['across', 'down'])) if (weak[direction].has(index)) classes.push(`weak-${direction}`);
    if (cell.letter && worst.has(index)) classes.push('worst');
    const isOpen = !cell.block && !cell.letter;
    if (isOpen && !cell.left && !this.isBlank) classes.push(this.#isOpenGrid ? 'waiting' : this.#near?.has(index) ?? true ? 'dead' : 'spent');
    if (isOpen && cell.left.length === 1) classes.push('only');
    this.#marksOf(index, classes);
    if (isOpen && cell.left.length > 1) classes.push(`shade-${shadeOf(cell.left.length)}`);
    if (ghost) classes.push('ghost');
    const letter = ghost ?? (this.#editor.entryOf(cell) || (isOpen && cell.left.length === 1 ? cell.left : ''));
    if (letter.length > 1) classes.push('rebus', `rebus-${Math.min(letter.length, MOST_SIZED)}`);
    this.#put(index, { classes: classes.join(' '), letter, number: cell.number, label: this.#nameOf(index) });
  }

  // Writes what differs from what the cell shows.
  /**
   * @param {number} index
   * @param {Painted} now
   */
  #put(index, now) {
    const { root, number, letter } = this.#cells[index];
    const old = this.#painted[index] ?? { number: '', letter: '' };
    if (old.classes !== now.classes) root.className = now.classes;
    if (old.number !== now.number) number.data = now.number;
    if (old.letter !== now.letter) letter.data = now.letter;
    if (old.label !== now.label) root.setAttribute('aria-label', now.label);
    this.#painted[index] = now;
  }

  // Whether the list fits no word into the empty grid. Its cells are not shown as dead, since no letter is the cause.
  get isBlank() {
    return this.#editor.board.entered === 0;
  }

  /** @param {number} index */
  #nameOf(index) {
    const { board } = this.#editor;
    const cell = board.cells[index];
    const words = [`row ${board.rowOf(index)}, column ${board.columnOf(index)}`];
    if (cell.number) words.push(`number ${cell.number}`);
    if (cell.block) words.push('block');
    else if (cell.letter) words.push(this.#editor.entryOf(cell));
    else if (!cell.left) words.push('empty, no letter is left');
    else if (cell.left.length === 1) words.push(`empty, only ${cell.left} is left`);
    else words.push(`empty, ${cell.left.length} letters are left`);
    if (cell.circle && !cell.block) words.push('circled');
    if (this.#editor.colourOf(cell)) words.push(nameOfColour(this.#editor.colourOf(cell)));
    const placed = (/** @type {Light} */ light) => light.cells.indexOf(index) + 1;
    words.push(...board.through(index).map((light) => `${titleOf(light)}, letter ${placed(light)} of ${light.cells.length}`));
    return words.join(', ');
  }

  /**
   * @param {number} index
   * @param {string[]} classes
   */
  #marksOf(index, classes) {
    const editor = this.#editor;
    if (index === editor.cursor) classes.push('cursor', editor.direction);
    if (editor.chosen.size && editor.board.through(index).some((light) => editor.chosen.has(light.name))) classes.push('chosen');
    if (this.#isWithin(index)) classes.push('within');
  }

  // whether lights were chosen then, and the cell where the cursor is shown, by index
  #wasChosen = false;
  #marked = 0;

  // Shows where the cursor is. The cells that are painted already have their marks.
  /** @param {ReadonlySet<number>} painted */
  mark(painted = new Set()) {
    const editor = this.#editor;
    const { board, cursor } = editor;
    const isChosen = editor.chosen.size > 0 || this.#anchor !== null;
    const cells = isChosen || this.#wasChosen ? board.cells.keys() : [this.#marked, cursor];
    for (const index of cells) if (index < this.#cells.length && !painted.has(index)) this.paint(index);
    this.#wasChosen = isChosen;
    this.#marked = cursor;
    this.#cover(this.#bands[0], editor.light);
    this.#cover(this.#bands[1], editor.crossing);
    this.#cover(this.#bands[2], board.byName.get(editor.reason.light));
    if (this.#typing.isActive) this.#lay(this.#typing.element, cursor, 1, 1);
    this.#show();
    this.#root.setAttribute('aria-activedescendant', this.#cells[cursor]?.root.id ?? '');
  }

  // Lays a band over a light.
  /**
   * @param {HTMLElement} band
   * @param {Light | null | undefined} light
   */
  #cover(band, light) {
    band.hidden = !light;
    if (!light) return;
    const length = light.cells.length;
    if (light.direction === 'across') this.#lay(band, light.cells[0], length, 1);
    else this.#lay(band, light.cells[0], 1, length);
  }

  // Lays an element over so many columns and rows, from a cell on.
  /**
   * @param {HTMLElement} element
   * @param {number} first
   * @param {number} columns
   * @param {number} rows
   */
  #lay(element, first, columns, rows) {
    const { board } = this.#editor;
    const [column, row] = [board.columnOf(first) - 1, board.rowOf(first) - 1];
    const bounds = [column, row, columns, rows].join();
    if (element.dataset.bounds === bounds) return;
    element.dataset.bounds = bounds;
    const cells = (/** @type {number} */ count) => `calc(var(--cell) * ${count})`;
    element.style.transform = `translate(${cells(column)}, ${cells(row)})`;
    element.style.width = cells(columns);
    element.style.height = cells(rows);
  }

  // whether the grid was empty when it was drawn
  #wasBlank = true;

  // Shows what a transaction changed.
  /** @param {import('../model/state.js').Transaction} transaction */
  #take(transaction) {
    const { changes } = transaction;
    const { letters } = changes;
    // cells without a letter left look other once there is an entry
    const isTurned = Boolean(letters) && this.isBlank !== this.#wasBlank;
    // each cell is painted once
    const painted = new Set([...(letters ? [...this.#takeUndrawn(), ...this.#takeNear()] : []), ...this.#changedBy(transaction)]);
    if (isTurned || ['board', 'reason', 'unmatched', 'originals'].some((name) => name in changes)) this.draw();
    else {
      for (const index of painted) if (this.#cells[index]) this.paint(index);
      if (changes.cursor !== undefined || changes.chosen) this.mark(painted);
    }
    if (letters) mark('letter answered', { detail: { engine: letters.engine } });
  }

  // The cells that look other after letters, or after words got marks or lost them.
  /** @param {import('../model/state.js').Transaction} transaction */
  #changedBy({ changes: { letters, faulty, weak, worst, ghosts }, before }) {
    const pairs = [[faulty, before.faulty], [weak?.across, before.weak?.across], [weak?.down, before.weak?.down], [worst, before.worst]];
    const marked = pairs.flatMap(([now, old]) => (now && old ? [...now, ...old].filter((index) => now.has(index) !== old.has(index)) : []));
    const ghostly = ghosts ? [...ghosts.keys(), ...(before.ghosts?.keys() ?? [])] : [];
    return new Set([...(letters?.cells ?? []), ...marked, ...ghostly]);
  }

  // Takes what is near a dead end now, and returns the cells for which that is other than before.
  #takeNear() {
    const before = this.#near;
    this.#near = nearDeadEnd(this.#editor);
    const isOther = (/** @type {number} */ index) => (before?.has(index) ?? true) !== (this.#near?.has(index) ?? true);
    return before || this.#near ? [...this.#editor.board.cells.keys()].filter(isOther) : [];
  }

  // Shows a letter that was entered, with the move of the cursor, when the engine answers; or soon, if it has other work.
  /** @param {number} index */
  #drawSoon(index) {
    this.#undrawn.add(index);
    if (this.#editor.engine.waiting) this.#drawLate();
    else this.#drawing ||= window.setTimeout(() => this.#drawLate(), WAIT);
  }

  #drawLate() {
    const undrawn = this.#takeUndrawn();
    for (const index of undrawn) this.paint(index);
    if (undrawn.length) this.#editor.tell();
  }

  // The cells whose letters are entered and not shown yet, which are to be painted now.
  #takeUndrawn() {
    clearTimeout(this.#drawing);
    this.#drawing = 0;
    const undrawn = [...this.#undrawn];
    this.#undrawn.clear();
    if (undrawn.length) mark('letter drawn');
    return undrawn;
  }

  focus() {
    if (!this.#typing.isActive) this.#root.focus({ preventScroll: true });
  }

  // Enters a letter at the cursor, as its key does.
  /** @param {string} letter */
  enter(letter) {
    this.#letter(letter);
    this.focus();
  }

  // The keys.

  /** @param {KeyboardEvent} event */
  #key(event) {
    if (event.ctrlKey || event.metaKey || event.altKey) return;
    // after Escape, Tab goes on to what is beside the grid
    const isLeaving = event.key === 'Tab' && this.#mayLeave;
    if (!/^(Shift|Tab)$/.test(event.key)) this.#mayLeave = event.key === 'Escape';
    if (isLeaving) return;
    const action = this.#actionOf(event);
    if (!action) {
      if (event.key.length === 1) refuse(`“${event.key}” does nothing here: letters are entered, . is a block, ? asks why, and F1 shows all keys`);
      return;
    }
    event.preventDefault();
    action();
  }

  #mayLeave = false;
  // the cell and the direction of the letter that ended its light; another letter there is one too many
  #ended = '';

  get #place() {
    const { puzzle, cursor, direction, light } = this.#editor;
    return [puzzle, cursor, direction, light?.cells.length].join(' ');
  }

  // Enters the letters of a text from the cursor on, as far as the light goes.
  /** @param {string} text */
  async paste(text) {
    const editor = this.#editor;
    const { light, board, cursor } = editor;
    const letters = text.normalize('NFD').replace(/[^A-Za-z]/g, '').toUpperCase();
    if (!letters) return refuse('there is no letter to paste');
    if (!light || !mayEdit(this.#editor)) return undefined;
    const isWhole = letters.length === light.cells.length;
    const cells = isWhole ? light.cells : light.cells.slice(light.cells.indexOf(cursor));
    if (letters.length > cells.length) return refuse(`${letters} is too long: there are ${cells.length} cells from the cursor on`);
    const changed = cells.slice(0, letters.length).map((cell) => board.cells[cell].coordinates);
    editor.change({ edited: { cell: cursor, direction: light.direction } });
    const pencil = new Set([...editor.pencil].filter((cell) => !changed.includes(cell)));
    return this.#send(changed.map((cell, at) => `set ${cell} ${letters[at]}`), { pencil });
  }

  /**
   * @param {Key} event
   * @returns {(() => unknown) | undefined}
   */
  #actionOf(event) {
    const { key, shiftKey } = event;
    if (ARROWS[key]) return () => (shiftKey ? this.#extend(...ARROWS[key]) : this.#arrow(...ARROWS[key]));
    if (/^[a-zA-Z]$/.test(key)) return () => this.#letter(key.toUpperCase(), event.timeStamp);
    /** @type {Record<string, () => unknown>} */
    const keys = {
      Tab: () => this.#nextLight(shiftKey ? -1 : 1),
      Enter: () => (shiftKey ? this.#choose() : this.turn()),
      ' ': () => this.#clear(1),
      Insert: () => this.#enterSeveral(this.#editor.cursor),
      Backspace: () => (shiftKey ? this.eraseLight() : this.#backspace()),
      Delete: () => (shiftKey ? this.eraseLight() : this.#clear(0)),
      Home: () => this.#toEnd(0),
      End: () => this.#toEnd(-1),
      Escape: () => this.#escape(),
      '.': () => this.toggleBlock(this.#editor.cursor, { isTyped: true }),
      '|': () => this.toggleBar(this.#editor.cursor, 'right'),
      _: () => this.toggleBar(this.#editor.cursor, 'below'),
      '*': () => this.toggleCircle(this.#editor.cursor),
      '#': () => this.toggleColour(this.#editor.cursor),
      '=': () => this.togglePencil([this.#editor.cursor]),
      '+': () => this.togglePencil(this.#editor.light?.cells ?? []),
      '?': () => this.#explain(),
      '/': () => this.#editor.do('toField', 'words', 'filter'),
    };
    return keys[key];
  }

  /**
   * @param {Direction} direction
   * @param {number} step
   */
  #arrow(direction, step) {
    const editor = this.#editor;
    this.#unchoose();
    const cell = editor.board.cells[editor.cursor];
    if (editor.direction !== direction && cell[direction] && !cell.block) return this.turn();
    const next = this.#beside(editor.cursor, direction, step);
    return next >= 0 ? editor.moveTo(next, direction) : undefined;
  }

  // The neighbour of a cell, or -1.
  /**
   * @param {number} index
   * @param {Direction} direction
   * @param {number} step
   */
  #beside(index, direction, step) {
    const { board } = this.#editor;
    if (direction === 'down') {
      const next = index + step * board.width;
      return next >= 0 && next < board.cells.length ? next : -1;
    }
    const next = index + step;
    return next >= 0 && next < board.cells.length && board.rowOf(next) === board.rowOf(index) ? next : -1;
  }

  // The place beside the cursor in its light; at the end of the light the cursor's own.
  /** @param {number} step */
  #beyond(step) {
    const editor = this.#editor;
    const { cursor, direction, light, board } = editor;
    const next = step ? this.#beside(cursor, direction, step) : -1;
    const isOn = next >= 0 && (light ? light.cells.includes(next) : !board.cells[next].block);
    return isOn ? editor.placed(next) : { cursor, direction };
  }

  // Enters a letter, which is on the board at once, and goes to the engine before anything is drawn. If it is refused, the session puts the
  // board back.
  /**
   * @param {string} letter
   * @param {number} typedAt
   */
  #letter(letter, typedAt = 0) {
    const editor = this.#editor;
    const cell = editor.board.cells[editor.cursor];
    if (cell.block) return refuse(refusalText('OnBlock'));
    if (!mayEdit(this.#editor)) return;
    if (cell.letter && this.#ended === this.#place) return refuse('the light ends here: Tab goes on, Backspace takes the letter back');
    const index = editor.cursor;
    const to = this.#beyond(1);
    const sent = this.#send([`set ${cell.coordinates} ${letter}`], { isWhole: false, to });
    if (typedAt) mark('letter typed', { startTime: typedAt });
    editor.enter(index, letter, to);
    this.#ended = to.cursor === index ? this.#place : '';
    this.#drawSoon(index);
    sent.then((refused) => {
      if (!refused) return;
      this.#ended = '';
      if (editor.cursor === to.cursor) editor.moveTo(index);
    });
  }

  /**
   * @param {string[]} lines
   * @param {Parameters<import('./edits.js').Edits['edit']>[1]} options
   */
  #send(lines, options = {}) {
    return this.#edits.edit(lines, options);
  }

  /** @param {number} step */
  #clear(step) {
    const editor = this.#editor;
    this.#ended = '';
    const index = editor.cursor;
    const cell = editor.board.cells[index];
    if (cell.block || !cell.letter) {
      if (step) this.#stepFreely(step);
      return;
    }
    if (!mayEdit(this.#editor)) return;
    const to = this.#beyond(step);
    this.#send([`clear ${cell.coordinates}`], { isWhole: false, to });
    editor.enter(index, '', to);
    this.#drawSoon(index);
  }

  /** @param {number} step */
  #stepFreely(step) {
    const next = this.#beside(this.#editor.cursor, this.#editor.direction, step);
    if (next >= 0) this.#editor.moveTo(next);
  }

  #backspace() {
    const editor = this.#editor;
    if (!editor.board.cells[editor.cursor].letter) this.#stepFreely(-1);
    this.#clear(0);
  }

  // Empties the light, but keeps the letters of crossing lights that are entered.
  async eraseLight() {
    const editor = this.#editor;
    const { board, light } = editor;
    if (!light?.cells.some((index) => board.cells[index].letter)) return;
    editor.change({ edited: { cell: editor.cursor, direction: editor.direction } });
    await this.#send([`erase ${light.name}`]);
  }

  /** @param {number} at */
  #toEnd(at) {
    const cells = this.#editor.light?.cells;
    if (cells) this.#editor.moveTo(cells[at < 0 ? cells.length + at : at]);
  }

  // Turns to the other light of the cell, which is spoken: the cell that has the focus stays.
  turn() {
    const editor = this.#editor;
    const other = editor.direction === 'across' ? 'down' : 'across';
    if (!editor.board.cells[editor.cursor][other]) return;
    editor.moveTo(editor.cursor, other);
    const { light } = editor;
    if (light) speak(spokenOf(light, editor.answerParts(light)));
  }

  /** @param {number} step */
  #nextLight(step) {
    const editor = this.#editor;
    const { lights } = editor.board;
    if (!lights.length) return;
    const order = [...lights.filter((light) => light.direction === 'across'), ...lights.filter((light) => light.direction === 'down')];
    const at = editor.light ? order.indexOf(editor.light) : -1;
    const light = at < 0 ? order[0] : order[(at + step + order.length) % order.length];
    const empty = light.cells.find((index) => !editor.board.cells[index].letter);
    editor.moveTo(empty ?? light.cells[0], light.direction);
  }

  #escape() {
    this.#unchoose();
    if (this.#editor.reason.light) this.#editor.change({ reason: NO_REASON });
    this.#editor.do('stopFill');
    this.#editor.change({ tool: null });
  }

  #explain() {
    return this.#editor.do('explainDeadEnd').catch(() => {});
  }

  /**
   * @param {Light} light
   * @param {number} cell
   */
  #goTo(light, cell = light.cells[0]) {
    this.#editor.moveTo(cell, light.direction);
    this.focus();
  }

  // Asks for the letters of a cell, which may be several.
  /** @param {number} index */
  async #enterSeveral(index) {
    const cell = this.#editor.board.cells[index];
    if (cell.block || !mayEdit(this.#editor)) return;
    const typed = await askEntry(this.#editor.entryOf(cell));
    if (typed !== null) await this.#edits.enter(index, typed);
  }

  // Blocks, bars, circles, pencil.

  /**
   * @param {number} index
   * @param {{ isTyped?: boolean, stroke?: object | null }} how
   */
  async toggleBlock(index, { isTyped = false, stroke = null } = {}) {
    const editor = this.#editor;
    const { board } = editor;
    const cell = board.cells[index];
    // letters in pencil go, here and at the images; one in ink only if asked for again
    const isInk = cell.letter && !editor.pencil.has(cell.coordinates);
    if (isInk && this.#blocking !== index) {
      this.#blocking = index;
      return refuse(`${cell.letter} is entered here: once more puts the block in its place`);
    }
    this.#blocking = -1;
    editor.change({ edited: null });
    const block = `block ${cell.coordinates}`;
    let refused = await this.#send(cell.letter ? [`clear ${cell.coordinates}`, block] : [block], { isBlock: true, stroke });
    if (refused === 'Occupied') refused = await this.#blockOver(index, block, stroke);
    if (!refused && isTyped && editor.cursor === index) this.#stepFreely(1);
  }

  // Puts a block where letters are in its way. Those in pencil give way; one in ink is named.
  /**
   * @param {number} index
   * @param {string} block
   * @param {object | null} stroke
   */
  async #blockOver(index, block, stroke) {
    const editor = this.#editor;
    const images = (await editor.orbit(index)).filter((cell) => cell.letter);
    const ink = images.find((cell) => cell.coordinates !== editor.board.cells[index].coordinates && !editor.pencil.has(cell.coordinates));
    if (!ink) return this.#send([...images.map(({ coordinates }) => `clear ${coordinates}`), block], { stroke });
    const [row, column] = placeOf(ink.coordinates);
    refuse(`the letter at row ${row}, column ${column} is in the way of the block's image`);
    return 'Occupied';
  }

  // the cell with a letter in ink that a block is asked for, by index
  #blocking = -1;

  /**
   * @param {number} index
   * @param {string} side
   * @param {object | null} stroke
   */
  toggleBar(index, side, stroke = null) {
    return this.#send([`bar ${this.#editor.board.cells[index].coordinates} ${side}`], { stroke });
  }

  /**
   * @param {number} index
   * @param {object | null} stroke
   */
  toggleCircle(index, stroke = null) {
    return this.#send([`circle ${this.#editor.board.cells[index].coordinates}`], { stroke });
  }

  // Gives a cell the colour of the tool, or takes it away.
  /**
   * @param {number} index
   * @param {object | null} stroke
   */
  toggleColour(index, stroke = null) {
    const cell = this.#editor.board.cells[index];
    if (cell.block) return refuse(refusalText('OnBlock'));
    const { colour } = this.#editor;
    return this.#edits.colour(index, this.#editor.colourOf(cell) === colour ? '' : colour, stroke);
  }

  // Letters in pencil are changed by another fill; the others are locked.
  /**
   * @param {readonly number[]} indices
   * @param {object | null} stroke
   */
  async togglePencil(indices, stroke = null) {
    const editor = this.#editor;
    if (!mayEdit(this.#editor)) return;
    const entered = indices.map((index) => editor.board.cells[index]).filter((cell) => cell.letter).map((cell) => cell.coordinates);
    if (!entered.length) return refuse('there is no letter to lock');
    const pencil = new Set(editor.pencil);
    const isLocked = entered.every((coordinates) => !pencil.has(coordinates));
    for (const coordinates of entered) {
      if (isLocked) pencil.add(coordinates);
      else pencil.delete(coordinates);
    }
    await editor.setPencil(pencil, stroke);
    say(isLocked ? 'in pencil: another fill may change it' : 'locked: another fill keeps it');
  }

  // The lights to fill.

  /** @param {number} index */
  #isWithin(index) {
    if (this.#anchor === null || this.#far === null) return false;
    const { board } = this.#editor;
    const between = (/** @type {number} */ value, /** @type {number} */ one, /** @type {number} */ other) => value >= Math.min(one, other) && value <= Math.max(one, other);
    return between(board.rowOf(index), board.rowOf(this.#anchor), board.rowOf(this.#far)) &&
      between(board.columnOf(index), board.columnOf(this.#anchor), board.columnOf(this.#far));
  }

  /**
   * @param {Direction} direction
   * @param {number} step
   */
  #extend(direction, step) {
    const editor = this.#editor;
    this.#anchor ??= editor.cursor;
    const next = this.#beside(editor.cursor, direction, step);
    if (next < 0) return;
    this.#far = next;
    this.#chooseWithin();
    editor.moveTo(next, direction);
  }

  // Chooses the lights that have at least half of their cells in the rectangle.
  #chooseWithin() {
    const isWithin = (/** @type {Light} */ { cells }) => 2 * cells.filter((index) => this.#isWithin(index)).length >= cells.length;
    const { board } = this.#editor;
    this.#editor.change({ chosen: new Set(board.lights.filter(isWithin).map(({ name }) => name)) });
  }

  #choose() {
    const { light, chosen } = this.#editor;
    if (!light) return;
    this.#editor.change({ chosen: chosen.has(light.name) ? only(chosen, (name) => name !== light.name) : new Set([...chosen, light.name]) });
  }

  #unchoose() {
    const had = this.#anchor !== null || this.#editor.chosen.size > 0;
    this.#anchor = null;
    this.#far = null;
    if (had) this.#editor.change({ chosen: new Set() });
  }

  // The mouse.

  /** @param {PointerEvent} event */
  #indexOf(event) {
    const element = /** @type {HTMLElement | undefined} */ (document.elementFromPoint(event.clientX, event.clientY)?.closest('.cell'));
    return element && this.#root.contains(element) ? Number(element.dataset.index) : -1;
  }

  /** @param {PointerEvent} event */
  #pointerDown(event) {
    const index = this.#indexOf(event);
    if (index < 0 || event.button !== 0) return;
    event.preventDefault();
    if (event.pointerType !== 'touch') this.#root.focus({ preventScroll: true });
    const { tool } = this.#editor;
    if (tool) {
      this.#painting = { tool, isOn: !this.#hasTool(index, tool), done: new Set([index]), at: index, last: Promise.resolve() };
      this.#painting.last = this.#useTool(index, this.#painting);
      return this.#painting.last;
    }
    const editor = this.#editor;
    if (event.shiftKey) {
      editor.moveTo(index);
      return this.#choose();
    }
    this.#unchoose();
    this.#pressed = index;
    const isSame = index === editor.cursor;
    const wasDead = !editor.board.cells[index].block && !editor.board.cells[index].left && !this.isBlank;
    // the first tap only brings up the keyboard
    if (!isSame) editor.moveTo(index);
    else if (event.pointerType !== 'touch' || this.#typing.isActive) this.turn();
    if (wasDead) this.#explain();
  }

  /** @type {number | null} */
  #pressed = null;

  // while a tool is dragged: which one, whether it sets or takes away, and the cells that it was on
  /** @type {Painting | null} */
  #painting = null;

  // Whether a cell has what the tool makes.
  /**
   * @param {number} index
   * @param {Tool} tool
   */
  #hasTool(index, tool) {
    const { board, pencil } = this.#editor;
    const cell = board.cells[index];
    if (tool === 'colour') return this.#editor.colourOf(cell) === this.#editor.colour;
    return tool === 'pencil' ? !pencil.has(cell.coordinates) : Boolean(cell[tool]);
  }

  // Paints from the last cell of the drag to this one.
  /** @param {number} index */
  #paint(index) {
    const painting = this.#painting;
    if (!painting || index < 0 || index === painting.at) return;
    for (const cell of this.#between(painting.at, index)) {
      if (painting.done.has(cell)) continue;
      painting.done.add(cell);
      painting.last = painting.last.then(() => this.#paintCell(cell, painting)).catch(() => {});
    }
    painting.at = index;
  }

  // What an image of an earlier cell has made already stays.
  /**
   * @param {number} index
   * @param {Painting} painting
   */
  #paintCell(index, painting) {
    if (this.#hasTool(index, painting.tool) === painting.isOn) return null;
    return painting.tool !== 'pencil' || this.#editor.board.cells[index].letter ? this.#useTool(index, painting) : null;
  }

  // The cells on a line from one cell, which is left out, to another: a fast drag skips some.
  /**
   * @param {number} from
   * @param {number} to
   */
  #between(from, to) {
    const { board } = this.#editor;
    const [row, column] = [board.rowOf(from), board.columnOf(from)];
    const [down, right] = [board.rowOf(to) - row, board.columnOf(to) - column];
    const steps = Math.max(Math.abs(down), Math.abs(right));
    return Array.from({ length: steps }, (_, at) => board.index(row + Math.round((down * (at + 1)) / steps), column + Math.round((right * (at + 1)) / steps)));
  }

  /** @param {PointerEvent} event */
  #pointerMove(event) {
    if (this.#painting && event.buttons & 1) return this.#paint(this.#indexOf(event));
    if (this.#pressed === null || !(event.buttons & 1)) return;
    const index = this.#indexOf(event);
    if (index < 0 || (index === this.#pressed && this.#anchor === null)) return;
    this.#anchor = this.#pressed;
    if (index === this.#far) return;
    this.#far = index;
    this.#chooseWithin();
  }

  // A tap brings up the keyboard of the screen.
  /** @param {PointerEvent} event */
  #pointerUp(event) {
    // the last moves of a fast drag may not be told
    if (this.#painting) this.#paint(this.#indexOf(event));
    this.#painting = null;
    if (event.pointerType === 'touch' && this.#pressed !== null && this.#anchor === null) {
      this.#typing.focus();
      this.#lay(this.#typing.element, this.#editor.cursor, 1, 1);
    }
    this.#pressed = null;
  }

  // What is painted in one stroke is undone as one, also by a tool that is put away meanwhile.
  /**
   * @param {number} index
   * @param {Painting} stroke
   */
  async #useTool(index, stroke) {
    this.#editor.moveTo(index);
    const tools = {
      block: () => this.toggleBlock(index, { stroke }),
      right: () => this.toggleBar(index, 'right', stroke),
      below: () => this.toggleBar(index, 'below', stroke),
      circle: () => this.toggleCircle(index, stroke),
      colour: () => this.toggleColour(index, stroke),
      pencil: () => this.togglePencil([index], stroke),
    };
    return tools[stroke.tool]?.();
  }
}

// Marks a moment for whoever measures the page. Nothing of it is kept.
/**
 * @param {string} name
 * @param {PerformanceMarkOptions} options
 */
function mark(name, options = {}) {
  performance.mark(name, options);
  performance.clearMarks(name);
}

// How strongly a cell is shaded that has this many letters left, of 26: from 0 to 8.
const DEEPEST = 10;
const shadeOf = (/** @type {number} */ left) => Math.round(DEEPEST * (1 - Math.log(left) / Math.log(26)));
