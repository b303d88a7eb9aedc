// A puzzle to solve: the grid, the clues, and the buttons that check and reveal. It shows a Solving, and is the same in the editor and in a page of its own.
import { brightened } from '../model/colours.js';
import { nodesOfText, put, scrollWithin, speakIn } from '../views/page.js';
import { TypingField } from '../views/typing.js';

const SCOPES = /** @type {const} */ (['letter', 'word', 'puzzle']);
/** @type {Record<string, ['across' | 'down', number]>} */
const ARROWS = { ArrowLeft: ['across', -1], ArrowRight: ['across', 1], ArrowUp: ['down', -1], ArrowDown: ['down', 1] };
const SAID = { solved: 'solved', wrong: 'every cell has a letter, and not all are right', open: '' };
// from so many letters on a cell of several has the smallest type
const MOST_SIZED = 6;

/** @typedef {import('./solving.js').Scope} Scope */

export class SolverView {
  /** @type {import('./solving.js').Solving} */
  #solving;
  root = made('div', 'solver');
  #grid = made('div', 'solver-grid');
  #clue = made('p', 'solver-clue');
  #told = made('p', 'solver-told');
  #several = /** @type {HTMLInputElement} */ (made('input', 'solver-several'));
  #typing = new TypingField((key) => this.#press(key), 'solver-typing');
  /** @type {{ root: HTMLElement, number: HTMLElement, letter: HTMLElement }[]} */
  #cells = [];
  /** @type {Map<string, HTMLElement>} the buttons of clues by the names of their lights */
  #clues = new Map();
  // the button that asks whether it is meant
  /** @type {HTMLElement | null} */
  #armed = null;
  // whether the last press was that of a finger
  #isTouched = false;

  // `changed` is told each change. `leave` is what a button does that leaves the puzzle, if there is to be one.
  /**
   * @param {import('./solving.js').Solving} solving
   * @param {{ changed?: () => void, leave?: (() => void) | null }} actions
   */
  constructor(solving, { changed = () => {}, leave = null } = {}) {
    const { root } = this;
    this.#solving = solving;
    this.changed = changed;
    speakIn(root, solving.puzzle.language);
    root.replaceChildren(this.#head(), this.#tools(leave), this.#clue, this.#main(), this.#foot());
    root.addEventListener('keydown', (event) => this.#key(event));
    // a press elsewhere is no answer
    root.addEventListener('click', ({ target }) => target !== this.#armed && this.#disarm());
    this.show();
  }

  focus() {
    if (!this.#typing.isActive) this.#grid.focus({ preventScroll: true });
  }

  // The parts.

  #head() {
    const { title, author, notes } = this.#solving.puzzle.texts;
    const head = made('div', 'solver-head');
    head.append(made('h1', '', title || 'Crossword'), ...(author ? [made('p', '', author)] : []), ...(notes ? [made('p', 'solver-notes', notes)] : []));
    return head;
  }

  /** @param {(() => void) | null} leave */
  #tools(leave) {
    const tools = made('div', 'solver-tools');
    tools.append(this.#group('Check', (scope) => this.#say(this.#solving.check(scope))), this.#group('Reveal', (scope, button) => this.#reveal(scope, button)));
    // it is always there, since it would tell that some cells have several
    tools.append(this.#severalTool());
    if (leave) tools.append(button('Leave', leave));
    this.#told.setAttribute('role', 'status');
    tools.append(this.#told);
    return tools;
  }

  /**
   * @param {string} name
   * @param {(scope: Scope, pressed: HTMLElement) => void} action
   */
  #group(name, action) {
    const group = made('span', 'solver-group', `${name} `);
    group.setAttribute('role', 'group');
    group.setAttribute('aria-label', name);
    for (const scope of SCOPES) {
      const one = button(scope, () => {
        action(scope, one);
        this.#changed();
        if (one !== this.#armed) this.focus();
      });
      one.dataset.solver = `${name.toLowerCase()}-${scope}`;
      group.append(one);
    }
    return group;
  }

  // A field for several letters in the cell of the cursor.
  #severalTool() {
    const label = made('label', 'solver-group', 'Several letters ');
    Object.assign(this.#several, { maxLength: 20, autocomplete: 'off', spellcheck: false });
    this.#several.addEventListener('change', () => this.#enterSeveral());
    label.append(this.#several);
    return label;
  }

  #enterSeveral() {
    const letters = this.#several.value.replace(/[^A-Za-z]/g, '');
    this.#several.value = '';
    if (!letters) return;
    this.#solving.type(letters);
    this.#changed();
    this.focus();
  }

  // All of a puzzle is shown only at a second press.
  /**
   * @param {Scope} scope
   * @param {HTMLElement} pressed
   */
  #reveal(scope, pressed) {
    if (scope === 'puzzle' && pressed !== this.#armed) {
      this.#disarm();
      this.#armed = pressed;
      pressed.textContent = 'puzzle: sure?';
      return;
    }
    this.#disarm();
    this.#say('');
    this.#solving.reveal(scope);
  }

  #disarm() {
    if (this.#armed) this.#armed.textContent = 'puzzle';
    this.#armed = null;
  }

  #main() {
    const { width, height } = this.#solving.puzzle;
    const grid = this.#grid;
    grid.setAttribute('role', 'grid');
    grid.setAttribute('aria-label', 'Crossword grid');
    grid.tabIndex = 0;
    grid.style.setProperty('--columns', String(width));
    grid.style.setProperty('--rows', String(height));
    for (let row = 0; row < height; row++) {
      const line = made('div', 'solver-row');
      line.setAttribute('role', 'row');
      for (let column = 0; column < width; column++) line.append(this.#cell(row * width + column));
      grid.append(line);
    }
    grid.append(this.#typing.element);
    grid.addEventListener('pointerdown', ({ pointerType }) => {
      this.#isTouched = pointerType === 'touch';
    });
    grid.addEventListener('click', (event) => this.#pointed(event));
    const main = made('div', 'solver-main');
    const lists = made('div', 'solver-clues');
    lists.append(this.#list('across', 'Across'), this.#list('down', 'Down'));
    main.append(grid, lists);
    return main;
  }

  /** @param {number} index */
  #cell(index) {
    const cell = this.#solving.puzzle.cells[index];
    const root = made('div', '');
    root.setAttribute('role', 'gridcell');
    root.dataset.index = String(index);
    root.id = `solver-${index}`;
    const [number, letter] = [made('span', 'solver-number', cell?.number ?? ''), made('span', 'solver-letter')];
    root.append(number, letter);
    if (cell?.colour) root.style.setProperty('--tint', `#${brightened(cell.colour)}`);
    this.#cells.push({ root, number, letter });
    return root;
  }

  /**
   * @param {string} direction
   * @param {string} title
   */
  #list(direction, title) {
    const part = made('section', 'solver-part');
    const list = made('ul', '');
    for (const light of this.#solving.puzzle.lights.filter((one) => one.direction === direction)) {
      const item = button('', () => {
        this.#solving.toLight(light);
        this.#changed();
        this.focus();
      });
      item.append(made('b', '', light.number), ' ', ...nodesOfText(light.clue));
      this.#clues.set(light.name, item);
      const row = made('li', '');
      row.append(item);
      list.append(row);
    }
    part.append(made('h2', '', title), list);
    return part;
  }

  #foot() {
    const { copyright } = this.#solving.puzzle.texts;
    const foot = made('div', 'solver-foot');
    const keys = 'Keys: arrows turn and move, Enter turns, Tab goes to the next word, Space and Backspace empty cells, Esc leads to the buttons.';
    foot.append(...[copyright, keys].filter(Boolean).map((text) => made('p', '', text)));
    return foot;
  }

  // What is shown.

  show() {
    for (const index of this.#cells.keys()) this.#paint(index);
    const { light, cursor } = this.#solving;
    this.#grid.setAttribute('aria-activedescendant', `solver-${cursor}`);
    this.#clue.replaceChildren(...(light ? [made('b', '', `${light.number} ${light.direction === 'across' ? 'Across' : 'Down'}`), ' ', ...nodesOfText(light.clue)] : []));
    for (const [name, item] of this.#clues) {
      item.classList.toggle('here', name === light?.name);
      item.classList.toggle('other', name === this.#solving.crossing?.name);
    }
    const item = light && this.#clues.get(light.name);
    const part = item?.closest('.solver-part');
    if (item && part) scrollWithin(/** @type {HTMLElement} */ (part), item);
  }

  /** @param {number} index */
  #paint(index) {
    const { puzzle, entries, wrong, revealed, cursor, light } = this.#solving;
    const cell = puzzle.cells[index];
    const { root, letter } = this.#cells[index];
    const classes = ['solver-cell'];
    const add = (/** @type {unknown} */ isSo, /** @type {string} */ name) => isSo && classes.push(name);
    add(!cell, 'block');
    add(cell?.right, 'right');
    add(cell?.below, 'below');
    add(cell?.circle, 'circled');
    add(cell?.colour, 'tinted');
    add(light?.cells.includes(index), 'here');
    add(index === cursor, 'cursor');
    add(wrong.has(index), 'wrong');
    add(revealed.has(index), 'revealed');
    add(entries[index].length > 1, `several-${Math.min(entries[index].length, MOST_SIZED)}`);
    put(root, 'className', classes.join(' '));
    put(letter, 'textContent', entries[index]);
    const name = this.#nameOf(index);
    if (root.getAttribute('aria-label') !== name) root.setAttribute('aria-label', name);
  }

  /** @param {number} index */
  #nameOf(index) {
    const { puzzle: { cells, width }, entries, wrong, revealed } = this.#solving;
    const cell = cells[index];
    const words = [`row ${Math.floor(index / width) + 1}, column ${(index % width) + 1}`];
    if (!cell) return `${words[0]}, block`;
    if (cell.number) words.push(`number ${cell.number}`);
    words.push(entries[index] || 'empty');
    if (wrong.has(index)) words.push('wrong');
    if (revealed.has(index)) words.push('revealed');
    if (cell.circle) words.push('circled');
    return words.join(', ');
  }

  /** @param {string} text */
  #say(text) {
    put(this.#told, 'textContent', text);
  }

  // Shows what is there after an action, and says it if the puzzle is solved or full.
  #changed() {
    this.show();
    this.changed();
  }

  #entered() {
    this.#say(SAID[this.#solving.state]);
    this.#changed();
  }

  // Keys and touches.

  /** @param {KeyboardEvent} event */
  #key(event) {
    const isField = event.target === this.#several;
    if (event.ctrlKey || event.metaKey || event.altKey || (isField && event.key !== 'Enter')) return;
    if (isField) {
      event.preventDefault();
      this.#enterSeveral();
      return;
    }
    if (!this.#grid.contains(/** @type {Node} */ (event.target))) return;
    if (this.#press(event.key, event.shiftKey)) event.preventDefault();
    if (event.key !== 'Escape') return;
    // Tab goes on from light to light, so this leads out of the grid; another Esc leaves a dialog
    event.preventDefault();
    /** @type {HTMLElement} */ (this.root.querySelector('.solver-tools button')).focus();
  }

  // Does what a key does; returns whether it does anything.
  /**
   * @param {string} key
   * @param {boolean} isShifted
   */
  #press(key, isShifted = false) {
    const solving = this.#solving;
    /** @type {Record<string, () => void>} */
    const moves = {
      Tab: () => solving.nextLight(isShifted ? -1 : 1), Enter: () => solving.turn(), Home: () => solving.toEnd(0), End: () => solving.toEnd(-1),
      ...Object.fromEntries(Object.entries(ARROWS).map(([name, [direction, step]]) => [name, () => solving.arrow(direction, step)])),
    };
    /** @type {Record<string, (() => void) | undefined>} */
    const edits = { ' ': () => solving.clear(1), Delete: () => solving.clear(), Backspace: () => solving.backspace() };
    const edit = /^[a-zA-Z]$/.test(key) ? () => solving.type(key) : edits[key];
    this.#disarm();
    (edit ?? moves[key])?.();
    if (edit) this.#entered();
    else if (key in moves) this.#changed();
    return edit !== undefined || key in moves;
  }

  /** @param {Event} event */
  #pointed(event) {
    const cell = /** @type {HTMLElement} */ (event.target).closest('[data-index]');
    if (!cell) return;
    const solving = this.#solving;
    const index = Number(/** @type {HTMLElement} */ (cell).dataset.index);
    if (index === solving.cursor) solving.turn();
    else solving.moveTo(index);
    // the keyboard of a screen comes up for a text field only
    if (this.#isTouched) this.#typing.focus();
    else this.focus();
    this.#changed();
  }
}

/**
 * @param {string} name
 * @param {string} className
 * @param {string} text
 */
function made(name, className, text = '') {
  return Object.assign(document.createElement(name), { className, textContent: text });
}

/**
 * @param {string} text
 * @param {() => void} action
 */
function button(text, action) {
  const one = Object.assign(made('button', '', text), { type: 'button' });
  one.addEventListener('click', action);
  return one;
}
