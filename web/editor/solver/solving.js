// What a solver has entered in a puzzle, where the cursor is, and what was checked and revealed. It knows nothing of a page.

/** @typedef {import('./puzzle.js').SolverPuzzle} SolverPuzzle */
/** @typedef {'letter' | 'word' | 'puzzle'} Scope what is checked or revealed */
// What a page keeps of a solving.
/** @typedef {{ entries: string[], revealed: number[] }} Kept */

const LETTERS = /^[A-Z]{0,20}$/;
const OTHER = /** @type {const} */ ({ across: 'down', down: 'across' });

export class Solving {
  cursor = 0;
  /** @type {'across' | 'down'} */
  direction = 'across';
  /** @type {Set<number>} cells whose letters were checked and are wrong */
  wrong = new Set();
  /** @type {Set<number>} */
  revealed = new Set();

  /** @param {SolverPuzzle} puzzle */
  constructor(puzzle) {
    this.puzzle = puzzle;
    /** @type {string[]} the letters of each cell; '' is none */
    this.entries = puzzle.cells.map(() => '');
    /** @type {Partial<Record<'across' | 'down', import('./puzzle.js').SolverLight>>[]} the lights through each cell */
    this.through = puzzle.cells.map(() => ({}));
    for (const light of puzzle.lights) for (const cell of light.cells) this.through[cell][light.direction] = light;
    if (puzzle.lights.length) this.toLight(puzzle.lights[0]);
  }

  // The light of the cursor, or null.
  get light() {
    return this.through[this.cursor]?.[this.direction] ?? null;
  }

  get crossing() {
    return this.through[this.cursor]?.[OTHER[this.direction]] ?? null;
  }

  // Goes to a cell, in a direction that it has a light in, if it has one.
  /** @param {number} index */
  moveTo(index, direction = this.direction) {
    if (!this.puzzle.cells[index]) return;
    this.cursor = index;
    this.direction = !this.through[index][direction] && this.through[index][OTHER[direction]] ? OTHER[direction] : direction;
  }

  // Goes to the first empty cell of a light, or to its first one.
  /** @param {import('./puzzle.js').SolverLight} light */
  toLight(light) {
    this.moveTo(light.cells.find((cell) => !this.entries[cell]) ?? light.cells[0], light.direction);
  }

  turn() {
    if (this.crossing) this.direction = OTHER[this.direction];
  }

  // Turns, or goes to the next cell that is no block.
  /**
   * @param {'across' | 'down'} direction
   * @param {number} step
   */
  arrow(direction, step) {
    if (direction !== this.direction && this.crossing) return this.turn();
    const { width, cells } = this.puzzle;
    const isBeyond = (/** @type {number} */ index) => index < 0 || index >= cells.length || (direction === 'across' && Math.floor(index / width) !== Math.floor(this.cursor / width));
    const stride = direction === 'across' ? step : step * width;
    let next = this.cursor + stride;
    while (!isBeyond(next) && !cells[next]) next += stride;
    return isBeyond(next) ? undefined : this.moveTo(next, direction);
  }

  // Goes so many lights on, those across first.
  /** @param {number} step */
  nextLight(step) {
    const { lights } = this.puzzle;
    const at = lights.findIndex((light) => light === this.light);
    if (lights.length) this.toLight(lights[(at + step + lights.length) % lights.length]);
  }

  // Goes to the first cell of the light, or to its last one.
  /** @param {number} at */
  toEnd(at) {
    const cell = this.light?.cells.at(at);
    if (cell !== undefined) this.moveTo(cell);
  }

  // Goes to the cell beside the cursor in its light; at the end it stays.
  /** @param {number} step */
  #step(step) {
    const cells = this.light?.cells ?? [];
    const next = cells[cells.indexOf(this.cursor) + step];
    if (next !== undefined) this.moveTo(next);
  }

  // Enters letters into the cell of the cursor, and steps on. What is revealed stays.
  /** @param {string} letters */
  type(letters) {
    this.#set(this.cursor, letters.toUpperCase());
    this.#step(1);
  }

  /**
   * @param {number} index
   * @param {string} letters
   */
  #set(index, letters) {
    if (!this.puzzle.cells[index] || this.revealed.has(index) || !LETTERS.test(letters)) return;
    this.entries[index] = letters;
    this.wrong.delete(index);
  }

  // Empties the cell of the cursor, and steps on if that is wished.
  /** @param {number} step */
  clear(step = 0) {
    this.#set(this.cursor, '');
    if (step) this.#step(step);
  }

  // Empties the cell of the cursor, or if there is nothing to empty, the one before.
  backspace() {
    if (!this.entries[this.cursor] || this.revealed.has(this.cursor)) this.#step(-1);
    this.clear();
  }

  /** @param {Scope} scope */
  cellsIn(scope) {
    if (scope === 'letter') return this.puzzle.cells[this.cursor] ? [this.cursor] : [];
    if (scope === 'word') return this.light?.cells ?? [];
    return [...this.puzzle.cells.keys()].filter((cell) => this.puzzle.cells[cell]);
  }

  // Whether a cell has what it should have. Of several letters the first one will do.
  /** @param {number} index */
  isRight(index) {
    const solution = this.puzzle.cells[index]?.solution ?? '';
    return this.entries[index] === solution || (solution.length > 1 && this.entries[index] === solution[0]);
  }

  // Marks wrong letters; returns what is said of it.
  /** @param {Scope} scope */
  check(scope) {
    const entered = this.cellsIn(scope).filter((cell) => this.entries[cell]);
    const wrong = entered.filter((cell) => !this.isRight(cell));
    for (const cell of wrong) this.wrong.add(cell);
    if (!entered.length) return 'there is no letter to check';
    if (wrong.length) return wrong.length === 1 ? '1 letter is wrong' : `${wrong.length} letters are wrong`;
    return entered.length === 1 ? 'the letter is right' : `all ${entered.length} letters are right`;
  }

  // Shows what belongs into cells, which stays.
  /** @param {Scope} scope */
  reveal(scope) {
    for (const cell of this.cellsIn(scope).filter((one) => !this.isRight(one))) {
      this.#set(cell, this.puzzle.cells[cell]?.solution ?? '');
      this.revealed.add(cell);
    }
  }

  // How the solving is: `solved`, `wrong` where all cells have letters and not all are right, or `open`.
  get state() {
    const cells = this.cellsIn('puzzle');
    if (cells.every((cell) => this.isRight(cell))) return 'solved';
    return cells.every((cell) => this.entries[cell]) ? 'wrong' : 'open';
  }

  /** @returns {Kept} */
  get kept() {
    return { entries: this.entries, revealed: [...this.revealed] };
  }

  // Takes over what a page kept of this puzzle, if it is that.
  /** @param {any} kept */
  takeKept(kept) {
    const { entries, revealed } = kept ?? {};
    if (!Array.isArray(entries) || entries.length !== this.entries.length || !Array.isArray(revealed)) return;
    entries.forEach((letters, index) => typeof letters === 'string' && this.#set(index, letters));
    for (const cell of revealed) if (this.puzzle.cells[cell] && this.entries[cell]) this.revealed.add(cell);
  }
}
