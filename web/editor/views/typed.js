// Typing into the texts of the puzzle: clues, notes, title and so on. A text is taken over a second after the last key, and when its field is left, so
// that the browser keeps it as it keeps letters. Typing in one run is one step of the history. A run ends when the cursor is moved within the field, when
// the field is left, and by Undo.

// how long after the last key a text is taken over, in milliseconds
const SETTLED = 1000;
const TEXTS = '#clue-list textarea, #clue-list .note, .fields :is(input, textarea)';
// a link or a comment means something once it is whole
const WHOLE = '#clue-list :is(.links, .comment)';

// Whether Undo in a field goes back in the history of the puzzle: in its texts, but not in a link or a comment that is half typed.
/** @param {HTMLElement & { value?: string }} field */
export const hasUndoOfPuzzle = (field) => field.matches(TEXTS) || (field.matches(WHOLE) && field.value === field.dataset.kept);

// A run of typing: the cursor after its last key, or null before the first one, and whether an edit of it was made.
/** @typedef {{ caret: number | null, isMade: Promise<boolean> | null }} Run */

/** @typedef {import('../model/board.js').Light} Light */

/** @returns {Run} */
const newRun = () => ({ caret: null, isMade: null });

export class Typed {
  /** @type {import('../model/editor.js').Editor} */
  #editor;
  #edits;
  #leaving;
  // the field that is in use, and the runs since it was entered
  /** @type {HTMLInputElement | null} */
  #field = null;
  /** @type {Run[]} */
  #runs = [];
  #timer = 0;
  // what goes on once the fill has ended that has the engine
  /** @type {(() => void)[]} */
  #waiting = [];

  // A field takes its text over at the event `change`.
  /**
   * @param {import('../model/editor.js').Editor} editor
   * @param {import('./edits.js').Edits} edits
   * @param {import('./leaving.js').Leaving} leaving
   */
  constructor(editor, edits, leaving) {
    this.#editor = editor;
    this.#edits = edits;
    this.#leaving = leaving;
    document.addEventListener('focusin', ({ target }) => this.#begin(/** @type {Element} */ (target)));
    document.addEventListener('focusout', () => this.#end());
    document.addEventListener('beforeinput', (event) => this.#before(event));
    for (const kind of ['input', 'compositionend']) document.addEventListener(kind, (event) => this.#typed(/** @type {InputEvent} */ (event)));
    editor.on(['leaving'], () => this.take());
    editor.on(['left'], () => this.startAnew());
    editor.on(['fill'], () => !editor.fill.isRunning && this.#goOn());
  }

  // Has the puzzle take over what the field in use holds. The field stays as it is.
  take() {
    clearTimeout(this.#timer);
    const field = document.activeElement;
    if (field?.matches(`${TEXTS}, ${WHOLE}`)) field.dispatchEvent(new Event('change', { bubbles: true }));
  }

  // Each of these takes over what is typed in an element: the text of a field, or what belongs to the clue of a light. It promises what that is refused for, or
  // null.

  /**
   * @param {HTMLElement} element
   * @param {string} field
   * @param {string} text
   */
  text(element, field, text) {
    return this.#edit(element, (run) => this.#edits.text(field, text, run));
  }

  /**
   * @param {HTMLElement} element
   * @param {Light} light
   * @param {string} text
   */
  note(element, light, text) {
    return this.#edit(element, (run) => this.#edits.note(light, text, run));
  }

  /**
   * @param {HTMLElement} element
   * @param {Light} light
   * @param {string} text
   */
  link(element, light, text) {
    return this.#edit(element, (run) => this.#edits.link(light, text, run));
  }

  /**
   * @param {HTMLElement} element
   * @param {Light} light
   * @param {string} text
   */
  comments(element, light, text) {
    return this.#edit(element, () => this.#edits.comments(light, text));
  }

  // Makes an edit of what is typed in a field: `action` gets the run, whose edits are one step.
  /**
   * @param {HTMLElement} field
   * @param {(run: Run | null) => Promise<string | null>} action
   * @returns {Promise<string | null>}
   */
  #edit(field, action) {
    const run = this.#runIn(field);
    const refused = this.#editor.fill.isRunning ? new Promise((resolve) => this.#waiting.push(() => resolve(action(run)))) : action(run);
    if (run) run.isMade = Promise.all([run.isMade, refused]).then(([isMade, why]) => isMade || why === null);
    return refused;
  }

  // Makes the edits that waited for the end of a fill.
  #goOn() {
    for (const edit of this.#waiting.splice(0)) edit();
  }

  // What takes back all that was typed since the field was entered; or null.
  get takeBack() {
    const made = this.#runs.map(({ isMade }) => isMade).filter(Boolean);
    if (!made.length) return null;
    return async () => {
      for (const isMade of made) if (await isMade) await this.#editor.undo();
    };
  }

  // Leaves a field of texts by Esc. Another Esc takes back what was typed.
  /** @param {KeyboardEvent} event */
  leave(event) {
    const { takeBack } = this;
    this.#editor.do('toGrid');
    if (!takeBack) return;
    event.stopPropagation();
    this.#leaving.kept(takeBack);
  }

  // The field whose text may not be whole yet, or null.
  get unfinished() {
    return this.#runs.some(({ caret }) => caret !== null) ? this.#field : null;
  }

  // The run of a field, or null if that is not in use. A window that is not in front is told of no focus.
  /** @param {Element} field */
  #runIn(field) {
    if (field !== this.#field && field === document.activeElement) this.#begin(field);
    return field === this.#field ? this.#runs.at(-1) ?? null : null;
  }

  /** @param {Element} field */
  #begin(field) {
    this.#field = field.matches(`${TEXTS}, ${WHOLE}`) ? /** @type {HTMLInputElement} */ (field) : null;
    this.startAnew();
  }

  // Ends what was typed, as Undo does.
  startAnew() {
    this.#runs = this.#field ? [newRun()] : [];
  }

  #end() {
    clearTimeout(this.#timer);
    const isFinished = this.unfinished !== null;
    this.#field = null;
    this.#runs = [];
    if (isFinished) this.#editor.do('bankClues');
  }

  // A key elsewhere than behind the last one begins another run.
  /** @param {InputEvent} event */
  #before({ target: element, isComposing }) {
    const target = /** @type {HTMLInputElement} */ (element);
    const caret = this.#runIn(target)?.caret ?? null;
    if (isComposing || caret === null || !target.matches(TEXTS)) return;
    if (target.selectionStart === caret && target.selectionEnd === caret) return;
    this.take();
    this.#runs.push(newRun());
  }

  /** @param {InputEvent} event */
  #typed({ target: element, isComposing }) {
    const target = /** @type {HTMLInputElement} */ (element);
    const run = this.#runIn(target);
    if (!run || isComposing) return;
    run.caret = target.selectionEnd;
    if (target.matches(TEXTS)) this.#soon();
  }

  #soon() {
    clearTimeout(this.#timer);
    this.#timer = window.setTimeout(() => this.take(), SETTLED);
  }
}
