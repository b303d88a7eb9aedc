// The tab of clues: one list of all lights, with a field for each, and what belongs to the clue of the light under the cursor.
import { hasEnumeration, withEnumeration } from '../model/enumeration.js';
import { hasItalics, toggledItalics } from '../model/marks.js';
import { termed } from '../model/terms.js';
import { staleClues, staleWord } from '../model/written.js';
import { ClueMore } from './clue-more.js';
import { OldClues } from './old-clues.js';
import { nodesOfText, pressed, put, scrollWithin, speakIn } from './page.js';
import { titleOf } from './words.js';

/** @typedef {import('../model/board.js').Light} Light */
/** @typedef {HTMLTextAreaElement} ClueField */
/**
 * @typedef {{ row: HTMLElement, field: ClueField, length: HTMLButtonElement, stale: string } & Record<'word' | 'italics' | 'kept' | 'comments' | 'note', HTMLElement>} Entry
 */

export class CluesView {
  /** @type {import('../model/editor.js').Editor} */
  #editor;
  #root;
  #summary;
  #lengths;
  #edits;
  #typing;
  // the names of the lights that have fields, and these by name
  #names = '';
  /** @type {Map<string, Entry>} */
  #fields = new Map();
  #due = 0;
  /** @type {Entry | null} */
  #here = null;
  /** @type {Entry | null} */
  #crossing = null;
  #old;
  #more;
  // whether the tab is in sight
  isShown = false;
  // ends when the lengths are there that are being added
  lengthsAdded = Promise.resolve();

  // `lengths` is the button that adds enumerations, and `words` has the words of the lists.
  /**
   * @param {import('../model/editor.js').Editor} editor
   * @param {{ list: HTMLElement, summary: HTMLElement, lengths: HTMLButtonElement }} elements
   * @param {import('./edits.js').Edits} edits
   * @param {import('./typed.js').Typed} typed
   * @param {import('../store/clue-bank.js').ClueBank} bank
   * @param {import('../engine/all-words.js').AllWords} words
   */
  constructor(editor, { list: root, summary, lengths }, edits, typed, bank, words) {
    this.#editor = editor;
    this.#root = root;
    this.#summary = summary;
    this.#lengths = lengths;
    this.#edits = edits;
    this.#typing = typed;
    this.#old = new OldClues(editor, bank);
    this.#more = new ClueMore(editor, typed, words, (light) => light && this.#toggleItalics(this.#entryOf(light).field));
    editor.takes({ unfinishedClue: () => this.#unfinished });
    lengths.addEventListener('click', () => {
      const added = this.lengthsAdded.then(() => this.#addLengths());
      // a failure, of which the engine tells, holds nothing up
      this.lengthsAdded = added.catch(() => {});
    });
    root.addEventListener('click', (event) => this.#click(pressed(event, 'button')));
    root.addEventListener('input', ({ target }) => this.#typed(/** @type {ClueField} */ (target)));
    editor.on(['board', 'written'], () => this.draw());
    editor.on(['letters'], () => this.#wordsSoon());
    editor.on(['cursor'], () => this.#mark());
    root.addEventListener('keydown', (event) => this.#key(event));
    root.addEventListener('change', ({ target }) => this.#change(/** @type {ClueField} */ (target)));
    root.addEventListener('focusin', ({ target }) => this.#focused(/** @type {HTMLElement} */ (target)));
    root.addEventListener('focusout', ({ target }) => this.#leave(/** @type {ClueField} */ (target)));
    editor.on(['left'], () => this.#forgetTyped());
  }

  // The row of a light, with what is in it.
  /** @param {Light} light */
  #entryOf({ name }) {
    return /** @type {Entry} */ (this.#fields.get(name));
  }

  draw() {
    const { board } = this.#editor;
    const { heads, headOf } = this.#editor.links;
    const names = [board.lights.map((light) => light.name), [...heads].flat(2).map(({ name }) => name)].join();
    const left = names === this.#names ? null : this.#fieldInUse;
    if (names !== this.#names) this.#make(names, headOf);
    for (const light of board.lights) {
      labelLength(this.#entryOf(light).length, light, [light, ...(heads.get(light) ?? [])].map((one) => this.#editor.answerOf(one)).join('').length);
      if (!this.#underWay.has(light.name)) this.#showText(light);
    }
    if (left) this.#goOn(left);
    speakIn(this.#root, this.#editor.language);
    this.#lengths.disabled = !this.#withoutLengths.length;
    this.#words();
    this.#mark();
  }

  // The field that has the focus, or null.
  get #fieldInUse() {
    const element = /** @type {HTMLInputElement} */ (document.activeElement);
    return element?.dataset.light && this.#root.contains(element) ? element : null;
  }

  // Goes on in the clue of the same light after the fields were made anew, with what was typed, or in another clue if the light is gone.
  /** @param {HTMLInputElement} left */
  #goOn(left) {
    const light = this.#editor.board.byName.get(left.dataset.light ?? '') ?? null;
    this.open(light);
    const field = light && this.#entryOf(light).field;
    if (!field || left.value === left.dataset.kept) return;
    field.value = left.value;
    field.dispatchEvent(new InputEvent('input', { bubbles: true }));
  }

  // how many edits of a clue are not answered yet, by the name of its light: until they are, its field shows what was typed
  /** @type {Map<string, number>} */
  #underWay = new Map();

  /** @param {Light} light */
  #showText(light) {
    const { field } = this.#entryOf(light);
    // as the browser shows it
    const text = this.#editor.textOf(`clue ${light.name}`).replace(/\r\n?/g, '\n');
    if (document.activeElement !== field || field.dataset.kept !== text) field.value = text;
    field.dataset.kept = text;
    this.#typed(field);
    this.#showNote(light);
  }

  // The private note and the comments, below their clue.
  /** @param {Light} light */
  #showNote(light) {
    const { kept, comments } = this.#entryOf(light);
    put(kept, 'textContent', this.#editor.noteOf(light));
    put(comments, 'textContent', this.#editor.commentsOn(light).join('\n'));
  }

  // What follows from the text of a field: its height, the button of its length, and how its italics look.
  /** @param {ClueField} field */
  #typed(field) {
    const { italics } = this.#fields.get(field.dataset.light ?? '') ?? {};
    if (!italics) return;
    this.#showLength(field);
    italics.replaceChildren(...(hasItalics(field.value) ? nodesOfText(field.value) : []));
    this.#grow(field);
  }

  // A field is as high as its text, where the browser does not see to that.
  /** @param {ClueField} field */
  #grow(field) {
    if (CSS.supports('field-sizing', 'content') || !field.clientHeight) return;
    field.style.height = 'auto';
    field.style.height = `${field.scrollHeight + field.offsetHeight - field.clientHeight}px`;
  }

  // It is typing too, as far as others hear of it.
  /** @param {ClueField} field */
  #toggleItalics(field) {
    const { text, start, end } = toggledItalics(field.value, field.selectionStart, field.selectionEnd);
    field.focus();
    field.dispatchEvent(new InputEvent('beforeinput', { bubbles: true, inputType: 'formatItalic' }));
    field.value = text;
    field.setSelectionRange(start, end);
    field.dispatchEvent(new InputEvent('input', { bubbles: true, inputType: 'formatItalic' }));
  }

  /**
   * @param {string} names
   * @param {Map<Light, Light>} headOf
   */
  #make(names, headOf) {
    this.#names = names;
    this.#fields.clear();
    this.#old.end();
    const part = (/** @type {Light['direction']} */ direction, /** @type {string} */ title) => {
      const rows = this.#editor.board.lights.filter((light) => light.direction === direction).map((light) => this.#row(light, headOf.get(light)));
      return box('clue-part', Object.assign(document.createElement('h3'), { textContent: title }), ...rows);
    };
    this.#root.replaceChildren(box('clue-parts', part('across', 'Across'), part('down', 'Down')));
  }

  // `head` is the light whose clue goes on in this one, if there is one: the clue leads to it.
  /**
   * @param {Light} light
   * @param {Light | undefined} head
   */
  #row(light, head) {
    const row = document.createElement('label');
    row.className = head ? 'clue linked' : 'clue';
    const { numbers } = this.#editor.cluedBy(light);
    const span = (/** @type {string} */ className) => Object.assign(document.createElement('span'), { className });
    const number = Object.assign(document.createElement('b'), { textContent: numbers });
    const [word, italics, kept, comments, note] = ['word', 'italics', 'kept-note', 'kept-comments', 'written'].map((name) => span(name));
    note.id = `written-${light.number}-${light.direction}`;
    const field = makeField(light, note.id);
    field.readOnly = Boolean(head);
    const length = makeLength();
    length.hidden = Boolean(head);
    row.append(number, word, field, length, italics, kept, comments, note);
    this.#fields.set(light.name, { row, word, field, length, italics, kept, comments, note, stale: '' });
    return row;
  }

  // The button of a length can be pressed while the clue has no enumeration.
  /** @param {ClueField} field */
  #showLength(field) {
    const { length } = this.#fields.get(field.dataset.light ?? '') ?? {};
    if (length) length.disabled = !field.value.trim() || hasEnumeration(field.value);
  }

  /** @param {HTMLElement | null} button */
  #click(button) {
    if (!button) return;
    const { keep, drop, use } = button.dataset;
    if (button.className === 'length') return this.#addLength(/** @type {ClueField} */ (button.parentElement?.querySelector('textarea')));
    if (this.#more.root.contains(button)) return;
    const light = this.#editor.board.byName.get(keep ?? drop ?? use ?? '');
    if (!light) return;
    // the button goes
    this.#entryOf(light).field.focus();
    if (keep) this.#edits.keepClue(light);
    else this.#edits.useClue(light, drop ? '' : button.textContent ?? '');
  }

  // Puts the length of a light at the end of its clue, and selects it, so that another one can be typed over it, such as 3,5.
  /** @param {ClueField} field */
  #addLength(field) {
    const light = this.#editor.board.byName.get(field.dataset.light ?? '');
    if (!light) return;
    field.value = withEnumeration(field.value, this.#editor.cluedBy(light).answer.length);
    this.#typed(field);
    this.#change(field);
    field.focus();
    field.setSelectionRange(field.value.lastIndexOf('(') + 1, field.value.length - 1);
  }

  // The lights whose clues have a text and no enumeration.
  get #withoutLengths() {
    return this.#editor.board.lights.filter((light) => {
      const { value, readOnly } = this.#entryOf(light).field;
      return value.trim() && !readOnly && !hasEnumeration(value);
    });
  }

  // Adds the enumerations that lists show: of the whole answer, or else of each light that the clue is for.
  async #addLengths() {
    const editor = this.#editor;
    const { puzzle } = editor;
    const partsOf = (/** @type {Light} */ light) => editor.cluedWith(light).map((one) => editor.answerOf(one));
    const known = await editor.do('enumerations', this.#withoutLengths.map(partsOf).flatMap((parts) => [parts.join(''), ...parts]));
    // these clues are no longer here
    if (editor.puzzle !== puzzle) return;
    const lengthsOf = (/** @type {string[]} */ parts) => known.get(parts.join('')) ?? (parts.every((part) => known.has(part)) ? parts.map((part) => known.get(part)).join(',') : null);
    const due = this.#withoutLengths.map((light) => ({ light, lengths: lengthsOf(partsOf(light)) }));
    const texts = due.flatMap(({ light, lengths }) => (lengths ? [/** @type {[string, string]} */ ([editor.board.clueField(light), withEnumeration(this.#entryOf(light).field.value, lengths)])] : []));
    await this.#edits.addLengths(texts, due.length - texts.length);
  }

  // Letters come one after another: the words are shown once for those of a frame, and only in sight.
  #wordsSoon() {
    if (this.#due || !this.isShown) return;
    this.#due = requestAnimationFrame(() => {
      this.#due = 0;
      this.#words();
    });
  }

  // Shows what changed while the tab was out of sight.
  shown() {
    this.isShown = true;
    for (const { field } of this.#fields.values()) this.#grow(field);
    this.#words();
    this.#mark();
  }

  #words() {
    const { board } = this.#editor;
    for (const light of board.lights) {
      const { word } = this.#entryOf(light);
      put(word, 'textContent', this.#editor.answerOf(light).replaceAll('.', '·'));
      word.classList.toggle('entered', board.isEntered(light));
      this.#showWritten(light);
    }
    const lacking = board.lights.filter((light) => !board.hasClue(light)).length;
    const stale = staleClues(this.#editor).length;
    const told = lacking ? `${board.lights.length - lacking} of ${board.lights.length} lights have a clue` : 'every light has a clue';
    put(this.#summary, 'textContent', termed(stale ? `${told}; ${stale} ${stale === 1 ? 'is' : 'are'} for another word` : told));
    this.#showOld();
  }

  // Marks a clue that was written for another word, with what can be done.
  /** @param {Light} light */
  #showWritten(light) {
    const { board, written } = this.#editor;
    const entry = this.#entryOf(light);
    const word = staleWord(board, light, written);
    if (entry.stale === word) return;
    entry.stale = word;
    entry.row.classList.toggle('stale', Boolean(word));
    entry.note.replaceChildren(...(word ? [`Written for ${word}: `, dataButton('Keep', { keep: light.name }), ' ', dataButton('Drop', { drop: light.name })] : []));
  }

  // Shows how the word of the cursor's light was clued before.
  #showOld() {
    const { light } = this.#editor;
    this.#old.show(this.isShown ? light : null, (light && this.#fields.get(light.name)?.row) ?? null);
  }

  #mark() {
    const { light, crossing } = this.#editor;
    const [here, other] = [light, crossing].map((one) => (one && this.#fields.get(one.name)) ?? null);
    this.#here = marked(this.#here, here, 'here');
    this.#crossing = marked(this.#crossing, other, 'crossing');
    this.#showOld();
    this.#more.show(here && this.isShown ? light : null, here?.row);
    if (!this.isShown) return;
    if (here && !this.#root.contains(document.activeElement)) [this.#root, columnOf(here)].forEach((column) => scrollWithin(column, here.row));
    if (other) scrollWithin(columnOf(other), other.row);
  }

  /** @param {HTMLElement} field */
  #focused(field) {
    const light = this.#editor.board.byName.get(field.dataset.light ?? '');
    if (light && light !== this.#editor.light) this.#editor.moveTo(light.cells[0], light.direction);
  }

  /** @param {KeyboardEvent} event */
  #key(event) {
    const target = /** @type {ClueField} */ (event.target);
    if (target.dataset.light && (event.ctrlKey || event.metaKey) && event.key.toLowerCase() === 'i') {
      event.preventDefault();
      return this.#toggleItalics(target);
    }
    return this.#step(event);
  }

  /** @param {KeyboardEvent} event */
  #step(event) {
    /** @type {Record<string, number>} */
    const steps = { Enter: event.shiftKey ? -1 : 1, ArrowDown: 1, ArrowUp: -1 };
    const step = steps[event.key];
    const target = /** @type {ClueField} */ (event.target);
    if (!target.dataset.light) return;
    if (event.key === 'Escape') {
      this.#change(target);
      this.#typing.leave(event);
    }
    if (!step || event.isComposing) return;
    event.preventDefault();
    const fields = [...this.#root.querySelectorAll('textarea')];
    const next = fields[(fields.indexOf(target) + step + fields.length) % fields.length];
    if (next === target) next.blur();
    next.focus();
    next.select();
  }

  // Goes to the clue of a light, or of the first one without.
  /** @param {Light | null} light */
  open(light) {
    const field = this.#fields.get((light ?? this.#lacking())?.name ?? '')?.field;
    field?.focus();
    field?.select();
  }

  #lacking() {
    const { board } = this.#editor;
    return board.lights.find((light) => !board.hasClue(light)) ?? board.lights[0];
  }

  // Takes over what a field holds, if that is another clue. The field stays as it is.
  /** @param {ClueField} field */
  #change(field) {
    const light = this.#editor.board.byName.get(field.dataset.light ?? '');
    const text = clueIn(field);
    if (!light || [field.value, text].includes(field.dataset.kept ?? '')) return;
    field.dataset.kept = text;
    this.#send(field, light, text);
  }

  // Takes over what a field that is left holds, and shows it so.
  /** @param {ClueField} field */
  #leave(field) {
    if (!field.dataset.light) return;
    this.#change(field);
    if (field.value !== field.dataset.kept && clueIn(field) === field.dataset.kept) {
      field.value = field.dataset.kept ?? '';
      this.#typed(field);
    }
  }

  // What is typed belongs to the puzzle that was here.
  #forgetTyped() {
    for (const { field } of this.#fields.values()) {
      if (field.value === field.dataset.kept) continue;
      field.value = field.dataset.kept ?? '';
      this.#typed(field);
    }
  }

  // The name that records have for the clue that is being typed; or ''.
  get #unfinished() {
    const light = this.#editor.board.byName.get(this.#typing.unfinished?.dataset.light ?? '');
    return light ? this.#editor.board.clueField(light) : '';
  }

  /**
   * @param {ClueField} field
   * @param {Light} light
   * @param {string} text
   */
  async #send(field, light, text) {
    const { name } = light;
    const count = (/** @type {number} */ step) => this.#underWay.set(name, (this.#underWay.get(name) ?? 0) + step).get(name);
    count(1);
    const refused = await this.#typing.text(field, this.#editor.board.clueField(light), text);
    if (count(-1)) return;
    this.#underWay.delete(name);
    const now = this.#editor.board.byName.get(name);
    // what was refused stays in its field, so that it can be tried again
    if (refused) field.dataset.kept = this.#editor.textOf(`clue ${name}`);
    else if (now) this.#showText(now);
    this.#lengths.disabled = !this.#withoutLengths.length;
  }
}

// The column that the row of an entry is in.
const columnOf = (/** @type {Entry} */ { row }) => /** @type {HTMLElement} */ (row.parentElement);

// The clue that a field holds: one line, without spaces around it.
const clueIn = (/** @type {ClueField} */ field) => field.value.replace(/\s*\n\s*/g, ' ').trim();

/**
 * @param {Light} light
 * @param {string} described
 */
function makeField(light, described) {
  const field = document.createElement('textarea');
  field.rows = 1;
  field.dataset.light = light.name;
  field.setAttribute('aria-label', `clue of ${titleOf(light)}`);
  field.setAttribute('aria-describedby', described);
  field.autocomplete = 'off';
  field.spellcheck = true;
  return field;
}

function makeLength() {
  const length = document.createElement('button');
  length.type = 'button';
  length.className = 'length';
  length.title = 'Put the length at the end of the clue';
  length.tabIndex = -1;
  return length;
}

// The number of letters changes where a cell gets several.
/**
 * @param {HTMLElement} length
 * @param {Light} light
 * @param {number} letters
 */
function labelLength(length, light, letters) {
  if (length.textContent === `(${letters})`) return;
  length.textContent = `(${letters})`;
  length.setAttribute('aria-label', `put (${letters}) at the end of the clue of ${titleOf(light)}`);
}

/**
 * @param {string} text
 * @param {Record<string, string>} data
 */
function dataButton(text, data) {
  const button = Object.assign(document.createElement('button'), { type: 'button', textContent: text });
  Object.assign(button.dataset, data);
  return button;
}

// Gives the row of an entry a class, which that of another one had before; returns the entry.
/**
 * @param {Entry | null} before
 * @param {Entry | null} now
 * @param {string} name
 */
function marked(before, now, name) {
  if (before !== now) before?.row.classList.remove(name);
  now?.row.classList.add(name);
  return now;
}

/**
 * @param {string} className
 * @param {Node[]} inner
 */
function box(className, ...inner) {
  const made = Object.assign(document.createElement('div'), { className });
  made.append(...inner);
  return made;
}
