// What belongs to the clue of the light under the cursor, below its field: a private note with the wordplay, the lights that the clue goes on in, comments of
// others, and helpers of a cryptic setter over the words of the lists.
import { anagramsOf, hiddenIn } from '../model/cryptic.js';
import { spelledLights } from '../model/links.js';
import { ClueComments } from './clue-comments.js';
import { refuse } from './messages.js';
import { put } from './page.js';
import { titleOf } from './words.js';

// the most words that a helper shows
const MOST_SHOWN = 60;

/** @typedef {import('../model/board.js').Light} Light */

export class ClueMore {
  /** @type {import('../model/editor.js').Editor} */
  #editor;
  #typed;
  #words;
  root = Object.assign(document.createElement('div'), { className: 'clue-more', hidden: true });
  #note = field('note', 'Note', 'the wordplay: for you alone');
  #links = field('links', 'Goes on in', '17, 4 down');
  #comments;
  #found = Object.assign(document.createElement('div'), { className: 'found' });
  // the light that it is for, and what the helper that is at work is for
  /** @type {Light | null} */
  #light = null;
  #asked = '';

  // `words` has the words of the lists, and `italics` puts the selection of the clue of a light in italics.
  /**
   * @param {import('../model/editor.js').Editor} editor
   * @param {import('./typed.js').Typed} typed
   * @param {import('../engine/all-words.js').AllWords} words
   * @param {(light: Light | null) => void} italics
   */
  constructor(editor, typed, words, italics) {
    this.#editor = editor;
    this.#typed = typed;
    this.#words = words;
    const anagrams = () => this.#help(anagramsOf, 'no anagram in your lists', (words) => `(${words})*`);
    const hidden = () => this.#help(hiddenIn, 'your lists do not hide it', (words) => `hidden: ${words}`);
    this.#comments = new ClueComments(editor, typed);
    const buttons = Object.assign(document.createElement('span'), { className: 'helpers' });
    buttons.append(
      button('Italics', 'Puts what is selected in the clue in italics (Ctrl I)', () => italics(this.#light)),
      button('Anagrams', 'Words of your lists with the same letters', anagrams),
      button('Hidden in', 'Words of your lists that hide the answer, side by side', hidden),
    );
    this.root.append(this.#note.label, this.#links.label, buttons, this.#found, this.#comments.root);
    for (const { input } of this.#fields) input.addEventListener('keydown', (event) => this.#key(event));
    for (const { input } of [this.#note, this.#links]) {
      input.addEventListener('change', () => this.#change(input));
    }
    // what is typed belongs to the puzzle that was here
    editor.on(['left'], () => this.#fields.forEach(({ input }) => put(input, 'value', input.dataset.kept ?? '')));
  }

  get #fields() {
    return [this.#note, this.#links, this.#comments];
  }

  // Shows it for a light, after an element; or with null not at all. What is being typed stays.
  /**
   * @param {Light | null} light
   * @param {Element | null} after
   */
  show(light, after = null) {
    this.root.hidden = !light;
    if (!light || !after) return;
    const isOther = this.#light?.name !== light.name;
    this.#light = light;
    this.#standBehind(after);
    if (isOther) this.#clear();
    const { board, links } = this.#editor;
    const head = links.headOf.get(light);
    const typed = (/** @type {HTMLInputElement} */ input, /** @type {string} */ text) => {
      if (document.activeElement !== input || isOther || input.dataset.kept !== text) put(input, 'value', text);
      input.dataset.kept = text;
    };
    typed(this.#note.input, this.#editor.noteOf(light));
    typed(this.#links.input, spelledLights(light, links.heads.get(light) ?? []));
    this.#comments.show(light);
    this.#links.input.disabled = Boolean(head);
    put(this.#links.input, 'placeholder', head ? `goes on from ${titleOf(head)}` : '17, 4 down');
    this.#note.input.setAttribute('aria-label', `private note on the clue of ${titleOf(board.byName.get(light.name) ?? light)}`);
    this.#links.input.setAttribute('aria-label', `lights that the clue of ${titleOf(light)} goes on in`);
  }

  // Stands behind an element, or behind the old clues that are there. What has the focus would lose it by a move.
  /** @param {Element} after */
  #standBehind(after) {
    const next = after.nextElementSibling;
    if (next === this.root || (next?.matches('.offers') && next.nextElementSibling === this.root)) return;
    const inUse = /** @type {HTMLElement | null} */ (this.root.contains(document.activeElement) ? document.activeElement : null);
    after.after(this.root);
    inUse?.focus();
  }

  #clear() {
    this.#asked = '';
    this.#found.replaceChildren();
  }

  /** @param {KeyboardEvent} event */
  #key(event) {
    if (event.key !== 'Escape' && (event.key !== 'Enter' || event.isComposing)) return;
    this.#change(/** @type {HTMLInputElement} */ (event.target));
    if (event.key === 'Escape') return this.#typed.leave(event);
    event.preventDefault();
    event.stopPropagation();
  }

  // Takes over what a field holds, if that is something else. What is refused stays in the field, so that it can be tried again.
  /** @param {HTMLInputElement} input */
  async #change(input) {
    if (input === this.#comments.input) return this.#comments.add();
    const light = this.#light && this.#editor.board.byName.get(this.#light.name);
    const text = input.value.trim();
    if (!light || text === input.dataset.kept) return undefined;
    const { kept } = input.dataset;
    input.dataset.kept = text;
    const refused = await (input === this.#note.input ? this.#typed.note(input, light, text) : this.#typed.link(input, light, text));
    if (refused && input.dataset.kept === text) input.dataset.kept = kept;
    return undefined;
  }

  // Shows what a helper finds for the answer. A click puts it into the note, as `spelled` has it.
  /**
   * @param {(answer: string, words: string[], most: number) => string[]} helper
   * @param {string} none
   * @param {(words: string) => string} spelled
   */
  async #help(helper, none, spelled) {
    const editor = this.#editor;
    const light = editor.board.byName.get(this.#light?.name ?? '');
    const { answer } = light ? editor.cluedBy(light) : { answer: '' };
    if (!light || !answer || answer.includes('.')) return refuse('enter the whole answer first');
    const asked = `${light.name} ${answer} ${none}`;
    this.#asked = asked;
    this.#found.replaceChildren('looking through your lists …');
    const found = helper(answer, await this.#words.get(), MOST_SHOWN);
    if (this.#asked !== asked) return undefined;
    const made = found.map((words) => button(words, 'Put it into the note', () => this.#take(spelled(words))));
    return this.#found.replaceChildren(...(made.length ? made : [none]));
  }

  /** @param {string} text */
  #take(text) {
    const { input } = this.#note;
    input.value = [input.value.trim(), text].filter(Boolean).join(' ');
    input.focus();
    this.#change(input);
  }
}

/**
 * @param {string} className
 * @param {string} title
 * @param {string} placeholder
 */
function field(className, title, placeholder) {
  const label = Object.assign(document.createElement('label'), { textContent: `${title} ` });
  const input = Object.assign(document.createElement('input'), { className, placeholder, autocomplete: 'off' });
  label.append(input);
  return { label, input };
}

/**
 * @param {string} text
 * @param {string} title
 * @param {() => void} action
 */
const button = (text, title, action) => Object.assign(document.createElement('button'), { type: 'button', textContent: text, title, onclick: action });
