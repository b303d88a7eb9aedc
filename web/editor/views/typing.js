// Typing on a screen. The keyboard there comes up for a text field only, so the grid has one, unseen, over the cursor. Such a keyboard need not
// tell its keys: what it does to the text of the field tells them.

// What the field holds between keys, so that there is something to delete.
const HELD = '-';

export class TypingField {
  // `type` is told each key, by its name.
  /** @param {(key: string) => void} type */
  constructor(type, id = 'typing') {
    this.type = type;
    this.element = Object.assign(document.createElement('input'), {
      id, type: 'text', value: HELD, tabIndex: -1, autocomplete: 'off', spellcheck: false, enterKeyHint: 'next',
    });
    for (const [name, value] of [['aria-label', 'Letters of the grid'], ['autocapitalize', 'characters'], ['autocorrect', 'off']]) {
      this.element.setAttribute(name, value);
    }
    this.element.addEventListener('input', () => this.#take());
    this.element.addEventListener('compositionend', () => this.#take());
    this.element.addEventListener('focus', () => this.#hold());
  }

  get isActive() {
    return document.activeElement === this.element;
  }

  focus() {
    this.element.focus({ preventScroll: true });
  }

  #hold() {
    this.element.value = HELD;
    this.element.setSelectionRange(HELD.length, HELD.length);
  }

  #take() {
    const { value } = this.element;
    if (value === HELD) return;
    this.#hold();
    if (!value.startsWith(HELD)) this.type('Backspace');
    for (const character of value.replace(HELD, '')) this.type(character);
  }
}
