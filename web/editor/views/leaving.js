// Esc keeps a text that is being typed, and leaves it; another Esc as the next key takes it back.
import { say } from './messages.js';

export class Leaving {
  /** @type {(() => Promise<unknown>) | null} */
  #takeBack = null;

  constructor() {
    const forget = (/** @type {Event & { key?: string }} */ { key }) => {
      if (key !== 'Escape') this.#takeBack = null;
    };
    for (const kind of ['keydown', 'pointerdown']) document.addEventListener(kind, forget, { capture: true });
  }

  // What Esc does now, if it takes a text back; or undefined.
  get action() {
    const takeBack = this.#takeBack;
    return takeBack ? () => this.#undo(takeBack) : undefined;
  }

  // A text is kept, which `takeBack` takes back.
  /** @param {() => Promise<unknown>} takeBack */
  kept(takeBack) {
    this.#takeBack = takeBack;
    say('what you typed is kept; Esc again takes it back', 'good');
  }

  /** @param {() => Promise<unknown>} takeBack */
  async #undo(takeBack) {
    this.#takeBack = null;
    await takeBack();
    say('what you typed is taken back');
  }
}
