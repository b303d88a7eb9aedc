// A group of buttons that is one stop of the Tab key: the arrow keys, Home and End go from one to another.

export class Roving {
  #group;

  /** @param {HTMLElement} group */
  constructor(group) {
    this.#group = group;
    group.addEventListener('keydown', (event) => this.#key(event));
    group.addEventListener('focusin', ({ target }) => this.show(/** @type {HTMLButtonElement} */ (target)));
    this.show();
  }

  /** @returns {HTMLButtonElement[]} */
  get #buttons() {
    return [...this.#group.querySelectorAll('button')];
  }

  // Leaves Tab one of the buttons: the given one, or else the one that it had, or the first.
  /** @param {HTMLButtonElement | null} button */
  show(button = null) {
    const buttons = this.#buttons;
    const one = button && buttons.includes(button) ? button : buttons.find(({ tabIndex }) => tabIndex === 0) ?? buttons[0];
    for (const other of buttons) other.tabIndex = other === one ? 0 : -1;
  }

  /** @param {KeyboardEvent} event */
  #key(event) {
    const buttons = this.#buttons;
    const at = buttons.indexOf(/** @type {HTMLButtonElement} */ (event.target));
    if (at < 0 || event.ctrlKey || event.metaKey || event.altKey) return;
    // the buttons lie in rows
    const columns = buttons.filter(({ offsetTop }) => offsetTop === buttons[0].offsetTop).length;
    /** @type {Record<string, number>} */
    const places = { ArrowRight: at + 1, ArrowLeft: at - 1, ArrowDown: at + columns, ArrowUp: at - columns, Home: 0, End: buttons.length - 1 };
    if (!(event.key in places)) return;
    event.preventDefault();
    buttons[Math.max(0, Math.min(buttons.length - 1, places[event.key]))].focus();
  }
}
