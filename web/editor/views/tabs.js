// The tabs beside the grid.
import { $ } from './page.js';

/** @typedef {import('../model/commands.js').Tab} Tab */

/** @type {Tab[]} */
const TABS = ['words', 'clues', 'puzzle'];

export class Tabs {
  #details;
  #clues;

  /**
   * @param {import('../model/editor.js').Editor} editor
   * @param {import('./details.js').DetailsView} details
   * @param {import('./clues.js').CluesView} clues
   */
  constructor(editor, details, clues) {
    this.#details = details;
    this.#clues = clues;
    editor.takes({ showTab: (tab) => this.show(tab), toField: (tab, id) => this.#toField(tab, id), toClue: (light) => this.#toClue(light) });
    for (const tab of TABS) {
      $(`tab-${tab}`).addEventListener('click', (/** @type {MouseEvent} */ event) => {
        this.show(tab);
        // after a click, other than after Enter, letters go to the grid again
        if (event.detail) editor.do('toGrid');
      });
      $(`tab-${tab}`).addEventListener('keydown', (/** @type {KeyboardEvent} */ event) => this.#key(event, tab));
    }
  }

  /**
   * @param {KeyboardEvent} event
   * @param {Tab} tab
   */
  #key({ key }, tab) {
    const step = Number(key === 'ArrowRight') - Number(key === 'ArrowLeft');
    if (!step) return;
    const next = TABS[(TABS.indexOf(tab) + step + TABS.length) % TABS.length];
    this.show(next);
    $(`tab-${next}`).focus();
  }

  /** @param {Tab} name */
  show(name) {
    for (const tab of TABS) {
      $(tab).hidden = tab !== name;
      $(`tab-${tab}`).setAttribute('aria-selected', String(tab === name));
      $(`tab-${tab}`).tabIndex = tab === name ? 0 : -1;
    }
    if (name === 'puzzle') this.#details.refresh().catch(() => {});
    this.#clues.isShown = name === 'clues';
    if (this.#clues.isShown) this.#clues.shown();
  }

  // Shows a tab, and goes to a field of it.
  /**
   * @param {Tab} name
   * @param {string} id
   */
  #toField(name, id) {
    this.show(name);
    $(id).focus();
  }

  // Goes to the clue of a light, or of the first one without.
  /** @param {import('../model/board.js').Light | null} light */
  #toClue(light) {
    this.show('clues');
    this.#clues.open(light);
  }
}
