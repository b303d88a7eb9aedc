// The statistics of the grid and its fill, and what each outlet asks of them: below the counts of the tab of the puzzle.
import { gridFigures, judgedByAll, letterFigures, rowsOfFigures, verdictOf } from '../model/statistics.js';
import { termed } from '../model/terms.js';
import { keptLimits } from '../store/keep.js';
import { all } from './page.js';

/** @typedef {import('../model/statistics.js').Judged} Judged */

const SIGNS = { met: '✓', missed: '✗', open: '?' };
const SPOKEN = { met: 'met', missed: 'not met', open: 'for you to judge' };

export class StatisticsView {
  /** @type {import('../model/editor.js').Editor} */
  #editor;
  #elements;
  #words;
  // what is shown of outlets, so that a letter draws nothing of them anew
  #shown = '';

  // `elements` are the panel, the list of figures, and the box of the outlets. `words` tells what is said of the scores of the words, or ''.
  /**
   * @param {import('../model/editor.js').Editor} editor
   * @param {Record<'panel' | 'list' | 'outlets', HTMLElement>} elements
   * @param {import('./figures.js').Figures} words
   */
  constructor(editor, elements, words) {
    this.#editor = editor;
    this.#elements = elements;
    this.#words = words;
  }

  // Shows the figures, if their tab is in sight.
  show() {
    const { panel, list, outlets } = this.#elements;
    if (panel.hidden) return;
    const { board } = this.#editor;
    const figures = gridFigures(board);
    const entries = board.cells.filter(({ block }) => !block).map((cell) => this.#editor.entryOf(cell));
    const rows = rowsOfFigures(figures, letterFigures(entries), this.#words.worst);
    list.replaceChildren(...rows.flatMap(([name, value]) => [made('dt', name), made('dd', value)]));
    const judged = judgedByAll(figures, keptLimits());
    const shown = JSON.stringify(judged);
    if (shown === this.#shown) return;
    this.#shown = shown;
    // those that are open stay open
    const open = new Set(all('details[open]', outlets).map(({ dataset }) => dataset.outlet));
    outlets.replaceChildren(...judged.map((one) => outletOf(one, open.has(one.name))));
  }
}

// What an outlet asks, folded.
/**
 * @param {{ name: string, judged: Judged[] }} outlet
 * @param {boolean} isOpen
 */
function outletOf({ name, judged }, isOpen) {
  const box = /** @type {HTMLDetailsElement} */ (made('details'));
  box.open = isOpen;
  box.dataset.outlet = name;
  const verdict = made('span', verdictOf(judged));
  verdict.className = judged.some(({ state }) => state === 'missed') ? 'missed' : 'met';
  const summary = made('summary', `${name}: `);
  summary.append(verdict);
  const table = made('table');
  const heads = made('tr');
  heads.append(...['', 'Here', 'Limit', 'From', ''].map((text) => made('th', text)));
  table.append(heads, ...judged.map(rowOf));
  box.append(summary, table);
  return box;
}

/** @param {Judged} judged */
function rowOf({ text, here, limit, source, state }) {
  const row = made('tr');
  row.className = state;
  const sign = made('td', SIGNS[state]);
  sign.title = SPOKEN[state];
  sign.setAttribute('aria-label', SPOKEN[state]);
  row.append(made('th', text), made('td', here), made('td', limit), made('td', source), sign);
  return row;
}

/**
 * @param {string} name
 * @param {string} text
 */
function made(name, text = '') {
  return Object.assign(document.createElement(name), { textContent: termed(text) });
}
