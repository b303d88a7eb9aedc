// A fill that is improved until no fill is better, or no word is under a score: the button for it, and how far it is.
import { MOST, scoreOf } from '../model/grades.js';
import { termed } from '../model/terms.js';
import { put } from './page.js';

// A time in seconds, as it is said.
/** @param {number} seconds */
export const timeText = (seconds) => (seconds < 60 ? `${seconds} s` : `${Math.floor(seconds / 60)} min ${seconds % 60} s`);

// How far a raising is, as in “worst 62, mean 81; no fill is better than 84; looking for 63 or more; 6 s”. `worst` says how good the words are that stand in
// the grid, and `best` is the best score of the lists.
/**
 * @param {{ least: number, bound: number, isPart: boolean, seconds: number }} raising
 * @param {{ worst: string, best: number }} words
 */
export function progressText({ least, bound, isPart, seconds }, { worst, best }) {
  const proved = bound <= MOST ? `no fill is better than ${scoreOf(bound, best) - 1}` : '';
  const wanted = `looking for ${scoreOf(least, best)} or more${isPart ? ' for the others' : ''}`;
  return [worst, proved, wanted, timeText(seconds)].filter(Boolean).join('; ');
}

export class ImprovingView {
  #editor;
  #elements;

  // `elements` are the row, the button and the text. Words without scores have no better fills.
  /**
   * @param {import('../model/editor.js').Editor} editor
   * @param {Record<'row' | 'button' | 'told', HTMLElement>} elements
   */
  constructor(editor, elements) {
    this.#editor = editor;
    this.#elements = elements;
    editor.on(['fill'], () => this.#show());
    editor.on(['list'], () => put(elements.row, 'hidden', !editor.list.scored));
  }

  #show() {
    const { isImproving, progress } = this.#editor.fill;
    const { button, told } = this.#elements;
    button.setAttribute('aria-pressed', String(isImproving));
    put(told, 'textContent', isImproving ? termed(progress?.text ?? '') : '');
  }
}
