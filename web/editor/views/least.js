// The least score of a word, as a slider beside the candidates with what it leaves, and the score below which words are marked.
import { wordCount } from '../formats/word-list.js';
import { gradeOf, scoreOf } from '../model/grades.js';
import { mayEdit } from './messages.js';

// How many words of the lists in use a least grade leaves.
/**
 * @param {{ byGrade: Readonly<Uint32Array> }} list
 * @param {number} grade
 */
export const leftOf = ({ byGrade }, grade) => byGrade.slice(grade).reduce((sum, count) => sum + count, 0);

export class LeastView {
  /** @type {import('../model/editor.js').Editor} */
  #editor;
  #elements;
  // the grade that is wanted, while the engine takes one over
  /** @type {number | null} */
  #wanted = null;
  /** @type {Promise<void> | null} */
  #taking = null;
  // whether the slider is moved by a pointer, after which letters go to the grid again
  #isPointed = false;

  // `actions`: `use` has the engine take a least score, `kept` is told of the one that is chosen, `chosen` of another score to mark words below, of words that
  // are to be apart and of the score at which a raising ends, and `threes` of a least score for words of three letters.
  /**
   * @param {import('../model/editor.js').Editor} editor
   * @param {{ row: HTMLDetailsElement, told: HTMLElement, shown: HTMLElement, left: HTMLElement } & Record<'slider' | 'weak' | 'threes' | 'apart' | 'target', HTMLInputElement>} elements
   * @param {{ use: (least: number) => Promise<void>, kept: () => void, chosen: (changed: { weak?: number, apart?: boolean, target?: number | null }) => void, threes: (least: number) => void }} actions
   */
  constructor(editor, elements, actions) {
    this.#editor = editor;
    this.#elements = elements;
    this.actions = actions;
    const { row, slider, weak, threes, apart, target } = elements;
    // on a phone the row is folded away, behind what it says
    const isNarrow = matchMedia('(max-width: 640px)');
    const fold = () => {
      row.open = !isNarrow.matches;
    };
    isNarrow.addEventListener('change', fold);
    fold();
    slider.addEventListener('pointerdown', () => {
      this.#isPointed = true;
    });
    slider.addEventListener('input', () => this.#move());
    slider.addEventListener('change', () => this.#chosen());
    const take = (/** @type {HTMLInputElement} */ field, /** @type {(score: number) => void} */ action) => field.addEventListener('change', () => (field.value && Number(field.value) >= 0 ? action(Number(field.value)) : this.show()));
    take(weak, (score) => actions.chosen({ weak: score }));
    take(threes, (score) => (mayEdit(editor) ? actions.threes(score) : this.show()));
    apart.addEventListener('change', () => actions.chosen({ apart: apart.checked }));
    target.addEventListener('change', () => (Number(target.value) >= 0 ? actions.chosen({ target: target.value ? Number(target.value) : null }) : this.show()));
  }

  // Shows what the lists in use have.
  show() {
    const { scored, best, grade, weak, threes, apart, target } = this.#editor.list;
    const { row, slider } = this.#elements;
    this.#elements.apart.checked = apart;
    row.hidden = !scored;
    if (!scored) return;
    slider.max = String(gradeOf(best, best));
    slider.value = String(grade);
    this.#elements.weak.max = String(best);
    this.#elements.weak.value = String(weak);
    this.#elements.threes.max = String(best);
    this.#elements.threes.value = String(threes);
    this.#elements.target.max = String(best);
    this.#elements.target.value = target === null ? '' : String(target);
    this.#elements.told.textContent = `${grade ? `Least score ${scoreOf(grade, best)}` : 'All scores'}, marks below ${weak}`;
    this.#showLeft(grade);
  }

  /** @param {number} grade */
  #showLeft(grade) {
    const { list } = this.#editor;
    const { shown, left } = this.#elements;
    shown.textContent = String(scoreOf(grade, list.best));
    left.textContent = grade ? `${leftOf(list, grade).toLocaleString('en')} of ${wordCount(list.words)}` : `all ${wordCount(list.words)}`;
    left.classList.toggle('none', leftOf(list, grade) === 0);
  }

  #move() {
    if (!mayEdit(this.#editor)) return this.show();
    this.#wanted = Number(this.#elements.slider.value);
    this.#showLeft(this.#wanted);
    return this.#take();
  }

  // Has the engine take over the grade that is wanted, and after it the one that is wanted by then.
  #take() {
    this.#taking ??= this.#takeAll().finally(() => {
      this.#taking = null;
    });
    return this.#taking;
  }

  async #takeAll() {
    while (this.#wanted !== null) {
      const grade = this.#wanted;
      this.#wanted = null;
      // to use the one that is in use would end a search for nothing
      if (grade !== this.#editor.list.grade) await this.actions.use(scoreOf(grade, this.#editor.list.best));
    }
  }

  async #chosen() {
    const isPointed = this.#isPointed;
    this.#isPointed = false;
    if (mayEdit(this.#editor)) {
      this.#wanted = Number(this.#elements.slider.value);
      await this.#take();
      this.actions.kept();
    }
    this.show();
    if (isPointed) this.#editor.do('toGrid');
  }
}
