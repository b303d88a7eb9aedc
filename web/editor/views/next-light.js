// Goes to the light that is the hardest to fill, or in an entered grid to what is left to do.
import { staleClues } from '../model/written.js';
import { refuse, say } from './messages.js';
import { titleOf } from './words.js';

export class NextLight {
  /** @type {import('../model/editor.js').Editor} */
  #editor;
  #faults;

  /**
   * @param {import('../model/editor.js').Editor} editor
   * @param {import('../model/faults.js').Faults} faults
   */
  constructor(editor, faults) {
    this.#editor = editor;
    this.#faults = faults;
  }

  async go() {
    const editor = this.#editor;
    const { kind: what, light: name } = (await editor.ask('suggest')) ?? {};
    if (what === 'done') return this.#showLeft();
    // of several parts one may be dead: the tightest light is one of another part
    const { board } = editor;
    const alive = board.lights.filter((one) => board.countOf(one) > 0 && !board.isEntered(one)).sort((a, b) => board.countOf(a) - board.countOf(b));
    const light = what === 'dead' && alive.length ? alive[0] : board.byName.get(name ?? '');
    if (!light) return;
    const empty = light.cells.find((index) => !board.cells[index].letter);
    const count = board.countOf(light);
    editor.moveTo(empty ?? light.cells[0], light.direction);
    editor.do('toGrid');
    if (what === 'try' || (what === 'dead' && count)) say(`${titleOf(light)} has ${count === 1 ? 'one word' : `${count} words`} left, the fewest`);
    else refuse(what === 'dead' ? `${titleOf(light)} has no word left` : `each word of ${titleOf(light)} leaves another light without one`);
  }

  // Says that nothing is left, or goes to what is.
  #showLeft() {
    const editor = this.#editor;
    const left = this.#faults.first;
    const lacking = editor.board.lights.filter((one) => !editor.board.hasClue(one)).length;
    const [stale] = staleClues(editor);
    if (!left && stale) return refuse(`every light is entered, but the clue of ${titleOf(stale.light)} was written for ${stale.word}`);
    if (!left) return say(lacking ? `every light is entered; ${lacking === 1 ? 'one has' : `${lacking} have`} no clue yet` : 'done: every light is entered, listed and has a clue', 'good');
    const light = editor.board.byName.get(left.light);
    if (!light) return undefined;
    editor.moveTo(light.cells[0], light.direction);
    editor.do('toGrid');
    return refuse(`every light is entered, but ${left.text}: ${titleOf(light)}`);
  }
}
