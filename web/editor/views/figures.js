// How good the words in the grid are: the worst, the mean, and how many are weak, which are marked; and what is proved of fills.
import { namesText } from '../formats/dropped.js';
import { MOST, figuresOf, figuresText, gradeOf, scoreOf } from '../model/grades.js';
import { wordsOf } from '../model/record.js';
import { termed } from '../model/terms.js';
import { whenIdle } from './idle.js';
import { titleOf } from './words.js';

// how many of the weak words are marked as the worst
const MOST_WORST = 10;
// how many lights are named one by one
const MOST_NAMED = 3;

/** @typedef {import('../model/board.js').Light} Light */
/**
 * @typedef {{ bound: number, names: string[], fixed: Map<string, string>, held: { names: string[], forced: string[] }[] }} Proof
 */

export class Figures {
  /** @type {import('../model/editor.js').Editor} */
  #editor;
  #elements;
  #turn = 0;
  // what was measured last, so that a letter in a word that is not whole asks nothing
  #measured = '';
  // the figures, and the score of each light that has one; none without scores
  /** @type {import('../model/grades.js').Figures | null} */
  #figures = null;
  /** @type {Map<string, number>} */
  #scores = new Map();
  // what is proved: a grade at which there is no fill of the lights with these names, or of all lights, around letters
  // that were fixed, by coordinates; and the lights that were held while others were raised, stage by stage, each with those that force it
  /** @type {(Proof & { key: string }) | null} */
  #proof = null;

  // `elements` are the box, the text in it, and the button that goes to the worst word.
  /**
   * @param {import('../model/editor.js').Editor} editor
   * @param {Record<'box' | 'text' | 'worst', HTMLElement>} elements
   */
  constructor(editor, elements) {
    this.#editor = editor;
    this.#elements = elements;
    editor.on(['step', 'board'], () => this.#soon());
  }

  #soon() {
    const turn = ++this.#turn;
    whenIdle(() => turn === this.#turn && this.#show().catch(() => {}));
  }

  async #show() {
    await this.#measure();
    this.#tell();
  }

  // Takes over what is proved of the fill in the grid, and returns what is said of it. What was proved before stays if it says more.
  /** @param {Proof} proof */
  async prove({ bound, names, fixed, held }) {
    const before = this.boundOf(names);
    const isSame = bound === before && bound <= MOST;
    if (bound <= before) this.#proof = { bound, names, fixed, held: isSame && !held.length ? this.#proof?.held ?? held : held, key: this.#key() };
    await this.#show();
    return this.text;
  }

  // A grade at which there is no fill of the lights with these names, as far as is proved.
  /** @param {string[]} names */
  boundOf(names) {
    return this.#proof && this.#isProved && String(names) === String(this.#proof.names) ? this.#proof.bound : MOST + 1;
  }

  // Whether the proof holds: for the same grid and words, and around the letters that were fixed. Others may have come, which leave fewer fills.
  get #isProved() {
    const isThere = (/** @type {[string, string]} */ [coordinates, letter]) => this.#editor.board.at(coordinates)?.letter === letter;
    return this.#proof !== null && this.#proof.key === this.#key() && [...this.#proof.fixed].every(isThere);
  }

  // The grid without its letters, and the words.
  #key() {
    const { board, record, list } = this.#editor;
    const cells = board.cells.map((cell) => `${cell.block ? '#' : ''}${cell.right ? '|' : ''}${cell.below ? '_' : ''}`);
    return [cells, wordsOf(record), list.name, list.words, list.personal].join();
  }

  // The entered lights, if words have scores, and all that their figures rest on.
  #entered() {
    const { board, list } = this.#editor;
    const lights = list.scored ? board.lights.filter((light) => board.isEntered(light)) : [];
    const words = lights.map((light) => board.spell(light));
    return { lights, words, all: [lights.map(({ name }) => name), words, list.weak, list.name, list.words].join() };
  }

  async #measure() {
    const { lights, words, all } = this.#entered();
    if (all === this.#measured) return;
    const scores = lights.length ? await this.#editor.engine.call('grades', { words }) : [];
    // an edit that came meanwhile is measured for itself
    if (all !== this.#entered().all) return;
    const { weak } = this.#editor.list;
    this.#measured = all;
    this.#figures = figuresOf(scores, weak);
    this.#scores = new Map(lights.map((light, at) => /** @type {[string, number]} */ ([light.name, scores[at]])).filter(([, score]) => score !== null));
    const weakest = lights.filter((light) => this.#scoreOf(light) < weak).sort((a, b) => this.#scoreOf(a) - this.#scoreOf(b));
    const cellsOf = (/** @type {readonly Light[]} */ some) => new Set(some.flatMap(({ cells }) => cells));
    const weakIn = (/** @type {string} */ direction) => cellsOf(weakest.filter((light) => light.direction === direction));
    this.#editor.change({ weak: { across: weakIn('across'), down: weakIn('down') }, worst: cellsOf(weakest.slice(0, MOST_WORST)) });
  }

  // The worst and the mean of the words in the grid; or ''.
  get worst() {
    return this.#figures ? `worst ${this.#figures.worst}, mean ${this.#figures.mean}` : '';
  }

  // What is said of the words in the grid; or ''.
  get text() {
    return this.#figures ? `${figuresText(this.#figures)}${this.#proofText()}` : '';
  }

  // The score of a light; NaN if it has none.
  #scoreOf = (/** @type {{ name: string }} */ { name }) => this.#scores.get(name) ?? NaN;

  #worstOf = (/** @type {readonly Light[]} */ lights) => Math.min(...lights.map(this.#scoreOf));

  // The words that the fill made of which something is proved: their lights, the worst score, and whether no fill is better; or null.
  #judged() {
    const { board, pencil, list } = this.#editor;
    const proof = this.#proof;
    if (!proof || proof.bound > MOST || !this.#isProved) return null;
    const isOwn = (/** @type {Light} */ light) => (!proof.names.length || proof.names.includes(light.name)) && light.cells.some((cell) => pencil.has(board.cells[cell].coordinates));
    const own = board.lights.filter((light) => this.#scores.has(light.name) && isOwn(light));
    const worst = this.#worstOf(own);
    return own.length ? { proof, own, worst, isBest: proof.bound <= gradeOf(worst, list.best) + 1 } : null;
  }

  // The lights that are proved to allow a light no better word; none if nothing is proved of it.
  /** @param {Light} light */
  forcedAt({ name }) {
    const judged = this.#judged();
    if (!judged?.isBest || this.#scores.get(name) !== judged.worst) return [];
    const [first] = judged.proof.held;
    return first?.names.includes(name) ? this.#editor.board.lights.filter((light) => first.forced.includes(light.name)) : [];
  }

  // What is proved of the words that a fill made.
  #proofText() {
    const judged = this.#judged();
    if (!judged) return '';
    const { board, pencil, list } = this.#editor;
    const { proof, own, worst, isBest } = judged;
    // a fill changes no letter in ink, but others in pencil might be other ones
    const isPart = [...proof.fixed.keys()].some((coordinates) => pencil.has(coordinates));
    const part = proof.names.length ? ' of these lights' : isPart ? ' of the cells that were empty' : '';
    const [first] = proof.held;
    const forced = board.lights.filter(({ name }) => isBest && first?.forced.includes(name));
    const cause = forced.length ? `: ${titlesOf(forced)} ${forced.length === 1 ? 'allows' : 'allow'} no more` : '';
    // those of the first stage, and of later ones the weak ones
    const held = new Set(proof.held.flatMap(({ names }, stage) => names.filter((name) => stage === 0 || this.#scoreOf({ name }) < list.weak)));
    const rest = this.#worstOf(own.filter(({ name }) => !held.has(name)));
    const weaker = own.filter((light) => this.#scoreOf(light) < rest);
    const others = Number.isFinite(rest) && weaker.length ? `; all but ${titlesOf(weaker)} have ${rest} or more` : '';
    const text = `no fill${part} is better${isBest ? cause : ` than ${scoreOf(proof.bound, list.best) - 1}`}${others}`;
    return worst > (this.#figures?.worst ?? NaN) ? `; the fill’s worst ${worst}, and ${text}` : `; ${text}`;
  }

  #tell() {
    const { box, text, worst } = this.#elements;
    box.hidden = !this.#figures;
    this.#editor.change({ scores: this.#scores });
    const { board } = this.#editor;
    const [name = ''] = [...this.#scores].find(([, score]) => score === this.#figures?.worst) ?? [];
    const light = board.byName.get(name);
    if (!light) return;
    const told = termed(this.text);
    if (text.textContent !== told) text.textContent = told;
    worst.textContent = `Worst: ${board.spell(light)}`;
    worst.title = `Go to the worst word, ${titleOf(light)}`;
    worst.onclick = () => this.#editor.do('goTo', this.#editor.board.byName.get(name) ?? light);
  }
}

// The names of lights, of many the first ones.
/** @param {Light[]} lights */
const titlesOf = (lights) => namesText(lights.map(titleOf), MOST_NAMED);
