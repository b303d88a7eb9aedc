// Entered words that are not in use, or that stand twice: marked in the grid, and named for the light under the cursor.
import { named } from '../engine/told.js';
import { readPersonal } from '../formats/word-list.js';
import { whenIdle } from '../views/idle.js';
import { gradeOf } from './grades.js';
import { isCellField } from './rebus.js';
import { parseRecord } from './record.js';
import { isSameSet } from './state.js';

// Why words that stand in the grid are not in use, each in a few words: they are hidden, have a score below the least one, or are in no list.
/**
 * @param {Pick<import('./editor.js').Editor, 'list' | 'record' | 'engine'>} editor
 * @param {string[]} words
 */
export async function whyUnlisted(editor, words) {
  const { list, record, engine } = editor;
  const { added, struck, regraded } = parseRecord(record);
  // a word that was added and is struck again is in no list
  const isHidden = (/** @type {string} */ word) => struck.includes(word) && (regraded.has(word) || !added.includes(word));
  const { hidden } = readPersonal(list.personal);
  const scores = (list.grade || list.threes) && words.length ? await engine.call('grades', { words }) : [];
  return words.map((word, at) => {
    if (isHidden(word)) return `${word} is hidden in this puzzle`;
    const score = scores[at] ?? null;
    if (score !== null && gradeOf(score, list.best) < list.grade) return `${word} (${score}) is below your least score, ${list.least}`;
    if (score !== null && word.length === 3 && score < list.threes) return `${word} (${score}) is below your least score for three letters, ${list.threes}`;
    return hidden.has(word) ? `${word} is hidden by your words` : `${word} is not in your lists`;
  });
}

// The words of the grid that are not in use: their lights, and why. The engine is asked for the whole word of a light with several letters in a cell.
/** @param {import('./editor.js').Editor} editor */
export async function faultsOf(editor) {
  const found = (await editor.ask('unlisted')) ?? [];
  const { board } = editor;
  const isAny = [...editor.originals.keys()].some(isCellField);
  const longer = isAny ? board.lights.filter((light) => board.isEntered(light) && editor.answerOf(light).length > light.cells.length) : [];
  const names = new Set(longer.map(({ name }) => name));
  const words = longer.map((light) => ({ light: light.name, word: editor.answerOf(light) }));
  const isListed = await Promise.all(words.map(async ({ word }) => Boolean((await editor.ask('match', word))?.length)));
  const all = [...found.filter(({ light }) => !names.has(light)), ...words.filter((_, at) => !isListed[at])];
  const whys = await whyUnlisted(editor, all.map(({ word }) => word));
  return all.map(({ light, word }, at) => ({ ...named(light), word, why: whys[at] }));
}

export class Faults extends EventTarget {
  /** @type {import('./editor.js').Editor} */
  #editor;
  #turn = 0;
  // the words that are not in use, each with why, and for those that stand twice the other light, by the name of the light
  /** @type {Map<string, { word: string, why: string }>} */
  unlisted = new Map();
  /** @type {Map<string, string>} */
  repeated = new Map();

  /** @param {import('./editor.js').Editor} editor */
  constructor(editor) {
    super();
    this.#editor = editor;
    editor.on(['step', 'board'], () => this.#soon());
  }

  #soon() {
    const turn = ++this.#turn;
    whenIdle(() => turn === this.#turn && this.#ask(turn).catch(() => {}));
  }

  /** @param {number} turn */
  async #ask(turn) {
    const { board } = this.#editor;
    const isAny = board.lights.some((light) => board.isEntered(light));
    const [found, repeated] = isAny ? await Promise.all([faultsOf(this.#editor), this.#editor.ask('dups')]) : [[], []];
    if (turn !== this.#turn) return;
    this.unlisted = new Map(found.map(({ name, word, why }) => [name, { word, why }]));
    this.repeated = new Map((repeated ?? []).map(({ light, first }) => [light, first]));
    const faulty = this.#editor.board.cellsOf([...this.unlisted.keys(), ...this.repeated.keys()]);
    if (!isSameSet(faulty, this.#editor.faulty)) this.#editor.change({ faulty });
    this.dispatchEvent(new Event('told'));
  }

  // What is left to do in an entered grid, as { light, text }, or null.
  get first() {
    for (const [light, { why }] of this.unlisted) return { light, text: why };
    const [again = ''] = this.repeated.keys();
    const other = this.#editor.board.byName.get(again);
    return other ? { light: other.name, text: `${this.#editor.board.spell(other)} stands twice` } : null;
  }
}
