// How the word of the cursor's light was clued before, below the field of its clue: each clue with its puzzles and dates. A click takes one.
import { staleWord } from '../model/written.js';

// the most old clues of a word that are shown, and the most puzzles that are named for each
const MOST_CLUES = 20;
const MOST_PUZZLES = 3;

/** @typedef {import('../store/keep.js').KeptClue} KeptClue */
/** @typedef {import('../model/board.js').Light} Light */

// How a word was clued, by what the bank has of it: each clue once, with its puzzles. The latest come first.
/** @param {KeptClue[]} entries */
export function historyOf(entries) {
  /** @type {Map<string, KeptClue[]>} */
  const uses = new Map();
  for (const entry of [...entries].sort((a, b) => b.at - a.at)) uses.set(entry.clue, [...(uses.get(entry.clue) ?? []), entry]);
  return [...uses].map(([clue, of]) => ({ clue, uses: of }));
}

// How often a word was clued.
/** @param {KeptClue[]} entries */
export function countOf(entries) {
  const { size } = new Set(entries.map(({ puzzle }) => puzzle));
  return `${entries.length}, in ${size} ${size === 1 ? 'puzzle' : 'puzzles'}`;
}

/** @param {number} at */
const dateOf = (at) => (at ? new Date(at).toLocaleDateString(undefined, { day: 'numeric', month: 'short', year: 'numeric' }) : 'no date');

// Where a clue was, such as “3 times: Farm, 2 May 2026; …”. The puzzle that is here is called so.
/**
 * @param {KeptClue[]} uses
 * @param {string} here
 */
export function usesText(uses, here) {
  const named = uses.slice(0, MOST_PUZZLES).map(({ puzzle, title, at }) => `${puzzle === here ? 'this puzzle' : title || 'untitled'}, ${dateOf(at)}`);
  return `${uses.length > 1 ? `${uses.length} times: ` : ''}${named.join('; ')}${uses.length > MOST_PUZZLES ? '; …' : ''}`;
}

export class OldClues {
  /** @type {import('../model/editor.js').Editor} */
  #editor;
  #bank;
  root = Object.assign(document.createElement('div'), { className: 'offers', hidden: true });
  // what they are shown for
  #shown = '';

  /**
   * @param {import('../model/editor.js').Editor} editor
   * @param {import('../store/clue-bank.js').ClueBank} bank
   */
  constructor(editor, bank) {
    this.#editor = editor;
    this.#bank = bank;
  }

  // Shows none.
  end() {
    this.#shown = '';
    this.root.hidden = true;
  }

  // Shows those of a light, behind its row: folded if the light has a clue for its word. Shows none with null.
  /**
   * @param {Light | null} light
   * @param {Element | null} row
   */
  async show(light, row) {
    const { board, written, puzzle } = this.#editor;
    const word = light && board.isEntered(light) ? board.spell(light) : '';
    const isDue = Boolean(light && word && (!board.hasClue(light) || staleWord(board, light, written)));
    const shown = light && word ? [puzzle, light.name, word, isDue].join() : '';
    if (shown === this.#shown) return;
    this.#shown = shown;
    this.root.hidden = true;
    const entries = light && word ? await this.#bank.of(word, this.#editor.textOf(`clue ${light.name}`)) : [];
    if (!light || shown !== this.#shown || !entries.length || !row) return;
    this.root.replaceChildren(this.#list(light, entries, isDue));
    row.after(this.root);
    this.root.hidden = false;
  }

  /**
   * @param {Light} light
   * @param {KeptClue[]} entries
   * @param {boolean} isOpen
   */
  #list(light, entries, isOpen) {
    const folded = Object.assign(document.createElement('details'), { open: isOpen });
    const summary = Object.assign(document.createElement('summary'), { textContent: `Clues for ${this.#editor.answerOf(light)} before: ${countOf(entries)}` });
    const list = document.createElement('ul');
    list.append(...historyOf(entries).slice(0, MOST_CLUES).map(({ clue, uses }) => this.#item(light, clue, uses)));
    folded.append(summary, list);
    return folded;
  }

  /**
   * @param {Light} light
   * @param {string} clue
   * @param {KeptClue[]} uses
   */
  #item(light, clue, uses) {
    const item = document.createElement('li');
    const button = Object.assign(document.createElement('button'), { type: 'button', textContent: clue, title: 'Make it the clue' });
    button.dataset.use = light.name;
    item.append(button, Object.assign(document.createElement('small'), { textContent: usesText(uses, this.#editor.puzzle) }));
    return item;
  }
}
