// The page of one puzzle: what its solver entered stays in the browser, if that keeps anything for a page.
import { Solving } from './solving.js';
import { SolverView } from './view.js';

const text = document.getElementById('puzzle')?.textContent ?? '';
/** @type {import('./puzzle.js').SolverPuzzle} */
const puzzle = JSON.parse(text);
const solving = new Solving(puzzle);

// The name that the browser keeps a solving by: another puzzle in a page of the same address has another one.
const NAME = `xw-solver ${Array.from(text).reduce((sum, letter) => (Math.imul(sum, 31) + Number(letter.codePointAt(0))) | 0, 0)}`;

// Does what may be forbidden to a page, as to one from disk; undefined where it is.
/**
 * @template T
 * @param {() => T} action
 * @returns {T | undefined}
 */
function ifAllowed(action) {
  try {
    return action();
  } catch {
    return undefined;
  }
}

solving.takeKept(ifAllowed(() => JSON.parse(localStorage.getItem(NAME) ?? 'null')));
document.title = puzzle.texts.title || 'Crossword';
const view = new SolverView(solving, { changed: () => ifAllowed(() => localStorage.setItem(NAME, JSON.stringify(solving.kept))) });
document.getElementById('solver')?.append(view.root);
view.show();
view.focus();
