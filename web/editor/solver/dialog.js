// The puzzle as a solver has it, over the page: letters that are typed there are no letters of the grid, nor steps of its history.
import { openDialog } from '../views/dialogs.js';
import { refuse } from '../views/messages.js';
import { solverPuzzle, whyUnsolvable } from './puzzle.js';
import { Solving } from './solving.js';
import { SolverView } from './view.js';

export class SolveDialog {
  /** @type {import('../model/editor.js').Editor} */
  #editor;
  #elements;
  // the puzzle as it was solved last, with what was entered: it goes on if the puzzle is the same still
  /** @type {{ puzzle: string, solving: Solving } | { puzzle: '', solving: null }} */
  #last = { puzzle: '', solving: null };

  // `elements`: the dialog, and what has the puzzle in it.
  /**
   * @param {import('../model/editor.js').Editor} editor
   * @param {{ dialog: HTMLDialogElement, root: HTMLElement }} elements
   */
  constructor(editor, elements) {
    this.#editor = editor;
    this.#elements = elements;
  }

  open() {
    const why = whyUnsolvable(this.#editor);
    if (why) return refuse(`there is nothing to solve yet: ${why}`);
    const { dialog, root } = this.#elements;
    const puzzle = solverPuzzle(this.#editor);
    const told = JSON.stringify(puzzle);
    const solving = told === this.#last.puzzle ? this.#last.solving : null;
    this.#last = { puzzle: told, solving: solving ?? new Solving(puzzle) };
    const view = new SolverView(this.#last.solving, { leave: () => dialog.close() });
    root.replaceChildren(view.root);
    openDialog(dialog);
    view.show();
    view.focus();
  }
}
