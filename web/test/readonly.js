// What a view cannot do to the state: `tsc` refuses each of these lines. One that it takes is an error of its own, since nothing is expected there then.

/** @param {import('../editor/model/editor.js').Editor} editor */
export function writeState(editor) {
  const { board, list, reason, weak, history } = editor;
  // @ts-expect-error
  editor.board = board;
  // @ts-expect-error
  board.cells[0].letter = 'Q';
  // @ts-expect-error
  board.cells[0].across = null;
  // @ts-expect-error
  board.cells[0] = board.cells[1];
  // @ts-expect-error
  board.cells = [];
  // @ts-expect-error
  board.lights = [];
  // @ts-expect-error
  board.lights.push(board.lights[0]);
  // @ts-expect-error
  board.lights[0].cells[0] = 1;
  // @ts-expect-error
  board.byName.clear();
  // @ts-expect-error
  board.texts.set('title', 'Other');
  // @ts-expect-error
  board.width++;
  // @ts-expect-error
  editor.holdLetters(board);
  // @ts-expect-error
  editor.cursor = 0;
  // @ts-expect-error
  editor.pencil.add('1 1');
  // @ts-expect-error
  editor.originals.set('title', 'Other');
  // @ts-expect-error
  editor.written.delete('title');
  // @ts-expect-error
  editor.chosen.clear();
  // @ts-expect-error
  editor.edited = null;
  // @ts-expect-error
  reason.light = '1 across';
  // @ts-expect-error
  weak.across = new Set();
  // @ts-expect-error
  weak.across.add(0);
  // @ts-expect-error
  list.least = 0;
  // @ts-expect-error
  list.sources.pop();
  // @ts-expect-error
  history.now.record = '';
  // @ts-expect-error
  history.past.pop();
  // a transaction tells what was there before, and cannot change it either
  editor.on(['letters'], ({ changes, before }) => {
    // @ts-expect-error
    before.board = editor.board;
    // @ts-expect-error
    changes.letters.cells.add(0);
  });
}
