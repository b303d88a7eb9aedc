// Tests the transactions of the editor's state: what they change, what they tell, and to whom.
//
//   node web/test/state.mjs
//
// The last line is 'N passed, M failed'.
import { deepStrictEqual } from 'node:assert/strict';
import { Count } from './count.mjs';
import { pageModules } from './page-modules.mjs';
import { boardsOf } from './rows.mjs';

const { Board, EditorState, changedBy, differenceOf, keptSteps, only, packedHistory } = await pageModules('model/board', 'store/history', 'model/state');

// A state, and what it tells of some parts: what changed, and what was there before.
function listening(...names) {
  const [state, told] = [new EditorState(), []];
  state.on(names, ({ changes, before }) => told.push([{ ...changes }, { ...before }]));
  return { state, told };
}

// Steps of a puzzle that enter letters one after another, the last one first in pencil.
const place = (cursor) => ({ cursor, direction: 'across' });
const stepsOf = (word) => Array.from({ length: word.length + 1 }, (_, count) => ({
  puzzle: 'p', record: `size 5 5\n${[...word.slice(0, count)].map((letter, at) => `set 1 ${at + 1} ${letter}\n`).join('')}text title Farm\n`,
  pencil: count === word.length ? [`1 ${count}`] : [], originals: [['title', 'Farm \u2192']], written: [], ...place(count), from: place(Math.max(0, count - 1)),
}));

const CASES = {
  'the history as the browser keeps it'() {
    deepStrictEqual([differenceOf('abcd', 'abcd'), differenceOf('abcd', 'axd'), differenceOf('aa', 'aaa'), differenceOf('abab', 'ab'), differenceOf('', 'x'), differenceOf('x', '')],
      [null, [1, 2, 'x'], [2, 0, 'a'], [2, 2, ''], [0, 0, 'x'], [0, 1, '']]);
    const texts = ['', 'a', 'aa', 'aba', 'ab\nab', 'banana', 'ana', '\u{1d11e}a', '\u{1d11f}a'];
    for (const text of texts) for (const other of texts) deepStrictEqual(changedBy(text, differenceOf(text, other)), other);
    const steps = stepsOf('SHEEP');
    for (let at = 0; at < steps.length; at++) {
      // those after now are in a pile too: the next one is on top
      const history = { past: steps.slice(0, at), now: steps[at], future: steps.slice(at + 1).reverse() };
      deepStrictEqual(keptSteps(structuredClone(packedHistory(history))), history);
    }
    // a letter is little beside a whole step
    const { length } = JSON.stringify(packedHistory({ past: steps.slice(0, 5), now: steps[5], future: [] }).past);
    if (length > 5 * 100) throw new Error(`five letters take ${length} characters`);
    deepStrictEqual([keptSteps(undefined), keptSteps({ ...packedHistory({ past: [], now: steps[0], future: [] }), form: 2 })], [null, null]);
  },

  'the steps nearest to now are kept where there are many, or large ones'() {
    const steps = stepsOf('S'.repeat(400));
    const of = (past, now) => keptSteps(packedHistory({ past, now, future: [] })).past;
    deepStrictEqual(of(steps.slice(0, 400), steps[400]), steps.slice(100, 400));
    const large = ['a', 'b', 'c', 'd', 'e'].map((letter, at) => ({ ...steps[0], record: letter.repeat(100000 + at) }));
    deepStrictEqual(of(large.slice(0, 4), large[4]), large.slice(2, 4));
  },

  'a change is told with what was there before'() {
    const { state, told } = listening('cursor');
    state.change({ cursor: 5, direction: 'down' });
    deepStrictEqual([state.cursor, state.direction], [5, 'down']);
    deepStrictEqual(told, [[{ cursor: 5, direction: 'down' }, { cursor: 0, direction: 'across' }]]);
  },

  'letters are told with the board that was there before'() {
    const { state, told } = listening('letters', 'board');
    const board = boardsOf(Board)('C.T', '.#.');
    state.change({ board });
    state.holdLetters(board.withLetters(new Map([[1, 'A']]), new Map([[3, 'XY']]), [7, 8]));
    state.holdLetters(state.board.withLetters(new Map([[0, '']])));
    state.change({ letters: { cells: new Set([0, 1, 3]), engine: 1 } });
    const [{ letters, ...others }, { board: before }] = told[1];
    deepStrictEqual([others, before === board, board.spell(board.lights[0]), board.cells[3].left], [{}, true, 'C.T', undefined]);
    deepStrictEqual([state.board.spell(board.lights[0]), state.board.cells[3].left, state.board.lights.map((light) => state.board.countOf(light))], ['.AT', 'XY', [7, 8, 0]]);
    // what did not change is the same
    deepStrictEqual([state.board.cells[2] === board.cells[2], state.board.lights === board.lights], [true, true]);
  },

  'only those are told who named a part'() {
    const { state, told } = listening('chosen', 'step');
    state.change({ cursor: 5 });
    deepStrictEqual(told, []);
    state.change({ step: undefined });
    deepStrictEqual(told, [[{ step: undefined }, {}]]);
  },

  'what is held is there at once, and told with the next transaction'() {
    const { state, told } = listening('cursor', 'edited');
    state.hold({ cursor: 5 });
    state.hold({ cursor: 6, edited: { cell: 5, direction: 'across' } });
    deepStrictEqual([state.cursor, told], [6, []]);
    state.change({ sym: 'half' });
    deepStrictEqual(told, [[{ cursor: 6, edited: { cell: 5, direction: 'across' }, sym: 'half' }, { cursor: 0, edited: null, sym: 'none' }]]);
    state.tell();
    deepStrictEqual(told.length, 1);
  },

  'a change that a listener makes is a transaction of its own'() {
    const { state, told } = listening('cursor', 'sym');
    state.on(['cursor'], () => state.change({ sym: 'half' }));
    state.change({ cursor: 5 });
    deepStrictEqual(told.map(([changes]) => changes), [{ cursor: 5 }, { sym: 'half' }]);
  },

  'nobody writes a part'() {
    const { state } = listening();
    for (const name of ['board', 'cursor', 'pencil', 'chosen', 'list', 'record']) {
      let fault = null;
      try {
        state[name] = null;
      } catch (error) {
        fault = error;
      }
      deepStrictEqual(fault instanceof TypeError, true, name);
    }
  },

  'a set stays the same one if all of it stays'() {
    const set = new Set([1, 2]);
    deepStrictEqual([only(set, () => true) === set, only(set, (one) => one > 1)], [true, new Set([2])]);
  },
};

const count = new Count();
await count.runAll(CASES);
count.end();
