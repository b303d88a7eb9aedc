// Tests what the page makes of what the engine tells.
//
//   node web/test/told.mjs
//
// The last line is 'N passed, M failed'.
import { deepStrictEqual } from 'node:assert/strict';
import { Count } from './count.mjs';
import { pageModules } from './page-modules.mjs';

const { cellsOf, gridIn, isWhole, named, packed, unpacked } = await pageModules('engine/told');

// The cells of `show`, as a row of letters, blocks and bars.
function gridOf(lines) {
  const { width, height, cells } = gridIn(lines);
  const told = cells.map(({ block, letter, right, below }) => `${block ? '#' : letter || '-'}${right ? '|' : ''}${below ? '=' : ''}`);
  return { size: `${width} ${height}`, told: told.join(' ') };
}

const CHECKS = {
  show: () => deepStrictEqual(gridOf(['S T O R Y', '- #|-|# -', '- - - - -']), { size: '5 3', told: 'S T O R Y - #| -| # - - - - - -' }),
  'bars below': () => deepStrictEqual(gridOf(['- A', '=  ', 'B -']), { size: '2 2', told: '-= A B -' }),
  'a grid of one column': () => deepStrictEqual(gridOf(['A', '=', '-']), { size: '1 2', told: 'A= -' }),
  'a light by its name': () => deepStrictEqual(named('12 down'), { name: '12 down', number: '12', direction: 'down' }),
  'the cells of a light': () => deepStrictEqual(cellsOf({ light: '2 down', row: 1, column: 3, letters: 'O.' }), [{ coordinates: '1 3', letter: 'O' }, { coordinates: '2 3', letter: '.' }]),
  'the cells of a light across': () => deepStrictEqual(cellsOf({ light: '2 across', row: 4, column: 9, letters: 'AB' }), [{ coordinates: '4 9', letter: 'A' }, { coordinates: '4 10', letter: 'B' }]),
  'lights that are entered': () => deepStrictEqual(['O.', '..', 'OF'].map((letters) => isWhole({ light: '1 across', row: 1, column: 1, letters })), [false, false, true]),
  'words in one text': () => [[], ['AT'], ['AS', 'AT']].forEach((words) => deepStrictEqual(unpacked(packed(words)), words)),
};

const count = new Count();
await count.runAll(CHECKS);
count.end();
