// Tests the stock of patterns: each is judged here by its rows alone, and what a setter looks for is found in it.
//
//   node web/test/stock.mjs
//
// The last line is 'N passed, M failed'.
import { Count } from './count.mjs';
import { pageModules } from './page-modules.mjs';

const { FORMS, lengthOf, pack, patternsOf, placesFor, rowsOf, sift, unpack } = await pageModules('grids/stock', 'grids/compact');

function expect(isSo, what) {
  if (!isSo) throw new Error(what);
}

// What the patterns of a form keep: the most words, blocks, words of three letters, blocks that part no words, and lumps of blocks.
const LIMITS = {
  daily: { words: 78, blocks: 38, threes: 20, cheaters: 4, lumps: 0 },
  themeless: { words: 72, blocks: 36, threes: 14, cheaters: 4, lumps: 0 },
  sunday: { words: 140, blocks: 76, threes: 32, cheaters: 6, lumps: 0 },
  british15: { words: 32, blocks: 94, threes: 2 },
  british13: { words: 28, blocks: 70, threes: 4 },
};
const isBritish = (name) => name.startsWith('british');

// The runs of open cells across and down, as lists of `row column`.
function runsOf(rows) {
  const size = rows.length;
  const lines = rows.flatMap((_, line) => [false, true].map((isDown) => Array.from({ length: size }, (__, at) => (isDown ? [at, line] : [line, at]))));
  return lines.flatMap((line) => {
    const runs = [[]];
    for (const [row, column] of line) {
      if (rows[row][column] === '#') runs.push([]);
      else runs.at(-1).push(`${row} ${column}`);
    }
    return runs.filter(({ length }) => length);
  });
}

// The figures of rows, as the limits count them.
function figuresOf(rows) {
  const size = rows.length;
  const isShut = (row, column) => rows[row]?.[column] === '#';
  const isOpen = (row, column) => rows[row]?.[column] === '.';
  const words = runsOf(rows).filter(({ length }) => length > 1);
  const blocks = rows.flatMap((text, row) => [...text].flatMap((cell, column) => (cell === '#' ? [[row, column]] : [])));
  const parts = ([row, column]) => (isOpen(row, column - 1) && isOpen(row, column + 1)) || (isOpen(row - 1, column) && isOpen(row + 1, column));
  const lumps = [[[0, 1], [1, 0], [1, 1]], [[0, 1], [0, 2], [0, 3]], [[1, 0], [2, 0], [3, 0]]];
  expect(rows.every((row) => row.length === size), 'it is not square');
  return {
    words: words.length,
    blocks: blocks.length,
    threes: words.filter(({ length }) => length === 3).length,
    cheaters: blocks.filter((block) => !parts(block)).length,
    lumps: blocks.reduce((sum, [row, column]) => sum + lumps.filter((steps) => steps.every(([down, right]) => isShut(row + down, column + right))).length, 0),
  };
}

// How many cells are connected with the first one.
function connected(rows) {
  const open = rows.flatMap((text, row) => [...text].flatMap((cell, column) => (cell === '#' ? [] : [`${row} ${column}`])));
  const reached = new Set(open.slice(0, 1));
  for (const one of reached) {
    const [row, column] = one.split(' ').map(Number);
    for (const [r, c] of [[row - 1, column], [row + 1, column], [row, column - 1], [row, column + 1]]) if (rows[r]?.[c] === '.') reached.add(`${r} ${c}`);
  }
  return { all: open.length, reached: reached.size };
}

// What is wrong with the words of an American grid or of a lattice; or ''.
function faultOfWords(rows, isLattice) {
  const runs = runsOf(rows);
  const words = runs.filter(({ length }) => length > 1);
  if (words.some(({ length }) => length === 2)) return 'a word of two letters';
  if (!isLattice) return words.length < runs.length ? 'a cell that is in one word only' : '';
  const crossed = (cell) => words.filter((word) => word.includes(cell)).length;
  for (const word of words) {
    const checks = word.map((cell) => (crossed(cell) === 2 ? 'c' : 'u')).join('');
    if (checks.includes('uuu')) return `three unchecked cells: ${checks}`;
    if (2 * checks.replaceAll('u', '').length < word.length - 1) return `less than half is checked: ${checks}`;
  }
  return runs.some(([cell]) => crossed(cell) === 0) ? 'a cell that is in no word' : '';
}

const CASES = {
  'a hundred patterns of each form'() {
    return FORMS.map((form) => {
      const all = patternsOf(form).map(rowsOf);
      expect(all.length === 100 && new Set(all.map((rows) => rows.join())).size === 100, `${form.name}: ${all.length} patterns`);
      for (const rows of all) {
        const sketch = `${form.name}:\n${rows.join('\n')}`;
        const figures = figuresOf(rows);
        expect(rows.length === form.size && rows.join('') === [...rows.join('')].reverse().join(''), `it is not its half turn, ${sketch}`);
        const fault = faultOfWords(rows, isBritish(form.name));
        expect(!fault, `${fault}, ${sketch}`);
        const { all: open, reached } = connected(rows);
        expect(open === reached, `it does not connect, ${sketch}`);
        for (const [name, most] of Object.entries(LIMITS[form.name])) expect(figures[name] <= most, `${figures[name]} ${name}, ${sketch}`);
      }
      return `${form.name} ${Math.min(...all.map((rows) => figuresOf(rows).words))} to ${Math.max(...all.map((rows) => figuresOf(rows).words))} words`;
    }).join(', ');
  },

  'the lights of a pattern'() {
    for (const form of FORMS) {
      const [pattern] = patternsOf(form);
      const names = ({ isDown, line, from, length }) => Array.from({ length }, (_, at) => (isDown ? `${from + at} ${line}` : `${line} ${from + at}`)).join();
      const own = runsOf(rowsOf(pattern)).filter(({ length }) => length > 1).map((run) => run.join());
      expect(pattern.lights.map(names).sort().join(';') === own.sort().join(';'), `${form.name} has other lights`);
    }
  },

  'grids as characters'() {
    // the first six cells are a character: blocks at 0 and 5 are 100001, which is 33
    expect(pack(new Set([0, 5, 19, 24]), 25)[0] === 'h' && lengthOf(25) === 3, pack(new Set([0, 5, 19, 24]), 25));
    for (const blocks of [[], [12], [0, 24], [3, 7, 12, 17, 21]]) {
      const text = pack(new Set(blocks), 25);
      expect(text.length === 3 && [...unpack(text, 25)].sort((a, b) => a - b).join() === blocks.join(), `${blocks} becomes ${text}`);
    }
  },

  'lights in which theme entries have a place'() {
    const rows = ['...#...', '...#...', '.......', '##...##', '.......', '...#...', '...#...'];
    const blocks = new Set(rows.flatMap((row, at) => [...row].flatMap((cell, column) => (cell === '#' ? [7 * at + column] : []))));
    const lights = runsOf(rows).filter((run) => run.length > 1).map((run) => {
      const [[row, column], [next]] = run.map((cell) => cell.split(' ').map(Number));
      return next === row ? { isDown: false, line: row, from: column, length: run.length } : { isDown: true, line: column, from: row, length: run.length };
    });
    const pattern = { size: 7, blocks, lights };
    const told = (lengths, isThemed = false) => placesFor(pattern, lengths, isThemed)?.map(({ isDown, line }) => `${isDown ? 'down' : 'across'} ${line}`).join() ?? 'none';
    expect(told([7, 7]) === 'across 2,across 4', `two of 7: ${told([7, 7])}`);
    expect(told([7, 7, 7]) === 'none', `three of 7: ${told([7, 7, 7])}`);
    // the light of 3 in the middle is beside both of 7
    expect(told([7, 7, 3]) === 'across 2,across 4,across 0', `two of 7 and one of 3: ${told([7, 7, 3])}`);
    expect(told([]) === '' && told([5]) === 'none', 'no entries have no place, or a length that there is not has one');
    expect(told([7]) === 'across 2', `one of 7: ${told([7])}`);
    // entries of a theme are images of each other, or of themselves
    expect(told([7, 7], true) === 'across 2,across 4' && told([7], true) === 'none' && told([3], true) === 'across 3', `of a theme: ${told([7, 7], true)}; ${told([7], true)}; ${told([3], true)}`);
    expect(told([7, 7, 3], true) === 'none' && told([3, 3, 3], true) === 'across 3,across 0,across 6', `of a theme with a middle: ${told([7, 7, 3], true)}; ${told([3, 3, 3], true)}`);
  },

  'patterns within what is sought'() {
    const [daily] = FORMS;
    const all = patternsOf(daily);
    const none = { lengths: [], isThemed: true, words: Infinity, threes: Infinity };
    expect(sift(all, none).length === 100, 'without limits some are left out');
    const few = sift(all, { ...none, words: 76, threes: 14 }).map(({ pattern }) => figuresOf(rowsOf(pattern)));
    expect(few.length > 0 && few.length < 100 && few.every(({ words, threes }) => words <= 76 && threes <= 14), `${few.length} patterns within 76 words and 14 of three letters`);
    const sets = [[15, 15, 15], [14, 12, 12, 14], [10, 13, 13, 10], [11, 15, 11], [9, 13, 9, 13], [13, 9, 9, 13], [8, 15, 8], [11, 10, 9, 10, 11]];
    const counts = sets.map((lengths) => {
      const found = sift(all, { ...none, lengths });
      for (const { pattern, places } of found) expect(places.map(({ length }) => length).sort().join() === [...lengths].sort().join() && places.every((place) => pattern.lights.includes(place)), `${lengths}: ${JSON.stringify(places)}`);
      return `${lengths.join('/')} ${found.length}`;
    });
    return counts.join(', ');
  },
};

const count = new Count();
await count.runAll(CASES);
count.end();
