// Tests what the page makes of a puzzle for others: what outlets ask of it, the manuscript that they get, comments, and the puzzle as a solver has it.
//
//   node web/test/others.mjs
//
// The last line is 'N passed, M failed'.
import { deepStrictEqual as same } from 'node:assert/strict';
import { execFileSync } from 'node:child_process';
import { readFileSync } from 'node:fs';
import { Count } from './count.mjs';
import { pageModules } from './page-modules.mjs';
import { boardsOf } from './rows.mjs';

const { Board, Dropped, OUTLETS, PATTERNS, Solving, addedComments, changeBeside, commentField, commentsIn, gridFigures, headLines, judgedBy, judgedByAll, lawfulBeside, letterFigures, linksOf, lossesOf, manuscriptRows, numbersOf, rowsOf, rowsOfFigures, solverPage, solverPuzzle, verdictOf, whyUnsolvable, withComment, withoutComment } = await pageModules(
  'model/beside', 'model/board', 'model/changed', 'model/comments', 'formats/dropped', 'grids/outlets', 'model/links', 'formats/losses', 'formats/manuscript', 'grids/patterns', 'solver/puzzle', 'solver/solving', 'model/statistics',
);
// the board of the search for grids, which counts in its own way
const { Board: Blocks, Cost, Frame, wholeLimits } = await pageModules('grids/board', 'grids/cost', 'grids/frame', 'grids/outlets');
const boardOf = boardsOf(Board);
// puzzles of examples/puzzles that were made for an outlet
const SUBMISSIONS = { 'on-the-quiet': 'New York Times, daily', 'passing-style': 'New York Times, themeless', 'help-wanted': 'New York Times, Sunday' };
const american = gridFigures(boardOf(...rowsOf(PATTERNS[0])));
const outlet = (name) => OUTLETS.find((one) => one.name === name);
const stateOf = (judged, text) => judged.find((one) => one.text.startsWith(text));

// What tells of a puzzle: a board with texts by field, and originals.
function toldOf(board, texts, originals = []) {
  const links = linksOf(board, new Map(originals));
  const answerOf = (light) => board.spell(light);
  const all = (light) => [light, ...(links.heads.get(light) ?? [])];
  return {
    board, links, answerOf, textOf: (field) => texts[field] ?? '',
    commentsOn: (light) => commentsIn(new Map(originals).get(commentField(board, light)) ?? ''),
    cluedBy: (light) => ({ numbers: numbersOf(light, all(light).slice(1)), answer: all(light).map(answerOf).join('') }),
  };
}

// A puzzle of rows that is being solved, without clues.
function solvingOf(...rows) {
  const board = boardOf(...rows);
  return new Solving(solverPuzzle({ ...toldOf(board, {}), language: '', entryOf: ({ letter }) => letter, colourOf: () => '' }));
}

const CASES = {
  'the figures of a grid'() {
    const small = gridFigures(boardOf(...rowsOf(PATTERNS[4])));
    same(small, {
      style: 'american', width: 7, height: 7, symmetries: ['half', 'quarter', 'leftright', 'updown'], words: 22, blocks: 8, threes: 18,
      lengths: [7, 7, 7, 7, ...Array(18).fill(3)], cheaters: 0, lumps: 0, parts: 1, warnings: [],
    });
    const fat = gridFigures(boardOf('##...', '##...', '.....', '...##', '...##'));
    same([fat.symmetries, fat.words, fat.threes, fat.blocks, fat.cheaters, fat.lumps], [['half'], 10, 8, 8, 8, 2]);
    // five in line are two times four
    const line = gridFigures(boardOf('#####..', '.......'));
    same([line.cheaters, line.lumps, line.symmetries], [5, 2, []]);
    const apart = gridFigures(boardOf('ABC', '###', 'DEF'));
    same([apart.parts, apart.warnings.includes('the grid is in 2 parts that do not connect')], [2, true]);
    // as counted by hand
    const { words, blocks, threes, lengths, cheaters, lumps } = american;
    same([words, blocks, threes, lengths[0], cheaters, lumps], [76, 36, 13, 8, 2, 4]);
  },

  'the figures of a grid are those of the search for grids'() {
    const names = ['words', 'blocks', 'threes', 'cheaters', 'lumps'];
    const grids = PATTERNS.filter(({ name }) => /American|Themeless|Small/.test(name)).map((pattern) => rowsOf(pattern));
    same(grids.length, 9);
    for (const rows of [...grids, ['##...', '##...', '.....', '...##', '...##'], ['####...', '####...', '.......', '.......', '.......', '...####', '...####']]) {
      const [width, height] = [rows[0].length, rows.length];
      const frame = new Frame(width, height, 'none');
      const blocks = new Blocks(frame);
      const shut = [...rows.join('')].flatMap((cell, at) => (cell === '#' ? [frame.cell(Math.floor(at / width), at % width)] : []));
      if (!blocks.hold([], shut)) throw new Error(`no board of ${rows.join()}`);
      const cost = new Cost(blocks, wholeLimits({}, width, height), { count: () => 1 });
      cost.begin();
      cost.of();
      const own = gridFigures(boardOf(...rows));
      same(names.map((name) => own[name]), names.map((name) => cost.figures[name]));
    }
  },

  'the finished puzzles for outlets keep their limits'() {
    for (const [name, wanted] of Object.entries(SUBMISSIONS)) {
      const { solution, clues } = JSON.parse(readFileSync(new URL(`../../examples/puzzles/${name}.ipuz`, import.meta.url), 'utf8'));
      const board = boardOf(...solution.map((row) => row.join('')));
      const judged = judgedBy(outlet(wanted), gridFigures(board), {});
      same(judged.filter(({ state }) => state === 'missed'), []);
      // each light has a clue of its own, and no word stands twice
      const texts = Object.values(clues).flat().map(([, text]) => text);
      same([texts.length, new Set(texts).size, new Set(board.lights.map((light) => board.spell(light))).size], [board.lights.length, board.lights.length, board.lights.length]);
    }
  },

  'a symmetry of bars'() {
    const board = boardOf('....', '....');
    // a bar in the middle of the first row parts its light
    const [first] = board.lights;
    const [left, right] = [{ ...first, cells: [0, 1] }, { ...first, name: '3 across', cells: [2, 3] }];
    board.cells[1].right = true;
    board.lights = [left, right, ...board.lights.slice(1)];
    same([gridFigures(board).style, gridFigures(board).symmetries], ['barred', ['leftright']]);
  },

  'the letters of a fill'() {
    same(letterFigures(['J', 'A', '', 'Z', 'Z']), { missing: 'BCDEFGHIKLMNOPQRSTUVWXY', rare: [['J', 1], ['Z', 2]] });
    // a cell of several letters has them all
    same(letterFigures([...'ABCDEFGHIJKLMNOP', 'QUEEN', ...'RSTVWXYZ']), { missing: '', rare: [['J', 1], ['Q', 1], ['X', 1], ['Z', 1]] });
    const rows = (entries, scores = '') => new Map(rowsOfFigures(american, letterFigures(entries), scores));
    same([rows([]).get('Letters'), rows([]).get('Rare letters'), rows([]).has('Scores')], ['none yet', 'none', false]);
    same(rows([...'ABCDEFGHIJKLMNOPQRSTUVWXY'], 'worst 40, mean 61').get('Letters'), 'without Z');
    same([rows(['J', 'J']).get('Rare letters'), rows([], 'worst 40, mean 61').get('Scores')], ['J 2', 'worst 40, mean 61']);
    same([rows([]).get('Longest'), rows([]).get('Cheaters'), rows([]).get('Connected')], ['8 letters (2 words)', '2', 'yes']);
  },

  'what outlets ask'() {
    const daily = judgedBy(outlet('New York Times, daily'), american, {});
    same(stateOf(daily, 'Words at most'), { text: 'Words at most', here: '76', limit: '78', source: 'published', state: 'met' });
    same(stateOf(daily, 'Lumps'), { text: 'Lumps of blocks (2 × 2, or four in line) at most', here: '4', limit: '0', source: 'usual', state: 'missed' });
    same(daily.filter(({ state }) => state !== 'met').map(({ text, state }) => `${text.split(' ')[0]} ${state}`), ['Lumps missed', 'Rows open']);
    same(verdictOf(daily), '✗ 1 of 10 not met, 1 to judge');
    // in a themeless no entry has to be of the theme
    const themeless = judgedBy(outlet('New York Times, themeless'), american, {});
    same([stateOf(themeless, 'Words at most').state, verdictOf(themeless)], ['missed', '✗ 2 of 8 not met']);
    // of another size
    const sunday = judgedBy(outlet('New York Times, Sunday'), american, {});
    same(stateOf(sunday, 'Size'), { text: 'Size', here: '15 × 15', limit: '21 × 21', source: 'published', state: 'missed' });
    same(stateOf(sunday, 'Words at most').source, 'by the size');
  },

  'limits that a setter changed'() {
    const changed = { 'New York Times, daily 15 15': { lumps: 4, words: null }, 'New York Times, daily 21 21': { blocks: 1 } };
    const judged = judgedBy(outlet('New York Times, daily'), american, changed);
    same([stateOf(judged, 'Words at most'), stateOf(judged, 'Lumps').source, stateOf(judged, 'Lumps').state, stateOf(judged, 'Blocks').limit], [undefined, 'yours', 'met', '38']);
    same(verdictOf(judged), '✓ met, 1 to judge');
  },

  'long words that may be of a theme'() {
    const long = { ...american, lengths: [15, 11, 10, 8] };
    const judged = judgedBy(outlet('New York Times, daily'), long, {});
    same(stateOf(judged, 'Letters of other words'), { text: 'Letters of other words than the theme at most', here: 'theme entries of 15, 11?', limit: '10', source: 'usual', state: 'open' });
  },

  'outlets of the kind of a grid'() {
    const lattice = gridFigures(boardOf(...rowsOf(PATTERNS[2])));
    same([lattice.style, judgedByAll(lattice, {}).map(({ name }) => name)], ['british', ['Guardian', 'Times', 'Independent']]);
    same(judgedByAll(lattice, {}).map(({ judged }) => verdictOf(judged)), ['✓ met', '✓ met', '✓ met']);
    const open = gridFigures(boardOf(...Array(15).fill('.'.repeat(15))));
    same(judgedByAll(open, {}).length, 8);
    // a cell in one light only
    const loose = judgedBy(outlet('New York Times, daily'), gridFigures(boardOf('.#...', ...Array(4).fill('.....'))), {});
    same([stateOf(loose, 'Rules').state, stateOf(loose, 'Rules').here], ['missed', 'the cell in row 1, column 1 is in one light only']);
  },

  'the head of each page of a manuscript'() {
    const board = boardOf('CAT', 'O#O', 'DOE');
    const lines = (author, address) => headLines(toldOf(board, { author }), address);
    same(lines('A. Setter', '1 Grid Road\nCrossing'), ['A. Setter', '1 Grid Road\nCrossing', '3 × 3, 4 words']);
    same(lines('A. Setter', 'A. Setter\n1 Grid Road'), ['A. Setter\n1 Grid Road', '3 × 3, 4 words']);
    same(lines('', ''), ['3 × 3, 4 words']);
  },

  'the clues of a manuscript, with their answers'() {
    const board = boardOf('CAT', 'O#O', 'D.E');
    const texts = { 'clue 1 across': 'Pet', 'clue 1 down': 'Fish (3)', 'clue 2 down': '<i>Digit</i> (3, abbr.)', 'clue 3 across': 'See 1' };
    const told = toldOf(board, texts, [['link 1 1 across', '3 1 across']]);
    const rows = (hasLengths) => manuscriptRows(told, hasLengths).map(({ heading, number, clue, answer }) => heading ?? [number, clue, answer].join('|'));
    same(rows(true), ['Across', '1/3A|Pet (6)|CAT', '3A|See 1|D_E', 'Down', '1D|Fish (3)|COD', '2D|<i>Digit</i> (3, abbr.)|TOE']);
    // the lengths that were typed stay
    same(rows(false), ['Across', '1/3A|Pet|CAT', '3A|See 1|D_E', 'Down', '1D|Fish (3)|COD', '2D|<i>Digit</i> (3, abbr.)|TOE']);
    const blank = manuscriptRows(toldOf(board, {}), false);
    same(blank.map(({ clue }) => clue), [undefined, '', '', undefined, '', '']);
  },

  'comments on a clue'() {
    same(commentsIn(''), []);
    // whatever parts lines in a file
    same(commentsIn(' TB: too hard\r\n\r\nED: leave it \n'), ['TB: too hard', 'ED: leave it']);
    same(withComment([], ' TB: too hard '), 'TB: too hard');
    same(withComment(['TB: too hard'], 'ED: leave\nit'), 'TB: too hard\nED: leave it');
    same([withComment(['a'], ' '), withoutComment(['a', 'b', 'c'], 1), withoutComment(['a'], 0)], ['a', 'a\nc', '']);
  },

  'comments of another session'() {
    const here = new Map([['comment 1 1 across', ['TB: too hard']], ['comment 1 1 down', []], ['comment 2 1 across', ['ED: yes']]]);
    const given = [['comment 1 1 across', 'TB: too hard\nED: leave it'], ['comment 1 1 down', 'ED: why?\nTB: so'], ['comment 2 1 across', 'ED: yes'], ['comment 9 9 down', 'TB: gone']];
    same(addedComments(here, given), {
      texts: [['comment 1 1 across', 'TB: too hard\nED: leave it'], ['comment 1 1 down', 'ED: why?\nTB: so']], added: 3, others: ['TB: gone'],
    });
    same(addedComments(here, []), { texts: [], added: 0, others: [] });
  },

  'comments in a session, in a step and in no file of solvers'() {
    const board = boardOf('CAT', 'O#O', 'D.E');
    const field = commentField(board, board.byName.get('2 down'));
    same(field, 'comment 1 3 down');
    const pairs = [[field, 'TB: too hard'], ['comment 1 3 aslant', 'no'], ['comment 1 3 down', 3]];
    const dropped = new Dropped();
    same([lawfulBeside({ originals: pairs }, dropped).originals, dropped.phrases.length], [[[field, 'TB: too hard']], 1]);
    const step = (originals) => ({ puzzle: 'p', record: 'size 3 3\n', written: [], originals });
    const change = changeBeside(step([]), step([[field, 'TB: too hard']]), (place, direction) => `${place} ${direction}`);
    same(change, { tab: 'clues', text: 'the comments on 1 3 down' });
    const told = toldOf(board, {}, [[field, 'TB: too hard']]);
    const editor = { ...told, originals: new Map([[field, 'TB: → too hard']]), entryOf: ({ letter }) => letter, colourOf: () => '', noteOf: () => '', language: '' };
    for (const form of ['puz', 'ipuz', 'jpz', 'exolve', 'text', 'csv', 'html']) same([form, lossesOf(editor, form)], [form, { lost: ['the comments on a clue'], strange: [] }]);
  },

  'comments in a manuscript, if they are wanted'() {
    const board = boardOf('CAT', 'O#O', 'D.E');
    const told = toldOf(board, { 'clue 1 across': 'Pet' }, [['comment 1 1 across', 'TB: too easy\nED: no'], ['comment 1 1 down', 'ED: yes']]);
    const rows = (...more) => manuscriptRows(told, false, ...more).map(({ heading, number, comments }) => heading ?? number ?? comments);
    same(rows(), ['Across', '1A', '3A', 'Down', '1D', '2D']);
    same(rows(true), ['Across', '1A', 'TB: too easy\nED: no', '3A', 'Down', '1D', 'ED: yes', '2D']);
  },

  'a puzzle as a solver has it'() {
    const board = boardOf('CAT', 'O#O', 'DOE');
    board.cells[1].circle = true;
    const told = toldOf(board, { title: 'Pets', 'clue 1 across': 'Pet (3)', 'clue 2 down': '<i>Digit</i>' }, [['note 1 1 across', 'NOTED'], ['comment 1 1 across', 'NOTED']]);
    const puzzle = solverPuzzle({ ...told, language: 'en-GB', entryOf: (cell) => (cell === board.cells[8] ? 'HEART' : cell.letter), colourOf: (cell) => (cell === board.cells[2] ? 'ffe680' : '') });
    same([puzzle.texts, puzzle.language, puzzle.width, puzzle.height], [{ title: 'Pets', author: '', copyright: '', notes: '' }, 'en-GB', 3, 3]);
    same(puzzle.cells, [
      { solution: 'C', number: '1' }, { solution: 'A', circle: true }, { solution: 'T', number: '2', colour: 'ffe680' }, { solution: 'O' }, null, { solution: 'O' },
      { solution: 'D', number: '3' }, { solution: 'O' }, { solution: 'HEART' },
    ]);
    // a British grid gives lengths
    same(puzzle.lights, [
      { name: '1 across', number: '1', direction: 'across', clue: 'Pet (3)', cells: [0, 1, 2] }, { name: '3 across', number: '3', direction: 'across', clue: '(3)', cells: [6, 7, 8] },
      { name: '1 down', number: '1', direction: 'down', clue: '(3)', cells: [0, 3, 6] }, { name: '2 down', number: '2', direction: 'down', clue: '<i>Digit</i> (3)', cells: [2, 5, 8] },
    ]);
    same(JSON.stringify(puzzle).includes('NOTED'), false);
    same([whyUnsolvable({ board }), whyUnsolvable({ board: boardOf('CAT', 'O#.') }), whyUnsolvable({ board: boardOf('#') })], ['', 'row 2, column 3 is empty', 'there is no light']);
  },

  'the moves of a solver'() {
    const solving = solvingOf('CAT', 'O#O', 'DOE');
    const place = () => `${solving.cursor} ${solving.direction}`;
    same(place(), '0 across');
    solving.type('c');
    solving.type('x');
    same([place(), solving.entries.join()], ['2 across', 'C,X,,,,,,,']);
    // the light ends
    solving.type('t');
    same(place(), '2 across');
    solving.turn();
    same(place(), '2 down');
    // no light crosses here
    solving.moveTo(1);
    same(place(), '1 across');
    solving.turn();
    same(place(), '1 across');
    // over a block, to a cell that has a light across alone
    solving.arrow('down', 1);
    same(place(), '7 across');
    solving.arrow('across', 1);
    solving.arrow('across', 1);
    same(place(), '8 across');
    solving.arrow('down', -1);
    same(place(), '8 down');
    solving.arrow('down', -1);
    same(place(), '5 down');
    // to a block no cursor goes
    solving.moveTo(4);
    same(place(), '5 down');
    // lights across come first, and a light begins at its first empty cell
    solving.nextLight(1);
    same(place(), '0 across');
    solving.nextLight(-1);
    same(place(), '5 down');
    solving.toEnd(0);
    solving.backspace();
    same([place(), solving.entries[2]], ['2 down', '']);
    solving.moveTo(2, 'across');
    solving.backspace();
    same([place(), solving.entries[1]], ['1 across', '']);
    solving.toEnd(-1);
    same(place(), '2 across');
  },

  'letters that are checked and revealed'() {
    const solving = solvingOf('CAT', 'O#O', 'DOE');
    same([solving.check('letter'), solving.check('word'), solving.check('puzzle')], Array(3).fill('there is no letter to check'));
    for (const letter of 'CXT') solving.type(letter);
    same([solving.check('letter'), solving.check('word'), [...solving.wrong]], ['the letter is right', '1 letter is wrong', [1]]);
    // another letter is not checked yet
    solving.moveTo(1);
    solving.type('y');
    same([...solving.wrong], []);
    solving.moveTo(1);
    solving.reveal('letter');
    same([solving.entries[1], [...solving.revealed], solving.check('puzzle')], ['A', [1], 'all 3 letters are right']);
    // what is revealed stays
    solving.type('z');
    solving.moveTo(1);
    solving.clear();
    same(solving.entries[1], 'A');
    // a letter that is right is not revealed
    solving.moveTo(0, 'down');
    solving.reveal('word');
    same([solving.entries.join(''), [...solving.revealed]], ['CATOD', [1, 3, 6]]);
    same(solving.state, 'open');
    for (const [cell, letter] of [[5, 'O'], [7, 'O'], [8, 'X']]) {
      solving.moveTo(cell);
      solving.type(letter);
    }
    same([solving.state, solving.check('puzzle')], ['wrong', '1 letter is wrong']);
    solving.moveTo(8);
    solving.type('e');
    same([solving.state, solving.check('puzzle')], ['solved', 'all 8 letters are right']);
  },

  'cells of several letters'() {
    const solving = solvingOf('CAT');
    solving.puzzle.cells[0].solution = 'HEART';
    const isRight = (letters) => {
      solving.moveTo(0);
      solving.type(letters);
      return solving.isRight(0);
    };
    same(['H', 'heart', 'HEAR', 'E'].map(isRight), [true, true, false, false]);
  },

  'what a page keeps of a solving'() {
    const solving = solvingOf('CAT', 'O#O');
    solving.type('x');
    solving.reveal('letter');
    const other = (kept) => {
      const made = solvingOf('CAT', 'O#O');
      made.takeKept(kept);
      return [made.entries.join(), [...made.revealed].join()];
    };
    same(other(JSON.parse(JSON.stringify(solving.kept))), ['X,A,,,,', '1']);
    for (const kept of [null, 7, {}, { entries: ['A'], revealed: [] }, { entries: Array(6).fill('A') }, { entries: Array(6).fill(3), revealed: [4, 0, 'x'] }]) same(other(kept), [',,,,,', '']);
    same(other({ entries: ['<b>', 'a', 'B', '', 'C', ''], revealed: [] }), [',,B,,,', '']);
  },

  'a page to solve'() {
    const template = readFileSync(new URL('../editor/solver/page.html', import.meta.url), 'utf8');
    const puzzle = { ...solvingOf('CAT').puzzle, texts: { title: '</script><script>alert(1)</script>', author: '<!-- $& $1', copyright: '\u2028', notes: '' } };
    const page = solverPage(template, puzzle);
    const [, data] = /<script type="application\/json" id="puzzle">(.*?)<\/script>/s.exec(page);
    same([JSON.parse(data), data.includes('<')], [puzzle, false]);
    // all else is the template
    same(page.replace(data, '{"puzzle":"here"}'), template);
    const words = ['solver/page.js', '--bundle', '--format=esm', '--target=es2022', '--charset=utf8', '--minify-whitespace', '--log-level=warning'];
    const script = execFileSync('esbuild', words, { cwd: new URL('../editor', import.meta.url).pathname });
    same([script.length > 0, script.length <= 60 * 1024, /WebAssembly|innerHTML|fetch\(/.test(script.toString())], [true, true, false]);
  },
};

const count = new Count();
await count.runAll(CASES);
count.end();
