// Tests the search for American grids: each grid that it finds is judged here by its blocks and letters alone, from what its limits say.
//
//   node web/test/new-grids.mjs
//
// It needs /usr/share/dict/american-english. The last line is 'N passed, M failed'.
import { readFileSync } from 'node:fs';
import { Count } from './count.mjs';
import { pageModules } from './page-modules.mjs';

const { Board, Cost, Crossings, Frame, GradedCounts, OUTLETS, PATTERNS, Search, Trials, WordCounts, areAlike, checkWanted, limitsAt, narrowest, rowsOf, wholeLimits } = await pageModules(
  'grids/board', 'grids/cost', 'grids/crossings', 'grids/frame', 'grids/search', 'grids/counts', 'grids/outlets', 'grids/grid', 'grids/passage', 'grids/patterns', 'grids/trials',
);
const LIST = readFileSync('/usr/share/dict/american-english', 'latin1').split('\n').filter((word) => /^[a-z]{3,}$/.test(word)).map((word) => word.toUpperCase());
const counts = new GradedCounts(LIST, () => true);
const [DAILY, THEMELESS, SUNDAY] = ['daily', 'themeless', 'Sunday'].map((name) => OUTLETS.find((outlet) => outlet.name === `New York Times, ${name}`));

function expect(isSo, what) {
  if (!isSo) throw new Error(what);
}

const wantedFor = (outlet, more = {}) => ({ style: 'american', width: outlet.width, height: outlet.height, sym: 'half', entries: [], seeds: [], limits: outlet.limits, ...more });

// Words of the list of some lengths, spread over it.
function wordsOfLengths(lengths) {
  const chosen = [];
  for (const length of lengths) {
    const all = LIST.filter((word) => word.length === length && !chosen.includes(word));
    chosen.push(all[Math.floor(all.length * ((0.37 + 0.29 * chosen.length) % 1))]);
  }
  return chosen;
}

// The first grids that a search finds, in so many boards.
function found(wanted, most, boards = 600) {
  const search = new Search(wanted, counts, 1);
  const grids = [];
  for (let board = 0; board < boards && grids.length < most; board++) {
    const grid = search.next();
    if (grid) grids.push(grid);
  }
  return { search, grids };
}

// What a grid has, by its blocks: the cells are { row, column }, and a word is a run of them from block to block.
function seen({ width, height, blocks, letters }) {
  const isOpen = (row, column) => row >= 0 && column >= 0 && row < height && column < width && !blocks.has(row * width + column);
  const all = Array.from({ length: width * height }, (_, at) => ({ row: Math.floor(at / width), column: at % width }));
  const open = all.filter(({ row, column }) => isOpen(row, column));
  const runs = [[0, 1], [1, 0]].flatMap(([down, right]) => open.filter(({ row, column }) => !isOpen(row - down, column - right)).map(({ row, column }) => {
    const cells = [];
    for (let at = 0; isOpen(row + down * at, column + right * at); at++) cells.push({ row: row + down * at, column: column + right * at });
    return { isDown: down === 1, cells, text: cells.map((cell) => letters.get(cell.row * width + cell.column) ?? '.').join('') };
  }));
  return { isOpen, all, open, shut: all.filter(({ row, column }) => !isOpen(row, column)), runs };
}

// The images of a cell under a symmetry.
function imagesOf({ row, column }, sym, width, height) {
  const [down, right] = [height - 1 - row, width - 1 - column];
  const images = { none: [], half: [[down, right]], leftright: [[row, right]], updown: [[down, column]], quarter: [[column, down], [down, right], [right, row]] };
  return images[sym].map(([r, c]) => ({ row: r, column: c }));
}

// How many figures a grid has, as the limits count them.
function figuresOf(grid) {
  const { isOpen, shut, runs } = seen(grid);
  const isShut = (row, column) => row >= 0 && column >= 0 && row < grid.height && column < grid.width && !isOpen(row, column);
  // a block parts words if both cells beside it are open, across or down
  const parts = ({ row, column }) => (isOpen(row, column - 1) && isOpen(row, column + 1)) || (isOpen(row - 1, column) && isOpen(row + 1, column));
  const isAll = (row, column, steps) => steps.every(([r, c]) => isShut(row + r, column + c));
  const lumps = [[[0, 1], [1, 0], [1, 1]], [[0, 1], [0, 2], [0, 3]], [[1, 0], [2, 0], [3, 0]]];
  return {
    words: runs.length,
    blocks: shut.length,
    threes: runs.filter(({ cells }) => cells.length === 3).length,
    cheaters: shut.filter((cell) => !parts(cell)).length,
    lumps: shut.reduce((sum, { row, column }) => sum + lumps.filter((steps) => isAll(row, column, steps)).length, 0),
  };
}

function isConnected({ open, isOpen }) {
  const reached = new Set([`${open[0].row} ${open[0].column}`]);
  for (const one of reached) {
    const [row, column] = one.split(' ').map(Number);
    for (const [r, c] of [[row - 1, column], [row + 1, column], [row, column - 1], [row, column + 1]]) if (isOpen(r, c)) reached.add(`${r} ${c}`);
  }
  return reached.size === open.length;
}

const matching = new Map();
// Whether a word of the list has letters where a text has them.
function hasWord(text) {
  if (!matching.has(text)) {
    const pattern = new RegExp(`^${text}$`);
    matching.set(text, LIST.some((word) => word.length === text.length && pattern.test(word)));
  }
  return matching.get(text);
}

// The faults of a grid.
function faultsOf(grid, { width, height, sym, entries, seeds, limits }) {
  const it = seen(grid);
  const faults = [];
  if (grid.width !== width || grid.height !== height) faults.push('another size');
  if (it.runs.some(({ cells }) => cells.length < 3)) faults.push('a cell that is in one word only, or a word under three letters');
  if (!isConnected(it)) faults.push('parts that do not connect');
  if (!it.shut.every((cell) => imagesOf(cell, sym, width, height).every(({ row, column }) => !it.isOpen(row, column)))) faults.push('it is not its image');
  for (const [name, count] of Object.entries(figuresOf(grid))) if (count > limits[name]) faults.push(`${count} ${name}, and not ${limits[name]}`);
  const all = [...entries, ...seeds];
  for (const entry of all) if (it.runs.filter(({ text }) => text === entry).length !== 1) faults.push(`${entry} does not stand, or stands twice`);
  // an entry may be longer, and so may the image of a seed
  const placeOf = ({ cells }) => cells.map(({ row, column }) => `${row} ${column}`).sort().join();
  const spared = new Set(it.runs.filter(({ text }) => all.includes(text)).flatMap(({ cells }) => [{ cells }, ...imagesOfRun(cells, sym, width, height)]).map(placeOf));
  const long = it.runs.find((run) => run.cells.length > limits.longest && !spared.has(placeOf(run)));
  if (long) faults.push(`a word of ${long.cells.length} letters`);
  const lost = it.runs.find(({ text }) => !all.includes(text) && !hasWord(text));
  if (lost) faults.push(`no word for ${lost.text}`);
  return [...faults, ...themeFaults(it, entries, sym, width, height, limits.gap)];
}

const imagesOfRun = (cells, sym, width, height) => {
  const images = cells.map((cell) => imagesOf(cell, sym, width, height));
  return images[0].map((_, at) => ({ cells: images.map((some) => some[at]) }));
};

// What is wrong with how theme entries stand: each image of one is a theme entry too, but for those of a quarter turn, and there are lines between two side by side.
function themeFaults({ runs }, entries, sym, width, height, gap) {
  const faults = [];
  const nameOf = ({ row, column }) => `${row} ${column}`;
  const themes = runs.filter(({ text }) => entries.includes(text));
  const places = new Set(themes.map(({ cells }) => cells.map(nameOf).sort().join()));
  for (const { cells, text } of sym === 'quarter' ? [] : themes) {
    for (const image of imagesOfRun(cells, sym, width, height)) if (!places.has(image.cells.map(nameOf).sort().join())) faults.push(`the image of ${text} is no theme entry`);
  }
  for (const one of themes) {
    for (const other of themes) {
      if (one === other || one.isDown !== other.isDown) continue;
      const [line, along] = one.isDown ? ['column', 'row'] : ['row', 'column'];
      const lines = Math.abs(one.cells[0][line] - other.cells[0][line]);
      const isShared = one.cells.some((cell) => other.cells.some((another) => another[along] === cell[along]));
      if (lines && isShared && lines - 1 < gap) faults.push(`${lines - 1} lines between ${one.text} and ${other.text}`);
    }
  }
  return faults;
}

const sketch = ({ width, height, blocks, letters }) => Array.from({ length: height }, (_, row) => Array.from({ length: width }, (_, column) => {
  const cell = row * width + column;
  return blocks.has(cell) ? '#' : letters.get(cell) ?? '.';
}).join('')).join('\n');

// Finds grids, and judges each; tells how many boards that took.
function judged(wanted, most, boards) {
  const { grids, search } = found(wanted, most, boards);
  const name = `${wanted.width} by ${wanted.height}, ${wanted.sym}, ${[...wanted.entries, ...wanted.seeds].join(' ')}`;
  expect(grids.length === most, `${name}: ${grids.length} grids of ${search.tried} boards; ${[...search.faults].join('; ')}`);
  for (const grid of grids) {
    const faults = faultsOf(grid, wanted);
    expect(!faults.length, `${name}: ${faults.join('; ')}\n${sketch(grid)}`);
    const told = grid.lights.map((light) => light.join()).sort().join(' ');
    const own = seen(grid).runs.map(({ cells }) => cells.map(({ row, column }) => row * grid.width + column).join()).sort().join(' ');
    expect(told === own, `${name}: other lights are told than the grid has\n${sketch(grid)}`);
  }
  expect(new Set(grids.map(sketch)).size === grids.length, `${name}: a grid comes twice`);
  return search.tried;
}

// The message of what throws, or ''.
function faultIn(action) {
  try {
    action();
    return '';
  } catch ({ message }) {
    return message;
  }
}

// Grids of which none is like another, each by its number: six blocks of a row of its own.
const numbered = (number, ...more) => ({ width: 15, height: 15, blocks: new Set([...Array.from({ length: 6 }, (_, at) => 1000 * number + at), ...more]), bars: new Set() });

// Has grids tried, where a search finds what `fill` says, until no other is to be filled; returns the placements of the searches, by the number of the grid.
function triedIn(trials, fill) {
  const searches = new Map();
  for (let next = trials.next(); next; next = trials.next()) {
    const { trial, placements } = next;
    const number = Math.floor(Math.min(...trial.grid.blocks) / 1000);
    searches.set(number, [...(searches.get(number) ?? []), placements]);
    trials.tell(trial, { answer: 'filled', bound: trial.look.bound, ...fill(number, placements) });
  }
  return searches;
}

const worstOf = (worst) => ({ figures: { worst, mean: 80, under: 0, weak: 50 } });

// A grid as rows spell it, without letters.
function drawn(rows) {
  const blocks = rows.flatMap((row, at) => [...row].flatMap((cell, column) => (cell === '#' ? [at * row.length + column] : [])));
  return { width: rows[0].length, height: rows.length, blocks: new Set(blocks) };
}

const CASES = {
  'twelve grids for each theme set of three to five entries'() {
    const sets = [
      [14, 12, 12, 14], [10, 13, 13, 10], [15, 15, 15], [10, 14, 14, 10], [12, 11, 11, 12], [11, 15, 11], [9, 13, 9, 13], [8, 15, 8], [15, 13, 15], [13, 9, 9, 13], [11, 10, 9, 10, 11],
    ];
    return `${sets.map((lengths) => judged(wantedFor(DAILY, { entries: wordsOfLengths(lengths) }), 12))} boards`;
  },

  'themeless grids of 72, 70 and 68 words, with a seed and without'() {
    const limits = [THEMELESS.limits, { ...THEMELESS.limits, words: 70, blocks: 34, threes: 12 }, { ...THEMELESS.limits, words: 68, blocks: 34, threes: 12 }];
    return `${limits.flatMap((some) => [[], [9], [15]].map((seeds) => judged(wantedFor(THEMELESS, { seeds: wordsOfLengths(seeds), limits: some }), 4, 1500)))} boards`;
  },

  'a 21 by 21'() {
    return `${judged(wantedFor(SUNDAY, { entries: wordsOfLengths([17, 15, 15, 13, 13]) }), 3)} boards`;
  },

  'a 21 by 21 with seven theme entries, of 111 letters'() {
    return `${judged(wantedFor(SUNDAY, { entries: wordsOfLengths([21, 17, 17, 15, 15, 13, 13]) }), 12)} boards`;
  },

  'eight theme entries in 15 by 15'() {
    const sets = [[10, 10, 9, 9, 8, 8, 7, 7], [8, 8, 8, 8, 8, 8, 8, 8]];
    return `${sets.map((lengths) => judged(wantedFor(DAILY, { entries: wordsOfLengths(lengths) }), 12, 1200))} boards`;
  },

  'symmetries and rectangles'() {
    const works = [
      [15, 15, 'leftright', [11, 15, 9]], [15, 15, 'leftright', [15, 6, 6, 13]], [15, 15, 'updown', [9, 9, 11]], [15, 15, 'none', [14, 12, 9]], [15, 15, 'quarter', [9, 9]],
      [15, 16, 'half', [14, 12, 12, 14]], [16, 15, 'half', [16, 12, 12]], [15, 14, 'leftright', [11, 15, 9]], [9, 9, 'half', []], [13, 13, 'half', [10, 13, 10]],
    ];
    return `${works.map(([width, height, sym, lengths]) => judged(wantedFor(DAILY, { width, height, sym, entries: wordsOfLengths(lengths), limits: limitsAt(DAILY, width, height) }), 2))} boards`;
  },

  'theme entries across and down, with seeds'() {
    const { grids } = found(wantedFor(DAILY, { entries: ['INTERACTION', 'DISCOVERING'], seeds: ['QUIZZED', 'JUKEBOX'] }), 40, 400);
    const isDown = (grid, word) => seen(grid).runs.find(({ text }) => text === word).isDown;
    expect(grids.length > 0, 'there is no grid');
    for (const word of ['QUIZZED', 'JUKEBOX']) expect([true, false].every((down) => grids.some((grid) => isDown(grid, word) === down)), `${word} reads in one direction only`);
    return `${judged(wantedFor(DAILY, { entries: ['INTERACTION', 'DISCOVERING'], seeds: ['QUIZZED', 'JUKEBOX'] }), 12)} boards`;
  },

  'limits that are changed one by one'() {
    const entries = wordsOfLengths([11, 15, 11]);
    const changes = [{ words: 74 }, { blocks: 34 }, { threes: 8 }, { cheaters: 0 }, { longest: 8 }, { gap: 3 }];
    return `${changes.map((change) => judged(wantedFor(DAILY, { entries, limits: { ...DAILY.limits, ...change } }), 3, 1500))} boards`;
  },

  'what keeps boards from being grids'() {
    const { search, grids } = found(wantedFor(DAILY, { limits: { ...DAILY.limits, words: 60, threes: 0, blocks: 26 } }), 1, 8);
    expect(!grids.length && search.tried === 8, 'there is a grid of 60 words in 8 boards');
    const { grid, faults } = search.nearest;
    const figures = figuresOf(grid);
    const limits = { words: 60, threes: 0, blocks: 26, cheaters: 4, lumps: 0 };
    const own = Object.keys(figures).filter((name) => figures[name] > limits[name]);
    expect(own.length && own.every((name) => faults.includes(name)) && faults.every((name) => own.includes(name) || !(name in limits)), `${faults} is said of a board with ${JSON.stringify(figures)}`);
    expect(own.every((name) => search.faults.get(name) > 0), `of 8 boards it is said: ${[...search.faults].join('; ')}`);
  },

  'entries that cannot stand together'() {
    const told = (entries, more = {}) => faultIn(() => checkWanted(wantedFor(DAILY, { entries, ...more })));
    expect(/MINT and TEA have no partner/.test(told(['MINT', 'TEA'])), told(['MINT', 'TEA']));
    expect(/TEAS cannot stand in the middle: its length is not odd/.test(told(['TEAS'])), told(['TEAS']));
    expect(/cannot stand in the middle/.test(told(['TEA'], { width: 14, height: 14 })), 'a grid of 14 rows has no middle');
    expect(told(['TEAS'], { width: 15, height: 16 }) === '' && told(['TEA'], { width: 15, height: 14 }) !== '', 'in 15 columns of 16 the middle one has an even number of cells');
    expect(/too long/.test(told(['ANTIDISESTABLISHMENT'])) && /too short/.test(told(['AT'])), 'a length is not refused');
    expect(told([], { seeds: ['MINT', 'TEA'] }) === '', 'seeds need no partner');
    expect(/quarter turn/.test(told([], { sym: 'quarter', width: 16 })), 'a rectangle has a quarter turn');
    // in an even number of columns no place of an odd length is its own mirror image
    const alone = (width) => new Search(wantedFor(DAILY, { width, sym: 'leftright', entries: ['CROSSWORD'] }), counts, 1).isPossible;
    expect(alone(15) && !alone(14), 'CROSSWORD stands alone in 14 columns, or does not in 15');
  },

  'what outlets publish'() {
    // from the requirements of the newspaper for those who send it puzzles
    const published = [[DAILY, 15, 78], [THEMELESS, 15, 72], [SUNDAY, 21, 140]];
    for (const [outlet, size, words] of published) expect(outlet.width === size && outlet.height === size && outlet.limits.words === words && outlet.published.includes('words'), outlet.name);
    for (const { name, limits, published: some } of OUTLETS) expect(some.every((limit) => limit === 'size' || limit in limits), `${name} publishes a limit that it has not`);
    expect(wholeLimits({}, 5, 4).words === 20 && wholeLimits({ words: 8 }, 5, 4).words === 8, 'no limit is as many as there are cells');
  },

  'words that match'() {
    const index = new WordCounts(LIST);
    const graded = new GradedCounts(LIST, (word) => word.includes('E'));
    for (const text of ['...', 'Q......', '.A.E.', 'CROSSWORD', 'ZZZZ', '..IN...ING', '.........................']) {
      const pattern = Array.from(text, (letter) => (letter === '.' ? -1 : letter.charCodeAt(0) - 65));
      const all = LIST.filter((word) => new RegExp(`^${text}$`).test(word));
      const good = all.filter((word) => word.includes('E')).length;
      expect(index.count(pattern) === all.length, `${text}: ${index.count(pattern)} words, and not ${all.length}`);
      const rest = 0.05 * (all.length - good);
      expect(Math.abs(graded.count(pattern) - (good ? good + rest : Math.min(0.9, rest))) < 1e-9, `${text}: the good ones are counted wrongly`);
    }
  },

  'what the lines across an entry cost'() {
    // an entry in the middle row of three columns, which cross it
    const costOf = (height, sym, count) => {
      const frame = new Frame(3, height, sym);
      const board = new Board(frame);
      board.hold([{ word: 'TEA', run: frame.cellsOf({ isDown: false, line: (height - 1) / 2, from: 0, length: 3 }) }]);
      return new Crossings(board, height, { count }).cost();
    };
    for (const sym of ['none', 'half', 'leftright', 'updown']) {
      expect(costOf(3, sym, () => 1000) === 0, `${sym}: lights with words cost something`);
      expect(costOf(3, sym, () => 0) === 60, `${sym}: three lights without a word cost ${costOf(3, sym, () => 0)}`);
      // a light of three letters crosses it, and the four other cells are blocks
      const told = costOf(7, sym, ({ length }) => (length === 3 ? 1000 : 0));
      expect(told === 6, `${sym}: twelve blocks cost ${told}`);
    }
  },

  'themeless patterns to start from'() {
    for (const words of [72, 70]) {
      const pattern = PATTERNS.find(({ name }) => name === `Themeless 15 × 15, ${words} words`);
      const grid = { ...drawn(rowsOf(pattern)), letters: new Map() };
      const wanted = wantedFor(THEMELESS, { limits: { ...THEMELESS.limits, words, ...(words < 72 && { blocks: 34, threes: 12 }) } });
      const faults = faultsOf(grid, wanted);
      expect(!faults.length && figuresOf(grid).words === words, `${pattern.name}: ${figuresOf(grid).words} words; ${faults.join('; ')}`);
    }
  },

  'narrow passages'() {
    const told = [
      // one cell joins the halves
      [['...#...', '...#...', '...#...', '.......', '...#...', '...#...', '...#...'], 1],
      // two rows do
      [['...#...', '...#...', '...#...', '.......', '.......', '...#...', '...#...'], 2],
      // a wall cuts off a corner, but for one cell: blocks that touch at corners are a wall
      [['....#....', '...#.....', '..#......', '.........', '#........', '.........', '.........', '.........', '.........'], 1],
      // any wall of an empty grid leads from side to side
      [Array.from({ length: 3 }, () => '...'), 2],
    ];
    for (const [rows, least] of told) expect(narrowest(drawn(rows)) === least, `${narrowest(drawn(rows))}, and not ${least}:\n${rows.join('\n')}`);
  },

  'grids that are alike'() {
    const [grid, near] = [numbered(0), { ...numbered(0), blocks: new Set([0, 1, 2, 3, 4, 15]) }];
    expect(areAlike(grid, near) && !areAlike(grid, numbered(1)), 'two cells of six make another grid, or twelve do not');
    const small = (one) => ({ ...one, width: 5, height: 5 });
    expect(areAlike(small(grid), small(grid)) && !areAlike(small(grid), small(near)), 'of a small grid two cells make no other');
    const numbersIn = (...looks) => {
      const trials = new Trials();
      for (const [one, bound] of looks) trials.add(one, { bound, logs: 5, fewest: 9 });
      triedIn(trials, () => worstOf(40));
      return trials.best.map((one) => one.look.bound).join();
    };
    expect(numbersIn([grid, 60], [near, 70], [numbered(1), 65]) === '70,65', `the better one of two that are alike goes: ${numbersIn([grid, 60], [near, 70], [numbered(1), 65])}`);
    expect(numbersIn([near, 70], [grid, 70], [grid, 60]) === '70', 'one that is no better comes beside one that is like it');
  },

  'which grids are filled, and for how long'() {
    const trials = new Trials();
    // any order: the bound of a grid is 1 more than its number
    for (let at = 0; at < 90; at++) trials.add(numbered((37 * at) % 90), { bound: ((37 * at) % 90) + 1, logs: 5, fewest: 9 });
    const searches = triedIn(trials, (number, placements) => worstOf(Math.max(0, number - Math.round(10000 / placements) - 1)));
    const counts = [500, 2000, 8000, 32000].map((placements) => [...searches.values()].filter((some) => some.includes(placements)).length);
    expect(counts.join() === '30,10,3,1', `of 90 grids so many have searches: ${counts}`);
    expect([...searches.keys()].every((number) => number >= 60), `others are filled than the most promising third: ${[...searches.keys()]}`);
    expect([...searches.values()].every((some) => some.every((placements, at) => placements === [500, 2000, 8000, 32000][at])), 'a grid has a search twice, or leaves one out');
    expect(searches.get(89).length === 4 && trials.count === 30, `the best one has ${searches.get(89)}, and ${trials.count} are judged`);
    const worst = trials.best.map(({ figures }) => figures.worst);
    expect(worst.length === 12 && worst[0] === 88 && worst.every((one, at) => !at || one <= worst[at - 1]), `the best dozen is ${worst}`);
    // a search that finds no better fill leaves the one that is known
    const [first] = trials.best;
    trials.tell(first, { answer: 'filled', bound: 90, ...worstOf(20) });
    trials.tell(first, { answer: 'limit', bound: 90, figures: null });
    expect(trials.best[0] === first && first.figures.worst === 88, 'a worse fill comes in place of a better one');
  },

  'grids that no search makes better'() {
    const of = (bounds, fill) => {
      const trials = new Trials();
      bounds.forEach((bound, at) => trials.add(numbered(at), { bound, logs: 5, fewest: 9 }));
      return { trials, searches: triedIn(trials, fill) };
    };
    const sixty = Array.from({ length: 60 }, () => 71);
    const longest = ({ searches }) => Math.max(...[...searches.values()].map(({ length }) => length));
    expect(longest(of(sixty, () => worstOf(70))) === 1, 'a fill that is proved the best is looked for again');
    expect(longest(of(sixty, () => worstOf(60))) > 1, 'one that is not is not');
    expect(longest(of(sixty, () => ({ figures: null }))) === 1, 'a fill without scores is looked for again');
    // what leaves no better fills than the dozen that is there is not filled at all
    const { searches } = of([...sixty.slice(0, 12), ...Array.from({ length: 48 }, () => 61)], () => worstOf(65));
    expect([...searches.keys()].every((number) => number < 12), `grids are filled that stay behind the others: ${[...searches.keys()]}`);
    // a lower bound that a search proves counts too
    expect(longest(of(sixty, () => ({ ...worstOf(60), bound: 61 }))) === 1, 'a bound of a search is forgotten');
    const { trials } = of([50, 60], (number) => (number ? { answer: 'nofill' } : { answer: 'limit', figures: null }));
    expect(trials.best.length === 1 && trials.best[0].look.bound === 50 && !trials.best[0].isFilled && trials.count === 1, 'a grid without a fill stays, or one that may have one goes');
  },

  'placings whose grids leave good fills'() {
    // how many of some boards have the entry in a row, if grids with it there are judged so
    const inRow = (bound) => {
      const search = new Search(wantedFor(DAILY, { entries: wordsOfLengths([9, 13, 9, 13]) }), counts, 1);
      const [entry] = wordsOfLengths([9]);
      let count = 0;
      for (let board = 0; board < 250; board++) {
        const grid = search.next();
        if (!grid) continue;
        const isThere = seen(grid).runs.find(({ text }) => text === entry).cells[0].row < 7;
        if (board >= 50 && isThere) count++;
        search.judge(grid, isThere ? bound : 100 - bound);
      }
      return count;
    };
    const [good, bad] = [inRow(100), inRow(0)];
    expect(good > bad, `with good fills there are ${good} such grids, and without ${bad}`);
    return `${good} and ${bad} grids`;
  },

  'a limit that boards break costs more'() {
    // an empty square of nine by nine cells has 18 words
    const board = new Board(new Frame(9, 9, 'none'));
    board.hold([]);
    const risenBy = (words, boards) => {
      const cost = new Cost(board, wholeLimits({ words }, 9, 9), { count: () => 1000 });
      cost.begin();
      const before = cost.of();
      for (let at = 0; at < boards; at++) cost.learn();
      return Math.round(100 * (cost.of() - before)) / 100;
    };
    // 10 words over the limit, at 7 each: 6 in 100 more after one such board, three times as much at last
    expect(risenBy(8, 1) === 4.2, `after one board the words cost ${risenBy(8, 1)} more`);
    expect(risenBy(8, 1000) === 140, `after many boards the words cost ${risenBy(8, 1000)} more`);
    expect(risenBy(18, 1000) === 0, `a limit that is kept costs ${risenBy(18, 1000)} more`);
  },

  'lights that weak words match alone'() {
    // a square of three by three cells
    const costOf = (count) => {
      const board = new Board(new Frame(3, 3, 'none'));
      board.hold([]);
      const cost = new Cost(board, wholeLimits({}, 3, 3), { count });
      cost.begin();
      return { cost: cost.of(), faults: cost.faults.join() };
    };
    const [good, weak, none] = [() => 1000, () => 0.5, () => 0].map(costOf);
    expect(good.cost < weak.cost && weak.cost < none.cost, `they cost ${good.cost}, ${weak.cost}, ${none.cost}`);
    expect(weak.cost - good.cost >= 90 && !weak.faults && none.faults === 'dead', `six of them cost ${weak.cost - good.cost} more, and their faults are ${weak.faults || 'none'} and ${none.faults}`);
  },
};

const count = new Count();
await count.runAll(CASES);
count.end();
