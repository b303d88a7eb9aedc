// Tests the grids that the page makes: that the engine reads each as it was meant, that they keep the usual rules, and that their symmetries are
// those of the engine.
//
//   node web/test/grids.mjs
//
// The last line is 'N passed, M failed'.
import { readFileSync } from 'node:fs';
import { Xw, load } from '../dist/xw.js';
import { Count } from './count.mjs';
import { pageModules } from './page-modules.mjs';

const { Making, OUTLETS, PATTERNS, Search, Turns, checkWanted, gridFrom, limitsAt, loadModule, mostUnchecked, movesIn, open, recordOf, recordOfGrid, rowsOf } = await pageModules(
  'engine/session', 'grids/making', 'grids/moves', 'grids/british', 'grids/search', 'grids/outlets', 'grids/grid', 'grids/symmetry', 'grids/barred', 'grids/patterns',
);
const SYMMETRIES = ['half', 'quarter', 'leftright', 'updown', 'none'];
const bytes = readFileSync(new URL('../dist/xw.wasm', import.meta.url));
const module = await load(bytes);

function expect(isSo, what) {
  if (!isSo) throw new Error(what);
}

// A grid as the engine has it: { lights, cells, blocks, bars }, where a light is a list of cells and cells are `R C`.
function gridIn(record) {
  const xw = Xw.open(module, { record });
  expect(xw.reports === '', `the record is refused: ${xw.reports}`);
  const lights = xw.line('lights').lines.map((line) => {
    const [, direction, row, column, letters] = line.split(' ');
    return Array.from(letters, (_, at) => (direction === 'across' ? `${row} ${Number(column) + at}` : `${Number(row) + at} ${column}`));
  });
  const lines = (name) => record.split('\n').filter((line) => line.startsWith(`${name} `)).map((line) => line.slice(name.length + 1));
  const [, width, height] = /size (\d+) (\d+)/.exec(record).map(Number);
  const open = new Set();
  for (let row = 1; row <= height; row++) for (let column = 1; column <= width; column++) open.add(`${row} ${column}`);
  for (const block of lines('block')) open.delete(block);
  return { width, height, lights, open, blocks: lines('block'), bars: lines('bar'), letters: xw.line('stats').lines.find((line) => line.startsWith('entered')) };
}

// What the usual rules of a style say against a grid; or ''.
function faultOf({ width, height, lights, open }, style, themes) {
  const through = new Map([...open].map((cell) => [cell, lights.filter((light) => light.includes(cell)).length]));
  const isTheme = (light) => themes.some((length) => light.length === length);
  const short = lights.find((light) => light.length < 3);
  if (short) return `a light of ${short.length}`;
  if (lights.some((light) => style !== 'barred' && light.length > 10 && !isTheme(light))) return 'a long light';
  if (style === 'american' && [...through.values()].some((count) => count !== 2)) return 'an unchecked cell';
  if (style === 'american' && width === 15 && height === 15 && lights.length > 78) return `${lights.length} words`;
  if ([...through.values()].some((count) => count === 0) && style !== 'british') return 'a cell in no light';
  for (const light of lights) {
    const unchecked = light.map((cell) => (through.get(cell) === 1 ? 'u' : 'c')).join('');
    const count = unchecked.replaceAll('c', '').length;
    if (style === 'british' && (unchecked.includes('uuu') || 2 * count > light.length + 1)) return `unchecked: ${unchecked}`;
    if (style === 'barred' && (unchecked.includes('uu') || count > mostUnchecked(light.length))) return `unchecked: ${unchecked}`;
  }
  const seen = new Set([lights[0][0]]);
  for (const cell of seen) for (const light of lights) if (light.includes(cell)) for (const next of light) seen.add(next);
  return [...through].every(([cell, count]) => count === 0 || seen.has(cell)) ? '' : 'parts that do not connect';
}

// Whether blocks and bars are their images in the engine: toggling one of each under the symmetry makes them all.
function isSymmetric({ width, height, blocks, bars }, sym) {
  const [xw, due] = [Xw.open(module, { record: `size ${width} ${height}\nsym ${sym}\n` }), { block: new Set(blocks), bar: new Set(bars) }];
  const recorded = () => new TextDecoder().decode(xw.record()).split('\n');
  for (const kind of ['block', 'bar']) {
    for (const one of due[kind]) {
      xw.line(`${kind} ${one}`);
      for (const line of recorded()) if (line.startsWith(`${kind} `)) due[kind].delete(line.slice(kind.length + 1));
    }
  }
  const made = recorded().filter((line) => /^(block|bar) /.test(line));
  return made.length === blocks.length + bars.length;
}

const [DAILY] = OUTLETS;

// What makes grids one after another, as if each light had words.
function makerOf(wanted) {
  let seed = 0;
  if (wanted.style !== 'american') return () => gridFrom(wanted, ++seed);
  const search = new Search(wanted, { count: () => 1000 }, 1);
  return () => search.next();
}

// A board by its rows: a dot is an empty cell.
function boardOf(rows) {
  const [height, width] = [rows.length, rows[0].length];
  const isShut = (row, column) => (rows[row]?.[column] ?? '#') === '#';
  const cells = rows.flatMap((text, row) => [...text].map((sign, column) => ({
    coordinates: `${row + 1} ${column + 1}`, block: sign === '#', letter: /[A-Z]/.test(sign) ? sign : '', right: false, below: false,
    across: isShut(row, column - 1) && isShut(row, column + 1) ? null : {}, down: isShut(row - 1, column) && isShut(row + 1, column) ? null : {},
  })));
  return { width, height, cells };
}

const withBlocks = (rows, shut) => rows.map((text, row) => [...text].map((sign, column) => (shut.includes(row * text.length + column) ? '#' : sign)).join(''));

// Whether rows have no word of two letters, no cell that is in one word only unless they are a lattice, and are one part.
function isUsual(rows, isLattice) {
  const columns = [...rows[0]].map((_, at) => rows.map((row) => row[at]).join(''));
  const runs = [...rows, ...columns].flatMap((line) => line.split('#').filter(Boolean));
  if (runs.some(({ length }) => length === 2 || (length === 1 && !isLattice))) return false;
  const reached = new Set([rows.findIndex((row) => row.includes('.'))].map((row) => `${row} ${rows[row].indexOf('.')}`));
  for (const one of reached) {
    const [row, column] = one.split(' ').map(Number);
    for (const [r, c] of [[row - 1, column], [row + 1, column], [row, column - 1], [row, column + 1]]) if (rows[r]?.[c] === '.') reached.add(`${r} ${c}`);
  }
  return reached.size === rows.join('').replace(/#/g, '').length;
}

// Why there can be no such grid; or ''.
function faultIn(wanted) {
  try {
    checkWanted(wanted);
    return '';
  } catch (fault) {
    return fault.message;
  }
}

const CASES = {
  'symmetries are those of the engine'() {
    for (const sym of SYMMETRIES) {
      // only a square has a quarter turn
      for (const [width, height] of sym === 'quarter' ? [[5, 5], [6, 6]] : [[5, 5], [6, 6], [5, 6], [7, 4]]) {
        const turns = new Turns(sym, width, height);
        for (let cell = 0; cell < width * height; cell++) {
          const xw = Xw.open(module, { record: `size ${width} ${height}\nsym ${sym}\nblock ${Math.floor(cell / width) + 1} ${(cell % width) + 1}\n` });
          const blocks = xw.line('show').lines.join('').replaceAll(' ', '');
          const orbit = [...blocks].flatMap((entry, at) => (entry === '#' ? [at] : []));
          expect(orbit.join() === [...turns.orbit(cell)].sort((a, b) => a - b).join(), `${sym}, cell ${cell} of ${width} by ${height}: ${orbit}, and not ${turns.orbit(cell)}`);
        }
      }
    }
  },

  'patterns to start from'() {
    for (const pattern of PATTERNS) {
      const grid = gridIn(recordOf(rowsOf(pattern), pattern.sym));
      const style = pattern.name.split(' ')[0].toLowerCase();
      const fault = faultOf(grid, ['british', 'barred'].includes(style) ? style : 'american', grid.lights.map((light) => light.length));
      expect(!fault, `${pattern.name}: ${fault}`);
      expect(isSymmetric(grid, pattern.sym), `${pattern.name} is not its image`);
      if (style === 'barred') expect(Math.min(...grid.lights.map((light) => light.length)) >= 4, `${pattern.name} has a light of three letters`);
    }
  },

  'grids of all styles and symmetries'() {
    const sets = [[], ['PIANO', 'DRUMMACHINE', 'BASSGUITARS'], ['CHOCOLATECAKE', 'STRAWBERRYPIE', 'LEMONTART', 'APPLECAKE'], ['SILVERTONGUED', 'GOLDENHANDSHAKE', 'BRONZEMEDALIST']];
    const told = [];
    for (const style of ['american', 'british', 'barred']) {
      for (const sym of SYMMETRIES) {
        for (const entries of sets) {
          let count = 0;
          const check = (made) => {
            count++;
            const record = recordOfGrid(made);
            const grid = gridIn(record);
            const name = `${style}, ${sym}, ${entries.join(' ')}`;
            const fault = faultOf(grid, style, entries.map((word) => word.length));
            expect(!fault, `${name}: ${fault}\n${record}`);
            expect(isSymmetric(grid, sym), `${name}: it is not its image\n${record}`);
            const words = grid.lights.map((light) => light.map((cell) => new RegExp(`^set ${cell} (.)`, 'm').exec(record)?.[1] ?? '.').join(''));
            expect(entries.every((entry) => words.includes(entry)), `${name}: an entry is lost\n${record}`);
          };
          const wanted = { entries, seeds: [], width: 15, height: 15, style, sym, limits: DAILY.limits };
          if (faultIn(wanted)) continue;
          const next = makerOf(wanted);
          for (let tries = 0; tries < 40 && count < 2; tries++) {
            const made = next();
            if (made) check(made);
          }
          if (!count) told.push(`${style} ${sym} ${entries.length}`);
        }
      }
    }
    return told.length ? `none for ${told.join('; ')}` : '';
  },

  'rectangles'() {
    for (const [width, height, sym] of [[15, 16, 'half'], [16, 15, 'updown'], [15, 13, 'leftright']]) {
      const next = makerOf({ entries: ['CROSSWORD', 'EDUCATION'], seeds: [], width, height, style: 'american', sym, limits: limitsAt(DAILY, width, height) });
      let made = null;
      for (let tries = 0; tries < 200 && !made; tries++) made = next();
      expect(made, `there is no grid of ${width} by ${height}`);
      const grid = gridIn(recordOfGrid(made));
      expect(grid.width === width && grid.height === height && isSymmetric(grid, sym), `${width} by ${height}: another size, or not its image`);
      const fault = faultOf(grid, 'american', [9, 10]);
      expect(!fault, `${width} by ${height}: ${fault}`);
    }
  },

  async 'what the engine says of a grid'() {
    // two fills: AB over CD, and AC over BD
    await loadModule({ bytes });
    open({ sources: [{ bytes: Buffer.from('ab;90\ncd;80\nac;70\nbd;60\n') }], personal: '', least: 0, threes: 0, record: '' });
    const making = new Making();
    const look = making.look({ lines: ['size 2 2'] });
    expect(!look.unmatched.length && !look.dead.length, `of the empty grid it is said: ${JSON.stringify(look)}`);
    const fill = making.fill({ lines: ['size 2 2'], placements: 100, isScored: true });
    expect(fill.answer === 'filled' && fill.bound > 60 && fill.bound <= 71 && [...fill.scores].sort().join() === '60,70,80,90', `of its fill it is said: ${JSON.stringify(fill)}`);
    expect(making.fill({ lines: ['size 2 2'], placements: 100, isScored: false }).answer === 'filled', 'without scores it does not fill');
    // an entry is none of the words that a fill enters
    const around = making.fill({ lines: ['size 2 2', 'set 1 1 A', 'set 1 2 B'], placements: 100, isScored: true });
    expect(around.answer === 'filled' && [...around.scores].sort().join() === '60,70,80', `of a fill around AB it is said: ${JSON.stringify(around)}`);
    // AC and CD fill it without the other two, if they may stand twice, as feasible words may; without AC there is no fill
    const bound = making.bound({ lines: ['size 2 2'] });
    expect(bound.bound === 71 && bound.fewest === 2 && Math.abs(bound.logs - Math.log(2.01)) < 1e-9, `before it is filled it is said: ${JSON.stringify(bound)}`);
    expect(making.bound({ lines: ['size 2 2', 'set 2 2 X'] }).bound === 0, 'a dead grid has a bound');
    const dead = making.look({ lines: ['size 2 2', 'set 2 2 X'] });
    expect(dead.unmatched.join() === '.X,.X' && [...new Set(dead.dead)].sort().join() === '1 2,2 1,2 2', `of a dead grid it is said: ${JSON.stringify(dead)}`);
    expect(making.fill({ lines: ['size 2 2', 'set 2 2 X'], placements: 100, isScored: true }).answer === 'nofill', 'a dead grid fills');
    // lines of a grid after those of another begin anew
    making.bound({ lines: ['size 3 3', 'block 2 2', 'sym half', 'set 1 1 A'] });
    expect(making.bound({ lines: ['size 2 2'] }).bound === 71, 'the grid before is not left');
    // a call makes one board at least, and tells all that were made
    expect(making.begin({ wanted: { entries: [], seeds: [], width: 9, height: 9, style: 'american', sym: 'half', limits: limitsAt(DAILY, 9, 9) }, seed: 1, weak: 0 }), 'there is no empty placing');
    const [first, second] = [0, 0].map((milliseconds) => making.more({ milliseconds }));
    expect(first.tried === 1 && second.tried === 2 && !second.grids.length && !second.unfilled.length && second.faults.get('dead') === 2, `of 2 boards without words it is said: ${[...second.faults].join('; ')}`);
  },

  'cells that could be blocks'() {
    const american = ['...#...', '...#...', '.......', '##...##', '.......', '...#...', '...#...'];
    const lattice = ['.......', '.#.#.#.', '.......', '.#.#.#.', '.......', '.#.#.#.', '.......'];
    const open = Array.from({ length: 7 }, () => '.......');
    const wide = Array.from({ length: 6 }, () => '.........');
    for (const [rows, isBritish] of [[american, false], [lattice, true], [open, false], [wide, false]]) {
      for (const sym of SYMMETRIES.filter((one) => one !== 'quarter' || rows.length === rows[0].length)) {
        const told = movesIn(boardOf(rows), sym, new Set(['1 1'])).map((orbit) => orbit.join());
        const turns = new Turns(sym, rows[0].length, rows.length);
        const due = [...rows.join('')].flatMap((_, index) => {
          const orbit = turns.orbit(index);
          const isOpen = Math.min(...orbit) === index && orbit.every((one) => rows.join('')[one] === '.');
          return isOpen && isUsual(withBlocks(rows, orbit), isBritish) ? [orbit.join()] : [];
        });
        expect(told.sort().join(';') === due.sort().join(';'), `${sym}, ${rows.join(' ')}: ${told.join(';')}, and not ${due.join(';')}`);
      }
    }
    // letters stay, but for those in pencil
    expect(!movesIn(boardOf(['A..', '...', '...']), 'none', new Set()).some((orbit) => orbit.includes(0)), 'a locked letter goes');
    expect(movesIn(boardOf(['A..', '...', '...']), 'none', new Set(['1 1'])).length === 0, 'a light of two letters is left');
    expect(movesIn(boardOf(['A...', '....', '....', '....']), 'none', new Set(['1 1'])).some((orbit) => orbit.includes(0)), 'a letter in pencil stays');
    const barred = boardOf(open);
    expect(!movesIn({ ...barred, cells: barred.cells.map((cell, at) => ({ ...cell, right: at === 9 })) }, 'none', new Set()).length, 'a grid with bars has blocks');
  },

  'entries that cannot stand'() {
    const faults = [[['MINT', 'TEA'], 'half', /MINT and TEA have no partner/], [['TEAS'], 'half', /TEAS cannot stand in the middle/], [['ANTIDISESTABLISHMENT'], 'none', /too long/]];
    for (const [entries, sym, pattern] of faults) {
      const told = faultIn({ entries, seeds: [], width: 15, height: 15, style: 'british', sym });
      expect(pattern.test(told), `${entries}: ${told}`);
    }
  },
};

const count = new Count();
await count.runAll(CASES);
count.end();
