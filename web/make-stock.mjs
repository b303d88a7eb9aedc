// Makes web/editor/grids/stock-packed.js: a hundred patterns of each form that is usual, by the search for new grids.
//
//   node web/make-stock.mjs [FORM..]      makes all forms, or those of these names, and keeps the others
//
// It needs esbuild and /usr/share/dict/american-english, and takes some minutes. The same searches make the same patterns.
import { readFileSync, writeFileSync } from 'node:fs';
import { pageModules } from './test/page-modules.mjs';

const { OUTLETS, Search, areAlike, gridFrom, pack, randoms, shuffled, threesOf, wholeLimits } = await pageModules(
  'grids/grid', 'grids/outlets', 'grids/search', 'grids/british', 'grids/compact', 'model/random',
);
const OUT = new URL('./editor/grids/stock-packed.js', import.meta.url);
const EACH = 100;
// the most boards that are tried for one pattern, and how many grids the cheapest is chosen from
const MOST_BOARDS = 60;
const MOST_FOUND = 6;
const MOST_LINE = 150;

const SIZES = readFileSync('/usr/share/dict/american-english', 'latin1').split('\n').filter((word) => /^[a-z]{3,}$/.test(word)).reduce((sizes, { length }) => sizes.set(length, (sizes.get(length) ?? 0) + 1), new Map());
// two letters are the same by chance as often as the sum of the squares of their frequencies says
const AGREEMENT = 0.065;
// Theme entries have no letters here: a word agrees with one of them by chance.
const COUNTS = { count: (pattern) => (SIZES.get(pattern.length) ?? 0) * AGREEMENT ** Array.from(pattern).filter((letter) => letter >= 0).length };

const outlet = (name) => OUTLETS.find((one) => one.name === `New York Times, ${name}`);
// entries that may cross, and entries that agree in no letter, and so cross nowhere
const entriesOf = (lengths) => lengths.map((length) => 'E'.repeat(length));
const partedOf = (lengths) => lengths.map((length, at) => String.fromCharCode(65 + at).repeat(length));
const upTo = (from, to, step = 1) => Array.from({ length: Math.floor((to - from) / step) + 1 }, (_, at) => from + step * at);
const pairs = (lengths) => lengths.flatMap((one, at) => lengths.slice(at).map((other) => [one, other]));

// The theme sets of a daily: two and a middle one, two pairs, two pairs and a middle one.
const DAILY_SETS = [
  ...upTo(8, 15).flatMap((one) => upTo(7, 15, 2).map((middle) => [one, middle, one])),
  ...pairs(upTo(9, 15)).map(([one, other]) => [one, other, other, one]),
  ...pairs(upTo(8, 11)).flatMap(([one, other]) => upTo(7, 13, 2).map((middle) => [one, other, middle, other, one])),
];
// Those of a Sunday, at random: three pairs with a middle one or without, or two pairs and a middle one.
const sundaySets = (random) => {
  const any = (some) => some[Math.floor(some.length * random())];
  const own = (pairsOf, middles) => {
    const half = Array.from({ length: pairsOf }, () => any(upTo(11, 19)));
    return [...half, ...half, ...(middles ? [any(upTo(11, 21, 2))] : [])];
  };
  return Array.from({ length: 400 }, () => (random() < 0.6 ? own(3, true) : random() < 0.5 ? own(3, false) : own(2, true)));
};

// What is wanted of a grid for an outlet.
const wantedFor = ({ width, height, limits }, more) => ({ style: 'american', width, height, sym: 'half', entries: [], seeds: [], limits: wholeLimits(limits, width, height), ...more });
const themeless = (words, most) => upTo(1, most).map((at) => wantedFor(outlet('themeless'), {
  seeds: entriesOf([[], [15], [], [9], [13], [], [11], [10]][at % 8]), limits: { ...outlet('themeless').limits, words, ...(words < 72 && { blocks: 34, threes: 12 }) },
}));
const british = (size, limits) => upTo(1, 300).map((at) => ({
  style: 'british', width: size, height: size, sym: 'half', entries: entriesOf([[], [size, size], [], [size - 2, size - 2], [], [size - 4, size - 4]][at % 6]), seeds: [], limits,
}));

// What is wanted of the patterns of each form: more than there are, since some searches find no grid.
const FORMS = {
  daily: () => [1, 2].flatMap((pass) => shuffled(DAILY_SETS, randoms(pass))).map((lengths) => wantedFor(outlet('daily'), { entries: partedOf(lengths) })),
  themeless: () => [...themeless(72, 42), ...themeless(70, 36), ...themeless(68, 40)],
  sunday: () => sundaySets(randoms(2)).map((lengths) => wantedFor(outlet('Sunday'), { entries: entriesOf(lengths) })),
  british15: () => british(15, { words: 32, threes: 2 }),
  british13: () => british(13, { words: 28, threes: 4 }),
};

// The first lattice within the limits.
function latticesIn(wanted, seed) {
  for (let at = 0; at < MOST_BOARDS; at++) {
    const grid = gridFrom(wanted, MOST_BOARDS * seed + at);
    if (grid && grid.lights.length <= wanted.limits.words && threesOf(grid) <= wanted.limits.threes) return [grid];
  }
  return [];
}

// The grids of one search.
function found(wanted, seed) {
  if (wanted.style === 'british') return latticesIn(wanted, seed);
  const search = new Search(wanted, COUNTS, seed);
  const grids = [];
  while (search.isPossible && search.tried < MOST_BOARDS && grids.length < MOST_FOUND) grids.push(...[search.next()].flatMap((grid) => grid ?? []));
  return grids;
}

// A hundred patterns of a form, of which none is like another.
function patternsOf(name) {
  const all = [];
  for (const [at, wanted] of FORMS[name]().entries()) {
    if (all.length === EACH) break;
    const [cheapest] = found(wanted, at + 1).sort((one, other) => one.cost - other.cost);
    if (cheapest && !all.some((other) => areAlike(cheapest, other))) all.push(cheapest);
    if (process.stdout.isTTY) process.stdout.write(`\r${name}: ${all.length} of ${at + 1} searches `);
  }
  return all;
}

// A text in lines of code.
const inLines = (text) => text.match(new RegExp(`.{1,${MOST_LINE}}`, 'g')).map((line) => `    '${line}'`).join(' +\n');

const names = process.argv.slice(2);
const { PACKED } = await import(`data:text/javascript,${encodeURIComponent(readFileSync(OUT, 'utf8'))}`);
for (const name of names.length ? names : Object.keys(FORMS)) {
  const patterns = patternsOf(name);
  console.log(`${name}: ${patterns.length} patterns`);
  PACKED[name] = patterns.map(({ blocks, width }) => pack(blocks, width ** 2)).join('');
}
const forms = Object.keys(FORMS).filter((name) => PACKED[name]).map((name) => `  ${name}:\n${inLines(PACKED[name])},`);
writeFileSync(OUT, `// The stock of patterns, which web/make-stock.mjs makes: the blocks of each, as compact.js has them.\nexport const PACKED = {\n${forms.join('\n')}\n};\n`);
