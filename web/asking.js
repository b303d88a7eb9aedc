// What commands answer, as values, and searches that report and stop. xw.d.ts has their types.
//
//   ask(xw, 'words', '1 across', 10)  →  { total: 55, words: ['CAB', ..] }
//   await best(xw, { progress: ({ placements, grade, bound, rows }) => isStopped })  →  { answer: 'filled', grade: 62, bound: 80 }
//   for await (const { grade, bound, mean, rows } of fills(xw, { signal }))
import { SPAN, Slices } from './slices.js';
import { Fault } from './xw.js';

// ---- answers

// The fields of each line.
const each = (read) => (lines) => lines.map((line) => read(...line.split(' ')));
const first = (read) => (lines) => each(read)(lines)[0] ?? null;
const name = (number, direction) => `${number} ${direction}`;
const count = (text) => (text === '-' || text === 'done' ? null : Number(text));
const cell = (_, row, column, letters) => ({ row: Number(row), column: Number(column), letters: letters === '-' ? '' : letters });

const ESCAPED = { '\\': '\\', n: '\n', r: '\r', t: '\t', s: ' ' };
const unescaped = (text) => text.replace(/\\(.)/g, (_, character) => ESCAPED[character]);

// The texts by their fields, the clues by the names of their lights.
function textsOf(lines) {
  const pairs = lines.map((line) => /^(?:clue )?(\d+ \w+|\w+) (.*)$/s.exec(line).slice(1));
  return Object.fromEntries(pairs.map(([field, text]) => [field, unescaped(text)]));
}

// The counts by their names; those of each length and letter are objects.
function statsOf(lines) {
  const stats = { lengths: {}, letters: {} };
  for (const [kind, ...numbers] of lines.map((line) => line.split(' '))) {
    const place = { light: stats.lengths, letter: stats.letters }[kind] ?? stats;
    const [key, number] = numbers.length > 1 ? numbers : [kind, numbers[0]];
    place[key] = Number(number);
  }
  return stats;
}

function suggestionOf(kind, number, direction, word = null) {
  return { kind, light: number === undefined ? null : name(number, direction), word };
}

function bestOf([answer, ...lines]) {
  const told = Object.fromEntries(lines.map((line) => line.split(' ')));
  return { answer, grade: 'least' in told ? Number(told.least) : null, bound: 'bound' in told ? Number(told.bound) : null };
}

const READERS = {
  match: (lines) => lines,
  show: (lines) => lines,
  record: (lines) => lines,
  help: (lines) => lines,
  texts: textsOf,
  stats: statsOf,
  lights: each((number, direction, row, column, letters) => ({ light: name(number, direction), row: Number(row), column: Number(column), letters })),
  longest: first((number, direction, length) => ({ light: name(number, direction), length: Number(length) })),
  words: ([total, ...words]) => ({ total: Number(total), words }),
  choices: each((word, left) => ({ word, left: count(left) })),
  letters: ([letters]) => (letters === '-' ? '' : letters),
  tally: each((letter, across, down) => ({ letter, across: count(across), down: count(down) })),
  cells: each(cell),
  counts: each((number, direction, words) => ({ light: name(number, direction), words: Number(words) })),
  unmatched: each((number, direction, pattern) => ({ light: name(number, direction), pattern })),
  dups: each((number, direction, earlier, other, word) => ({ light: name(number, direction), first: name(earlier, other), word })),
  unlisted: each((number, direction, word) => ({ light: name(number, direction), word })),
  grade: ([grade]) => Number(grade),
  grades: each((number, direction, grade) => ({ light: name(number, direction), grade: count(grade) })),
  circles: each((row, column) => ({ row: Number(row), column: Number(column) })),
  why: each((_, row, column, letter) => ({ row: Number(row), column: Number(column), letter })),
  suggest: first(suggestionOf),
  fill: ([answer]) => answer,
  autofill: ([answer]) => answer,
  best: bestOf,
};

// The commands that change the session. They answer the cells that the watch lists.
const CHANGES = new Set([
  'add', 'strike', 'least', 'size', 'sym', 'set', 'clear', 'place', 'erase', 'block', 'bar', 'watch', 'clue', 'title', 'author', 'copyright', 'notes', 'text',
  'more', 'circle',
]);

function readerOf(command) {
  if (Object.hasOwn(READERS, command)) return READERS[command];
  if (CHANGES.has(command)) return READERS.cells;
  throw new TypeError(`${command} is not a command of ask`);
}

// What a command answers with these arguments. A change answers the cells that the watch lists. A refused command throws a Fault with the status
// `Refused`, whose answer is the name of the refusal. A TypeError is thrown for a name that is no command, and nothing is sent.
export function ask(xw, command, ...given) {
  const read = readerOf(command);
  const { lines, refusal } = xw.line([command, ...given].join(' '));
  if (refusal !== null) throw new Fault('Refused', refusal);
  return read(lines);
}

// ---- searches

const isWhole = (value) => Number.isSafeInteger(value) && value >= 0;
const isTime = (value) => value > 0 && Number.isFinite(value);
const isSignal = (value) => typeof value?.throwIfAborted === 'function';
const isFlag = (value) => value instanceof Int32Array && value.length > 0;
const isNames = (value) => Array.isArray(value) && value.every((name) => typeof name === 'string');

// The options of a search: what each may be, and the error for anything else.
const OPTIONS = {
  limit: [(value) => value === Infinity || isWhole(value), RangeError, 'a whole number or Infinity'],
  seed: [isWhole, RangeError, 'a whole number'],
  lights: [isNames, TypeError, 'an array of names of lights'],
  progress: [(value) => typeof value === 'function', TypeError, 'a function'],
  every: [isTime, RangeError, 'a number of milliseconds above 0'],
  milliseconds: [(value) => value === Infinity || isTime(value), RangeError, 'a number of milliseconds above 0, or Infinity'],
  signal: [isSignal, TypeError, 'an AbortSignal'],
  stop: [isFlag, TypeError, 'an Int32Array with a number'],
  least: [(value) => isWhole(value) && value <= 100, RangeError, 'a grade from 0 to 100'],
};
const AUTOFILL = ['limit', 'seed', 'lights', 'progress', 'every', 'milliseconds', 'signal', 'stop'];
const NAMES = { autofill: AUTOFILL, best: [...AUTOFILL, 'least'] };

// Throws a TypeError or a RangeError that names an option which the search does not take, or whose value it cannot have. An option that is undefined is left
// out.
export function expectOptions(search, options) {
  const names = NAMES[search];
  if (!options || typeof options !== 'object') throw new TypeError(`the options of ${search} are not an object`);
  for (const [name, value] of Object.entries(options)) {
    if (!names.includes(name)) throw new TypeError(`${name} is not an option of ${search}, which takes ${names.slice(0, -1).join(', ')} and ${names.at(-1)}`);
    const [isSound, Fitting, wanted] = OPTIONS[name];
    if (value !== undefined && !isSound(value)) throw new Fitting(`${name} is not ${wanted}`);
  }
}

// The slices of a search with these options. They stay short if something may end the search between them.
const slicesFor = ({ limit = Infinity, progress, signal, stop, every = SPAN, milliseconds }) =>
  new Slices(limit, progress || signal || stop ? every : null, milliseconds);

// Whether another thread has set the flag of a search.
const isStopped = ({ stop }) => stop !== undefined && Atomics.load(stop, 0) !== 0;

// Runs a slice of a command, and returns what it answers, or the promise of that.
function slice(xw, slices, options, command) {
  const { seed = 0, lights = [] } = options;
  if (isStopped(options)) slices.end();
  const asked = xw.ask ? xw.ask.bind(xw) : ask.bind(null, xw);
  return slices.run((placements) => asked(command, placements, seed, ...lights));
}

// Lets other events come, such as a click on a stop button, and asks whether the search ends. Throws the reason of a signal that is aborted.
async function isEnded(xw, options, told) {
  const { progress, signal } = options;
  // they came while another thread searched, and a page in the background waits long for a timer
  if (!xw.ask) await new Promise((next) => setTimeout(next));
  signal?.throwIfAborted();
  const isEnd = Boolean(progress && (await progress(told)));
  signal?.throwIfAborted();
  return isEnd || isStopped(options);
}

// Fills lights, in slices. The session may be one of another thread, whose `ask` promises its answers.
export async function autofill(xw, options = {}) {
  expectOptions('autofill', options);
  options.signal?.throwIfAborted();
  const slices = slicesFor(options);
  do {
    const answer = await slice(xw, slices, options, 'autofill');
    if (answer !== 'limit' || (await isEnded(xw, options, { placements: slices.made, grade: null, bound: 101, rows: null }))) return answer;
  } while (!slices.isOver);
  return 'limit';
}

// The rows of the grid, with `#` for a block and `-` for an empty cell.
function rowsOf(xw) {
  const rows = ask(xw, 'show').filter((row) => row[0] !== '.' && row[0] !== '=');
  return Object.freeze(rows.map((row) => Array.from(row).filter((_, at) => at % 2 === 0).join('')));
}

// Makes the letters of the grid those of these rows.
function enter(xw, rows) {
  rowsOf(xw).forEach((now, row) =>
    Array.from(now).forEach((letter, column) => {
      const wanted = rows[row][column];
      if (wanted !== letter) ask(xw, ...(wanted === '-' ? ['clear', row + 1, column + 1] : ['set', row + 1, column + 1, wanted]));
    }),
  );
}

// The names of the lights that are wholly entered.
const enteredIn = (xw) => new Set(ask(xw, 'grades').map(({ light }) => light));

// The mean grade of the words that are new since these lights were entered; 100 if there are none.
function meanOf(xw, entered) {
  const grades = ask(xw, 'grades').filter(({ light }) => !entered.has(light)).map(({ grade }) => grade ?? 0);
  return grades.length ? grades.reduce((sum, grade) => sum + grade) / grades.length : 100;
}

// Yields better and better fills, each of which stands in the grid then, under the least grade of the search. Between two slices the grid is as it was at the
// start. `told` has what was found.
async function* climb(xw, told, options) {
  const { least = 0 } = options;
  const [start, entered] = [rowsOf(xw), enteredIn(xw)];
  const slices = slicesFor(options);
  do {
    const above = told.grade === null ? least : told.grade + 1;
    ask(xw, 'least', above);
    const { answer, grade, bound } = slice(xw, slices, options, 'best');
    told.bound = Math.min(told.bound, bound ?? above);
    if (answer === 'filled') {
      Object.assign(told, { answer, grade, rows: rowsOf(xw) });
      ask(xw, 'least', least);
      yield { grade, bound: told.bound, mean: meanOf(xw, entered), rows: told.rows };
      enter(xw, start);
    } else if (told.grade === null) told.answer = answer;
    const isEnd = told.answer === 'nofill' || (told.grade !== null && told.bound <= told.grade + 1);
    if (isEnd || (await isEnded(xw, options, { placements: slices.made, grade: told.grade, bound: told.bound, rows: told.rows }))) return;
  } while (!slices.isOver);
}

// Yields better and better fills, in slices, and returns what `best` does. However it ends, also if it is left, the best fill stands in the grid whole, or the
// grid is as it was.
export async function* fills(xw, options = {}) {
  expectOptions('best', options);
  options.signal?.throwIfAborted();
  const told = { answer: 'limit', grade: null, bound: 101, rows: null };
  try {
    yield* climb(xw, told, options);
  } finally {
    // a search that was left may end after its session
    if (!xw.closed) {
      ask(xw, 'least', options.least ?? 0);
      if (told.rows) enter(xw, told.rows);
    }
  }
  const { answer, grade, bound } = told;
  return { answer, grade, bound };
}

// Looks for the fill whose worst new word has the best grade, in slices.
export async function best(xw, options = {}) {
  const search = fills(xw, options);
  for (;;) {
    const { done, value } = await search.next();
    if (done) return value;
  }
}
