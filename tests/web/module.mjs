// Tests of the module for the web beside its answers: texts, what `open`, `load`, `ask` and the searches take, the slices of searches, `close`, the lists of
// statuses, and the examples of docs/embedding.md.
//
//   node --expose-gc tests/web/module.mjs
//
// The last line is 'N passed, M failed'.
import { deepStrictEqual as same, ok, rejects, throws } from 'node:assert/strict';
import { execFileSync } from 'node:child_process';
import { mkdtempSync, readFileSync, rmSync, writeFileSync } from 'node:fs';
import { tmpdir } from 'node:os';
import { join } from 'node:path';
import { fileURLToPath } from 'node:url';
import { runInNewContext } from 'node:vm';
import { Slices } from '../../web/dist/slices.js';
import { Fault, STATUSES, Xw, ask, autofill, best, load, toBytes, toText } from '../../web/dist/xw.js';
import { Count } from '../../web/test/count.mjs';
import { exampleOf } from './example.mjs';

const MODULE = new URL('../../web/dist/xw.wasm', import.meta.url);
const module = await load();

const range = (first, last) => Array.from({ length: last + 1 - first }, (_, at) => first + at);
const latin = (text) => Buffer.from(text, 'latin1');

// The characters that solving programs show for the bytes 80 to 9F; a control character stands for a byte that has none.
const HIGH =
  '\u20ac\x81\u201a\u0192\u201e\u2026\u2020\u2021\u02c6\u2030\u0160\u2039\u0152\x8d\u017d\x8f' +
  '\x90\u2018\u2019\u201c\u201d\u2022\u2013\u2014\u02dc\u2122\u0161\u203a\u0153\x9d\u017e\u0178';

// All bytes that a text can hold without an escape.
const BYTES = Uint8Array.from([120, ...range(1, 255).filter((byte) => ![10, 13, 92].includes(byte)), 120]);

// A session whose puzzle can be written.
function filled() {
  const xw = Xw.open(module, { list: 'at\n' });
  for (const line of ['size 2 1', 'set 1 1 a', 'set 1 2 t', 'clue 1 across c']) ok(xw.line(line).ok);
  return xw;
}

const isStrange = (character, code) => (fault) => {
  same([fault.status, fault.answer], ['Character', character]);
  return fault instanceof Fault && fault.message.includes(code);
};

const isClosed = (fault) => fault instanceof Fault && fault.status === 'Closed';

// How many of 20 sessions that are kept still have a memory, once each was given to `call`.
async function memoriesLeft(call) {
  const memories = [];
  const { Instance } = WebAssembly;
  WebAssembly.Instance = function (...given) {
    const instance = new Instance(...given);
    memories.push(new WeakRef(instance.exports.memory));
    return instance;
  };
  // a collector may take what is left on the stack for a reference, so the last of all sessions does not count
  const sessions = Array.from({ length: 21 }, () => Xw.open(module));
  WebAssembly.Instance = Instance;
  sessions.forEach(call);
  const counted = memories.slice(0, 20);
  let left = counted.length;
  for (let turns = 0; left && turns < 10; turns++) {
    // a reference that was just made, or asked for, is kept to the end of the turn
    await new Promise(setImmediate);
    globalThis.gc();
    left = counted.filter((memory) => memory.deref()).length;
  }
  same(sessions.length, 21);
  return left;
}

// What examples/search.mjs prints on a grid of 5 by 5 and these words, in slices of so many placements. It has no input, so it stops after the
// first slice.
function searched(words, placements) {
  const room = mkdtempSync(join(tmpdir(), 'xw-search-'));
  try {
    writeFileSync(join(room, 'words.txt'), words);
    writeFileSync(join(room, 'grid.xw'), 'size 5 5\n');
    const asked = [fileURLToPath(new URL('../../examples/search.mjs', import.meta.url)), 'words.txt', 'grid.xw', placements];
    return execFileSync(process.execPath, asked, { cwd: room, input: '', encoding: 'latin1' }).trimEnd().split('\n');
  } finally {
    rmSync(room, { recursive: true });
  }
}

// What an example prints, run with the module.
async function printedBy(code) {
  const seen = [];
  const log = console.log;
  console.log = (value) => seen.push(value);
  try {
    const beside = code.replace("'./xw.js'", `'${new URL('../../web/dist/xw.js', import.meta.url)}'`);
    await import(`data:text/javascript;base64,${Buffer.from(beside).toString('base64')}`);
  } finally {
    console.log = log;
  }
  return seen;
}

// The placements of the first slices of a search that makes so many in a millisecond.
function slicesAt(pace, count, span, limit = Infinity, milliseconds = Infinity) {
  const { now } = performance;
  let time = 0;
  performance.now = () => time;
  try {
    const slices = new Slices(limit, span, milliseconds);
    const sizes = [];
    while (sizes.length < count && !slices.isOver) sizes.push(slices.run((placements) => ((time += placements / pace), placements)));
    return sizes;
  } finally {
    performance.now = now;
  }
}

// A session on an empty square whose best fill has the words 90, 80, 70 and 60.
function graded() {
  const xw = Xw.open(module, { list: 'as;90\nat;80\nso;60\nto;70\nti;50\nsi;40\n' });
  ok(xw.line('size 2 2').ok);
  return xw;
}

const rowsNow = (xw) => ask(xw, 'show').map((row) => row.replaceAll(' ', ''));

const SQUARE = ['shade', 'laded', 'along', 'gorse', 'sneer', 'slags', 'halon', 'adore', 'dense', 'edger'];

const CASES = {
  'each byte is one character': () => {
    same(toText(Uint8Array.from(range(0, 255))), String.fromCharCode(...range(0, 127)) + HIGH + String.fromCharCode(...range(160, 255)));
    same([...toBytes(toText(Uint8Array.from(range(0, 255))))], range(0, 255));
    same(toText(Uint8Array.of(0x80, 0x41).buffer), '\u20acA');
    for (const other of [undefined, 7, ['a']]) for (const call of [toText, toBytes]) throws(() => call(other), TypeError);
    throws(() => toText('a'), TypeError);
    const long = new Uint8Array(100001).fill(0x92);
    same(toText(long), '\u2019'.repeat(100001));
  },
  'the bytes of a line are those of the file': () => {
    const xw = filled();
    ok(xw.line(`title ${toText(BYTES)}`).ok);
    ok(Buffer.from(xw.puz()).includes(Buffer.from([...BYTES, 0])));
    ok(Buffer.from(xw.record()).includes(Buffer.from([...latin('text title '), ...BYTES, 10])));
    same(xw.line('texts').lines, [`title ${toText(BYTES)}`, 'clue 1 across c']);
    same([...xw.answer(latin('texts')).answer.subarray(0, 6 + BYTES.length)], [...latin('title '), ...BYTES]);
  },
  'an accent is one byte of a text file': () => {
    const xw = filled();
    ok(xw.line('title Caf\u00e9 \u2019').ok);
    ok(Buffer.from(xw.text()).includes(latin('\n\tCaf\xe9 \x92\n')));
    same(Xw.open(module, { puzzle: toText(xw.text()) }).line('texts').lines, ['title Caf\u00e9 \u2019', 'clue 1 across c']);
  },
  'the strings of open are those of its bytes': () => {
    const xw = filled();
    ok(xw.line(`title ${toText(BYTES)}`).ok);
    const [puzzle, record] = [xw.puz(), xw.record()];
    for (const beginning of [{ puzzle }, { puzzle: toText(puzzle) }, { record }, { record: toText(record) }]) {
      same(Xw.open(module, beginning).puz(), puzzle);
    }
    // a line with an accent is skipped
    same(Xw.open(module, { list: 'caf\u00e9\ncat\n' }).line('match ...').lines, ['CAT']);
  },
  'the end of a record that was cut off is dropped': () => {
    const [first, dropped] = ['# xw session 1\n', 'xw: record: an incomplete last command is ignored\n'];
    for (const cut of ['title Two', '# xw begin\nset 1 1 A\n', '# xw begin\nset 1 1 A\n# xw end']) {
      const xw = Xw.open(module, { record: `${first}size 2 1\ntitle One\n${cut}` });
      same([xw.reports, xw.line('show').lines, xw.line('texts').lines], [dropped, ['- -'], ['title One']]);
    }
    same(Xw.open(module, { record: `${first}size 2 1\nset 9 9 A\nset 1 1 A` }).reports, `${dropped}xw: record: line 3: OutOfGrid\n`);
    const whole = Xw.open(module, { record: `${first}size 2 1\n# xw begin\nset 1 1 A\n# xw end\n` });
    same([whole.reports, whole.line('show').lines], ['', ['A -']]);
    // without the first line each line counts
    const other = Xw.open(module, { record: 'size 2 1\n# xw begin\nset 1 1 A' });
    same([other.reports, other.line('show').lines], ['', ['A -']]);
  },
  'a character outside is named, and nothing is sent': () => {
    const xw = filled();
    throws(() => xw.line('title a\u0416'), isStrange('\u0416', 'U+0416'));
    throws(() => xw.line('title \u{1f600}'), isStrange('\u{1f600}', 'U+1F600'));
    same(xw.line('texts').lines, ['clue 1 across c']);
    for (const name of ['list', 'puzzle', 'record']) throws(() => Xw.open(module, { [name]: 'a\u0416' }), isStrange('\u0416', 'U+0416'));
  },
  'bytes pass in another encoding': () => {
    const xw = filled();
    same(xw.answer(Buffer.from('title \u0416')).status, 'Accepted');
    same(xw.answer(new ArrayBuffer(0)), { status: 'Silent', answer: new Uint8Array() });
    same(Buffer.from(xw.answer(latin('texts')).answer), Buffer.from('title \u0416\nclue 1 across c\nok\n'));
  },
  'open takes bytes and strings': () => {
    const bytes = Uint8Array.from(latin('cat\n'));
    const other = runInNewContext('new Uint8Array([99, 97, 116])');
    for (const list of ['cat', bytes, bytes.buffer, latin('cat'), other, other.buffer]) same(Xw.open(module, { list }).line('match ...').lines, ['CAT']);
    same(Xw.open(module, { list: undefined }).line('match ...').lines, []);
    same(Xw.open(module).line('match ...').lines, []);
  },
  'open takes nothing else': () => {
    const others = [null, 7, true, ['cat'], { length: 3 }, new DataView(new ArrayBuffer(3)), new Int8Array(3), new SharedArrayBuffer(3), new Uint16Array(3)];
    for (const name of ['list', 'puzzle', 'record']) for (const other of others) throws(() => Xw.open(module, { [name]: other }), TypeError);
    for (const other of [null, 7, 'cat', true]) throws(() => Xw.open(module, other), { name: 'TypeError', message: 'the options are not an object: open takes { list, puzzle, record }' });
    throws(() => Xw.open(module, { lists: 'cat' }), { name: 'TypeError', message: 'lists is not an option of open, which takes list, puzzle and record' });
    const xw = Xw.open(module);
    for (const other of [undefined, 7, latin('show')]) throws(() => xw.line(other), TypeError);
    for (const other of [undefined, 7, 'show']) throws(() => xw.answer(other), TypeError);
    ok(xw.line('show').ok);
  },
  'ask takes commands': () => {
    const xw = Xw.open(module, { list: 'at\n' });
    for (const name of ['frob', 'words 1 across', 'Show', '', 'toString', undefined]) {
      throws(() => ask(xw, name), { name: 'TypeError', message: `${name} is not a command of ask` });
    }
    // all that `help` lists are commands, and most of them lack an argument here
    const commands = ask(xw, 'help').map((line) => line.split(' ')[0]);
    ok(commands.includes('more') && commands.includes('best'));
    for (const name of commands) {
      try {
        ask(xw, name);
      } catch (fault) {
        same([name, fault.status, fault.answer], [name, 'Refused', 'Arguments']);
      }
    }
    throws(() => ask(xw, 'set', 9, 99, 'a'), { name: 'Fault', status: 'Refused', answer: 'OutOfGrid' });
  },
  'a search names an option that is wrong': async () => {
    const xw = Xw.open(module, { list: 'at\n' });
    const isOther = (name, search, names) => ({ name: 'TypeError', message: `${name} is not an option of ${search}, which takes ${names}` });
    await rejects(autofill(xw, { limits: 5 }), isOther('limits', 'autofill', 'limit, seed, lights, progress, every, milliseconds, signal and stop'));
    await rejects(autofill(xw, { least: 5 }), isOther('least', 'autofill', 'limit, seed, lights, progress, every, milliseconds, signal and stop'));
    await rejects(best(xw, { Seed: 5 }), isOther('Seed', 'best', 'limit, seed, lights, progress, every, milliseconds, signal, stop and least'));
    for (const search of [autofill, best]) {
      for (const limit of [-1, 1.5, NaN, '5', null]) await rejects(search(xw, { limit }), { name: 'RangeError', message: 'limit is not a whole number or Infinity' });
      for (const seed of [-1, 0.5, Infinity, '0']) await rejects(search(xw, { seed }), { name: 'RangeError', message: 'seed is not a whole number' });
      for (const every of [0, -1, Infinity, NaN, '9']) await rejects(search(xw, { every }), { name: 'RangeError', message: 'every is not a number of milliseconds above 0' });
      for (const lights of ['1 across', [1], null]) await rejects(search(xw, { lights }), { name: 'TypeError', message: 'lights is not an array of names of lights' });
      for (const signal of [true, {}, new AbortController()]) await rejects(search(xw, { signal }), { name: 'TypeError', message: 'signal is not an AbortSignal' });
      for (const milliseconds of [0, -1, NaN, '9', null]) {
        await rejects(search(xw, { milliseconds }), { name: 'RangeError', message: 'milliseconds is not a number of milliseconds above 0, or Infinity' });
      }
      for (const stop of [true, 1, [1], new Int32Array(0), new Uint8Array(4), new SharedArrayBuffer(4)]) {
        await rejects(search(xw, { stop }), { name: 'TypeError', message: 'stop is not an Int32Array with a number' });
      }
      for (const progress of [true, {}]) await rejects(search(xw, { progress }), { name: 'TypeError', message: 'progress is not a function' });
      for (const options of [null, 5, 'limit']) await rejects(search(xw, options), { name: 'TypeError', message: `the options of ${search.name} are not an object` });
    }
    for (const least of [-1, 101, 0.5, '5']) await rejects(best(xw, { least }), { name: 'RangeError', message: 'least is not a grade from 0 to 100' });
    // an option that is undefined is left out, and a refused search changes nothing
    ok(xw.line('size 2 1').ok);
    same(await autofill(xw, { limit: undefined, seed: undefined, lights: undefined, progress: undefined, every: undefined, signal: undefined }), 'filled');
  },
  'slices follow their time': () => {
    same(slicesAt(10, 4, 100), [1000, 1000, 1000, 1000]);
    same(slicesAt(5, 3, 100), [1000, 500, 500]);
    same(slicesAt(40, 4, 100), [1000, 2000, 4000, 4000]);
    same(slicesAt(10, 4, 400), [1000, 2000, 4000, 4000]);
    // a search that is too slow for its time gets on all the same, and one that ends at once says little of the next slice
    same(slicesAt(0.01, 3, 100), [1000, 100, 100]);
    same(slicesAt(Infinity, 9, 100), [1000, 2000, 4000, 8000, 16000, 32000, 64000, 100000, 100000]);
    same(slicesAt(10, 3, 100, 2500), [1000, 1000, 500]);
  },
  'slices end with their time': () => {
    same(slicesAt(8, 9, 125, Infinity, 500), [1000, 1000, 1000, 1000]);
    // the last slice is as long as the time that is left
    same(slicesAt(12.5, 9, 100, Infinity, 200), [1000, 1250, 250]);
    same(slicesAt(8, 9, 125, 2500, 500), [1000, 1000, 500]);
    for (const milliseconds of [1, 125]) same(slicesAt(8, 9, 125, Infinity, milliseconds), [1000]);
    // those that grow are cut too
    const sizes = slicesAt(8, 1000, null, Infinity, 20000);
    const made = sizes.reduce((sum, size) => sum + size);
    ok(made >= 160000 && made <= 160100, `${made} placements`);
  },
  'slices grow where nothing is told between them': () => {
    const sizes = slicesAt(10, 60, null);
    same(sizes.slice(0, 10), Array(10).fill(1000));
    for (const at of range(11, 59)) {
      const made = sizes.slice(0, at).reduce((sum, size) => sum + size);
      ok(Math.abs(sizes[at] - made / 10) <= 1, `slice ${at} has ${sizes[at]} placements after ${made}`);
    }
  },
  'best of a full grid': async () => {
    // no word is new, and no grade is above 100
    same(await best(filled()), { answer: 'filled', grade: 100, bound: 101 });
  },
  'fills come one after another': async () => {
    const xw = graded();
    const told = [];
    for await (const fill of xw.best()) {
      same(rowsNow(xw), [...fill.rows]);
      told.push(fill);
    }
    const grades = told.map(({ grade }) => grade);
    same(grades, [...new Set(grades)].sort((one, other) => one - other));
    const last = told.at(-1);
    // both fills of this grade have the same words
    same([last.grade, last.bound, last.mean, rowsNow(xw)], [60, 61, 75, [...last.rows]]);
    ok(['AS,TO', 'AT,SO'].includes(last.rows.join()));
    // the least grade is that of the search
    ask(xw, 'add', 'zz', 0);
    same(ask(xw, 'match', 'zz'), ['ZZ']);
    // what the iterator returns is what `best` answers
    const search = graded().best();
    let step = await search.next();
    while (!step.done) step = await search.next();
    same(step.value, await best(graded()));
    const none = Xw.open(module, { list: 'ab\ncd\n' });
    ask(none, 'size', 2, 2);
    same([await none.best().next(), rowsNow(none)], [{ done: true, value: { answer: 'nofill', grade: null, bound: 0 } }, ['--', '--']]);
    await rejects(graded().best({ lights: ['9 across'] }).next(), { name: 'Fault', status: 'Refused', answer: 'NoLight' });
    await rejects(graded().best({ limits: 5 }).next(), TypeError);
  },
  'a mean has the new words alone': async () => {
    const xw = graded();
    ask(xw, 'place', '1 across', 'as');
    // the words AT, SO and TO are new
    const { value } = await xw.best().next();
    same([value.grade, value.mean], [60, 70]);
    same((await filled().best().next()).value, { grade: 100, bound: 101, mean: 100, rows: ['AT'] });
  },
  'a search of fills is left': async () => {
    const xw = graded();
    ask(xw, 'least', 10);
    let rows;
    for await (const fill of xw.best({ least: 20 })) {
      rows = [...fill.rows];
      break;
    }
    same(rowsNow(xw), rows);
    ask(xw, 'add', 'zz', 20);
    same(ask(xw, 'match', 'zz'), ['ZZ']);
    // a search that is left may end after its session
    const closed = graded();
    const search = closed.best();
    await search.next();
    closed.close();
    same((await search.return()).done, true);
    await rejects(closed.best().next(), isClosed);
  },
  'a signal ends a search': async () => {
    const reason = new Error('stopped by hand');
    for (const search of [autofill, best, (xw, options) => xw.best(options).next()]) {
      const xw = graded();
      await rejects(search(xw, { signal: AbortSignal.abort(reason) }), reason);
      same(rowsNow(xw), ['--', '--']);
    }
    // a session whose searches find nothing, and which counts them
    for (const search of [autofill, best]) {
      const xw = Xw.open(module);
      const stop = new AbortController();
      const line = xw.line.bind(xw);
      let searched = 0;
      xw.line = (text) => {
        if (!/^(autofill|best) /.test(text)) return line(text);
        // an event that comes while the third slice runs
        if (++searched === 3) setTimeout(() => stop.abort(reason));
        return { lines: ['limit', 'bound 101'].slice(0, text.startsWith('best') ? 2 : 1), ok: true, refusal: null };
      };
      ask(xw, 'set', 1, 1, 'a');
      await rejects(search(xw, { signal: stop.signal }), reason);
      same([searched, rowsNow(xw)[0]], [3, `A${'-'.repeat(14)}`]);
    }
    // a fill that was found stays
    const xw = graded();
    const stop = new AbortController();
    let rows = null;
    await rejects(async () => {
      for await (const fill of xw.best({ signal: stop.signal, least: 5 })) {
        rows = [...fill.rows];
        stop.abort(reason);
        // the bound of the first slice may end the search before the signal does
        if (fill.bound === fill.grade + 1) throw reason;
      }
    }, reason);
    same(rowsNow(xw), rows);
  },
  'a flag ends a search': async () => {
    for (const search of [autofill, best]) {
      for (const last of [1, 3]) {
        const xw = Xw.open(module);
        const stop = new Int32Array(new SharedArrayBuffer(4));
        const sent = [];
        const line = xw.line.bind(xw);
        // a session whose searches find nothing; the flag is set while one slice runs
        xw.line = (text) => {
          if (!/^(autofill|best) /.test(text)) return line(text);
          if (sent.push(text.split(' ')[1]) === last) Atomics.store(stop, 0, 1);
          return { lines: ['limit', 'bound 101'].slice(0, text.startsWith('best') ? 2 : 1), ok: true, refusal: null };
        };
        ask(xw, 'set', 1, 1, 'a');
        const told = await search(xw, { stop });
        same([told.answer ?? told, sent.length, rowsNow(xw)[0]], ['limit', last, `A${'-'.repeat(14)}`]);
        // a search that is stopped before it begins places nothing
        await search(xw, { stop });
        same(sent.slice(last), ['0']);
      }
      // and tells what is wrong all the same
      const stop = Int32Array.of(1);
      await rejects(search(graded(), { stop, lights: ['9 across'] }), { name: 'Fault', status: 'Refused', answer: 'NoLight' });
      const closed = graded();
      closed.close();
      await rejects(search(closed, { stop }), isClosed);
    }
    // a fill that was found stays, under the least grade of the search
    const [xw, stop] = [graded(), Int32Array.of(0)];
    let rows = null;
    for await (const fill of xw.best({ stop, least: 5 })) {
      rows = [...fill.rows];
      Atomics.store(stop, 0, 1);
    }
    same(rowsNow(xw), rows);
    ask(xw, 'add', 'zz', 5);
    same(ask(xw, 'match', 'zz'), ['ZZ']);
  },
  'progress has the fill so far': async () => {
    const xw = graded();
    const line = xw.line.bind(xw);
    // the bound is not told, so the search goes on
    xw.line = (text) => {
      const answer = line(text);
      return /^best /.test(text) ? { ...answer, lines: answer.lines.map((it) => it.replace(/^bound .*/, 'bound 101')) } : answer;
    };
    const told = [];
    const { grade } = await best(xw, { progress: ({ grade, rows }) => told.push([grade, rows?.join()]) === 1 });
    same(told.length, 1);
    same([told[0][0], told[0][1]], [grade, rowsNow(xw).join()]);
    const empty = Xw.open(module);
    const steps = [];
    await autofill(empty, { limit: 1000, progress: (step) => steps.push(step) });
    ok(steps.every(({ rows }) => rows === null));
  },
  'a session is disposed of': () => {
    const xw = filled();
    same(xw.closed, false);
    if (Symbol.dispose) xw[Symbol.dispose]();
    else xw.close();
    same(xw.closed, true);
    throws(() => xw.line('show'), isClosed);
    same(Object.keys(Xw.prototype), []);
  },
  'a record is resumed later': () => {
    const xw = Xw.open(module);
    same(xw.resume('# xw session 1\nsize 2 1\nset 9 9 A\nset 1 1'), 'xw: record: an incomplete last command is ignored\nxw: record: line 3: OutOfGrid\n');
    same([xw.line('show').lines, xw.reports], [['- -'], '']);
    throws(() => xw.resume('set 1 1 A\nfrob\n'), { name: 'Fault', status: 'NoCommand', answer: 'xw: record: line 2: Command\n' });
    throws(() => xw.resume(7), TypeError);
    xw.close();
    throws(() => xw.resume(''), isClosed);
  },
  'the version is that of the engine': () => {
    const source = readFileSync(new URL('../../crates/xw_commands/src/version.rt', import.meta.url), 'utf8');
    same(Xw.open(module).version, /VERSION: &str = "(.*)"/.exec(source)[1]);
  },
  'a closed session answers nothing': () => {
    const xw = filled();
    xw.close();
    xw.close();
    for (const call of [() => xw.line('show'), () => xw.answer(latin('show')), () => xw.puz(), () => xw.text(), () => xw.record(), () => xw.version]) throws(call, isClosed);
  },
  'closed sessions hold no memory': async () => {
    const whileOpen = await memoriesLeft(() => {});
    const onceClosed = await memoriesLeft((xw) => xw.close());
    same([whileOpen, onceClosed], [20, 0]);
  },
  'load takes a place or bytes': async () => {
    const bytes = readFileSync(MODULE);
    for (const source of [MODULE, MODULE.href, MODULE.pathname, bytes, Uint8Array.from(bytes).buffer]) ok((await load(source)) instanceof WebAssembly.Module);
    await rejects(load('nowhere.wasm'));
  },
  'the statuses are those of the header': () => {
    const header = readFileSync(new URL('../../include/xw.h', import.meta.url), 'utf8');
    const names = Array.from(header.matchAll(/^ {4}XW_([A-Z_]+) = (\d+),?$/gm), ([, name, number]) => [Number(number), name.replaceAll('_', '')]);
    same(names, STATUSES.map((name, number) => [number, name.toUpperCase()]));
    const types = readFileSync(new URL('../../web/dist/xw.d.ts', import.meta.url), 'utf8');
    same(Array.from(/type Status =([^;]*);/.exec(types)[1].matchAll(/'(\w+)'/g), ([, name]) => name), STATUSES);
  },
  'the search of examples/': () => {
    same(searched(SQUARE.join('\n'), '0'), ['stopped']);
    same(searched(SQUARE.slice(1).join('\n'), '2000'), ['nofill']);
    const grid = searched(SQUARE.join('\n'), '2000');
    same(grid.pop(), 'filled');
    ok(grid.length === 5 && grid.every((row) => SQUARE.includes(row.replaceAll(' ', '').toLowerCase())));
  },
  'the examples of docs/embedding.md': async () => {
    const beginning = "import { load, Xw } from './xw.js';\n\nconst xw = Xw.open(await load(), { list: '";
    for (const list of ['cat', 'as;90']) {
      const { code, printed } = exampleOf('docs/embedding.md', beginning + list);
      same(await printedBy(code), printed);
    }
  },
};

const count = new Count();
for (const [name, run] of Object.entries(CASES)) await count.run(name, run, async ({ stack }) => stack);
count.end();
