// Tests of a session in a worker (web/remote.js, web/worker.js) in Node: it answers as a session of xw.js, and its searches report, stop and are left.
//
//   node tests/web/remote.mjs
//
// The last line is 'N passed, M failed'.
import { deepStrictEqual as same, ok, rejects } from 'node:assert/strict';
import { Worker } from 'node:worker_threads';
import { RemoteXw } from '../../web/dist/remote.js';
import { Xw, ask, best, load } from '../../web/dist/xw.js';
import { Count } from '../../web/test/count.mjs';
import { exampleOf } from './example.mjs';

const PLACE = new URL('../../web/dist/worker.js', import.meta.url);
const module = await load();

// The best fill has the words 90, 80, 70 and 60.
const GRADED = { list: 'as;90\nat;80\nso;60\nto;70\nti;50\nsi;40\n', record: 'size 2 2\n' };
const isClosed = { name: 'Fault', status: 'Closed' };

// Words of six letters whose best fill of a grid of 6 by 6 no search of a test proves.
function manyWords() {
  let state = 1;
  const draw = (most) => (state = (Math.imul(state, 1103515245) + 12345) >>> 0) % 65536 % most;
  return Array.from({ length: 3000 }, () => `${Array.from({ length: 6 }, () => 'abcdefgh'[draw(8)]).join('')};${draw(101)}\n`).join('');
}

const LONG = { list: manyWords(), record: 'size 6 6\n' };

// Does something with a session in a worker.
async function withRemote(beginning, does) {
  const xw = await RemoteXw.open({ module, ...beginning });
  try {
    await does(xw);
  } finally {
    xw.close();
  }
}

const flag = () => new Int32Array(new SharedArrayBuffer(4));
const rowsOf = (show) => show.map((row) => row.replaceAll(' ', ''));

async function collected(fills) {
  const found = [];
  for await (const fill of fills) found.push(fill);
  return found;
}

const CASES = {
  'it answers as a session': () =>
    withRemote({ ...GRADED, record: 'size 2 2\nset 9 9 A\n' }, async (xw) => {
      const local = Xw.open(module, { ...GRADED, record: 'size 2 2\nset 9 9 A\n' });
      same([xw.reports, xw.version, xw.closed], [local.reports, local.version, false]);
      ok(xw.reports.includes('OutOfGrid'));
      for (const asked of [['words', '1 across', 1], ['set', 1, 1, 'a'], ['cells'], ['stats'], ['title', 'Caf\u00e9'], ['texts'], ['suggest']]) {
        same(await xw.ask(...asked), ask(local, ...asked));
      }
      for (const line of ['show', 'set 9 9 a', '', 'autofill 1000']) same(await xw.line(line), local.line(line));
      same(await xw.answer(Buffer.from('texts')), local.answer(Buffer.from('texts')));
      for (const name of ['puz', 'record']) same(await xw[name](), local[name]());
      same([await xw.resume('clear 1 1\nset 9 9 A\n'), (await xw.ask('show'))[0][0]], ['xw: record: line 2: OutOfGrid\n', '-']);
    }),
  'calls that wait are answered in their order': () =>
    withRemote(GRADED, async (xw) => {
      const told = await Promise.all([xw.ask('set', 1, 1, 'a'), xw.ask('show'), xw.ask('clear', 1, 1), xw.ask('show')]);
      same([told[1][0], told[3][0]], ['A -', '- -']);
    }),
  'what it throws has its kind': async () => {
    await withRemote(GRADED, async (xw) => {
      await rejects(xw.ask('set', 9, 9, 'a'), { name: 'Fault', status: 'Refused', answer: 'OutOfGrid' });
      await rejects(xw.ask('frob'), { name: 'TypeError', message: 'frob is not a command of ask' });
      await rejects(xw.line('title \u0416'), { name: 'Fault', status: 'Character', answer: '\u0416' });
      await rejects(xw.puz(), { name: 'Fault', status: 'NotFilled' });
      await rejects(xw.autofill({ limit: -1 }), { name: 'RangeError', message: 'limit is not a whole number or Infinity' });
      await rejects(xw.best({ limits: 1 }).next(), TypeError);
      await rejects(xw.autofill({ signal: true }), { name: 'TypeError', message: 'signal is not an AbortSignal' });
      await rejects(xw.autofill({ lights: ['9 across'] }), { name: 'Fault', status: 'Refused', answer: 'NoLight' });
      await rejects(xw.best({ lights: ['9 across'] }).next(), { name: 'Fault', status: 'Refused', answer: 'NoLight' });
      // a value that no message can have
      await rejects(xw.line(() => 'show'), { name: 'DataCloneError' });
      same((await xw.line('show')).ok, true);
    });
    await rejects(RemoteXw.open({ module, puzzle: 'no puzzle' }), { name: 'Fault', status: 'Header' });
    await rejects(RemoteXw.open({ module, lists: '' }), { name: 'TypeError', message: 'lists is not an option of open, which takes list, puzzle and record' });
  },
  'a worker is given, or cannot be loaded': async () => {
    const worker = new Worker(PLACE);
    const xw = await RemoteXw.open({ worker, ...GRADED });
    same(await xw.ask('match', 'a.'), ['AS', 'AT']);
    const ended = new Promise((end) => worker.on('exit', end));
    xw.close();
    await ended;
    await rejects(RemoteXw.open({ module, worker: new Worker(new URL('nowhere.js', PLACE)) }), { code: /^(ERR_)?MODULE_NOT_FOUND$/ });
    // one that ends while it is asked
    const other = new Worker('process.exit(1)', { eval: true });
    await rejects(RemoteXw.open({ module, worker: other }), isClosed);
  },
  'fills come one after another': () =>
    withRemote(GRADED, async (xw) => {
      const found = [];
      for await (const fill of xw.best()) {
        same(rowsOf(await xw.ask('show')), fill.rows);
        found.push(fill);
      }
      const last = found.at(-1);
      same([last.grade, last.bound, last.mean, rowsOf(await xw.ask('show'))], [60, 61, 75, last.rows]);
      same(found, JSON.parse(JSON.stringify(await collected(Xw.open(module, GRADED).best()))));
      // what the iterator returns is what `best` answers
      await xw.ask('size', 2, 2);
      const search = xw.best();
      let step = await search.next();
      while (!step.done) step = await search.next();
      same(step.value, await best(Xw.open(module, GRADED)));
      // in the full grid the words are no more new
      same(await xw.autofill(), 'filled');
    }),
  'a search of fills is left': () =>
    withRemote(GRADED, async (xw) => {
      let rows;
      for await (const fill of xw.best({ least: 20 })) {
        rows = fill.rows;
        break;
      }
      same(rowsOf(await xw.ask('show')), rows);
      await xw.ask('add', 'zz', 20);
      same(await xw.ask('match', 'zz'), ['ZZ']);
    }),
  'progress stays here': () =>
    withRemote(LONG, async (xw) => {
      // it may ask the session, since a search takes other calls between two slices
      const told = [];
      const progress = async (step) => {
        told.push([step, await xw.ask('show')]);
        return told.length === 2;
      };
      same(await xw.autofill({ lights: ['1 across'], progress: () => Promise.reject(new Error('it is told')) }), 'filled');
      await xw.ask('size', 6, 6);
      const search = xw.best({ progress });
      let step = await search.next();
      while (!step.done) step = await search.next();
      same(told.length, 2);
      ok(told[0][0].placements < told[1][0].placements && told.every(([, show]) => show.length === 6));
      const wrong = new Error('progress is wrong');
      for (const options of [{ progress: () => Promise.reject(wrong) }, { progress() { throw wrong; } }]) {
        // a grid that the last search left full would be found at once, before any progress
        await xw.ask('size', 6, 6);
        await rejects(collected(xw.best(options)), wrong);
      }
      same((await xw.line('show')).ok, true);
    }),
  'a signal ends a search': () =>
    withRemote(LONG, async (xw) => {
      const reason = new Error('stopped by hand');
      const aborted = AbortSignal.abort(reason);
      await rejects(xw.autofill({ signal: aborted }), reason);
      await rejects(xw.best({ signal: aborted }).next(), reason);
      const stop = new AbortController();
      const told = [];
      const progress = (step) => {
        told.push(step);
        stop.abort(reason);
      };
      await rejects(collected(xw.best({ signal: stop.signal, progress })), reason);
      same(told.length, 1);
      // the best fill so far stands whole, or the grid is as it was
      const letters = rowsOf(await xw.ask('show')).join('');
      ok(/^(-{36}|[A-H]{36})$/.test(letters), letters);
      same(letters, (told[0].rows ?? Array(6).fill('------')).join(''));
    }),
  'a flag ends a search': () =>
    withRemote(LONG, async (xw) => {
      // set once the search has begun: a call is answered between two of its slices
      const stop = flag();
      const search = collected(xw.best({ stop, every: 20 }));
      await xw.ask('show');
      Atomics.store(stop, 0, 1);
      const found = await search;
      const letters = rowsOf(await xw.ask('show')).join('');
      same(letters, found.length ? found.at(-1).rows.join('') : '-'.repeat(36));
      // one that is set before: no slice has a placement
      await xw.ask('size', 6, 6);
      const told = [];
      same(await xw.autofill({ stop, progress: (step) => void told.push(step.placements) }), 'limit');
      same(told, [0]);
    }),
  'a session is closed while it searches': async () => {
    const xw = await RemoteXw.open({ module, ...LONG });
    let searching;
    await new Promise((step) => (searching = collected(xw.best({ progress: () => step() }))));
    const waiting = xw.ask('show');
    xw.close();
    xw.close();
    await rejects(searching, isClosed);
    await rejects(waiting, isClosed);
    same(xw.closed, true);
    for (const call of [() => xw.ask('show'), () => xw.line('show'), () => xw.puz(), () => xw.autofill(), () => xw.best().next()]) await rejects(call(), isClosed);
    // a loop that is left after its session
    const other = await RemoteXw.open({ module, ...GRADED });
    const search = other.best();
    await search.next();
    other.close();
    same((await search.return()).done, true);
    if (Symbol.dispose) other[Symbol.dispose]();
  },
  'workers share nothing': async () => {
    // a command depends on its session alone
    const linesOf = (seed) => [`autofill 3000 ${seed}`, 'show', `best 2000 ${seed}`, 'show', 'clear 1 1', 'words 1 across'];
    const sessions = await Promise.all([1, 2].map(() => RemoteXw.open({ module, ...LONG })));
    const told = await Promise.all(sessions.map((xw, at) => Promise.all(linesOf(at + 1).map((line) => xw.line(line)))));
    sessions.forEach((xw) => xw.close());
    for (const seed of [1, 2]) {
      const local = Xw.open(module, LONG);
      same(told[seed - 1], linesOf(seed).map((line) => local.line(line)));
    }
  },
  'the example of docs/embedding.md': async () => {
    const { code, printed } = exampleOf('docs/embedding.md', "import { RemoteXw } from './remote.js';");
    const [seen, { log }] = [[], console];
    console.log = (value) => seen.push(value);
    try {
      await import(`data:text/javascript;base64,${Buffer.from(code.replace('./remote.js', new URL('remote.js', PLACE).href)).toString('base64')}`);
    } finally {
      console.log = log;
    }
    same(seen, printed);
  },
};

const count = new Count();
for (const [name, run] of Object.entries(CASES)) await count.run(name, run, async ({ stack }) => stack);
count.end();
