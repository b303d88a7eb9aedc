// A session in a worker, which another thread asks by messages. remote.js starts it, and is the other side. It runs in Node, and in browsers as a module.
//
// A message `{ id, call, given }` is answered by `{ id, value }` or `{ id, thrown }`. A search with `progress` sends `{ id, told }` between two slices, and waits
// for `{ id, isEnd }`. `{ id, isAborted }` ends a search with a signal. Other calls are answered between two slices.
import { Fault, Xw, ask, load } from './xw.js';

// A name that bundlers for the web do not follow.
const NODE_THREADS = 'node:worker_threads';

const port = typeof globalThis.postMessage === 'function' ? globalThis : (await import(/* webpackIgnore: true */ /* @vite-ignore */ NODE_THREADS)).parentPort;

let xw = null;
// the generators of fills, what aborts a search, and what takes an answer to `told`, each by the number of the search
const [fills, aborts, answers] = [new Map(), new Map(), new Map()];

// The options of a search here, where the other side has its `progress` and its signal.
function optionsOf(id, { options, isWatched, isAbortable }) {
  const own = { ...options };
  if (isAbortable) {
    aborts.set(id, new AbortController());
    own.signal = aborts.get(id).signal;
  }
  if (isWatched) {
    own.progress = (told) =>
      new Promise((answer) => {
        answers.set(id, answer);
        port.postMessage({ id, told });
      });
  }
  return own;
}

function forget(id) {
  for (const kept of [fills, aborts, answers]) kept.delete(id);
}

const CALLS = {
  async open(_, module, beginning) {
    xw = Xw.open(module ?? (await load()), beginning);
    return { reports: xw.reports, version: xw.version };
  },
  ask: (_, ...given) => ask(xw, ...given),
  line: (_, text) => xw.line(text),
  answer: (_, line) => xw.answer(line),
  puz: () => xw.puz(),
  text: () => xw.text(),
  record: () => xw.record(),
  resume: (_, record) => xw.resume(record),
  best: (id, search) => void fills.set(id, xw.best(optionsOf(id, search))),
  next: (_, id) => fills.get(id).next(),
  leave: (_, id) => fills.get(id).return().finally(() => forget(id)),
};

// An error as a message: a copy of one has lost its fields.
function messageOf(error) {
  const { name, message } = error;
  return error instanceof Fault ? { name, message, status: error.status, answer: error.answer } : { name, message };
}

async function serve({ id, call, given }) {
  try {
    port.postMessage({ id, value: await CALLS[call](id, ...given) });
  } catch (error) {
    port.postMessage({ id, thrown: messageOf(error) });
  }
}

port.onmessage = ({ data }) => {
  if (data.isAborted) aborts.get(data.id)?.abort();
  else if ('isEnd' in data) answers.get(data.id)?.(data.isEnd);
  else serve(data);
};
