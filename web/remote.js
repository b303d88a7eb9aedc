// A session in a worker: the calls of a session of xw.js, each of which returns a promise. docs/embedding.md has an example.
//
//   const xw = await RemoteXw.open({ list });
//   await xw.ask('words', '1 across', 10)  →  { total: 55, words: ['CAB', ..] }
//   for await (const { grade, rows } of xw.best({ signal }))
//   xw.close()
import { autofill, expectOptions } from './asking.js';
import { Fault } from './xw.js';

// A name that bundlers for the web do not follow.
const NODE_THREADS = 'node:worker_threads';

// Starts a worker: in Node, or in a page.
async function started() {
  if (globalThis.process?.versions?.node) {
    const { Worker } = await import(/* webpackIgnore: true */ /* @vite-ignore */ NODE_THREADS);
    return new Worker(new URL('worker.js', import.meta.url));
  }
  // bundlers know a worker by these words
  return new Worker(new URL('./worker.js', import.meta.url), { type: 'module' });
}

// Has what a worker sends taken, and what ends it. A worker of Node has other calls for that than one of a page.
function listen(worker, take, fail) {
  if (worker.on) {
    worker.on('message', take).on('error', fail).on('exit', () => fail(new Fault('Closed')));
  } else {
    worker.addEventListener('message', ({ data }) => take(data));
    worker.addEventListener('error', ({ message }) => fail(new Error(message || 'the worker cannot be loaded')));
  }
}

const ERRORS = { TypeError, RangeError };

// An error that the worker has thrown.
function errorOf({ name, message, status, answer }) {
  return name === 'Fault' ? new Fault(status, answer, message) : new (ERRORS[name] ?? Error)(message);
}

// A search of fills in the worker, which has its `progress` and its signal on this side.
class Search {
  #post;
  #options;
  // what `progress` has thrown
  #thrown = [];
  #abort = () => this.#post({ isAborted: true });

  constructor(post, options) {
    this.#post = post;
    this.#options = options;
    options.signal?.addEventListener('abort', this.#abort);
  }

  // What the worker gets.
  get sent() {
    const { progress, signal, ...options } = this.#options;
    return { options, isWatched: Boolean(progress), isAbortable: Boolean(signal) };
  }

  // Tells `progress` how far the search is, and the worker whether it ends.
  async tell(told) {
    let isEnd = true;
    try {
      isEnd = Boolean(await this.#options.progress(told));
    } catch (error) {
      this.#thrown.push(error);
    }
    this.#post({ isEnd });
  }

  // What the search returns, or throws on this side.
  async result(returned) {
    try {
      const value = await returned;
      if (!this.#thrown.length) return value;
    } catch (error) {
      this.#options.signal?.throwIfAborted();
      throw error;
    }
    throw this.#thrown[0];
  }

  end() {
    this.#options.signal?.removeEventListener('abort', this.#abort);
  }
}

export class RemoteXw {
  #worker;
  #last = 0;
  // what settles each call, and the searches, by their numbers
  #calls = new Map();
  #searches = new Map();

  // Opens a session, as Xw.open, in a new worker or in `worker`, which runs worker.js and has no session yet. `module` is what `load` returns; without it the
  // worker loads xw.wasm.
  static async open(beginning = {}) {
    const { module, worker, ...others } = beginning;
    const xw = new RemoteXw(worker ?? (await started()));
    try {
      return Object.assign(xw, await xw.#call('open', module, others));
    } catch (error) {
      xw.close();
      throw error;
    }
  }

  constructor(worker) {
    this.#worker = worker;
    listen(worker, (message) => this.#take(message), (error) => this.#end(error));
  }

  #take({ id, told, thrown, value }) {
    if (told) this.#searches.get(id)?.tell(told);
    else {
      const call = this.#calls.get(id);
      this.#calls.delete(id);
      if (thrown) call?.reject(errorOf(thrown));
      else call?.resolve(value);
    }
  }

  #call(call, ...given) {
    return this.#send(++this.#last, call, given);
  }

  #send(id, call, given) {
    return new Promise((resolve, reject) => {
      if (!this.#worker) throw new Fault('Closed');
      // a value that no message can have is refused here
      this.#worker.postMessage({ id, call, given });
      this.#calls.set(id, { resolve, reject });
    });
  }

  ask(command, ...given) {
    return this.#call('ask', command, ...given);
  }

  line(text) {
    return this.#call('line', text);
  }

  answer(line) {
    return this.#call('answer', line);
  }

  puz() {
    return this.#call('puz');
  }

  text() {
    return this.#call('text');
  }

  record() {
    return this.#call('record');
  }

  resume(record) {
    return this.#call('resume', record);
  }

  autofill(options = {}) {
    return autofill(this, options);
  }

  async *best(options = {}) {
    expectOptions('best', options);
    options.signal?.throwIfAborted();
    const id = ++this.#last;
    const search = new Search((message) => this.#worker?.postMessage({ id, ...message }), options);
    this.#searches.set(id, search);
    try {
      await this.#send(id, 'best', [search.sent]);
      for (;;) {
        const { done, value } = await search.result(this.#call('next', id));
        if (done) return value;
        yield value;
      }
    } finally {
      // the best fill stands in the grid once the worker has left the search
      if (!this.closed) await this.#call('leave', id);
      search.end();
      this.#searches.delete(id);
    }
  }

  // Whether the worker has ended.
  get closed() {
    return !this.#worker;
  }

  // Ends the worker at once, whatever it does. Each call that waits, and every later one, throws a Fault with the status `Closed`, except `close`, which does
  // nothing.
  close() {
    this.#end(new Fault('Closed'));
  }

  #end(error) {
    this.#worker?.terminate();
    this.#worker = null;
    for (const { reject } of this.#calls.values()) reject(error);
    this.#calls.clear();
  }
}

// `using xw = ..` closes the session at the end of its block, where the language has that.
if (Symbol.dispose) Object.defineProperty(RemoteXw.prototype, Symbol.dispose, { value: RemoteXw.prototype.close, writable: true, configurable: true });
