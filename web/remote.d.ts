// The types of remote.js.
import { Answer, Answers, Arguments, Beginning, Best, Cell, Change, Fill, Found, RawAnswer, Search, Source } from './xw.js';

/** A worker of a page, or of `node:worker_threads`. */
export interface SessionWorker {
  postMessage(message: unknown): void;
  terminate(): unknown;
}

/**
 * A session in a worker: the calls of `Xw`, each of which returns a promise, so that no search blocks the thread which waits for it. Calls are answered in their
 * order, but a search takes other calls in between two of its slices.
 */
export class RemoteXw {
  private constructor();

  /**
   * Opens a session in a new worker. `module` is what `load` returns; without it the worker loads `xw.wasm`. `worker` is a worker that runs `worker.js` and has no
   * session yet, in place of a new one. Rejects as `Xw.open` throws; the worker is ended then.
   */
  static open(beginning?: Beginning & { module?: WebAssembly.Module; worker?: SessionWorker }): Promise<RemoteXw>;

  /** What was not taken from the record, as `reports` of `Xw`. */
  readonly reports: string;

  /** The version of the engine, as `xw --version` prints it. */
  readonly version: string;

  /** What a command answers, with its arguments, as `ask` of `xw.js`. */
  ask<C extends keyof Answers>(command: C, ...given: Arguments[C]): Promise<Answers[C]>;
  ask<C extends Change>(command: C, ...given: Arguments[C]): Promise<Cell[]>;

  /** Answers a line. */
  line(text: string): Promise<Answer>;

  /** Answers a line in bytes. */
  answer(line: Uint8Array | ArrayBuffer): Promise<RawAnswer>;

  /** The puzzle as a `.puz` file. */
  puz(): Promise<Uint8Array>;

  /** The puzzle as a text file. */
  text(): Promise<Uint8Array>;

  /** The record of the session, for `open`. */
  record(): Promise<Uint8Array>;

  /** Replays a record in this session, and returns what was not taken from it. */
  resume(record: Source): Promise<string>;

  /**
   * Fills lights, as `autofill` of `xw.js`. `progress` and `signal` stay in this thread: the search waits for what `progress` returns after each slice, and throws
   * the reason of the signal.
   */
  autofill(search?: Search): Promise<Found>;

  /** Yields better and better fills, as `best` of `Xw`. */
  best(search?: Search & { least?: number }): AsyncGenerator<Fill, Best & { bound: number }, undefined>;

  /** Whether the worker has ended. */
  readonly closed: boolean;

  /**
   * Ends the worker at once, whatever it does. Calls that wait, and later ones, reject with a `Fault` of the status `Closed`; `close` may be called again.
   */
  close(): void;

  /** Closes the session: `using xw = await RemoteXw.open(..)`. */
  [Symbol.dispose](): void;
}
