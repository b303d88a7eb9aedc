// The engine as the page sees it: calls that the worker answers. Edits are answered in order, and may overtake queries.

export class EngineFault extends Error {
  /** @param {{ status: string, answer: string }} fault */
  constructor({ status, answer }) {
    super(`${status} ${answer}`);
    this.status = status;
    this.answer = answer;
  }
}

// The status of a fault of the engine, or of a file; undefined of any other.
/** @param {any} fault */
export const statusOf = (fault) => /** @type {string | undefined} */ (fault?.status);

// Faults after which a worker may be in no state to go on.
const isBroken = (/** @type {string} */ status) => status === 'Engine' || status === 'Memory' || status === 'Closed';

export class Engine {
  /** @type {() => Worker} */
  #make;
  /** @type {Worker | undefined} */
  #worker;
  /** @type {Map<number, { resolve: (value: any) => void, reject: (fault: EngineFault) => void }>} */
  #waiting = new Map();
  #id = 0;

  // `make` makes a worker; `onBreak` is told when one fails.
  /**
   * @param {() => Worker} make
   * @param {(why: string) => void} onBreak
   */
  constructor(make, onBreak) {
    this.#make = make;
    this.onBreak = onBreak;
    this.start();
  }

  // Ends the worker. Calls that it has not answered fail.
  stop() {
    this.#worker?.terminate();
    for (const { reject } of this.#waiting.values()) reject(new EngineFault({ status: 'Restart', answer: '' }));
    this.#waiting.clear();
  }

  start() {
    this.stop();
    const worker = this.#make();
    worker.addEventListener('message', ({ data }) => this.#take(data));
    worker.addEventListener('error', (event) => this.onBreak(event.message));
    this.#worker = worker;
  }

  /** @param {{ id: number, value: any, fault?: { status: string, answer: string } }} told */
  #take({ id, value, fault }) {
    const waiting = this.#waiting.get(id);
    this.#waiting.delete(id);
    if (!fault || !waiting) return waiting?.resolve(value);
    waiting.reject(new EngineFault(fault));
    if (isBroken(fault.status)) this.onBreak(fault.answer);
  }

  // Sends a call, and promises its answer.
  /**
   * @param {string} name
   * @param {object} sent
   * @param {Transferable[]} transfer
   * @returns {Promise<any>}
   */
  call(name, sent = {}, transfer = []) {
    const id = ++this.#id;
    this.#worker?.postMessage({ id, call: name, sent }, transfer);
    return new Promise((resolve, reject) => this.#waiting.set(id, { resolve, reject }));
  }

  // How many calls are not answered yet.
  get waiting() {
    return this.#waiting.size;
  }
}
