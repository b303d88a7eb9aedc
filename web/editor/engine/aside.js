// A worker of its own for what may take long, or have no end, as what someone wrote to find words: it can be ended at any time.
import { Engine, EngineFault } from './engine.js';

export class Aside {
  #make;
  /** @type {Engine | null} */
  #engine = null;

  // `make` makes a worker.
  /** @param {() => Worker} make */
  constructor(make) {
    this.#make = make;
  }

  // Asks a question in place of the one before. Promises its answer, or null if it was ended.
  /**
   * @param {string} name
   * @param {object} sent
   */
  async ask(name, sent) {
    this.stop();
    /** @type {Engine} */
    const engine = new Engine(this.#make, () => engine.stop());
    this.#engine = engine;
    try {
      return await engine.call(name, sent);
    } catch (fault) {
      if (fault instanceof EngineFault && fault.status === 'Restart') return null;
      throw fault;
    } finally {
      engine.stop();
      if (this.#engine === engine) this.#engine = null;
    }
  }

  stop() {
    this.#engine?.stop();
    this.#engine = null;
  }
}
