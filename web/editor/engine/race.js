// What a raising knows, and what it decides: what each worker is told, what its answer changes, when words are to be held, and when no more is wanted. It has
// neither workers nor a clock: a worker is its number.
import { MOST } from '../model/grades.js';

// the seed of one worker lies so far from that of the next
const SEEDS = 1000003;
// the slices in a row that lead a worker to nothing better, after which it begins anew with another seed
export const MOST_IDLE = 16;

// the grade of no fill
const NONE = -1;

// what a search tells that was not refused
const ANSWERS = new Set(['filled', 'nofill', 'limit']);

/** @typedef {{ answer: string, grade?: number, sum?: number, bound?: number | null, letters?: string[] }} Told */
// The least grade of the fills that a worker looks for, the seed, and the stage.
/** @typedef {{ least: number, seed: number, stage: number }} Asked */

export class Race {
  // the grade of the worst word of the best fill, and the sum of all grades
  grade;
  sum;
  // a grade at which there is no fill in this stage, and one at which there is none at all
  bound;
  proved;
  // the grade of the worst word from which on no more is wanted
  target;
  // the lights whose words are held, stage by stage, with those that force it
  /** @type {{ names: string[], forced: string[] }[]} */
  held = [];
  #seed;
  // how many seeds were given to workers
  #seeds;
  #workers;

  /** @param {{ grade: number, sum: number, bound: number, seed: number, workers: number, target?: number }} begun */
  constructor({ grade, sum, bound, seed, workers, target = Infinity }) {
    this.grade = grade;
    this.sum = sum;
    this.bound = bound;
    this.target = target;
    this.proved = bound;
    this.#seed = seed;
    this.#seeds = workers;
    this.#workers = Array.from({ length: workers }, (_, at) => ({ seed: this.#seedOf(at), own: NONE, idle: 0, stage: 0 }));
  }

  /** @param {number} at */
  #seedOf(at) {
    return this.#seed + SEEDS * at;
  }

  // Whether the words that are not held are as good as is wanted, or as any can be.
  get isMet() {
    return this.grade >= Math.min(this.target, MOST);
  }

  // Whether all words are as good as is wanted.
  get isReached() {
    return this.grade >= this.target && !this.held.length;
  }

  // Whether no fill is better in this stage, so that words have to be held before others get better.
  get isBlocked() {
    return this.bound <= this.grade + 1;
  }

  // Has a worker go on in the stage of all. Returns whether it was in an earlier one, and lacks words that are held.
  /** @param {number} at */
  catchesUp(at) {
    const worker = this.#workers[at];
    if (worker.stage === this.held.length) return false;
    Object.assign(worker, { stage: this.held.length, own: NONE, idle: 0 });
    return true;
  }

  // Gives a worker another seed that found nothing better for long. Returns whether it has one, and so begins anew.
  /** @param {number} at */
  startsAnew(at) {
    const worker = this.#workers[at];
    if (worker.idle < MOST_IDLE) return false;
    Object.assign(worker, { seed: this.#seedOf(this.#seeds++), own: NONE, idle: 0 });
    return true;
  }

  // What a worker is told now: to look for fills that are better than the best one of all workers. The worker that found that one also raises its mean.
  /**
   * @param {number} at
   * @returns {Asked}
   */
  next(at) {
    const worker = this.#workers[at];
    return { least: worker.own === this.grade ? worker.own : this.grade + 1, seed: worker.seed, stage: worker.stage };
  }

  // Takes what a worker answered. `late` is what was found without the words that are held by now, and `better` a fill that is better than all before.
  /**
   * @param {number} at
   * @param {Asked} asked
   * @param {Told} told
   * @returns {'refused' | 'late' | 'better' | 'none'}
   */
  take(at, { least, stage }, told) {
    if (!ANSWERS.has(told.answer)) return 'refused';
    if (stage < this.held.length) return 'late';
    this.bound = Math.min(this.bound, told.answer === 'nofill' ? least : told.bound ?? MOST + 1);
    if (!this.held.length) this.proved = this.bound;
    const worker = this.#workers[at];
    worker.idle++;
    if (told.answer !== 'filled') return 'none';
    const { grade = NONE, sum = 0 } = told;
    worker.own = grade;
    if (!(grade > this.grade || (grade === this.grade && sum > this.sum))) return 'none';
    [this.grade, this.sum] = [grade, sum];
    worker.idle = 0;
    return 'better';
  }

  // Begins another stage: the words of lights are held, and the others have this worst grade and this sum.
  /** @param {{ names: string[], forced: string[], grade: number, sum: number }} stage */
  hold({ names, forced, grade, sum }) {
    [this.grade, this.sum, this.bound] = [Math.min(MOST, grade), sum, MOST + 1];
    this.held.push({ names, forced });
  }
}
