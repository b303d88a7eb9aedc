// Which grids are filled, and for how long, by successive halving: each grid that is found has a bound, a short search fills the most promising third, a
// longer one the most promising third of these, and so on.
import { byFigures } from '../model/grades.js';
import { areAlike } from './grid.js';

// the placements of the searches, one after another, and how many grids have one for each that has the next
const PLACEMENTS = [500, 2000, 8000, 32000];
const SHARE = 3;
// how many best grids are shown: so many have the first search at once
export const MOST_SHOWN = 12;
// the most grids that wait for the first search
const MOST_WAITING = 300;

/** @typedef {import('./grid.js').Grid} Grid */
/** @typedef {{ bound: number, logs: number, fewest: number }} Look what the engine says of an unfilled grid: the least grade at which it has no fill, how many words its lights have, and those of the tightest one */
/** @typedef {ReturnType<typeof import('../model/grades.js').figuresOf>} Figures */
/** @typedef {{ grid: Grid, look: Look, bound: number, searches: number, isBusy: boolean, isFilled: boolean, figures: Figures }} Trial a grid with the lowest bound that is proved, how many searches it had, and the figures of its best fill */

export class Trials {
  // the most promising first
  /** @type {Trial[]} */
  #waiting = [];
  // those that have a search, or had one
  /** @type {Trial[]} */
  #tried = [];
  // how many grids had so many searches or more
  #counts = new Array(PLACEMENTS.length + 1).fill(0);

  // How many grids were judged by a search.
  get count() {
    return this.#counts[1];
  }

  // The best judged grids, of which none is like another.
  get best() {
    /** @type {Trial[]} */
    const best = [];
    for (const trial of this.#tried.filter(({ searches }) => searches).sort(byWorth)) {
      if (best.length === MOST_SHOWN) break;
      if (!best.some(({ grid }) => areAlike(grid, trial.grid))) best.push(trial);
    }
    return best;
  }

  // Adds a grid, unless one that is like it was as promising when it was found.
  /**
   * @param {Grid} grid
   * @param {Look} look
   */
  add(grid, look) {
    this.#counts[0]++;
    const isLike = (/** @type {Trial} */ other) => areAlike(grid, other.grid);
    if ([...this.#tried, ...this.#waiting].some((other) => other.look.bound >= look.bound && isLike(other))) return;
    const trial = { grid, look, bound: look.bound, searches: 0, isBusy: false, isFilled: false, figures: null };
    this.#waiting = [...this.#waiting.filter((other) => !isLike(other)), trial].sort(byPromise).slice(0, MOST_WAITING);
  }

  // The grid that is filled next, with the placements of its search; or null, if there have to be more grids first.
  next() {
    const { best } = this;
    const least = best.length === MOST_SHOWN ? best[MOST_SHOWN - 1].figures?.worst ?? -1 : -1;
    // whether a search may find a fill that is better than the one that is known and than those that are shown
    const isOpen = (/** @type {Trial} */ { bound, isFilled, figures }) => (isFilled && !figures ? false : bound - 1 > Math.max(least, figures?.worst ?? -1));
    for (let searches = PLACEMENTS.length - 1; searches >= 0; searches--) {
      const trial = searches ? this.#promoted(searches, isOpen) : this.#first(isOpen);
      if (!trial) continue;
      trial.isBusy = true;
      return { trial, placements: PLACEMENTS[searches] };
    }
    return null;
  }

  // The most promising grid that waits, if another one is to have the first search.
  /** @param {(trial: Trial) => boolean} isOpen */
  #first(isOpen) {
    const [trial] = this.#waiting;
    if (!trial || !isOpen(trial) || this.#tried.length >= Math.max(MOST_SHOWN, this.#counts[0] / SHARE)) return null;
    this.#waiting.shift();
    this.#tried.push(trial);
    return trial;
  }

  // The most promising grid that had so many searches, if another one is to have the next.
  /**
   * @param {number} searches
   * @param {(trial: Trial) => boolean} isOpen
   */
  #promoted(searches, isOpen) {
    const most = Math.floor(this.#counts[searches] / SHARE);
    const all = this.#tried.filter((trial) => trial.searches >= searches).sort(byPromise).slice(0, most);
    return all.find((trial) => trial.searches === searches && !trial.isBusy && isOpen(trial));
  }

  // Takes over what a search found. A grid that is proved to have no fill goes.
  /**
   * @param {Trial} trial
   * @param {{ answer: string, bound: number, figures: Figures }} told
   */
  tell(trial, { answer, bound, figures }) {
    trial.isBusy = false;
    if (answer === 'nofill') {
      this.#tried = this.#tried.filter((other) => other !== trial);
      return;
    }
    trial.searches++;
    this.#counts[trial.searches]++;
    trial.bound = Math.min(trial.bound, bound);
    if (answer !== 'filled') return;
    trial.isFilled = true;
    if (!trial.figures || byFigures({ figures }, trial) < 0) trial.figures = figures;
  }
}

// Orders judged grids: those that fill come first, the best words first.
/**
 * @param {Trial} one
 * @param {Trial} other
 */
const byWorth = (one, other) => Number(other.isFilled) - Number(one.isFilled) || byFigures(one, other) || byPromise(one, other);

// Orders grids by the worst word that a longer search may find, which is between that of the best fill and the bound; and then by how many words the lights have.
/**
 * @param {Trial} one
 * @param {Trial} other
 */
const byPromise = (one, other) => promiseOf(other) - promiseOf(one) || other.look.logs - one.look.logs;

const promiseOf = (/** @type {Trial} */ { bound, figures }) => bound + (figures?.worst ?? 0);
