// What a worker does for new grids: it searches for them, and has its engine judge them.
import { ask, counts as countsNow, outcome, replay, scoreOf } from '../engine/session.js';
import { cellsOf, isWhole } from '../engine/told.js';
import { BritishSearch } from './british.js';
import { GradedCounts } from './counts.js';
import { linesOf } from './grid.js';
import { Search } from './search.js';

// the seed of the short searches that tell how well a grid fills, so that they are the same for all grids
const JUDGED_SEED = 1;
// the most placements that look for any fill, where one of good words was not found
const MOST_ANY = 2000;

/** @typedef {import('./grid.js').Grid} Grid */

export class Making {
  /** @type {Search | BritishSearch | null} */
  #search = null;

  // Begins a search. Words with scores under `weak` count little in it.
  /** @param {{ wanted: import('./grid.js').Wanted, seed: number, weak: number }} sent */
  begin({ wanted, seed, weak }) {
    const longest = Math.max(wanted.width, wanted.height);
    const words = Array.from({ length: longest - 1 }, (_, at) => ask('match', '.'.repeat(at + 2))).flat();
    const counts = new GradedCounts(words, (word) => (scoreOf(word) ?? weak) >= weak);
    this.#search = wanted.style === 'american' ? new Search(wanted, counts, seed) : new BritishSearch(wanted, counts, seed);
    return this.#search.isPossible;
  }

  // Searches for some time: the grids that it finds, with what the engine says of them, those of which a light has no word, and what was tried since the
  // beginning.
  /** @param {{ milliseconds: number }} sent */
  more({ milliseconds }) {
    const search = /** @type {Search | BritishSearch} */ (this.#search);
    const end = performance.now() + milliseconds;
    /** @type {{ grid: Grid, look: import('./trials.js').Look }[]} */
    const grids = [];
    /** @type {Grid[]} */
    const unfilled = [];
    do {
      const grid = search.next();
      if (!grid) continue;
      const look = this.bound({ lines: linesOf(grid) });
      search.judge(grid, look.bound);
      if (look.bound) grids.push({ grid, look });
      else unfilled.push(grid);
    } while (performance.now() < end);
    return { grids, unfilled, tried: search.tried, faults: search.faults, nearest: search.nearest };
  }

  // What the words say of a grid that has no fill: the patterns of its lights that no word matches, with the cells of these.
  /** @param {{ lines: string[] }} sent */
  look({ lines }) {
    replay(lines);
    const unmatched = ask('unmatched');
    const isDead = new Set(unmatched.map(({ light }) => light));
    const dead = ask('lights').filter(({ light }) => isDead.has(light)).flatMap(cellsOf).map(({ coordinates }) => coordinates);
    return { unmatched: unmatched.map(({ pattern }) => pattern), dead };
  }

  // The least grade at which a grid is proved to have no fill, 0 if it has none at all, the fewest words of a light, and how many words its lights have, as the
  // mean of the logarithms.
  /** @param {{ lines: string[] }} sent */
  bound({ lines }) {
    replay(lines);
    const counts = countsNow();
    const open = ask('lights').flatMap((light, at) => (isWhole(light) ? [] : [counts[at]]));
    const [fewest, logs] = [Math.min(...open), open.reduce((sum, count) => sum + Math.log(count + 0.01), 0) / Math.max(1, open.length)];
    return { bound: fewest ? outcome('best', 0).bound ?? 0 : 0, fewest, logs };
  }

  // How well a short search fills a grid: how it ends, what is proved, and the scores of the words that it enters. Without scores no fill is better than another.
  // `isFilled` says that the grid is known to have a fill, so none is looked for that has weak words.
  /** @param {{ lines: string[], placements: number, isScored: boolean, isFilled?: boolean }} sent */
  fill({ lines, placements, isScored, isFilled = false }) {
    replay(lines);
    const entries = new Set(ask('lights').filter(isWhole).map(({ light }) => light));
    const { answer: first, bound } = isScored ? outcome('best', placements, JUDGED_SEED) : { answer: 'limit', bound: null };
    // a grid without a good fill may have another
    const answer = first === 'limit' && !isFilled ? outcome('autofill', isScored ? Math.min(placements, MOST_ANY) : placements, JUDGED_SEED).answer : first;
    const entered = answer === 'filled' ? ask('lights').filter(({ light }) => !entries.has(light)) : [];
    return { answer, bound: bound ?? Infinity, scores: entered.map(({ letters }) => scoreOf(letters)) };
  }
}
