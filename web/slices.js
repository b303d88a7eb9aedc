// Searches in slices. No command stops a search that runs, so each one is sent with some of its placements after another.

// The placements of the first slice, and the fewest of a later one.
const [FIRST, FEWEST] = [1000, 100];
// The most in a millisecond: a slice that ended early says little of the next.
const FASTEST = 1000;
/** How long a slice takes, in milliseconds. */
export const SPAN = 100;
// The part of the time so far that a slice may take where nothing is told between slices. Each slice begins at the grid again, so only a search whose slices
// grow is sure to end.
const PART = 0.1;

/**
 * The slices of a search, which has `limit` placements in all. Each takes about `span` milliseconds: it has as many placements as the last one made in this time,
 * and at most twice as many as the last one. Without a span the slices get longer with the search. No slice begins after `milliseconds` of search.
 */
export class Slices {
  #limit;
  /** @type {number | null} */
  #span;
  #milliseconds;
  #due = FIRST;
  #spent = 0;
  /** At most so many placements were made. */
  made = 0;

  /**
   * @param {number} limit
   * @param {number | null} span
   * @param {number} milliseconds
   */
  constructor(limit, span = null, milliseconds = Infinity) {
    this.#limit = limit;
    this.#span = span;
    this.#milliseconds = milliseconds;
  }

  /**
   * Runs a slice, and returns what it found, or promises that if the search does. The time between two slices does not count.
   * @template Found
   * @param {(placements: number) => Found | Promise<Found>} search
   * @returns {Found | Promise<Found>}
   */
  run(search) {
    const placements = Math.min(this.#due, this.#limit - this.made);
    const began = performance.now();
    const end = (/** @type {Found} */ found) => {
      const taken = performance.now() - began;
      this.made += placements;
      this.#spent += taken;
      this.#due = this.#after(placements, taken);
      return found;
    };
    const found = search(placements);
    return found instanceof Promise ? found.then(end) : end(found);
  }

  // The placements of the slice after one that took so long.
  /**
   * @param {number} placements
   * @param {number} taken
   */
  #after(placements, taken) {
    // the last one ends about when the time is over
    const left = Math.max(0, this.#milliseconds - this.#spent);
    const span = Math.min(left, this.#span ?? Math.max(SPAN, PART * this.#spent));
    const growth = taken > 0 ? Math.min(2, span / taken) : 2;
    return Math.max(FEWEST, Math.min(Math.floor(placements * growth), Math.floor(span * FASTEST)));
  }

  /** Ends the search: a slice that still runs has no placements, and only tells what is wrong with the session or the lights. */
  end() {
    this.#limit = this.made;
  }

  /** Whether all placements are made, or the time is over. */
  get isOver() {
    return this.made >= this.#limit || this.#spent >= this.#milliseconds;
  }
}
