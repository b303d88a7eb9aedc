// Where entries stand in an American grid. Theme entries of one length stand at images of each other, one that has no partner is its own image, and seeds
// stand anywhere. Many placings are found at random, and each has a score: the lower, the better.
import { shuffled } from '../model/random.js';

/** @typedef {import('./frame.js').Run} Run */
/** @typedef {{ word: string, run: Run, isTheme: boolean }} Stand an entry and where it stands; `word` is empty for the image of a seed */
/** @typedef {Stand & { cost: number }} Standing */
/** @typedef {{ word: string, isTheme: boolean }} Entry */
/** @typedef {{ run: Run, images: Run[], cost: number }} Choice where an entry may stand */
/** @typedef {{ places: import('./board.js').Place[], score: number, groups: Standing[][] }} Placing entries that stand at images of each other are a group */

// what makes a placing worse
const COSTS = {
  // a theme entry in the two lines at the border, and in the third
  border: 40, third: 2,
  // the lines between two entries side by side, if there are one or two, by how much of six cells they share
  between: [0, 5, 1],
  // one, two or three cells beside an entry, which are no room for a block and a light
  room: [0, 0.4, 0.9, 1.1],
  // a theme entry that reads down, and a crossing of two entries
  down: 4, crossing: 1,
  // gaps between the rows of entries, by the square of how much they differ from even ones
  uneven: 0.12,
};
const SHARED = 6;
// the row, from 0, in which the first theme entry stands as a rule
const USUAL_FIRST = 3;
// the most descents, those in a row that find no other placing and so are the last, the tries for one entry, and the most placings that are kept
const MOST_DESCENTS = 15000;
const MOST_MISSES = 2000;
const MOST_TRIES = 12;
const MOST_KEPT = 200;
// the most placings that are remembered, so that they are not found again
const MOST_FOUND = 50000;
// how often two seeds of one length stand at images of each other
const PAIRED = 0.5;
// how often a placing is made of another one by a change of two entries
const SWAPPED = 0.5;

export class Places {
  #frame;
  #random;
  #gap;
  // the entries, the longest first, which have the fewest places
  #wanted;
  // where entries of a kind may stand, the best places first
  /** @type {Map<string, Choice[]>} */
  #runs = new Map();
  // the placings that were found
  /** @type {Set<string>} */
  #found = new Set();

  /**
   * @param {import('./frame.js').Frame} frame
   * @param {{ entries: string[], seeds: string[], gap: number }} wanted theme entries, entries that need no partner, and the least lines between theme entries
   * @param {() => number} random
   */
  constructor(frame, { entries, seeds, gap }, random) {
    this.#frame = frame;
    this.#random = random;
    this.#gap = gap;
    const kind = (/** @type {boolean} */ isTheme) => (/** @type {string} */ word) => ({ word, isTheme });
    this.#wanted = [...entries.map(kind(true)), ...seeds.map(kind(false))].sort((a, b) => b.word.length - a.word.length);
  }

  // The best placings, the best first. Without entries there is one.
  /** @returns {Placing[]} */
  best() {
    if (!this.#wanted.length) return [{ places: [], score: 0, groups: [] }];
    /** @type {Placing[]} */
    const all = [];
    for (let descents = 0, misses = 0; descents < MOST_DESCENTS && misses < MOST_MISSES; descents++, misses++) {
      const groups = this.#descend([]);
      if (!groups || !this.#isNew(groups)) continue;
      all.push(this.#placing(groups));
      misses = 0;
    }
    return all.sort((a, b) => a.score - b.score).slice(0, MOST_KEPT);
  }

  // A placing that was not found before and is like another: two entries have changed places, or one has gone elsewhere with what stands at its images. Or null.
  /**
   * @param {Placing} placing
   * @returns {Placing | null}
   */
  near({ groups }) {
    const gone = groups[Math.floor(groups.length * this.#random())];
    const other = this.#random() < SWAPPED ? this.#swapped(groups) : this.#descend(groups.filter((group) => group !== gone));
    return other && this.#isNew(other) ? this.#placing(other) : null;
  }

  /** @param {Standing[][]} groups */
  #isNew(groups) {
    const key = groups.flat().map(({ word, run }) => `${word} ${run.isDown} ${run.line} ${run.from}`).sort().join();
    const isNew = !this.#found.has(key);
    if (this.#found.size === MOST_FOUND) this.#found.clear();
    this.#found.add(key);
    return isNew;
  }

  // Has two entries of one length change places; null if they cannot.
  /** @param {Standing[][]} groups */
  #swapped(groups) {
    const [one, ...others] = shuffled(groups.flat().filter(({ word }) => word), this.#random);
    const other = others.find(({ word, isTheme }) => word.length === one.word.length && word !== one.word && isTheme === one.isTheme);
    if (!other) return null;
    const wordOf = (/** @type {Standing} */ each) => (each === one ? other.word : each === other ? one.word : each.word);
    const swapped = groups.map((group) => group.map((each) => ({ ...each, word: wordOf(each) })));
    return this.#isFree(swapped.flat(), []) ? swapped : null;
  }

  // Gives a place to each entry that is not in a group yet, at random; or null.
  /**
   * @param {Standing[][]} kept
   * @returns {Standing[][] | null}
   */
  #descend(kept) {
    const left = [...this.#wanted];
    const take = (/** @type {Standing[]} */ group) => {
      for (const one of group) if (one.word) left.splice(left.findIndex((other) => other.word === one.word && other.isTheme === one.isTheme), 1);
    };
    kept.forEach(take);
    const groups = [...kept];
    for (let [next] = left; next; [next] = left) {
      const { word, isTheme } = next;
      const runs = this.#runsOf(word.length, isTheme);
      const [stands, others] = [groups.flat(), left.slice(1)];
      /** @type {Standing[] | null} */
      let own = null;
      for (let tries = 0; tries < MOST_TRIES && !own && runs.length; tries++) {
        // near the beginning more often than not
        own = this.#standing(runs[Math.floor(runs.length * this.#random() ** 2)], { word, isTheme }, others, stands);
      }
      if (!own) return null;
      take(own);
      groups.push(own);
    }
    return groups;
  }

  // An entry at a run, with what stands at the images of it; or null. Partners are of those that are left.
  /**
   * @param {Choice} choice
   * @param {Entry} entry
   * @param {Entry[]} left
   * @param {Standing[]} stands
   */
  #standing({ run, images, cost }, { word, isTheme }, left, stands) {
    const partners = shuffled(left.filter((other) => other.word.length === word.length && other.isTheme === isTheme), this.#random);
    const isPaired = isTheme || this.#random() < PAIRED;
    const own = [{ word, run, isTheme, cost }];
    for (const image of images) {
      const partner = isPaired ? partners.pop() : undefined;
      // of a quarter turn not all images need have an entry
      if (isTheme && !partner && this.#frame.sym !== 'quarter') return null;
      own.push({ word: partner?.word ?? '', run: image, isTheme: isTheme && Boolean(partner), cost: 0 });
    }
    return this.#isFree(own, stands) ? own : null;
  }

  // Whether entries can stand with each other and with those that stand already.
  /**
   * @param {Standing[]} own
   * @param {Standing[]} stands
   */
  #isFree(own, stands) {
    return own.every((one, at) => [...stands, ...own.slice(0, at)].every((other) => crossings(one, other, this.#gap) !== null));
  }

  // The runs of a length, with their images and costs, the best first.
  /**
   * @param {number} length
   * @param {boolean} isTheme
   */
  #runsOf(length, isTheme) {
    const key = `${length} ${isTheme}`;
    if (!this.#runs.has(key)) {
      const runs = [false, true].flatMap((isDown) => this.#runsAlong(isDown, length)).map((run) => ({ run, images: this.#frame.images(run), cost: this.#costOf(run, isTheme) }));
      this.#runs.set(key, shuffled(runs, this.#random).sort((a, b) => a.cost - b.cost));
    }
    return this.#runs.get(key) ?? [];
  }

  /**
   * @param {boolean} isDown
   * @param {number} length
   * @returns {Run[]}
   */
  #runsAlong(isDown, length) {
    const [lines, room] = this.#sides(isDown);
    const firsts = Array.from({ length: Math.max(0, room - length + 1) }, (_, from) => from);
    return Array.from({ length: lines }, (_, line) => firsts.map((from) => ({ isDown, line, from, length }))).flat();
  }

  // How many lines there are in a direction, and how many cells each has.
  /** @param {boolean} isDown */
  #sides(isDown) {
    const { width, height } = this.#frame;
    return isDown ? [width, height] : [height, width];
  }

  /**
   * @param {Run} run
   * @param {boolean} isTheme
   */
  #costOf({ isDown, line, from, length }, isTheme) {
    const [lines, room] = this.#sides(isDown);
    const beside = [from, room - from - length].reduce((sum, cells) => sum + (COSTS.room[cells] ?? 0), 0);
    if (!isTheme) return beside;
    const border = Math.min(line, lines - 1 - line);
    const atBorder = border < 2 ? COSTS.border : border === 2 ? COSTS.third : 0;
    // a mirror that has left and right change places has entries of two lengths each in a middle
    return beside + atBorder + (isDown && this.#frame.sym !== 'leftright' ? COSTS.down : 0);
  }

  /**
   * @param {Standing[][]} groups
   * @returns {Placing}
   */
  #placing(groups) {
    const stands = groups.flat();
    let score = this.#unevenness(stands);
    stands.forEach((one, at) => {
      score += one.cost;
      for (const other of stands.slice(0, at)) score += COSTS.crossing * (crossings(one, other, this.#gap) ?? 0) + closeness(one.run, other.run);
    });
    return { places: stands.map(({ word, run }) => ({ word, run: this.#frame.cellsOf(run) })), score, groups };
  }

  // What the gaps between the rows of entries cost.
  /** @param {Standing[]} stands */
  #unevenness(stands) {
    const rows = [...new Set(stands.filter(({ word, run }) => word && !run.isDown).map(({ run }) => run.line))].sort((a, b) => a - b);
    const even = (this.#frame.height - 1 - 2 * USUAL_FIRST) / (rows.length - 1);
    return rows.slice(1).reduce((sum, row, at) => sum + COSTS.uneven * (row - rows[at] - even) ** 2, 0);
  }
}

// How many cells of lines side by side have neighbours in both.
const sharedBy = (/** @type {Run} */ one, /** @type {Run} */ other) => Math.min(one.from + one.length, other.from + other.length) - Math.max(one.from, other.from);

// How often two entries cross; null if they cannot stand together.
/**
 * @param {Stand} one
 * @param {Stand} other
 * @param {number} gap
 * @returns {number | null}
 */
function crossings(one, other, gap) {
  if (one.run.isDown !== other.run.isDown) return one.run.isDown ? crossingOf(other, one) : crossingOf(one, other);
  const lines = Math.abs(one.run.line - other.run.line);
  // in one line there is a block between them
  if (!lines) return sharedBy(one.run, other.run) < 0 ? 0 : null;
  const least = one.isTheme && other.isTheme ? Math.max(1, gap) : 1;
  return lines <= least && sharedBy(one.run, other.run) > 0 ? null : 0;
}

/**
 * @param {Stand} across
 * @param {Stand} down
 */
function crossingOf(across, down) {
  const [at, there] = [down.run.line - across.run.from, across.run.line - down.run.from];
  const [isIn, isThere] = [at >= 0 && at < across.run.length, there >= 0 && there < down.run.length];
  if (isIn && isThere) return !across.word || !down.word || across.word[at] === down.word[there] ? 1 : null;
  // the block at an end of one would be in the other
  const isAtEnd = (isThere && (at === -1 || at === across.run.length)) || (isIn && (there === -1 || there === down.run.length));
  return isAtEnd ? null : 0;
}

// What the lines between two entries cost.
/**
 * @param {Run} one
 * @param {Run} other
 */
function closeness(one, other) {
  const shared = one.isDown === other.isDown ? sharedBy(one, other) : 0;
  const cost = COSTS.between[Math.abs(one.line - other.line) - 1] ?? 0;
  return shared > 0 ? cost * Math.min(1, shared / SHARED) : 0;
}
