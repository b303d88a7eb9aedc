// The dialog of new grids, with theme entries or without: they are found in workers within limits, and each is judged by an engine before it is chosen.
import { figuresOf, figuresText } from '../model/grades.js';
import { parseRecord, wordsOf } from '../model/record.js';
import { termed } from '../model/terms.js';
import { openDialog } from '../views/dialogs.js';
import { sketchOf } from '../views/library.js';
import { unforeseen } from '../views/messages.js';
import { checkWanted, linesOf, recordOfGrid, threesOf } from './grid.js';
import { LimitsView } from './limits-view.js';
import { MOST_SHOWN, Trials } from './trials.js';

const MOST_ENTRIES = 8;
// the most boards with faults that are shown while there is no grid
const MOST_MISSES = 3;
// the most workers that make grids
const MOST_WORKERS = 4;
// how many milliseconds a worker looks for grids before it fills some
const MILLISECONDS = 300;
// the seeds of one search lie so far from those of the next
const SEEDS = 100003;

// What boards have that are no grids, by the fault.
/** @type {Record<string, string>} */
const FAULTS = {
  words: 'too many words', blocks: 'too many blocks', threes: 'too many words of 3 letters', cheaters: 'too many cheaters', lumps: 'lumps of blocks',
  long: 'words that are too long', dead: 'lights without a word in your lists', cut: 'parts that do not connect', narrow: 'a narrow passage', places: 'no room for the entries',
  nofill: 'no fill from your lists',
};

/** @typedef {import('./grid.js').Grid} Grid */
/** @typedef {import('./grid.js').Miss} Miss */
/** @typedef {import('../engine/engine.js').Engine} Engine */
/**
 * @typedef {{ dialog: HTMLDialogElement, limits: import('./limits-view.js').Elements } & Record<'entries' | 'seeds', HTMLTextAreaElement> &
 *   Record<'show' | 'stop', HTMLButtonElement> & Record<'lengths' | 'told' | 'grids', HTMLElement>} Elements
 */
/** @typedef {import('./trials.js').Trial} Trial */
/**
 * A search: the grids that are tried, with the cards of those that are judged, the first ones that have no fill, with their number, and what each worker tells
 * of its boards.
 * @typedef {{ turn: number, wanted: import('./grid.js').Wanted, trials: Trials, cards: WeakMap<Trial, HTMLElement>, unfilled: Grid[], lost: number, told: { tried: number, faults: Map<string, number>, nearest: Miss | null }[] }} Searching
 */

export class GridsView {
  /** @type {import('../model/editor.js').Editor} */
  #editor;
  #helpers;
  #elements;
  #limits;
  #seed = 0;
  // rises with each search, and when one is stopped, so that those before it end
  #turn = 0;
  // the cards of the best grids, in their order
  /** @type {HTMLElement[]} */
  #best = [];
  // where the pointer was last, and whether it moved there over the grids
  #pointer = '';
  #isPointing = false;

  /**
   * @param {import('../model/editor.js').Editor} editor
   * @param {import('../engine/helpers.js').Helpers} helpers
   * @param {Elements} elements
   */
  constructor(editor, helpers, elements) {
    this.#editor = editor;
    this.#helpers = helpers;
    this.#elements = elements;
    this.#limits = new LimitsView(elements.limits);
    elements.show.addEventListener('click', () => this.#show());
    elements.stop.addEventListener('click', () => this.#stop());
    for (const kind of /** @type {const} */ (['pointerdown', 'pointermove'])) elements.dialog.addEventListener(kind, (event) => this.#follow(event));
    // no other card comes under the pointer before a click
    elements.grids.addEventListener('pointerleave', () => this.#best.length && this.#arrange());
    elements.entries.addEventListener('input', () => this.#showLengths());
    elements.seeds.addEventListener('input', () => this.#showLengths());
    // Enter in a field shows grids, and does not close the dialog
    elements.dialog.addEventListener('keydown', (event) => {
      const target = /** @type {HTMLElement} */ (event.target);
      if (event.key !== 'Enter' || !target.matches('[type=number]')) return;
      event.preventDefault();
      target.blur();
      this.#show();
    });
    elements.dialog.addEventListener('close', () => {
      this.#end('');
      helpers.rest();
    });
  }

  open() {
    openDialog(this.#elements.dialog);
    this.#elements.entries.focus();
  }

  // Follows the pointer. The browser tells of one that rests, too, when a card comes under it; that one points at nothing.
  /** @param {PointerEvent} event */
  #follow({ clientX, clientY, target }) {
    const at = `${clientX} ${clientY}`;
    if (at === this.#pointer) return;
    this.#pointer = at;
    this.#isPointing = this.#elements.grids.contains(/** @type {Node} */ (target));
  }

  /** @param {string} text */
  #say(text) {
    this.#elements.told.textContent = termed(text, this.#limits.wanted.style !== 'american');
  }

  // Shows whether a search goes on.
  /** @param {boolean} isBusy */
  set #isBusy(isBusy) {
    const { grids, show, stop } = this.#elements;
    const hasFocus = document.activeElement === (isBusy ? show : stop);
    grids.setAttribute('aria-busy', String(isBusy));
    show.hidden = isBusy;
    stop.hidden = !isBusy;
    if (hasFocus) (isBusy ? stop : show).focus();
  }

  // The entries of a field, without what is no letter.
  /** @param {HTMLTextAreaElement} field */
  #entriesOf({ value }) {
    return value.split('\n').map((line) => line.normalize('NFD').replace(/[^A-Za-z]/g, '').toUpperCase()).filter(Boolean);
  }

  #showLengths() {
    const { entries, seeds, lengths } = this.#elements;
    lengths.textContent = [entries, seeds].flatMap((field) => this.#entriesOf(field)).map((word) => `${word} ${word.length}`).join(' · ');
  }

  // What is wanted; throws why there is no such grid.
  get #wanted() {
    const { entries, seeds, limits: { width, height } } = this.#elements;
    const wanted = { ...this.#limits.wanted, entries: this.#entriesOf(entries), seeds: this.#entriesOf(seeds) };
    for (const side of [width, height]) if (!side.checkValidity() || !side.value) throw new Error(`A grid has ${side.min} to ${side.max} rows and columns.`);
    if (wanted.entries.length + wanted.seeds.length > MOST_ENTRIES) throw new Error(`Enter ${MOST_ENTRIES} entries at most, one a line.`);
    checkWanted(wanted);
    return wanted;
  }

  #show() {
    const turn = ++this.#turn;
    this.#best = [];
    this.#isPointing = false;
    this.#elements.grids.replaceChildren();
    this.#search(turn).catch((fault) => this.#isOn(turn) && this.#end(fault.message));
  }

  /** @param {number} turn */
  #isOn(turn) {
    return turn === this.#turn;
  }

  // Ends a search, and says how.
  /** @param {string} text */
  #end(text) {
    this.#turn++;
    this.#isBusy = false;
    this.#say(text);
    if (this.#best.length) this.#arrange();
  }

  #stop() {
    const { textContent } = this.#elements.told;
    this.#end(`Stopped. ${textContent}`);
  }

  // Looks for grids until it is stopped: each worker fills the next one that is to be filled, and looks for others if there is none.
  /** @param {number} turn */
  async #search(turn) {
    /** @type {Searching} */
    const search = { turn, wanted: this.#wanted, trials: new Trials(), cards: new WeakMap(), unfilled: [], lost: 0, told: [] };
    this.#isBusy = true;
    this.#say('looking for grids …');
    const [first, weak] = [SEEDS * MOST_WORKERS * this.#seed + 1, this.#weak];
    this.#seed++;
    // each worker begins once it has the words
    await Promise.all(this.#workers().map(async (opened, at) => {
      const worker = await opened;
      const isPossible = await worker.call('beginGrids', { wanted: search.wanted, seed: first + SEEDS * at, weak });
      while (isPossible && this.#isOn(turn)) {
        const next = search.trials.next();
        await (next ? this.#fill(search, worker, next) : this.#find(search, worker, at));
      }
    }));
    if (this.#isOn(turn)) this.#end('The entries cannot stand together within these limits: try another size or symmetry, or fewer entries.');
  }

  // Looks for grids in a worker for some time.
  /**
   * @param {Searching} search
   * @param {Engine} worker
   * @param {number} at
   */
  async #find(search, worker, at) {
    const { grids, unfilled, ...told } = await worker.call('moreGrids', { milliseconds: MILLISECONDS });
    for (const { grid, look } of grids) search.trials.add(grid, look);
    search.told[at] = told;
    for (const grid of unfilled) this.#lose(search, grid);
    if (!this.#isOn(search.turn)) return;
    this.#say(this.#summary(search));
    if (at === search.told.findIndex(Boolean) && !search.trials.count) await this.#showMisses(search, worker);
  }

  // Has a worker fill a grid, and shows the best ones.
  /**
   * @param {Searching} search
   * @param {Engine} worker
   * @param {{ trial: Trial, placements: number }} next
   */
  async #fill(search, worker, { trial, placements }) {
    const { scored: isScored, weak } = this.#editor.list;
    const { answer, bound, scores } = await worker.call('fillGrid', { lines: linesOf(trial.grid), placements, isScored, isFilled: trial.isFilled });
    search.trials.tell(trial, { answer, bound, figures: figuresOf(scores, weak) });
    if (answer === 'nofill') this.#lose(search, trial.grid);
    else if (this.#isOn(search.turn)) this.#showBest(search, trial);
  }

  // Notes a grid within the limits that has no fill.
  /**
   * @param {Searching} search
   * @param {Grid} grid
   */
  #lose(search, grid) {
    search.lost++;
    if (search.unfilled.length < MOST_MISSES) search.unfilled.push(grid);
  }

  // Shows the best grids, of which one was judged anew.
  /**
   * @param {Searching} search
   * @param {Trial} trial
   */
  #showBest({ wanted, trials, cards }, trial) {
    const { best } = trials;
    const card = this.#card(wanted, trial.grid, verdictOn(trial));
    // what is pointed at stays, and says what is known of it now
    cards.get(trial)?.replaceChildren(...card.childNodes);
    if (!cards.has(trial)) cards.set(trial, card);
    this.#best = best.flatMap((one) => cards.get(one) ?? []);
    const { grids } = this.#elements;
    // while a grid is pointed at, others come after those that are shown
    if (!this.#isPointing || !grids.querySelector('.pattern:hover:not(:has(.bad))')) this.#arrange();
    else grids.append(...this.#best.filter((one) => !one.isConnected).slice(0, Math.max(0, MOST_SHOWN - grids.children.length)));
  }

  // Shows the best grids in their order. One that has the focus keeps it.
  #arrange() {
    const { grids } = this.#elements;
    const [best, at] = [this.#best, this.#best.indexOf(/** @type {HTMLElement} */ (document.activeElement))];
    if (at < 0) return grids.replaceChildren(...best);
    for (const card of [...grids.children].filter((one) => !best.includes(/** @type {HTMLElement} */ (one)))) card.remove();
    best[at].before(...best.slice(0, at));
    best[at].after(...best.slice(at + 1));
    return undefined;
  }

  // Shows grids without a fill, or else the nearest boards, with what is wrong with them.
  /**
   * @param {Searching} search
   * @param {Engine} worker
   */
  async #showMisses(search, worker) {
    const unfilled = search.unfilled.map((grid) => ({ grid, faults: ['nofill'] }));
    const misses = [...unfilled, ...search.told.flatMap(({ nearest }) => nearest ?? [])].slice(0, MOST_MISSES);
    const cards = [];
    for (const miss of misses) {
      const look = await worker.call('lookAtGrid', { lines: linesOf(miss.grid) });
      cards.push(this.#card(search.wanted, miss.grid, missOf(miss, look), look.dead));
    }
    // another worker may have judged a grid meanwhile
    if (this.#isOn(search.turn) && !search.trials.count) this.#elements.grids.replaceChildren(...cards);
  }

  // `dead` has the cells of lights without a word, which are marked.
  /**
   * @param {import('./grid.js').Wanted} wanted
   * @param {Grid} grid
   * @param {{ textContent: string, className?: string }} verdict
   * @param {string[]} dead
   */
  #card({ entries, seeds, style }, grid, verdict, dead = []) {
    const record = recordOfGrid(grid);
    const card = Object.assign(document.createElement('button'), { type: 'button', className: 'pattern' });
    const threes = threesOf(grid);
    const facts = [`${grid.lights.length} words`, ...(grid.bars.size ? [] : [`${grid.blocks.size} blocks`]), ...(threes ? [`${threes} of 3`] : [])].join(', ');
    const small = Object.assign(document.createElement('small'), { ...verdict, textContent: termed(verdict.textContent, style !== 'american') });
    card.append(sketchOf(parseRecord(record), new Set(), new Set(dead)), facts, small);
    card.addEventListener('click', () => {
      this.#elements.dialog.close();
      this.#editor.do('beginPuzzle', record, [...entries, ...seeds]).catch(unforeseen);
    });
    return card;
  }

  // How many grids are judged, how many boards keep the limits, and what keeps most of the others from that.
  /** @param {Searching} search */
  #summary({ trials: { count }, lost, told }) {
    const tried = told.reduce((sum, one) => sum + (one?.tried ?? 0), 0);
    /** @type {Map<string, number>} */
    const faults = new Map();
    for (const one of told) for (const [fault, times] of one?.faults ?? []) faults.set(fault, (faults.get(fault) ?? 0) + times);
    const [first, second] = [...faults].sort(([, one], [, other]) => other - one);
    const grids = `${count || 'No'} ${count === 1 ? 'grid' : 'grids'}`;
    const shown = count > MOST_SHOWN ? `The best ${MOST_SHOWN} of ${grids}` : `${grids}${count > 1 ? ', the best first' : ''}`;
    const unfilled = lost ? ` ${lost.toLocaleString('en')} within the limits ${lost === 1 ? 'has' : 'have'} no fill from your lists.` : '';
    const kept = `${shown}, of ${tried.toLocaleString('en')} boards that were tried.${unfilled}`;
    if (!first) return kept;
    const named = [first, ...(second ? [second] : [])].map(([fault, times]) => `${FAULTS[fault]} (${times.toLocaleString('en')})`);
    return `${kept} What keeps others out: ${named.join(', ')}.`;
  }

  // The score of words that are not weak.
  get #weak() {
    const { weak, scored } = this.#editor.list;
    return scored ? weak : 0;
  }

  get #count() {
    return Math.min(MOST_WORKERS, this.#helpers.most + 1);
  }

  // Engines with the words of the session.
  #workers() {
    return this.#helpers.begin([...wordsOf(this.#editor.record), 'size 1 1', ''].join('\n'), this.#count);
  }
}

// What is said of a judged grid.
/** @param {Trial} trial */
function verdictOn({ look: { fewest }, isFilled, figures }) {
  if (isFilled) return { textContent: figures ? `it fills: ${figuresText(figures)}` : 'it fills', className: 'here' };
  return { textContent: `${fewest.toLocaleString('en')} ${fewest === 1 ? 'word' : 'words'} for the tightest light` };
}

// What is said of a board that is no grid.
/**
 * @param {Miss} miss
 * @param {{ unmatched: string[] }} look
 */
function missOf({ faults }, { unmatched }) {
  const { length } = unmatched;
  const text = length ? `${length} ${length === 1 ? 'light has' : 'lights have'} no word: ${unmatched[0]}` : faults.map((fault) => FAULTS[fault]).join(', ');
  return { textContent: text, className: 'bad' };
}
