// The raising of a fill: its worst word gets better by `best` in slices, in workers beside the one of the session, each with a seed of its own. A slice
// goes on with what the slices of its worker learned. Where no fill is better, the words that keep it from that are held, and the worst of the others is
// raised; race.js decides. The fill that is in the grid can be edited meanwhile, which ends the raising; texts can be changed beside it.
import { Slices } from '../../slices.js';
import { MOST, gradeOf, totalOf } from '../model/grades.js';
import { letterIn, withoutTexts } from '../model/record.js';
import { statusOf } from './engine.js';
import { Race } from './race.js';

// how long a slice takes, in milliseconds: shorter ones find less together, and between them a worker learns what the others found
const SPAN = 450;
// how long a raising takes at most, once it has words, and how much longer if its worst word is no more than so far above the weak ones by then, in
// milliseconds; but for one that goes on until no fill is better
const LONGEST = 2000;
const FURTHER = 3000;
const GOOD = 25;
// how often it tells what it looks for, in milliseconds
const TOLD_EACH = 500;

/** @typedef {import('../model/board.js').Light} Light */
/** @typedef {import('./engine.js').Engine} Engine */
/**
 * @typedef {{
 *   race: Race, record: string, base: string, names: readonly string[], cells: string[], isEndless: boolean, isOver: boolean, isStopped: boolean, isChanged: boolean,
 *   isEntering: boolean, pencil: string, entered: Promise<void>, end: () => void, begun: number, told: number, workers: number, isTimed: boolean,
 *   lines: string[], holding: Promise<void> | null,
 * }} Run `lines` enter the words that are held; `workers` is how many have not failed
 */

/** @typedef {{ least: number, bound: number, isPart: boolean, seconds: number, isEndless: boolean }} Sought */

export class Raiser {
  /** @type {import('../model/editor.js').Editor} */
  #editor;
  #helpers;
  /** @type {Run | null} */
  #run = null;

  // `raised` is told of each better fill in the grid, and `tried` what is looked for: { least, bound, isPart, seconds, isEndless }: fills of words that have the
  // grade `least`, and `isPart` says that the words of some lights are held.
  /**
   * @param {import('../model/editor.js').Editor} editor
   * @param {import('./helpers.js').Helpers} helpers
   * @param {() => void} raised
   * @param {(sought: Sought) => void} tried
   */
  constructor(editor, helpers, raised, tried) {
    this.#editor = editor;
    this.#helpers = helpers;
    this.raised = raised;
    this.tried = tried;
    editor.on(['step'], () => this.#stepped());
  }

  get isRunning() {
    return this.#run !== null;
  }

  // Whether it goes on until no fill is better.
  get isEndless() {
    return this.#run?.isEndless ?? false;
  }

  // Ends the raising; what is in the grid stays.
  stop() {
    if (!this.#run) return;
    this.#run.isStopped = true;
    this.#run.end();
  }

  // Has the raising go on until no fill is better, or its worst word has a grade.
  /** @param {number} target */
  goOn(target) {
    if (!this.#run) return;
    this.#run.isEndless = true;
    this.aim(target);
  }

  // Has one that goes on so end at another grade.
  /** @param {number} target */
  aim(target) {
    if (!this.#run?.isEndless) return;
    const { race, end } = this.#run;
    race.target = target;
    if (race.isMet) end();
  }

  // Another edit than its own ends the raising too, but for one of texts.
  #stepped() {
    const run = this.#run;
    if (!run) return;
    const { record, pencil } = this.#editor;
    const isOfTexts = withoutTexts(record) === withoutTexts(run.record) && String([...pencil]) === run.pencil;
    if (isOfTexts) run.record = record;
    else if (!run.isEntering) {
      run.isChanged = true;
      run.end();
    }
  }

  // Raises the fill in the grid: `base` is the record without the letters of its cells, `names` are those of its lights, none for all, `grade` is that
  // of its worst word, `sum` that of all of them, and `bound` one at which no fill is known to be. With `isEndless` it goes on until no fill is better, or the worst
  // word has the grade `target`, which words that are held need not have. Returns what is known then, and how it ended.
  /** @param {{ base: string, names: readonly string[], cells: string[], seed: number, grade: number, sum: number, bound: number, isEndless?: boolean, target?: number }} given */
  async run({ base, names, cells, seed, grade, sum, bound, isEndless = false, target = Infinity }) {
    const editor = this.#editor;
    const workers = Math.max(1, this.#helpers.most);
    const race = new Race({ grade, sum, bound, seed, workers, target: isEndless ? target : Infinity });
    /** @type {Run} */
    const run = {
      race, base, names, cells, isEndless, record: editor.record, pencil: String([...editor.pencil]), isOver: false, isStopped: false, isChanged: false,
      isEntering: false, entered: Promise.resolve(), end: () => {}, begun: performance.now(), told: -Infinity, workers, isTimed: false, lines: [], holding: null,
    };
    const ended = new Promise((resolve) => {
      run.end = () => {
        run.isOver = true;
        resolve(undefined);
      };
    });
    this.#run = run;
    if (race.isMet) run.end();
    else this.#helpers.begin(base, workers).forEach((begun, at) => this.#climb(run, begun, at));
    await ended;
    // a better fill may be on its way into the grid
    await run.entered;
    if (this.#run === run) this.#run = null;
    const { isStopped, isChanged } = run;
    return { proved: race.proved, held: race.held, isReached: race.isReached, isStopped, isChanged };
  }

  // Has a worker look for better fills than the one that is there.
  /**
   * @param {Run} run
   * @param {Promise<Engine>} begun
   * @param {number} at
   */
  async #climb(run, begun, at) {
    const { race, names } = run;
    try {
      const engine = await begun;
      const slices = new Slices(Infinity, SPAN);
      this.#time(run);
      while (!run.isOver) {
        if (race.isBlocked) await (run.holding ??= this.#hold(run, engine).finally(() => (run.holding = null)));
        if (run.isOver) break;
        // words that were struck, to keep others apart, are there again
        if (race.startsAnew(at)) await engine.call('unstrike');
        if (race.catchesUp(at)) await engine.call('edit', { lines: run.lines, isWhole: false });
        this.#tell(run);
        const asked = race.next(at);
        const told = await slices.run((placements) => engine.call('best', { least: asked.least, given: [placements, asked.seed, ...names], cells: run.cells, isApart: this.#editor.list.apart }));
        if (!run.isOver) await this.#take(run, race.take(at, asked, told), told);
      }
    } catch (fault) {
      // a worker that fails leaves the race to the others; without any there is none
      if (!statusOf(fault)) throw fault;
      if (--run.workers === 0) run.end();
    }
  }

  // Has the raising end in time, once its first worker has begun.
  /** @param {Run} run */
  #time(run) {
    if (!run.isTimed && !run.isEndless) setTimeout(() => this.#endInTime(run), LONGEST);
    run.isTimed = true;
  }

  // Ends a raising, unless its words are not good yet, or it goes on until no fill is better.
  /** @param {Run} run */
  #endInTime(run) {
    const { weak, best } = this.#editor.list;
    const end = () => run.isEndless || run.end();
    if (run.race.grade < Math.min(MOST, gradeOf(weak, best) + GOOD)) setTimeout(end, FURTHER);
    else end();
  }

  // Tells what is looked for, now and then.
  /** @param {Run} run */
  #tell(run) {
    const now = performance.now();
    if (run.isOver || now - run.told < TOLD_EACH) return;
    run.told = now;
    const { grade, proved, held } = run.race;
    this.tried({ least: grade + 1, bound: proved, isPart: held.length > 0, seconds: Math.floor((now - run.begun) / 1000), isEndless: run.isEndless });
  }

  // Goes on after an answer that is refused, or has a better fill.
  /**
   * @param {Run} run
   * @param {string} kind
   * @param {import('./race.js').Told} told
   */
  async #take(run, kind, { letters }) {
    if (kind === 'refused') run.end();
    if (kind !== 'better') return;
    // fills of several workers come into the grid one after another, the better one last
    run.entered = run.entered.then(() => this.#enter(run, letters ?? []));
    await run.entered;
    if (run.race.isMet) run.end();
  }

  // Where no fill is better: holds the words of the lights that keep it from that, or of the worst ones, and goes on with the worst of the others.
  /**
   * @param {Run} run
   * @param {Engine} engine
   */
  async #hold(run, engine) {
    // a better fill may be on its way into the grid
    await run.entered;
    const { race } = run;
    const editor = this.#editor;
    const { board } = editor;
    const open = new Set(run.cells);
    const coordinatesOf = (/** @type {Light | undefined} */ light) => (light?.cells ?? []).map((cell) => board.cells[cell].coordinates);
    const lights = board.lights.filter((light) => coordinatesOf(light).some((coordinates) => open.has(coordinates)));
    const told = (await editor.inOrder(() => editor.ask('grades', ...lights.map(({ name }) => name))))?.map(({ light, grade }) => ({ name: light, grade: grade ?? NaN }));
    if (run.isOver) return;
    if (!told) return run.end();
    const words = Object.fromEntries(lights.map((light) => [light.name, editor.board.spell(light)]));
    /** @type {{ lights: { name: string, word: string }[], near: string | null }} */
    const forced = race.bound <= MOST ? await engine.call('forced', { least: race.bound, grade: race.grade, words }) : { lights: [], near: null };
    const worst = told.filter(({ grade }) => grade <= race.grade).map(({ name }) => ({ name, word: words[name] }));
    const held = forced.lights.length ? forced.lights : worst;
    const names = new Set(held.map(({ name }) => name));
    const lines = held.flatMap(({ name, word }) => coordinatesOf(board.byName.get(name)).map((coordinates, at) => `set ${coordinates} ${word[at]}`));
    const entered = new Set(lines.map((line) => letterIn(line)[0]));
    run.lines.push(...lines.filter((line) => open.has(letterIn(line)[0])));
    run.cells = run.cells.filter((coordinates) => !entered.has(coordinates));
    const left = new Set(run.cells);
    const others = told.filter(({ name }) => !names.has(name));
    const raised = others.filter(({ name }) => coordinatesOf(board.byName.get(name)).some((coordinates) => left.has(coordinates)));
    race.hold({
      names: [...names], forced: forced.near ? [forced.near] : forced.lights.map(({ name }) => name), grade: Math.min(...others.map(({ grade }) => grade)),
      sum: totalOf(raised.map(({ grade }) => grade)),
    });
    if (!run.cells.length || race.isMet) run.end();
  }

  // Puts a better fill into the grid, in the step of the history that the first one made, or that of a text which came since.
  /**
   * @param {Run} run
   * @param {string[]} letters
   */
  async #enter(run, letters) {
    if (run.isStopped || run.isChanged) return;
    const editor = this.#editor;
    const isOther = (/** @type {string} */ line) => {
      const [coordinates, letter] = letterIn(line);
      return editor.board.at(coordinates)?.letter !== letter;
    };
    let record = '';
    /** @type {string | null} */
    let refused = null;
    run.isEntering = true;
    do {
      ({ record } = run);
      refused = await editor.edit(letters.filter(isOther), { only: record });
    } while (refused === 'Changed' && record !== run.record);
    run.isEntering = false;
    if (refused) {
      run.isChanged = true;
      run.end();
      return;
    }
    run.record = editor.record;
    this.raised();
  }
}
