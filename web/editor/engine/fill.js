// Fills: `autofill` of the package, in slices, so that one can be stopped. A search that is not done soon goes on in other workers too, each with a seed of
// its own; the first `filled` or `nofill` ends all. If the words have scores, the fill is raised then.
import { autofill } from '../../xw.js';
import { gradeFrom, totalOf } from '../model/grades.js';
import { closeNew } from '../model/kin.js';
import { letterIn } from '../model/record.js';
import { whenIdle } from '../views/idle.js';
import { progressText } from '../views/improving.js';
import { endingMessage, refuse, say } from '../views/messages.js';
import { titleOf } from '../views/words.js';
import { statusOf } from './engine.js';
import { Mender } from './mending.js';
import { Raiser } from './raising.js';

// the placements after which a search gives up
const MOST = 170000;
// how long a search is alone, in milliseconds
const ALONE = 300;
// the seed of one worker lies so far from that of the next
const SEEDS = 1000003;
// the most entries that are tried where there is no fill
const MOST_ENTRIES_TRIED = 12;

// how many fills there are to choose from after another one, and the placements, the most slices and the seeds of those that are offered
const ENOUGH = 3;
const OFFERED = 5000;
const MOST_OFFERED_SLICES = 6;
const OTHER_SEEDS = 7000003;
// the most searches for a fill without words that are close to others
const MOST_PARTED = 8;
// the most words that are entered to see which light dies first
const MOST_ENTERED = 60;
const NEXT = 'another fill changes the letters in pencil (coloured), and keeps the others';

const DECIDED = new Set(['filled', 'nofill']);

/** @typedef {import('../../xw.js').Arguments['autofill']} Asked */
/** @typedef {{ answer: import('../../xw.js').Found, letters?: string[] }} Slice */
/** @typedef {{ names: string[], placements: number, answer: string, letters: string[], isOver: boolean }} Racing */
/** @typedef {import('../model/board.js').Board} Board */
/** @typedef {import('../model/board.js').Cell} Cell */
/** @typedef {import('../model/board.js').Light} Light */
/** @typedef {import('./mending.js').Offer} Offer */
/** @typedef {{ part?: number, placements?: number, isRaising?: boolean, text?: string }} Progress how far a fill is */

export class Filler {
  /** @type {import('../model/editor.js').Editor} */
  #editor;
  #helpers;
  #raiser;
  #mender;
  #seed = 0;
  #isStopped = false;
  // whether the raising goes on until no fill is better
  #isEndless = false;
  // takes away what was said of a raising, if it stands still
  #endMessage = () => {};
  // the lists whose words other workers have loaded, for raisings
  /** @type {Uint8Array[]} */
  #warmed = [];

  // `fills` keeps what is found, and `figures` takes over what a raising proved, and returns what is said of the fill.
  /**
   * @param {import('../model/editor.js').Editor} editor
   * @param {import('./helpers.js').Helpers} helpers
   * @param {import('../views/fills.js').Fills} fills
   * @param {import('../views/figures.js').Figures} figures
   */
  constructor(editor, helpers, fills, figures) {
    this.#editor = editor;
    this.#helpers = helpers;
    this.#raiser = new Raiser(editor, helpers, () => fills.add(true), (tried) => this.#showTried(tried));
    this.#mender = new Mender(editor, helpers);
    this.fills = fills;
    this.figures = figures;
    editor.on(['list'], () => {
      this.#warm();
      this.#raiser.aim(this.#target);
    });
    editor.takes({ stopFill: () => this.stop(), mend: (light) => this.mend(light) });
  }

  // Tells how far a fill is.
  /** @param {Progress | null} progress */
  #show(progress, isRunning = this.isRunning) {
    const isImproving = this.#isEndless && (isRunning || this.isRaising);
    this.#editor.change({ fill: { isRunning, isImproving, progress } });
  }

  // Whether a search has the worker of the session, so that nothing can be edited.
  get isRunning() {
    return this.#editor.fill.isRunning;
  }

  // A fill of words with scores is raised in other workers, which load each new list ahead.
  #warm() {
    const { sources, scored } = this.#editor.list;
    const bytes = sources.map((source) => source.bytes);
    if (!scored || (bytes.length === this.#warmed.length && bytes.every((one, at) => one === this.#warmed[at]))) return;
    this.#warmed = bytes;
    this.#helpers.warm();
  }

  // The grade of the worst word at which a raising ends that goes on.
  get #target() {
    const { target, best } = this.#editor.list;
    return target === null ? Infinity : gradeFrom(target, best);
  }

  // Whether words are raised or mended, beside which the grid can be edited.
  get isRaising() {
    return this.#raiser.isRunning || this.#mender.isRunning;
  }

  // Whether a fill is raised, or will be, until no fill is better.
  get isImproving() {
    return this.#isEndless && (this.isRunning || this.isRaising);
  }

  // Ends a raising, whose workers others are to have.
  endRaising() {
    if (this.isRaising) this.stop();
  }

  stop() {
    if (this.isRunning) say('stopping …', 'busy');
    this.#isStopped = true;
    this.#endRaising();
  }

  #endRaising() {
    this.#raiser.stop();
    this.#mender.stop();
  }

  // The cells that a fill may enter: those of the chosen lights, or all.
  #cells() {
    const { board, chosen } = this.#editor;
    if (!chosen.size) return board.cells.filter((cell) => !cell.block);
    const indices = new Set([...chosen].flatMap((name) => board.byName.get(name)?.cells ?? []));
    return [...indices].map((index) => board.cells[index]);
  }

  // Raises the fill until no fill is better, or stops that. A grid that is not full is filled first; a search that is under way goes on so.
  improve() {
    if (this.isImproving) return this.stop();
    if (!this.isRunning && !this.#raiser.isRunning) return this.run(false, true);
    this.#isEndless = true;
    this.#raiser.goOn(this.#target);
    if (this.isRaising) this.#tellRaising();
    return undefined;
  }

  // Fills what is empty, and raises the fill; `isAnother` first empties what is in pencil, and takes the next seed. If nothing is empty, the letters
  // in pencil are raised again. With `isEndless` they are raised until no fill is better.
  /** @param {boolean} isAnother */
  async run(isAnother, isEndless = false) {
    if (this.isRunning) return;
    this.#endRaising();
    this.#isEndless = isEndless;
    this.#isStopped = false;
    // what is under way comes first, such as another puzzle
    await this.#editor.inOrder(() => {});
    if (this.isRunning || this.#isStopped) return;
    const cells = this.#cells();
    const inPencil = cells.filter((cell) => cell.letter && this.#editor.pencil.has(cell.coordinates));
    const emptied = isAnother ? inPencil : [];
    const isFull = cells.every((cell) => cell.letter);
    if (isFull && !inPencil.length) return refuse('every letter here is locked: choose other lights, or put letters in pencil (=)');
    if (isFull && !isAnother) {
      if (!this.#editor.list.scored) return refuse('every cell is filled already: ask for another fill');
      // other seeds than the last time
      this.#seed++;
      await this.#raise(inPencil);
      return this.#rest();
    }
    this.#show({ part: 0, placements: 0 }, true);
    if (isAnother) this.#seed++;
    /** @type {Cell[] | null} */
    let filled = null;
    try {
      filled = await this.#search(cells, emptied);
    } catch (fault) {
      if (!statusOf(fault)) throw fault;
      refuse('the fill failed; the grid is kept');
    } finally {
      this.#show(null, false);
    }
    if (filled) await this.#raise(filled, isAnother);
    if (filled && isAnother) await this.#offer(filled);
    this.#rest();
  }

  // Lets the other workers rest, unless a later search has them.
  #rest() {
    if (!this.isRunning && !this.isRaising) this.#helpers.rest();
  }

  // Fills cells, and returns those that are filled; or says why not, and returns null.
  /**
   * @param {Cell[]} cells
   * @param {Cell[]} emptied
   */
  async #search(cells, emptied) {
    const editor = this.#editor;
    const pencil = new Set(editor.pencil);
    const record = without(editor.state.record, emptied);
    const filled = cells.filter((cell) => !cell.letter || emptied.includes(cell));
    if (emptied.length) await editor.inOrder(() => editor.engine.call('edit', { lines: emptied.map((cell) => `clear ${cell.coordinates}`), isWhole: false }));
    const { answer, placements, letters } = await this.#race(record);
    if (answer !== 'filled') {
      await editor.restore();
      await this.#tellNone(answer, placements, editor.board.entered > emptied.length);
      return null;
    }
    for (const cell of filled) pencil.add(cell.coordinates);
    await editor.edit(letters, { pencil });
    if (editor.list.apart) await this.#part(filled, record);
    this.fills.add();
    if (!editor.list.scored) say(`filled; ${NEXT}`, 'good');
    return filled;
  }

  // Puts a fill in the place of the one that is there, if that has new words that are close to others: one without such, if it is found.
  /**
   * @param {Cell[]} filled
   * @param {string} record
   */
  async #part(filled, record) {
    const editor = this.#editor;
    const own = new Set(filled.map(({ coordinates }) => coordinates));
    for (let slice = 1; slice <= MOST_PARTED && !this.#isStopped && closeNew(enteredIn(editor.board, own)).length; slice++) {
      const [begun] = this.#helpers.begin(record, 1);
      const { letters } = await (await begun).call('search', { command: 'autofill', given: [OFFERED, this.#seed + slice, ...editor.chosen], cells: [...own], isApart: true });
      const others = letters.filter((/** @type {string} */ line) => editor.board.at(letterIn(line)[0])?.letter !== letterIn(line)[1]);
      if (letters.length) await editor.edit(others, { only: editor.record });
    }
  }

  // Says why there is no fill, around what is entered if something is.
  /**
   * @param {string} answer
   * @param {number} placements
   * @param {boolean} isEntered
   */
  async #tellNone(answer, placements, isEntered) {
    const { chosen, list } = this.#editor;
    const isPart = chosen.size > 0;
    if (answer === 'stopped') return say('stopped; the grid is as it was');
    const words = list.grade ? `no words with ${list.least} or more fit` : 'no words of the list fit';
    if (answer === 'nofill') refuse(isPart ? 'there is no fill of these lights' : `there is no fill: ${words} ${isEntered ? 'what is entered' : 'this grid'}`);
    else refuse(`no fill was found in ${placements.toLocaleString('en')} placements: try again, add blocks, or take a letter back`);
    return this.#explain(answer, isPart);
  }

  // Raises the letters of cells, if the words have scores. Another fill ends as the best one that is known, if it is none.
  /** @param {Cell[]} filled */
  async #raise(filled, isAnother = false) {
    const editor = this.#editor;
    if (!editor.list.scored) return;
    const cells = filled.map((cell) => cell.coordinates);
    const lights = lightsWith(editor.board, cells).filter((light) => editor.board.isEntered(light));
    // an earlier raising may have a fill on its way into the grid
    const told = lights.length ? await editor.inOrder(() => editor.ask('grades', ...lights.map(({ name }) => name))) : [];
    const known = (told ?? []).map(({ grade }) => grade ?? NaN);
    if (!known.length || known.some(Number.isNaN)) return say(`filled; ${NEXT}`, 'good');
    const names = [...editor.chosen];
    const fixed = new Map(editor.board.cells.filter(({ letter, coordinates }) => letter && !cells.includes(coordinates)).map(({ coordinates, letter }) => [coordinates, letter]));
    this.#endRaising();
    const raising = this.#raiser.run({
      base: without(editor.record, filled), names, cells, seed: this.#seed, grade: Math.min(...known), sum: totalOf(known),
      bound: this.figures.boundOf(names), isEndless: this.#isEndless, target: this.#target,
    });
    if (this.isRaising) this.#tellRaising();
    const { proved: bound, held, isReached, isStopped, isChanged } = await raising;
    if (this.isRunning || this.isRaising) return;
    this.#show(null);
    if (isChanged) return this.#endMessage();
    const isBack = isAnother && !isStopped && (await this.#putBack(filled));
    const text = await this.figures.prove({ bound, names, fixed, held });
    const how = isReached ? `none is under ${editor.list.target}` : 'filled';
    say(`${isStopped ? 'stopped' : how}: ${text}${isBack ? '; it is the fill from before, since no better one was found' : ''}`, 'good');
  }

  // Says that a raising begins. One that goes on leaves the line of messages to others.
  #tellRaising() {
    const { target } = this.#editor.list;
    if (this.#isEndless) say(`filled; its worst word is raised until ${target === null ? 'no fill is better' : `none is under ${target}`}, or Esc stops it`);
    else say('filled; its worst word is raised … Esc ends this', 'busy');
    this.#endMessage = endingMessage();
    this.#show({ isRaising: true, text: this.figures.worst });
  }

  // Looks for better words around a light, and offers them. Returns what was found, or null if something else came between.
  /** @param {Light} light */
  async mend(light) {
    if (this.isRunning) return null;
    this.#endRaising();
    this.#editor.change({ offer: null });
    [this.#isStopped, this.#isEndless] = [false, false];
    // a raising that ends may have a fill on its way into the grid
    await this.#editor.inOrder(() => {});
    const there = this.#editor.board.byName.get(light.name);
    if (this.isRunning || this.isRaising || this.#isStopped || !there) return null;
    say(`better words are looked for around ${titleOf(there)} … Esc ends this`, 'busy');
    const mending = this.#mender.run(there, ++this.#seed);
    this.#show({ isRaising: true });
    const told = await mending.catch((fault) => {
      if (!statusOf(fault)) throw fault;
      return null;
    });
    if (this.isRunning || this.isRaising) return null;
    this.#show(null);
    this.#rest();
    if (told) this.#tellMended(there, told);
    else refuse('the search failed; the grid is kept');
    return told;
  }

  /**
   * @param {Light} light
   * @param {{ offer: Offer | null, isProved: boolean, isChanged: boolean, isLocked: boolean }} told
   */
  #tellMended(light, { offer, isProved, isChanged, isLocked }) {
    const around = `around ${titleOf(light)}`;
    if (isChanged) return say(`the grid was changed, so nothing is mended ${around}`);
    if (isLocked) return refuse(`every letter of ${titleOf(light)} is locked: put letters in pencil (=)`);
    if (!offer) return say(isProved ? `no fill ${around} is better, with the rest as it is` : `${this.#isStopped ? 'stopped: ' : ''}no better words were found ${around}`);
    this.#editor.change({ offer });
    return say(`better words are found ${around}: look at them in the tab Words`, 'good');
  }

  // The running line of a raising.
  /** @param {import('./raising.js').Sought} tried */
  #showTried(tried) {
    const text = progressText(tried, { worst: this.figures.worst, best: this.#editor.list.best });
    if (tried.isEndless) this.#show({ isRaising: true, text });
    else {
      say(`filled; its worst word is raised: ${text} … Esc ends this`, 'busy');
      this.#endMessage = endingMessage();
    }
  }

  // Puts the best fill that is known into the grid again, if it is better than the one that is there. Returns whether it is.
  /** @param {Cell[]} filled */
  async #putBack(filled) {
    const better = await this.fills.better(filled);
    return better !== null && (await this.fills.put(better, this.#editor.record)) === null;
  }

  // Finds further fills of the same cells beside the one in the grid, as long as that stays, until there are some to choose from.
  /** @param {Cell[]} filled */
  async #offer(filled) {
    const editor = this.#editor;
    const { record } = editor;
    const isDue = () => !this.#isStopped && !this.isRunning && !this.isRaising && editor.record === record;
    const command = editor.list.scored ? 'best' : 'autofill';
    const names = [...editor.chosen];
    try {
      for (let slice = 1; slice <= MOST_OFFERED_SLICES && isDue() && this.fills.count < ENOUGH; slice++) {
        const [begun] = this.#helpers.begin(without(record, filled), 1);
        const given = [OFFERED, this.#seed + OTHER_SEEDS * slice, ...names];
        const { letters } = await (await begun).call('search', { command, given, cells: filled.map(({ coordinates }) => coordinates), isApart: editor.list.apart });
        if (letters.length && isDue()) this.fills.offer(letters);
      }
    } catch (fault) {
      // there are fewer to choose from
      if (!statusOf(fault)) throw fault;
    }
  }

  // Searches in the worker of the session, and after a while in others too. Returns the answer, and if another worker has the fill, the lines of
  // its letters. What the worker of the session finds is in its grid already. `record` is that of the grid to fill.
  /** @param {string} record */
  async #race(record) {
    const { engine, chosen } = this.#editor;
    /** @type {Racing} */
    const race = { names: [...chosen], placements: 0, answer: 'limit', letters: [], isOver: false };
    const joining = setTimeout(() => this.#join(race, record), ALONE);
    const found = await this.#slices(race, this.#seed, (given) => this.#editor.inOrder(() => engine.call('autofill', { given })), true);
    clearTimeout(joining);
    // the others end with their slices
    race.isOver = true;
    if (DECIDED.has(found)) return { ...race, answer: found, letters: [] };
    if (this.#isStopped) return { ...race, answer: 'stopped' };
    if (!DECIDED.has(race.answer)) return { ...race, answer: found };
    return race;
  }

  // Searches in as many workers as there are cores.
  /**
   * @param {Racing} race
   * @param {string} record
   */
  #join(race, record) {
    const engines = this.#helpers.begin(record, this.#helpers.most);
    return Promise.all(engines.map(async (begun, at) => {
      try {
        const engine = await begun;
        await this.#slices(race, this.#seed + SEEDS * (at + 1), (given) => engine.call('search', { command: 'autofill', given }), false);
      } catch (fault) {
        // a worker that fails leaves the race to the others
        if (!statusOf(fault)) throw fault;
      }
    }));
  }

  // Searches in slices with one seed until one decides, or the race is over; returns the last answer.
  /**
   * @param {Racing} race
   * @param {number} seed
   * @param {(given: Asked) => Promise<Slice>} search
   * @param {boolean} isOwn
   */
  async #slices(race, seed, search, isOwn) {
    const isEnded = () => race.isOver || this.#isStopped;
    if (isEnded()) return 'limit';
    const answer = await autofill({
      ask: async (_, ...given) => {
        const { answer, letters = [] } = await search(given);
        race.placements += Number(given[0]);
        if (!isOwn && DECIDED.has(answer) && !race.isOver) Object.assign(race, { answer, letters, isOver: true });
        return answer;
      },
    }, {
      limit: MOST, seed, lights: race.names,
      progress: ({ placements }) => {
        if (isOwn) this.#show({ part: placements / MOST, placements: race.placements });
        return isEnded();
      },
    });
    // another try takes another way
    if (isOwn && answer === 'limit' && !isEnded()) this.#seed++;
    return answer;
  }

  // Shows the place of a dead end: where it is already; an entry without which there is a fill; or the light that dies first in the search.
  /**
   * @param {string} answer
   * @param {boolean} isPart
   */
  async #explain(answer, isPart) {
    const { board } = this.#editor;
    if (board.lights.some((light) => board.countOf(light) === 0 && !board.isEntered(light))) return whenIdle(() => this.#editor.do('explainDeadEnd').catch(() => {}));
    if (answer === 'nofill' && !isPart && (await this.#takeBack())) return undefined;
    return isPart ? undefined : this.#showFirstDead(answer);
  }

  // Goes to the light that dies first if the tightest lights are entered one by one.
  /** @param {string} answer */
  async #showFirstDead(answer) {
    const editor = this.#editor;
    if (this.#isStopped) return;
    const [begun] = this.#helpers.begin(editor.record, 1);
    const dead = await (await begun).call('firstDead', { most: MOST_ENTERED });
    const light = editor.board.byName.get(dead?.light ?? '');
    if (!light) return;
    const empty = light.cells.find((cell) => !editor.board.cells[cell].letter);
    editor.moveTo(empty ?? light.cells[0], light.direction);
    const what = answer === 'nofill' ? 'there is no fill' : 'no fill was found';
    const after = dead.entered === 0 ? '' : dead.entered === 1 ? ' after one word' : ` after ${dead.entered} words`;
    const others = editor.pencil.size ? 'Another (Ctrl G) changes the letters in pencil too' : `${editor.board.entered ? 'Change what crosses it, or' : 'Change'} the blocks beside it`;
    const hint = editor.list.grade ? `Lower the least score, ${editor.list.least}. ${others}` : others;
    refuse(`${what}: ${titleOf(light)} is the first light that runs out of words${after}. ${hint}`);
  }

  // Looks for an entry in ink without which a short search finds a fill, and says so if there is one. Letters that it shares with other entries
  // stay.
  async #takeBack() {
    const editor = this.#editor;
    const { board, pencil } = editor;
    const isInk = (/** @type {number} */ cell) => board.cells[cell].letter && !pencil.has(board.cells[cell].coordinates);
    const entries = board.lights.filter((light) => light.cells.every(isInk)).slice(0, MOST_ENTRIES_TRIED);
    for (const light of entries) {
      if (this.#isStopped) return true;
      const own = light.cells.filter((cell) => !board.through(cell).some((other) => other !== light && entries.includes(other)));
      const cells = own.map((cell) => board.cells[cell].coordinates);
      if (!cells.length || !(await editor.engine.call('fillsWithout', { cells, most: OFFERED }))) continue;
      editor.moveTo(light.cells[0], light.direction);
      refuse(`there is no fill with ${board.spell(light)}, ${titleOf(light)}; without it there is one (Shift Del takes it back)`);
      return true;
    }
    return false;
  }
}

// The lights that have one of some cells, which are named by coordinates.
/**
 * @param {Board} board
 * @param {Iterable<string>} cells
 */
function lightsWith(board, cells) {
  const own = new Set(cells);
  return board.lights.filter((light) => light.cells.some((cell) => own.has(board.cells[cell].coordinates)));
}

// The entered words, and which of them have one of some cells.
/**
 * @param {Board} board
 * @param {Iterable<string>} cells
 */
function enteredIn(board, cells) {
  const isNew = new Set(lightsWith(board, cells));
  return board.lights.filter((light) => board.isEntered(light)).map((light) => ({ word: board.spell(light), isNew: isNew.has(light), score: 0 }));
}

// A record without the letters of cells.
/**
 * @param {string} record
 * @param {readonly Cell[]} cells
 */
const without = (record, cells) => [record, ...cells.map((cell) => `clear ${cell.coordinates}\n`)].join('');
