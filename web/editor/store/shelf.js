// The puzzles that the browser keeps: the one that is here, at each change, and all that were here before, each with versions. A tab writes
// only the puzzle that it holds the claim to.
import { puzzlesFile, puzzlesIn } from '../formats/puzzles-file.js';
import { PATTERNS, recordOf, rowsOf } from '../grids/patterns.js';
import { lettersOf, parseRecord } from '../model/record.js';
import { isSameSet, newPuzzleName } from '../model/state.js';
import { whenIdle } from '../views/idle.js';
import { endWarning, warn } from '../views/messages.js';
import { Claim } from './claim.js';
import { keptSteps, packedHistory } from './history.js';
import {
  askToPersist, destroyPuzzles, draftOf, drafted, dropDraft, dropFormer, dropHistories, formerSessions, keepDraft, keepHistory, keepPuzzleOfTab, keptHistory, onOtherDraft, puzzleOfTab,
  storePuzzles, storedPuzzle, storedPuzzles, storedVersions, whyNotKept,
} from './keep.js';

// A version is kept before so many letters go at once, and after so many steps.
const LETTERS_LOST = 3;
const STEPS_BETWEEN = 25;

// Whether a record is that of a pattern or of a blank grid to which nothing was done.
/** @param {{ record: string, originals?: readonly import('../model/state.js').Pair[] }} session */
export function isUntouched({ record, originals = [] }) {
  const { added, struck, width, height, blocks, bars, circles, letters, texts } = parseRecord(record);
  const texted = [...texts.values()].filter(Boolean);
  if (added.length + struck.length + circles.size + letters.size + texted.length + originals.length) return false;
  const grids = PATTERNS.map((pattern) => parseRecord(recordOf(rowsOf(pattern), pattern.sym)));
  const isSameGrid = (/** @type {import('../model/record.js').Said} */ grid) => grid.width === width && grid.height === height && isSameSet(grid.blocks, blocks) && isSameSet(grid.bars, bars);
  return blocks.size + bars.size === 0 || grids.some(isSameGrid);
}

/** @typedef {import('../model/state.js').Step} Step */
/** @typedef {import('./keep.js').Session} Session */

export class Shelf extends EventTarget {
  /** @type {import('../model/editor.js').Editor} */
  #editor;
  #claim;
  #bank;
  // whether there is a change that is not written, and whether another tab has the puzzle
  #isDue = false;
  #isElsewhere = false;
  // the time of the session as this page last read or wrote it
  #seen = 0;
  // what is to be stored: sessions of puzzles that were replaced, and versions
  /** @type {Session[]} */
  #aside = [];
  /** @type {Session[]} */
  #versions = [];
  #steps = 0;
  #isStoring = false;
  #isStoreDue = false;
  /** @type {unknown} */
  #draftFault = null;
  // whether the puzzle is not kept, and whether the store failed the last time; what a file has
  #isUnkept = false;
  #isStoreFailing = false;
  /** @type {string | null} */
  #inFile = null;
  #begun = new Set();
  // whether the browser was asked to keep its store
  #isAsked = false;

  // `bank` has the clues of the puzzles.
  /**
   * @param {import('../model/editor.js').Editor} editor
   * @param {Claim} claim
   * @param {import('./clue-bank.js').ClueBank} bank
   */
  constructor(editor, claim, bank) {
    super();
    this.#editor = editor;
    this.#claim = claim;
    this.#bank = bank;
    editor.takes({ addVersion: () => this.#addVersion(this.#editor.state), addPuzzles: (text) => this.#addAll(text), fileSaved: () => this.#saved() });
    editor.on(['step'], ({ changes }) => this.#step(changes.step));
    editor.on(['left'], ({ changes: { left } }) => left && this.#leave(left));
    claim.addEventListener('held', () => this.#held());
    claim.addEventListener('other', () => this.#other());
    // where there are no locks, the tab that wrote last has the puzzle
    onOtherDraft((puzzle) => !navigator.locks && puzzle === editor.puzzle && claim.yield());
    // a page that is out of sight may end without a word, and is seldom idle
    document.addEventListener('visibilitychange', () => document.hidden && this.#keepAll());
    // the browser asks whether to leave
    addEventListener('beforeunload', (event) => this.#isAtRisk && event.preventDefault());
    addEventListener('pagehide', () => {
      this.#keepAll();
      claim.leave();
    });
    addEventListener('pageshow', ({ persisted }) => persisted && claim.begin(editor.puzzle));
  }

  // The session to begin with, or null: that of this tab, or else the one that was changed last.
  async first() {
    await this.#adopt().catch(() => {});
    this.#bank.begin().catch(() => {});
    const puzzle = puzzleOfTab();
    const session = puzzle ? await this.latest(puzzle) : formerSessions()[0];
    if (!session || session.deleted) return null;
    this.#seen = session.at ?? 0;
    return session;
  }

  // The last state of a puzzle, which a draft may have and the store not yet; or null.
  /**
   * @param {string} puzzle
   * @returns {Promise<Session | null>}
   */
  async latest(puzzle) {
    const [draft, stored] = [draftOf(puzzle), await storedPuzzle(puzzle).catch(() => null)];
    if (draft && stored) return draft.at >= stored.at ? draft : stored;
    return draft ?? stored ?? null;
  }

  // Takes over what older pages kept, and drafts of pages that ended before they stored them.
  async #adopt() {
    // some have another name for the time, and no name of their own
    const former = formerSessions().map((/** @type {Session & { left?: number }} */ session) => ({ ...session, at: session.at ?? session.left ?? Date.now(), puzzle: session.puzzle ?? newPuzzleName() }));
    if (former.length) {
      await storePuzzles(former.filter((session) => !isUntouched(session)));
      if (!puzzleOfTab()) keepDraft(former[0]);
      dropFormer();
    }
    const [here, held] = [puzzleOfTab(), await Claim.held()];
    for (const puzzle of drafted()) {
      if (puzzle === here || held.has(puzzle)) continue;
      const draft = await this.latest(puzzle);
      if (draft && !isUntouched(draft)) await storePuzzles([draft]);
      dropDraft(puzzle);
      this.#dropHistory(puzzle);
    }
  }

  // The steps of a puzzle before the page was loaded, and those that were undone; or null.
  /** @param {string} puzzle */
  async history(puzzle) {
    try {
      return keptSteps(await keptHistory(puzzle));
    } catch {
      return null;
    }
  }

  // The history of a puzzle that is no longer open in this tab goes.
  /** @param {string} puzzle */
  #dropHistory(puzzle) {
    dropHistories([puzzle]).catch(() => {});
  }

  // Begins to keep the puzzle that is here.
  begin() {
    return this.#claim.begin(this.#editor.puzzle);
  }

  // The puzzles of the store, the latest first. The one that is here may be newer in this page.
  async puzzles() {
    const [stored, held] = [await storedPuzzles(), await Claim.held()];
    const here = this.#editor.puzzle;
    return stored.map((entry) => ({ ...entry, isHere: entry.puzzle === here, isElsewhere: entry.puzzle !== here && held.has(entry.puzzle) })).sort((a, b) => b.at - a.at);
  }

  // How many other puzzles there are.
  async others() {
    const puzzles = await this.puzzles().catch(() => []);
    return puzzles.filter(({ isHere, deleted }) => !isHere && !deleted).length;
  }

  /** @param {Step | undefined} before */
  #step(before) {
    if (this.#isElsewhere) this.#copy();
    const { puzzle, record } = this.#editor;
    if (before?.puzzle === puzzle) {
      const isLoss = lettersOf(before.record).length - lettersOf(record).length >= LETTERS_LOST;
      if (isLoss || ++this.#steps >= STEPS_BETWEEN) this.#addVersion(before);
    }
    if (!this.#isDue) whenIdle(() => this.#keep());
    this.#isDue = true;
  }

  // No two versions have the same time.
  /** @param {Step} session */
  #addVersion(session) {
    this.#steps = 0;
    const last = this.#versions.at(-1)?.at ?? 0;
    this.#versions.push({ ...session, at: Math.max(Date.now(), last + 1) });
  }

  // Keeps what is here when the page goes, with the edits that are under way.
  #keepAll() {
    if (this.#editor.isBusy) this.#isDue = true;
    this.#keep();
  }

  #keep() {
    if (!this.#isDue || !this.#claim.isHeld) return;
    this.#isDue = false;
    const session = this.#session();
    this.#draftFault = keepDraft(session);
    keepPuzzleOfTab(session.puzzle);
    if (!this.#draftFault) this.#tell(null);
    this.#store();
  }

  #session() {
    this.#seen = Math.max(Date.now(), this.#seen + 1);
    return { ...this.#editor.state, at: this.#seen };
  }

  // Stores what is due, one transaction after another.
  async #store() {
    this.#isStoreDue = true;
    if (this.#isStoring) return;
    this.#isStoring = true;
    while (this.#isStoreDue) {
      this.#isStoreDue = false;
      await this.#storeDue().then(() => this.#stored(), (fault) => this.#notStored(fault));
    }
    this.#isStoring = false;
    this.dispatchEvent(new Event('stored'));
  }

  async #storeDue() {
    const [aside, versions] = [[...this.#aside], [...this.#versions]];
    const session = { ...this.#editor.state, at: this.#seen };
    const here = this.#claim.isHeld && this.#isBegun(session) ? [session] : [];
    await storePuzzles([...aside, ...here], versions);
    this.#aside = this.#aside.filter((one) => !aside.includes(one));
    this.#versions = this.#versions.filter((one) => !versions.includes(one));
    // a puzzle that undo brought back is drafted again
    for (const { puzzle } of aside) if (puzzle !== this.#editor.puzzle) dropDraft(puzzle);
    // without the steps the puzzle is kept all the same
    if (here.length && session.puzzle === this.#editor.puzzle) await keepHistory(packedHistory(this.#editor.history)).catch(() => {});
  }

  // Whether something was done to a puzzle. Once it was, its record is not looked at again.
  /** @param {Step} session */
  #isBegun(session) {
    const { puzzle } = session;
    if (!this.#begun.has(puzzle) && !isUntouched(session)) this.#begun.add(puzzle);
    return this.#begun.has(puzzle);
  }

  #stored() {
    this.#isStoreFailing = false;
    endWarning('room');
    if (this.#claim.isHeld) this.#tell(null);
    // some browsers ask the user, so there is something to keep first
    if (this.#isAsked || !this.#begun.size) return;
    this.#isAsked = true;
    askToPersist().then((isLasting) => this.dispatchEvent(new CustomEvent('lasting', { detail: isLasting })));
  }

  // Without the store a draft still keeps what is here, but nothing that was here before.
  /** @param {unknown} fault */
  #notStored(fault) {
    this.#isStoreFailing = true;
    const why = whyNotKept(fault);
    const saving = { label: 'Save to a file', title: 'Save the session (.xw)', action: () => this.#editor.do('saveSession') };
    const lost = this.#aside.length ? ' The puzzle that was here before is kept by Undo alone.' : '';
    if (this.#draftFault) {
      this.#tell(why);
      warn('room', `Not kept: ${why}. Save the puzzle to a file.${lost}`, saving);
    } else if (this.#aside.length || this.#versions.length) {
      warn('room', `Versions are not kept: ${why}.${lost}`, saving);
    }
  }

  // Tells whether the puzzle that is here is kept: `detail` is why it is not, or null.
  /** @param {string | null} why */
  #tell(why) {
    this.#isUnkept = Boolean(why);
    this.dispatchEvent(new CustomEvent('kept', { detail: why }));
  }

  // A file has the puzzle as it is.
  #saved() {
    this.#inFile = this.#here;
  }

  // The record that is here, and what is kept beside it.
  get #here() {
    const { record, originals } = this.#editor;
    return JSON.stringify([record, [...originals]]);
  }

  // Whether something is lost if the page goes.
  get #isAtRisk() {
    if (this.#isStoreFailing && this.#aside.length) return true;
    return this.#isUnkept && this.#claim.isHeld && this.#here !== this.#inFile && this.#isBegun(this.#editor.state);
  }

  // Keeps a session that another puzzle replaces, and asks for the claim to that one.
  /** @param {Step} session */
  #leave(session) {
    if (this.#claim.isHeld) {
      this.putAside(session);
      this.#dropHistory(session.puzzle);
    }
    this.#isElsewhere = false;
    endWarning('other');
    this.#seen = 0;
    this.#steps = 0;
    this.begin();
  }

  /** @param {Step} session */
  putAside(session) {
    if (isUntouched(session)) return dropDraft(session.puzzle);
    this.#aside = [{ ...session, at: Date.now() }, ...this.#aside.filter(({ puzzle }) => puzzle !== session.puzzle)];
    this.#store();
  }

  // This tab keeps its puzzle from now on, as another tab may have left it.
  #held() {
    this.#isElsewhere = false;
    endWarning('other');
    const draft = draftOf(this.#editor.puzzle);
    if (draft && draft.at > this.#seen && draft.record !== this.#editor.record) {
      if (this.#isDue) return this.#copy();
      this.#seen = draft.at;
      this.#editor.replace(draft);
    } else {
      this.#isDue = true;
      this.#keep();
    }
    this.dispatchEvent(new Event('held'));
  }

  #other() {
    this.#isElsewhere = true;
    if (this.#isDue) return this.#copy();
    this.#tell('the puzzle is open in another tab');
    warn('other', 'This puzzle is open in another tab. If you change it here, this becomes a copy.', {
      label: 'Take it over', title: 'Go on with the puzzle in this tab', action: () => this.#claim.take(),
    });
  }

  // What is changed while another tab has the puzzle is a puzzle of its own.
  #copy() {
    this.#isElsewhere = false;
    endWarning('other');
    this.#editor.rename();
    this.#isDue = true;
    warn('copy', 'The puzzle is open in another tab. What you changed here is kept as a copy.', { label: 'OK', title: 'Close this line', action: () => endWarning('copy') });
    this.begin();
  }

  // All puzzles with their versions, as the text of a file.
  async all() {
    const here = this.#claim.isHeld && this.#isBegun(this.#editor.state) ? [{ ...this.#editor.state, at: Date.now() }] : [];
    const stored = (await storedPuzzles()).filter(({ puzzle }) => puzzle !== here[0]?.puzzle);
    return puzzlesFile([...here, ...stored], await storedVersions());
  }

  // Adds the puzzles of such a file, and returns how many these are, and what of them is left out. Those that are here already get what it has as versions.
  /** @param {string} text */
  async #addAll(text) {
    const { puzzles, versions, dropped } = puzzlesIn(text);
    const known = new Set((await storedPuzzles()).map(({ puzzle }) => puzzle).concat(this.#editor.puzzle));
    const added = puzzles.filter(({ puzzle }) => !known.has(puzzle));
    const others = puzzles.filter(({ puzzle }) => known.has(puzzle));
    await storePuzzles(added, [...versions, ...others]);
    await this.#bank.add(added).catch(() => {});
    return { added: added.length, others: others.length, dropped };
  }

  // Deletes a puzzle, which can be restored until it is destroyed.
  /**
   * @param {import('./keep.js').Session & { isHere: boolean, isElsewhere: boolean }} session
   * @param {boolean} isDeleted
   */
  setDeleted({ isHere, isElsewhere, ...entry }, isDeleted) {
    return storePuzzles([{ ...entry, deleted: isDeleted ? Date.now() : null }]);
  }

  /** @param {string[]} names */
  async destroy(names) {
    await destroyPuzzles(names);
    for (const name of names) this.#dropHistory(name);
    await this.#bank.drop(names).catch(() => {});
  }
}
