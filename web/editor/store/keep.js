// What the browser keeps between visits. In IndexedDB: the puzzles with their versions, the word list, the steps of the open puzzles, and the bank of clues. In the local store: a
// draft of each puzzle that is open, since a page that goes can write there before it goes.

/** @typedef {{ name: string, version: number, stores: Record<string, string>, make: (opened: IDBDatabase, oldVersion: number) => void }} Database */

// A session as it is kept, with the time when the puzzle was last changed. Puzzles have when they were deleted, or null.
/** @typedef {import('../model/state.js').Step & { at: number, deleted?: number | null }} Session */
/** @typedef {'localStorage' | 'sessionStorage'} Store */

/** @type {Database} */
const DATABASE = {
  name: 'xw-editor',
  version: 2,
  stores: { list: 'kept', puzzles: 'puzzles', versions: 'versions' },
  make(opened, oldVersion) {
    if (oldVersion < 1) opened.createObjectStore(this.stores.list);
    opened.createObjectStore(this.stores.puzzles, { keyPath: 'puzzle' });
    opened.createObjectStore(this.stores.versions, { keyPath: ['puzzle', 'at'] });
  },
};
// apart from it, so that older pages can still open that one
/** @type {Database} */
const BANK = {
  name: 'xw-editor-clues',
  version: 1,
  stores: { clues: 'clues' },
  make(opened) {
    opened.createObjectStore(this.stores.clues, { keyPath: ['word', 'clue', 'puzzle'] }).createIndex('puzzle', 'puzzle');
  },
};
// the steps of the open puzzles, apart too
/** @type {Database} */
const HISTORY = {
  name: 'xw-editor-history',
  version: 1,
  stores: { history: 'history' },
  make(opened) {
    opened.createObjectStore(this.stores.history, { keyPath: 'puzzle' });
  },
};
const DRAFT = 'xw-editor/';
const LAST = 'xw-editor-last';
// where older pages kept one puzzle, and those that it replaced
const FORMER = ['xw-editor', 'xw-editor-earlier'];
// the puzzle of a tab, so that a page that is loaded again has the same
const HERE = 'xw-editor-here';
// the most versions that are kept of a puzzle
const MOST_VERSIONS = 60;

// Opens a database, which is made if it is not there; `made` is told of that.
/**
 * @param {Database} database
 * @param {() => void} made
 * @returns {Promise<IDBDatabase>}
 */
function open(database, made = () => {}) {
  return new Promise((resolve, reject) => {
    const request = indexedDB.open(database.name, database.version);
    request.onupgradeneeded = ({ oldVersion }) => {
      database.make(request.result, oldVersion);
      made();
    };
    request.onsuccess = () => resolve(request.result);
    request.onerror = () => reject(request.error);
  });
}

// Does a transaction over all stores of a database, and returns what its last request gives when all of it is kept. The database is closed after it, so
// that no page holds it.
/**
 * @param {IDBTransactionMode} mode
 * @param {(stores: Record<string, IDBObjectStore>) => IDBRequest | void} action
 * @returns {Promise<any>}
 */
async function within(mode, action, database = DATABASE) {
  const opened = await open(database);
  const { stores } = database;
  try {
    return await new Promise((resolve, reject) => {
      const transaction = opened.transaction(Object.values(stores), mode);
      const request = action(Object.fromEntries(Object.entries(stores).map(([name, store]) => [name, transaction.objectStore(store)])));
      transaction.oncomplete = () => resolve(request ? request.result : undefined);
      transaction.onabort = () => reject(transaction.error ?? new Error('the browser ended the transaction'));
    });
  } finally {
    opened.close();
  }
}

// Texts of a store of the browser, which may be denied.

/**
 * @param {Store} store
 * @param {string} name
 */
function textIn(store, name) {
  try {
    return globalThis[store].getItem(name);
  } catch {
    return null;
  }
}

// Writes a text, or with null takes it away; returns what kept it from that, or null.
/**
 * @param {Store} store
 * @param {string} name
 * @param {string | null} text
 */
function putText(store, name, text) {
  try {
    if (text === null) globalThis[store].removeItem(name);
    else globalThis[store].setItem(name, text);
    return null;
  } catch (fault) {
    return fault;
  }
}

/** @type {(session: any) => session is Session} */
const isSessionState = (session) => typeof session?.record === 'string';

/**
 * @param {string | null} text
 * @returns {any}
 */
function parsed(text) {
  try {
    return JSON.parse(text ?? 'null');
  } catch {
    return null;
  }
}

/**
 * @param {string} name
 * @returns {Session | null}
 */
function sessionIn(name) {
  const session = parsed(textIn('localStorage', name));
  return isSessionState(session) ? session : null;
}

// Drafts.

// Keeps a draft, which is written before the call returns. Returns what kept the browser from it, or null.
/** @param {Session} session */
export function keepDraft(session) {
  const fault = putText('localStorage', DRAFT + session.puzzle, JSON.stringify(session));
  if (!fault) putText('localStorage', LAST, session.puzzle);
  return fault;
}

/** @param {string} puzzle */
export const draftOf = (puzzle) => sessionIn(DRAFT + puzzle);

/** @param {string} puzzle */
export const dropDraft = (puzzle) => putText('localStorage', DRAFT + puzzle, null);

// The names of the puzzles that have drafts.
export function drafted() {
  try {
    return Object.keys(localStorage).filter((name) => name.startsWith(DRAFT)).map((name) => name.slice(DRAFT.length));
  } catch {
    return [];
  }
}

// Tells when another tab writes a draft of a puzzle.
/** @param {(puzzle: string) => void} action */
export function onOtherDraft(action) {
  addEventListener('storage', ({ key, newValue }) => key?.startsWith(DRAFT) && newValue && action(key.slice(DRAFT.length)));
}

// The name of the puzzle that this tab had, or else of the one that was changed last.
export const puzzleOfTab = () => textIn('sessionStorage', HERE) ?? textIn('localStorage', LAST);

/** @param {string} puzzle */
export const keepPuzzleOfTab = (puzzle) => putText('sessionStorage', HERE, puzzle);

// What an older page kept: its puzzle, and those that this one replaced, the latest first.
export function formerSessions() {
  const [last, earlier] = FORMER.map((name) => parsed(textIn('localStorage', name)));
  return [last, ...(Array.isArray(earlier) ? earlier : [])].filter(isSessionState);
}

export function dropFormer() {
  for (const name of FORMER) putText('localStorage', name, null);
}

// The name and address of a submission.
const ADDRESS = 'xw-editor-address';
export const keptAddress = () => textIn('localStorage', ADDRESS) ?? '';
/** @param {string} text */
export const keepAddress = (text) => putText('localStorage', ADDRESS, text || null);

// The limits of new grids that were changed.
const LIMITS = 'xw-editor-limits';
export const keptLimits = () => parsed(textIn('localStorage', LIMITS)) ?? {};
/** @param {object} changed */
export const keepLimits = (changed) => putText('localStorage', LIMITS, JSON.stringify(changed));

// Puzzles: a session as in a draft, and `deleted`, when it was deleted, or null. A version is a session too, of which only the newest and
// others spread over time are kept.

/**
 * @param {string} puzzle
 * @returns {Promise<Session | undefined>}
 */
export const storedPuzzle = (puzzle) => within('readonly', ({ puzzles }) => puzzles.get(puzzle));
/** @returns {Promise<Session[]>} */
export const storedPuzzles = () => within('readonly', ({ puzzles }) => puzzles.getAll());

/** @param {string} puzzle */
const ofPuzzle = (puzzle) => IDBKeyRange.bound([puzzle], [puzzle, []]);

/**
 * @param {string} puzzle
 * @returns {Promise<Session[]>}
 */
export const versionsOf = (puzzle) => within('readonly', ({ versions }) => versions.getAll(ofPuzzle(puzzle)));

/** @returns {Promise<Session[]>} */
export const storedVersions = () => within('readonly', ({ versions }) => versions.getAll());

// Puts puzzles, and versions beside them, all or none.
/**
 * @param {Session[]} entries
 * @param {Session[]} added
 */
export function storePuzzles(entries, added = []) {
  return within('readwrite', ({ puzzles, versions }) => {
    for (const entry of entries) puzzles.put(entry);
    for (const version of added) versions.put(version);
    for (const puzzle of new Set(added.map((version) => version.puzzle))) thin(versions, puzzle);
  });
}

// Leaves out the versions that lie closest to those beside them, as far as there are too many.
/**
 * @param {IDBObjectStore} versions
 * @param {string} puzzle
 */
function thin(versions, puzzle) {
  const request = versions.getAllKeys(ofPuzzle(puzzle));
  request.onsuccess = () => {
    const times = request.result.map((key) => /** @type {[string, number]} */ (key)[1]);
    while (times.length > MOST_VERSIONS) {
      const gap = (/** @type {number} */ at) => times[at + 1] - times[at - 1];
      let least = 1;
      for (let at = 2; at < times.length - 1; at++) if (gap(at) < gap(least)) least = at;
      versions.delete([puzzle, ...times.splice(least, 1)]);
    }
  };
}

// Takes puzzles away for good, with their versions.
/** @param {Iterable<string>} names */
export function destroyPuzzles(names) {
  return within('readwrite', ({ puzzles, versions }) => {
    for (const name of names) {
      puzzles.delete(name);
      versions.delete(ofPuzzle(name));
      dropDraft(name);
    }
  });
}

// The histories of the puzzles that are open.

/** @param {import('./history.js').KeptHistory} entry */
export const keepHistory = (entry) => within('readwrite', ({ history }) => history.put(entry), HISTORY);

/**
 * @param {string} puzzle
 * @returns {Promise<import('./history.js').KeptHistory | undefined>}
 */
export const keptHistory = (puzzle) => within('readonly', ({ history }) => history.get(puzzle), HISTORY);

/** @param {Iterable<string>} puzzles */
export const dropHistories = (puzzles) => within('readwrite', ({ history }) => {
  for (const puzzle of puzzles) history.delete(puzzle);
}, HISTORY);

// The bank of clues. An entry has the word and the clue, the puzzle with its title, and when the clue was first there; 0 if that is not known.
/** @typedef {{ word: string, clue: string, puzzle: string, title: string, at: number }} KeptClue */

// Makes the bank if there is none; returns whether there was none.
export async function makeBank() {
  let isMade = false;
  const opened = await open(BANK, () => {
    isMade = true;
  });
  opened.close();
  return isMade;
}

// the most clues that are kept, and the part of them that stays once there are more
export const MOST_CLUES = 50000;
const STAYING = 0.95;

// The earlier of two times, of which one may not be known.
/**
 * @param {number} one
 * @param {number} other
 */
const earlier = (one, other) => Math.min(one || other, other || one);

// Keeps clues. One that is there stays as old as it is. If there are too many, the oldest go.
/** @param {KeptClue[]} entries */
export const keepClues = (entries, most = MOST_CLUES) => within('readwrite', ({ clues }) => {
  entries.forEach((entry, at) => {
    const found = clues.get([entry.word, entry.clue, entry.puzzle]);
    found.onsuccess = () => {
      clues.put({ ...entry, at: earlier(entry.at, found.result?.at ?? entry.at) });
      if (at === entries.length - 1) thinClues(clues, most);
    };
  });
}, BANK);

// Takes the oldest clues out if there are too many.
/**
 * @param {IDBObjectStore} clues
 * @param {number} most
 */
function thinClues(clues, most) {
  const count = clues.count();
  count.onsuccess = () => {
    if (count.result <= most) return;
    const all = clues.getAll();
    all.onsuccess = () => oldest(all.result, most).forEach(({ word, clue, puzzle }) => clues.delete([word, clue, puzzle]));
  };
}

// The clues that go if so many may stay. Some more go than have to, so that it is not done for each new clue.
/**
 * @template {{ at: number }} Entry
 * @param {Entry[]} entries
 * @param {number} most
 */
export const oldest = (entries, most) => [...entries].sort((a, b) => b.at - a.at).slice(Math.floor(STAYING * most));

export const countClues = () => within('readonly', ({ clues }) => clues.count(), BANK);
/** @returns {Promise<KeptClue[]>} */
export const everyClue = () => within('readonly', ({ clues }) => clues.getAll(), BANK);
export const clearClues = () => within('readwrite', ({ clues }) => clues.clear(), BANK);

// The clues that a word had.
/**
 * @param {string} word
 * @returns {Promise<KeptClue[]>}
 */
export const keptClues = (word) => within('readonly', ({ clues }) => clues.getAll(IDBKeyRange.bound([word], [word, []])), BANK);

// Takes the clues of puzzles out of the bank.
/** @param {Iterable<string>} puzzles */
export const dropClues = (puzzles) => within('readwrite', ({ clues }) => {
  for (const puzzle of puzzles) {
    const found = clues.index('puzzle').getAllKeys(puzzle);
    found.onsuccess = () => found.result.forEach((key) => clues.delete(key));
  }
}, BANK);

// The word lists.

/** @param {object} lists */
export const keepLists = (lists) => within('readwrite', ({ list }) => list.put(lists, 'lists'));

// { parts, personal, least }, or undefined. An older page kept one list.
export async function keptLists() {
  const [lists, former] = [await within('readonly', ({ list }) => list.get('lists')), await within('readonly', ({ list }) => list.get('list'))];
  if (lists || !former) return lists;
  const { name, bytes, least } = former;
  return { parts: [{ name, bytes, isOn: true }], personal: '', least };
}

// Asks the browser not to take away what the page keeps when it runs out of room. Returns whether it agrees.
export async function askToPersist() {
  try {
    return (await navigator.storage.persisted()) || (await navigator.storage.persist());
  } catch {
    return false;
  }
}

// Why the browser does not keep something, in a few words.
/** @param {any} fault */
export function whyNotKept(fault) {
  if (/Quota|full|disk/i.test(`${fault?.name} ${fault?.message}`)) return 'the browser has no room left';
  return 'this browser keeps nothing for this page';
}
