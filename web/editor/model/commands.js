// What modules ask of each other, by name: one module does a command, and no other needs to know which. So a view can ask for what is made after it.

/** @typedef {import('./board.js').Light} Light */
/** @typedef {import('../store/keep.js').Session} Session */
/** @typedef {import('../store/lists.js').Lists} Lists */
/** @typedef {'words' | 'clues' | 'puzzle'} Tab */

// The grid: `toGrid` gives it the keys, and `goTo` moves the cursor there. `toggleBlock` names a cell by its index.
/**
 * @typedef {{
 *   toGrid: () => void, goTo: (light: Light, cell?: number) => void, enterLetter: (letter: string) => void, eraseLight: () => Promise<unknown>,
 *   toggleBlock: (index: number) => Promise<unknown>,
 * }} OfGrid
 */
// The tabs: a field of one by its id, and the clue of a light, or the first one that lacks a text; and the clue that is being typed, as records name it, or ''.
/**
 * @typedef {{
 *   showTab: (tab: Tab) => void, toField: (tab: Tab, id: string) => void, toClue: (light: Light | null) => void, unfinishedClue: () => string,
 * }} OfTabs
 */
// The engine: says whether an edit led into a dead end, and why; and fills.
/**
 * @typedef {{
 *   findDeadEnds: () => void, explainDeadEnd: () => Promise<unknown>, stopFill: () => void, mend: (light: Light) => Promise<any>,
 * }} OfEngine
 */
// The word lists, of which each call tells whether others are in use then; and the enumerations of words, by word.
/**
 * @typedef {{
 *   changeLists: (changed: (lists: Lists) => Lists, name?: string) => Promise<boolean>, regrade: (word: string, score: number) => Promise<boolean>,
 *   keepWord: (word: string, isHidden: boolean) => Promise<boolean>, enumerations: (words: string[]) => Promise<Map<string, string>>,
 * }} OfLists
 */
// What is kept, in files and by the browser, and other puzzles in place of the one that is here.
/**
 * @typedef {{
 *   saveText: (text: string, name: string) => void, saveSession: () => void, fileSaved: () => void, bankClues: () => void, addVersion: () => void,
 *   addPuzzles: (text: string) => Promise<{ added: number, others: number, dropped: string[] }>,
 *   beginPuzzle: (record: string, entries?: string[]) => Promise<void>, reopen: (session: Session, isVersion: boolean) => Promise<void>,
 * }} OfPuzzles
 */
/** @typedef {OfGrid & OfTabs & OfEngine & OfLists & OfPuzzles} Commands */

export class Dispatcher {
  /** @type {Partial<Commands>} */
  #actions = {};

  // Has commands done by what a module gives for them.
  /** @param {Partial<Commands>} actions */
  takes(actions) {
    const [again] = Object.keys(actions).filter((name) => name in this.#actions);
    if (again) throw new Error(`two modules do ${again}`);
    Object.assign(this.#actions, actions);
  }

  // Has a command done, and returns what it does.
  /**
   * @template {keyof Commands} Name
   * @param {Name} name
   * @param {Parameters<Commands[Name]>} given
   * @returns {ReturnType<Commands[Name]>}
   */
  do(name, ...given) {
    const action = /** @type {((...given: any[]) => any) | undefined} */ (this.#actions[name]);
    if (!action) throw new Error(`no module does ${name}`);
    return action(...given);
  }
}
