// The types of xw.js.

declare global {
  // what `using` calls, where the language has it
  interface SymbolConstructor {
    readonly dispose: unique symbol;
  }
}

/** Bytes, or a string whose characters are those of Windows-1252. */
export type Source = string | Uint8Array | ArrayBuffer;

/** How a call ends, as in include/xw.h. */
export type Status =
  | 'Accepted' | 'Refused' | 'Silent' | 'Closed' | 'Open' | 'Memory' | 'NoCommand' | 'Full'
  | 'Short' | 'Magic' | 'Version' | 'Scrambled' | 'Size' | 'NoNul' | 'BadSum' | 'BadCell' | 'ClueCount'
  | 'Header' | 'Tag' | 'SizeLine' | 'GridLine' | 'AcrossCount' | 'DownCount' | 'NulByte' | 'GextSize' | 'GextSum'
  | 'Barred' | 'NotFilled' | 'Field' | 'Circled' | 'Cut';

/** The statuses, in the order of their numbers. */
export const STATUSES: readonly Status[];

/** The answer to a line. */
export interface Answer {
  /** The lines before the last one. */
  lines: string[];
  /** Whether the line was accepted, or has no answer. */
  ok: boolean;
  /** The name after `no`, or null. */
  refusal: string | null;
}

/** The answer to a line, in bytes as `xw edit` writes it. */
export interface RawAnswer {
  status: 'Accepted' | 'Refused' | 'Silent';
  answer: Uint8Array;
}

/** What a session starts with. What is left out is empty: no words, an empty grid of 15 by 15, no commands. */
export interface Beginning {
  /** A word list, one word on each line. */
  list?: Source;
  /** A `.puz` or text file. */
  puzzle?: Source;
  /** The record of another session. */
  record?: Source;
}

/** A call that was not done. */
export class Fault extends Error {
  constructor(status: Status | 'Character', answer?: string, message?: string);
  /** Why: one of `STATUSES`, or `Character` for a string that is not Windows-1252. */
  status: Status | 'Character';
  /** The lines that were written, the name of the refusal after `Refused` of `ask`, or the character. */
  answer: string;
}

/**
 * Compiles the module from its bytes, or from a place: a URL, or in Node also a path. By default it is `xw.wasm` beside `xw.js`.
 * A module serves any number of sessions, and can be posted to a worker.
 */
export function load(source?: string | URL | BufferSource): Promise<WebAssembly.Module>;

/** The bytes of a string in Windows-1252. Throws a `Fault` with the status `Character` if the string has another character. */
export function toBytes(text: string): Uint8Array;

/** The string that bytes are in Windows-1252, with one character for each byte. */
export function toText(bytes: Uint8Array | ArrayBuffer): string;

/** A session. Each has its own memory. */
export class Xw {
  private constructor();

  /**
   * Opens a session. Throws a `Fault` if a part of the beginning has one, or if there is no memory, and a `TypeError` if a part is neither
   * a string nor a `Uint8Array` nor an `ArrayBuffer`.
   */
  static open(module: WebAssembly.Module, beginning?: Beginning): Xw;

  /**
   * What was not taken from the record, each with a line feed after it: `xw: record: an incomplete last command is ignored` if its end was cut off, and then
   * `xw: record: line N: NAME` for each line that was refused.
   */
  readonly reports: string;

  /** Answers a line. Throws a `Fault` with the status `Character` before anything is sent, or with `Memory` or `Closed`. */
  line(text: string): Answer;

  /** Answers a line in bytes, for texts in another encoding. */
  answer(line: Uint8Array | ArrayBuffer): RawAnswer;

  /** The puzzle as a `.puz` file. Throws a `Fault` if the format cannot hold it. */
  puz(): Uint8Array;

  /** The puzzle as a text file. Throws a `Fault` if the format cannot hold it. */
  text(): Uint8Array;

  /** The record of the session, for `open`. */
  record(): Uint8Array;

  /**
   * Replays a record in this session, and returns what was not taken from it, as `reports`. Throws a `Fault` with the status `NoCommand` if a line is not a
   * command; the lines before it were executed, so close the session then.
   */
  resume(record: Source): string;

  /** The version of the engine, as `xw --version` prints it. */
  readonly version: string;

  /**
   * Yields better and better fills. Each stands in the grid when it is yielded, and the last one stays there, also if you leave the loop or the signal is aborted.
   * `best` finds the last of them alone. The options are those of `best`. Leave the edits to the loop while it runs.
   */
  best(search?: Search & { least?: number }): AsyncGenerator<Fill, Best & { bound: number }, undefined>;

  /** Whether the session is closed. */
  readonly closed: boolean;

  /** Closes the session, and lets its memory go. Every later call throws a `Fault` with the status `Closed`, except `close`. */
  close(): void;

  /** Closes the session: `using xw = Xw.open(..)`. */
  [Symbol.dispose](): void;
}

/** The name of a light: its number and direction. */
export type Light = string;

/** A cell with its feasible letters, which are empty if it has none. */
export interface Cell {
  row: number;
  column: number;
  letters: string;
}

/** What a search found: a fill, that there is none, which is proved, or neither. */
export type Found = 'filled' | 'nofill' | 'limit';

/**
 * The answer to `best`. `grade` is that of the worst new word of the fill. There is no fill of which all new words have the grade `bound` or a better one. If
 * `bound` is `grade + 1`, no fill is better. Since no grade is above 100, a bound of 101 alone says nothing. A grid that was full has no new word: its grade is
 * 100, and the bound 101.
 */
export interface Best {
  answer: Found;
  grade: number | null;
  bound: number | null;
}

/** The answer to `stats`. */
export interface Stats {
  cells: number;
  blocks: number;
  bars: number;
  entered: number;
  lights: number;
  /** How many lights have each length that occurs. */
  lengths: Record<number, number>;
  unchecked: number;
  mean: number;
  /** How many cells have each letter that is entered. */
  letters: Record<string, number>;
}

/** The answers to the commands that are not changes: docs/commands.md describes each. */
export interface Answers {
  help: string[];
  match: string[];
  show: string[];
  lights: { light: Light; row: number; column: number; letters: string }[];
  stats: Stats;
  longest: { light: Light; length: number } | null;
  /** The number of feasible words, and the first of them. */
  words: { total: number; words: string[] };
  /** What each word leaves: 0 for a dead end, null if it completes the grid. */
  choices: { word: string; left: number | null }[];
  letters: string;
  /** The words that each letter leaves; null for a direction without a light. */
  tally: { letter: string; across: number | null; down: number | null }[];
  cells: Cell[];
  counts: { light: Light; words: number }[];
  unmatched: { light: Light; pattern: string }[];
  dups: { light: Light; first: Light; word: string }[];
  unlisted: { light: Light; word: string }[];
  grade: number;
  grades: { light: Light; grade: number | null }[];
  suggest: { kind: 'try' | 'noword' | 'dead' | 'done'; light: Light | null; word: string | null };
  why: { row: number; column: number; letter: string }[];
  fill: Found;
  autofill: Found;
  best: Best;
  /** The texts that are not empty: `title`, `author`, `copyright`, `notes`, and the clues by the names of their lights. */
  texts: Record<string, string>;
  circles: { row: number; column: number }[];
  record: string[];
}

/** The commands that change the session. They answer the cells that the watch lists. */
export type Change =
  | 'add' | 'strike' | 'least' | 'size' | 'sym' | 'set' | 'clear' | 'place' | 'erase' | 'block' | 'bar' | 'watch'
  | 'clue' | 'title' | 'author' | 'copyright' | 'notes' | 'text' | 'more' | 'circle';

/** A direction, a side of a cell, and a symmetry. */
export type Direction = 'across' | 'down';
export type Side = 'right' | 'below';
export type Symmetry = 'none' | 'half' | 'quarter' | 'leftright' | 'updown';

/** A number as an argument. */
export type Whole = number | `${number}`;

/** A light as arguments: its name, or its number and its direction. */
export type Named = [light: Light] | [number: Whole, direction: Direction];

type Nothing = [];
type OfCell = [row: Whole, column: Whole];
type OfText = [text: string];
type OfSearch = [most: Whole, seed?: Whole, ...lights: (Light | Whole)[]];

/** The arguments of each command: docs/commands.md describes them. */
export interface Arguments {
  help: [command?: keyof Arguments];
  match: [pattern: string];
  show: Nothing;
  lights: Nothing;
  stats: Nothing;
  longest: Nothing;
  words: [...light: Named, most?: Whole];
  choices: [...light: Named, most: Whole] | [...light: Named, most: Whole, first: string];
  letters: OfCell;
  tally: OfCell;
  cells: Nothing;
  counts: Nothing;
  unmatched: Nothing;
  dups: Nothing;
  unlisted: Nothing;
  grade: [word: string];
  grades: (Light | Whole)[];
  suggest: Nothing;
  why: Named;
  fill: [most: Whole];
  autofill: OfSearch;
  best: OfSearch;
  texts: Nothing;
  circles: Nothing;
  record: Nothing;
  add: [word: string, grade?: Whole];
  strike: [word: string];
  least: [grade: Whole];
  size: [width: Whole, height: Whole];
  sym: [symmetry: Symmetry];
  set: [...cell: OfCell, letter: string];
  clear: OfCell;
  place: [...light: Named, word: string];
  erase: Named;
  block: OfCell;
  bar: [...cell: OfCell, side: Side];
  watch: ['on' | 'off'];
  clue: [...light: Named, text: string];
  title: OfText;
  author: OfText;
  copyright: OfText;
  notes: OfText;
  text: [field: string, text: string];
  more: [field: string, text: string];
  circle: OfCell;
}

/**
 * What a command answers, with its arguments. Throws a `Fault` with the status `Refused` for a refused command, with the name as its `answer`, and a `TypeError`
 * for a name that is no command.
 */
export function ask<C extends keyof Answers>(xw: Xw, command: C, ...given: Arguments[C]): Answers[C];
export function ask<C extends Change>(xw: Xw, command: C, ...given: Arguments[C]): Cell[];

/** A fill of `best`: its letters stand in `rows`, with `#` for a block and `-` for an empty cell. */
export interface Fill {
  /** The grade of the worst new word. */
  grade: number;
  /** There is no fill of which all new words have this grade or a better one; 101 says nothing. */
  bound: number;
  /** The mean grade of the new words; 100 if no word is new. */
  mean: number;
  rows: readonly string[];
}

/** How far a search is, and the best fill so far. */
export interface Progress {
  /** At most so many placements were made. */
  placements: number;
  /** The grade of the worst new word of the best fill, if `best` found one. */
  grade: number | null;
  /** There is no fill of which all new words have this grade or a better one; 101 says nothing. */
  bound: number;
  /** The letters of the best fill, with `#` for a block and `-` for an empty cell, if `best` found one. */
  rows: readonly string[] | null;
}

/** What to search for. A search throws a `TypeError` for an option that it does not take, and a `RangeError` for a number that the option cannot be. */
export interface Search {
  /** The most placements; a whole number, or `Infinity`. */
  limit?: number;
  /** Another seed takes another way. */
  seed?: number;
  /** The lights to fill, as `1 across`; all, if none is named. */
  lights?: readonly Light[];
  /**
   * Is called after each slice. A true value ends the search, as if its placements were used up. Without it, a signal and a flag the slices get longer, up to a
   * tenth of the time so far.
   */
  progress?: (progress: Progress) => unknown;
  /** A slice takes about so many milliseconds, where `progress`, `signal` or `stop` may end the search after it; 100 by default. */
  every?: number;
  /**
   * Ends the search, as if its placements were used up, when its slices have taken so many milliseconds; a number above 0, or `Infinity`. The last slice ends
   * about then. The time between two slices does not count.
   */
  milliseconds?: number;
  /**
   * Ends the search after a slice: it throws the reason of the signal. The best fill so far stands in the grid whole, or the grid is as it was. A search whose
   * signal is aborted before it begins does nothing.
   */
  signal?: AbortSignal;
  /**
   * A flag that another thread sets, in a `SharedArrayBuffer`: `Atomics.store(stop, 0, 1)` ends each search that has it after the slice that runs, and each one
   * that begins later, as if its placements were used up.
   */
  stop?: Int32Array;
}

/**
 * Fills lights, in slices; other events come between them. The answer is `limit` if the search is ended or its placements are used up. The grid is then as
 * it was. A session of another thread, such as a `RemoteXw`, is asked for each slice.
 */
export function autofill(xw: Xw | { ask(command: 'autofill', ...given: Arguments['autofill']): Promise<Found> }, search?: Search): Promise<Found>;

/**
 * Looks for the fill whose worst new word has the best grade, and is at least `least`, in slices. However it ends, the best fill so far stands in the grid
 * whole, or the grid is as it was. `least` is the least grade of the session afterwards.
 */
export function best(xw: Xw, search?: Search & { least?: number }): Promise<Best & { bound: number }>;
