// What a session has beside its record: the originals, which are texts as they were typed, cells with several letters, colours, links, private notes and comments; the
// letters in pencil; and the words that clues were written for. A file from elsewhere may have anything in their places.
import { LANGUAGE, isLanguage } from './language.js';
import { isRebus } from './rebus.js';

/** @typedef {[string, string]} Pair */

const CELL = '[1-9]\\d{0,2} [1-9]\\d{0,2}';
const CLUE = `${CELL} (?:across|down)`;
const whole = (/** @type {string} */ pattern) => new RegExp(`^(?:${pattern})$`);
const isText = () => true;
const matches = (/** @type {RegExp} */ pattern) => (/** @type {string} */ text) => pattern.test(text);

// The kinds of originals: their fields, what they may be, and what others are called.
const ORIGINALS = [
  { field: whole(`title|author|copyright|notes|(?:clue|note|comment) ${CLUE}`), isLawful: isText, called: [''] },
  { field: whole(`cell ${CELL}`), isLawful: isRebus, called: ['a cell with other characters than letters', 'cells with other characters than letters'] },
  { field: whole(`colour ${CELL}`), isLawful: matches(/^[0-9a-f]{6}$/), called: ['the colour of a cell', 'colours of cells'] },
  { field: whole(`link ${CLUE}`), isLawful: matches(whole(`${CLUE}(?:, ${CLUE})*`)), called: ['the link of a clue to other lights', 'links of clues to other lights'] },
  { field: whole(LANGUAGE), isLawful: isLanguage, called: ['the language'] },
];
const UNKNOWN = ['a text that belongs to nothing', 'texts that belong to nothing'];
const PENCIL = ['a pencil mark', 'pencil marks'];
const WRITTEN = ['the word that a clue was written for', 'words that clues were written for'];

/** @type {(pair: unknown) => pair is Pair} */
const isPair = (pair) => Array.isArray(pair) && pair.length === 2 && pair.every((part) => typeof part === 'string');
/** @param {unknown} pair */
const kindOf = (pair) => (isPair(pair) ? ORIGINALS.find(({ field }) => field.test(pair[0])) : undefined);
/** @type {(pair: unknown) => pair is Pair} */
const isOriginal = (pair) => isPair(pair) && (kindOf(pair)?.isLawful(pair[1]) ?? false);
/** @type {(cell: unknown) => cell is string} */
const isPencil = (cell) => typeof cell === 'string' && whole(CELL).test(cell);
/** @type {(pair: unknown) => pair is Pair} */
const isWritten = (pair) => isPair(pair) && whole(`clue ${CLUE}`).test(pair[0]) && /^[A-Z]{2,255}$/.test(pair[1]);

// What is lawful of what a file has beside a record. `dropped` counts the rest.
/**
 * @param {{ pencil?: unknown, originals?: unknown, written?: unknown }} given
 * @param {import('../formats/dropped.js').Dropped} dropped
 * @returns {{ pencil: string[], originals: Pair[], written: Pair[] }}
 */
export function lawfulBeside({ pencil = [], originals = [], written = [] }, dropped) {
  /**
   * @template T
   * @param {unknown} given
   * @param {(one: unknown) => one is T} isLawful
   * @param {(one: unknown) => string[]} called
   * @returns {T[]}
   */
  const lawful = (given, isLawful, called) => /** @type {unknown[]} */ ([given].flat()).flatMap((one) => {
    if (isLawful(one)) return [one];
    const [name, several] = called(one);
    dropped.add(name, several);
    return [];
  });
  return {
    pencil: lawful(pencil, isPencil, () => PENCIL),
    originals: lawful(originals, isOriginal, (pair) => kindOf(pair)?.called ?? UNKNOWN),
    written: lawful(written, isWritten, () => WRITTEN),
  };
}
