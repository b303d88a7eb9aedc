// Scrambled solutions of .puz files. The letters, column by column without the blocks, went four times, once for each digit of a key, through three steps:
// each letter is moved on in the alphabet by the digits in turn, as many letters as the digit says go from the front to the end, and the halves are merged
// like cards, the second half first. The header has the checksum of the letters before that.
import { sumOf } from './puz-sections.js';

const HEADER = 0x34;
const [SUM, WIDTH, HEIGHT, TAG] = [0x1e, 0x2c, 0x2d, 0x32];
// the tag of a scrambled solution
const SCRAMBLED = 4;
const [A, Z, LETTERS] = [65, 90, 26];
const [BLOCK, HIDDEN, EMPTY] = ['.', ':', '-'].map((mark) => mark.charCodeAt(0));

// Programs choose keys without zeros, so these are tried first.
const ALL = Array.from({ length: 9999 }, (_, at) => String(at + 1).padStart(4, '0'));
const KEYS = [ALL.filter((key) => !key.includes('0')), ALL.filter((key) => key.includes('0'))];
export const KEY_COUNT = ALL.length;

// how many letters are moved before the page gets a turn, about a millisecond
const SLICE = 100000;

/** @param {Uint8Array} bytes */
export const isScrambled = (bytes) => (bytes[TAG] & SCRAMBLED) !== 0;
/** @param {number} byte */
const isBlock = (byte) => byte === BLOCK || byte === HIDDEN;
/** @param {Uint8Array} bytes */
const solutionIn = (bytes) => bytes.subarray(HEADER, HEADER + bytes[WIDTH] * bytes[HEIGHT]);

// The solution of a file with empty cells for its letters.
/** @param {Uint8Array} bytes */
export const withoutLetters = (bytes) => solutionIn(bytes).map((byte) => (isBlock(byte) ? byte : EMPTY));

// The cells with letters, column by column, and their letters as they are scrambled; null if something else is in a cell, which no program scrambles.
/** @param {Uint8Array} bytes */
function lettersIn(bytes) {
  const [solution, width, height] = [solutionIn(bytes), bytes[WIDTH], bytes[HEIGHT]];
  const cells = Array.from({ length: width * height }, (_, at) => (at % height) * width + Math.floor(at / height)).filter((cell) => !isBlock(solution[cell]));
  const letters = Uint8Array.from(cells, (cell) => solution[cell]);
  return letters.length && letters.every((letter) => letter >= A && letter <= Z) ? { cells, letters } : null;
}

// The letters before they were scrambled by a key.
/**
 * @param {Uint8Array} letters
 * @param {string} key
 */
function unscrambled(letters, key) {
  const digits = Array.from(key, Number);
  return digits.reduceRight((scrambled, digit) => roundBefore(scrambled, digit, digits), letters);
}

// The letters before a round for a digit: the halves are parted, the front comes back, and the letters are moved back.
/**
 * @param {Uint8Array} letters
 * @param {number} digit
 * @param {number[]} digits
 */
function roundBefore(letters, digit, digits) {
  const [count, half] = [letters.length, letters.length >> 1];
  const before = new Uint8Array(count);
  for (let at = 0; at < count; at++) {
    const from = (at + count - (digit % count)) % count;
    const letter = letters[from < half ? 2 * from + 1 : 2 * (from - half)] - A - digits[at % digits.length];
    before[at] = A + ((letter + LETTERS) % LETTERS);
  }
  return before;
}

// The solution of a scrambled file by a key of four digits; null if the checksum says that it is another key.
/**
 * @param {Uint8Array} bytes
 * @param {string} key
 */
export function solutionBy(bytes, key) {
  const scrambled = lettersIn(bytes);
  if (!scrambled || !/^\d{4}$/.test(key)) return null;
  const letters = unscrambled(scrambled.letters, key);
  if (sumOf(letters) !== bytes[SUM] + 256 * bytes[SUM + 1]) return null;
  const solution = Uint8Array.from(solutionIn(bytes));
  scrambled.cells.forEach((cell, at) => (solution[cell] = letters[at]));
  return solution;
}

// Promises the keys that fit a scrambled file by its checksum, which by chance may be several. `turn` promises that the page had its turn.
/**
 * @param {Uint8Array} bytes
 * @param {() => Promise<void>} turn
 */
export async function keysOf(bytes, turn) {
  const scrambled = lettersIn(bytes);
  if (!scrambled) return [];
  const wanted = bytes[SUM] + 256 * bytes[SUM + 1];
  const fits = (/** @type {string} */ key) => sumOf(unscrambled(scrambled.letters, key)) === wanted;
  const found = await filtered(KEYS[0], fits, turn, scrambled.letters.length);
  return found.length ? found : filtered(KEYS[1], fits, turn, scrambled.letters.length);
}

// The keys that pass, slice by slice.
/**
 * @param {string[]} keys
 * @param {(key: string) => boolean} passes
 * @param {() => Promise<void>} turn
 * @param {number} letterCount
 */
async function filtered(keys, passes, turn, letterCount) {
  const length = Math.max(1, Math.floor(SLICE / (4 * letterCount)));
  const found = [];
  for (let at = 0; at < keys.length; at += length) {
    found.push(...keys.slice(at, at + length).filter(passes));
    await turn();
  }
  return found;
}

// The words that a solution has, across and down.
/**
 * @param {Uint8Array | null} solution
 * @param {number} width
 */
export function wordsIn(solution, width) {
  const marks = String.fromCharCode(...(solution ?? []));
  const rows = marks.match(new RegExp(`[^]{${width}}`, 'g')) ?? [];
  const columns = Array.from({ length: width }, (_, column) => rows.map((row) => row[column]).join(''));
  return [...rows, ...columns].flatMap((line) => line.split(/[.:]/)).filter((word) => word.length > 1);
}
