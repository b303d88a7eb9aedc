// The sections behind the texts of a .puz, and those of cells with several letters: `GRBS` has a number for each cell, 0 or one more than that in the table
// `RTBL`, such as ` 0:HEART; 1:AB;`.
import { toBytes, toText } from '../../xw.js';

const HEADER = 0x34;
const [WIDTH, HEIGHT, CLUES] = [0x2c, 0x2d, 0x2e];
// name, length and checksum
const HEAD = 8;

// A checksum of .puz that goes on from another.
/**
 * @param {Uint8Array | number[]} bytes
 * @param {number} begin
 */
export const sumOf = (bytes, begin = 0) => /** @type {number[]} */ (bytes).reduce((sum, byte) => (((sum >> 1) | ((sum & 1) << 15)) + byte) & 0xffff, begin);

/** @param {number} number */
const pair = (number) => [number & 255, number >> 8];
/** @param {Uint8Array} bytes */
const sizeOf = (bytes) => bytes[WIDTH] * bytes[HEIGHT];

// Where the texts end: title, author, copyright, clues and notes.
/** @param {Uint8Array} bytes */
function endOfTexts(bytes) {
  let at = HEADER + 2 * sizeOf(bytes);
  for (let text = 0; text < bytes[CLUES] + 256 * bytes[CLUES + 1] + 4; text++) at = bytes.indexOf(0, at) + 1 || bytes.length;
  return at;
}

// The section at a place, with whether its checksum is right; null if none begins there.
/**
 * @param {Uint8Array} bytes
 * @param {number} at
 */
export function sectionAt(bytes, at) {
  const name = toText(bytes.subarray(at, at + 4));
  if (at + HEAD > bytes.length || !/^[A-Z]{4}$/.test(name)) return null;
  const [length, sum] = [bytes[at + 4] + 256 * bytes[at + 5], bytes[at + 6] + 256 * bytes[at + 7]];
  const data = bytes.subarray(at + HEAD, at + HEAD + length);
  return { name, data, isSound: data.length === length && sumOf(data) === sum };
}

// The sections from where the texts end, in their order.
/**
 * @param {Uint8Array} bytes
 * @param {number} begin
 */
export function sectionsFrom(bytes, begin) {
  /** @type {{ name: string, data: Uint8Array, isSound: boolean }[]} */
  const sections = [];
  let at = begin;
  for (let section = sectionAt(bytes, at); section; section = sectionAt(bytes, at)) {
    sections.push(section);
    at += HEAD + section.data.length + 1;
  }
  return sections;
}

// The bytes of sections, by their names.
/**
 * @param {Uint8Array} bytes
 * @returns {Map<string, Uint8Array>}
 */
export const sectionsOf = (bytes, sections = sectionsFrom(bytes, endOfTexts(bytes))) => new Map(sections.map(({ name, data }) => [name, data]));

// The cells with several letters, and the letters that they have in the grid.
/** @param {Uint8Array} bytes */
export function rebusOf(bytes, sections = sectionsOf(bytes)) {
  const [width, solution] = [bytes[WIDTH], bytes.subarray(HEADER, HEADER + sizeOf(bytes))];
  const entries = new Map(toText(sections.get('RTBL') ?? new Uint8Array()).split(';').map((one) => one.split(':')).filter(([, entry]) => entry).map(([number, entry]) => /** @type {[number, string]} */ ([Number(number), entry])));
  const cells = [...(sections.get('GRBS') ?? []).slice(0, solution.length)].map((number, at) => ({ number, at })).filter(({ number }) => number);
  const letterAt = (/** @type {number} */ at) => /^[A-Z]$/.exec(String.fromCharCode(solution[at]).toUpperCase())?.[0] ?? 'empty';
  return cells.map(({ number, at }) => ({
    row: Math.floor(at / width) + 1, column: (at % width) + 1, entry: (entries.get(number - 1) ?? 'what is there').toUpperCase(), letter: letterAt(at),
  }));
}

// A .puz with sections for its cells with several letters, by their indices.
/**
 * @param {Uint8Array} bytes
 * @param {Map<number, string>} cells
 */
export function withRebus(bytes, cells) {
  if (!cells.size) return bytes;
  const table = [...new Set(cells.values())];
  const marks = Uint8Array.from({ length: sizeOf(bytes) }, (_, at) => table.indexOf(cells.get(at) ?? '') + 1);
  const section = (/** @type {string} */ name, /** @type {Uint8Array} */ data) => [...toBytes(name), ...pair(data.length), ...pair(sumOf(data)), ...data, 0];
  const end = endOfTexts(bytes);
  const spelled = toBytes(table.map((entry, at) => `${String(at).padStart(2)}:${entry};`).join(''));
  return Uint8Array.from([...bytes.subarray(0, end), ...section('GRBS', marks), ...section('RTBL', spelled), ...bytes.subarray(end)]);
}
