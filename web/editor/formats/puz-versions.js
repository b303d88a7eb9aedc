// `.puz` files of other versions, as files of version 1.3, which the engine reads. In 1.2 the checksums are without the notes. In 2.0 the texts are UTF-8.
import { toBytes, toText } from '../../xw.js';
import { nearestText } from '../model/record.js';
import { refusalText } from '../views/messages.js';
import { FileFault } from './given.js';
import { sumOf } from './puz-sections.js';

/** @typedef {import('./given.js').FirstCell} FirstCell */

const HEADER = 0x34;
// where the header has the checksum of the file, that of the CIB with the masked ones after it, the version, the CIB, and the tag of a scrambled file
const [FILE_SUM, CIB_SUM, VERSION, CIB, SCRAMBLED] = [0x00, 0x0e, 0x18, 0x2c, 0x32];
const MASK = 'ICHEATED';
const OTHERS = ['1.2', '1.4', '2.0'];

// The bytes of a file as version 1.3, and its texts in order, with those characters that 1.3 cannot have; none if it is of version 1.3 or is refused by
// the engine. Throws a FileFault if a checksum is wrong.
/**
 * @param {Uint8Array} bytes
 * @returns {{ bytes: Uint8Array, texts: string[] }}
 */
export function asVersion13(bytes) {
  const version = toText(bytes.subarray(VERSION, VERSION + 3));
  // the byte behind it, which may be a letter, says nothing
  if (!OTHERS.includes(version) && (version !== '1.3' || !bytes[VERSION + 3])) return { bytes, texts: [] };
  const plain = Uint8Array.from(bytes);
  plain.set(toBytes('1.3\0'), VERSION);
  const parts = partsOf(plain);
  // the engine says what is wrong
  if (!parts || plain[SCRAMBLED] || plain[SCRAMBLED + 1]) return { bytes: plain, texts: [] };
  const sums = sumsOf(plain, parts, version !== '1.2');
  if (sums.some(({ at, bytes: sum }) => sum.some((byte, index) => plain[at + index] !== byte))) throw new FileFault(refusalText('BadSum'));
  const texts = parts.texts.map((text) => (version === '2.0' ? new TextDecoder().decode(text) : toText(text)));
  const near = texts.map((text) => toBytes(nearestText(text).near));
  const made = joined(plain.subarray(0, parts.texts[0].byteOffset - plain.byteOffset), ...near.flatMap((text) => [text, Uint8Array.of(0)]), parts.rest);
  for (const { at, bytes: sum } of sumsOf(made, { ...parts, texts: near }, true)) made.set(sum, at);
  return { bytes: made, texts };
}

// The texts that have other characters than a record, by field. The clues are those of the lights in order.
/**
 * @param {string[]} texts
 * @param {FirstCell[]} lights
 * @returns {import('../model/state.js').Pair[]}
 */
export function originalsOf(texts, lights) {
  const fields = ['title', 'author', 'copyright', ...lights.map(({ row, column, direction }) => `clue ${row} ${column} ${direction}`), 'notes'];
  return texts.flatMap((text, at) => (nearestText(text).count ? [[fields[at], text]] : []));
}

// The parts of a file: the boards, the texts without their NULs, and what is behind these; null if it ends too early.
/** @param {Uint8Array} bytes */
function partsOf(bytes) {
  const size = bytes[CIB] * bytes[CIB + 1];
  const count = bytes[CIB + 2] + 256 * bytes[CIB + 3] + 4;
  const texts = [];
  let at = HEADER + 2 * size;
  while (texts.length < count) {
    const end = bytes.indexOf(0, at);
    if (end < 0) return null;
    texts.push(bytes.subarray(at, end));
    at = end + 1;
  }
  return { size, texts, rest: bytes.subarray(at) };
}

// The checksums of a file, and where they are.
/**
 * @param {Uint8Array} bytes
 * @param {{ size: number, texts: Uint8Array[] }} parts
 * @param {boolean} hasNotes
 */
export function sumsOf(bytes, { size, texts }, hasNotes) {
  const [solution, state] = [bytes.subarray(HEADER, HEADER + size), bytes.subarray(HEADER + size, HEADER + 2 * size)];
  const cib = sumOf(bytes.subarray(CIB, CIB + 8));
  const whole = (/** @type {Uint8Array} */ text) => (text.length ? [...text, 0] : []);
  const covered = [...texts.slice(0, 3).flatMap(whole), ...texts.slice(3, -1).flatMap((text) => [...text]), ...(hasNotes ? whole(texts[texts.length - 1]) : [])];
  const sums = [cib, sumOf(solution), sumOf(state), sumOf(covered)];
  const masked = [...MASK].map((letter, at) => letter.charCodeAt(0) ^ (at < 4 ? sums[at] & 255 : sums[at - 4] >> 8));
  const pair = (/** @type {number} */ sum) => [sum & 255, sum >> 8];
  return [{ at: FILE_SUM, bytes: pair(sumOf(covered, sumOf(state, sumOf(solution, cib)))) }, { at: CIB_SUM, bytes: [...pair(cib), ...masked] }];
}

/** @param {Uint8Array[]} parts */
function joined(...parts) {
  const bytes = new Uint8Array(parts.reduce((sum, part) => sum + part.length, 0));
  let at = 0;
  for (const part of parts) {
    bytes.set(part, at);
    at += part.length;
  }
  return bytes;
}
