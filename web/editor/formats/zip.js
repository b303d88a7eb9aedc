// The files in a zip, in which some programs put their puzzles.
import { listText } from './word-list.js';

const [FILE, DIRECTORY, END] = [0x04034b50, 0x02014b50, 0x06054b50];
const [STORED, DEFLATED] = [0, 8];
// the end of the directory has this size without its comment, which is at most so long
const END_SIZE = 22;
const MOST_COMMENT = 0xffff;
// what archives have beside their files: folders, and what systems note of files
const ASIDE = /\/$|^__MACOSX\/|(^|\/)\.[^/]*$/;

/** @typedef {{ name: string, method: number, packed: Uint8Array }} Entry */

/** @param {Uint8Array} bytes */
export const isZip = (bytes) => bytes.length > END_SIZE && new DataView(bytes.buffer, bytes.byteOffset).getUint32(0, true) === FILE;

// The files of a zip, without folders; none if its directory is damaged.
/**
 * @param {Uint8Array} bytes
 * @returns {Entry[]}
 */
export function filesIn(bytes) {
  const view = new DataView(bytes.buffer, bytes.byteOffset, bytes.byteLength);
  const long = (/** @type {number} */ at) => view.getUint32(at, true);
  const short = (/** @type {number} */ at) => view.getUint16(at, true);
  try {
    let end = bytes.length - END_SIZE;
    while (long(end) !== END) if (--end < bytes.length - END_SIZE - MOST_COMMENT) return [];
    const files = [];
    let at = long(end + 16);
    for (let left = short(end + 10); left > 0; left--) {
      if (long(at) !== DIRECTORY) return [];
      const [length, size, head] = [short(at + 28), long(at + 20), long(at + 42)];
      const name = listText(bytes.subarray(at + 46, at + 46 + length));
      const begin = head + 30 + short(head + 26) + short(head + 28);
      if (!ASIDE.test(name)) files.push({ name, method: short(at + 10), packed: bytes.subarray(begin, begin + size) });
      at += 46 + length + short(at + 30) + short(at + 32);
    }
    return files;
  } catch {
    // an offset lies outside
    return [];
  }
}

// The bytes of a file; or null if there are more than so many, whatever the zip declares, or they are damaged.
/**
 * @param {Entry} file
 * @param {number} most
 * @returns {Promise<Uint8Array | null>}
 */
export async function unzipped({ method, packed }, most) {
  if (method === STORED) return packed.length > most ? null : packed;
  if (method !== DEFLATED) return null;
  const reader = new Blob([packed]).stream().pipeThrough(new DecompressionStream('deflate-raw')).getReader();
  const parts = [];
  let length = 0;
  try {
    for (let part = await reader.read(); !part.done; part = await reader.read()) {
      length += part.value.length;
      if (length > most) {
        reader.cancel();
        return null;
      }
      parts.push(part.value);
    }
  } catch {
    return null;
  }
  return new Uint8Array(await new Blob(parts).arrayBuffer());
}
