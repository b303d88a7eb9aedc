// Files that only pack others: zips and mails, which may be in one another.
import { isMailed, isMeant } from './kinds.js';
import { attachedTo } from './mail.js';
import { filesIn, isZip, unzipped } from './zip.js';

/** @typedef {{ name: string, bytes: Uint8Array }} Content */
/** @typedef {(holder: string, names: string[]) => Promise<number | null>} Asking promises the number of a file, or null for none */

// how deep they are opened in one another
const MOST_DEPTH = 3;

// Why nothing is opened of what packs files. The message says it.
class PackedFault extends Error {
  status = 'Packed';
}

// Promises the name and the bytes of a file, or of the one in it that is meant, which has at most so many bytes. Of several files `ask` asks which. Throws a
// PackedFault.
/**
 * @param {Content} content
 * @param {number} most
 * @param {Asking} ask
 * @returns {Promise<Content>}
 */
export async function unpacked(content, most, ask, depth = 0) {
  const { name, bytes } = content;
  if (depth === MOST_DEPTH) return content;
  if (isZip(bytes)) return unpacked(await inZip(content, most, ask), most, ask, depth + 1);
  if (!isMailed(bytes)) return content;
  const files = attachedTo(bytes).filter(isMeant);
  if (!files.length) throw new PackedFault(`${name} is a mail without a file that can be opened: nothing is opened`);
  return unpacked(await oneOf(name, files, ask), most, ask, depth + 1);
}

// The one file of a zip that is meant. A zip that only packs a puzzle, as .jpz files are, keeps its name.
/**
 * @param {Content} content
 * @param {number} most
 * @param {Asking} ask
 */
async function inZip({ name: zip, bytes }, most, ask) {
  const files = filesIn(bytes);
  if (!files.length) throw new PackedFault(`${zip} is a zip without a file that can be read: nothing is opened`);
  const file = await oneOf(zip, files, ask);
  const within = await unzipped(file, most);
  const name = file.name.replace(/^.*\//, '');
  if (!within) throw new PackedFault(`${zip}: ${name} is damaged, or too large to be a puzzle, a session or a word list: nothing is opened`);
  return { name: files.length > 1 || /\.zip$/i.test(zip) ? name : zip, bytes: within };
}

/**
 * @template {{ name: string }} File
 * @param {string} holder
 * @param {File[]} files
 * @param {Asking} ask
 */
async function oneOf(holder, files, ask) {
  const chosen = files.length > 1 ? await ask(holder, files.map(({ name }) => name)) : 0;
  const file = files[chosen ?? -1];
  if (!file) throw new PackedFault(`${holder} is not opened`);
  return file;
}
