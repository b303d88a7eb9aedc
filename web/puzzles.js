// Puzzle files: a session that begins with one, and the commands `check` and `convert`.
import { isPuzName } from './apart.js';
import { expectFree, keep, read, replace, stampOf } from './disk.js';
import { ACCEPTED, Fatal, cannotWrite, failureOf, malformed, memory } from './failure.js';
import { Fault, Xw, ask } from './xw.js';

const MAGIC = Buffer.from('ACROSS&DOWN\0');
// where a `.puz` file has its magic, its size, its number of clues, and its boards: docs/formats.md
const [MAGIC_AT, WIDTH_AT, HEIGHT_AT, CLUES_AT, BOARDS_AT] = [0x02, 0x2c, 0x2d, 0x2e, 0x34];
// the title, the author, the copyright and the notes
const TEXTS = 4;
// a section has a name of 4 bytes, a length and a checksum of 2 bytes each, its data, and a NUL
const SECTION_HEAD = 8;

const isPuz = (bytes) => bytes.subarray(MAGIC_AT, MAGIC_AT + MAGIC.length).equals(MAGIC);

const areaOf = (bytes) => bytes[WIDTH_AT] * bytes[HEIGHT_AT];

// The names of the sections of a `.puz` file that has no fault.
function* sectionsOf(bytes) {
  let at = BOARDS_AT + 2 * areaOf(bytes);
  for (let text = 0; text < TEXTS + bytes.readUInt16LE(CLUES_AT); text++) at = bytes.indexOf(0, at) + 1;
  for (let end; at + SECTION_HEAD < bytes.length; at = end) {
    end = at + SECTION_HEAD + bytes.readUInt16LE(at + 4) + 1;
    // the last section may be cut off
    if (end > bytes.length || bytes[end - 1] !== 0) return;
    yield bytes.toString('latin1', at, at + 4);
  }
}

const hasRebus = (bytes) => [...sectionsOf(bytes)].includes('GRBS');

// Whether a solver entered something: a cell of the state is neither empty nor a block.
const hasLetters = (bytes) => bytes.subarray(BOARDS_AT + areaOf(bytes), BOARDS_AT + 2 * areaOf(bytes)).some((byte) => byte !== 0x2d && byte !== 0x2e);

// The lines that name what of a puzzle file is lost if its puzzle is written over it, or null if nothing is. Rebus cells were told when it was read.
function lostLines(file, bytes) {
  if (!isPuz(bytes)) return null;
  const names = [...sectionsOf(bytes)].filter((name) => name !== 'GEXT');
  const isKnown = (name) => ['GRBS', 'RTBL', 'LTIM', 'RUSR'].includes(name);
  const lost = {
    'the timer is not kept': names.includes('LTIM'),
    'the letters of a solver are not kept': hasLetters(bytes) || names.includes('RUSR'),
    'unknown sections are not kept': !names.every(isKnown),
  };
  const lines = Object.keys(lost).filter((said) => lost[said]);
  if (!names.length && !lines.length) return null;
  return lines.map((said) => `xw: ${file}: ${said}\n`).join('');
}

// The line with which the file of a session begins.
const SESSION = Buffer.from('# xw session 1');
export const MARK = Buffer.from('\xef\xbb\xbf', 'latin1');
const startsWith = (bytes, start) => bytes.subarray(0, start.length).equals(start);

/** Whether the bytes of a file are a session, with or without a byte order mark before it. */
export const isSession = (bytes) => startsWith(bytes, SESSION) || startsWith(bytes, Buffer.concat([MARK, SESSION]));

// Keeps what a file has before a puzzle is written over it: a session that the call did not read, and of the file that it read what the puzzle has not.
function keepFirst(file, readAs, apart, desk) {
  expectFree(file);
  const stamp = stampOf(file);
  if (!stamp) return;
  let bytes;
  // what cannot be read might be lost
  if (failureOf(() => (bytes = read(file)))) throw cannotWrite(file);
  const lines = stamp === readAs ? lostLines(file, bytes) : isSession(bytes) ? '' : null;
  if (lines === null) return;
  desk.report(lines);
  desk.report(`xw: ${file}: the old file is kept as ${keep(file, apart, bytes)}\n`);
}

/** What the file is like that is read by a name. */
export const stampToRead = (name) => stampOf(name === '-' ? '/dev/stdin' : name);

/** Does a call of the engine. Its fault becomes the failure of a file. */
export function done(file, call) {
  try {
    return call();
  } catch (fault) {
    if (!(fault instanceof Fault)) throw fault;
    throw fault.status === 'Memory' ? memory() : malformed(file, fault.status);
  }
}

/** Opens a session over a list on the bytes of a puzzle file. `note` tells what of the file is not kept, if anything. */
export function openPuzzle(module, list, file, bytes) {
  // to the engine no bytes are an empty grid
  const puzzle = bytes.length ? bytes : Buffer.from('\n');
  const xw = done(file, () => Xw.open(module, { list, puzzle }));
  return { xw, note: isPuz(bytes) && hasRebus(bytes) ? `xw: ${file}: rebus cells are not kept\n` : '' };
}

/**
 * Writes the puzzle of a session to a file, in the format that its name asks for. All its bytes are made first, and what the file had is kept if it would be
 * lost; `readAs` is what the file was like from which the puzzle was read, and the other name does not lead to `apart`.
 */
export function writePuzzle(xw, file, readAs, apart, desk) {
  const bytes = done(file, () => (isPuzName(file) ? xw.puz() : xw.text()));
  keepFirst(file, readAs, apart, desk);
  replace(file, bytes);
}

/** Writes one puzzle file into another. */
export function convert(module, [from, to], desk) {
  const readAs = stampToRead(from);
  const { xw, note } = openPuzzle(module, '', from, desk.read(from));
  desk.report(note);
  writePuzzle(xw, to, readAs, undefined, desk);
  if (!/\.(puz|txt)$/i.test(to)) desk.report(`xw: ${to}: written as text\n`);
  return ACCEPTED;
}

// Prints the format, the size and the number of lights of a puzzle file.
function checkFile(module, file, isNamed, desk) {
  const bytes = desk.read(file);
  const { xw, note } = openPuzzle(module, '', file, bytes);
  desk.report(note);
  const [width, height] = ask(xw, 'record').find((line) => line.startsWith('size ')).split(' ').slice(1);
  const { lights } = ask(xw, 'stats');
  desk.write(Buffer.from(`${isNamed ? `${file}: ` : ''}${isPuz(bytes) ? 'puz' : 'text'} ${width}x${height} ${lights} lights\n`));
}

/** Prints a line for each puzzle file. Of several files each that has a fault is reported, and the others are checked; the status is the greatest. */
export function check(module, files, desk) {
  let status = ACCEPTED;
  for (const file of files) {
    const failure = failureOf(() => checkFile(module, file, files.length > 1, desk));
    if (!failure) continue;
    if (files.length === 1 || failure instanceof Fatal) throw failure;
    desk.report(failure.message);
    status = Math.max(status, failure.status);
  }
  return status;
}
