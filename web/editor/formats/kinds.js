// What a file is, by its bytes and its name.
import { toText } from '../../xw.js';
import { isClueTable } from './clue-table.js';
import { isExolve } from './exolve.js';
import { isIpuz } from './ipuz.js';
import { isJpz } from './jpz.js';
import { isMail } from './mail.js';
import { isPuzzlesFile } from './puzzles-file.js';
import { isQxw } from './qxw.js';
import { isVersion1, isVersion2, letterRows } from './text-grids.js';
import { isWordList, listText } from './word-list.js';
import { isZip } from './zip.js';

const MAGIC = 'ACROSS&DOWN';
// where a .puz has it
const MAGIC_AT = 2;
// how many bytes tell what a file is, such as a mail
const SAMPLE = 1 << 18;
// how much of a file tells whether it is a word list: some thousands of lines, so that the page does not stand still over them
const LIST_SAMPLE = 1 << 15;
// the first line of a session that the program or this page saved
export const SESSION_HEAD = '# xw session 1';

// What a line of a session begins with. Those of older versions have no head.
const COMMANDS = [
  'size \\d+ \\d+', 'add [A-Za-z]+( \\d+)?', 'strike [A-Za-z]+', 'least \\d+', 'sym [a-z]+', '(block|circle|clear) \\d+ \\d+', 'bar \\d+ \\d+ (right|below)', 'set \\d+ \\d+ [A-Za-z]',
  '(place|erase) \\d+ (across|down)( [A-Za-z]+)?', '(text|more) \\S+.*', 'watch (on|off)',
];
const COMMAND = new RegExp(`^[ \\t]*(${COMMANDS.join('|')})[ \\t]*$`);

/** @param {string} line */
const isNote = (line) => !line.trim() || line.trimStart().startsWith('#');

// Whether the lines of a session have a command.
/** @param {string} text */
export const hasCommands = (text) => text.split('\n').some((line) => !isNote(line));

/**
 * @param {string} name
 * @param {string} head
 */
function isSession(name, head) {
  const lines = head.split(/\r?\n/);
  if (/\.xw$/i.test(name) || lines[0].trim() === SESSION_HEAD) return true;
  return COMMAND.test(lines.find((line) => !isNote(line)) ?? '');
}

/** @param {Uint8Array} bytes */
const isSixteenBits = (bytes) => (bytes[0] === 0xff && bytes[1] === 0xfe) || (bytes[0] === 0xfe && bytes[1] === 0xff);

// Whether a puzzle is a .puz, and not a text.
/** @param {Uint8Array} bytes */
export const isPuz = (bytes) => toText(bytes.subarray(MAGIC_AT, MAGIC_AT + MAGIC.length)) === MAGIC;

// Whether a file is a mail.
/** @param {Uint8Array} bytes */
export const isMailed = (bytes) => isMail(toText(bytes.subarray(0, SAMPLE)));

// Whether the bytes of a file are a word list, whatever its name.
/** @param {Uint8Array} bytes */
export const isListText = (bytes) => isText(bytes) && isWordList(listText(bytes.subarray(0, LIST_SAMPLE)));

// A text of bytes has no NUL, and pictures and archives have one soon.
/** @param {Uint8Array} bytes */
const isText = (bytes) => isSixteenBits(bytes) || !bytes.subarray(0, 4096).includes(0);

// How files of other kinds begin, and what these are.
/** @type {[RegExp, string][]} */
const FOREIGN = [
  [/^\x89PNG\r\n/, 'a picture (PNG)'], [/^\xff\xd8\xff/, 'a picture (JPEG)'], [/^GIF8[79]a/, 'a picture (GIF)'], [/^RIFF[^]{4}WEBP/, 'a picture (WebP)'],
  [/^%PDF-/, 'a document (PDF)'], [/^\x1f\x8b/, 'a packed file (gzip)'], [/^Rar!\x1a|^7z\xbc\xaf/, 'an archive that is no zip'], [/^\s*<(!doctype html|html)\b/i, 'a web page (HTML)'],
];

// What a file of another kind is, such as a picture; or null.
/** @param {Uint8Array} bytes */
export function foreignKind(bytes) {
  const head = String.fromCharCode(...bytes.subarray(0, 64));
  return FOREIGN.find(([begin]) => begin.test(head))?.[1] ?? null;
}

// What the bytes of a file say that it is; null if they do not tell.
/**
 * @param {string} head
 * @param {Uint8Array} bytes
 */
function kindIn(head, bytes) {
  if (isPuz(bytes) || isVersion1(head)) return 'puzzle';
  // a mail may have any other in it
  if (isMailed(bytes)) return 'mail';
  if (isVersion2(head)) return 'text2';
  if (isPuzzlesFile(head)) return 'puzzles';
  if (isIpuz(head)) return 'ipuz';
  if (isJpz(head)) return 'jpz';
  if (isQxw(head)) return 'qxw';
  if (isExolve(toText(bytes.subarray(0, SAMPLE)))) return 'exolve';
  return foreignKind(bytes) && 'foreign';
}

// What the ends of names say.
/** @type {Record<string, string>} */
const NAMED = { puz: 'puzzle', ipuz: 'ipuz', jpz: 'jpz', qxd: 'deck' };

// What a file is: `puzzle` (.puz or text), `text2` (text of version 2), `ipuz`, `jpz`, `exolve`, `qxw`, `deck`, `session`, `clues` (a table), `puzzles`, `list`, `rows` (a grid of letters, or a
// list of words of one length), `empty`, `mail`, `foreign` (of a kind that foreignKind tells), or `other`.
/**
 * @param {string} name
 * @param {Uint8Array} bytes
 */
export function kindOf(name, bytes) {
  if (!bytes.length) return 'empty';
  const head = toText(bytes.subarray(0, 4096)).replace(/^\u00ef\u00bb\u00bf/, '');
  const kind = kindIn(head, bytes) ?? NAMED[/\.(\w+)$/.exec(name)?.[1].toLowerCase() ?? ''];
  if (kind) return kind;
  if (isClueTable(head)) return 'clues';
  if (isSession(name, head)) return 'session';
  if (!isText(bytes)) return 'other';
  if (bytes.length < SAMPLE && letterRows(listText(bytes))) return 'rows';
  return isListText(bytes) ? 'list' : 'other';
}

// The kinds of files that have a puzzle, whatever their names.
const PUZZLES = new Set(['puzzle', 'text2', 'ipuz', 'jpz', 'exolve', 'qxw', 'deck', 'session', 'puzzles']);
// The kinds that cannot be opened.
const OTHERS = new Set(['empty', 'foreign', 'other']);

// Whether a file in a mail can be opened. Of a text without a name only a puzzle is meant.
/** @param {{ name: string, isNamed: boolean, bytes: Uint8Array }} file */
export function isMeant({ name, isNamed, bytes }) {
  const kind = kindOf(name, bytes);
  return PUZZLES.has(kind) || (isNamed && (isZip(bytes) || !OTHERS.has(kind)));
}
