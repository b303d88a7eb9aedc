// The files that are attached to a mail: a message of MIME, with its parts, their encodings and the names of files.
import { toBytes, toText } from '../../xw.js';

/** @typedef {{ name: string, isNamed: boolean, bytes: Uint8Array }} Attached */

// messages and their parts are in one another no deeper
const MOST_DEPTH = 10;
// how a part without the name of a file is called
const UNNAMED = 'the text of the mail';

const HEADER = /^(from|to|subject|date|received|return-path|delivered-to|message-id|mime-version|content-(type|disposition|transfer-encoding)): /i;

// Whether a text begins with the lines that a mail has before its text.
/** @param {string} head */
export function isMail(head) {
  if (!/^[\w-]+: |^From \S+@/.test(head)) return false;
  return head.split(/\r?\n\r?\n/, 1)[0].split('\n').filter((line) => HEADER.test(line)).length > 1;
}

// The files of a mail, with its text as one without a name.
/**
 * @param {Uint8Array} bytes
 * @returns {Attached[]}
 */
export const attachedTo = (bytes) => filesOf(toText(bytes), 0);

// The files of a message or a part. What is in it is spelled with a character for each byte.
/**
 * @param {string} message
 * @param {number} depth
 * @returns {Attached[]}
 */
function filesOf(message, depth) {
  const end = /^\r?\n|\r?\n\r?\n/.exec(message) ?? { index: message.length, 0: '' };
  const [headers, body] = [headersIn(message.slice(0, end.index)), message.slice(end.index + end[0].length)];
  const type = parted(headers.get('content-type') ?? 'text/plain');
  const content = decoded(body, (headers.get('content-transfer-encoding') ?? '').trim().toLowerCase());
  if (depth < MOST_DEPTH && type.parameters.has('boundary')) return partsIn(body, type.parameters.get('boundary') ?? '').flatMap((part) => filesOf(part, depth + 1));
  if (depth < MOST_DEPTH && type.value === 'message/rfc822') return filesOf(content, depth + 1);
  const name = parted(headers.get('content-disposition') ?? '').parameters.get('filename') ?? type.parameters.get('name');
  return [{ name: name?.replace(/^.*[/\\]/, '') || UNNAMED, isNamed: Boolean(name), bytes: toBytes(content) }];
}

// The headers, by their names in lower case.
/** @param {string} head */
function headersIn(head) {
  const lines = head.replace(/\r?\n[ \t]+/g, ' ').split(/\r?\n/);
  return new Map(lines.flatMap((line) => {
    const [, name, value] = /^([\w-]+):(.*)$/.exec(line) ?? [];
    return name ? [/** @type {[string, string]} */ ([name.toLowerCase(), value.trim()])] : [];
  }));
}

// The parts between the lines of a boundary.
/**
 * @param {string} body
 * @param {string} boundary
 */
function partsIn(body, boundary) {
  const line = new RegExp(`(?:^|\\r?\\n)--${boundary.replace(/[^\w ]/g, '\\$&')}(?:--)?[ \\t]*(?=\\r?\\n|$)`);
  return body.split(line).slice(1).map((part) => part.replace(/^\r?\n/, ''));
}

const PARAMETER = /;\s*([^\s=;*]+)(?:\*(\d+))?(\*)?\s*=\s*(?:"((?:[^"\\]|\\.)*)"|([^;]*))/g;

// A header with parameters: its value in lower case, and the parameters by name. A long one is in numbered pieces; one with a star spells its bytes by `%`.
/** @param {string} header */
function parted(header) {
  /** @type {Map<string, string>} */
  const parameters = new Map();
  for (const [, name, , star, quoted, bare = ''] of header.matchAll(PARAMETER)) {
    const spelled = quoted?.replace(/\\(.)/g, '$1') ?? bare.trim();
    const text = star ? unescaped(spelled.replace(/^[^']*'[^']*'/, '')) : wordsIn(spelled);
    parameters.set(name.toLowerCase(), (parameters.get(name.toLowerCase()) ?? '') + text);
  }
  return { value: header.split(';', 1)[0].trim().toLowerCase(), parameters };
}

/** @param {string} text */
const decodedUtf8 = (text) => new TextDecoder().decode(toBytes(text));
/** @param {string} hex */
const byteOf = (hex) => toText(Uint8Array.of(Number.parseInt(hex, 16)));
/** @param {string} text */
const unescaped = (text) => decodedUtf8(text.replace(/%([0-9a-f]{2})/gi, (_, hex) => byteOf(hex)));

// A text with the words that spell other characters than ASCII, such as `=?utf-8?Q?caf=C3=A9?=`.
/** @param {string} text */
function wordsIn(text) {
  return text.replace(/\?=\s+=\?/g, '?==?').replace(/=\?([\w-]+)\?([bq])\?([^?]*)\?=/gi, (_, charset, kind, word) => {
    const bytes = decoded(kind.toLowerCase() === 'q' ? word.replaceAll('_', ' ') : word, kind.toLowerCase() === 'q' ? 'quoted-printable' : 'base64');
    return /^utf-?8$/i.test(charset) ? decodedUtf8(bytes) : bytes;
  });
}

// What a body spells in an encoding, with a character for each byte.
/**
 * @param {string} body
 * @param {string} encoding
 */
function decoded(body, encoding) {
  if (encoding === 'quoted-printable') return body.replace(/=[ \t]*\r?\n/g, '').replace(/=([0-9a-f]{2})/gi, (_, hex) => byteOf(hex));
  if (encoding !== 'base64') return body;
  const digits = body.replace(/[^A-Za-z0-9+/]/g, '');
  // one digit alone spells no byte
  const spelled = atob(digits.slice(0, digits.length - Number(digits.length % 4 === 1)));
  return toText(Uint8Array.from(spelled, (character) => character.charCodeAt(0)));
}
