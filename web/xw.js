// The crossword engine in JavaScript: an ES module for browsers and Node. docs/embedding.md has an example.
//
//   const module = await load();
//   const xw = Xw.open(module, { list, puzzle, record });
//   xw.line('words 1 across 3')  →  { lines: ['55', 'CAB'], ok: true, refusal: null }
//   xw.puz(), xw.text(), xw.record()  →  the bytes of a file
//   for await (const { grade, rows } of xw.best({ signal }))  →  better and better fills
//   xw.close()
//
// ask, autofill and best give answers as values, and search in slices.
import { fills } from './asking.js';

export { ask, autofill, best } from './asking.js';

// The statuses of include/xw.h, in the order of their numbers.
export const STATUSES = [
  'Accepted', 'Refused', 'Silent', 'Closed', 'Open', 'Memory', 'NoCommand', 'Full', 'Short', 'Magic', 'Version', 'Scrambled', 'Size', 'NoNul',
  'BadSum', 'BadCell', 'ClueCount', 'Header', 'Tag', 'SizeLine', 'GridLine', 'AcrossCount', 'DownCount', 'NulByte', 'GextSize', 'GextSum',
  'Barred', 'NotFilled', 'Field', 'Circled', 'Cut',
];

// A call that was not done. `status` is one of STATUSES, and `answer` has the lines that were written, if any. Or `status` is `Character`,
// and `answer` is a character that texts cannot have.
export class Fault extends Error {
  constructor(status, answer = '', message = answer ? `${status}\n${answer}` : status) {
    super(message);
    this.name = 'Fault';
    this.status = status;
    this.answer = answer;
  }
}

// The characters of the bytes 80 to 9F in Windows-1252, as browsers read it: a byte without a character is a control character. All other
// bytes are the characters of the same number. So each byte is one character, and bytes that are read and written again are the same.
// TextDecoder is used for ASCII alone, since some versions of Node take windows-1252 for ISO-8859-1.
const HIGH = '€\x81‚ƒ„…†‡ˆ‰Š‹Œ\x8dŽ\x8f\x90‘’“”•–—˜™š›œ\x9džŸ';
const HIGH_BYTES = new Map(Array.from(HIGH, (character, at) => [character, 0x80 + at]));

const isPlain = (unit) => unit < 0x80 || (unit > 0x9f && unit < 0x100);

// The bytes of a string in Windows-1252. Throws a Fault with the status `Character` if the string has another character, and a TypeError if it
// is not a string.
export function toBytes(text) {
  if (typeof text !== 'string') throw new TypeError('the text is not a string');
  const bytes = new Uint8Array(text.length);
  for (let at = 0; at < text.length; at++) {
    const unit = text.charCodeAt(at);
    const byte = isPlain(unit) ? unit : HIGH_BYTES.get(text[at]);
    if (byte === undefined) throw strange(text.codePointAt(at));
    bytes[at] = byte;
  }
  return bytes;
}

function strange(code) {
  const character = String.fromCodePoint(code);
  const name = `U+${code.toString(16).toUpperCase().padStart(4, '0')}`;
  return new Fault('Character', character, `${character} (${name}) is not a character of Windows-1252`);
}

const ASCII = new TextDecoder();

function isAscii(bytes) {
  for (let at = 0; at < bytes.length; at++) if (bytes[at] > 0x7f) return false;
  return true;
}

// The string that bytes are in Windows-1252. It has one character for each byte. Throws a TypeError for anything but bytes.
export function toText(source) {
  const bytes = rawBytesOf(source, 'the source is not a Uint8Array or an ArrayBuffer');
  if (isAscii(bytes)) return ASCII.decode(bytes);
  let text = '';
  for (let at = 0; at < bytes.length; at += 8192) text += String.fromCharCode.apply(null, bytes.subarray(at, at + 8192));
  return text.replace(/[\x80-\x9f]/g, (character) => HIGH[character.charCodeAt(0) - 0x80]);
}

// Whether a value has a type of the language, also if it comes from another frame.
const isA = (value, type) => Object.prototype.toString.call(value) === `[object ${type}]`;

// The bytes of a Uint8Array, an ArrayBuffer or a string.
function bytesOf(source, name) {
  return typeof source === 'string' ? toBytes(source) : rawBytesOf(source, `${name} is not a string, a Uint8Array or an ArrayBuffer`);
}

function rawBytesOf(source, fault) {
  if (isA(source, 'Uint8Array')) return source;
  if (isA(source, 'ArrayBuffer')) return new Uint8Array(source);
  throw new TypeError(fault);
}

// What `open` takes.
const OPTIONS = ['list', 'puzzle', 'record'];

// Throws a TypeError if the options of `open` are no object, or have a name that it does not take.
function expectOptions(options) {
  if (!options || typeof options !== 'object') throw new TypeError('the options are not an object: open takes { list, puzzle, record }');
  const other = Object.keys(options).find((name) => !OPTIONS.includes(name));
  if (other !== undefined) throw new TypeError(`${other} is not an option of open, which takes list, puzzle and record`);
}

// Compiles the module: from its bytes, or from a place. That is a URL, or in Node also a path. By default it is xw.wasm beside this file.
export async function load(source = new URL('xw.wasm', import.meta.url)) {
  const isBytes = isA(source, 'ArrayBuffer') || ArrayBuffer.isView(source);
  return WebAssembly.compile(isBytes ? source : await bytesAt(source));
}

// A name that bundlers for the web do not follow.
const NODE_FILES = 'node:fs/promises';

async function bytesAt(place) {
  const name = String(place);
  // Node does not fetch files
  if (globalThis.process?.versions?.node && !/^(https?|data|blob):/.test(name)) {
    const { readFile } = await import(/* webpackIgnore: true */ /* @vite-ignore */ NODE_FILES);
    return readFile(name.startsWith('file:') ? new URL(name) : name);
  }
  const response = await fetch(place);
  if (!response.ok) throw new Error(`${place}: ${response.status}`);
  return response.arrayBuffer();
}

// An allocator over the memory of an instance. Blocks come in classes of size; each is preceded by its size, and a block that is given
// back is used again for its class.
class Heap {
  static HEAD = 16;
  // the least growth of the memory in bytes
  static GROWTH = 1 << 22;

  #memory;
  #top;
  #view;
  #free = new Map();

  begin(memory, base) {
    this.#memory = memory;
    this.#top = Math.ceil(base / 16) * 16;
  }

  // The size of the blocks that hold this many bytes: a multiple of 16, and above 512 one of four sizes between two powers of two.
  static sizeOf(length) {
    if (length <= 512) return Math.max(16, Math.ceil(length / 16) * 16);
    const step = 2 ** (Math.floor(Math.log2(length)) - 2);
    return Math.ceil(length / step) * step;
  }

  // The memory as it is now; when it grows, older views lose it.
  #now() {
    if (this.#view?.buffer !== this.#memory.buffer) this.#view = new DataView(this.#memory.buffer);
    return this.#view;
  }

  #grow(bytes) {
    const pages = Math.ceil(bytes / 65536);
    try {
      this.#memory.grow(pages);
    } catch (error) {
      // a 64-bit memory counts in BigInt
      if (!(error instanceof TypeError)) throw error;
      this.#memory.grow(BigInt(pages));
    }
  }

  // Returns the address of a new block, or 0 if there is no memory.
  take(length) {
    const size = Heap.sizeOf(length);
    const at = this.#free.get(size)?.pop();
    if (at !== undefined) return at;
    const block = this.#top + Heap.HEAD;
    const lacking = block + size - this.#memory.buffer.byteLength;
    if (lacking > 0) {
      try {
        this.#grow(Math.max(lacking, Heap.GROWTH));
      } catch {
        try {
          this.#grow(lacking);
        } catch {
          return 0;
        }
      }
    }
    this.#top = block + size;
    this.#now().setFloat64(this.#top - size - Heap.HEAD, size, true);
    return block;
  }

  give(block) {
    const size = this.#sizeAt(block);
    const free = this.#free.get(size);
    if (free) free.push(block);
    else this.#free.set(size, [block]);
  }

  #sizeAt(block) {
    return this.#now().getFloat64(block - Heap.HEAD, true);
  }

  // Moves `kept` bytes to a block of another length. Returns its address, or 0 if there is no memory; the old block then stays.
  move(block, kept, length) {
    if (Heap.sizeOf(length) === this.#sizeAt(block)) return block;
    const other = this.take(length);
    if (other) {
      new Uint8Array(this.#memory.buffer).copyWithin(other, block, block + Math.min(kept, length));
      this.give(block);
    }
    return other;
  }

  bytes(block, length) {
    return new Uint8Array(this.#memory.buffer, block, length);
  }

  // Writes what a call of the allocator gives: whether there is a block, and 8 bytes on its address.
  #tell(at, block) {
    const view = this.#now();
    view.setUint8(Number(at), block ? 1 : 0);
    view.setBigUint64(Number(at) + 8, BigInt(block), true);
  }

  // What the module imports. No block needs more than an alignment of 16.
  imports() {
    return {
      rattle_alloc: (at, length, _align) => this.#tell(at, this.take(Number(length))),
      rattle_realloc: (at, block, kept, length, _align) => this.#tell(at, this.move(Number(block), Number(kept), Number(length))),
      rattle_dealloc: (block) => this.give(Number(block)),
    };
  }
}

// A session. Each has a memory of its own.
export class Xw {
  // The size of struct xw.
  static #HANDLE = 16;

  #heap = new Heap();
  #calls;
  #handle;
  // blocks for what is sent and what is answered, with their lengths
  #input = { at: 0, length: 0 };
  #output = { at: 0, length: 0 };

  // Opens a session over a word list, on a puzzle (a .puz or text file), and replays a record. Each is a Uint8Array, an ArrayBuffer or a
  // string in Windows-1252, and may be left out. `record` may have lines that are refused, and its end may have been cut off: `reports` then
  // says so. Throws a Fault if it cannot, and a TypeError for options that are no object or have another name.
  static open(module, options = {}) {
    expectOptions(options);
    const { list = '', puzzle = '', record = '' } = options;
    const [lists, puzzles, records] = [bytesOf(list, 'list'), bytesOf(puzzle, 'puzzle'), bytesOf(record, 'record')];
    const xw = new Xw(module);
    xw.#open(lists, puzzles);
    xw.reports = xw.#resume(records);
    return xw;
  }

  constructor(module) {
    const { exports } = new WebAssembly.Instance(module, { env: this.#heap.imports() });
    this.#heap.begin(exports.memory, Number(exports.__heap_base.value));
    this.#calls = exports;
    this.#handle = this.#block(Xw.#HANDLE);
    this.#heap.bytes(this.#handle, Xw.#HANDLE).fill(0);
  }

  #block(length) {
    const block = this.#heap.take(length);
    if (!block) throw new Fault('Memory');
    return block;
  }

  #copy(bytes) {
    const block = this.#block(bytes.length);
    this.#heap.bytes(block, bytes.length).set(bytes);
    return block;
  }

  #open(list, puzzle) {
    const lists = this.#copy(list);
    const puzzles = this.#copy(puzzle);
    const status = this.#call('xw_open', lists, list.length, puzzles, puzzle.length);
    this.#heap.give(lists);
    this.#heap.give(puzzles);
    this.#expect(status);
  }

  #resume(record) {
    const status = this.#send('xw_resume', record);
    const reports = toText(this.#answer());
    if (!['Accepted', 'Refused', 'Cut'].includes(status)) throw new Fault(status, reports);
    return reports;
  }

  // Calls a function of the module on the handle, and returns its status.
  #call(name, ...numbers) {
    return STATUSES[this.#calls[name](BigInt(this.#handle), ...numbers.map(BigInt))];
  }

  #expectOpen() {
    if (!this.#calls) throw new Fault('Closed');
  }

  #send(name, bytes) {
    const block = this.#fit(this.#input, bytes.length);
    this.#heap.bytes(block, bytes.length).set(bytes);
    return this.#call(name, block, bytes.length);
  }

  // A block that is kept, of at least this length.
  #fit(kept, length) {
    if (kept.length < length || !kept.at) {
      const at = this.#block(Math.max(length, 4096));
      if (kept.at) this.#heap.give(kept.at);
      kept.at = at;
      kept.length = Math.max(length, 4096);
    }
    return kept.at;
  }

  // The answer to the last call.
  #answer() {
    for (;;) {
      const block = this.#fit(this.#output, 1);
      const length = Number(this.#calls.xw_answer(BigInt(this.#handle), BigInt(block), BigInt(this.#output.length)));
      if (length <= this.#output.length) return this.#heap.bytes(block, length).slice();
      this.#fit(this.#output, length);
    }
  }

  #expect(status) {
    if (status !== 'Accepted') throw new Fault(status);
  }

  // Answers a line in bytes, and returns the status and the answer as `xw edit` writes it.
  answer(line) {
    const bytes = rawBytesOf(line, 'the line is not a Uint8Array or an ArrayBuffer');
    this.#expectOpen();
    const status = this.#send('xw_line', bytes);
    if (status === 'Memory') throw new Fault(status);
    return { status, answer: this.#answer() };
  }

  // Answers a line in Windows-1252. `lines` are those before `ok`, and `refusal` is the name after `no`. A blank line or a note is ok.
  line(text) {
    if (typeof text !== 'string') throw new TypeError('the line is not a string');
    const { status, answer } = this.answer(toBytes(text));
    const lines = toText(answer).split('\n');
    // what ends the answer: `ok` or `no NAME`, and the text after the last line feed
    const end = lines.splice(-2)[0];
    return { lines, ok: status !== 'Refused', refusal: status === 'Refused' ? end.slice('no '.length) : null };
  }

  #file(name) {
    this.#expectOpen();
    this.#expect(this.#call(name));
    return this.#answer();
  }

  // The puzzle as a .puz file. Throws a Fault if the format cannot hold it.
  puz() {
    return this.#file('xw_puz');
  }

  // The puzzle as a text file. Throws a Fault if the format cannot hold it.
  text() {
    return this.#file('xw_text');
  }

  // The record of the session, for `open`.
  record() {
    return this.#file('xw_record');
  }

  // Replays a record in this session, and returns what was not taken from it, as `reports` of `open`. Throws a Fault with the status `NoCommand` if a line
  // is not a command; the lines before it were executed.
  resume(record) {
    const bytes = bytesOf(record, 'record');
    this.#expectOpen();
    return this.#resume(bytes);
  }

  // The version of the engine, as the program prints it.
  get version() {
    this.#expectOpen();
    const block = this.#fit(this.#output, 1);
    const length = Number(this.#calls.xw_version(BigInt(block), BigInt(this.#output.length)));
    return toText(this.#heap.bytes(block, length));
  }

  // Yields better and better fills, with the options of `best`. Each stands in the grid when it is yielded, and the last one stays.
  best(options = {}) {
    return fills(this, options);
  }

  // Whether the session is closed.
  get closed() {
    return !this.#calls;
  }

  // Closes the session, and lets its memory go. Every later call throws a Fault with the status `Closed`, except `close`, which does nothing.
  close() {
    this.#calls = this.#heap = null;
  }
}

// `using xw = Xw.open(..)` closes the session at the end of its block, where the language has that.
if (Symbol.dispose) Object.defineProperty(Xw.prototype, Symbol.dispose, { value: Xw.prototype.close, writable: true, configurable: true });
