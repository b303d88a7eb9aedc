// `.puz` files that the engine refuses, or whose solution was scrambled: what can be read of them, with what is wrong and what is made of it.
import { toText } from '../../xw.js';
import { isRebus } from '../model/rebus.js';
import { refusalText } from '../views/messages.js';
import { TOLD, droppedOfPuz } from './dropped.js';
import { FileFault, Given } from './given.js';
import { rebusOf, sectionAt, sectionsFrom, sectionsOf } from './puz-sections.js';
import { sumsOf } from './puz-versions.js';
import { counted, shownText } from './repairs.js';
import { isScrambled } from './unscramble.js';

/** @typedef {import('./given.js').FirstCell} FirstCell */

const HEADER = 0x34;
const [VERSION, WIDTH, HEIGHT, CLUES, TAG] = [0x18, 0x2c, 0x2d, 0x2e, 0x32];
const VERSIONS = ['1.2', '1.3', '1.4', '2.0'];
// title, author, copyright, and the notes behind the clues
const [BEFORE, TEXTS] = [3, 4];
const CIRCLE = 0x80;
// the marks of cells without letters; a hidden block is one of a puzzle without a diagram
const [BLOCK, HIDDEN, EMPTY] = ['.', ':', '-'];

// The puzzle of a file, with other bytes for its solution if it was scrambled. Throws a FileFault if it has no grid.
/**
 * @param {Uint8Array} bytes
 * @param {Uint8Array | null} solution
 */
export const readPuz = (bytes, solution = null) => new PuzGiven(bytes, solution);

class PuzGiven extends Given {
  // the file, and the same with its solution
  /** @type {Uint8Array} */
  #bytes;
  /** @type {Uint8Array} */
  #plain;
  /** @type {Map<string, Uint8Array>} */
  #sections;
  // the texts up to the sections, and whether the last one has no end
  /** @type {Uint8Array[]} */
  #texts;
  /** @type {boolean} */
  #isCut;

  /**
   * @param {Uint8Array} bytes
   * @param {Uint8Array | null} solution
   */
  constructor(bytes, solution) {
    if (bytes.length < HEADER) throw new FileFault(refusalText('Short'));
    super(bytes[WIDTH], bytes[HEIGHT]);
    [this.#bytes, this.#plain] = [bytes, solution ? Uint8Array.from(bytes) : bytes];
    if (solution) this.#plain.set(solution, HEADER);
    const { texts, isCut, end } = textsIn(bytes, HEADER + 2 * this.width * this.height, this.#declared + TEXTS);
    const sections = sectionsFrom(bytes, end);
    [this.#texts, this.#isCut, this.#sections] = [texts, isCut, sectionsOf(bytes, sections)];
    this.#tellHeader();
    this.#takeCells([...toText(this.#plain.subarray(HEADER, HEADER + this.width * this.height))]);
    this.#takeCircles();
    for (const { name } of sections.filter(({ isSound }) => !isSound)) this.repairs.add(`the checksum of the section ${name} is wrong`);
  }

  // What is not kept of the sections, too.
  get dropped() {
    return [...super.dropped, ...droppedOfPuz(this.#plain, this.#sections)];
  }

  /** @param {FirstCell[]} lights */
  recordWith(lights) {
    this.#takeTexts(lights);
    return super.recordWith(lights);
  }

  // How many clues the header declares.
  get #declared() {
    return this.#bytes[CLUES] + 256 * this.#bytes[CLUES + 1];
  }

  get #version() {
    return toText(this.#bytes.subarray(VERSION, VERSION + 3));
  }

  // From version 2 on texts are UTF-8.
  get #isLate() {
    return Number.parseFloat(this.#version) >= 2;
  }

  #tellHeader() {
    const version = this.#version;
    if (!VERSIONS.includes(version)) this.repairs.add(`the version “${shownText(version)}” is not known: it is read as ${this.#isLate ? '2.0' : '1.3'}`);
    const tag = this.#bytes[TAG] + 256 * this.#bytes[TAG + 1];
    if (tag && !isScrambled(this.#bytes)) this.repairs.add(`the solution is called incomplete (tag ${tag}): it is taken as it is`);
  }

  // Takes the cells that the file has of its grid.
  /** @param {string[]} marks */
  #takeCells(marks) {
    if (marks.length < this.width * this.height) this.repairs.add('the file ends within its grid: what is missing is left empty');
    // a solution that is left out has none of its letters
    const isLeftOut = this.#plain !== this.#bytes && marks.every((mark) => [BLOCK, HIDDEN, EMPTY].includes(mark));
    const kept = isLeftOut ? [] : rebusOf(this.#plain, this.#sections).filter(({ entry }) => isRebus(entry));
    const rebus = new Map(kept.map(({ row, column, entry }) => [`${row} ${column}`, entry]));
    marks.forEach((mark, at) => {
      const [row, column] = [Math.floor(at / this.width) + 1, (at % this.width) + 1];
      this.#takeCell(row, column, mark, rebus.get(`${row} ${column}`));
    });
    const hidden = marks.filter((mark) => mark === HIDDEN).length;
    if (hidden) this.repairs.add(`${counted(hidden, 'block')} of a puzzle without a diagram (“${HIDDEN}”): shown as blocks`);
  }

  // Takes a cell by its mark in the grid, or by its letters in a section.
  /**
   * @param {number} row
   * @param {number} column
   * @param {string} mark
   * @param {string | undefined} letters
   */
  #takeCell(row, column, mark, letters) {
    if (mark === BLOCK || mark === HIDDEN) this.block(row, column);
    else if (letters) {
      if (!/[A-Za-z-]/.test(mark)) this.repairs.add(`row ${row}, column ${column} has “${shownText(mark)}” for a letter: its letters ${letters} are taken`);
      this.entry(row, column, letters);
    } else if (mark !== EMPTY) this.entry(row, column, mark);
  }

  #takeCircles() {
    const marks = this.#sections.get('GEXT');
    if (!marks) return;
    if (marks.length !== this.width * this.height) {
      this.repairs.add('the circles are for another size of grid: they are left out');
      return;
    }
    marks.forEach((mark, at) => (mark & CIRCLE) > 0 && this.circle(Math.floor(at / this.width) + 1, (at % this.width) + 1));
  }

  // Takes the texts, with the clues in the order of the lights.
  /** @param {FirstCell[]} lights */
  #takeTexts(lights) {
    const { clues, notes } = this.#parted(lights.length);
    const [title, author, copyright, ...spelled] = [...this.#texts.slice(0, BEFORE), ...clues].map((text) => this.#decoded(text));
    for (const [field, text] of Object.entries({ title, author, copyright, notes: this.#decoded(notes) })) this.text(field, text);
    this.cluesFor(lights, spelled);
  }

  #decoded(bytes = new Uint8Array()) {
    return this.#isLate ? new TextDecoder().decode(bytes) : toText(bytes);
  }

  // The clues and the notes. The header decides how many clues there are, unless the texts fit the grid better.
  /** @param {number} lightCount */
  #parted(lightCount) {
    const [texts, declared] = [this.#texts, this.#declared];
    const found = texts.length - TEXTS;
    const wanted = declared === lightCount || found !== lightCount ? declared : found;
    const hasNotes = !this.#isCut && found >= 0 && (found >= wanted || this.#sections.size > 0 || texts[texts.length - 1].length === 0);
    const count = Math.max(0, Math.min(wanted, hasNotes ? found : texts.length - BEFORE));
    this.#tellTexts(count, hasNotes);
    return { clues: texts.slice(BEFORE, BEFORE + count), notes: hasNotes ? texts[BEFORE + count] : undefined };
  }

  // Says what is wrong with the texts, and which checksums of what is whole are wrong.
  /**
   * @param {number} count
   * @param {boolean} hasNotes
   */
  #tellTexts(count, hasNotes) {
    const [texts, declared] = [this.#texts, this.#declared];
    const covered = hasNotes ? texts.slice(0, count + TEXTS) : Array(TEXTS).fill(new Uint8Array());
    const sums = wrongSums(this.#bytes, { size: this.width * this.height, texts: covered }, this.#version !== '1.2');
    const whole = hasNotes ? PARTS : PARTS.slice(0, texts.length ? BOARDS : 1);
    for (const part of whole) if (sums.has(part)) this.repairs.add(`the checksum of the ${part} is wrong`);
    if (hasNotes && count !== declared) this.repairs.add(`the header tells of ${counted(declared, 'clue')}: the file has ${count}`);
    if (hasNotes) return;
    if (this.#isCut) this.repairs.add(`the file ends within a text: “${shownText(this.#decoded(texts[texts.length - 1]))}” is kept as far as it goes`);
    else this.repairs.add(`the file ends before its ${texts.length ? 'last ' : ''}texts`);
  }
}

// Whether a section begins at a place. Where texts are due still, one that is not known may be a clue.
/**
 * @param {Uint8Array} bytes
 * @param {number} at
 * @param {boolean} isDue
 */
function beginsSection(bytes, at, isDue) {
  const section = sectionAt(bytes, at);
  return section !== null && (isDue ? section.isSound || TOLD.has(section.name) : section.isSound && TOLD.has(section.name));
}

// The texts from a place on, without their NULs, whether the last one has none, and where the sections begin. So many texts are due.
/**
 * @param {Uint8Array} bytes
 * @param {number} begin
 * @param {number} due
 */
function textsIn(bytes, begin, due) {
  /** @type {Uint8Array[]} */
  const texts = [];
  let at = begin;
  while (at < bytes.length && !beginsSection(bytes, at, texts.length >= due)) {
    const end = bytes.indexOf(0, at);
    texts.push(bytes.subarray(at, end < 0 ? bytes.length : end));
    at = end < 0 ? bytes.length + 1 : end + 1;
  }
  return { texts, isCut: at > bytes.length && begin < bytes.length, end: at };
}

// The parts of a file that have checksums. The masked ones, low bytes and then high ones, are those of all but the last.
const PARTS = ['header', 'grid', 'letters of a solver', 'texts', 'whole file'];
const [MASKED, BOARDS] = [4, 3];

// The parts whose checksums are wrong.
/**
 * @param {Uint8Array} bytes
 * @param {{ size: number, texts: Uint8Array[] }} parts
 * @param {boolean} hasNotes
 */
function wrongSums(bytes, parts, hasNotes) {
  const [file, header] = sumsOf(bytes, parts, hasNotes);
  const differ = (/** @type {{ at: number, bytes: number[] }} */ { at, bytes: sum }, /** @type {(index: number) => number} */ partOf) => sum.flatMap((byte, index) => (bytes[at + index] === byte ? [] : [PARTS[partOf(index)]]));
  return new Set([...differ(file, () => MASKED), ...differ(header, (index) => (index < 2 ? 0 : (index - 2) % MASKED))]);
}
