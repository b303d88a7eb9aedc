// Crosswords in the XML of Crossword Compiler, which .jpz files have too: a `rectangular-puzzle` with a grid, words and clues.
import { colourIn } from '../model/colours.js';
import { hasEnumeration } from '../model/enumeration.js';
import { PLAIN } from '../model/links.js';
import { markedUp } from '../model/marks.js';
import { closedXml } from './cut.js';
import { FileFault, Given, markedIn } from './given.js';
import { CUT } from './repairs.js';

/** @typedef {import('../engine/told.js').Direction} Direction */

/** @typedef {{ at: string, direction: Direction } | null} Word where a word begins; null if it is not one straight run */

const OUTER = 'http://crossword.info/xml/crossword-compiler';
const INNER = 'http://crossword.info/xml/rectangular-puzzle';
// a grid has no more rows and columns
const MOST_SIDE = 255;

export const isJpz = (/** @type {string} */ head) => /<(\w+:)?(crossword-compiler(-applet)?|rectangular-puzzle)\b/.test(head);

/** @type {Record<string, string>} */
const REFERENCES = { '&': '&amp;', '<': '&lt;', '>': '&gt;', '"': '&quot;', '\r': '&#13;' };
// what no XML can have
const NO_XML = /[^\t\n\r\u0020-\ud7ff\ue000-\ufffd\u{10000}-\u{10ffff}]/gu;

const spelled = (/** @type {unknown} */ text) => String(text).replace(/[&<>"\r]/g, (one) => REFERENCES[one]).replace(NO_XML, '\ufffd');
// the attributes that have values
const attributes = (/** @type {Record<string, string | number | false>} */ values) => Object.entries(values).filter(([, value]) => value !== '' && value !== false).map(([name, value]) => ` ${name}="${spelled(value)}"`).join('');

// The file of a board. `textOf` gives the text of a field, `entryOf` the letters of a cell, and `colourOf` its colour.
/**
 * @param {import('../model/board.js').Board} board
 * @param {(field: string) => string} textOf
 * @param {(cell: import('../model/board.js').Cell) => string} entryOf
 * @param {Pick<typeof PLAIN, 'colourOf'>} more
 */
export function jpzOf(board, textOf, entryOf = ({ letter }) => letter, { colourOf } = PLAIN) {
  const place = (/** @type {number} */ index) => ({ x: board.columnOf(index), y: board.rowOf(index) });
  const cells = board.cells.map((cell, index) => `<cell${attributes({
    ...place(index), type: cell.block && 'block', solution: entryOf(cell), number: cell.number, 'background-shape': cell.circle && !cell.block && 'circle', 'right-bar': cell.right && 'true',
    'bottom-bar': cell.below && 'true', 'background-color': colourOf(cell) && `#${colourOf(cell).toUpperCase()}`,
  })}/>`);
  const words = board.lights.map(({ cells: [first, ...others], direction }, at) => {
    const [from, to] = [place(first), place(others.at(-1) ?? first)];
    return `<word${attributes(direction === 'across' ? { id: at + 1, x: `${from.x}-${to.x}`, y: from.y } : { id: at + 1, x: from.x, y: `${from.y}-${to.y}` })}/>`;
  });
  const clues = (/** @type {string} */ direction, /** @type {string} */ title) => [
    `<clues ordering="normal"><title><b>${title}</b></title>`,
    ...board.lights.flatMap((light, at) => (light.direction === direction ? [`<clue${attributes({ word: at + 1, number: light.number })}>${markedUp(textOf(`clue ${light.name}`), spelled)}</clue>`] : [])),
    '</clues>',
  ];
  const texts = { title: textOf('title'), creator: textOf('author'), copyright: textOf('copyright'), description: textOf('notes') };
  return `${[
    '<?xml version="1.0" encoding="UTF-8"?>', `<crossword-compiler xmlns="${OUTER}">`, `<rectangular-puzzle xmlns="${INNER}" alphabet="ABCDEFGHIJKLMNOPQRSTUVWXYZ">`,
    '<metadata>', ...Object.entries(texts).map(([name, text]) => `<${name}>${spelled(text)}</${name}>`), '</metadata>', '<crossword>',
    `<grid width="${board.width}" height="${board.height}">`, '<grid-look numbering-scheme="normal"/>', ...cells, '</grid>', ...words, ...clues('across', 'Across'),
    ...clues('down', 'Down'), '</crossword>', '</rectangular-puzzle>', '</crossword-compiler>', '',
  ].join('\n')}`;
}

const childrenOf = (/** @type {Element | undefined} */ element, /** @type {string} */ name) => [...(element?.children ?? [])].filter((child) => child.localName === name);
/** @type {(element: Element | undefined, name: string) => Element | undefined} */
const childOf = (element, name) => childrenOf(element, name)[0];
const textIn = (/** @type {Element | undefined} */ element) => (element?.textContent ?? '').trim();

const parsed = (/** @type {string} */ text) => new DOMParser().parseFromString(text, 'text/xml');
const isDamaged = (/** @type {Document} */ document) => document.getElementsByTagName('parsererror').length > 0;

// The puzzle of a text, or as much of it as there is. Throws a FileFault.
/** @param {string} text */
export function readJpz(text) {
  const whole = parsed(text);
  if (!isDamaged(whole)) return readDocument(whole);
  const cut = parsed(closedXml(text) ?? '');
  if (isDamaged(cut)) throw new FileFault('it is no XML');
  const given = readDocument(cut);
  given.repairs.add(CUT);
  return given;
}

/** @param {Document} document */
function readDocument(document) {
  const root = document.documentElement;
  const puzzle = root.localName === 'rectangular-puzzle' ? root : childOf(root, 'rectangular-puzzle');
  const crossword = childOf(puzzle, 'crossword');
  const grid = childOf(crossword, 'grid');
  if (!grid) throw new FileFault('it is no crossword');
  const given = new Given(Number(grid.getAttribute('width')), Number(grid.getAttribute('height')));
  const numbered = takeCells(given, childrenOf(grid, 'cell'));
  const metadata = childOf(puzzle, 'metadata');
  for (const [name, field] of [['title', 'title'], ['creator', 'author'], ['copyright', 'copyright'], ['description', 'notes']]) given.text(field, textIn(childOf(metadata, name)));
  const words = new Map(childrenOf(crossword, 'word').map((word) => /** @type {[string, Word]} */ ([word.getAttribute('id') ?? '', wordOf(word)])));
  for (const list of childrenOf(crossword, 'clues')) takeClues(given, list, words, numbered);
  return given;
}

const isTrue = (/** @type {Element} */ cell, /** @type {string} */ name) => cell.getAttribute(name) === 'true';
const BARS = [['right-bar', 'right'], ['bottom-bar', 'below'], ['left-bar', 'left'], ['top-bar', 'above']];

// Takes the cells, and returns the coordinates of those that show numbers.
/**
 * @param {Given} given
 * @param {Element[]} cells
 */
function takeCells(given, cells) {
  /** @type {Map<string, string>} */
  const numbered = new Map();
  for (const cell of cells) {
    const [row, column] = ['y', 'x'].map((name) => Number(cell.getAttribute(name)));
    if (!given.admits(row, column)) continue;
    const [type, shape, solution, number] = ['type', 'background-shape', 'solution', 'number'].map((name) => cell.getAttribute(name) ?? '');
    if (type === 'void') given.drops('a cell that is left out, which is a block now', 'cells that are left out, which are blocks now');
    if (type === 'clue') given.drops('a clue in the grid', 'clues in the grid');
    if (['block', 'void', 'clue'].includes(type)) {
      given.block(row, column);
      continue;
    }
    if (number) numbered.set(number, `${row} ${column}`);
    if (shape === 'circle') given.circle(row, column);
    else if (shape) given.drops('a shape that is no circle', 'shapes that are no circles');
    const spelledColour = cell.getAttribute('background-color') ?? '';
    const colour = colourIn(spelledColour);
    if (colour) given.colour(row, column, colour);
    else if (!/^(white|)$/i.test(spelledColour)) given.drops('the colour of a cell', 'colours of cells');
    if (cell.getAttribute('solve-state')) given.drops('the letters of a solver');
    given.bar(row, column, ...BARS.filter(([name]) => isTrue(cell, name)).map(([, side]) => side));
    if (solution.trim()) given.entry(row, column, solution.trim());
  }
  return numbered;
}

// Where a word begins, and its direction. Its cells are ranges of columns and rows, or elements with such ranges.
/**
 * @param {Element} word
 * @returns {Word}
 */
function wordOf(word) {
  const runs = word.getAttribute('x') ? [word] : childrenOf(word, 'cells');
  const cells = runs.flatMap((run) => {
    const [[left, right], [top, bottom]] = ['x', 'y'].map((name) => {
      const ends = (run.getAttribute(name) ?? '').split('-').map(Number);
      return [ends[0], ends[1] ?? ends[0]];
    });
    const count = Math.max(right - left, bottom - top) + 1;
    return Array.from({ length: Math.min(MOST_SIDE, Math.max(0, count)) }, (_, at) => ({ row: Math.min(top + at, bottom), column: Math.min(left + at, right) }));
  });
  const [first, second] = cells;
  if (!second) return null;
  const step = { row: second.row - first.row, column: second.column - first.column };
  const isStraight = cells.every(({ row, column }, at) => row === first.row + at * step.row && column === first.column + at * step.column);
  if (!isStraight || step.row + step.column !== 1 || step.row * step.column) return null;
  return { at: `${first.row} ${first.column}`, direction: step.row ? 'down' : 'across' };
}

// A clue is at its word. If that is none of the grid's lights, it is at the cell with its number, in the direction that its list is called by.
/**
 * @param {Given} given
 * @param {Element} list
 * @param {Map<string, Word>} words
 * @param {Map<string, string>} numbered
 */
function takeClues(given, list, words, numbered) {
  const [, called = ''] = /\b(across|down)\b/i.exec(textIn(childOf(list, 'title'))) ?? [];
  for (const clue of childrenOf(list, 'clue')) {
    const [number, format] = ['number', 'format'].map((name) => clue.getAttribute(name) ?? '');
    const word = words.get(clue.getAttribute('word') ?? '');
    const direction = word?.direction ?? /** @type {Direction} */ (called.toLowerCase());
    const plain = markedIn(clue);
    const text = !plain || !/^\d[\d,.'’ -]*$/.test(format) || hasEnumeration(plain) ? plain : `${plain} (${format})`;
    given.clue({ at: word?.at ?? numbered.get(number) ?? null, number, direction, text });
  }
}
