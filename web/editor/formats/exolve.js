// Crosswords as text of Exolve: a section `exolve-…` a line or more, from `exolve-begin` to `exolve-end`.
import { PLAIN, spelledLights } from '../model/links.js';
import { htmlText, markedUp } from '../model/marks.js';
import { Given, lineOf, markedOf, plainOf } from './given.js';

/** @typedef {import('../model/board.js').Cell} Cell */
/** @typedef {import('../model/board.js').Light} Light */
/** @typedef {import('./given.js').GivenNote} GivenNote */
/** @typedef {'across' | 'down'} Direction */
/** @typedef {{ direction: Direction | '', notes: GivenNote[] }} Explained */

const BEGIN = /^\s*exolve-begin\b/m;
const SECTION = /^exolve-([a-z-]+)(?::\s*(.*))?$/;

export const isExolve = (/** @type {string} */ text) => BEGIN.test(text);

const reference = (/** @type {string} */ character) => `&#${character.codePointAt(0)};`;

// A text in one line. It is HTML, in which a character that says something else here is a reference.
const inLine = (/** @type {string} */ html) => html.replace(/[\r\n\u2028\u2029]/g, reference);

// Lines of text. One that would be a section or a comment, or lose its ends, begins or ends with a reference, and so do lines behind empty ones.
const inLines = (/** @type {string} */ html) => html.replace(/\n(\n+)/g, (_, more) => `\n${more.replace(/\n/g, reference)}`).split('\n')
  .map((line) => `    ${inLine(line).replace(/^(?:[\s#]|e(?=xolve-))|\s$/g, reference)}`);

// what is behind the bracket of an enumeration
const LENGTHS = "\\s*\\d[\\d\\s,.;'’–—-]*\\*?\\)";
// what would begin the lights that a clue goes on in, mark its definition, or begin an enumeration with a note behind it
const OTHERWISE = new RegExp(`^\\s*(?:[,/]|&(?=\\s*\\d))|~(?=\\{)|(?<=\\})~|\\((?=${LENGTHS}\\s*\\S)`, 'g');
const inClue = (/** @type {string} */ text) => inLine(markedUp(text, htmlText)).replace(OTHERWISE, (found) => [...found].map(reference).join(''));

// The file of a board. `textOf` gives the text of a field, `entryOf` the letters of a cell, and `links` those of clues.
/**
 * @param {import('../model/board.js').Board} board
 * @param {(field: string) => string} textOf
 * @param {(cell: Cell) => string} entryOf
 * @param {Pick<typeof PLAIN, 'links'> & { language?: string }} more
 */
export function exolveOf(board, textOf, entryOf = ({ letter }) => letter, { links, language = '' } = PLAIN) {
  const rows = Array.from({ length: board.height }, (_, row) => board.cells.slice(row * board.width, (row + 1) * board.width).map((cell) => spelled(cell, entryOf(cell))).join(' '));
  const isRebus = board.cells.some((cell) => entryOf(cell).length > 1);
  const line = (/** @type {string} */ name, /** @type {string} */ text) => (text ? [`  exolve-${name}: ${inLine(htmlText(text))}`] : []);
  const numbers = (/** @type {Light} */ light) => [light.number, spelledLights(light, links.heads.get(light) ?? []).replace(/ (.)\w+/g, '$1')].filter(Boolean).join(', ');
  const clue = (/** @type {Light} */ light) => `    ${numbers(light)} ${inClue(textOf(`clue ${light.name}`))}`.trimEnd();
  const clues = (/** @type {string} */ direction) => board.lights.filter((light) => light.direction === direction).map(clue);
  const whole = [
    'exolve-begin', ...line('language', language && `${language} Latin`), ...line('title', textOf('title')), ...line('setter', textOf('author')), ...line('copyright', textOf('copyright')), `  exolve-width: ${board.width}`,
    `  exolve-height: ${board.height}`, ...(isRebus ? ['  exolve-option: rebus-cells'] : []), ...(textOf('notes') ? ['  exolve-preamble:', ...inLines(htmlText(textOf('notes')))] : []), '  exolve-grid:', ...rows.map((row) => `    ${row}`),
    '  exolve-across:', ...clues('across'), '  exolve-down:', ...clues('down'), 'exolve-end',
  ];
  return `${whole.join('\n')}\n`;
}

/**
 * @param {Cell} cell
 * @param {string} entry
 */
function spelled(cell, entry) {
  if (cell.block) return '.';
  return `${entry || '0'}${cell.right && cell.below ? '+' : cell.right ? '|' : cell.below ? '_' : ''}${cell.circle ? '@' : ''}`;
}

// The sections of a text: what stands behind the name of each, and the lines below it.
/** @param {string} text */
function sectionsOf(text) {
  const lines = text.split(/\r?\n/).map((line) => line.trim());
  const begin = lines.findIndex((line) => line.startsWith('exolve-begin'));
  const end = lines.findIndex((line, at) => at > begin && line.startsWith('exolve-end'));
  /** @type {{ name: string, value: string, lines: string[] }[]} */
  const sections = [];
  for (const line of lines.slice(begin + 1, end < 0 ? undefined : end)) {
    const [, name, value = ''] = SECTION.exec(line) ?? [];
    if (name) sections.push({ name, value: value.trim(), lines: [] });
    else if (line && !line.startsWith('#')) sections.at(-1)?.lines.push(line);
  }
  return sections;
}

// The sections that are read, and those that say nothing of the puzzle itself.
const FIELDS = { title: 'title', setter: 'author', copyright: 'copyright' };
const READ = new Set(['width', 'height', 'grid', 'across', 'down', 'title', 'setter', 'copyright', 'preamble', 'id', 'maker', 'option', 'language', 'credits', 'email', 'prelude', 'explanations']);

// The puzzle of a text. Throws a FileFault.
/** @param {string} text */
export function readExolve(text) {
  const sections = sectionsOf(text);
  const of = (/** @type {string} */ name) => sections.find((section) => section.name === name);
  const grid = of('grid')?.lines ?? [];
  const given = new Given(Number(of('width')?.value), Number(of('height')?.value));
  const rows = given.repairs.fitted(grid.map((line) => cellsIn(line, given.width)), given, EMPTY);
  rows.forEach((cells, above) => cells.forEach((cell, before) => takeCell(given, above + 1, before + 1, cell)));
  for (const [name, field] of Object.entries(FIELDS)) given.text(field, plainOf(of(name)?.value ?? ''));
  given.language(of('language')?.value.split(/\s/)[0] ?? '');
  given.text('notes', plainOf((of('preamble') ?? of('prelude'))?.lines.join('\n') ?? ''));
  for (const direction of /** @type {const} */ (['across', 'down'])) for (const clue of cluesIn(of(direction)?.lines ?? [])) takeClue(given, clue, direction);
  takeExplanations(given, of('explanations')?.lines ?? []);
  for (const { name } of sections) if (!READ.has(name)) given.drops(`the section exolve-${name}`);
  return given;
}

// What marks of a cell say.
/** @type {Record<string, string[]>} */
const MARKS = { '|': ['right'], _: ['below'], '+': ['right', 'below'] };

const EMPTY = '0';

// The cells of a row, each with its marks. With a space between all cells, they may have several letters.
/**
 * @param {string} line
 * @param {number} width
 * @returns {string[]}
 */
function cellsIn(line, width) {
  const spaced = line.split(/\s+/);
  return spaced.length === width ? spaced : line.replace(/\s/g, '').match(/[^|_+@*!~][|_+@*!~]*/g) ?? [];
}

/**
 * @param {Given} given
 * @param {number} row
 * @param {number} column
 * @param {string} spelled
 */
function takeCell(given, row, column, spelled) {
  const [, entry, marks] = /^([^|_+@*!~]+)([|_+@*!~]*)$/.exec(spelled) ?? ['', spelled, ''];
  if (entry === '.') {
    given.block(row, column);
    return;
  }
  if (marks.includes('@')) given.circle(row, column);
  for (const mark of marks) given.bar(row, column, ...(MARKS[mark] ?? []));
  if (marks.includes('!')) given.drops('that a letter is shown to solvers', 'that letters are shown to solvers');
  if (marks.includes('*')) given.drops('a diagramless cell', 'diagramless cells');
  if (entry === '?') given.drops('a diagramless cell', 'diagramless cells');
  else if (entry !== EMPTY) given.entry(row, column, entry);
}

// Clues begin with their number; other lines go on with the one before.
/** @param {string[]} lines */
function cluesIn(lines) {
  /** @type {string[]} */
  const clues = [];
  for (const line of lines) {
    if (/^\d+\b|^\[/.test(line) || !clues.length) clues.push(line);
    else clues.push(`${clues.pop()} ${line}`);
  }
  return clues;
}

const NOTED = new RegExp(`^(.*?\\(${LENGTHS})\\s*(.*)$`);

// A clue may have more numbers, of lights that go on with it, marks of its definition, and notes of the setter after its lengths.
/**
 * @param {Given} given
 * @param {string} clue
 * @param {Direction} direction
 */
function takeClue(given, clue, direction) {
  const [, number, others, told] = /^(\d+)[ad]?((?:\s*[,&/]\s*\d+[ad]?)*)[.:]?\s*(.*)$/i.exec(clue) ?? [];
  if (!number) return given.drops('a clue without a number', 'clues without numbers');
  const named = (/** @type {string} */ name) => `${/\d+/.exec(name)?.[0]} ${/d$/i.test(name) ? 'down' : /a$/i.test(name) ? 'across' : direction}`;
  const links = others.split(/[,&/]/).map((name) => name.trim()).filter(Boolean).map(named);
  const [, text, note] = NOTED.exec(told) ?? ['', told, ''];
  given.note({ number, direction, text: lineOf(note) });
  return given.clue({ number, direction, links, text: markedOf(text.replace(/~\{(.*?)\}~(?:\{.*?\})?/g, '$1')) });
}

// What says which clue a line explains: a title, which is for the lines below it, or a number, with a direction if it has one.
const TITLE = /^(across|down)\s*:?$/i;
const EXPLAINED = /^(\d+)(?:[ -]?(?=across|down))?(a|ac|across|d|dn|down)?(?:\s*[.:)-]\s*|\s+)(.+)$/i;

// Takes explanations as notes on the clues that they name. Other lines go on with the one before.
/**
 * @param {Given} given
 * @param {string[]} lines
 */
function takeExplanations(given, lines) {
  /** @type {Explained} */
  const found = { direction: '', notes: [] };
  for (const line of lines) takeExplanation(given, found, lineOf(line));
  found.notes.forEach((note) => given.note(note));
}

/**
 * @param {Given} given
 * @param {Explained} found
 * @param {string} line
 */
function takeExplanation(given, found, line) {
  const [, title] = TITLE.exec(line) ?? [];
  const [, number, spelled = found.direction, text] = EXPLAINED.exec(line) ?? [];
  const last = found.notes.at(-1);
  if (title) found.direction = /** @type {Direction} */ (title.toLowerCase());
  else if (number && spelled) found.notes.push({ number, direction: /^a/i.test(spelled) ? 'across' : 'down', text });
  else if (last) last.text += ` ${line}`;
  else given.drops('a line of exolve-explanations', 'lines of exolve-explanations');
}
