// The clues of a puzzle as a table, and what such a table changes in a puzzle.
import { titleOf } from '../views/words.js';
import { csvOf, hasColumns, tableOf } from './csv.js';
import { countText } from './dropped.js';
import { FileFault } from './given.js';
import { unaccented } from './word-list.js';

/** @typedef {import('../model/board.js').Light} Light */
/** @typedef {Pick<import('../model/editor.js').Editor, 'board' | 'links' | 'textOf' | 'noteOf' | 'answerOf' | 'cluedBy'>} Told what tells of the puzzle */
/** @typedef {{ line: number, number: string, direction: string, answer: string, clue: string, note: string }} Row */
// What a row changes: null for what stays.
/** @typedef {{ light: Light, clue: string | null, note: string | null }} Change */

// The columns, by what they may be called.
export const COLUMNS = {
  number: ['number', 'no', 'no.', 'num', '#'], direction: ['direction', 'dir'], answer: ['answer', 'word', 'entry', 'light', 'solution'], clue: ['clue'], note: ['note', 'notes'],
};

// Whether a text begins as a table of clues for a puzzle.
/** @param {string} head */
export const isClueTable = (head) => hasColumns(head, COLUMNS, ['number', 'clue']);

// The clues of a puzzle as CSV, those across first; with a column of notes if there are some.
/** @param {Told} editor */
export function clueTable(editor) {
  const { lights } = editor.board;
  const hasNotes = lights.some((light) => editor.noteOf(light));
  const ordered = ['across', 'down'].flatMap((direction) => lights.filter((light) => light.direction === direction));
  const rows = ordered.map((light) => [
    light.number, light.direction === 'across' ? 'Across' : 'Down', editor.answerOf(light).replaceAll('.', '?'), editor.textOf(`clue ${light.name}`), ...(hasNotes ? [editor.noteOf(light)] : []),
  ]);
  return csvOf([['Number', 'Direction', 'Answer', 'Clue', ...(hasNotes ? ['Note'] : [])], ...rows]);
}

// A text in one line, as a clue is.
/** @param {string} text */
export const inLine = (text) => text.replace(/\s*[\r\n]\s*/g, ' ').trim();

// The rows of a table of clues.
/**
 * @param {string} text
 * @returns {Row[]}
 */
export function readClueTable(text) {
  const rows = tableOf(text, COLUMNS, ['number', 'clue']) ?? tableOf(text, COLUMNS, ['answer', 'clue']);
  if (!rows) throw new FileFault('its first line names no columns Number (or Answer) and Clue');
  return rows.map(({ line, texts: { number, direction, answer, clue, note } }) => ({ line, number, direction, answer, clue: inLine(clue), note: inLine(note) }));
}

// The name of the light that a row is for by its number and direction, such as “5 across”; or ''.
/** @param {Pick<Row, 'number' | 'direction'>} row */
function placeOf({ number, direction }) {
  const [, digits, letters = ''] = /^\s*(\d+)[\s.-]*((?:across|ac|a|down|dn|d)\b)?/i.exec(number) ?? [];
  const way = direction.trim() || letters;
  if (!digits || !/^(?:a|ac|across|d|dn|down)\.?$/i.test(way)) return '';
  return `${Number(digits)} ${/^a/i.test(way) ? 'across' : 'down'}`;
}

// The letters of an answer as it is written, with a dot for a letter that is not known.
/** @param {string} answer */
export const lettersOf = (answer) => unaccented(answer).toUpperCase().replace(/[^A-Z?_·]/g, '').replace(/[?_·]/g, '.');

/**
 * @param {string} one
 * @param {string} other
 */
const agree = (one, other) => one.length === other.length && [...one].every((letter, at) => [letter, '.'].includes(other[at]) || letter === '.');

// The light that has the number and the direction of a row, if its answer does not differ; or null.
/**
 * @param {Row} row
 * @param {Told} editor
 */
function lightAt(editor, row) {
  const light = editor.board.byName.get(placeOf(row)) ?? null;
  const letters = lettersOf(row.answer);
  return light && (!letters || [editor.answerOf(light), editor.cluedBy(light).answer].some((answer) => agree(letters, answer))) ? light : null;
}

// The one light that has the answer of a row; or null.
/**
 * @param {Row} row
 * @param {Told} editor
 */
function lightWith(editor, row) {
  const letters = lettersOf(row.answer);
  const found = letters.includes('.') ? [] : editor.board.lights.filter((light) => letters && editor.answerOf(light) === letters);
  return found.length === 1 ? found[0] : null;
}

// Why a row is for no light.
/**
 * @param {Row} row
 * @param {Told} editor
 */
function whyNone(editor, row) {
  const [place, letters] = [placeOf(row), lettersOf(row.answer)];
  const [spelled, title] = [letters.replaceAll('.', '?'), place.replace(/ ./, (way) => way.toUpperCase())];
  const light = editor.board.byName.get(place);
  if (light) return `${title} is ${editor.answerOf(light).replaceAll('.', '?')} here, and not ${spelled}`;
  const several = editor.board.lights.filter((one) => letters && editor.answerOf(one) === letters).length > 1;
  const why = [place && `there is no ${title}`, letters && (several ? `${spelled} stands twice` : `no light has ${spelled}`)].filter(Boolean);
  return why.join(', and ') || 'it has no number with a direction, and no answer';
}

// What a row changes at its light. The clue of a light that leads to another one stays.
/**
 * @param {Told} editor
 * @param {Light} light
 * @param {Pick<Row, 'clue' | 'note'>} row
 */
function changeOf(editor, light, { clue, note }) {
  const isOther = clue && clue !== editor.textOf(`clue ${light.name}`) && !editor.links.headOf.has(light);
  return { light, clue: isOther ? clue : null, note: note && note !== editor.noteOf(light) ? note : null };
}

// The rows of a table by the lights that they are for: by number and direction, and then by the answer. `others` are rows for none, each with why.
/**
 * @param {Told} editor
 * @param {Row[]} rows
 */
function rowsByLight(editor, rows) {
  /** @type {Map<Light, Row>} */
  const found = new Map();
  const take = (/** @type {Row} */ row, /** @type {Light | null} */ light) => {
    if (!light || found.has(light)) return [{ row, light }];
    found.set(light, row);
    return [];
  };
  const left = rows.flatMap((row) => take(row, lightAt(editor, row)));
  const others = left.flatMap(({ row, light }) => take(row, light ?? lightWith(editor, row)));
  return { found, others: others.map(({ row, light }) => ({ line: row.line, why: light ? `${titleOf(light)} is in line ${found.get(light)?.line}` : whyNone(editor, row) })) };
}

// What a table changes in a puzzle: the changes in the order of the lights, how many rows say what is there already, how many have neither a clue nor a
// note, and the rows that are for no light, each with why. An empty field changes nothing.
/**
 * @param {Told} editor
 * @param {Row[]} rows
 */
export function clueChanges(editor, rows) {
  const given = rows.filter(({ clue, note }) => clue || note);
  const { found, others } = rowsByLight(editor, given);
  const all = editor.board.lights.flatMap((light) => {
    const row = found.get(light);
    return row ? [changeOf(editor, light, row)] : [];
  });
  const changes = all.filter(({ clue, note }) => clue !== null || note !== null);
  const kept = [...found].filter(([light, { clue }]) => clue && editor.links.headOf.has(light) && clue !== editor.textOf(`clue ${light.name}`));
  const headOf = (/** @type {Light} */ light) => editor.links.headOf.get(light) ?? light;
  const linked = kept.map(([light, { line }]) => ({ line, why: `${titleOf(light)} goes on from ${titleOf(headOf(light))}, so its clue stays` }));
  const told = new Set([...changes.map(({ light }) => light), ...kept.map(([light]) => light)]);
  return { changes, there: all.length - told.size, empty: rows.length - given.length, others: [...others, ...linked].sort((a, b) => a.line - b.line) };
}

// How many clues and notes changes have, each in a few words.
/** @param {Change[]} changes */
export const countClues = (changes) => [
  ...countText(changes.filter(({ clue }) => clue !== null).length, '1 clue', 'clues'), ...countText(changes.filter(({ note }) => note !== null).length, '1 note', 'notes'),
];
