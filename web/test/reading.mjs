// What the page has of a puzzle file, by the engine itself, for cases in Node.
import { readFileSync } from 'node:fs';
import { Xw, ask, load, toText } from '../dist/xw.js';
import { pageModules } from './page-modules.mjs';

const { Board, asVersion13, droppedOfPuz, entryOf, keptRebus, named, originalsOf, rebusOf } = await pageModules(
  'engine/told', 'model/board', 'formats/dropped', 'formats/puz-sections', 'formats/puz-versions', 'model/rebus', 'model/record',
);
export const module = await load(readFileSync(new URL('../dist/xw.wasm', import.meta.url)));

export function expect(isSo, what) {
  if (!isSo) throw new Error(what);
}

// with the names in order
const sorted = (_, value) => (value && typeof value === 'object' && !Array.isArray(value) ? Object.fromEntries(Object.entries(value).sort(([one], [other]) => (one < other ? -1 : 1))) : value);
const spelled = (value) => JSON.stringify(value, sorted);
export const same = (told, wanted) => expect(spelled(told) === spelled(wanted), `${spelled(told)}, and not ${spelled(wanted)}`);

// The lights with their first cells.
const lightsIn = (xw) => ask(xw, 'lights').map(({ light, row, column }) => ({ ...named(light), row, column }));

// The board that the engine has, and the texts of it as the page shows them.
function boardOf(xw, originals = []) {
  const board = Board.of({ show: ask(xw, 'show'), lights: ask(xw, 'lights'), cells: ask(xw, 'cells'), counts: [], circles: ask(xw, 'circles'), texts: ask(xw, 'texts') });
  const kept = new Map(originals);
  const textOf = (field) => kept.get(field.startsWith('clue ') ? board.clueField(board.byName.get(field.slice(5))) : field) ?? board.texts.get(field.replace('clue ', '')) ?? '';
  return { board, textOf, entries: (cell) => entryOf(cell, kept) };
}

// What the page has of a puzzle that was read.
export function openedOf(given) {
  const { record, originals, lost } = given.recordWith(lightsIn(Xw.open(module, { record: given.grid })));
  const xw = Xw.open(module, { record });
  expect(!xw.reports, `the engine reports ${xw.reports}`);
  const { board, textOf, entries } = boardOf(xw, originals);
  return { ...toldOf(board, textOf, entries), lost, dropped: given.dropped, originals, board, textOf, entries };
}

// The rows, with cells of several letters in brackets, the bars and circles, and the texts.
function toldOf(board, textOf, entries) {
  const spelled = (cell) => (cell.block ? '#' : entries(cell).replace(/^(..+)$/, '[$1]') || '.');
  const rows = Array.from({ length: board.height }, (_, row) => board.cells.slice(row * board.width, (row + 1) * board.width).map(spelled).join(''));
  const at = (isThere) => board.cells.filter(isThere).map(({ coordinates }) => coordinates).join();
  const clues = board.lights.map(({ name }) => [name, textOf(`clue ${name}`)]).filter(([, text]) => text);
  return {
    rows: rows.join(), right: at(({ right }) => right), below: at(({ below }) => below), circles: at(({ circle }) => circle),
    texts: ['title', 'author', 'copyright', 'notes'].map(textOf), clues: Object.fromEntries(clues),
  };
}

export function refused(read) {
  try {
    read();
  } catch ({ status, message }) {
    expect(status === 'File', `the status is ${status}: ${message}`);
    return message;
  }
  throw new Error('it is read');
}

// What the page has of a .puz.
export function openedPuz(bytes) {
  const { bytes: plain, texts } = asVersion13(bytes);
  const { originals, lines } = keptRebus(rebusOf(plain));
  const record = [toText(Xw.open(module, { puzzle: plain }).record()), ...lines, ''].join('\n');
  const xw = Xw.open(module, { record });
  const { board, textOf, entries } = boardOf(xw, [...originalsOf(texts, lightsIn(xw)), ...originals]);
  return { ...toldOf(board, textOf, entries), dropped: droppedOfPuz(plain), board, textOf, entries };
}
