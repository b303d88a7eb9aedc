// The dialog that shows what a table of clues changes, before anything is changed.
import { countClues } from '../formats/clue-table.js';
import { joinedText } from '../formats/dropped.js';
import { termed } from '../model/terms.js';
import { askDialog } from './dialogs.js';
import { nodesOfText, put } from './page.js';
import { titleOf } from './words.js';

// the most rows that are named as they are for no light
const MOST_NAMED = 100;

/** @param {number} count */
const rows = (count) => `${count} ${count === 1 ? 'row' : 'rows'}`;

/** @typedef {ReturnType<typeof import('../formats/clue-table.js').clueChanges>} Found */
/** @typedef {{ dialog: HTMLDialogElement } & Record<'told' | 'changes' | 'others', HTMLElement>} Elements */

// What is found in a table, in a sentence.
/**
 * @param {string} name
 * @param {Found} found
 */
export function foundText(name, { changes, there, empty, others }) {
  const found = [
    changes.length ? `${joinedText(countClues(changes))} will change` : 'no clue will change', there && `${rows(there)} ${there === 1 ? 'says' : 'say'} what is there already`,
    empty && `${rows(empty)} ${empty === 1 ? 'has' : 'have'} no clue`, others.length && `${rows(others.length)} ${others.length === 1 ? 'is' : 'are'} left out`,
  ];
  return `${name}: ${found.filter(Boolean).join('; ')}.`;
}

/**
 * @param {string} name
 * @param {string} className
 * @param {(Node | string)[]} inner
 */
function element(name, className, ...inner) {
  const made = Object.assign(document.createElement(name), { className });
  made.append(...inner);
  return made;
}

// What stands in a place of the puzzle, and what will.
/**
 * @param {string} head
 * @param {string} before
 * @param {string} after
 */
const changeRow = (head, before, after) =>
  element('tr', '', element('th', '', head), element('td', 'before', ...nodesOfText(before)), element('td', 'after', ...nodesOfText(after)));

// The rows of a change: one for the clue and one for the note.
/**
 * @param {import('../model/editor.js').Editor} editor
 * @param {import('../formats/clue-table.js').Change} change
 */
function changeRows(editor, { light, clue, note }) {
  return [
    ...(clue === null ? [] : [changeRow(titleOf(light), editor.textOf(`clue ${light.name}`), clue)]),
    ...(note === null ? [] : [changeRow(`${titleOf(light)}, note`, editor.noteOf(light), note)]),
  ];
}

// Shows what is found in a table, and promises whether the user takes it over.
/**
 * @param {import('../model/editor.js').Editor} editor
 * @param {Elements} elements
 * @param {string} name
 * @param {Found} found
 */
export async function askClues(editor, { dialog, told, changes, others }, name, found) {
  told.textContent = foundText(name, found);
  const head = element('tr', '', ...['', 'Now', 'In the file'].map((text) => element('th', '', text)));
  changes.replaceChildren(...(found.changes.length ? [head, ...found.changes.flatMap((change) => changeRows(editor, change))] : []));
  const named = found.others.slice(0, MOST_NAMED).map(({ line, why }) => element('li', '', termed(`Line ${line}: ${why}`)));
  others.replaceChildren(...named, ...(found.others.length > MOST_NAMED ? [element('li', '', `and ${rows(found.others.length - MOST_NAMED)} more`)] : []));
  put(dialog.querySelector('[value=take]'), 'disabled', !found.changes.length);
  return (await askDialog(dialog)) === 'take';
}
