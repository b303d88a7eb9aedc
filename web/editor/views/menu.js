// The menu and other parts that a button shows, and what buttons and keys do.
import { say, unforeseen } from './messages.js';
import { $, all, first, isText, pressed } from './page.js';
import { hasUndoOfPuzzle } from './typed.js';

// The keys of actions, with Ctrl.
/** @typedef {Record<string, (() => any) | undefined>} Actions what is done, by its name or its key */

/** @type {Record<string, string>} */
const CONTROL_KEYS = { o: 'open', s: 'save', p: 'print', f: 'fill', g: 'another', j: 'hardest' };

// Has the buttons that name an action do it, and its keys. `keys` has what keys without Ctrl do now, by their names, and `typed` takes a text over that is
// being typed.
/**
 * @param {Actions} actions
 * @param {() => Actions} keys
 * @param {import('./typed.js').Typed} typed
 */
export function takeActions(actions, keys, typed) {
  document.addEventListener('click', (event) => {
    const button = pressed(event, '[data-do]');
    if (button) actions[button.dataset.do ?? '']?.()?.catch?.(unforeseen);
  });
  document.addEventListener('keydown', (event) => {
    const action = actionOf(event, actions, keys, typed);
    if (!action) return;
    event.preventDefault();
    action()?.catch?.(unforeseen);
  });
}

/**
 * @param {KeyboardEvent} event
 * @param {Actions} actions
 * @param {() => Actions} keys
 * @param {import('./typed.js').Typed} typed
 * @returns {(() => any) | null | undefined}
 */
function actionOf(event, actions, keys, typed) {
  const key = event.key.toLowerCase();
  const isInDialog = document.querySelector('dialog[open]') !== null;
  if (!event.ctrlKey && !event.metaKey) return isInDialog && key === 'escape' ? null : keys()[key];
  // the browser would save the page
  if (event.altKey || (key !== 's' && isInDialog)) return null;
  const isHistory = key === 'z' || key === 'y';
  // the browser undoes what is typed into other fields
  if (isHistory && isText(/** @type {Element} */ (event.target)) && !hasUndoOfPuzzle(/** @type {HTMLElement} */ (event.target))) return null;
  const name = isHistory ? (key === 'y' || event.shiftKey ? 'redo' : 'undo') : CONTROL_KEYS[key];
  const action = actions[name];
  return action && (() => {
    typed.take();
    return action();
  });
}

// Goes from the grid to the tabs, to the menu, and back.
export function toNextPane() {
  const panes = [$('grid'), first('[role=tab][aria-selected=true]'), $('file')];
  const here = panes.findIndex((pane) => pane === document.activeElement);
  panes[(here + 1) % panes.length].focus();
}

// What a button shows and hides: the tools in a narrow window, and the messages.
/**
 * @param {HTMLElement} button
 * @param {HTMLElement} part
 * @param {boolean} isOpen
 */
function showPart(button, part, isOpen) {
  part.classList.toggle('open', isOpen);
  if (part === $('history')) part.hidden = !isOpen;
  button.setAttribute('aria-expanded', String(isOpen));
}

/** @param {import('../model/editor.js').Editor} editor */
export function takeParts(editor) {
  for (const [button, part] of [[$('more'), $('tools')], [$('messages'), $('history')]]) {
    button.addEventListener('click', () => showPart(button, part, button.getAttribute('aria-expanded') !== 'true'));
    document.addEventListener('click', (event) => {
      if (!button.contains(event.target) && (!part.contains(event.target) || pressed(event, 'button'))) showPart(button, part, false);
    });
  }
  $('toast-close').addEventListener('click', () => {
    say('');
    editor.do('toGrid');
  });
}

// The menu of files.
export function takeMenu() {
  const menu = first('.menu [role=menu]');
  const show = (/** @type {boolean} */ isOpen) => {
    menu.hidden = !isOpen;
    $('file').setAttribute('aria-expanded', isOpen);
    if (isOpen) first('button', menu).focus();
  };
  $('file').addEventListener('click', () => show(menu.hidden));
  menu.addEventListener('click', () => show(false));
  document.addEventListener('pointerdown', (event) => {
    if (!pressed(event, '.menu')) show(false);
  });
  menu.addEventListener('keydown', (event) => {
    const item = itemFor(event, all('button', menu));
    item?.focus();
    if (event.key === 'Escape' || event.key === 'Tab') {
      show(false);
      $('file').focus();
    }
    if (item || event.key === 'Escape') event.preventDefault();
  });
}

// The item of a menu that a key goes to: the one beside, the first or the last one, or the next one that begins with a letter; or undefined.
/**
 * @param {KeyboardEvent} event
 * @param {HTMLElement[]} items
 */
function itemFor({ key, ctrlKey, metaKey, altKey }, items) {
  const here = items.indexOf(/** @type {HTMLElement} */ (document.activeElement));
  /** @type {Record<string, number>} */
  const places = { ArrowDown: here + 1, ArrowUp: here - 1 + items.length, Home: 0, End: items.length - 1 };
  if (key in places) return items[places[key] % items.length];
  if (key.length !== 1 || key === ' ' || ctrlKey || metaKey || altKey) return undefined;
  const after = [...items.slice(here + 1), ...items.slice(0, here + 1)];
  return after.find(({ textContent }) => (textContent ?? '').trim().toLowerCase().startsWith(key.toLowerCase()));
}

// Keys go to the grid after a dialog that was opened from the menu, whose item is hidden again.
/** @param {import('../model/editor.js').Editor} editor */
export function leaveDialogs(editor) {
  for (const dialog of all('dialog')) {
    dialog.addEventListener('close', () => {
      const activeElement = /** @type {HTMLElement} */ (document.activeElement);
      if (activeElement === document.body || dialog.contains(activeElement)) editor.do('toGrid');
    });
  }
}
