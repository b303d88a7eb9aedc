// The start: what the page has in it, what the browser keeps, and what is said then.
import { statusOf } from './engine/engine.js';
import { PATTERNS, recordOf, rowsOf } from './grids/patterns.js';
import { Lists } from './store/lists.js';
import { nameKeys } from './views/key-names.js';
import { refuse, say } from './views/messages.js';
import { $ } from './views/page.js';

/** @typedef {import('./store/keep.js').Session} Session */
/**
 * @typedef {{
 *   editor: import('./model/editor.js').Editor, grid: import('./views/grid.js').GridView, lists: import('./views/lists-in-use.js').ListsInUse,
 *   reasons: import('./engine/reasons.js').Reasons, shelf: import('./store/shelf.js').Shelf,
 * }} Page `lists` are those in use, `reasons` tell of dead ends, and `shelf` has the puzzles that are kept
 */

// What make-page puts into the page: gzip in base64.
/** @param {string} id */
async function embedded(id) {
  const packed = Uint8Array.from(atob($(id).textContent.trim()), (character) => character.charCodeAt(0));
  const stream = new Blob([packed]).stream().pipeThrough(new DecompressionStream('gzip'));
  return new Uint8Array(await new Response(stream).arrayBuffer());
}

export const embeddedText = async (/** @type {string} */ id) => new TextDecoder().decode(await embedded(id));

// What makes workers with the engine.
export function workers() {
  const url = URL.createObjectURL(new Blob([$('worker').textContent], { type: 'text/javascript' }));
  return () => new Worker(url);
}

// What the page needs of a browser, as what it is for; null if all is there.
function lacking() {
  const needs = [
    ['WebAssembly', 'it cannot run the engine (WebAssembly)'], ['DecompressionStream', 'it cannot unpack the engine (DecompressionStream)'],
    ['Worker', 'it has no workers'], ['HTMLDialogElement', 'it has no dialogs'],
  ];
  return needs.find(([name]) => !(name in globalThis))?.[1] ?? null;
}

function showLicence() {
  if (!$('list-licence')) {
    $('licence').textContent = 'This page was built without a word list.';
    return;
  }
  $('licence-text').textContent = $('list-licence').textContent.replaceAll('&lt;', '<').replaceAll('&amp;', '&');
}

// Begins with what the browser keeps, with the built-in list if the engine refuses the other, and with a new puzzle if it refuses that one,
// which stays in the library. Returns the lists that are in use.
/**
 * @param {Pick<Page, 'editor' | 'shelf'>} page
 * @param {any} module
 * @param {{ builtIn: import('./store/lists.js').BuiltIn, lists: Lists }} kept
 * @param {Session | null} session
 */
async function beginOn({ editor, shelf }, module, kept, session) {
  const first = { record: recordOf(rowsOf(PATTERNS[0]), PATTERNS[0].sym), pencil: [] };
  const own = Lists.builtIn(kept.builtIn, kept.lists.personal);
  /** @type {[Lists, { record: string, pencil: readonly string[] }][]} */
  const tries = [[kept.lists, session ?? first], [own, session ?? first], [own, first]];
  const history = session ? await shelf.history(session.puzzle) : null;
  for (const [lists, state] of tries) {
    try {
      await editor.begin(module, lists.chosen, state, state === session ? history : null);
      if (session && state === first) shelf.putAside(session);
      return lists;
    } catch (fault) {
      if (!statusOf(fault)) throw fault;
      console.warn(`the session is not as it was kept: ${/** @type {Error} */ (fault).message}`);
    }
  }
  throw new Error('the engine refuses to begin');
}

// What is said at the start.
/**
 * @param {Session | null} session
 * @param {number} count
 * @param {{ name: string }} list
 */
function greet(session, count, list) {
  const others = count ? `; File ▸ Puzzles has ${count} more` : '';
  if (session) say(`your puzzle is as you left it${others}`, 'good');
  else say(list.name ? `type a letter, or choose File ▸ New${others}` : 'load a word list first: File ▸ Load a word list, or drop the file here');
}

// Starts the page.
/** @param {Page} page */
async function begin({ editor, grid, lists, reasons, shelf }) {
  const why = lacking();
  if (why) return cannotRun(why);
  nameKeys(document);
  const builtIn = { name: $('list') ? 'built-in list' : '', bytes: $('list') ? await embedded('list') : new Uint8Array() };
  showLicence();
  const kept = { builtIn, lists: await Lists.kept(builtIn) };
  lists.take(kept.lists);
  const session = await shelf.first();
  lists.take(await beginOn({ editor, shelf }, await embedded('module'), kept, session));
  lists.show();
  const cell = session && editor.board.cells[session.cursor] ? session.cursor : 0;
  editor.moveTo(cell, session?.direction ?? 'across');
  grid.focus();
  // before another puzzle can come in place of this one
  shelf.begin();
  const others = await shelf.others();
  greet(session, others, editor.list);
  globalThis.isRunning = true;
  // a reason would take the place of what was said of other puzzles
  if (others) reasons.mark();
  else reasons.soon();
}

/** @param {Page} page */
export function start(page) {
  begin(page).catch((error) => {
    refuse(`the page cannot start: ${error.message}`);
    // as a module with a 64-bit memory is one to a browser that does not know these
    if (error instanceof WebAssembly.CompileError || /CompileError/.test(error.message)) cannotRun(`it does not know the engine's code (${error.message})`);
    console.error(error);
  });
}
