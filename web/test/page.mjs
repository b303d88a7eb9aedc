// The built page in a headless browser, and how cases are run on it.
//
// Each file of web/test/editor/ has the cases of one subject, and can be run alone; web/test/editor.mjs runs them all:
//
//   node --experimental-websocket FILE [--firefox] [--pictures DIR] [--xw PROGRAM] [--slow MS] [CASE..]
//
// It needs web/dist/xw.html (./build web), Debian's packages chromium (with --firefox: firefox-esr), nodejs and wamerican, and a Node with
// WebSocket (20.10 with the option above, or 22). With --xw the saved .puz is checked by the program. No case depends on time: each waits for what
// the page shows or sends, and counts the work. With --slow the page gets each answer of the engine up to MS milliseconds late, at random, on a
// slower processor: a case that fails then does depend on time. letters.mjs measures times. The last line is 'N passed, M failed'.
import { createServer } from 'node:http';
import { mkdirSync, mkdtempSync, readFileSync, realpathSync, rmSync, writeFileSync } from 'node:fs';
import { tmpdir } from 'node:os';
import { join } from 'node:path';
import { fileURLToPath } from 'node:url';
import { load } from '../dist/xw.js';
import { Browser } from './browser.mjs';
import { Count } from './count.mjs';
import { FirefoxBrowser } from './firefox-browser.mjs';

const words = process.argv.slice(2);
const option = (name) => {
  const at = words.indexOf(name);
  return at < 0 ? null : words.splice(at, 2)[1];
};
export const [pictures, program, slow] = [option('--pictures'), option('--xw'), Number(option('--slow'))];
export const isFirefox = words.includes('--firefox') && words.splice(words.indexOf('--firefox'), 1).length > 0;
const chosen = words;

export const room = mkdtempSync(join(tmpdir(), 'xw-test-'));
// Chromium has the page from disk. There each file has a store of its own in Firefox, which has it from a server.
export const server = isFirefox ? await serve() : null;
export const PAGE = server ? new URL(`http://localhost:${server.address().port}/xw.html`) : new URL('../dist/xw.html', import.meta.url);
export const module = await load(readFileSync(new URL('../dist/xw.wasm', import.meta.url)));
export const browser = await (isFirefox ? FirefoxBrowser : Browser).open();
export const pause = (time) => new Promise((resolve) => setTimeout(resolve, time));
// the words of the built-in list
export const LIST = readFileSync('/usr/share/dict/american-english', 'latin1').split('\n').filter((word) => /^[a-z]{3,}$/.test(word)).join('\n');

// A server of the page, and of an empty one.
function serve() {
  const dist = new URL('../dist/xw.html', import.meta.url);
  const made = createServer(({ url }, response) => {
    response.setHeader('Content-Type', 'text/html; charset=utf-8');
    response.end(url === '/xw.html' ? readFileSync(dist) : '');
  });
  return new Promise((resolve) => made.listen(0, 'localhost', () => resolve(made)));
}

export function expect(isSo, what) {
  if (!isSo) throw new Error(what);
}

// A function with what it is given, as an expression of the page: values that JSON can spell, and patterns.
const called = (action, given) => `(${action})(${given.map((one) => (one instanceof RegExp ? String(one) : JSON.stringify(one))).join()})`;

// Has a function run in the page, and returns what it returns; or waits until that is true, and returns it.
export const inPage = (action, ...given) => browser.value(called(action, given));
export const untilInPage = (action, ...given) => browser.until(called(action, given));

function tellValue(selector, value, event) {
  const field = document.querySelector(selector);
  field.value = value;
  field.dispatchEvent(new Event(event, { bubbles: true }));
}

// What a selector finds in the page: the first one, or all of them. What begins with `is`, `has`, `are`, `say` or `hold` waits until it is so.
export const the = (selector) => ({
  text: () => inPage((one) => document.querySelector(one).textContent, selector),
  texts: () => inPage((one) => [...document.querySelectorAll(one)].map(({ textContent }) => textContent), selector),
  joined: (between = ',') => inPage((one, by) => [...document.querySelectorAll(one)].map(({ textContent }) => textContent).join(by), selector, between),
  value: () => inPage((one) => document.querySelector(one).value, selector),
  get: (name) => inPage((one, of) => document.querySelector(one)[of], selector, name),
  matches: (other) => inPage((one, is) => document.querySelector(one).matches(is), selector, other),
  focus: (at = 0) => inPage((one, of) => document.querySelectorAll(one)[of].focus(), selector, at),
  press: (at = 0) => inPage((one, of) => document.querySelectorAll(one)[of].click(), selector, at),
  put: (name, value) => inPage((one, of, now) => { document.querySelector(one)[of] = now; }, selector, name, value),
  // gives a field another value, and tells the page as a browser does
  choose: (value) => inPage(tellValue, selector, value, 'change'),
  isThere: () => untilInPage((one) => document.querySelector(one) !== null, selector),
  // there is none any more
  isGone: () => untilInPage((one) => document.querySelector(one) === null, selector),
  is: (other) => untilInPage((one, is) => document.querySelector(one)?.matches(is), selector, other),
  isShown: () => untilInPage((one) => document.querySelector(one)?.hidden === false, selector),
  isHidden: () => untilInPage((one) => document.querySelector(one)?.hidden, selector),
  isOpen: () => untilInPage((one) => document.querySelector(one)?.open, selector),
  isClosed: () => untilInPage((one) => document.querySelector(one)?.open === false, selector),
  isEnabled: () => untilInPage((one) => document.querySelector(one)?.disabled === false, selector),
  isDisabled: () => untilInPage((one) => document.querySelector(one)?.disabled, selector),
  hasFocus: () => untilInPage((one) => document.activeElement.matches(one), selector),
  are: (count) => untilInPage((one, so) => document.querySelectorAll(one).length === so, selector, count),
  areAtLeast: (count) => untilInPage((one, so) => document.querySelectorAll(one).length >= so, selector, count),
  // a text, or a pattern
  says: (text) => untilInPage((one, so) => {
    const told = document.querySelector(one)?.textContent;
    return told !== undefined && (so instanceof RegExp ? so.test(told) : told === so);
  }, selector, text),
  begins: (text) => untilInPage((one, so) => document.querySelector(one)?.textContent.startsWith(so), selector, text),
  ends: (text) => untilInPage((one, so) => document.querySelector(one)?.textContent.endsWith(so), selector, text),
  has: (text) => untilInPage((one, so) => document.querySelector(one)?.textContent.includes(so), selector, text),
  saysNot: (pattern) => untilInPage((one, so) => !so.test(document.querySelector(one).textContent), selector, pattern),
  oneSays: (text) => untilInPage((one, so) => [...document.querySelectorAll(one)].some(({ textContent }) => textContent === so), selector, text),
  // what a screen reader calls it
  isCalled: (pattern) => untilInPage((one, so) => so.test(document.querySelector(one)?.ariaLabel), selector, pattern),
  holds: (value) => untilInPage((one, so) => document.querySelector(one)?.value === so, selector, value),
  // what all say or hold, with what stands between
  say: (texts, between = ',') => untilInPage((one, so, by) => [...document.querySelectorAll(one)].map(({ textContent }) => textContent).join(by) === so, selector, texts, between),
  hold: (values, between = ',') => untilInPage((one, so, by) => [...document.querySelectorAll(one)].map(({ value }) => value).join(by) === so, selector, values, between),
});

// What the page shows.
export const page = {
  status: () => inPage(() => document.getElementById('status').textContent),
  facts: () => inPage(() => document.getElementById('facts').textContent),
  count: (selector) => inPage((one) => document.querySelectorAll(one).length, selector),
  // the letters of the rows, with # for a block and . for no entry, all as they are at one moment
  rows: () => inPage(() => [...document.querySelectorAll('#grid .row')].map((row) => [...row.querySelectorAll('.cell')].map((cell) => cell.classList.contains('block') ? '#' :
    cell.matches('.only, .ghost') ? '.' : cell.querySelector('.letter').textContent || '.').join(''))),
  row: async (row) => (await page.rows())[row - 1],
  has: (cell, name) => browser.value(`document.getElementById('cell-${cell}').classList.contains('${name}')`),
  // waits for one of the messages since the last key, click or file, and returns it: others may take its place at once
  statusIs: (pattern, tone = '') => browser.until(`window.messages().find(({ text, tone }) => ${pattern}.test(text) && (${!tone} || tone === '${tone}'))?.text`),
  factsAre: (pattern) => browser.until(`${pattern}.test(document.getElementById('facts').textContent)`),
  runs: () => untilInPage(() => window.isRunning),
  // the size of a blank grid, and a selection in the field that has the keys
  wantSize: (width, height) => inPage((columns, rows) => {
    document.getElementById('new-width').value = columns;
    document.getElementById('new-height').value = rows;
  }, width, height),
  select: (from, to) => inPage((begin, end) => document.activeElement.setSelectionRange(begin, end), from, to),
  cursorAt: (cell) => browser.until(`document.querySelector('.cursor')?.id === 'cell-${cell}'`),
};

export async function picture(name) {
  if (!pictures) return;
  mkdirSync(pictures, { recursive: true });
  for (const scheme of browser.lacks.has('scheme') ? ['light'] : ['light', 'dark']) {
    if (!browser.lacks.has('scheme')) await browser.scheme(scheme);
    await pause(120);
    writeFileSync(join(pictures, `${name}-${scheme}.png`), await browser.picture());
  }
}

// Notes the messages of the page, each as long as no key, click or file comes after it.
const NOTES = `
  window.said = [];
  addEventListener('error', ({ message }) => { window.fault = message; });
  for (const event of ['keydown', 'pointerdown', 'drop']) addEventListener(event, () => { window.said.length = 0; }, true);
  new MutationObserver((records) => {
    for (const { target, addedNodes } of records) if (target.id === 'status') for (const { textContent: text } of addedNodes) window.said.push({ text, tone: target.dataset.tone });
  }).observe(document, { subtree: true, childList: true });
  window.messages = () => window.said;
  window.drafts = () => Object.keys(localStorage).filter((name) => name.startsWith('xw-editor/')).map((name) => localStorage.getItem(name)).join();`;

// Gives the page the answers of its workers late, in order, each to all that listen at once.
const SLOWLY = `
  const listen = Worker.prototype.addEventListener;
  const late = new WeakMap();
  Worker.prototype.addEventListener = function (name, listener, ...more) {
    if (name !== 'message') return listen.call(this, name, listener, ...more);
    if (!late.has(this)) {
      const { port1, port2 } = new MessageChannel();
      let last = Promise.resolve();
      const wait = () => new Promise((resolve) => setTimeout(resolve, Math.random() * ${slow}));
      listen.call(this, name, ({ data }) => { last = last.then(wait).then(() => port1.postMessage(data)); });
      port2.start();
      late.set(this, port2);
    }
    late.get(this).addEventListener(name, listener, ...more);
  };`;
// how many times slower the processor is then
const SLOWER = 3;

export async function ready() {
  await untilInPage(() => window.fault || /words$|word list$/.test(document.getElementById('facts').textContent) || /cannot start/.test(document.getElementById('status').textContent));
  expect(!(await inPage(() => window.fault)), `the page fails: ${await inPage(() => window.fault)}`);
}

// Waits until the word lists that are in use are kept, so that the page can be left.
export const areListsKept = () => untilInPage(() => !document.querySelector('#lists[aria-busy=true]'));

// Leaves the page for an empty one of the same origin, and takes all away that the browser keeps.
export async function forget() {
  await areListsKept();
  const blank = join(room, 'blank.html');
  writeFileSync(blank, '');
  await browser.go(server ? new URL('blank.html', PAGE).href : `file://${blank}`);
  await inPage(() => new Promise((resolve, reject) => {
    localStorage.clear();
    sessionStorage.clear();
    const deleting = (name) => new Promise((resolve, reject) => {
      const request = indexedDB.deleteDatabase(name);
      request.onsuccess = () => resolve(true);
      request.onerror = reject;
    });
    Promise.all(['xw-editor', 'xw-editor-clues', 'xw-editor-history'].map(deleting)).then(resolve, reject);
  }));
}

// The page as a first visitor finds it.
export async function fresh() {
  await forget();
  await reload();
}

export async function reload() {
  await areListsKept();
  await browser.go(PAGE.href);
  await ready();
}

// Runs a case; the console of the page has no fault after it.
async function checked(action) {
  const told = await action();
  expect(browser.faults.length === 0, `the console has: ${browser.faults.join('; ')}`);
  return told;
}

// Why a case fails. What it left open, such as a dialog, is none of the next one.
async function whyFailed({ message }) {
  const status = await page.status().catch(() => '');
  if (pictures) writeFileSync(join(pictures, 'failed.png'), await browser.picture());
  browser.faults.length = 0;
  await reload().catch(() => {});
  return `${message}; the status line: ${status}`;
}

async function prepare() {
  await browser.view(1400, 900);
  if (!isFirefox) await browser.saveInto(room);
  await browser.preload(NOTES);
  if (slow) {
    await browser.preload(SLOWLY);
    await browser.send('Emulation.setCPUThrottlingRate', { rate: SLOWER });
  }
  if (pictures) mkdirSync(pictures, { recursive: true });
}

// Runs the cases of subjects, each subject on the page as a first visitor finds it, and ends the process. `NEEDS` of a subject has what its cases need
// that not every browser can do.
export async function runAll(subjects) {
  const count = new Count();
  try {
    await prepare();
    for (const { CASES, NEEDS = {} } of subjects) {
      const isDue = (name) => (!chosen.length || chosen.some((part) => name.includes(part))) && !NEEDS[name]?.some((need) => browser.lacks.has(need));
      const due = Object.keys(CASES).filter(isDue);
      if (due.length) await fresh();
      for (const name of due) await count.run(name, () => checked(CASES[name]), whyFailed);
    }
  } catch (error) {
    await count.run('the page', () => Promise.reject(error), async ({ stack }) => stack);
  } finally {
    await browser.close();
    server?.close();
    rmSync(room, { recursive: true, force: true });
  }
  count.end();
}

// Runs the cases of a subject if its file is the one that node was called with.
export async function runAlone(url, subject) {
  if (realpathSync(process.argv[1]) === fileURLToPath(url)) await runAll([subject]);
}
