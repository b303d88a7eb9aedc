// What cases do between the page and its workers: they count messages, change them, and hold them back. And what the browser keeps.
import { browser, expect, inPage, page, the, untilInPage } from './page.mjs';

// Types a letter at the cursor, and counts its work: it is one edit, sent ahead of all else, and no cell is written to but those that the answer
// names, and those of the cursor.
export async function workOfLetter(letter) {
  await inPage(() => {
    window.work = { sent: [], written: new Set(), told: null };
    const post = Worker.prototype.postMessage;
    // what was sent before the key is no work of the letter
    addEventListener('keydown', () => { window.work.sent.length = 0; }, { capture: true, once: true });
    Worker.prototype.postMessage = function (message, transfer) {
      window.work.sent.push(message.call);
      if (message.call === 'edit' && !window.work.told) {
        Worker.prototype.postMessage = post;
        this.addEventListener('message', ({ data }) => { if (data.id === message.id) window.work.told = data.value; });
      }
      post.call(this, message, transfer);
    };
    window.writes = new MutationObserver((records) => {
      for (const { target } of records) window.work.written.add((target.parentElement?.closest('.cell') ?? target).id);
    });
    for (const cell of document.querySelectorAll('.cell')) window.writes.observe(cell, { attributes: true, characterData: true, subtree: true });
  });
  await browser.press(letter);
  await untilInPage(() => (window.work.told && document.querySelector('#candidates[aria-busy=false]')));
  const { sent, written, changed } = await inPage(() => (window.writes.disconnect(),
    { sent: window.work.sent, written: [...window.work.written].filter(Boolean), changed: window.work.told.changed }));
  expect(sent[0] === 'edit', `sent ahead of the letter: ${sent}`);
  const named = changed.map(({ row, column }) => `cell-${row}-${column}`);
  const others = written.filter((id) => !named.includes(id));
  expect(others.length <= 2, `cells are written to that did not change: ${others}`);
  return `${named.length} cells changed, ${written.length} written`;
}

// The puzzles and versions that the browser keeps.
export const stored = `() => new Promise((resolve, reject) => {
  const request = indexedDB.open('xw-editor');
  request.onerror = reject;
  request.onsuccess = () => {
    const transaction = request.result.transaction(['puzzles', 'versions']);
    const [puzzles, versions] = ['puzzles', 'versions'].map((name) => transaction.objectStore(name).getAll());
    transaction.oncomplete = () => {
      request.result.close();
      resolve({ puzzles: puzzles.result, versions: versions.result });
    };
  };
})`;
export const isStored = (line) => browser.until(`(${stored})().then(({ puzzles }) => puzzles.some(({ record }) => record.includes('${line}')))`);
// The histories of open puzzles that the browser keeps; none if the page has not made their store yet.
const histories = `() => new Promise((resolve) => {
  const request = indexedDB.open('xw-editor-history');
  request.onupgradeneeded = () => request.transaction.abort();
  request.onerror = () => resolve([]);
  request.onsuccess = () => {
    const all = request.result.transaction('history').objectStore('history').getAll();
    all.onsuccess = () => {
      request.result.close();
      resolve(all.result);
    };
  };
})`;
// Waits until these are the histories: for each puzzle how many steps can be undone, and how many done again.
export const areStepsKept = (...counts) => browser.until(`(${histories})().then((all) => JSON.stringify(all.map(({ past, future }) => [past.length, future.length])) === '${JSON.stringify(counts)}')`);
// Waits until the bank of old clues has a clue.
export const isInBank = (clue) => browser.until(`new Promise((resolve) => {
  const request = indexedDB.open('xw-editor-clues');
  request.onsuccess = () => {
    const all = request.result.transaction('clues').objectStore('clues').getAll();
    all.onsuccess = () => {
      request.result.close();
      resolve(all.result.some((one) => one.clue === '${clue}'));
    };
  };
})`);
// A draft of an open puzzle
export const isDrafted = (pattern) => browser.until(`${pattern}.test(window.drafts())`);

// Changes the edit with a line, on its way to the worker, into what an expression makes of its message.
export const changeEdit = (line, changed) => browser.value(`(() => {
  const post = Worker.prototype.postMessage;
  Worker.prototype.postMessage = function (message, transfer) {
    if (message.call !== 'edit' || message.sent.lines[0] !== '${line}') return post.call(this, message, transfer);
    Worker.prototype.postMessage = post;
    post.call(this, ${changed}, transfer);
  };
})()`);

// Holds the first slice of a fill back until `heldFill` of the page is called, and leaves it no placement to end with.
export const holdFill = () => inPage(() => {
  window.heldFill = null;
  const post = Worker.prototype.postMessage;
  Worker.prototype.postMessage = function (message, transfer) {
    if (message.call !== 'autofill') return post.call(this, message, transfer);
    Worker.prototype.postMessage = post;
    window.heldFill = () => post.call(this, { ...message, sent: { given: [0, 0] } }, transfer);
  };
});

// Lets go of it.
export const isFillHeld = () => untilInPage(() => window.heldFill);
export const releaseFill = () => inPage(() => window.heldFill());

// Holds the slices of the worker of the session back until another worker gives an answer, with so many cores; it then finds nothing itself.
export const raceOthers = (answer, cores) => browser.value(`(() => {
  Object.defineProperty(navigator, 'hardwareConcurrency', { value: ${cores}, configurable: true });
  window.race = { workers: new Set(), told: null, release: null };
  const { race } = window;
  const post = Worker.prototype.postMessage;
  const take = ({ data }) => {
    if (data.value?.answer !== '${answer}') return;
    race.told ??= data.value;
    race.release?.();
  };
  Worker.prototype.postMessage = function (message, transfer) {
    if (message.call === 'load' && !race.workers.has(this)) {
      race.workers.add(this);
      this.addEventListener('message', take);
    }
    if (message.call !== 'autofill') return post.call(this, message, transfer);
    race.release = () => {
      race.release = null;
      post.call(this, { ...message, sent: { given: [0, 0] } }, transfer);
    };
    if (race.told) race.release();
  };
})()`);

// Takes away the end that comes by time to raisings, or gives it back: without it they go on until none is better.
export const raiseToTheEnd = () => inPage(() => (window.inTime ??= window.setTimeout, window.setTimeout = (action, time, ...more) => (time === 2000 ? 0 : window.inTime(action, time, ...more)), 0));
export const raiseInTime = () => inPage(() => (window.setTimeout = window.inTime, 0));

// Holds calls of a name back until `release` of the page is called.
export const hold = (name) => browser.value(`(() => {
  window.held = [];
  const post = Worker.prototype.postMessage;
  Worker.prototype.postMessage = function (message, transfer) {
    if (window.held && message.call === '${name}') window.held.push(() => post.call(this, message, transfer));
    else post.call(this, message, transfer);
  };
  window.release = () => {
    const { held } = window;
    window.held = null;
    for (const action of held) action();
  };
})()`);

// Lets go of them.
export const release = () => inPage(() => window.release());

// Holds the slices of raisings back so, and takes their end by time away.
export const holdRaising = () => raiseToTheEnd().then(() => hold('best'));
export const isHeld = () => untilInPage(() => window.held?.length > 0);
