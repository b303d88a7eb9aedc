// Cases of what the browser keeps: puzzles, versions, and tabs beside one another.
import { writeFileSync } from 'node:fs';
import { join } from 'node:path';
import { begin, menu, openFile, saved } from '../doing.mjs';
import { areStepsKept, isDrafted, isStored, stored } from '../holding.mjs';
import { PAGE, browser, expect, forget, fresh, inPage, page, picture, pictures, ready, reload, room, runAlone, the, untilInPage } from '../page.mjs';

const DENIED = `
  const deny = () => { throw new DOMException('denied', 'SecurityError'); };
  for (const name of ['localStorage', 'sessionStorage', 'indexedDB']) Object.defineProperty(window, name, { get: deny });
  if (window.LockManager) LockManager.prototype.request = LockManager.prototype.query = async () => deny();`;

export const CASES = {
  async 'a reload in the middle'() {
    await begin(1);
    await browser.type('tone');
    await browser.press('F4');
    await browser.type('Kept');
    await browser.press('Tab');
    await isDrafted(/Kept/);
    await browser.go(PAGE.href);
    await ready();
    expect((await page.row(1)).startsWith('TONE'), 'the letters are lost');
    expect((await the('#title').value()) === 'Kept', 'the title is lost');
  },

  async 'undo and redo after a reload'() {
    await fresh();
    await begin(6);
    await browser.type('cot');
    await page.factsAre(/· 3 of/);
    await browser.press('F3');
    await browser.insert('Small bed');
    await browser.press('Enter');
    await areStepsKept([4, 0]);
    await reload();
    expect(!(await the('#undo').get('disabled')) && (await the('#redo').get('disabled')), 'undo is not there, or redo is');
    // first the clue, then a letter, to where the cursor was
    await browser.press('Control+z');
    await page.statusIs(/^undone: the clue of 1 Across$/i);
    await browser.click('#cell-3-3');
    await browser.press('Control+z');
    await page.factsAre(/· 2 of/);
    await page.cursorAt('1-4');
    await areStepsKept([2, 2]);
    // and forth, and back to the first one
    await reload();
    await browser.press('Control+y');
    await page.factsAre(/· 3 of/);
    await browser.press('Control+y');
    await page.statusIs(/^done again: the clue of 1 Across$/i);
    for (let left = 4; left > 0; left--) await browser.press('Control+z');
    await page.factsAre(/· 0 of/);
    await the('#undo').isDisabled();
    // the steps go with the puzzle that is left
    await begin(1);
    await browser.type('t');
    await areStepsKept([1, 0]);
  },

  async 'a step that the page could not keep any more'() {
    await fresh();
    await begin(6);
    await browser.type('co');
    await areStepsKept([2, 0]);
    // the draft and the puzzle are kept, and the steps are not
    await inPage(() => {
      const { put } = IDBObjectStore.prototype;
      IDBObjectStore.prototype.put = function (...words) {
        if (this.name === 'history') throw new DOMException('no room', 'QuotaExceededError');
        return put.apply(this, words);
      };
    });
    await browser.type('t');
    await isDrafted(/set 1 4 T/);
    await isStored('set 1 4 T');
    await reload();
    await page.factsAre(/· 3 of/);
    await browser.press('Control+z');
    await page.factsAre(/· 2 of/);
    await browser.press('Control+z');
    await page.factsAre(/· 1 of/);
    await browser.press('Control+y');
    await browser.press('Control+y');
    await page.factsAre(/· 3 of/);
  },

  async 'a reload in the middle of a word'() {
    await begin(1);
    // from the first draft on the page keeps this puzzle
    await browser.type('j');
    await isDrafted(/set 1 1 J/);
    const loaded = browser.reloaded();
    // the page goes before the engine has answered
    await inPage(() => {
      const press = (key) => document.getElementById('grid').dispatchEvent(new KeyboardEvent('keydown', { key, bubbles: true, cancelable: true }));
      for (const key of 'oke') press(key);
      location.reload();
    });
    await loaded;
    await ready();
    expect((await page.row(1)).startsWith('JOKE'), `the row is ${await page.row(1)}`);
  },

  async 'texts that are being typed when the page ends without a word'() {
    await fresh();
    await begin(6);
    // the page hears nothing of its end, as in a crash
    const deafen = () => inPage(() => {
      for (const name of ['pagehide', 'visibilitychange', 'beforeunload', 'change', 'blur', 'focusout']) addEventListener(name, (event) => event.stopImmediatePropagation(), true);
    });
    const texts = [
      ["F3", '#clue-list textarea', 'Half a clue'], ["F4", '#title', 'Half a title'], ["F3", '.clue-more .note', 'half a note'],
    ];
    for (const [key, selector, text] of texts) {
      await browser.press(key);
      await the(selector).focus();
      await browser.insert(text);
      await isDrafted(new RegExp(text));
      expect(await browser.value(`document.activeElement.matches('${selector}') && document.activeElement.value === '${text}'`), 'the field is left');
      await deafen();
      await browser.go(PAGE.href);
      await ready();
      await browser.press('F3');
      await the(selector).holds(text);
    }
  },

  async 'puzzles that are replaced, deleted and restored'() {
    await fresh();
    await begin(1);
    await browser.type('tone');
    await page.factsAre(/· 4 of/);
    await begin(6);
    await browser.press('Control+z');
    await page.factsAre(/^15 × 15 · 4 of/);
    await browser.press('Control+y');
    await page.factsAre(/^5 × 5/);
    await browser.type('co');
    await isDrafted(/size 5 5[^]*set 1 3 O/);
    await isStored('size 5 5');
    await reload();
    await page.statusIs(/your puzzle is as you left it; File ▸ Puzzles has 1 more/);
    expect((await page.row(1)) === '#CO.#', `the row is ${await page.row(1)}`);
    await menu('library');
    await the('#library-list .pattern').are(2);
    await picture('library');
    expect(await the('.card .delete').get('disabled'), 'the puzzle that is here can be deleted');
    await browser.click('.card:nth-child(2) .pattern');
    await page.factsAre(/^15 × 15 · 4 of/);
    expect((await page.row(1)).startsWith('TONE'), 'the letters are lost');
    await isDrafted(/size 15 15[^]*set 1 4 E/);
    await menu('library');
    await untilInPage(() => document.querySelectorAll('.card .delete:disabled').length === 1 && /5 × 5/.test(document.querySelector('.card:nth-child(2)').textContent));
    await browser.click('.card:nth-child(2) .delete');
    await the('.bin summary').says('Deleted (1)');
    await browser.press('Escape');
    await reload();
    await menu('library');
    await the('.bin summary').isThere();
    await browser.click('.bin summary');
    await browser.click('.bin .restore');
    await untilInPage(() => !document.querySelector('.bin') && document.querySelectorAll('#library-list .card').length === 2);
    await browser.click('.card:nth-child(2) .delete');
    await the('.bin summary').isThere();
    await browser.click('.bin summary');
    await browser.click('.bin .destroy');
    await untilInPage(() => !document.querySelector('.bin') && document.querySelectorAll('#library-list .card').length === 1);
    await browser.press('Escape');
    expect((await page.row(1)).startsWith('TONE'), 'the puzzle that is here is gone');
  },

  async 'a puzzle that is begun while the page starts'() {
    // the page asks which puzzles other tabs hold, first for drafts and then for those to greet with
    const unload = await browser.preload(`
      const { query } = LockManager.prototype;
      let count = 0;
      LockManager.prototype.query = async function () {
        if (++count === 2) await new Promise((resolve) => { window.goOn = resolve; });
        return query.call(this);
      };`);
    try {
      await reload();
      await begin(1);
      await untilInPage(() => window.goOn);
      await browser.type('tone');
      await isDrafted(/set 1 4 E/);
      await inPage(() => window.goOn());
      await page.runs();
      await browser.click('#cell-2-1');
      await browser.type('a');
      await isDrafted(/set 2 1 A/);
      expect(await inPage(() => !document.getElementById('warnings').textContent && document.getElementById('kept').dataset.state === 'kept'), 'the page holds its own puzzle for that of another tab');
    } finally {
      await unload();
      await reload();
    }
  },

  async 'versions of a puzzle'() {
    await fresh();
    await begin(6);
    await browser.type('cot');
    await page.cursorAt('1-4');
    await page.factsAre(/· 3 of/);
    // three letters at once are a loss that a version is kept of
    await browser.press('Shift+Delete');
    await page.factsAre(/· 0 of/);
    await browser.click('#cell-2-1');
    await browser.type('a');
    await browser.until(`(${stored})().then(({ versions }) => versions.some(({ record }) => /set 1 4 T/.test(record)))`);
    await reload();
    await menu('library');
    await browser.click('.card .versions');
    await untilInPage(() => document.querySelector('.back') && document.querySelectorAll('.card').length === 1);
    await picture('versions');
    await browser.click('.card .pattern');
    await page.factsAre(/· 3 of/);
    expect((await page.row(1)) === '#COT#' && (await page.row(2)) === '.....', `the grid is ${await page.rows()}`);
    await browser.until(`(${stored})().then(({ versions }) => versions.some(({ record }) => /set 2 1 A/.test(record)))`);
    await browser.press('Control+z');
    await page.factsAre(/· 1 of/);
  },

  async 'a puzzle that an older page kept'() {
    await forget();
    const session = (name, letter) => ({ puzzle: name, record: `size 4 4\nsym half\nset 1 1 ${letter}\n`, pencil: [], cursor: 1, direction: 'across' });
    await browser.value(`(
      localStorage.setItem('xw-editor', ${JSON.stringify(JSON.stringify(session('one', 'Q')))}),
      localStorage.setItem('xw-editor-earlier', ${JSON.stringify(JSON.stringify([{ ...session('two', 'Z'), left: 1000 }]))}))`);
    await reload();
    await page.statusIs(/as you left it; File ▸ Puzzles has 1 more/);
    expect((await page.row(1)) === 'Q...', `the row is ${await page.row(1)}`);
    await menu('library');
    await browser.click('.card:nth-child(2) .pattern');
    await the('#cell-1-1 .letter').says('Z');
  },

  async 'two tabs'() {
    await fresh();
    await begin(1);
    await browser.type('tone');
    await isDrafted(/set 1 4 E/);
    const other = await browser.tab();
    const warned = (tab, pattern) => tab.until(`${pattern}.test(document.getElementById('warnings').textContent)`);
    const isKept = (tab) => tab.until("document.getElementById('kept').dataset.state === 'kept'");
    // a tab gets what another one writes a moment later
    const sees = (tab, pattern) => tab.until(`${pattern}.test(Object.values(localStorage).join())`);
    const has = (tab, cell, letter) => tab.until(`document.querySelector('#cell-${cell} .letter')?.textContent === '${letter}'`);
    try {
      await other.view(1400, 900);
      await other.go(PAGE.href);
      await warned(other, /open in another tab/);
      await other.until("/another tab/.test(document.getElementById('kept').textContent)");
      await has(other, '1-4', 'E');
      if (pictures) writeFileSync(join(pictures, 'two-tabs.png'), await other.picture());
      await browser.front();
      await browser.click('#cell-2-1');
      await browser.type('a');
      await isDrafted(/set 2 1 A/);
      await sees(other, /set 2 1 A/);
      // taken over as the first tab has left it
      await other.front();
      await other.click('#warnings button');
      await has(other, '2-1', 'A');
      await isKept(other);
      await warned(browser, /open in another tab/);
      await other.click('#cell-3-1');
      await other.type('b');
      await isDrafted(/set 3 1 B/);
      // what the first tab changes now is a copy
      await browser.front();
      await browser.click('#cell-4-1');
      await browser.type('z');
      await warned(browser, /kept as a copy/);
      await isKept(browser);
      await browser.until(`(${stored})().then(({ puzzles }) => puzzles.length === 2 &&
        puzzles.some(({ record }) => /set 3 1 B/.test(record)) && puzzles.some(({ record }) => /set 4 1 Z/.test(record) && !/set 3 1 B/.test(record)))`);
      await browser.click('#warnings button');
      await untilInPage(() => !document.getElementById('warnings').textContent);
      // each tab has its own after a reload
      await reload();
      await has(browser, '4-1', 'Z');
      await isKept(browser);
      await other.front();
      await other.go(PAGE.href);
      await has(other, '3-1', 'B');
      await isKept(other);
      // a puzzle that is open elsewhere is not deleted
      await other.press('Control+z');
      await menuIn(other, 'library');
      await other.until("document.querySelectorAll('.card .delete:disabled').length === 2 && /open in another tab/.test(document.getElementById('library-list').textContent)");
    } finally {
      await other.close();
      await browser.front();
    }

    async function menuIn(tab, name) {
      await tab.click('#file');
      await tab.click(`[data-do="${name}"]`);
    }
  },

  async 'a browser that keeps nothing'() {
    await fresh();
    await begin(1);
    await inPage(() => {
      window.setItem = Storage.prototype.setItem;
      window.openDatabase = IDBFactory.prototype.open;
      Storage.prototype.setItem = () => { throw new DOMException('no room', 'QuotaExceededError'); };
      IDBFactory.prototype.open = () => { throw new DOMException('no room', 'QuotaExceededError'); };
    });
    await browser.type('t');
    await the('#warnings').says(/^Not kept: the browser has no room left/);
    expect((await the('#kept').text()) === 'Not kept: the browser has no room left', 'the foot says otherwise');
    await picture('not-kept');
    const session = (await saved('crossword.xw', () => browser.click('#warnings button'))).toString();
    expect(/set 1 1 T/.test(session), 'the session is not saved');
    await browser.press('Control+p');
    await browser.click('#print-dialog [value=cancel]');
    expect(await inPage(() => /^Not kept/.test(document.getElementById('warnings').textContent)), 'the warning is gone');
    // the store alone is enough
    await inPage(() => IDBFactory.prototype.open = window.openDatabase);
    await browser.type('o');
    await untilInPage(() => !document.getElementById('warnings').textContent && document.getElementById('kept').dataset.state === 'kept');
    await isStored('set 1 2 O');
    await inPage(() => Storage.prototype.setItem = window.setItem);
    await browser.type('e');
    await isDrafted(/set 1 3 E/);
  },

  async 'leaving a puzzle that is not kept'() {
    const leave = async () => {
      browser.asked.length = 0;
      await browser.go(PAGE.href);
      await page.runs();
      return browser.asked.join();
    };
    await browser.type('to');
    await isStored('set 1 2 O');
    expect((await leave()) === '', 'a puzzle that is kept is asked for');
    const unload = await browser.preload(DENIED);
    try {
      await browser.go(PAGE.href);
      await page.runs();
      // nothing was done yet
      await browser.press('ArrowRight');
      expect((await leave()) === '', 'a new puzzle is asked for');
      await browser.type('to');
      await the('#warnings').says(/^Not kept/);
      expect((await leave()) === 'beforeunload', 'the page goes with the puzzle');
      // what a file has is not lost
      await browser.type('to');
      await the('#warnings').says(/^Not kept/);
      await saved('crossword.xw', () => browser.press('Control+s'));
      expect((await leave()) === '', 'a puzzle that is in a file is asked for');
    } finally {
      await unload();
      await reload();
    }
  },

  async 'a browser that denies its store'() {
    const unload = await browser.preload(DENIED);
    try {
      await browser.go(PAGE.href);
      await page.runs();
      await browser.type('to');
      await the('#warnings').says(/^Not kept: this browser keeps nothing for this page/);
      expect((await the('#kept').text()) === 'Not kept: this browser keeps nothing for this page', 'the foot says otherwise');
      const session = (await saved('crossword.xw', () => browser.click('#warnings button'))).toString();
      expect(/set 1 2 O/.test(session), 'the session is not saved');
      await menu('library');
      await the('#library-list').says(/There are no puzzles to show/);
      await browser.press('Escape');
      await saved('crossword.xw', () => browser.press('Control+s'));
    } finally {
      await unload();
      await reload();
    }
  },

  async 'the store is asked to last'() {
    await forget();
    // an empty page has none in Firefox
    const unload = await browser.preload(`
      window.asked = 0;
      if (window.StorageManager) Object.assign(StorageManager.prototype, { persisted: async () => false, persist: async () => { window.asked++; return false; } });`);
    try {
      await reload();
      await untilInPage(() => document.getElementById('kept').dataset.state === 'kept');
      expect((await inPage(() => window.asked)) === 0, 'the browser is asked before there is a puzzle');
      await browser.type('tone');
      await untilInPage(() => window.asked === 1 && /may take it away/.test(document.getElementById('kept').title));
      await isStored('set 1 4 E');
      await browser.click('#cell-2-1');
      await browser.type('a');
      await isStored('set 2 1 A');
      expect((await inPage(() => window.asked)) === 1, 'the browser is asked again');
    } finally {
      await unload();
      await reload();
    }
  },

  async 'all puzzles in a file'() {
    await fresh();
    await begin(1);
    await browser.type('tone');
    await begin(6);
    await browser.type('co');
    await isStored('set 1 3 O');
    await menu('library');
    await the('#library-list .card').are(2);
    const bytes = await saved('puzzles.json', () => browser.click('#library-save'));
    await browser.press('Escape');
    const { puzzles } = JSON.parse(bytes.toString());
    expect(puzzles.length === 2 && puzzles.some(({ record }) => /set 1 4 E/.test(record)), 'a puzzle is not in the file');
    // another browser
    await fresh();
    await openFile(join(room, 'puzzles.json'));
    await page.statusIs(/^puzzles.json: 2 puzzles are added to File ▸ Puzzles$/);
    await openFile(join(room, 'puzzles.json'));
    await page.statusIs(/^puzzles.json: 0 puzzles are added to File ▸ Puzzles; of 2 that are here already, versions$/);
    await menu('library');
    await the('#library-list .card').are(2);
    await inPage(() => [...document.querySelectorAll('.card .pattern')].find(({ textContent }) => /15 × 15/.test(textContent)).click());
    await page.factsAre(/^15 × 15 · 4 of/);
    expect((await page.row(1)).startsWith('TONE'), 'the letters are lost');
    writeFileSync(join(room, 'puzzles.json'), '{"format":"xw puzzles 1","puzzles":[{"puzzle":1}],"versions":[]}');
    await openFile(join(room, 'puzzles.json'));
    await page.statusIs(/cannot be read or kept: nothing is added/, 'bad');
  },
};

// What cases need that not every browser can do.
export const NEEDS = { 'a reload in the middle': ['blur'], 'leaving a puzzle that is not kept': ['asking'] };

await runAlone(import.meta.url, { CASES, NEEDS });
