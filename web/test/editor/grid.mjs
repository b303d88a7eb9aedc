// Cases of the grid: letters, blocks, bars and circles, the cursor and the keys.
import { writeFileSync } from 'node:fs';
import { join } from 'node:path';
import { begin, menu, openFile, openWords } from '../doing.mjs';
import { changeEdit, isDrafted, workOfLetter } from '../holding.mjs';
import { browser, expect, inPage, page, picture, reload, room, runAlone, the, untilInPage } from '../page.mjs';

export const CASES = {
  async 'a first letter'() {
    await reload();
    await browser.press('q');
    await the('#cell-1-1').has('Q');
    await the('#cell-2-1').isCalled(/only U/);
    expect(await page.has('2-1', 'only'), 'the only letter is not grey');
  },

  async 'the work of a letter'() {
    await begin(1);
    return workOfLetter('s');
  },

  async 'blocks, bars, circles and symmetry'() {
    await menu('new');
    await page.wantSize(9, 7);
    await browser.click('#new-blank');
    await page.factsAre(/^9 × 7/);
    await browser.press('.');
    await the('#cell-7-9').is('.block');
    expect(await page.has('1-1', 'block'), 'no block under the cursor');
    await page.cursorAt('1-2');
    await browser.press('|');
    await the('#cell-1-2').is('.bar-right');
    expect(await page.has('7-7', 'bar-right'), 'the bar has no image');
    await browser.press('_');
    await the('#cell-1-2').is('.bar-below');
    await browser.press('*');
    await the('#cell-1-2').is('.circled');
    await browser.click('#cell-7-8');
    await browser.press('a');
    await the('#cell-7-8').has('A');
    await browser.click('#cell-1-2');
    await browser.press('.');
    await page.statusIs(/letter at row 7, column 8 is in the way/);
    await browser.click('[data-tool=block]');
    await browser.click('#cell-4-5');
    await the('#cell-4-5').is('.block');
    await browser.click('[data-tool=block]');
    await menu('save-puz');
    await page.statusIs(/cannot hold bars/);
    await picture('bars');
  },

  async 'tools as modes'() {
    await begin(1);
    const mode = (text) => the('#mode').begins(text);
    const isBlock = (...cells) => browser.until(`${JSON.stringify(cells)}.every((cell) => document.getElementById('cell-' + cell).classList.contains('block'))`);
    await browser.click('[data-tool=block]');
    await mode('Blocks');
    await picture('mode');
    // through the middle of the grid, over cells that images have made already: each is blocked once
    await browser.drag('#cell-8-5', '#cell-8-11');
    await isBlock('8-5', '8-6', '8-7', '8-8', '8-9', '8-10', '8-11');
    // one drag is one step
    await browser.press('Control+z');
    await the('#cell-8-5.block, #cell-8-8.block, #cell-8-11.block').isGone();
    await browser.press('Control+y');
    await isBlock('8-5', '8-11');
    await browser.press('Control+z');
    await the('#cell-8-5.block, #cell-8-8.block, #cell-8-11.block').isGone();
    await browser.press('Escape');
    await the('#mode').isHidden();
    await browser.click('[data-tool=circle]');
    await mode('Circles');
    await browser.drag('#cell-1-1', '#cell-1-3');
    await the('.circled').are(3);
    await browser.drag('#cell-1-2', '#cell-1-3');
    await the('.circled').are(1);
    await browser.click('#mode [data-do=end-mode]');
    await untilInPage(() => (document.getElementById('mode').hidden && !document.querySelector('.tool[aria-pressed=true]')));
    await browser.press('Control+z');
    await the('.circled').are(3);
    await browser.press('Control+z');
    await the('.circled').isGone();
    // bars, and locks of letters
    await browser.type('tone');
    await page.factsAre(/· 4 of/);
    await browser.click('[data-tool=pencil]');
    await browser.drag('#cell-1-1', '#cell-1-4');
    await the('.cell.pencil').are(4);
    await browser.click('[data-tool=right]');
    await mode('Bars on the right');
    await browser.drag('#cell-3-1', '#cell-5-1');
    await untilInPage(() => ['3-1', '4-1', '5-1', '13-14', '12-14', '11-14'].every((cell) => document.getElementById(`cell-${cell}`).classList.contains('bar-right')));
    await browser.press('Escape');
    await browser.press('Control+z');
    await untilInPage(() => !document.querySelector('.bar-right') && document.querySelectorAll('.cell.pencil').length === 4);
    await browser.press('Control+z');
    await the('.cell.pencil').isGone();
  },

  async 'entries and lights'() {
    await begin(3);
    if (await page.has('1-1', 'down')) await browser.press('Enter');
    await browser.type('culturex');
    await page.statusIs(/^the light ends here/);
    await browser.click('#tab-clues');
    await the('#clue-summary').says(/^0 of \d+ lights have a clue/);
    await begin(1);
    await the('#clue-summary').says(/^0 of 76 entries have a clue/);
    await browser.click('#tab-words');
    // names and texts are as they are
    writeFileSync(join(room, 'light verse.txt'), 'cat\ncot\n');
    await openWords(join(room, 'light verse.txt'));
    await page.statusIs(/^light verse.txt: 2 words/);
    await menu('built-in');
    await page.factsAre(/built-in list/);
  },

  async 'the keys of a Mac'() {
    const unload = await browser.preload("Object.defineProperty(Navigator.prototype, 'platform', { get: () => 'MacIntel' });");
    try {
      await reload();
      expect((await the('#fill').get('title')).includes('⌘F'), 'a button has another key');
      expect(!(await inPage(() => document.body.textContent.replace(/<script[^]*/, '') && [...document.querySelectorAll('kbd, [title]')].some((one) => /Ctrl/.test(one.title + (one.matches('kbd') ? one.textContent : ''))))), 'a key is called Ctrl');
      await begin(6);
      await browser.press('Shift+Backspace');
      await browser.type('co');
      await page.factsAre(/· 2 of/);
      await browser.press('Shift+Backspace');
      await page.factsAre(/· 0 of/);
    } finally {
      await unload();
      await reload();
    }
  },

  async 'keys of the grid that are one too many'() {
    await begin(1);
    await browser.type('tonex');
    await page.statusIs(/the entry ends here/);
    await page.factsAre(/· 4 of/);
    expect((await page.row(1)).startsWith('TONE'), `the row is ${await page.row(1)}`);
    await browser.press('Backspace');
    await browser.type('s');
    await the('#cell-1-4 .letter').says('S');
    await browser.press('Shift+Delete');
    await page.factsAre(/· 0 of/);
    await browser.type('e');
    await the('#cell-1-4 .letter').says('E');
    await browser.click('#cell-1-1');
    if (await page.has('1-1', 'down')) await browser.press('Enter');
    await browser.type('ton');
    await page.factsAre(/· 4 of/);
    await browser.press('5');
    await page.statusIs(/“5” does nothing here/);
    await browser.click('#cell-1-6');
    if (await page.has('1-6', 'down')) await browser.press('Enter');
    await inPage(() => { const data = new DataTransfer(); data.setData('text', 'ouï-ja'); document.getElementById('grid').dispatchEvent(new ClipboardEvent('paste', { clipboardData: data, dataType: 'text/plain', data: 'ouï-ja', bubbles: true, cancelable: true })); });
    await the('#cell-1-10 .letter').says('A');
    expect((await page.row(1)).slice(5, 10) === 'OUIJA', `the row is ${await page.row(1)}`);
    await browser.press('Control+z');
    await page.factsAre(/· 4 of/);
    // a block over ink asks, over pencil does not
    await browser.click('#cell-1-1');
    await browser.press('.');
    await page.statusIs(/T is entered here/);
    expect(!(await page.has('1-1', 'block')), 'the letter is gone');
    await browser.press('=');
    await the('#cell-1-1.pencil').isThere();
    await browser.press('.');
    await untilInPage(() => document.querySelector('#cell-1-1.block') && document.querySelector('#cell-15-15.block'));
    // blocks are painted along a drag, each once
    await browser.click('[data-tool=block]');
    await browser.drag('#cell-7-1', '#cell-7-3');
    await untilInPage(() => ['7-1', '7-2', '7-3', '9-15', '9-14', '9-13'].every((cell) => document.getElementById(`cell-${cell}`).classList.contains('block')));
    await browser.press('Escape');
    // Tab leaves the grid after Escape
    await browser.press('Escape');
    await browser.press('Tab');
    expect(!(await inPage(() => document.activeElement.id === 'grid')), 'Tab does not leave the grid');
    // F6 goes from the grid to the panel, to the menu, and back
    await browser.click('#cell-2-2');
    for (const id of ['tab-words', 'file', 'grid']) {
      await browser.press('F6');
      await the(`#${id}`).hasFocus();
    }
    expect(await inPage(() => /F6.*leave the grid/.test(document.getElementById('help-dialog').textContent)), 'the help does not say how to leave the grid');
  },

  async 'what is spoken, and keys of groups'() {
    await begin(1);
    const spoken = (pattern) => the('#spoken').says(pattern);
    await browser.type('ton');
    await browser.click('#cell-1-1');
    await browser.press('Enter');
    await spoken(/^1 Down, \d letters, T( blank)+\u00a0?$/);
    await browser.press('Enter');
    await spoken(/^1 Across, 4 letters, T O N blank\u00a0?$/);
    // the name of a cell has its entries
    await the('#cell-1-2').isCalled(/^row 1, column 2, number 2, O, 1 Across, letter 2 of 4, 2 Down, letter 1 of \d$/);
    // the letters of a cell are one stop of Tab, and arrows go through them
    await browser.click('#cell-1-4');
    await the('#letters[aria-busy=false] button').areAtLeast(4);
    expect(await inPage(() => (document.querySelectorAll('#letters button[tabindex="0"]').length === 1)), 'each letter is a stop of Tab');
    await the('#letters [tabindex="0"]').focus();
    const here = (at) => browser.until(`[...document.querySelectorAll('#letters button')].indexOf(document.activeElement) === ${at} && document.activeElement.tabIndex === 0`);
    await browser.press('ArrowRight');
    await here(1);
    await browser.press('ArrowRight');
    await here(2);
    await browser.press('ArrowLeft');
    await here(1);
    await browser.press('End');
    await here("document.querySelectorAll('#letters button').length - 1");
    await browser.press('Home');
    await here(0);
    expect(await inPage(() => (document.querySelectorAll('#letters button[tabindex="0"]').length === 1)), 'several letters are stops of Tab');
    // the menu
    await browser.click('#file');
    const itemIs = (text) => browser.until(`document.activeElement.textContent.trim().startsWith('${text}')`);
    await itemIs('New puzzle');
    await browser.press('End');
    await itemIs('Print');
    await browser.press('Home');
    await itemIs('New puzzle');
    await browser.press('ArrowUp');
    await itemIs('Print');
    await browser.press('s');
    await itemIs('Save');
    await browser.press('s');
    await itemIs('Save as .puz');
    await browser.press('c');
    await itemIs('Clues as CSV');
    await browser.press('u');
    await itemIs('Use the built-in');
    await browser.press('Escape');
    await the('#file').hasFocus();
  },

  async 'undo of all'() {
    await begin(6);
    const blank = await page.rows();
    await browser.type('co');
    await browser.press('Control+f');
    await page.statusIs(/^filled/);
    await browser.press('Backspace');
    await browser.click('#cell-3-3');
    await browser.press('*');
    await browser.press('|');
    await the('.bar-right').isThere();
    await browser.press('F3');
    await browser.type('A clue');
    await browser.press('Enter');
    await browser.press('F4');
    await browser.click('#word');
    await browser.type('zzyzx');
    await browser.press('Enter');
    await page.statusIs(/ZZYZX is added/);
    await browser.click('#cell-2-2');
    const full = await page.rows();
    const steps = 8;
    for (let step = 0; step < steps; step++) await browser.press('Control+z');
    await page.factsAre(/· 0 of/);
    const undone = await page.rows();
    expect(undone.join() === blank.join(), `undo does not come to the blank grid, but to ${undone}`);
    expect((await page.count('.circled, .bar-right')) === 0, 'a circle or a bar stays');
    for (let step = 0; step < steps; step++) await browser.press('Control+y');
    await untilInPage(() => document.querySelectorAll('.circled').length === 1 && document.getElementById('redo').disabled);
    expect((await page.rows()).join() === full.join(), 'redo does not come to the end');
  },

  async 'a message while a letter is under way'() {
    await begin(6);
    // the edit is done when the record after it is there
    await inPage(() => {
      const post = Worker.prototype.postMessage;
      Worker.prototype.postMessage = function (message, transfer) {
        if (window.heldEdit && message.call === 'record') {
          Worker.prototype.postMessage = post;
          this.addEventListener('message', ({ data }) => { if (data.id === message.id) window.isDone = true; });
        }
        if (message.call !== 'edit') return post.call(this, message, transfer);
        window.heldEdit = () => post.call(this, message, transfer);
      };
    });
    await browser.press('c');
    await untilInPage(() => window.heldEdit);
    writeFileSync(join(room, 'empty.puz'), '');
    await browser.drop(join(room, 'empty.puz'));
    await page.statusIs(/^empty.puz is empty/, 'bad');
    // the letter is answered after the file is refused, and says nothing of it
    await inPage(() => window.heldEdit());
    await untilInPage(() => window.isDone);
    expect((await page.status()).startsWith('empty.puz is empty'), `the page says: ${await page.status()}`);
  },

  async 'undo goes to where its step was'() {
    await begin(6);
    // 30 letters a second and more: each is entered before the last one is answered
    const typeAtOnce = (keys) => browser.value(`(() => {
      for (const key of '${keys}') document.getElementById('grid').dispatchEvent(new KeyboardEvent('keydown', { key, bubbles: true, cancelable: true }));
    })()`);
    await page.cursorAt('1-2');
    await typeAtOnce('cot');
    await page.factsAre(/· 3 of/);
    await browser.click('#cell-3-1');
    await typeAtOnce('ar');
    await page.factsAre(/· 5 of/);
    await browser.click('#cell-5-4');
    for (const cell of ['3-2', '3-1', '1-4', '1-3', '1-2']) {
      await browser.press('Control+z');
      await page.cursorAt(cell);
    }
    for (const cell of ['1-3', '1-4', '1-4', '3-2', '3-3']) {
      await browser.press('Control+y');
      await page.cursorAt(cell);
    }
    await page.factsAre(/· 5 of/);
    // a change that is out of sight is shown, and said
    await browser.press('F3');
    await the('[data-light]').hasFocus();
    const light = await inPage(() => document.activeElement.dataset.light);
    await browser.insert('Of a pirate');
    await browser.press('Enter');
    await isDrafted(/Of a pirate/);
    await browser.click('#tab-words');
    await browser.click('#cell-1-2');
    await browser.press('Control+z');
    await page.statusIs(/^undone: the clue of \d+ Across$/i);
    await the('#clues').isShown();
    await page.cursorAt('3-1');
    expect(await browser.value(`document.querySelector('.clue.here textarea').dataset.light === '${light}' && document.querySelector('.clue.here textarea').value === ''`), 'the clue is not in sight');
    await browser.click('#cell-1-2');
    await browser.press('Control+y');
    await page.statusIs(/^done again: the clue of \d+ Across$/i);
    await the('.clue.here textarea').holds('Of a pirate');
    await browser.press('F4');
    await browser.insert('Ships');
    await browser.press('Escape');
    await isDrafted(/text title Ships/);
    await browser.click('#tab-words');
    await browser.press('Control+z');
    await page.statusIs(/^undone: the title$/i);
    await untilInPage(() => !document.getElementById('puzzle').hidden && document.getElementById('title').value === '');
    await browser.click('#tab-words');
  },

  async 'a letter that the engine refuses'() {
    await begin(1);
    await browser.type('lard');
    await browser.click('#fill');
    await page.statusIs(/^filled/);
    await browser.click('#cell-4-2');
    if (await the('.cursor').matches('.down')) await browser.press('Enter');
    // all that the cells show. Words that are not in the list are marked a while after an edit, and so is that they are gone
    await inPage(() => (window.shown = () => [...document.querySelectorAll('.cell')].map((cell) => `${cell.className} ${cell.textContent} ${cell.ariaLabel}`).join(), window.before = window.shown()));
    // no letter of an open cell is refused, so the command is changed on its way into one that is
    await changeEdit('set 4 2 Q', "{ ...message, sent: { ...message.sent, lines: ['set 99 99 Q'] } }");
    await browser.press('q');
    await page.statusIs(/that cell is outside the grid/);
    await untilInPage(() => window.shown() === window.before);
    await page.cursorAt('4-2');
    await browser.press('z');
    await untilInPage(() => document.querySelector('#cell-4-2 .letter').textContent === 'Z' && !document.getElementById('cell-4-2').classList.contains('pencil'));
    await browser.press('Control+z');
    await untilInPage(() => document.querySelector('#cell-4-2 .letter').textContent !== 'Z');
    await page.cursorAt('4-2');
    await untilInPage(() => window.shown() === window.before);
  },
};

await runAlone(import.meta.url, { CASES });
