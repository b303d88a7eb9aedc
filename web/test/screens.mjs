// Pictures of each screen of the editor with a puzzle in work, at five sizes, in light, dark and forced colours, to look at.
//
//   node --experimental-websocket web/test/screens.mjs DIR [SIZE..] [SCREEN..]
//
// It needs what page.mjs needs. A SIZE is the width of a window, such as 360, and a SCREEN one of the names below; all by default. The pictures are DIR/WIDTH-COLOURS-SCREEN.png.
import { mkdirSync, mkdtempSync, rmSync, writeFileSync } from 'node:fs';
import { tmpdir } from 'node:os';
import { join } from 'node:path';
import { Browser, takeList } from './browser.mjs';
import { puzOf } from './puz.mjs';

const SIZES = [[360, 740], [390, 844], [768, 1024], [1280, 800], [1920, 1080]];
const COLOURS = [['light', 'none'], ['dark', 'none'], ['light', 'active']];

const [folder, ...chosen] = process.argv.slice(2);
mkdirSync(folder, { recursive: true });
const room = mkdtempSync(join(tmpdir(), 'xw-screens-'));
const [sizes, names] = [chosen.filter((one) => /^\d+$/.test(one)), chosen.filter((one) => !/^\d+$/.test(one))];
const browser = await Browser.open();
const $ = (id) => `document.getElementById('${id}')`;

// What opens each screen, and closes it again by Esc.
const menu = (name) => browser.value(`document.querySelector('[data-do=${name}]').click()`);
const SCREENS = {
  words: () => browser.value(`${$('tab-words')}.click()`),
  clues: () => browser.value(`${$('tab-clues')}.click()`),
  puzzle: () => browser.value(`${$('tab-puzzle')}.click()`),
  menu: () => browser.value(`${$('tab-words')}.click(), ${$('file')}.click()`),
  tools: () => browser.value(`${$('more')}.click(), document.querySelector('[data-tool=colour]').click()`),
  new: () => menu('new'),
  stock: async () => {
    await menu('new');
    await browser.value(`${$('stock')}.open = true, ${$('stock-themes')}.value = '15, 15, 15'`);
    await browser.until("document.querySelector('#stock-patterns .pattern')");
    await browser.value(`${$('stock-themes')}.dispatchEvent(new Event('input')), ${$('stock')}.scrollIntoView()`);
  },
  themes: async () => {
    await menu('themes');
    await browser.value(`${$('themes-entries')}.value = 'CONSTELLATION\\nINTERSTELLARS', ${$('themes-limits')}.open = true, ${$('themes-show')}.click()`);
    await browser.until("document.querySelectorAll('#themes-grids .pattern').length > 2");
  },
  moves: async () => {
    await menu('moves');
    await browser.until("document.querySelector('#moves-list .pattern')");
  },
  library: () => menu('library'),
  outlets: async () => {
    await browser.value(`${$('tab-puzzle')}.click()`);
    await browser.until("document.querySelector('#outlets details')");
    await browser.value(`document.querySelector('#outlets details').open = true, ${$('outlets')}.scrollIntoView()`);
  },
  print: () => menu('print'),
  submission: async () => {
    await menu('print');
    await browser.until(`${$('print-dialog')}.open`);
    await browser.value("document.querySelector('[name=parts][value=submission]').click()");
  },
  lists: () => browser.value(`${$('tab-puzzle')}.click(), ${$('personal-edit')}.click()`),
  help: () => menu('help'),
  faults: () => opening('faults.puz', { texts: ['', '', '', 'Pet', 'A clue too many', ''], sections: [['GEXT', Buffer.from([0])]] }, 'repairs-dialog'),
  key: () => opening('locked.puz', { texts: ['', '', '', 'Pet', ''], tag: 4 }, 'key-dialog'),
};

// Opens a .puz that the page asks something about.
async function opening(name, { texts, ...more }, dialog) {
  writeFileSync(join(room, name), puzOf({ version: '1.3\0', width: 3, height: 1, solution: 'C7T', texts: texts.map((text) => Buffer.from(text)), ...more }));
  await browser.choose('#picker', join(room, name));
  await browser.until(`${$(dialog)}.open`);
}

// A puzzle in work: some words, a corner that is filled, clues, circles and colours, over a list with scores.
async function begin() {
  const score = (word) => [...word].reduce((sum, letter) => (31 * sum + letter.charCodeAt(0)) % 10007, 7) % 101;
  const { readFileSync } = await import('node:fs');
  const words = readFileSync('/usr/share/dict/american-english', 'latin1').split('\n').filter((word) => /^[a-z]{3,}$/.test(word));
  writeFileSync(join(room, 'scored.txt'), words.map((word) => `${word};${score(word)}`).join('\n'));
  await browser.choose('#picker', join(room, 'scored.txt'));
  await takeList(browser);
  await browser.until("/scored.txt, /.test(document.getElementById('facts').textContent)");
  await browser.value(`${$('grid')}.focus()`);
  await browser.press('Control+f');
  await browser.until("/^filled: worst/.test(document.getElementById('status').textContent)");
  await browser.press('F4');
  await browser.insert('A puzzle in work');
  await browser.press('Tab');
  await browser.press('F3');
  for (const clue of ['Was first in a long line of people who wait for their clues to be read aloud', 'See the <i>other</i> one (4)', 'Short']) {
    await browser.insert(clue);
    await browser.press('Enter');
  }
  await browser.press('Escape');
  await browser.value(`${$('tab-words')}.click(), ${$('grid')}.focus()`);
  await browser.click('#cell-13-11');
  for (let count = 0; count < 5; count++) await browser.press('Delete');
  await browser.click('#cell-5-1');
  await browser.press('Delete');
  await browser.press('*');
  await browser.press('#');
  await browser.until("document.querySelector('#candidates[aria-busy=false] li')");
}

async function show(width, height, [scheme, forced]) {
  await browser.send('Emulation.setDeviceMetricsOverride', { width, height, deviceScaleFactor: 1, mobile: width < 700 });
  await browser.send('Emulation.setTouchEmulationEnabled', { enabled: width < 700 });
  await browser.send('Emulation.setEmulatedMedia', { features: [{ name: 'prefers-color-scheme', value: scheme }, { name: 'forced-colors', value: forced }] });
  for (const [name, open] of Object.entries(SCREENS).filter(([one]) => !names.length || names.includes(one))) {
    await open();
    await browser.value('new Promise((resolve) => setTimeout(resolve, 300))');
    writeFileSync(join(folder, `${width}-${forced === 'active' ? 'forced' : scheme}-${name}.png`), await browser.picture());
    await browser.value("document.querySelector('dialog[open]')?.close(), document.querySelector('#file[aria-expanded=true]')?.click()");
    if (name === 'tools') await browser.value(`document.querySelector('[data-do=end-mode]').click(), ${$('more')}.getAttribute('aria-expanded') === 'true' && ${$('more')}.click()`);
  }
}

try {
  await browser.view(1280, 800);
  await browser.go(new URL('../dist/xw.html', import.meta.url).href);
  await browser.until("/words$/.test(document.getElementById('facts').textContent)");
  await begin();
  for (const [width, height] of SIZES.filter(([one]) => !sizes.length || sizes.includes(String(one)))) for (const colours of COLOURS) await show(width, height, colours);
} finally {
  await browser.close();
  rmSync(room, { recursive: true, force: true });
}
