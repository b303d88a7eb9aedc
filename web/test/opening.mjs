// How long the editor takes over two lists of 300,000 words with scores, and how long its page has no frame meanwhile.
//
//   node --experimental-websocket web/test/opening.mjs [--page FILE]
//
// It needs what page.mjs needs. Each row is a step: the milliseconds until the page shows what it has then, and the longest task of the page.
import { mkdtempSync, rmSync, writeFileSync } from 'node:fs';
import { tmpdir } from 'node:os';
import { join } from 'node:path';
import { Browser, takeList } from './browser.mjs';

const words = process.argv.slice(2);
const page = words[0] === '--page' ? words[1] : new URL('../dist/xw.html', import.meta.url).pathname;
const room = mkdtempSync(join(tmpdir(), 'xw-opening-'));

// Words of 5 to 13 letters with scores, which differ from one factor to another.
const WORDS = 300000;
const letter = (number, at) => 'etaoinshrdlucmfw'[Math.floor(number / 16 ** (at % 5)) % 16];
const word = (number, factor) => Array.from({ length: 5 + (number % 9) }, (_, at) => letter(number * factor, at)).join('');
const listOf = (factor) => Array.from({ length: WORDS }, (_, number) => `${word(number, factor)};${number % 101}`).join('\n');

const TASKS = "window.longest = 0; new PerformanceObserver((list) => { for (const { duration } of list.getEntries()) window.longest = Math.max(window.longest, duration); }).observe({ type: 'longtask' });";

// Does a step, and says how long it takes.
async function step(browser, name, action) {
  await browser.value('window.longest = 0');
  const begin = performance.now();
  await action();
  const all = performance.now() - begin;
  // what the page puts off comes within a second
  await new Promise((resolve) => setTimeout(resolve, 1000));
  const longest = await browser.value('window.longest');
  console.log(`${name}: ${all.toFixed(0)} ms, ${longest ? `the longest task ${longest.toFixed(0)} ms` : 'no task over 50 ms'}`);
}

const browser = await Browser.open();
try {
  ['one', 'two'].forEach((name, at) => writeFileSync(join(room, `${name}.txt`), listOf(at ? 7 : 1)));
  await browser.view(1280, 800);
  await browser.preload(TASKS);
  await browser.go(`file://${page}`);
  await browser.until("/words$/.test(document.getElementById('facts').textContent)");
  for (const name of ['one', 'two']) {
    await step(browser, `${name}.txt is looked at`, async () => {
      await browser.choose('#picker', join(room, `${name}.txt`));
      await browser.until("document.getElementById('list-dialog').open");
    });
    await step(browser, `${name}.txt is taken over`, async () => {
      await takeList(browser);
      await browser.until(`/${name}.txt, /.test(document.getElementById('facts').textContent)`);
    });
  }
  await browser.click('#tab-puzzle');
  await step(browser, 'both are used', async () => {
    await browser.click('#lists [data-name="one.txt"]');
    await browser.until("/2 lists, /.test(document.getElementById('facts').textContent)");
  });
} finally {
  await browser.close();
  rmSync(room, { recursive: true });
}
