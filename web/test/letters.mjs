// The time of a letter in the editor, over a list of 277,620 words, in a 15 by 15 and a 21 by 21.
//
//   node --experimental-websocket web/test/letters.mjs [--runs N] [--page FILE]
//
// It needs what page.mjs needs. Each row is a run of 60 letters or more: medians, and 90th percentiles behind the stroke, in milliseconds from
// the time stamp of the key event (time.mjs says of what). At the end stands the least of the medians of the runs.
import { mkdtempSync, readFileSync, rmSync, writeFileSync } from 'node:fs';
import { tmpdir } from 'node:os';
import { join } from 'node:path';
import { Xw, load } from '../dist/xw.js';
import { PATTERNS, recordOf, rowsOf } from '../editor/grids/patterns.js';
import { Browser, takeList } from './browser.mjs';
import { UNLIMITED, fillOf, largeList, summary, timeOfLetters } from './time.mjs';

const words = process.argv.slice(2);
const option = (name, other) => (words.includes(name) ? words[words.indexOf(name) + 1] : other);
const page = option('--page', new URL('../dist/xw.html', import.meta.url).pathname);
const runs = Number(option('--runs', 5));

const room = mkdtempSync(join(tmpdir(), 'xw-letters-'));
const list = largeList().join('\n');
writeFileSync(join(room, 'large.txt'), list);
const module = await load(readFileSync(new URL('../dist/xw.wasm', import.meta.url)));
const grids = ['American 15 × 15', 'American 21 × 21'].map((name) => {
  const record = recordOf(rowsOf(PATTERNS.find((pattern) => pattern.name === name)), 'half');
  const file = join(room, `${parseInt(name.slice(-2), 10)}.xw`);
  writeFileSync(file, record);
  return { name, file, fill: fillOf(Xw, module, list, record) };
});

async function measure(browser, { name, file, fill }, what) {
  const medians = [];
  for (let run = 0; run < runs; run++) {
    await browser.choose('#picker', file);
    await browser.until(`/^${fill[0].length} .* 0 of/.test(document.getElementById('facts').textContent)`);
    await new Promise((resolve) => setTimeout(resolve, 500));
    const told = summary(await timeOfLetters(browser, fill));
    medians.push(Object.entries(told).map(([, [median]]) => median));
    const parts = Object.entries(told).map(([part, numbers]) => `${part} ${numbers.map((number) => number.toFixed(1)).join('/')}`);
    console.log(`${name}, ${what}: ${parts.join(', ')}`);
  }
  const least = medians[0].map((_, at) => Math.min(...medians.map((run) => run[at])).toFixed(1));
  console.log(`${name}, ${what}: the least of ${runs} medians: engine ${least[0]}, answered ${least[1]}, ready ${least[2]}, letter ${least[3]}, all ${least[4]}`);
}

try {
  for (const [what, switches] of [['60 frames a second', []], ['frames when they are ready', UNLIMITED]]) {
    const browser = await Browser.open(switches);
    try {
      await browser.view(1280, 800);
      await browser.go(`file://${page}`);
      await browser.until("/words$/.test(document.getElementById('facts').textContent)", 30000);
      await browser.choose('#picker', join(room, 'large.txt'));
      await takeList(browser);
      await browser.until("/277,620 words/.test(document.getElementById('facts').textContent)", 30000);
      for (const grid of grids) await measure(browser, grid, what);
    } finally {
      await browser.close();
    }
  }
} finally {
  rmSync(room, { recursive: true, force: true });
}
