// What a setter waits for in the editor, beside the bars that it should reach on an idle machine with four cores or more: how good fills are some seconds
// after the key, how many new grids around theme entries are judged after some seconds and how good these are, and the time of a letter.
//
//   node --experimental-websocket web/test/bars.mjs LIST [--page FILE] [--runs N] [--grids DIR] [PART..]
//
// LIST is a word list with scores up to 100. The parts are fills, grids and letters; all by default. The grids are patterns of the page, or with --grids the records DIR/american15.xw, DIR/american15-themeless1.xw and
// DIR/american21.xw. It needs what page.mjs needs. A row has the seconds since the key, the worst word, the mean, the words under 50, the bound, and the
// thousands of placements that the workers were asked for: on a busy machine these are fewer. Nothing is tested, since times differ.
import { mkdtempSync, readFileSync, rmSync, writeFileSync } from 'node:fs';
import { tmpdir } from 'node:os';
import { join } from 'node:path';
import { Xw, load } from '../dist/xw.js';
import { PATTERNS, recordOf, rowsOf } from '../editor/grids/patterns.js';
import { Browser, takeList } from './browser.mjs';
import { UNLIMITED, fillOf, summary, timeOfLetters } from './time.mjs';

const words = process.argv.slice(2);
function option(name, other) {
  const at = words.indexOf(name);
  return at < 0 ? other : words.splice(at, 2)[1];
}
const page = option('--page', new URL('../dist/xw.html', import.meta.url).pathname);
const runs = Number(option('--runs', 3));
const folder = option('--grids', '');
const [list, ...parts] = words;
const isAsked = (part) => !parts.length || parts.includes(part);

// each with its pattern, its record, its bar, and the seconds of that
const GRIDS = [
  ['American 15 × 15', 'american15', 'worst 74', 5],
  ['Themeless 15 × 15', 'american15-themeless1', 'worst 64', 5],
  ['American 21 × 21', 'american21', 'worst 70', 5],
];
// the lengths of theme sets, and the seconds after which grids are counted
const SETS = [
  [14, 12, 12, 14], [10, 13, 13, 10], [15, 15, 15], [10, 14, 14, 10], [12, 11, 11, 12], [11, 15, 11], [9, 13, 9, 13], [8, 15, 8], [15, 13, 15], [13, 9, 9, 13], [11, 10, 9, 10, 11], [13, 11, 11, 13],
];
const GRIDS_AFTER = 15;
// themeless grids around a seed: the most words, blocks and words of three letters, and the worst word of the best of a dozen that is the bar
const THEMELESS = [[72, 36, 14, 69], [70, 34, 12, 59], [68, 34, 12, 56]];
const SEED = [9];
// the lengths of a theme set of a Sunday, the seconds after which its grids are counted, and those after which the best one is
const SUNDAY = [21, 17, 17, 15, 15, 13, 13];
const [SUNDAY_AFTER, SUNDAY_BEST] = [15, 30];
const TIMES = [1, 2, 3, 4, 5, 6];
// how many milliseconds pass between the list and the first key
const WARM = 5000;

const room = mkdtempSync(join(tmpdir(), 'xw-bars-'));
const lines = readFileSync(list, 'latin1').toUpperCase().split(/\r?\n/).filter(Boolean).map((line) => line.split(';'));
const scores = new Map(lines.map(([word, score]) => [word, Number(score)]));

// The worst word of rows, the mean and the words under 50; or nothing while a cell is empty.
function figuresOf(rows) {
  if (rows.some((row) => row.includes('.'))) return 'not filled';
  const columns = [...rows[0]].map((_, at) => rows.map((row) => row[at]).join(''));
  const all = [...rows, ...columns].flatMap((line) => line.split('#').filter((word) => word.length > 1)).map((word) => scores.get(word) ?? 0);
  const mean = all.reduce((sum, score) => sum + score, 0) / all.length;
  return `worst ${Math.min(...all)}, mean ${mean.toFixed(0)}, ${all.filter((score) => score < 50).length} of ${all.length} under 50`;
}

// Notes the grid some seconds after the next Ctrl F, and how many placements were asked for until then.
const NOTES = `(() => {
  const rows = () => [...document.querySelectorAll('#grid .row')].map((row) => [...row.querySelectorAll('.cell')].map((cell) => (cell.classList.contains('block') ? '#' :
    cell.matches('.only, .ghost') ? '.' : cell.querySelector('.letter').textContent || '.')).join(''));
  const post = window.ownPost ??= Worker.prototype.postMessage;
  window.notes = [];
  let placements = 0;
  Worker.prototype.postMessage = function (message, transfer) {
    if (['autofill', 'best', 'search'].includes(message.call)) placements += message.sent.given[0];
    post.call(this, message, transfer);
  };
  addEventListener('keydown', () => {
    const bound = () => /no fill is better( than (\\d+))?/.exec(document.getElementById('status').textContent)?.[0] ?? '';
    for (const time of ${JSON.stringify(TIMES)}) setTimeout(() => window.notes.push({ time, rows: rows(), placements, bound: bound() }), 1000 * time);
  }, { capture: true, once: true });
})()`;

async function noted(browser, what, bar) {
  await browser.value(NOTES);
  await browser.press('Control+f');
  await browser.until(`window.notes.length === ${TIMES.length}`);
  for (const { time, rows, placements, bound } of await browser.value('window.notes')) {
    console.log(`${what}, ${time} s: ${[figuresOf(rows), bound, `${Math.round(placements / 1000)}k placements`].filter(Boolean).join('; ')}${bar?.[1] === time ? `   (the bar: ${bar[0]})` : ''}`);
  }
  await browser.until("document.getElementById('stop').hidden");
}

const pause = (time) => new Promise((resolve) => setTimeout(resolve, time));

// Opens a record in the page.
async function open(browser, name, record) {
  const path = join(room, `${name}.xw`);
  writeFileSync(path, record);
  await browser.choose('#picker', path);
  await browser.until(`document.getElementById('status').textContent.startsWith('${name}.xw is open')`);
  await pause(1000);
}

async function openPage(browser) {
  await browser.view(1400, 900);
  await browser.go(`file://${page}`);
  await browser.until("/words$/.test(document.getElementById('facts').textContent)");
  await browser.choose('#picker', list);
  await takeList(browser);
  await browser.until(`/^${scores.size.toLocaleString('en')} words|, ${scores.size.toLocaleString('en')} words/.test(document.getElementById('facts').textContent)`);
  await browser.value("document.getElementById('grid').focus()");
  // the workers load the words meanwhile, as they do while a setter types
  await pause(WARM);
}

const recordFor = ([pattern, name]) => (folder ? readFileSync(join(folder, `${name}.xw`), 'latin1') : recordOf(rowsOf(PATTERNS.find((one) => one.name === pattern)), 'half'));

// Words of the list that are good, of some lengths and spread over it.
function wordsOfLengths(lengths) {
  const chosen = [];
  for (const length of lengths) {
    const all = [...scores].filter(([word, score]) => word.length === length && !(score < 50) && !chosen.includes(word)).map(([word]) => word);
    chosen.push(all[Math.floor(all.length * ((0.37 + 0.29 * chosen.length) % 1))]);
  }
  return chosen;
}

const field = (id, value) => `{
  const field = document.getElementById('themes-${id}');
  field.value = ${JSON.stringify(value)};
  field.dispatchEvent(new Event('change', { bubbles: true }));
}`;

// Looks for new grids, and tells what is said of each judged one after each of these times in seconds.
async function gridsAt(browser, { outlet, entries = [], seeds = [], limits = {} }, times) {
  const fields = { outlet, entries: entries.join('\n'), seeds: seeds.join('\n'), ...limits };
  await browser.value(`(() => { document.querySelector('[data-do=themes]').click(); ${Object.entries(fields).map(([id, value]) => field(id, value)).join(' ')} })()`);
  const begin = Date.now();
  await browser.click('#themes-show');
  const all = [];
  for (const time of times) {
    await pause(Math.max(0, begin + 1000 * time - Date.now()));
    const cards = await browser.value("[...document.querySelectorAll('#themes-grids .pattern:not(:has(.bad)) small')].map(({ textContent }) => textContent)");
    all.push(cards);
    const told = await browser.value("document.getElementById('themes-told').textContent");
    console.log(`${[...entries, ...seeds].map(({ length }) => length).join('/')}: ${cards.length} grids after ${((Date.now() - begin) / 1000).toFixed(1)} s; the best one: ${cards[0]}; ${told}`);
  }
  await browser.press('Escape');
  return all;
}

const worstOf = (cards) => cards.filter((text) => text.startsWith('it fills')).map((text) => Number(/worst (\d+)/.exec(text)[1])).sort((a, b) => a - b);

// The theme sets: how many have a dozen grids, how many of these fill, and how well.
async function themed(browser) {
  const all = [];
  for (const lengths of SETS) all.push(...await gridsAt(browser, { outlet: 'New York Times, daily', entries: wordsOfLengths(lengths) }, [GRIDS_AFTER]));
  const worst = worstOf(all.flat());
  const dozens = all.filter((cards) => cards.length >= 12).length;
  console.log(`theme sets with a dozen judged grids after ${GRIDS_AFTER} s: ${dozens} of ${SETS.length}   (the bar: all)`);
  console.log(`of ${all.flat().length} grids ${worst.length} fill, ${worst.filter((score) => score >= 50).length} have no word under 50, the median worst word is ${worst[worst.length >> 1]}   (the bar: all, 110 of 144, 58)`);
}

async function themeless(browser) {
  for (const [words, blocks, threes, bar] of THEMELESS) {
    const [cards] = await gridsAt(browser, { outlet: 'New York Times, themeless', seeds: wordsOfLengths(SEED), limits: { words, blocks, threes } }, [GRIDS_AFTER]);
    console.log(`themeless of ${words} words, the best of ${cards.length} grids after ${GRIDS_AFTER} s: worst ${worstOf(cards).at(-1)}   (the bar: ${bar})`);
  }
}

async function sunday(browser) {
  const [early, late] = await gridsAt(browser, { outlet: 'New York Times, Sunday', entries: wordsOfLengths(SUNDAY) }, [SUNDAY_AFTER, SUNDAY_BEST]);
  console.log(`21 × 21 with ${SUNDAY.length} theme entries: ${early.length} grids after ${SUNDAY_AFTER} s   (the bar: 12); worst ${worstOf(late).at(-1)} after ${SUNDAY_BEST} s   (the bar: 45)`);
}

async function fills(browser) {
  for (const grid of GRIDS) {
    for (let run = 1; run <= runs; run++) {
      await open(browser, grid[1], recordFor(grid));
      await noted(browser, `${grid[0]}, run ${run}`, grid.slice(2));
    }
  }
}

async function grids(browser) {
  for (let run = 1; run <= runs; run++) {
    await themed(browser);
    await themeless(browser);
    await sunday(browser);
  }
}

async function inPage(action) {
  const browser = await Browser.open();
  try {
    await openPage(browser);
    await action(browser);
  } finally {
    await browser.close();
  }
}

async function letters() {
  const module = await load(readFileSync(new URL('../dist/xw.wasm', import.meta.url)));
  const record = recordOf(rowsOf(PATTERNS[0]), 'half');
  const fill = fillOf(Xw, module, [...scores.keys()].join('\n'), record);
  for (const [what, switches] of [['60 frames a second', []], ['frames when they are ready', UNLIMITED]]) {
    const browser = await Browser.open(switches);
    try {
      await openPage(browser);
      await open(browser, 'letters', record);
      const { letter: [median, ninth] } = summary(await timeOfLetters(browser, fill));
      console.log(`a letter until its frame, ${what}: ${median.toFixed(1)} ms, the 90th percentile ${ninth.toFixed(1)} ms`);
    } finally {
      await browser.close();
    }
  }
}

try {
  if (isAsked('fills')) await inPage(fills);
  if (isAsked('grids')) await inPage(grids);
  if (isAsked('letters')) await letters();
} finally {
  rmSync(room, { recursive: true, force: true });
}
