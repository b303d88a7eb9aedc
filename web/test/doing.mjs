// What cases do with the page, by its own controls.
import { execFileSync } from 'node:child_process';
import { rmSync, writeFileSync } from 'node:fs';
import { join } from 'node:path';
import { Xw } from '../dist/xw.js';
import { takeList } from './browser.mjs';
import { LIST, browser, expect, inPage, module, page, picture, pictures, program, room, the, untilInPage } from './page.mjs';

export async function menu(name) {
  await browser.click('#file');
  await browser.click(`[data-do="${name}"]`);
}

// Moves the slider of the least score.
export const slideLeast = (grade, events = ['input', 'change']) => browser.value(`(() => {
  const slider = document.getElementById('least');
  slider.value = ${grade};
  for (const name of ${JSON.stringify(events)}) slider.dispatchEvent(new Event(name));
})()`);

// Waits until a candidate is the one that keys are for.
export const pointedAt = (word) => browser.until(`document.querySelector('#candidates [aria-selected=true]')?.dataset.word === '${word}'`);

// An older message is taken away, so that what is waited for is a new one.
export const hush = () => inPage(() => (document.getElementById('status').textContent = '', window.said.length = 0));

export async function begin(pattern) {
  await menu('new');
  await hush();
  await browser.click(`#patterns .pattern:nth-child(${pattern})`);
  await page.statusIs(/new puzzle|no words for/);
}

// Leads an American grid into a dead end by three letters, and asks for the reason; returns what is said.
export async function intoDeadEnd() {
  await begin(1);
  await browser.type('sp');
  await browser.click('#cell-2-1');
  await browser.type('x');
  await page.statusIs(/dead end/);
  await browser.press('?');
  return page.statusIs(/\d+ (Across|Down)[^]* no word, by/);
}

export async function openFile(path) {
  await hush();
  await browser.choose('#picker', path);
}

// What the page says of a file with faults, once it asks whether to open it.
export async function faultsShown() {
  await the('#repairs-dialog').isOpen();
  return the('#repairs li').texts();
}

// Answers that: `open` or `cancel`.
export const openAnyway = (answer = 'open') => browser.click(`#repairs-dialog [value=${answer}]`);

// Opens a word list.
export async function openList(path) {
  await openFile(path);
  await takeList(browser);
}

// Opens a file whose words have one length, as a list.
export async function openWords(path) {
  await openFile(path);
  await browser.click('#rows-dialog [value=list]');
  await takeList(browser);
}

// Opens a session that has these lines.
export async function openRecord(record) {
  writeFileSync(join(room, 'record.xw'), record);
  await openFile(join(room, 'record.xw'));
  await page.statusIs(/record.xw is open/);
}

// Gives each light a clue, and returns their number.
export async function writeClues() {
  await browser.press('F3');
  const count = await page.count('#clue-list textarea');
  await the('#clue-list textarea').focus();
  for (let at = 0; at < count; at++) {
    await browser.type(`clue ${at + 1}`);
    await browser.press('Enter');
  }
  await the('#clue-summary').says(/every (light|entry) has a clue/);
  return count;
}

// The lights of a saved file, which are so many and all filled.
export function filledLights(bytes, count) {
  const lights = lightsOf(bytes);
  expect(lights.length === count && lights.every((line) => !line.includes('.')), 'the file has other lights');
  return lights;
}

// What the program says of a saved file.
export function judged(name) {
  return program ? execFileSync(program, ['check', join(room, name)]).toString().trim() : 'not checked by the program';
}

// Does what saves a file, and waits for it.
export async function saved(name, action) {
  rmSync(join(room, name), { force: true });
  const isSaved = browser.download();
  await action();
  const { name: given, bytes } = await isSaved;
  expect(given === name, `the file is called ${given} and not ${name}; ${await page.status()}`);
  writeFileSync(join(room, name), bytes);
  return bytes;
}

// Asks for another fill, and waits for it.
export async function another() {
  await hush();
  await browser.click('#another');
  await page.statusIs(/^filled|no fill/);
}
// The words of the built-in list with scores from 0 to 100, the same in each run.
export function scoredList() {
  const score = (word) => [...word].reduce((sum, letter) => (31 * sum + letter.charCodeAt(0)) % 10007, 7) % 101;
  return LIST.split('\n').map((word) => `${word};${score(word)}`);
}

// Has the page use that list.
export async function openGraded() {
  writeFileSync(join(room, 'graded.txt'), scoredList().join('\n'));
  await openList(join(room, 'graded.txt'));
  await page.statusIs(/^graded.txt: 63,\d+ words/);
}

// The words of the lights of the grid, as rows tell it.
export function wordsOf(rows) {
  const columns = [...rows[0]].map((_, at) => rows.map((row) => row[at]).join(''));
  return [...rows, ...columns].flatMap((line) => line.split('#').filter((word) => word.length > 1));
}

// Begins a blank grid.
export async function beginBlank(width, height) {
  await menu('new');
  await page.wantSize(width, height);
  await browser.click('#new-blank');
  await page.factsAre(new RegExp(`^${width} × ${height} · 0 of`));
}

// An outlet of each style.
const OUTLETS = { american: 'New York Times, daily', british: 'Guardian', barred: 'Barred' };

// Sets a field of the dialog of new grids, as a setter does.
export const setOfGrids = (id, value) => browser.value(`(() => {
  const field = document.getElementById('themes-${id}');
  field.value = ${JSON.stringify(value)};
  field.dispatchEvent(new Event('input', { bubbles: true }));
  field.dispatchEvent(new Event('change', { bubbles: true }));
})()`);

// Says in the dialog of new grids what is wanted.
export async function wantGrids(entries, style, { sym = 'half', size = 15, seeds = '' } = {}) {
  await setOfGrids('outlet', OUTLETS[style] ?? style);
  for (const [id, value] of [['entries', entries], ['seeds', seeds], ['width', size], ['height', size], ['sym', sym]]) await setOfGrids(id, String(value));
}

// Stops the search for grids, if it is not over.
export const stopGrids = () => inPage(() => document.getElementById('themes-stop').hidden || document.getElementById('themes-stop').click());

// Waits until so many grids are judged and so many of these fill, and stops the search.
export async function gridsAreJudged(enough, filling = 0) {
  const judged = `[...document.querySelectorAll('#themes-grids .pattern')].filter((card) => !card.querySelector('.bad'))`;
  await browser.until(`((cards) => cards.length >= ${enough} && cards.filter((card) => card.querySelector('.here')).length >= ${filling})(${judged})`);
  await stopGrids();
}

// Shows grids around entries in the dialog, until there are enough of which so many fill, and returns what is said of each.
export async function showGrids(entries, style, { enough = 3, filling = 0, ...more } = {}) {
  await wantGrids(entries, style, more);
  await browser.click('#themes-show');
  await gridsAreJudged(enough, filling);
  return inPage(() => [...document.querySelectorAll('#themes-grids .pattern small')].map((verdict) => verdict.textContent));
}

// Chooses a grid of which something is said.
export async function choosing(verdict) {
  const at = await browser.value(`[...document.querySelectorAll('#themes-grids .pattern small')].findIndex(({ textContent }) => textContent === '${verdict}')`);
  expect(at >= 0, `of no grid is said: ${verdict}`);
  await browser.click(`#themes-grids .pattern:nth-child(${at + 1})`);
}

export const hasWord = (rows, word) => rows.some((row) => row.includes(word)) || [...rows[0]].some((_, at) => rows.map((row) => row[at]).join('').includes(word));

// Prints what the dialog shows. The browser's own dialog would stand in the way.
export async function print() {
  await inPage(() => (window.isPrinted = false, window.print = () => { window.isPrinted = true; }, 0));
  await browser.click('#print-dialog [value=print]');
  await untilInPage(() => window.isPrinted);
}

// Fills the grid that is here, writes its clues, prints it and saves it, by the page's own controls.
export async function wholePuzzle(name, title, form) {
  await browser.press('Control+f');
  await page.statusIs(/^filled/);
  await picture(`${name}-filled`);
  await browser.press('F4');
  await the('#title').hasFocus();
  await browser.type(title);
  await browser.press('Tab');
  await browser.type('A. Setter');
  await browser.press('Tab');
  const count = await writeClues();
  await picture(`${name}-clues`);
  await browser.click('#tab-puzzle');
  await untilInPage(() => document.querySelector('#checks li') && !/no clue|are empty/.test(document.getElementById('checks').textContent));
  await picture(`${name}-checks`);
  const warnings = await the('#checks li:not(.good)').texts();
  // the clues have the word CLUE, which the grid may have
  expect(warnings.every((text) => /one root|share|has CLUE/.test(text)), `warned of: ${warnings}`);
  await browser.press('Control+p');
  await the('#preview .page:first-child .clues p').are(count);
  await picture(`${name}-print`);
  await print();
  if (pictures) writeFileSync(join(pictures, `${name}.pdf`), await browser.pdf());
  const bytes = await saved(`${name}.${form}`, () => (form === 'puz' ? browser.press('Control+s') : menu('save-ipuz')));
  if (form === 'puz') filledLights(bytes, count);
  else expect(JSON.parse(bytes.toString()).solution.flat().every((letter) => /^[A-Z]$/.test(letter)), 'a letter is lost');
  return form === 'puz' ? judged(`${name}.${form}`) : '';
}

export const lightsOf = (bytes) => Xw.open(module, { puzzle: bytes }).line('lights').lines;
