// Cases of whole puzzles.
import { writeFileSync } from 'node:fs';
import { join } from 'node:path';
import { Xw } from '../../dist/xw.js';
import { begin, choosing, filledLights, hasWord, judged, menu, openRecord, print, saved, showGrids, wholePuzzle, writeClues } from '../doing.mjs';
import { browser, expect, inPage, module, page, picture, pictures, reload, runAlone, the } from '../page.mjs';

// The pages that are printed, each with its head, its height in millimetres and how many clues or answers it has. None of these is cut, and each section
// is one page.
async function printedPages(name, paper, parts) {
  await browser.press('Control+p');
  await the('#print-dialog').isOpen();
  await browser.click(`[name=paper][value=${paper}]`);
  await browser.click(`[name=parts][value=${parts}]`);
  await print();
  const pdf = await browser.pdf();
  if (pictures) writeFileSync(join(pictures, `${name}-${paper}-${parts}.pdf`), pdf);
  const pages = await inPage(() => [...document.querySelectorAll('#sheet .page')].map((page) => ({
    head: page.querySelector('h1').textContent, address: page.querySelector('header p')?.textContent, clues: page.querySelectorAll('.clues p, .answers td:first-child').length,
    grids: page.querySelectorAll('svg').length,
  })));
  const count = (pdf.toString('latin1').match(/\/Type\s*\/Page\b/g) ?? []).length;
  expect(count === pages.length, `${name}, ${paper}, ${parts}: ${pages.length} pages with a head, and ${count} are printed`);
  return pages;
}

export const CASES = {
  async 'pages of a print that each have their head'() {
    const address = ['A. Setter', '1 Grid Road', 'Third floor', 'Crossing', 'XW1 5AA'];
    for (const [pattern, size] of [[1, 15], [7, 21]]) {
      await begin(pattern);
      await page.factsAre(new RegExp(`^${size} × ${size}`));
      const record = (await saved('crossword.xw', () => menu('save-session'))).toString();
      const names = Xw.open(module, { record }).line('lights').lines.map((line) => line.split(' ').slice(0, 2).join(' '));
      const clues = names.map((name, at) => `clue ${name} Was first in a long line of people who wait for ${'their clues '.repeat(at % 4)}to be read`);
      await openRecord([record.trimEnd(), 'text title A puzzle', 'text author A. Setter', 'text notes One line of notes.', ...clues, ''].join('\n'));
      await browser.press('Control+p');
      await browser.click('[name=parts][value=submission]');
      await browser.value(`document.getElementById('print-address').value = ${JSON.stringify(address.join('\n'))}`);
      await browser.click('#print-dialog [value=cancel]');
      for (const paper of ['letter', 'A4']) {
        const pages = await printedPages(size, paper, 'both');
        expect(pages.every(({ head, address: name }) => head.startsWith('A puzzle') && name === 'A. Setter'), `${size}, ${paper}: a page without its title or name: ${JSON.stringify(pages)}`);
        expect(pages.reduce((sum, { clues: count }) => sum + count, 0) === names.length, `${size}, ${paper}: the clues are on ${JSON.stringify(pages)}`);
        const sent = await printedPages(size, paper, 'submission');
        const linesOf = (at) => [...address, `${size} × ${size}, ${names.length} words`, `page ${at + 1} of ${sent.length}`].join('\n');
        const isSent = ({ head, address: lines }, at) => head.startsWith('A puzzle') && lines === linesOf(at);
        expect(sent.every(isSent), `${size}, ${paper}: a page without its title, name and address: ${JSON.stringify(sent)}`);
        expect(sent.reduce((sum, { clues: count }) => sum + count, 0) === names.length && sent.reduce((sum, { grids }) => sum + grids, 0) === 2, `${size}, ${paper}: ${JSON.stringify(sent)}`);
      }
    }
    await browser.press('Control+p');
    await the('#print-address').put('value', '');
    await browser.click('[name=parts][value=both]');
    await browser.click('#print-dialog [value=cancel]');
  },

  async 'a puzzle from blank to .puz'() {
    await begin(6);
    await menu('save-puz');
    await page.statusIs(/not saved: row 1, column 2 is empty/);
    await page.cursorAt('1-2');
    await browser.press('Control+f');
    await page.statusIs(/^filled/);
    await browser.press('F4');
    await the('#title').hasFocus();
    await browser.type('Tiny one');
    await browser.press('Tab');
    await browser.type('A. Setter');
    await browser.press('Tab');
    await browser.type('c 2020');
    await browser.press('Tab');
    const count = await writeClues();
    await picture('clues');
    const bytes = await saved('tiny-one.puz', () => browser.press('Control+s'));
    const lights = filledLights(bytes, count);
    const texts = Xw.open(module, { puzzle: bytes }).line('texts').lines;
    expect(texts.includes('title Tiny one') && texts.includes('author A. Setter') && texts.includes(`clue ${lights[2].split(' ').slice(0, 2).join(' ')} clue ${await clueNumber(2)}`), `texts: ${texts}`);
    const told = judged('tiny-one.puz');
    const text = await saved('tiny-one.txt', () => menu('save-text'));
    expect(text.toString().startsWith('<ACROSS PUZZLE>'), 'no text file');
    return told;

    // the number in the list of clues, which has those across first, of a light of the engine's order
    async function clueNumber(at) {
      const name = lights[at].split(' ').slice(0, 2).join(' ');
      return browser.value(`[...document.querySelectorAll('#clue-list textarea')].findIndex((field) => field.dataset.light === '${name}') + 1`);
    }
  },

  async 'a whole 15 by 15'() {
    // the first seed, so that the fill takes as many placements as ever
    await reload();
    await begin(1);
    // a word across, the rest by a fill, and a clue for each light
    await browser.click('#cell-6-9');
    await browser.type('culture');
    await the('#cell-6-15 .letter').says('E');
    await browser.press('Control+f');
    await page.statusIs(/^filled/);
    expect((await page.row(6)).endsWith('CULTURE'), 'the word did not stay');
    await browser.press('F4');
    await the('#title').hasFocus();
    await browser.type('Across and down');
    await browser.press('Tab');
    const count = await writeClues();
    const bytes = await saved('across-and-down.puz', () => browser.press('Control+s'));
    filledLights(bytes, count);
    return judged('across-and-down.puz');
  },

  async 'a themed 15 by 15 from four entries'() {
    await menu('themes');
    await showGrids('raindrops\nsnowstorm\nsunsets\nseaside', 'american', { filling: 1 });
    await choosing('it fills');
    await page.factsAre(/^15 × 15 · 32 of/);
    const told = await wholePuzzle('weather-forecast', 'Weather forecast', 'puz');
    const rows = await page.rows();
    expect(['RAINDROPS', 'SNOWSTORM', 'SUNSETS', 'SEASIDE'].every((word) => hasWord(rows, word)), `an entry is lost: ${rows}`);
    return told;
  },

  async 'a British 15 by 15'() {
    await begin(3);
    return wholePuzzle('lattice', 'Lattice', 'puz');
  },

  async 'a barred 12 by 12'() {
    await begin(8);
    await page.factsAre(/^12 × 12/);
    return wholePuzzle('bars', 'Bars', 'ipuz');
  },
};

// What cases need that not every browser can do.
export const NEEDS = {
  'pages of a print that each have their head': ['pdf'],
  'a puzzle from blank to .puz': ['blur'],
  'a whole 15 by 15': ['blur'],
  'a themed 15 by 15 from four entries': ['blur'],
  'a British 15 by 15': ['blur'],
  'a barred 12 by 12': ['blur'],
};

await runAlone(import.meta.url, { CASES, NEEDS });
