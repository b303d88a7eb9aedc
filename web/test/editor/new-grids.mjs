// The dialog of new grids: what is judged, within which limits, and when the search ends.
import { writeFileSync } from 'node:fs';
import { join } from 'node:path';
import { gridsAreJudged, hasWord, menu, openGraded, openList, setOfGrids, showGrids, stopGrids, wantGrids } from '../doing.mjs';
import { browser, expect, inPage, page, pause, picture, reload, room, runAlone, the, untilInPage } from '../page.mjs';

const told = () => the('#themes-told').text();
// what each grid that is shown says of itself
const cards = () => inPage(() => [...document.querySelectorAll('#themes-grids .pattern')].map(({ innerText }) => innerText.replaceAll('\n', ' ')));
const fieldOf = (name) => the(`#themes-${name}`).value();
const sourceOf = (name) => browser.value(`document.getElementById('themes-${name}').closest('tr').lastElementChild.textContent`);

// The words, the blocks and the words of three letters of a grid that is shown.
function figuresOf(text) {
  const [, words, blocks, threes = 0] = /(\d+) words, (\d+) blocks(?:, (\d+) of 3)?/.exec(text).map(Number);
  return { words, blocks, threes: threes || 0 };
}

// Each grid that is shown is within limits.
async function areWithin(limits) {
  for (const text of await cards()) for (const [name, count] of Object.entries(figuresOf(text))) expect(count <= limits[name], `a grid is beyond ${limits[name]} ${name}: ${text}`);
}

// What is wrong with an American grid, by the rows of the page: its words, its symmetry, squares of blocks.
function faultOf(rows, { words, blocks, threes }) {
  const columns = [...rows[0]].map((_, at) => rows.map((row) => row[at]).join(''));
  const lights = [...rows, ...columns].flatMap((line) => line.split('#').filter(Boolean));
  const all = rows.join('');
  if (lights.some((light) => light.length < 3)) return 'a light under three letters';
  if (lights.length > words || all.replace(/[^#]/g, '').length > blocks || lights.filter((light) => light.length === 3).length > threes) return 'more than the limits';
  if ([...all].some((cell, at) => (cell === '#') !== (all.at(-1 - at) === '#'))) return 'it is not its half turn';
  const isShut = (row, column) => rows[row]?.[column] === '#';
  return rows.some((row, at) => [...row].some((_, column) => [[0, 0], [0, 1], [1, 0], [1, 1]].every(([down, right]) => isShut(at + down, column + right)))) ? 'a square of blocks' : '';
}

// Has small grids shown, judged by a list with scores.
async function showSmall() {
  await openGraded();
  await menu('themes');
  await wantGrids('', 'american', { size: 9 });
  await setOfGrids('words', '32');
  await setOfGrids('threes', '14');
  await browser.click('#themes-show');
  await gridsAreJudged(3, 2);
}

async function leaveGraded() {
  await browser.press('Escape');
  await menu('built-in');
  await page.factsAre(/built-in list/);
}

// The worst word and the mean of each grid that fills, as they are shown.
const filledNow = async () => (await cards()).map((text) => /it fills: worst (\d+), mean (\d+)/.exec(text)?.slice(1).map(Number)).filter(Boolean);
const areSorted = (figures) => JSON.stringify(figures) === JSON.stringify([...figures].sort((a, b) => b[0] - a[0] || b[1] - a[1]));

export const CASES = {
  async 'grids around theme entries'() {
    await menu('themes');
    await browser.insert('chocolate cake\nmint\nstrawberry pie\ntea');
    await browser.click('#themes-show');
    await the('#themes-told').says(/MINT and TEA have no partner of the same length/);
    for (const style of ['barred', 'british', 'american']) {
      await showGrids('piano\ndrum machine\nbass guitars', style);
      await picture(`themes-${style}`);
    }
    await browser.click('#themes-grids .pattern');
    await page.factsAre(/^15 × 15 · 27 of/);
    const rows = await page.rows();
    expect(['PIANO', 'DRUMMACHINE', 'BASSGUITARS'].every((word) => hasWord(rows, word)), `an entry is lost: ${rows}`);
    const fault = faultOf(rows, { words: 78, blocks: 38, threes: 20 });
    expect(!fault, `${fault}: ${rows}`);
    await browser.click('#tab-puzzle');
    await the('#checks [data-cell]').isThere();
    expect((await page.count('#checks .warning')) === 0, `${await inPage(() => document.querySelector('#checks .warning')?.textContent)}`);
    // entries of one's own are words of the puzzle
    await untilInPage(() => ['DRUMMACHINE', 'BASSGUITARS'].every((word) => document.querySelector(`#changed [data-keep=${word}]`)) && !document.querySelector('#changed [data-keep=PIANO]'));
    expect(!(await inPage(() => /not in your lists/.test(document.getElementById('checks').textContent))) && (await page.count('.cell.faulty')) === 0, 'an entry is called unlisted');
  },

  async 'a dozen judged grids for a theme set'() {
    await menu('themes');
    await wantGrids('raindrops\nsnowstorm\nsunsets\nseaside', 'american');
    await browser.click('#themes-show');
    // it goes on when there are a dozen
    await the('#themes-told').says(/^The best 12 of \d+ grids/);
    expect(await inPage(() => (document.querySelector('#themes-grids[aria-busy=true]') !== null)), 'the search ends by itself');
    await gridsAreJudged(12, 1);
    const shown = await cards();
    expect(shown.length === 12 && /it fills$/.test(shown[0]), `the grids are ${shown.join('; ')}; ${await told()}`);
    expect(shown.every((text) => /it fills$|words? for the tightest entry$/.test(text)), `a grid is not judged: ${shown.join('; ')}`);
    expect(/^Stopped\. The best 12 of \d+ grids, of [\d,]+ boards that were tried\./.test(await told()), await told());
    await areWithin({ words: 78, blocks: 38, threes: 20 });
    expect(await inPage(() => [...document.querySelectorAll('#themes-grids .pattern')].every((card) => card.scrollWidth <= card.clientWidth)), 'what is said of a grid does not fit its card');
    await picture('grids-dozen');
    await browser.click('#themes-grids .pattern:last-child');
    await page.factsAre(/^15 × 15 · 32 of/);
    const rows = await page.rows();
    const fault = faultOf(rows, { words: 78, blocks: 38, threes: 20 });
    expect(!fault && ['RAINDROPS', 'SNOWSTORM', 'SUNSETS', 'SEASIDE'].every((word) => hasWord(rows, word)), `${fault}: ${rows}`);
    return told();
  },

  async 'themeless grids of 72 words with a seed'() {
    await menu('themes');
    await wantGrids('', 'New York Times, themeless', { seeds: 'juxtapose' });
    expect(/^Limits: 72 words, 36 blocks, 14 words of 3/.test(await the('#themes-summary').text()), 'the limits of the outlet are not told');
    await browser.click('#themes-show');
    await gridsAreJudged(12);
    expect((await cards()).length === 12, `there are ${(await cards()).length} grids`);
    await areWithin({ words: 72, blocks: 36, threes: 14 });
    await browser.click('#themes-grids .pattern');
    await page.factsAre(/^15 × 15 · 9 of/);
    const rows = await page.rows();
    const fault = faultOf(rows, { words: 72, blocks: 36, threes: 14 });
    expect(!fault && hasWord(rows, 'JUXTAPOSE'), `${fault}: ${rows}`);
  },

  async 'limits that are changed by hand, and kept'() {
    await menu('themes');
    await wantGrids('', 'american');
    expect((await sourceOf('words')) === 'published' && (await sourceOf('threes')) === 'usual', `the sources are ${await sourceOf('words')} and ${await sourceOf('threes')}`);
    await the('#themes-limits').put('open', true);
    const rules = () => the('#themes-rules').text();
    expect(/Each letter is in two words/.test(await rules()), await rules());
    await setOfGrids('outlet', 'Guardian');
    expect(/no three unchecked/.test(await rules()) && (await fieldOf('words')) === '36' && (await sourceOf('words')) === 'usual', `of a lattice it says: ${await rules()}; ${await fieldOf('words')} words, ${await sourceOf('words')}`);
    await setOfGrids('outlet', 'New York Times, daily');
    await setOfGrids('words', '74');
    await setOfGrids('threes', '10');
    await setOfGrids('blocks', '');
    expect((await sourceOf('words')) === 'yours' && (await sourceOf('cheaters')) === 'usual', 'a changed limit is not called so');
    await picture('grids-limits');
    await browser.click('#themes-show');
    await gridsAreJudged(2);
    await areWithin({ words: 74, blocks: 225, threes: 10 });
    await browser.press('Escape');
    await reload();
    await menu('themes');
    expect((await fieldOf('words')) === '74' && (await fieldOf('blocks')) === '' && (await fieldOf('threes')) === '10', 'what was changed is not kept');
    // another size has its own
    await setOfGrids('width', '21');
    await setOfGrids('height', '21');
    expect((await fieldOf('words')) === '140' && (await sourceOf('words')) === 'by the size', `in a 21 by 21 there are ${await fieldOf('words')} words, ${await sourceOf('words')}`);
    await setOfGrids('width', '15');
    await setOfGrids('height', '15');
    await the('#themes-limits').put('open', true);
    await browser.click('#themes-reset');
    expect((await fieldOf('words')) === '78' && (await fieldOf('blocks')) === '38' && (await sourceOf('words')) === 'published', 'what was listed does not come back');
    await the('#themes-limits').put('open', false);
    await browser.press('Escape');
  },

  async 'a search that is stopped, and one that finds nothing'() {
    await menu('themes');
    await wantGrids('', 'american');
    // no grid has so few words
    await setOfGrids('words', '20');
    await browser.click('#themes-show');
    await the('#themes-grids .pattern .bad').isThere();
    const near = await cards();
    expect(near.every((text) => text.includes('too many words')), `of the nearest boards it is said: ${near}`);
    expect(/^No grids, of [\d,]+ boards that were tried\. What keeps others out: too many words \([\d,]+\)/.test(await told()), await told());
    expect(await inPage(() => (document.querySelector('#themes-grids[aria-busy=true]') && document.getElementById('themes-show').hidden)), 'the search does not go on');
    await browser.click('#themes-stop');
    expect(await inPage(() => (document.querySelector('#themes-grids[aria-busy=false]') && document.getElementById('themes-stop').hidden && document.activeElement.id === 'themes-show')), 'the search goes on');
    const text = await told();
    expect(text.startsWith('Stopped. No grids'), text);
    await pause(2500);
    expect((await told()) === text, `after the stop it says ${await told()}`);
    // the next one is another
    await setOfGrids('words', '78');
    await browser.press('Enter');
    await the('#themes-grids .pattern .here').isThere();
    await browser.press('Escape');
    await the('#themes-dialog').isClosed();
  },

  async 'grids under other symmetries, judged'() {
    await menu('themes');
    for (const [style, sym] of [['american', 'leftright'], ['british', 'quarter'], ['barred', 'none']]) {
      const verdicts = await showGrids('gardening\nflowerpot', style, { sym });
      expect(verdicts.every((text) => /it fills|words? for the tightest/.test(text)), `a grid is not judged: ${verdicts}`);
    }
    // a list in which no word crosses the entries
    await browser.press('Escape');
    writeFileSync(join(room, 'lonely.txt'), 'gardening\nflowerpot\nzzzz\n');
    await openList(join(room, 'lonely.txt'));
    await page.factsAre(/lonely.txt, 3 words/);
    await menu('themes');
    await wantGrids('gardening\nflowerpot', 'american');
    await browser.click('#themes-show');
    await the('#themes-grids .pattern .bad').isThere();
    await stopGrids();
    const verdicts = await the('#themes-grids small').texts();
    expect(verdicts.length && verdicts.every((text) => /^\d+ entries have no word: [A-Z.]+$/.test(text)), `the verdicts are ${verdicts}`);
    expect((await page.count('#themes-grids .pattern .dead')) === verdicts.length, 'the lights without a word are not shown');
    await browser.press('Escape');
    await menu('built-in');
    await page.factsAre(/built-in list/);
  },

  async 'grids within limits, the best words first'() {
    await showSmall();
    await areWithin({ words: 32, blocks: 14, threes: 14 });
    const figures = await filledNow();
    expect(figures.length > 1 && areSorted(figures), `the grids come as ${await cards()}`);
    await picture('grids-within-limits');
    await the('#themes-limits').put('open', true);
    await browser.click('#themes-reset');
    await the('#themes-limits').put('open', false);
    await leaveGraded();
  },

  async 'a grid that comes under the pointer does not hold back better ones'() {
    await showSmall();
    // the pointer rests where the first card of the next search comes
    await browser.point('#themes-grids .pattern');
    await inPage(() => document.getElementById('themes-show').focus());
    await browser.press('Enter');
    await untilInPage(() => document.querySelectorAll('#themes-grids .here').length >= 6 && document.querySelector('#themes-grids .pattern:hover'));
    const figures = await filledNow();
    expect(areSorted(figures), `beside a pointer that rests the grids come as ${figures.join('; ')}`);
    await stopGrids();
    await leaveGraded();
  },

  async 'the stock of patterns'() {
    const shown = () => page.count('#stock-patterns .pattern');
    const set = (name, value) => browser.value(`(() => {
      const field = document.getElementById('stock-${name}');
      field.value = ${JSON.stringify(value)};
      field.dispatchEvent(new Event('input', { bubbles: true }));
    })()`);
    const stock = () => the('#stock-told').text();
    await menu('new');
    expect((await shown()) === 0, 'patterns of the stock are there before it is opened');
    await browser.click('#stock summary');
    await the('#stock-patterns .pattern').isThere();
    expect((await stock()) === '100 of 100 patterns' && (await shown()) === 24, `${await stock()}, ${await shown()} of them`);
    await browser.click('#stock-more');
    expect((await shown()) === 48 && (await inPage(() => [...document.querySelectorAll('#stock-patterns .pattern')].indexOf(document.activeElement))) === 24, 'the next patterns are not there, or have no focus');
    await set('themes', '14, 12, 12, 14');
    expect(/^\d+ of 100 patterns, with room for 14, 12, 12, 14$/.test(await stock()), await stock());
    const held = await inPage(() => [...document.querySelectorAll('#stock-patterns .pattern')].map((card) => card.querySelector('.held').getAttribute('d').split('M').length - 1));
    expect(held.length === Number.parseInt(await stock(), 10) && held.length > 0 && held.every((cells) => cells === 52), `the places of the entries have ${held} cells`);
    // the same as words
    const asNumbers = await stock();
    await set('themes', 'fingerprinting, recapitulate, gesticulates, disenchantment');
    expect((await stock()) === asNumbers, `as words there are ${await stock()}`);
    await picture('stock-themes');
    await set('themes', '16');
    expect((await stock()) === 'none of 100 patterns, with room for 16' && (await shown()) === 0 && (await the('#stock-more').get('hidden')), await stock());
    await set('themes', '');
    await set('form', 'themeless');
    await set('words', '70');
    await set('threes', '8');
    const texts = await the('#stock-patterns .pattern').texts();
    expect(texts.length > 0 && texts.every((text) => figuresOf(text).words <= 70 && figuresOf(text).threes <= 8), `within 70 words and 8 of three letters: ${texts}`);
    expect(await inPage(() => [...document.querySelectorAll('#stock-patterns .pattern')].every((card) => card.scrollWidth <= card.clientWidth)), 'what is said of a pattern does not fit its card');
    for (const form of ['sunday', 'british15', 'british13', 'daily']) {
      await set('form', form);
      await set('words', '');
      await set('threes', '');
      expect((await stock()) === '100 of 100 patterns', `${form}: ${await stock()}`);
      await picture(`stock-${form}`);
    }
    const [, words, blocks] = /^(\d+) words, (\d+) blocks/.exec(await the('#stock-patterns .pattern').text());
    await browser.click('#stock-patterns .pattern');
    await page.factsAre(/^15 × 15 · 0 of/);
    const rows = await page.rows();
    expect(rows.join('').replace(/[^#]/g, '').length === Number(blocks) && !faultOf(rows, { words: Number(words), blocks: Number(blocks), threes: 20 }), `${faultOf(rows, { words, blocks, threes: 20 })}: ${rows}`);
    await browser.press('Control+z');
    await browser.until(`${JSON.stringify(rows.join(''))} !== [...document.querySelectorAll('#grid .cell')].map((cell) => (cell.classList.contains('block') ? '#' : '.')).join('')`);
  },

  async 'where a block helps'() {
    await openGraded();
    await menu('new');
    for (const side of ['width', 'height']) await browser.value(`document.getElementById('new-${side}').value = 7`);
    await browser.click('#new-blank');
    await page.factsAre(/^7 × 7 · 0 of/);
    await menu('moves');
    await the('#moves-told').says(/^As it is: /);
    const text = await the('#moves-told').text();
    expect(/ \d+ blocks were tried, and the \d+ most promising were filled: (none|\d+) makes? that better\.$/.test(text), text);
    const shown = await inPage(() => [...document.querySelectorAll('#moves-list .pattern')].map((card) => card.innerText.replaceAll('\n', ' ')));
    expect(shown.length > 0 && shown.every((one) => /^row \d, column \d /.test(one)), `the moves are ${shown}`);
    expect((await page.count('#moves-map svg')) === 1, 'there is no map');
    await picture('moves');
    const [, row, column] = /^row (\d), column (\d)/.exec(shown[0]).map(Number);
    await browser.click('#moves-list .pattern');
    await the('#grid .cell.block').isThere();
    const rows = await page.rows();
    const [index, all] = [7 * (row - 1) + column - 1, rows.join('')];
    expect(all[index] === '#' && all[48 - index] === '#' && all.replace(/[^#]/g, '').length === (index === 24 ? 1 : 2), `the block of row ${row}, column ${column} is in ${rows}`);
    await menu('built-in');
    await page.factsAre(/built-in list/);
  },
};

await runAlone(import.meta.url, { CASES });
