// Cases of dead ends and their reasons.
import { begin, beginBlank, intoDeadEnd, menu, openRecord } from '../doing.mjs';
import { browser, expect, inPage, page, picture, runAlone, the, untilInPage } from '../page.mjs';

export const CASES = {
  async 'a dead end'() {
    await begin(1);
    await browser.type('sp');
    await browser.click('#cell-2-1');
    await browser.type('x');
    await page.statusIs(/dead end/);
    expect((await page.count('.cell.dead')) > 0, 'no cell is red');
    await browser.click('#cell-3-2');
    await page.statusIs(/no word, by/);
    expect((await page.count('.cell.reason')) > 0, 'no reason is lit up');
    await picture('dead-end');
    await browser.press('Control+z');
    await the('.cell.dead').are(0);
  },

  async 'a reason beside the last entry'() {
    await begin(2);
    await browser.click('#cell-1-7');
    if (await the('.cursor').matches('.down')) await browser.press('Enter');
    await browser.type('jazzquake');
    const told = await page.statusIs(/JAZZQUAKE leaves \d+ Down no word/);
    await picture('reason');
    const [, number] = /leaves (\d+) Down no word/.exec(told) ?? [];
    expect(number >= 6 && number <= 14, `it does not cross 6 Across: ${told}`);
    const box = (selector) => browser.value(`(({ x, y, width, height }) => ({ x, y, width, height }))(document.querySelector('${selector}').getBoundingClientRect())`);
    const [frame, cell] = [await box('.reason-band'), await box(`#cell-1-${Number(number) + 1}`)];
    expect(Math.abs(frame.x - cell.x) < 2 && Math.abs(frame.y - cell.y) < 2 && frame.height > 2 * cell.height, `the frame is not around ${number} Down`);
    expect(await page.has(`1-${Number(number) + 1}`, 'reason'), `no letter of ${number} Down is framed: ${told}`);
  },

  async 'a dead end that is over before it is told'() {
    await beginBlank(5, 1);
    await inPage(() => (window.said.length = 0));
    // the letters come faster than their answers; no word has the first ones, and the whole is an entry
    await browser.value("for (const key of 'qqqqq') document.getElementById('grid').dispatchEvent(new KeyboardEvent('keydown', { key, bubbles: true, cancelable: true }))");
    await the('#standing').says(/QQQQQ is not in your lists/);
    expect(!/dead end/.test(await page.status()), `it says: ${await page.status()}`);
    // what was told is taken back with its cause
    await browser.press('Control+z');
    await page.statusIs(/a dead end/);
    await browser.press('q');
    await untilInPage(() => /QQQQQ is not in your lists/.test(document.getElementById('standing').textContent) && !/dead end|no word/.test(document.getElementById('status').textContent));
  },

  async 'a dead part beside one that is alive'() {
    const blocks = [1, 2, 3, 4, 5].map((column) => `block 4 ${column}`).join('\n');
    await openRecord(`size 5 7\n${blocks}\nset 1 1 S\nset 1 2 T\n`);
    await browser.click('#cell-1-3');
    if (await page.has('1-3', 'down')) await browser.press('Enter');
    await browser.type('j');
    await page.statusIs(/dead end/);
    // the part of the cause is red, its own light more so, and the other part is not
    await the('.cell.unmatched').areAtLeast(5);
    const red = await inPage(() => [...document.querySelectorAll('.cell.dead, .cell.spent')].map(({ id }) => Number(id.split('-')[1])));
    expect(red.length === 12 && red.every((row) => row < 4), `these rows are red: ${red}`);
    await browser.press('Control+j');
    await page.statusIs(/ left, the fewest/);
    expect(await inPage(() => Number(document.querySelector('.cursor').id.split('-')[1]) > 4), 'the tightest light is dead');
    await browser.press('Control+z');
    await the('.cell.dead, .cell.spent, .cell.unmatched').isGone();
  },

  async 'red near the reason, and grey farther off'() {
    // at first near the last entry, and then near the reason
    const told = await intoDeadEnd();
    await the('.cell.reason').isThere();
    const shown = await inPage(() => {
      const at = (cell) => [...cell.parentElement.children].indexOf(cell);
      const lit = [...document.querySelectorAll('.cell.reason')].map((cell) => [Number(cell.dataset.index), cell.id]);
      const cells = (name) => [...document.querySelectorAll('.cell.' + name)].map(({ ariaLabel }) => ariaLabel);
      const lights = new Set([...document.querySelectorAll('.cell.reason')].flatMap(({ ariaLabel }) => ariaLabel.match(/\d+ (?:Across|Down)/g)));
      return { red: cells('dead'), grey: cells('spent'), lights: [...lights] };
    });
    const [, dead] = /(\d+ (?:Across|Down))[^A-Z]* no word/.exec(told);
    const near = [...shown.lights, dead];
    const isNear = (label) => near.some((light) => label.includes(`, ${light}, letter`));
    expect(shown.red.length > 0 && shown.red.length < 40 && shown.red.every(isNear), `${shown.red.length} cells are red near ${near}: ${shown.red.filter((label) => !isNear(label))}`);
    expect(shown.grey.length > 100 && !shown.grey.some(isNear), `${shown.grey.length} cells are grey`);
    await picture('near-a-dead-end');
    // a click on a grey cell asks for the reason too
    await browser.click('#cell-15-15');
    await page.statusIs(/no word, by/);
    await browser.press('Control+z');
    await the('.cell.dead, .cell.spent').isGone();
  },

  async 'theme entries without blocks'() {
    await menu('new');
    await page.wantSize(15, 15);
    await browser.click('#new-blank');
    await page.factsAre(/· 0 of 225/);
    await browser.click('#cell-4-1');
    if (await page.has('4-1', 'down')) await browser.press('Enter');
    await browser.type('jazzquakezombix');
    await the('.cell.waiting').areAtLeast(101);
    expect((await page.count('.cell.dead, .cell.unmatched')) === 0, 'a light that waits for blocks is red');
    await page.statusIs(/wait for blocks/);
    await picture('waiting');
    // they wait as long as the grid has few blocks
    await browser.click('#cell-1-5');
    await inPage(() => {
      window.wasRed = false;
      window.reds = new MutationObserver(() => { window.wasRed ||= document.querySelector('.cell.dead, .cell.unmatched') !== null; });
      window.reds.observe(document.getElementById('grid'), { attributes: true, subtree: true });
    });
    await browser.press('.');
    await the('#cell-1-5.block').isThere();
    await page.statusIs(/wait for blocks/);
    expect(!(await inPage(() => (window.reds.disconnect(), window.wasRed))), 'a light that waits for blocks is red for a moment');
    expect((await page.count('.cell.waiting')) > 100 && (await page.count('.cell.dead, .cell.unmatched')) === 0, 'a light that waits for blocks is red');
    // a short light that no word matches waits for nothing
    await browser.click('#cell-1-1');
    if (await page.has('1-1', 'down')) await browser.press('Enter');
    await browser.type('qx');
    await the('.cell.unmatched').are(4);
    // a small grid is done without blocks
    await menu('new');
    await page.wantSize(4, 4);
    await browser.click('#new-blank');
    await page.factsAre(/· 0 of 16/);
    await browser.type('qxj');
    await page.statusIs(/dead end/);
    await untilInPage(() => document.querySelector('.cell.unmatched') && !document.querySelector('.cell.waiting'));
  },
};

await runAlone(import.meta.url, { CASES });
