// Cases of fills: one that is stopped, others, those of more workers, and none.
import { writeFileSync } from 'node:fs';
import { join } from 'node:path';
import { another, begin, menu, openList, openRecord, openWords, slideLeast } from '../doing.mjs';
import { holdFill, raceOthers, releaseFill } from '../holding.mjs';
import { browser, expect, inPage, page, picture, reload, room, runAlone, the, untilInPage } from '../page.mjs';

export const CASES = {
  async 'a fill, stopped, and others'() {
    await begin(2);
    await holdFill();
    await browser.press('Control+f');
    await untilInPage(() => !document.getElementById('stop').hidden && window.heldFill);
    await browser.click('#stop');
    await releaseFill();
    await the('#stop').isHidden();
    await page.statusIs(/^stopped/);
    expect((await page.rows()).join('').replaceAll(/[.#]/g, '') === '', 'the grid is not as it was');
    await begin(1);
    await browser.type('lard');
    await browser.click('#fill');
    await page.statusIs(/^filled/);
    const first = await page.rows();
    expect(first.every((row) => !row.includes('.')), 'a cell is empty');
    expect(first[0].startsWith('LARD'), 'the entries have changed');
    await picture('filled');
    await another();
    const second = await page.rows();
    expect(second.join() !== first.join() && second[0].startsWith('LARD'), 'it is no other fill of the same entries');
  },

  async 'a fill that another worker finds'() {
    // other workers begin with this search; one slice fills a lattice
    await reload();
    await begin(3);
    await browser.type('culture');
    await page.factsAre(/· 7 of/);
    await raceOthers('filled', 3);
    await browser.press('Control+f');
    await page.statusIs(/^filled/);
    const rows = await page.rows();
    const found = await inPage(() => window.race.told.letters.map((line) => line.split(" ")));
    expect(found.every(([, row, column, letter]) => rows[row - 1][column - 1] === letter) && found.length > 120, `the grid is another one: ${rows}`);
    expect((await inPage(() => window.race.workers.size)) === 2, 'three cores have other workers than the one of the session and two more');
    expect(!(await page.has('1-1', 'pencil')) && (await page.has('2-1', 'pencil')), 'what was typed is in pencil, or what was found is not');
    // the next fill of these seeds is another one
    await reload();
    expect((await page.rows()).join() === rows.join(), 'the fill is lost');
    // no fill: the first worker to know ends the search
    writeFileSync(join(room, 'few.txt'), 'abc\nadg\nbeh\ncfi\ndef\nghi\nxyz\n');
    await openWords(join(room, 'few.txt'));
    await page.factsAre(/few.txt, 7 words/);
    await openRecord('size 3 5\nblock 4 1\nblock 4 2\nblock 4 3\nset 5 1 A\nset 5 2 B\nset 5 3 C\n');
    await raceOthers('nofill', 3);
    await browser.press('Control+f');
    await page.statusIs(/^there is no fill/);
    expect((await page.rows()).join() === '...,...,...,###,ABC', `the grid is ${await page.rows()}`);
    await reload();
    await menu('built-in');
    await page.factsAre(/built-in list/);
  },

  async 'workers of a tablet'() {
    await browser.view(820, 1180, { isTouched: true });
    try {
      await reload();
      await begin(3);
      await raceOthers('filled', 8);
      await browser.click('#fill');
      await page.statusIs(/^filled/);
      expect((await inPage(() => window.race.workers.size)) === 3, 'other than four workers in all');
    } finally {
      await browser.view(1400, 900);
      await reload();
    }
  },

  async 'fills side by side'() {
    await begin(6);
    await browser.type('co');
    await browser.press('Control+f');
    await page.statusIs(/^filled/);
    const first = await page.rows();
    expect(await the('#fills').get('hidden'), 'one fill is shown as a choice');
    // another one, the first one, and one more
    await another();
    await untilInPage(() => (document.querySelectorAll('#fills-list .fill').length === 3 && document.querySelector('#fills-list .fill:first-child[aria-pressed=true]')));
    await picture('fills');
    const second = await page.rows();
    await browser.click('#fills-list .fill:nth-child(2)');
    await page.statusIs(/this fill is in the grid/);
    expect((await page.rows()).join() === first.join(), 'it is another fill');
    expect((await page.has('2-2', 'pencil')) && !(await page.has('1-2', 'pencil')), 'the pencil is lost');
    await the('#fills-list .fill:nth-child(2)[aria-pressed=true]').isThere();
    await browser.press('Control+z');
    await the('#fills-list .fill:first-child[aria-pressed=true]').isThere();
    await browser.click('#fills-list .fill:nth-child(3)');
    await page.statusIs(/this fill is in the grid/);
    await the('#fills-list .fill:nth-child(3)[aria-pressed=true]').isThere();
    const third = await page.rows();
    expect(third[0].startsWith('#CO') && new Set([first, second, third].map(String)).size === 3, 'the third fill is none of its own');
    await browser.press('Control+z');
    await the('#fills-list .fill:first-child[aria-pressed=true]').isThere();
    // a block over pencil takes its image's place too
    await browser.click('#cell-2-2');
    await browser.press('.');
    await untilInPage(() => document.querySelector('#cell-2-2.block') && document.querySelector('#cell-4-4.block'));
    await the('#fills').isHidden();
    await browser.press('Control+z');
    await the('#cell-2-2.block').isGone();
  },

  async 'an entry without which there is a fill'() {
    writeFileSync(join(room, 'few.txt'), 'abc\nadg\nbeh\ncfi\ndef\nghi\nxyz\n');
    await openWords(join(room, 'few.txt'));
    await page.factsAre(/few.txt, 7 words/);
    // ABC, DEF, GHI read down ADG, BEH, CFI. With two words of its own a light of three cells below has no fill, though each light has a word
    await openRecord('size 3 5\nblock 4 1\nblock 4 2\nblock 4 3\nset 5 1 A\nset 5 2 B\nset 5 3 C\n');
    await browser.press('Control+f');
    await page.statusIs(/there is no fill with ABC, 6 Across; without it there is one/);
    expect((await page.rows()).join() === '...,...,...,###,ABC', `the grid is ${await page.rows()}`);
    await page.cursorAt('5-1');
    await menu('built-in');
    await page.factsAre(/built-in list/);
  },

  async 'a corner filled again'() {
    await begin(1);
    await browser.type('lard');
    await page.factsAre(/· 4 of/);
    await browser.press('Control+f');
    await page.statusIs(/^filled/);
    // the letters that were typed are locked
    await browser.click('#cell-2-2');
    await browser.click('#cell-1-1');
    const before = await page.rows();
    for (let step = 0; step < 4; step++) await browser.press('Shift+ArrowDown');
    for (let step = 0; step < 3; step++) await browser.press('Shift+ArrowRight');
    await the('#fill').says(/^Fill [0-9]+ entries/);
    await picture('corner');
    await another();
    const after = await page.rows();
    expect(after[0].slice(0, 4) === before[0].slice(0, 4), 'a locked letter has changed');
    expect(after.slice(6).join() === before.slice(6).join(), 'letters outside the corner have changed');
    await browser.press('Escape');
  },

  async 'no fill, and the light that dies first'() {
    // ABC, DEF, GHI read down ADG, BEH, CFI; the light below has no word of its own
    writeFileSync(join(room, 'six.txt'), 'abc\nadg\nbeh\ncfi\ndef\nghi\n');
    await openWords(join(room, 'six.txt'));
    await page.factsAre(/six.txt, 6 words/);
    await openRecord('size 3 5\nblock 4 1\nblock 4 2\nblock 4 3\n');
    await browser.press('Control+f');
    const told = await page.statusIs(/^there is no fill: \d+ (Across|Down) is the first (light|entry) that runs out of words/);
    expect((await page.rows()).join() === '...,...,...,###,...', `the grid is ${await page.rows()}`);
    const [, name] = /: (\d+ \w+) is/.exec(told);
    await the('#light-name').says(name);
    // where the least score may be the cause, that is said
    writeFileSync(join(room, 'six.txt'), 'abc;60\nadg;60\nbeh;60\ncfi;60\ndef;60\nghi;60\nzzz;5\n');
    await openList(join(room, 'six.txt'));
    await page.factsAre(/six.txt[^,]*, 7 words/);
    await slideLeast(40);
    await page.factsAre(/6 of 7 words/);
    await browser.press('Control+f');
    await page.statusIs(/^there is no fill: no words with 40 or more fit this grid$/);
    await page.statusIs(/is the first (light|entry) that runs out of words.*Lower the least score, 40\. Change the blocks beside it$/);
    await menu('built-in');
    await page.factsAre(/built-in list/);
    return told;
  },
};

// What cases need that not every browser can do.
export const NEEDS = { 'workers of a tablet': ['touch'] };

await runAlone(import.meta.url, { CASES, NEEDS });
