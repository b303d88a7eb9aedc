// Cases of scores: raised fills and the least score.
import { writeFileSync } from 'node:fs';
import { join } from 'node:path';
import { another, begin, beginBlank, menu, openFile, openGraded, openList, openRecord, pointedAt, scoredList, slideLeast, wordsOf } from '../doing.mjs';
import { hold, holdFill, holdRaising, isDrafted, isHeld, raiseInTime, raiseToTheEnd, release, releaseFill } from '../holding.mjs';
import { browser, expect, inPage, page, picture, reload, room, runAlone, the, untilInPage } from '../page.mjs';

export const CASES = {
  async 'a list with scores'() {
    const path = join(room, 'scored.txt');
    const list = ['cat;10', 'cot;90', 'cut;50', 'ear;60', 'oar;20', 'tea;40', 'toe;70', 'are;30', 'tar;80', 'ate;55'];
    writeFileSync(path, `${list.join('\n')}\n`);
    await openList(path);
    await page.factsAre(/scored.txt, 10 words/);
    await menu('new');
    await page.wantSize(3, 1);
    await browser.click('#new-blank');
    await the('#candidates li').are(10);
    const first = await inPage(() => [...document.querySelectorAll('#candidates li')].slice(0, 3).map((row) => row.dataset.word).join());
    expect(first === 'COT,TAR,TOE', `the order is ${first}`);
    await slideLeast(50);
    await page.factsAre(/scored.txt, 6 of 10 words/);
    await menu('built-in');
    await page.factsAre(/built-in list/);
  },

  async 'a fill that is raised until none is better'() {
    // AB over CD has the worst word BD, EF over GH the worst word EG; each can be entered in two ways
    writeFileSync(join(room, 'squares.txt'), 'ab;90\ncd;80\nac;70\nbd;60\nef;75\ngh;85\neg;65\nfh;95\n');
    await openList(join(room, 'squares.txt'));
    await page.factsAre(/squares.txt, 8 words/);
    await beginBlank(2, 2);
    await raiseToTheEnd();
    await browser.press('Control+f');
    const others = 'no fill is better; all but [13] (Across|Down) have 75 or more';
    await page.statusIs(new RegExp(`^filled: worst 65, mean 80; ${others}$`));
    await raiseInTime();
    await the('#figures-text').says(new RegExp(`^worst 65, mean 80; ${others}$`));
    expect(['EF,GH', 'EG,FH'].includes((await page.rows()).join()), `the grid is ${await page.rows()}`);
    // the words below a score are marked
    await the('#weak').choose(70);
    await the('.weak-across, .weak-down').are(2);
    await the('#figures-text').says(/^worst 65, mean 80, 1 under 70/);
    await browser.click('#figures-worst');
    await the('#light-letters').says('EG');
    // both fills are one step
    await browser.press('Control+z');
    await page.factsAre(/· 0 of/);
    await untilInPage(() => document.getElementById('figures').hidden && !document.querySelector('.weak-across, .weak-down'));
    await browser.press('Control+y');
    await page.factsAre(/filled/);
    // what is proved holds when letters are locked
    await the('#figures-text').says(/no fill is better/);
    await browser.press('=');
    await page.statusIs(/locked/);
    const isBest = () => the('#figures-text').says(/^worst 65, mean 80, 1 under 70; no fill is better/);
    await isBest();
    await browser.press('Control+f');
    await page.statusIs(/^filled: worst 65, mean 80, 1 under 70; no fill is better/);
    // but not with other words
    await browser.click('#tab-puzzle');
    await the('#word').focus();
    await browser.type('zz');
    await browser.press('Enter');
    await the('#figures-text').says('worst 65, mean 80, 1 under 70');
    await browser.click('#tab-words');
    await menu('built-in');
    await page.factsAre(/built-in list/);
    await untilInPage(() => document.getElementById('figures').hidden && document.getElementById('least-row').hidden);
  },

  async 'a fill while another puzzle is opened'() {
    writeFileSync(join(room, 'squares.txt'), 'ab;90\ncd;80\nac;70\nbd;60\nef;75\ngh;85\neg;65\nfh;95\n');
    await openList(join(room, 'squares.txt'));
    await page.factsAre(/squares.txt, 8 words/);
    await beginBlank(2, 2);
    await raiseToTheEnd();
    writeFileSync(join(room, 'locked.xw'), 'size 2 2\nset 1 1 A\nset 1 2 B\n');
    await hold('edit');
    await openFile(join(room, 'locked.xw'));
    await isHeld();
    await browser.press('Control+f');
    await release();
    // the letters of that puzzle are locked, though a fill without them is better
    await page.statusIs(/^filled: worst 60/);
    await raiseInTime();
    expect((await page.rows()).join() === 'AB,CD' && !(await page.has('1-1', 'pencil')), `the grid is ${await page.rows()}`);
    await menu('built-in');
    await page.factsAre(/built-in list/);
  },

  async 'a word that is forced, and the others'() {
    // the theme word leaves 2 Down one bad word, and the light below has one of 90
    writeFileSync(join(room, 'forced.txt'), 'toe;80\nox;3\nad;60\nbe;40\nat;90\nit;70\n');
    await openList(join(room, 'forced.txt'));
    await page.factsAre(/forced.txt, 6 words/);
    await openRecord('size 3 4\nblock 2 1\nblock 2 3\nblock 3 1\nblock 3 2\nblock 3 3\nblock 4 3\nset 1 1 T\nset 1 2 O\nset 1 3 E\n');
    await raiseToTheEnd();
    await browser.press('Control+f');
    await page.statusIs(/^filled: worst 3, mean 58, 1 under 50; no fill is better: 2 Down allows no more; all but 2 Down have 90 or more$/);
    await raiseInTime();
    expect((await page.rows()).join() === 'TOE,#X#,###,AT#', `the grid is ${await page.rows()}`);
    await picture('forced');
    await menu('built-in');
    await page.factsAre(/built-in list/);
  },

  async 'words of one root, and five letters in common'() {
    writeFileSync(join(room, 'kin.txt'), 'walk;90\nwalks;90\nstone;80\nstoned;85\nmiles;70\nsingle;60\nwinter;50\n');
    await openList(join(room, 'kin.txt'));
    await page.factsAre(/kin.txt, 7 words/);
    await openRecord('size 6 3\nblock 1 6\nblock 2 1\nblock 2 2\nblock 2 3\nblock 2 4\nblock 2 5\nblock 2 6\nset 1 1 S\nset 1 2 T\nset 1 3 O\nset 1 4 N\nset 1 5 E\n');
    await browser.click('#cell-3-1');
    const listed = (words) => browser.until(`[...document.querySelectorAll('#candidates li')].map((row) => row.dataset.word).join() === '${words}'`);
    await listed('STONED,SINGLE,WINTER');
    await browser.press('Control+f');
    await page.statusIs(/^filled: /);
    expect((await page.row(3)) === 'STONED', `the row is ${await page.row(3)}`);
    await browser.press('Control+z');
    await page.factsAre(/· 5 of/);
    // the switch leaves it out of the candidates and of fills, and is kept
    await browser.click('#apart');
    await listed('SINGLE,WINTER');
    await browser.press('Control+f');
    await page.statusIs(/^filled: worst 60/);
    expect((await page.row(3)) === 'SINGLE', `the row is ${await page.row(3)}`);
    await browser.press('Control+z');
    await page.factsAre(/· 5 of/);
    await untilInPage(() => !/set 3 1/.test(window.drafts()));
    await reload();
    await untilInPage(() => document.getElementById('apart').checked);
    await browser.click('#cell-3-1');
    await listed('SINGLE,WINTER');
    await browser.click('#apart');
    await listed('STONED,SINGLE,WINTER');
    // STALES is of STALE, and STALLS of STALL
    writeFileSync(join(room, 'stales.txt'), 'stales;90\nstalls;80\nstaler;70\n');
    await openList(join(room, 'stales.txt'));
    await page.factsAre(/stales.txt, 3 words/);
    await browser.click('#apart');
    await openRecord(`size 6 3\nblock 1 6\n${[1, 2, 3, 4, 5, 6].map((column) => `block 2 ${column}\n`).join('')}${[...'STALE'].map((letter, at) => `set 1 ${at + 1} ${letter}\n`).join('')}`);
    await browser.click('#cell-3-1');
    await listed('STALLS');
    await browser.click('#apart');
    await listed('STALES,STALLS,STALER');
    await menu('built-in');
    await page.factsAre(/built-in list/);
  },

  async 'a least score for words of three letters'() {
    writeFileSync(join(room, 'threes.txt'), 'cat;10\ncot;90\ntea;40\ntoes;5\n');
    await openList(join(room, 'threes.txt'));
    await page.factsAre(/threes.txt, 4 words/);
    await openRecord('size 3 1\n');
    await the('#threes').choose(50);
    await page.statusIs(/^words of three letters have 50 or more$/);
    await page.factsAre(/threes.txt, 2 words/);
    await browser.type('tea');
    await the('#standing').says(/TEA \(40\) is below your least score for three letters, 50/);
    await reload();
    await page.factsAre(/threes.txt, 2 words/);
    await menu('built-in');
    await page.factsAre(/built-in list/);
  },

  async 'another fill that is worse'() {
    writeFileSync(join(room, 'scored.txt'), 'cat;10\ncot;90\ncut;50\near;60\noar;20\ntea;40\ntoe;70\nare;30\ntar;80\nate;55\n');
    await openList(join(room, 'scored.txt'));
    await page.factsAre(/scored.txt, 10 words/);
    await beginBlank(3, 1);
    await raiseToTheEnd();
    await browser.press('Control+f');
    await page.statusIs(/^filled: worst 90, mean 90; no fill is better: 1 Across allows no more$/);
    // another fill finds TAR, and raisings find nothing and end when they are told to
    await inPage(() => {
      window.setTimeout = (action, time, ...more) => (time === 2000 ? ((window.endRaising = action), 0) : window.inTime(action, time, ...more));
      const post = Worker.prototype.postMessage;
      window.seeds = [];
      Worker.prototype.postMessage = function (message, transfer) {
        if (message.call === 'best') return window.seeds.push(message.sent.given[1]);
        if (message.call !== 'autofill') return post.call(this, message, transfer);
        const id = message.id + ' placed';
        this.addEventListener('message', ({ data }) => data.id === id && this.dispatchEvent(new MessageEvent('message', { data: { id: message.id, value: { answer: 'filled' } } })));
        post.call(this, { id, call: 'edit', sent: { lines: ['place 1 across TAR'], isWhole: false } }, transfer);
      };
    });
    const raising = async (key) => {
      await inPage(() => (window.endRaising = null, window.seeds.length = 0));
      await browser.press(key);
      await untilInPage(() => window.endRaising && window.seeds.length > 0);
      const row = await page.row(1);
      await inPage(() => window.endRaising());
      const told = await page.statusIs(/^filled: worst/);
      return { row, told, seeds: await inPage(() => window.seeds.join()) };
    };
    const made = await raising('Control+g');
    expect(made.row === 'TAR', `the other fill is ${made.row}`);
    expect(/^filled: worst 90, .*it is the fill from before, since no better one was found$/i.test(made.told), made.told);
    await page.factsAre(/filled/);
    expect((await page.row(1)) === 'COT', `the row is ${await page.row(1)}`);
    await untilInPage(() => (document.querySelectorAll('#fills-list .fill').length > 1 && /worst 90/.test(document.querySelector('#fills-list .fill[aria-pressed=true]')?.textContent)));
    // the other one can be chosen, and is raised with other seeds each time
    await browser.click('#fills-list .fill[aria-pressed=false]');
    await untilInPage(() => [...document.querySelectorAll('.cell .letter')].map(({ textContent }) => textContent).join('') !== 'COT');
    const [one, two] = [await raising('Control+f'), await raising('Control+f')];
    expect(one.row !== 'COT' && two.row === one.row, `the fills are ${one.row}, ${two.row}`);
    expect(one.seeds !== two.seeds, `both have the seeds ${one.seeds}`);
    await inPage(() => (window.setTimeout = window.inTime, 0));
    await reload();
    await menu('built-in');
    await page.factsAre(/built-in list/);
  },

  async 'a raising by slices that go on'() {
    writeFileSync(join(room, 'slices.txt'), 'cat;10\ncot;11\ncut;12\near;13\noar;14\ntea;15\ntoe;16\nare;17\ntar;18\nate;19\n');
    await openList(join(room, 'slices.txt'));
    await page.factsAre(/slices.txt, 10 words/);
    await beginBlank(3, 1);
    await raiseToTheEnd();
    // the one worker is answered for
    await inPage(() => {
      Object.defineProperty(navigator, 'hardwareConcurrency', { value: 2, configurable: true });
      window.asked = [];
      const post = Worker.prototype.postMessage;
      Worker.prototype.postMessage = function (message, transfer) {
        // what the worker of the raising is sent after its first slice
        if (this === window.raiser && message.call !== 'best') window.asked.push(message.call);
        if (message.call !== 'best') return post.call(this, message, transfer);
        window.raiser = this;
        window.answer = (value) => this.dispatchEvent(new MessageEvent('message', { data: { id: message.id, value } }));
        // the placements depend on how long the slice before took
        window.asked.push([message.sent.least, message.sent.given.slice(1).join(' ')]);
      };
    });
    await browser.press('Control+f');
    const answered = async (count, value) => {
      await browser.until(`window.asked.length === ${count}`);
      await browser.value(`window.answer(${JSON.stringify(value)})`);
    };
    await page.statusIs(/^filled; its worst word is raised: .*looking for \d+ or more; 0 s … Esc ends this$/);
    // each slice is sent right after the one before, and looks for fills that are better than the best one, by the worst word and then by the mean
    await answered(1, { answer: 'limit', bound: 97 });
    await answered(2, { answer: 'filled', grade: 80, sum: 80, bound: 101, letters: ['set 1 1 T', 'set 1 2 A', 'set 1 3 R'] });
    await answered(3, { answer: 'filled', grade: 80, sum: 90, bound: 90, letters: ['set 1 1 A', 'set 1 2 T', 'set 1 3 E'] });
    await untilInPage(() => window.asked.length === 4);
    expect((await page.row(1)) === 'ATE', `the grid is ${await page.rows()}`);
    await answered(4, { answer: 'filled', grade: 80, sum: 80, bound: 81, letters: ['set 1 1 T', 'set 1 2 A', 'set 1 3 R'] });
    // no other word can be better, so it ends
    await page.statusIs(/^filled: worst \d+, mean \d+; no fill is better/);
    const asked = await inPage(() => window.asked.slice(0, 4));
    const [[grade, seed]] = asked;
    const wanted = [[grade, seed], [grade, seed], [80, seed], [80, seed]];
    expect(JSON.stringify(asked) === JSON.stringify(wanted), `asked for ${JSON.stringify(asked)}, and not ${JSON.stringify(wanted)}`);
    await reload();
    await menu('built-in');
    await page.factsAre(/built-in list/);
  },

  async 'a raised fill of a 15 by 15'() {
    await openGraded();
    await begin(1);
    await browser.press('Control+f');
    await page.statusIs(/^filled; its worst word is raised/);
    // a line tells what is known and what is tried
    await page.statusIs(/^filled; its worst word is raised: (worst \d+, mean \d+(, \d+ under \d+)?; )?(no fill is better than \d+; )?looking for \d+ or more( for the others)?; \d+ s … Esc ends this$/);
    const told = await page.statusIs(/^filled: worst \d+/);
    const [, worst, better] = /worst (\d+),.*?(?:no fill is better than (\d+))?$/.exec(told);
    await picture('raised');
    const scores = new Map(scoredList().map((line) => line.toUpperCase().split(';')));
    const own = wordsOf(await page.rows()).map((word) => Number(scores.get(word)));
    expect(Math.min(...own) === Number(worst) && own.length > 70, `${told}; the scores are ${own}`);
    expect(better === undefined || Number(better) > Number(worst), `the bound is below the fill: ${told}`);
    expect((await page.count('.cell.pencil')) === (await page.count('.cell:not(.block)')), 'a letter is not in pencil');
    // once more goes on with the fill that is there
    await browser.press('Control+f');
    const again = await page.statusIs(/^filled: worst \d+/);
    expect(Number(/worst (\d+)/.exec(again)[1]) >= Number(worst), `it is worse: ${again}`);
    await another();
    await page.statusIs(/^filled: worst \d+/);
    await untilInPage(() => document.querySelectorAll('#fills-list .fill').length >= 2 && [...document.querySelectorAll('#fills-list small')].every(({ textContent }) => /worst \d+, mean \d+/.test(textContent)));
    // those with the best worst words come first
    const figures = (await the('#fills-list small').texts()).map((text) => /worst (\d+), mean (\d+)/.exec(text).slice(1).map(Number));
    expect(JSON.stringify(figures) === JSON.stringify([...figures].sort((a, b) => b[0] - a[0] || b[1] - a[1])), `the fills come as ${figures.join(' ')}`);
    await picture('raised-fills');
    return told;
  },

  async 'a first fill that does not wait for the raising'() {
    await openGraded();
    await begin(1);
    await hold('best');
    await browser.press('Control+f');
    await isHeld();
    // no slice of the raising has an answer yet, and the fill is there
    const rows = await page.rows();
    expect(rows.every((row) => !row.includes('.')), `the grid is ${rows}`);
    await page.statusIs(/^filled; its worst word is raised … Esc ends this$/);
    await untilInPage(() => document.getElementById("figures-text").textContent.startsWith("worst "));
    const worst = Number(/worst (\d+)/.exec(await inPage(() => document.getElementById("figures-text").textContent))[1]);
    await release();
    // the raising goes on from it
    const told = await page.statusIs(/^filled: worst \d+/);
    expect(Number(/worst (\d+)/.exec(told)[1]) >= worst, `it was ${worst} at first: ${told}`);
    await menu('built-in');
    await page.factsAre(/built-in list/);
  },

  async 'a raising that ends'() {
    await openGraded();
    const startRaising = async () => {
      await begin(1);
      await holdRaising();
      await browser.press('Control+f');
      await isHeld();
      await untilInPage(() => !document.getElementById('stop').hidden && !document.getElementById('fill').disabled);
      return page.rows();
    };
    const isEnded = () => the('#stop').isHidden();
    // by Esc, after which the first fill stays
    let rows = await startRaising();
    await browser.press('Escape');
    await page.statusIs(/^stopped: worst \d+/);
    await isEnded();
    await release();
    expect((await page.rows()).join() === rows.join(), 'the fill is lost');
    // by a letter
    rows = await startRaising();
    await browser.click('#cell-1-1');
    await browser.type(rows[0][0] === 'Q' ? 'z' : 'q');
    await isEnded();
    await release();
    await page.factsAre(/filled/);
    expect((await page.rows()).slice(1).join() === rows.slice(1).join() && !(await page.has('1-1', 'pencil')), 'another letter has changed');
    // by undo, in one step
    await startRaising();
    await browser.press('Control+z');
    await page.factsAre(/· 0 of/);
    await isEnded();
    await release();
    // by the button, by another least score, and by another list
    await startRaising();
    await browser.click('#stop');
    await page.statusIs(/^stopped: worst \d+/);
    await release();
    await startRaising();
    await slideLeast(20);
    await page.factsAre(/of 63,\d+ words/);
    await isEnded();
    await release();
    await slideLeast(0);
    await page.factsAre(/graded.txt, 63,\d+ words/);
    // by a reload, after which the first fill is there
    rows = await startRaising();
    await untilInPage(() => window.drafts().split('set ').length > 150);
    await reload();
    expect((await page.rows()).join() === rows.join(), 'the fill is lost');
    await page.factsAre(/graded.txt/);
  },

  async 'a fill that is improved until no fill is better, or it is stopped'() {
    writeFileSync(join(room, 'squares.txt'), 'ab;90\ncd;80\nac;70\nbd;60\nef;75\ngh;85\neg;65\nfh;95\n');
    await openList(join(room, 'squares.txt'));
    await page.factsAre(/squares.txt, 8 words/);
    await beginBlank(2, 2);
    // an empty grid is filled first
    await browser.click('#improve');
    await page.statusIs(/^filled: worst 65, mean 80; no fill is better; all but [13] (Across|Down) have 75 or more$/);
    expect(['EF,GH', 'EG,FH'].includes((await page.rows()).join()), `the grid is ${await page.rows()}`);
    const isOn = (pressed) => browser.until(`document.querySelector('#improve[aria-pressed=${pressed}]') && document.getElementById('stop').hidden === ${!pressed}`);
    await isOn(false);
    await browser.press('Control+z');
    await page.factsAre(/· 0 of/);
    // a raising that is to end by time goes on
    await openGraded();
    await begin(1);
    await hold('best');
    await browser.press('Control+f');
    await isHeld();
    await browser.click('#improve');
    await page.statusIs(/^filled; its worst word is raised until no fill is better, or Esc stops it$/);
    await isOn(true);
    // a line in the tab says how far it is, and messages stay free
    await release();
    await the('#improve-told').says(/^worst \d+, mean \d+; .*looking for \d+ or more.*; \d+ s$/);
    await picture('improving');
    // a clue is kept meanwhile
    await browser.press('F3');
    await untilInPage(() => document.activeElement.matches('#clue-list textarea'));
    await browser.insert('Kept');
    await isDrafted(/text clue 1 1 across Kept/);
    await isOn(true);
    // Esc leaves the text first
    await browser.press('Escape');
    await page.statusIs(/kept; Esc again takes it back/);
    await isOn(true);
    await browser.click('#tab-words');
    // an edit ends it
    await browser.click('#cell-1-1');
    await browser.press(' ');
    await isOn(false);
    await browser.press('Control+z');
    await page.factsAre(/filled/);
    await hold('best');
    await browser.click('#improve');
    await isHeld();
    await isOn(true);
    await browser.click('#improve');
    await page.statusIs(/^stopped: worst \d+/);
    await isOn(false);
    await release();
    await reload();
    await menu('built-in');
    await page.factsAre(/built-in list/);
    await the('#improve-row').isHidden();
  },

  async 'a fill that is improved until none is under a score'() {
    writeFileSync(join(room, 'squares.txt'), 'ab;90\ncd;80\nac;70\nbd;60\nef;75\ngh;85\neg;65\nfh;95\n');
    await openList(join(room, 'squares.txt'));
    await page.factsAre(/squares.txt, 8 words/);
    await beginBlank(2, 2);
    const aim = (score) => the('#target').choose(`${score}`);
    await aim(61);
    await browser.click('#improve');
    // the other fill has the worst word BD, of 60
    await page.statusIs(/^none is under 61: worst 65, mean 80/);
    expect(['EF,GH', 'EG,FH'].includes((await page.rows()).join()), `the grid is ${await page.rows()}`);
    // it is kept, and one that cannot be met ends where no fill is better
    await reload();
    await the('#target').holds('61');
    await aim(70);
    await browser.click('#improve');
    await page.statusIs(/^filled: worst 65, mean 80; no fill is better/);
    // one that is lowered ends what is under way
    await openGraded();
    await the('#target').holds('');
    await begin(1);
    await aim(100);
    await hold('best');
    await browser.click('#improve');
    await isHeld();
    await page.statusIs(/^filled; its worst word is raised until none is under 100, or Esc stops it$/);
    await aim(0);
    await page.statusIs(/^none is under 0: worst \d+/);
    await release();
    await reload();
    await menu('built-in');
    await page.factsAre(/built-in list/);
  },

  async 'the weakest words, and one that is mended'() {
    writeFileSync(join(room, 'weak.txt'), 'cat;40\ncot;60\ntoe;75\ntie;70\n');
    await openList(join(room, 'weak.txt'));
    await page.factsAre(/weak.txt, 4 words/);
    // CAT crosses TOE, whose other letters are locked
    await openRecord('size 3 3\nblock 2 1\nblock 2 2\nblock 3 1\nblock 3 2\nset 1 1 C\nset 1 2 A\nset 1 3 T\nset 2 3 O\nset 3 3 E\n');
    await browser.click('#weakest summary');
    const rows = () => inPage(() => [...document.querySelectorAll('#weakest-list li')].map((row) => [...row.children].map((part) => [...(part.children.length ? part.children : [part])].map(({ textContent }) => textContent).join(' ')).join('|')));
    const areRows = (...wanted) => browser.until(`[...document.querySelectorAll('#weakest-list .word')].map((word) => word.textContent).join() === '${wanted.join()}'`);
    await areRows('CAT401 Across', 'TOE752 Down');
    expect((await rows()).join() === 'CAT 40 1 Across|locked|Mend,TOE 75 2 Down|locked|Mend', `the rows are ${await rows()}`);
    expect((await page.count('#weakest-list [data-mend]:disabled')) === 2, 'a locked word can be mended');
    await browser.click('#cell-1-1');
    await browser.press('+');
    await the('#weakest-list [data-mend]:not(:disabled)').are(2);
    expect((await rows()).join() === 'CAT 40 1 Across||Mend,TOE 75 2 Down|2 locked letters|Mend', `the rows are ${await rows()}`);
    await browser.click('#weakest-list li:nth-child(2) .word');
    await the('#light-letters').says('TOE');
    // the offer is shown, and changes nothing
    await browser.click('#weakest-list li:first-child [data-mend]');
    await page.statusIs(/^better words are found around 1 Across/);
    await the('#mend-told').says('around 1 Across: worst 40, mean 58, 1 under 50 now; worst 60, mean 68 with 1 other word');
    await picture('mended');
    expect((await page.rows()).join() === 'CAT,##O,##E', `the grid is ${await page.rows()}`);
    await browser.click('#mend-leave');
    await the('#mend-offer').isHidden();
    await browser.click('#weakest-list li:first-child [data-mend]');
    await the('#mend-offer').isShown();
    await browser.click('#mend-use');
    await page.statusIs(/^mended around 1 Across/);
    expect((await page.rows()).join() === 'COT,##O,##E', `the grid is ${await page.rows()}`);
    await areRows('COT601 Across', 'TOE752 Down');
    // it is proved where nothing is better
    await browser.click('#weakest-list li:first-child [data-mend]');
    await page.statusIs(/^no fill around 1 Across is better, with the rest as it is$/);
    await the('#weakest-list small').says('nothing better is around it: proved');
    // one step takes it back
    await browser.press('Control+z');
    await areRows('CAT401 Across', 'TOE752 Down');
    // both are for the grid as it was
    await the('#weakest-list small').says('');
    await browser.click('#weakest-list li:first-child [data-mend]');
    await the('#mend-offer').isShown();
    await browser.press('Control+z');
    await the('#mend-offer').isHidden();
    await browser.click('#weakest summary');
    await menu('built-in');
    await page.factsAre(/built-in list/);
    await the('#weakest').isHidden();
  },

  async 'workers that load a list ahead'() {
    writeFileSync(join(room, 'ahead.txt'), 'cat;10\ncot;90\ncut;50\near;60\n');
    await inPage(() => {
      Object.defineProperty(navigator, 'hardwareConcurrency', { value: 4, configurable: true });
      window.opened = [];
      const post = Worker.prototype.postMessage;
      Worker.prototype.postMessage = function (message, transfer) {
        if (message.call === 'open') window.opened.push(this);
        post.call(this, message, transfer);
      };
    });
    await openList(join(room, 'ahead.txt'));
    await page.factsAre(/ahead.txt, 4 words/);
    // those of the session and of three helpers, each once
    await untilInPage(() => window.opened.length === 4 && new Set(window.opened).size === 4);
    await beginBlank(3, 1);
    await raiseToTheEnd();
    await browser.press('Control+f');
    await page.statusIs(/^filled: worst 90/);
    await raiseInTime();
    expect((await inPage(() => window.opened.length)) === 4, 'a list is loaded again');
    await reload();
    await menu('built-in');
    await page.factsAre(/built-in list/);
  },

  async 'raising by several workers'() {
    await openGraded();
    await begin(1);
    await holdRaising();
    await inPage(() => {
      Object.defineProperty(navigator, 'hardwareConcurrency', { value: 4, configurable: true });
      window.raisers = new Map();
      const post = Worker.prototype.postMessage;
      Worker.prototype.postMessage = function (message, transfer) {
        if (message.call === 'best') window.raisers.set(this, message.sent.given[1]);
        post.call(this, message, transfer);
      };
    });
    await browser.press('Control+f');
    await untilInPage(() => window.raisers.size === 3 && new Set(window.raisers.values()).size === 3);
    await browser.press('Escape');
    await page.statusIs(/^stopped: worst \d+/);
    await reload();
    await menu('built-in');
    await page.factsAre(/built-in list/);
  },

  async 'better fills that come at once'() {
    writeFileSync(join(room, 'scored.txt'), 'cat;10\ncot;90\ncut;50\near;60\noar;20\ntea;40\ntoe;70\nare;30\ntar;80\nate;55\n');
    await openList(join(room, 'scored.txt'));
    await page.factsAre(/scored.txt, 10 words/);
    await beginBlank(3, 1);
    await raiseToTheEnd();
    // two workers are answered for, and the edit that the first answer leads to is held back
    await inPage(() => {
      Object.defineProperty(navigator, 'hardwareConcurrency', { value: 3, configurable: true });
      window.asked = [];
      window.isTold = false;
      const post = Worker.prototype.postMessage;
      Worker.prototype.postMessage = function (message, transfer) {
        if (message.call === 'best') window.asked.push((value) => this.dispatchEvent(new MessageEvent('message', { data: { id: message.id, value } })));
        else if (message.call === 'edit' && window.isTold && !window.heldEdit) window.heldEdit = () => post.call(this, message, transfer);
        else post.call(this, message, transfer);
      };
    });
    await browser.press('Control+f');
    await untilInPage(() => window.asked.length === 2);
    await inPage(() => {
      window.isTold = true;
      const [one, other] = window.asked.splice(0);
      const letters = (word) => [...word].map((letter, at) => 'set 1 ' + (at + 1) + ' ' + letter);
      one({ answer: 'filled', grade: 91, bound: 101, letters: letters('TAR') });
      other({ answer: 'filled', grade: 92, bound: 93, letters: letters('TOE') });
    });
    await untilInPage(() => window.heldEdit);
    await inPage(() => window.heldEdit());
    // the better one is in the grid, and its words are told
    await page.statusIs(/^filled: worst 70, mean 70; no fill is better than 92$/);
    expect((await page.row(1)) === 'TOE', `the row is ${await page.row(1)}`);
    await browser.press('Control+z');
    await page.factsAre(/· 0 of/);
    await reload();
    await menu('built-in');
    await page.factsAre(/built-in list/);
  },

  async 'the least score, slid'() {
    writeFileSync(join(room, 'scored.txt'), 'cat;10\ncot;90\ncut;50\near;60\noar;20\ntea;40\ntoe;70\nare;30\ntar;80\nate;55\n');
    await openList(join(room, 'scored.txt'));
    await page.factsAre(/scored.txt, 10 words/);
    await beginBlank(3, 1);
    const listed = (words) => browser.until(`[...document.querySelectorAll('#candidates li')].map((row) => row.dataset.word).join() === '${words}'`);
    await listed('COT,TAR,TOE,EAR,ATE,CUT,TEA,ARE,OAR,CAT');
    // no list is opened anew, and each place of the slider is shown
    await inPage(() => {
      window.opened = 0;
      const post = Worker.prototype.postMessage;
      Worker.prototype.postMessage = function (message, transfer) {
        if (message.call === 'open') window.opened++;
        post.call(this, message, transfer);
      };
    });
    await slideLeast(60, ['input']);
    await untilInPage(() => document.getElementById('least-left').textContent === '4 of 10 words' && document.getElementById('least-shown').textContent === '60');
    await listed('COT,TAR,TOE,EAR');
    await slideLeast(85, ['input']);
    await listed('COT');
    await slideLeast(50, ['input', 'change']);
    await page.statusIs(/^6 of 10 words have 50 or more$/);
    await listed('COT,TAR,TOE,EAR,ATE,CUT');
    expect((await inPage(() => window.opened)) === 0, 'the list is opened anew');
    await picture('least');
    // a word below it is called that, in the grid and in the tab of the puzzle
    await browser.click('#cell-1-1');
    await browser.type('cat');
    await the('#standing').says(/^CAT \(10\) is below your least score, 50/);
    await browser.press('Control+j');
    await page.statusIs(/CAT \(10\) is below your least score, 50: 1 Across/);
    await browser.click('#tab-puzzle');
    await the('#checks').says(/CAT \(10\) is below your least score, 50: 1 Across/);
    await browser.click('#tab-words');
    await browser.click('#standing button:nth-of-type(1)');
    await page.statusIs(/CAT is added/);
    await the('#standing').isHidden();
    // undo leads to where it was, with the grade of the list
    await browser.click('#cell-1-1');
    await browser.press('Control+z');
    await the('#standing').says(/^CAT \(10\) is below/);
    await slideLeast(10);
    await the('#standing').isHidden();
    await slideLeast(11);
    await the('#standing').says(/^CAT \(10\) is below your least score, 11/);
    // hidden words are called that
    await browser.press('Control+z');
    await browser.press('Control+z');
    await browser.press('Control+z');
    await page.factsAre(/· 0 of/);
    await listed('COT,TAR,TOE,EAR,ATE,CUT,TEA,ARE,OAR');
    // a word that is pointed at stays that when the list is asked for anew
    await browser.press('/');
    await browser.press('ArrowDown');
    await pointedAt('COT');
    await slideLeast(21, ['input']);
    await listed('COT,TAR,TOE,EAR,ATE,CUT,TEA,ARE');
    await pointedAt('COT');
    await slideLeast(11);
    await listed('COT,TAR,TOE,EAR,ATE,CUT,TEA,ARE,OAR');
    await pointedAt('COT');
    await browser.press('Shift+Delete');
    await page.statusIs(/COT is hidden/);
    await browser.click('#cell-1-1');
    await browser.type('cot');
    await the('#standing').says(/^COT is hidden in this puzzle/);
    // it stays over a reload, and the puzzle has none of it
    await isDrafted(/strike COT[^]*set 1 3 T/);
    expect(!(await inPage(() => /least/.test(window.drafts()))), 'the puzzle has the least score');
    await reload();
    await page.factsAre(/scored.txt, 9 of 10 words/);
    expect((await the('#least').value()) === '11', 'the least score is lost');
    // a search is not disturbed
    await beginBlank(3, 3);
    await holdFill();
    await browser.press('Control+f');
    await untilInPage(() => !document.getElementById('stop').hidden && window.heldFill);
    await slideLeast(70);
    await page.statusIs(/a fill is running/);
    expect((await the('#least').value()) === '11', 'the slider does not go back');
    await browser.press('Escape');
    await releaseFill();
    await page.statusIs(/^stopped/);
    await menu('built-in');
    await page.factsAre(/built-in list/);
  },

  async 'scores above 100'() {
    writeFileSync(join(room, 'high.txt'), 'cat;250\ncot;125\ncut;124\near;3\n');
    await openList(join(room, 'high.txt'));
    await page.factsAre(/high.txt, 4 words/);
    await beginBlank(3, 1);
    await slideLeast(50);
    await page.statusIs(/^2 of 4 words have 125 or more$/);
    await untilInPage(() => [...document.querySelectorAll('#candidates li')].map((row) => `${row.dataset.word} ${row.querySelector('.score').textContent}`).join() === 'CAT 250,COT 125');
    await browser.type('cut');
    await the('#standing').says(/^CUT \(124\) is below your least score, 125/);
    await menu('built-in');
    await page.factsAre(/built-in list/);
  },

  async 'the ten worst words, and the others below the mark'() {
    await openGraded();
    await begin(1);
    await browser.press('Control+f');
    await page.statusIs(/^filled/);
    await browser.press('Escape');
    await the('#weak').choose(101);
    await untilInPage(() => document.querySelectorAll('.cell.weak-across').length > 150 && document.querySelector('.cell.worst'));
    const graded = new Map(scoredList().map((line) => line.toUpperCase().split(';')).map(([word, score]) => [word, Number(score)]));
    const scores = wordsOf(await page.rows()).map((word) => graded.get(word)).sort((a, b) => a - b);
    // cells of words that are worse than the eleventh are tinted, and no cell is of which both words are better than the tenth
    const cells = await inPage(() => [...document.querySelectorAll('.cell:not(.block)')].map((cell) => [cell.ariaLabel.match(/\d+ (?:Across|Down)/g), cell.classList.contains('worst'), Number(cell.dataset.index)]));
    const lettersOfCell = new Map();
    for (const [names, , index] of cells) for (const name of names) lettersOfCell.set(name, [...(lettersOfCell.get(name) ?? []), index]);
    const rows = (await page.rows()).join('');
    const scoreOf = (name) => graded.get(lettersOfCell.get(name).map((index) => rows[index]).join(''));
    for (const [names, isWorst, index] of cells) {
      const worst = Math.min(...names.map(scoreOf));
      if (worst < scores[10]) expect(isWorst, `cell ${index} of a word with ${worst} is not tinted; the tenth has ${scores[9]}`);
      if (worst > scores[9]) expect(!isWorst, `cell ${index} of words with ${worst} is tinted; the tenth has ${scores[9]}`);
    }
    await picture('ten-worst');
    const thick = (selector) => browser.value(`getComputedStyle(document.querySelector('${selector}')).backgroundSize`);
    expect((await thick('.cell.worst.weak-across')) !== (await thick('.cell.weak-across:not(.worst)')), 'all dashes are alike');
    await browser.press('Control+z');
    await the('.cell.worst').isGone();
    await menu('built-in');
    await page.factsAre(/built-in list/);
  },
};

await runAlone(import.meta.url, { CASES });
