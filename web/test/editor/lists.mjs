// Cases of word lists: large ones, what is left out of one, several, and the personal one.
import { writeFileSync } from 'node:fs';
import { join } from 'node:path';
import { largeList } from '../time.mjs';
import { begin, beginBlank, menu, openFile, openList, openRecord, openWords, saved, slideLeast } from '../doing.mjs';
import { raiseInTime, raiseToTheEnd, workOfLetter } from '../holding.mjs';
import { browser, expect, forget, inPage, page, picture, reload, room, runAlone, the, untilInPage } from '../page.mjs';

export const CASES = {
  async 'a list of 277,620 words'() {
    const path = join(room, 'large.txt');
    writeFileSync(path, largeList().join('\n'));
    await begin(1);
    await browser.type('to');
    await openList(path);
    await page.factsAre(/large.txt, 277,620 words/);
    expect((await page.row(1)).startsWith('TO'), 'the puzzle is lost');
    await begin(1);
    const told = await workOfLetter('s');
    await reload();
    await page.factsAre(/large.txt, 277,620 words/);
    return told;
  },

  async 'a list of 300,000 words with scores'() {
    const path = join(room, 'many-scores.txt');
    const letter = (number, at) => 'etaoinshrd'[Math.floor(number / 10 ** at) % 10];
    const line = (_, number) => `${Array.from({ length: 6 }, (__, at) => letter(number, at)).join('')};${number % 101}`;
    writeFileSync(path, Array.from({ length: 300000 }, line).join('\n'));
    await begin(1);
    await openList(path);
    await page.factsAre(/many-scores.txt, 300,000 words/);
    await page.statusIs(/^many-scores.txt: 300,000 words, the best scores first$/);
    await slideLeast(40);
    await page.statusIs(/of 300,000 words have 40 or more$/);
    // three words across
    await openRecord(`size 6 5\n${[1, 2, 3, 4, 5, 6].flatMap((column) => [2, 4].map((row) => `block ${row} ${column}`)).join('\n')}\n`);
    await the('#candidates[aria-busy=false] li').isThere();
    const work = await workOfLetter('t');
    await raiseToTheEnd();
    await browser.press('Control+f');
    await page.statusIs(/^filled: worst 100, mean 100$/);
    await raiseInTime();
    await menu('built-in');
    await page.factsAre(/built-in list/);
    return work;
  },

  async 'lines of a list that are left out'() {
    const open = async (name, bytes, told) => {
      writeFileSync(join(room, name), bytes);
      await (name === 'marked.txt' ? openWords : openList)(join(room, name));
      const said = await page.statusIs(new RegExp(`^${name}: .*words`));
      expect(said === `${name}: ${told}`, `${name}: the page says: ${said}`);
      expect((await the('#list-name').text()) === `${name}: ${told.replace(', the best scores first', '')}`, 'the tab says otherwise');
    };
    await begin(6);
    await open('marked.txt', '\ufeffcat\r\ncot\r\n\r\ncut', '3 words');
    await open('accents.txt', 'caf\u00e9\ncat\nna\u00efve\ndon\u2019t\ncot\nstra\u00dfe\n\u0153uvre\n\u0434\u0430\n', '6 words; 4 without their accents; 2 lines left out: 1 with letters other than A to Z, 1 with signs that are not ASCII');
    await open('latin.txt', Buffer.from('caf\u00e9\ncat\ncot\n', 'latin1'), '3 words; 1 without its accent');
    await openList(join(room, 'accents.txt'));
    await page.statusIs(/6 words/);
    writeFileSync(join(room, 'greek.txt'), '\u03b3\u03b7\n\u03b8\u03b5\u03ac\n');
    await openList(join(room, 'greek.txt'));
    await page.statusIs(/^greek.txt: there is no word that the list can take; 2 lines left out: 2 with letters other than A to Z$/);
    await page.factsAre(/accents.txt, 6 words/);
    await open('short.txt', 'a\ncat\nCat\ncot\n', '2 words; 2 lines left out: 1 with fewer than 2 letters, 1 that repeats a word');
    const scored = '\ufeffcat;10\ncot;-5\ncut;50\near;-1\n\u00e9t\u00e9;90\nword list\noar;20\ntea;70';
    await open('scores.txt', scored, '5 words, the best scores first; 1 without its accent; 3 lines left out: 1 without a score, 2 with scores below 0');
    await slideLeast(50);
    await page.statusIs(/^3 of 5 words have 50 or more$/);
    await menu('new');
    await page.wantSize(3, 1);
    await browser.click('#new-blank');
    await browser.click('#tab-words');
    await untilInPage(() => [...document.querySelectorAll('#candidates li')].map((row) => row.dataset.word).join() === 'ETE,TEA,CUT');
    await menu('built-in');
    await page.factsAre(/built-in list/);
  },

  async 'where the scores of a list stand'() {
    await begin(6);
    const lists = {
      'blanks.txt': ['cat 80\ncot 70\ncut 7\n', '3 words, the best scores first; the scores are behind blanks'],
      'first.txt': ['80;cat\n70;cot\n7;cut\n', '3 words, the best scores first; the scores are before the words'],
      'shares.txt': ['cat;0.8\ncot;0.7\ncut;0.07\n', '3 words, the best scores first; scores from 0 to 1 are read as 0 to 100'],
    };
    for (const [name, [text, told]] of Object.entries(lists)) {
      writeFileSync(join(room, name), text);
      await openList(join(room, name));
      expect((await page.statusIs(new RegExp(`^${name}: `), 'good')) === `${name}: ${told}`, `${name}: the page says: ${await page.status()}`);
      await slideLeast(70);
      await page.statusIs(/^2 of 3 words have 70 or more$/);
    }
    await menu('built-in');
    await page.factsAre(/built-in list/);
  },

  async 'how a list is read is shown, and can be changed'() {
    await begin(6);
    const shown = () => inPage(() => {
      const text = (selector) => [...document.querySelectorAll(selector)].map(({ textContent }) => textContent);
      const chosen = ['separator', 'word', 'score', 'scale'].map((id) => document.getElementById('list-' + id).value);
      return { told: document.getElementById('list-told').textContent, chosen, first: text('#list-lines tr:nth-child(2) td'), left: text('#list-left li') };
    });
    const toldIs = (text) => browser.until(`document.getElementById('list-told').textContent === ${JSON.stringify(text)} && document.querySelector('#list-told[aria-busy=false]')`);
    const choose = (id, value) => browser.value(`(() => {
      const field = document.getElementById('list-${id}');
      field.value = ${JSON.stringify(value)};
      field.dispatchEvent(new Event('change'));
    })()`);
    writeFileSync(join(room, 'columns.csv'), '7,cat,0.5\n8,"ice, cream",0.25\n9,cot,1\n10,x,0.1\n11,cat,0.2\n');
    await openFile(join(room, 'columns.csv'));
    await toldIs('columns.csv: 3 words; scores from 25 to 100; 2 lines left out: 1 with fewer than 2 letters, 1 that repeats a word.');
    const { chosen, first, left } = await shown();
    expect(chosen.join('|') === ',|1|2|1' && first.join('|') === '7|cat|0.5', `shown: ${chosen}; ${first}`);
    expect(left.join('|') === '10,x,0.1: with fewer than 2 letters|11,cat,0.2: that repeats a word', `left out: ${left}`);
    await picture('list-preview');
    await choose('scale', '100');
    await toldIs('columns.csv: 3 words; scores from 0.25 to 1; 2 lines left out: 1 with fewer than 2 letters, 1 that repeats a word.');
    await choose('score', '0');
    await toldIs('columns.csv: 3 words; scores from 8 to 11; 2 lines left out: 1 with fewer than 2 letters, 1 that repeats a word.');
    // Esc leaves all as it was
    await browser.press('Escape');
    await page.statusIs(/^columns.csv is not opened$/, 'bad');
    await page.factsAre(/built-in list/);
    await openFile(join(room, 'columns.csv'));
    await the('#list-dialog').isOpen();
    await choose('score', 'none');
    await toldIs('columns.csv: 3 words; no scores; 2 lines left out: 1 with fewer than 2 letters, 1 that repeats a word.');
    await choose('score', '0');
    // what is chosen last counts, whether it is shown or not
    await browser.press('Enter');
    await page.statusIs(/^columns.csv: 3 words, the best scores first; /);
    await slideLeast(9);
    await page.statusIs(/^2 of 3 words have 9 or more$/);
    // it is read so after a reload too
    await reload();
    await page.factsAre(/columns.csv, 2 of 3 words/);
    expect((await the('#least-shown').text()) === '9', 'the scores are others');
    await menu('built-in');
    await page.factsAre(/built-in list/);
  },

  async 'several lists, and my own words'() {
    await forget();
    await reload();
    for (const [name, text] of [['one.txt', 'cat\ncot\n'], ['two.txt', 'cut;50\near;90\ncat;70\n']]) {
      writeFileSync(join(room, name), text);
      await (name === 'one.txt' ? openWords : openList)(join(room, name));
      await page.factsAre(new RegExp(name));
    }
    await browser.click('#tab-puzzle');
    const isOn = (name) => the(`#lists [data-name="${name}"]`).get('checked');
    expect((await isOn('two.txt')) && !(await isOn('one.txt')) && !(await isOn('built-in list')), 'other lists are in use');
    // changes that come at once are all made
    await inPage(() => ['one.txt', 'built-in list'].forEach((name) => document.querySelector('#lists [data-name="' + name + '"]').click()));
    await page.factsAre(/3 lists, 63,\d+ words/);
    await browser.click('#lists [data-name="built-in list"]');
    await page.factsAre(/2 lists, 4 words/);
    // words of one's own: added, graded again, hidden
    await browser.click('#personal-edit');
    await browser.insert('dot;95\ncut;99 # a note\n-ear\n?');
    await the('#personal-count').says(/2 added, 1 hidden; no word: \?/);
    await picture('my-words');
    await browser.click('#personal-dialog [value=save]');
    await page.statusIs(/^2 lists: 4 words, the best scores first$/);
    await menu('new');
    await page.wantSize(3, 1);
    await browser.click('#new-blank');
    await browser.click('#tab-words');
    await untilInPage(() => [...document.querySelectorAll('#candidates li')].map((row) => `${row.dataset.word} ${row.querySelector('.score').textContent}`).join() === 'CUT 99,DOT 95,CAT 70,COT ');
    // they stay
    await reload();
    await page.factsAre(/2 lists, 4 words/);
    await browser.click('#tab-puzzle');
    await picture('lists');
    expect((await saved('my-words.txt', () => browser.click('#personal-export'))).toString() === 'dot;95\ncut;99 # a note\n-ear\n?', 'the export differs');
    // a word of the puzzle becomes one's own
    await the('#word').focus();
    await browser.type('toe');
    await browser.press('Enter');
    await browser.click('#changed [data-keep=TOE]');
    await page.statusIs(/5 words/);
    await menu('built-in');
    await page.factsAre(/built-in list, 63,\d+ words/);
    await browser.click('#lists [data-remove="one.txt"]');
    await the('#lists [data-name="one.txt"]').isGone();
    // each change of the lists is taken back
    await browser.click('#lists-undo');
    await the('#lists [data-name="one.txt"]:not(:checked)').isThere();
    await browser.click('#lists-undo');
    await page.factsAre(/2 lists, 5 words/);
    await menu('built-in');
    await page.factsAre(/built-in list, 63,\d+ words/);
    await browser.click('#lists [data-remove="one.txt"]');
    await the('#lists [data-name="one.txt"]').isGone();
    await inPage(() => (document.getElementById('lists-undo').click(), document.getElementById('lists-undo').click()));
    await page.factsAre(/2 lists, 5 words/);
    await menu('built-in');
    await page.factsAre(/built-in list, 63,\d+ words/);
    await browser.click('#lists [data-remove="one.txt"]');
    await the('#lists [data-name="one.txt"]').isGone();
    // words of a file are taken over, and the others are counted
    writeFileSync(join(room, 'more-words.txt'), 'toe\nowl;70 # of a friend\n-ear\n-emu\n\u00e9t\u00e9\n?\n');
    await browser.click('#personal-edit');
    await browser.choose('#personal-file', join(room, 'more-words.txt'));
    await the('#personal-count').says('more-words.txt: 3 taken; 3 dropped: 2 there already, 1 with no word');
    expect((await the('#personal-text').value()).endsWith('TOE\nowl;70 # of a friend\n-emu\n\u00e9t\u00e9'), 'other words are taken over');
    await the('#personal-text').put('value', '');
    await browser.click('#personal-dialog [value=save]');
    await the('#personal-summary').says('none yet');
    await menu('built-in');
    await page.factsAre(/built-in list, 63,\d+ words/);
  },

  async 'the order of lists, and their offsets'() {
    await forget();
    await reload();
    for (const [name, text] of [['one.txt', 'cat;50\ncot;40\n'], ['two.txt', 'cat;90\ncut;60\n']]) {
      writeFileSync(join(room, name), text);
      await openList(join(room, name));
      await page.factsAre(new RegExp(name));
    }
    await browser.click('#tab-puzzle');
    await browser.click('#lists [data-name="one.txt"]');
    await page.factsAre(/2 lists, 3 words/);
    await beginBlank(3, 1);
    // each candidate with its score, its list and the name of that
    const candidates = "[...document.querySelectorAll('#candidates li')].map((row) => `${row.dataset.word} ${row.querySelector('.score').textContent} ${row.querySelector('.from').textContent} ${row.querySelector('.from').title}`).join()";
    const candidatesAre = async (...wanted) => {
      await browser.click('#tab-words');
      await browser.until(`${candidates} === '${wanted.join()}'`);
      await browser.click('#tab-puzzle');
    };
    await candidatesAre('CAT 90 1 from two.txt', 'CUT 60 1 from two.txt', 'COT 40 2 from one.txt');
    await picture('lists-in-order');
    const shift = (value) => browser.value(`(() => {
      const field = document.querySelector('#lists [data-offset="one.txt"]');
      field.value = '${value}';
      field.dispatchEvent(new Event('change', { bubbles: true }));
    })()`);
    await shift(30);
    await candidatesAre('CAT 90 1 from two.txt', 'COT 70 2 from one.txt', 'CUT 60 1 from two.txt');
    await browser.click('#lists [data-raise="one.txt"]');
    await candidatesAre('CAT 80 1 from one.txt', 'COT 70 1 from one.txt', 'CUT 60 2 from two.txt');
    // what is no offset changes nothing
    await shift(1000);
    await the('#lists [data-offset="one.txt"]').holds('30');
    await reload();
    await browser.click('#cell-1-1');
    await candidatesAre('CAT 80 1 from one.txt', 'COT 70 1 from one.txt', 'CUT 60 2 from two.txt');
    await untilInPage(() => [...document.querySelectorAll('#lists label')].map(({ textContent }) => textContent.trim()).join() === '1 one.txt,2 two.txt,built-in list');
    await browser.click('#lists [data-raise="two.txt"]');
    await candidatesAre('CAT 90 1 from two.txt', 'COT 70 2 from one.txt', 'CUT 60 1 from two.txt');
    await browser.click('#lists-undo');
    await candidatesAre('CAT 80 1 from one.txt', 'COT 70 1 from one.txt', 'CUT 60 2 from two.txt');
    await menu('built-in');
    await page.factsAre(/built-in list/);
  },

  async 'other scores for words of a list'() {
    await forget();
    await reload();
    const name = 'own-scores.dict';
    const long = `${'a'.repeat(60)}b`;
    writeFileSync(join(room, name), `cat;80\ncats;70\nbat;60\ntab;5\n${long};1\n`);
    await openList(join(room, name));
    await page.factsAre(/own-scores.dict, 5 words/);
    await browser.click('#tab-puzzle');
    const press = (what) => browser.click(`#lists [data-${what}="${name}"]`);
    const lines = async () => (await saved('own-scores.txt', () => press('file'))).toString().split('\n').filter((line) => line.length < 60).join(' ').trim();
    const set = (id, value) => browser.value(`(() => {
      const field = document.getElementById('rescore-${id}');
      field.value = ${JSON.stringify(value)};
      field.dispatchEvent(new Event('input', { bubbles: true }));
    })()`);
    const toldIs = (text) => the('#rescore-told').says(text);
    const asking = async (kind, text, how, value) => {
      for (const [id, one] of Object.entries({ kind, text, how, value })) await set(id, one);
      await the('#rescore-text').focus();
      await browser.press('Enter');
    };
    await press('rescore');
    await asking('pattern', '?at', 'to', '10');
    await toldIs('2 words found; all change.');
    const shown = await inPage(() => [...document.querySelectorAll('#rescore-changes tr')].map((row) => [...row.children].map(({ textContent }) => textContent).join(' ')).join());
    expect(shown === 'Word Now Then,CAT 80 10,BAT 60 10', `shown: ${shown}`);
    await picture('rescore');
    // Esc changes nothing, and what is typed after the preview asks anew
    await browser.press('Escape');
    expect((await lines()) === 'BAT;60 CAT;80 CATS;70 TAB;5', 'a score is changed');
    await press('rescore');
    await asking('regular', 'at', 'to', '10');
    await toldIs('3 words found; all change.');
    await set('text', '^.at');
    expect(await the('#rescore-take').get('disabled'), 'what is not shown can be taken over');
    await asking('regular', '(', 'to', '10');
    await the('#rescore-told').begins('that is no regular expression');
    // one that has no end is stopped
    await asking('regular', '^(A+)+$', 'to', '10');
    await browser.click('#rescore-stop');
    await toldIs('Stopped: nothing is changed.');
    await asking('regular', '^.at', 'by', '-20');
    await toldIs('3 words found; all change.');
    // Enter takes over what is shown
    await browser.press('Enter');
    await page.statusIs(/^own-scores.dict: 5 words, the best scores first$/i);
    expect((await lines()) === 'BAT;40 CAT;60 CATS;50 TAB;5', 'the scores are others');
    await beginBlank(3, 1);
    await browser.click('#tab-words');
    await untilInPage(() => [...document.querySelectorAll('#candidates li')].map((row) => `${row.dataset.word} ${row.querySelector('.score').textContent}`).join() === 'CAT 60,BAT 40,TAB 5');
    await browser.click('#tab-puzzle');
    await press('rescore');
    await asking('pattern', 'T*', 'to', '95');
    await toldIs('1 word found; all changes.');
    await browser.press('Enter');
    await the('#rescore-dialog').isClosed();
    await untilInPage(() => !document.getElementById('lists-undo').disabled && document.getElementById('least').max === '95');
    await browser.click('#lists-undo');
    await the('#least').is('[max="60"]');
    expect((await lines()) === 'BAT;40 CAT;60 CATS;50 TAB;5', 'undo leaves other scores');
    await reload();
    await browser.click('#tab-puzzle');
    expect((await lines()) === 'BAT;40 CAT;60 CATS;50 TAB;5', 'the scores are not kept');
    await press('rescore');
    await browser.click('#rescore-back');
    await the('#least').is('[max="80"]');
    expect((await lines()) === 'BAT;60 CAT;80 CATS;70 TAB;5', 'the scores of the file are not back');
    await menu('built-in');
    await page.factsAre(/built-in list/);
  },

  async 'Esc while words are typed'() {
    const summaryIs = (text) => the('#personal-summary').says(text);
    const isClosed = () => the('#personal-dialog').isClosed();
    await browser.click('#tab-puzzle');
    await browser.click('#personal-edit');
    await browser.insert('emu');
    await browser.press('Escape');
    await isClosed();
    await summaryIs('1 added, 0 hidden');
    await page.statusIs(/^What you typed is kept; Esc again takes it back$/i);
    await browser.press('Escape');
    await summaryIs('none yet');
    // after anything else it stays, and undo has it
    await browser.click('#personal-edit');
    await browser.insert('emu');
    await browser.press('Escape');
    await page.statusIs(/kept; Esc again/);
    await browser.click('#cell-1-1');
    await browser.press('Escape');
    await browser.click('#lists-undo');
    await summaryIs('none yet');
    // Cancel throws away
    await browser.click('#personal-edit');
    await browser.insert('emu');
    await browser.click('#personal-dialog [value=cancel]');
    await isClosed();
    // changes are made in order, so words that were saved would be there before this one
    await browser.click('#personal-edit');
    await browser.insert('owl');
    await browser.click('#personal-dialog [value=save]');
    await summaryIs('1 added, 0 hidden');
    await browser.click('#lists-undo');
    await summaryIs('none yet');
  },
};

await runAlone(import.meta.url, { CASES });
