// Cases of clues and other texts, and the warnings of the usual rules.
import { writeFileSync } from 'node:fs';
import { join } from 'node:path';
import { Xw } from '../../dist/xw.js';
import { begin, menu, openFile, openList, openRecord, print, saved } from '../doing.mjs';
import { hold, holdFill, isDrafted, isFillHeld, isHeld, isInBank, release, releaseFill } from '../holding.mjs';
import { pageScript } from '../page-modules.mjs';
import { LIST, PAGE, browser, expect, inPage, module, page, picture, ready, reload, room, runAlone, the, untilInPage } from '../page.mjs';

// A row of four cells with a word.
const rowOf = (word) => `size 4 1\n${[...word].map((letter, at) => `set 1 ${at + 1} ${letter}\n`).join('')}`;
const clueIs = (text) => the('#clue-list textarea').holds(text);
const staleIs = (text) => browser.until(`document.querySelector('.clue .written').textContent === '${text}' && Boolean(document.querySelector('.clue.stale')) === ${Boolean(text)}`);
const WRITTEN = 'Written for BAAS: Keep Drop';

async function enterWord(word) {
  await browser.click('#cell-1-1');
  await browser.type(word);
  await the('.clue .word').says(word.toUpperCase());
}

export const CASES = {
  async 'a clue belongs to its word'() {
    await openRecord(rowOf('BAAS'));
    await browser.press('F3');
    await browser.insert('Sheep sounds');
    await browser.press('Enter');
    await isDrafted(/"BAAS"/);
    await staleIs('');
    await enterWord('agar');
    await staleIs(WRITTEN);
    await the('#clue-summary').says('every light has a clue; 1 is for another word');
    await picture('stale-clue');
    // a length at its end says nothing of the other word
    await browser.click('#clue-lengths');
    await clueIs('Sheep sounds (4)');
    await staleIs(WRITTEN);
    await browser.press('F4');
    await the('#checks button').oneSays('the clue of 1 Across was written for BAAS');
    // each file warns, and has the clue
    const puz = await saved('crossword.puz', () => browser.press('Control+s'));
    await page.statusIs(/^saved: crossword.puz; but the clue of 1 Across was written for BAAS$/, 'bad');
    expect(Xw.open(module, { puzzle: puz }).line('texts').lines.join() === 'clue 1 across Sheep sounds (4)', 'the clue is not in the .puz');
    const session = (await saved('crossword.xw', () => menu('save-session'))).toString();
    expect(session.includes('\n# written [["clue 1 1 across","BAAS"]]\n'), `the session is ${session}`);
    await page.statusIs(/but the clue of 1 Across was written for BAAS/);
    // it is known when the page is loaded again, and in the session
    await isDrafted(/AGAR|set 1 4 R/);
    await reload();
    await browser.press('F3');
    await staleIs(WRITTEN);
    await begin(6);
    await openFile(join(room, 'crossword.xw'));
    await page.statusIs(/is open/);
    await browser.press('F3');
    await staleIs(WRITTEN);
    // it is kept for the word that is there, which undo takes back
    await browser.click('.clue [data-keep]');
    await staleIs('');
    await browser.click('#cell-1-1');
    await browser.press('Control+z');
    await staleIs(WRITTEN);
    // it is no longer stale when its word is back
    await enterWord('baas');
    await staleIs('');
    await enterWord('agar');
    await staleIs(WRITTEN);
    await browser.click('.clue [data-drop]');
    await clueIs('');
    await staleIs('');
    const other = (await saved('crossword.xw', () => menu('save-session'))).toString();
    expect(!other.includes('# written'), `the session is ${other}`);
  },

  async 'letters that come before a clue is recorded'() {
    await openRecord(`${rowOf('BAAS')}# originals [["cell 1 4","SH"]]\n`);
    await the('#cell-1-4.rebus .letter').says('SH');
    await browser.press('F3');
    await hold('record');
    await browser.insert('Sheep sounds');
    await browser.press('Enter');
    await isHeld();
    // the grid shows them at once, and the clue was written before
    await browser.click('#cell-1-1');
    await browser.type('agar');
    await the('#cell-1-4 .letter').says('R');
    await release();
    await staleIs(WRITTEN);
    // and the cell of two letters is there before the one that comes over it
    await browser.press('Control+z');
    await the('#cell-1-4.rebus .letter').says('SH');
  },

  async 'all letters of a cell in the words of clues'() {
    await openRecord(`${rowOf('BAAS')}# originals [["cell 1 4","SH"]]\n`);
    await browser.press('F3');
    await untilInPage(() => document.querySelector('.clue .word').textContent === 'BAASH' && document.querySelector('.clue .length').textContent === '(5)');
  },

  async 'a block that hides a clue'() {
    await openRecord('size 5 1\nblock 1 3\ntext clue 1 1 across First\ntext clue 1 4 across Second\n');
    await browser.press('F3');
    await the('#clue-list textarea').hold('First,Second');
    await browser.click('#cell-1-3');
    await browser.press('.');
    await page.statusIs(/^the clue of 2 Across is hidden, since its (light|entry) is gone: undo brings it back$/i, 'bad');
    await the('#clue-list textarea').are(1);
    await browser.press('Control+z');
    await the('#clue-list textarea').hold('First,Second');
  },

  async 'Esc in a clue'() {
    await openRecord(rowOf('BAAS'));
    await browser.press('F3');
    await browser.insert('Sheep sounds');
    await browser.press('Escape');
    await page.statusIs(/kept; Esc again takes it back/);
    await isDrafted(/Sheep sounds/);
    await clueIs('Sheep sounds');
    await browser.press('Escape');
    await clueIs('');
    await page.statusIs(/taken back/);
    await browser.press('Control+y');
    await clueIs('Sheep sounds');
    // a key between makes Esc another one
    await browser.press('F3');
    await browser.insert('Farm noises');
    await browser.press('Escape');
    await page.statusIs(/kept; Esc again takes it back/);
    await browser.press('ArrowRight');
    await browser.press('Escape');
    await clueIs('Farm noises');
    await browser.press('Control+z');
    await clueIs('Sheep sounds');
    // and so do the texts of the puzzle
    await browser.press('F4');
    await browser.insert('Flock');
    await browser.press('Escape');
    await isDrafted(/text title Flock/);
    await browser.press('Escape');
    await the('#title').holds('');
  },

  async 'undo in a clue'() {
    await begin(6);
    await openRecord(rowOf('BAAS'));
    await browser.press('F3');
    // nothing is typed, so that the last step goes: the file
    await browser.press('Control+z');
    await page.factsAre(/^5 × 5/);
    await the('[data-light]').hasFocus();
    await browser.press('Control+y');
    await page.factsAre(/^4 × 1/);
    await browser.press('F3');
    // what is typed goes first, and comes back
    await browser.insert('Sheep sounds');
    await browser.press('Control+z');
    await clueIs('');
    await page.factsAre(/^4 × 1/);
    await browser.press('Control+y');
    await clueIs('Sheep sounds');
    // typing elsewhere in the field is a step of its own, however fast it comes
    await page.select(0, 0);
    await browser.insert('Loud ');
    await page.select(0, 4);
    await browser.press('Control+i');
    await clueIs('<i>Loud</i> Sheep sounds');
    await browser.press('Control+z');
    await clueIs('Loud Sheep sounds');
    await browser.press('Control+z');
    await clueIs('Sheep sounds');
    await browser.press('Control+z');
    await clueIs('');
    await browser.press('Control+z');
    await page.factsAre(/^5 × 5/);
    await browser.press('Control+y');
    await page.factsAre(/^4 × 1/);
    // a second Esc takes all back that was typed since the field was entered
    await browser.press('F3');
    await browser.insert('sounds');
    await isDrafted(/sounds/);
    await page.select(0, 0);
    await browser.insert('Sheep ');
    await browser.press('Escape');
    await page.statusIs(/kept; Esc again takes it back/);
    await clueIs('Sheep sounds');
    await browser.press('Escape');
    await clueIs('');
    await page.factsAre(/^4 × 1/);
  },

  async 'another puzzle while a clue is typed'() {
    await openRecord(rowOf('BAAS'));
    writeFileSync(join(room, 'other.xw'), rowOf('OATS'));
    await browser.press('F3');
    await browser.insert('Sheep sounds');
    await browser.drop(join(room, 'other.xw'));
    await page.statusIs(/other.xw is open/);
    await the('#cell-1-1 .letter').says('O');
    await clueIs('');
    // it stays with its puzzle, also in a private note
    await browser.press('Control+z');
    await clueIs('Sheep sounds');
    await browser.press('F3');
    await the('.clue-more .note').focus();
    await browser.insert('two meanings');
    await browser.drop(join(room, 'other.xw'));
    await page.statusIs(/other.xw is open/);
    await untilInPage(() => document.querySelector('#cell-1-1 .letter').textContent === 'O' && document.querySelector('.clue-more .note').value === '');
    await browser.press('Control+z');
    await the('.clue-more .note').holds('two meanings');
  },

  async 'texts that are typed while a fill runs'() {
    await begin(6);
    await holdFill();
    await browser.press('Control+f');
    await isFillHeld();
    await browser.press('F3');
    await browser.insert('Typed meanwhile');
    await browser.press('F4');
    await browser.insert('A title');
    await browser.press('Tab');
    await releaseFill();
    await page.statusIs(/^filled/);
    await isDrafted(/Typed meanwhile/);
    await isDrafted(/A title/);
    await untilInPage(() => document.querySelector('#clue-list textarea').value === 'Typed meanwhile' && document.getElementById('title').value === 'A title');
  },

  async 'a panel that stands under its clue'() {
    // across 1, 5, 6 and 7 are one below another
    await openRecord('size 4 4\n');
    const stands = (name, title) => browser.until(`(() => {
      const panel = document.querySelector('.clue-more');
      let row = panel.previousElementSibling;
      while (row.matches('.offers')) row = row.previousElementSibling;
      return document.activeElement.dataset.light === '${name}' && row.contains(document.activeElement) && panel.querySelector('.note').getAttribute('aria-label') === 'private note on the clue of ${title}';
    })()`);
    for (const turn of [1, 2]) {
      await browser.press('F3');
      await browser.click('[data-light="5 across"]');
      await stands('5 across', '5 Across');
      await browser.press('ArrowUp');
      await stands('1 across', '1 Across');
      await browser.press('ArrowDown');
      await browser.press('ArrowDown');
      await stands('6 across', '6 Across');
      await browser.press('ArrowUp');
      await stands('5 across', '5 Across');
      // the note goes to that clue
      await browser.press('ArrowUp');
      await stands('1 across', '1 Across');
      await the('.clue-more .note').focus();
      await browser.insert(`mine ${turn}`);
      await browser.press('Enter');
      await isDrafted(new RegExp(`"note 1 1 across","mine ${turn}"`));
      // in a new puzzle too
      if (turn === 1) await openRecord('size 4 4\nset 1 1 A\n');
    }
  },

  async 'one clue for several lights'() {
    await openRecord('size 5 3\nblock 2 1\nblock 2 2\nblock 2 3\nblock 2 4\nblock 2 5\nset 1 1 G\nset 1 2 R\nset 1 3 E\nset 1 4 A\nset 1 5 T\nset 3 1 B\nset 3 2 A\nset 3 3 R\nset 3 4 N\nset 3 5 S\n');
    await browser.press('F3');
    await browser.insert('Shakers leave large farm buildings');
    await browser.press('Enter');
    await the('[data-light="2 across"]').hasFocus();
    await browser.press('ArrowUp');
    await the('.clue-more .links').focus();
    await browser.insert('9');
    await browser.press('Enter');
    await page.statusIs(/no other (light|entry) is called 9/, 'bad');
    await the('.clue-more .links').put('value', '');
    await browser.insert('2');
    await browser.press('Enter');
    await the('.clue b').say('1/2,2');
    await untilInPage(() => [...document.querySelectorAll('#clue-list textarea')].map(({ value }) => value).join('|') === 'Shakers leave large farm buildings|See 1' && document.querySelectorAll('#clue-list textarea')[1].readOnly);
    await the('#clue-summary').ends('has a clue');
    await picture('linked-lights');
    // the lengths are those of both, and a clue that leads to another one gets none
    await browser.click('#clue-lengths');
    await page.statusIs(/^1 clue has a length now$/);
    await the('#clue-list textarea').hold('Shakers leave large farm buildings (5,5)|See 1', '|');
    await browser.press('F4');
    await the('#checks').saysNot(/says/);
    await browser.press('Control+p');
    await untilInPage(() => [...document.querySelectorAll('#preview .clues p')].map(({ textContent }) => textContent.trim()).join('|') === '1/2 Shakers leave large farm buildings (5,5)|2 See 1');
    await browser.press('Escape');
    const puz = await saved('crossword.puz', () => browser.press('Control+s'));
    await page.statusIs(/^saved: crossword.puz, without the link of a clue$/);
    expect(Xw.open(module, { puzzle: puz }).line('texts').lines.includes('clue 2 across See 1'), 'the .puz has another clue');
    const ipuz = JSON.parse((await saved('crossword.ipuz', () => menu('save-ipuz'))).toString());
    expect(ipuz.clues.Across[0].continued[0].number === 2 && ipuz.clues.Across[1].see[0].number === 1, JSON.stringify(ipuz.clues));
    await saved('crossword.xw', () => menu('save-session'));
    for (const name of ['crossword.ipuz', 'crossword.xw']) {
      await begin(6);
      await openFile(join(room, name));
      await page.statusIs(/is open; undo/);
      await browser.press('F3');
      await the('.clue b').say('1/2,2');
    }
    // another number of the first light comes into the clue of the other one, in the step of the block
    await browser.click('#cell-1-1');
    await browser.press('=');
    await browser.press('.');
    await the('#cell-1-1.block').isThere();
    await browser.press('Control+z');
    await the('#clue-list textarea').hold('Shakers leave large farm buildings (5,5)|See 1', '|');
    // without the link the other light is without a clue
    await browser.click('#clue-list textarea');
    await inPage(() => (document.querySelector('.clue-more .links').focus(), document.querySelector('.clue-more .links').value = ''));
    await browser.press('Enter');
    await untilInPage(() => [...document.querySelectorAll('#clue-list textarea')].map(({ value }) => value).join('|') === 'Shakers leave large farm buildings (5,5)|' && !document.querySelector('.clue.linked'));
    await browser.click('#cell-1-1');
    await browser.press('Control+z');
    await the('#clue-list textarea').hold('Shakers leave large farm buildings (5,5)|See 1', '|');
  },

  async 'numbers of linked lights after a block'() {
    await openRecord('size 4 4\ntext clue 2 1 across One\ntext clue 3 1 across Two\n');
    await browser.press('F3');
    await the('#clue-list textarea').are(8);
    await browser.click('[data-light="5 across"]');
    await the('.clue-more .links').focus();
    await browser.insert('6');
    await browser.press('Enter');
    await the('[data-light="6 across"]').holds('See 5');
    await browser.click('#cell-1-1');
    await browser.press('.');
    await the('.clue.linked textarea').holds('See 4');
    await browser.click('#cell-1-2');
    await browser.press('Control+z');
    await untilInPage(() => document.querySelector('.clue.linked textarea').value === 'See 5' && !document.querySelector('#cell-1-1.block'));
  },

  async 'notes, italics and helpers of a setter'() {
    await openRecord(rowOf('TONE'));
    await browser.press('F3');
    await browser.insert('Sound of Hamlet');
    await page.select(9, 15);
    await browser.press('Control+i');
    await clueIs('Sound of <i>Hamlet</i>');
    await the('.clue .italics i').says('Hamlet');
    await browser.press('Enter');
    await isDrafted(/Sound of <i>Hamlet/);
    // a note is for the setter alone
    await the('.clue-more .note').focus();
    await browser.insert('two meanings');
    await browser.press('Enter');
    await isDrafted(/note 1 1 across/);
    // helpers look through the lists
    const anagrams = LIST.toUpperCase().split('\n').filter((word) => word !== 'TONE' && [...word].sort().join('') === 'ENOT');
    await the('.clue-more .helpers button').press(1);
    await browser.until(`${JSON.stringify(anagrams)}.every((word) => [...document.querySelectorAll('.found button')].some(({ textContent }) => textContent === word))`);
    await picture('anagrams');
    await browser.click('.found button');
    const [first] = await the('.found button').texts();
    await the('.clue-more .note').holds(`two meanings (${first})*`);
    await the('.clue-more .helpers button').press(2);
    await untilInPage(() => document.querySelectorAll('.found button').length > 3 && [...document.querySelectorAll('.found button')].every(({ textContent }) => textContent.replace(/[a-z ]/g, '') === 'TONE'));
    await isDrafted(/two meanings \(/);
    await reload();
    await browser.press('F3');
    await clueIs('Sound of <i>Hamlet</i>');
    await the('.clue-more .note').holds(`two meanings (${first})*`);
    // the engine, and so a .puz, has the text alone
    const bytes = await saved('crossword.puz', () => browser.press('Control+s'));
    await page.statusIs(/^saved: crossword.puz, without the italics of a clue and a private note$/);
    expect(Xw.open(module, { puzzle: bytes }).line('texts').lines.join() === 'clue 1 across Sound of Hamlet', 'the .puz has another clue');
    const ipuz = JSON.parse((await saved('crossword.ipuz', () => menu('save-ipuz'))).toString());
    expect(ipuz.clues.Across[0][1] === 'Sound of <i>Hamlet</i>' && !JSON.stringify(ipuz).includes('meanings'), JSON.stringify(ipuz.clues));
    await browser.press('Control+p');
    await untilInPage(() => document.querySelector('#preview .clues i').textContent === 'Hamlet' && !/meanings/.test(document.getElementById('preview').textContent));
    await browser.press('Escape');
    // undo takes back the last change of the note, and says so
    await browser.click('#cell-1-1');
    await browser.press('F3');
    await inPage(() => (document.querySelector('.clue-more .note').focus(), document.querySelector('.clue-more .note').select()));
    await browser.insert('other');
    await browser.press('Enter');
    await isDrafted(/"other"/);
    await browser.click('#cell-1-1');
    await browser.press('Control+z');
    await page.statusIs(/^undone: the note on 1 Across$/i);
    await the('.clue-more .note').holds(`two meanings (${first})*`);
  },

  async 'a field that grows with its clue'() {
    await openRecord(rowOf('TONE'));
    await browser.press('F3');
    await browser.insert('Short');
    const heightIs = (test) => browser.until(`(({ offsetHeight, scrollHeight, clientHeight, offsetWidth }) => ${test})(document.querySelector('#clue-list textarea'))`);
    const low = await the('#clue-list textarea').get('offsetHeight');
    await browser.insert(', and then ever so much longer, so that it does not fit into a line of the field, however wide that may be in this window or in another one');
    await heightIs(`offsetHeight > ${low} + 10 && scrollHeight <= clientHeight + 1`);
    await picture('long-clue');
    await browser.press('Enter');
    expect(!(await inPage(() => document.querySelector('#clue-list textarea').value.includes('\n'))), 'the clue has several lines');
    for (const [width, height] of [[1400, 900], [1000, 800], [390, 844]]) {
      await browser.view(width, height);
      await heightIs("offsetWidth > 0.55 * document.querySelector('.clue-part').clientWidth");
    }
    await browser.view(1400, 900);
  },

  async 'the clues across and down side by side, and on a phone below each other'() {
    await begin(1);
    await browser.press('F3');
    const columns = () => inPage(() => [...document.querySelectorAll('.clue-part')].map((part) => {
      const { left, right, top, bottom } = part.getBoundingClientRect();
      return { left, right, top, bottom, title: part.firstChild.textContent, isCut: part.scrollWidth > part.clientWidth };
    }));
    for (const [width, height] of [[1280, 720], [1280, 800], [1280, 1024], [1920, 1080], [768, 1024]]) {
      await browser.view(width, height);
      const [across, down] = await columns();
      expect(across.title === 'Across' && down.title === 'Down' && across.top === down.top && across.right <= down.left && down.right <= width, `${width} × ${height}: ${JSON.stringify([across, down])}`);
      expect(!across.isCut && !down.isCut && down.bottom < height, `${width} × ${height}: a column is cut`);
      await picture(`clues-${width}-${height}`);
    }
    // the clue of the other light of the cell is in sight too
    await browser.view(1280, 800);
    await browser.click('#cell-15-15');
    const isInSight = (name) => browser.until(`(() => {
      const row = document.querySelector('.clue.${name}');
      const [inner, outer] = [row.getBoundingClientRect(), row.parentElement.getBoundingClientRect()];
      return inner.top >= outer.top && inner.bottom <= outer.bottom + 1;
    })()`);
    await isInSight('here');
    await isInSight('crossing');
    for (const [width, height] of [[390, 844], [844, 390]]) {
      await browser.view(width, height);
      const [across, down] = await columns();
      expect(across.left === down.left && across.bottom <= down.top, `${width} × ${height}: ${JSON.stringify([across, down])}`);
    }
    await browser.view(1400, 900);
  },

  async 'old clues for a word'() {
    await openRecord(rowOf('ODDS'));
    await browser.press('F3');
    // what is kept while it is typed is no old clue
    await browser.insert('Chanc');
    await isDrafted(/Chanc/);
    await browser.insert('es');
    await browser.press('Enter');
    await isDrafted(/Chances/);
    // in another puzzle
    await openRecord(rowOf('OATS'));
    await browser.press('F3');
    await enterWord('odds');
    const isOffered = (isOpen) => browser.until(`(() => {
      const offers = document.querySelector('.offers:not([hidden]) details');
      return offers?.open === ${isOpen} && offers.firstChild.textContent === 'Clues for ODDS before: 1, in 1 puzzle' && /^Chancesuntitled, .*20\\d\\d/.test(offers.lastChild.textContent);
    })()`);
    await isOffered(true);
    await picture('old-clues');
    await untilInPage(() => !/Chances/.test(window.drafts()));
    await browser.click('.offers button');
    await clueIs('Chances');
    // folded, where a clue is there; what this puzzle has is none of them
    await isOffered(false);
    // it has its word once it is kept
    await isDrafted(/"ODDS"/);
    await staleIs('');
    await enterWord('oats');
    await staleIs('Written for ODDS: Keep Drop');
    await the('.offers').isHidden();
  },

  async 'the bank of old clues saved, cleared and read again'() {
    const bank = (count) => the('#bank-summary').begins(`${count} with their words, in this browser alone`);
    const saving = () => saved('old-clues.csv', () => browser.click('#bank-export')).then((bytes) => bytes.toString().slice(1));
    await openRecord(`${rowOf('EELS')}text title Sea\ntext clue 1 1 across Slippery fish\n`);
    await isInBank('Slippery fish');
    await browser.press('F4');
    await the('#bank-summary').says(/^[1-9][0-9]* clues? with/);
    // what is cleared is gone for good, after a question
    await browser.click('#bank-clear');
    await browser.click('#bank-dialog [value=cancel]');
    const before = await saving();
    expect(before.includes('"EELS","Slippery fish","Sea","20'), before);
    await browser.click('#bank-clear');
    await picture('clear-old-clues');
    await browser.click('#bank-take');
    await page.statusIs(/^the old clues are cleared$/, 'good');
    await bank('0 clues');
    expect(await inPage(() => document.getElementById('bank-export').disabled && document.getElementById('bank-clear').disabled), 'nothing can be saved');
    // a table is read after a question too, and what is left out is named
    writeFileSync(join(room, 'bank.csv'), `${before}BANS,Forbids,Law,2025-03-04\r\nBANS,,Law,\r\n`);
    await browser.choose('#bank-file', join(room, 'bank.csv'));
    await untilInPage(() => document.getElementById('bank-dialog').open && / Left out: a row without an answer or a clue.$/.test(document.getElementById('bank-told').textContent));
    await browser.click('#bank-take');
    await page.statusIs(/^bank.csv: [0-9]+ clues added to the old clues; left out: a row without an answer or a clue$/);
    const after = await saving();
    expect(before.split('\r\n').every((line) => after.includes(line)) && after.includes('"BANS","Forbids","Law","2025-03-04T00:00:00.000Z","table Law"'), after);
    // a file that is none is refused by name
    writeFileSync(join(room, 'bank.csv'), 'cat;60\n');
    await browser.choose('#bank-file', join(room, 'bank.csv'));
    await page.statusIs(/^bank.csv: its first line names no columns Answer and Clue$/, 'bad');
    // and what was read is shown below the clue of its word
    await openRecord(rowOf('BANS'));
    await browser.press('F3');
    await the('.offers:not([hidden])').says(/^Clues for BANS before: 1, in 1 puzzleForbidsLaw, .*2025/);
  },

  async 'the bank of clues keeps the first date of a clue, and no more than it may'() {
    await browser.value(`(() => { ${await pageScript('store', 'store/keep')}; window.store = store; })()`);
    const left = await inPage(async () => {
      const { clearClues, everyClue, keepClues } = window.store;
      const clue = (clue, at, title = '') => ({ word: 'ODDS', clue, puzzle: 'p', title, at });
      await clearClues();
      await keepClues([clue('Chances', 5)]);
      await keepClues([clue('Chances', 9, 'Farm'), clue('Ratio', 0), clue('Ends', 7)]);
      await keepClues([clue('Ratio', 3)]);
      const all = await everyClue();
      await keepClues(Array.from({ length: 20 }, (_, at) => clue(String(at), 100 + at)), 20);
      return [all.map(({ clue, at, title }) => [clue, at, title].join(' ')).join(), (await everyClue()).map(({ clue }) => clue).sort().join()];
    });
    expect(left[0] === 'Chances 5 Farm,Ends 7 ,Ratio 3 ', left[0]);
    expect(left[1] === Array.from({ length: 19 }, (_, at) => String(at + 1)).sort().join(), left[1]);
  },

  async 'lengths at the end of clues'() {
    await begin(6);
    await browser.press('Control+f');
    await page.statusIs(/^filled/);
    await browser.press('F3');
    // a field may show what was there before, until the engine has answered
    const valuesAre = (...wanted) => browser.until(`${JSON.stringify(wanted)}.every((text, at) => document.querySelectorAll('#clue-list textarea')[at].value === text)`);
    await the('#clue-lengths').isDisabled();
    await browser.type('plain');
    await browser.press('Enter');
    await browser.type('phrase');
    await browser.press('Enter');
    await valuesAre('plain', 'phrase');
    await isDrafted(/phrase/);
    // the next clue is answered after this one is typed over
    await inPage(() => {
      const post = Worker.prototype.postMessage;
      Worker.prototype.postMessage = function (message, transfer) {
        if (message.call !== 'edit') return post.call(this, message, transfer);
        Worker.prototype.postMessage = post;
        window.heldClue = () => post.call(this, message, transfer);
      };
    });
    await browser.type('sum (1,9)');
    await browser.press('Enter');
    await untilInPage(() => window.heldClue && !document.getElementById('clue-lengths').disabled);
    // a length is selected, so that another one can be typed over it
    await browser.click('.clue:nth-of-type(2) .length');
    const isSelected = () => untilInPage(() => (({ value, selectionStart, selectionEnd }) => value === 'phrase (5)' && value.slice(selectionStart, selectionEnd) === '5')(document.activeElement));
    await isSelected();
    await inPage(() => window.heldClue());
    await isDrafted(/phrase \(5\)/);
    await the('#clue-summary').says(/^3 of/);
    await isSelected();
    await browser.type('2,3');
    await browser.press('Enter');
    await valuesAre('plain', 'phrase (2,3)', 'sum (1,9)');
    await picture('lengths');
    await browser.click('#clue-lengths');
    await page.statusIs(/^1 clue has a length now$/);
    await valuesAre('plain (3)', 'phrase (2,3)', 'sum (1,9)');
    await untilInPage(() => document.getElementById('clue-lengths').disabled && document.querySelectorAll('.clue-part:first-child .clue:nth-of-type(1) .length:disabled').length === 1);
    await the('#rules').says(/the clue of 5 Across says \(1,9\) and it has 5 letters|the clue of \d+ Across says \(1,9\)/);
    await browser.click('#cell-2-2');
    await browser.press('Control+z');
    await untilInPage(() => document.querySelectorAll('#clue-list textarea')[0].value === 'plain');
  },

  async 'lengths of phrases, as the lists show them'() {
    writeFileSync(join(room, 'phrases.txt'), 'ice cream;60\ncross-eyed;50\nstones;40\n');
    await openList(join(room, 'phrases.txt'));
    await page.factsAre(/phrases.txt, 3 words/);
    const answers = ['ICECREAM', 'CROSSEYED', 'STONES', 'ICECREAMS'];
    const row = (word, at) => [
      ...[...word].map((letter, column) => `set ${2 * at + 1} ${column + 1} ${letter}`), ...Array.from({ length: 9 - word.length }, (_, column) => `block ${2 * at + 1} ${word.length + column + 1}`),
      ...(at ? Array.from({ length: 9 }, (_, column) => `block ${2 * at} ${column + 1}`) : []), `text clue ${2 * at + 1} 1 across Clue`,
    ];
    await openRecord(['size 9 7', ...answers.flatMap(row), ''].join('\n'));
    await browser.press('F3');
    await browser.click('#clue-lengths');
    await page.statusIs(/^3 clues have a length now; 1 is left to you: no list shows whether its answer is one word$/);
    const valuesAre = (wanted) => the('#clue-list textarea').hold(wanted);
    await valuesAre('Clue (3,5),Clue (5-4),Clue (6),Clue');
    await picture('phrases');
    await browser.click('#clue-lengths');
    await page.statusIs(/^no clue has got a length; 1 is left to you/);
    await browser.click('#cell-1-1');
    await browser.press('Control+z');
    await valuesAre('Clue,Clue,Clue,Clue');
    await menu('built-in');
    await page.factsAre(/built-in list/);
  },

  async 'a file that is saved while lengths are added'() {
    await openRecord(`${rowOf('TONE')}text clue 1 1 across Sound\n`);
    await browser.press('F3');
    await hold('enumerations');
    await browser.click('#clue-lengths');
    await isHeld();
    const bytes = await saved('crossword.puz', async () => {
      await browser.press('Control+s');
      await release();
    });
    expect(Xw.open(module, { puzzle: bytes }).line('texts').lines.join() === 'clue 1 across Sound (4)', 'the file has no length');
    // and a clue that is under way is in a file that the page writes itself
    await browser.press('F3');
    await inPage(() => document.querySelector('#clue-list textarea').setSelectionRange(0, 5));
    await browser.insert('Noise');
    await hold('edit');
    const ipuz = await saved('crossword.ipuz', async () => {
      await menu('save-ipuz');
      await isHeld();
      await release();
    });
    expect(JSON.parse(ipuz.toString()).clues.Across[0][1] === 'Noise (4)', 'the file has the clue as it was');
  },

  async 'clues that have their enumerations'() {
    const clues = ['Ice cream (3,5)', 'Plain', 'Hyphened (2-1)', 'Two of them (3 wds.)', 'Year of a revolution (1789)', 'Aside (see 1 Down)'];
    const body = 'size 3 3\n' + clues.map((clue, at) => `text clue ${at < 3 ? at + 1 : 1} ${at < 3 ? 1 : at - 2} ${at < 3 ? 'across' : 'down'} ${clue}\n`).join('');
    writeFileSync(join(room, 'enumerations.xw'), body);
    await openFile(join(room, 'enumerations.xw'));
    await page.statusIs(/is open/);
    await browser.press('Control+p');
    await browser.click('#print-lengths');
    await print();
    const printed = await inPage(() => [...document.querySelectorAll('#sheet .clues p')].map((clue) => clue.textContent.replace(/^\d+ /, '').trim()));
    const wanted = ['Ice cream (3,5)', 'Plain (3)', 'Hyphened (2-1)', 'Two of them (3 wds.)', 'Year of a revolution (1789) (3)', 'Aside (see 1 Down) (3)'];
    expect(printed.join('|') === wanted.join('|'), `printed: ${printed.join('|')}`);
  },

  async 'a text that is being typed'() {
    await begin(6);
    await browser.press('Control+f');
    await page.statusIs(/^filled/);
    await browser.press('F3');
    await the('[data-light="1 across"]').hasFocus();
    const fieldIs = (text) => browser.until(`(({ value, selectionStart }) => value === '${text}' && selectionStart === value.length)(document.activeElement)`);
    // it is saved as far as it is typed, and stays as it is in its field
    await browser.insert('So far ');
    const bytes = await saved('crossword.puz', () => browser.press('Control+s'));
    expect(Xw.open(module, { puzzle: bytes }).line('texts').lines.some((line) => line.endsWith(' So far')), 'what is typed is not in the file');
    await fieldIs('So far ');
    await browser.insert('so good');
    // and it is in the preview of a print
    await browser.press('Control+p');
    await the('#preview .clues p').says(/1 +So far so good/);
    await browser.press('Escape');
    // and it is kept when the page goes
    await browser.press('F3');
    await browser.insert('Kept \u2192 here');
    await browser.go(PAGE.href);
    await ready();
    await the('#clue-list textarea').holds('Kept \u2192 here');
    await browser.press('F4');
    await browser.insert('A title');
    await browser.go(PAGE.href);
    await ready();
    await the('#title').holds('A title');
  },

  async 'characters that a .puz cannot hold'() {
    await openRecord('size 2 2\nset 1 1 A\nset 1 2 B\nset 2 1 C\nset 2 2 D\n');
    const value = (id) => the(`#${id}`).value();
    await browser.click('#tab-puzzle');
    await the('#title').focus();
    await browser.insert('Čapek → 2');
    await browser.press('Tab');
    await page.statusIs(/“Č” stays here/);
    await browser.press('F3');
    await browser.insert('Łódź');
    await browser.press('Enter');
    await page.statusIs(/a .puz gets: Lódz/);
    await isDrafted(/Čapek → 2[^]*Łódź/);
    await reload();
    expect((await value('title')) === 'Čapek → 2', `the title is ${await value('title')}`);
    const bytes = await saved('capek-2.puz', () => browser.press('Control+s'));
    await page.statusIs(/^saved: capek-2.puz, with near characters for “Č”, “→”, “Ł”, “ź”$/);
    const texts = Xw.open(module, { puzzle: bytes }).answer(Buffer.from('texts')).answer;
    expect(Buffer.from(texts).toString('latin1').includes('title Capek -> 2\nclue 1 across L\u00f3dz'), Buffer.from(texts).toString('latin1'));
    const ipuz = JSON.parse((await saved('capek-2.ipuz', () => menu('save-ipuz'))).toString());
    expect(ipuz.title === 'Čapek → 2' && ipuz.clues.Across[0][1] === 'Łódź', JSON.stringify(ipuz));
    await saved('capek-2.xw', () => menu('save-session'));
    await begin(6);
    await openFile(join(room, 'capek-2.xw'));
    await page.statusIs(/is open/);
    expect((await value('title')) === 'Čapek → 2', `the session has the title ${await value('title')}`);
    await browser.click('#cell-1-1');
    await browser.press('Control+z');
    await page.factsAre(/^5 × 5/);
    expect((await value('title')) === '', 'the title stays after undo');
  },

  async 'the language of a puzzle, for the spelling'() {
    await openRecord(rowOf('BAAS'));
    const isIn = (language) => browser.until(`document.getElementById('clue-list').lang === '${language}' && document.getElementById('title').lang === '${language}' && document.getElementById('language').value === '${language}'`);
    await isIn('');
    expect(await inPage(() => document.querySelector('#clue-list textarea').spellcheck && document.getElementById('notes').spellcheck), 'the spelling is not checked');
    await browser.press('F4');
    await the('#language').choose('en-GB');
    await isIn('en-GB');
    await isDrafted(/"language","en-GB"/);
    await browser.click('#cell-1-1');
    await browser.press('Control+z');
    await page.statusIs(/^undone: the language$/i);
    await isIn('');
    await browser.press('Control+y');
    await isIn('en-GB');
    // files that have it, and one that has not
    await saved('crossword.exolve', () => menu('save-exolve'));
    await page.statusIs(/^saved: crossword.exolve$/);
    await saved('crossword.ipuz', () => menu('save-ipuz'));
    await page.statusIs(/^saved: crossword.ipuz, without the language$/);
    await saved('crossword.xw', () => menu('save-session'));
    for (const name of ['crossword.exolve', 'crossword.xw']) {
      await begin(6);
      await isIn('');
      await openFile(join(room, name));
      await page.statusIs(/is open; undo/);
      await isIn('en-GB');
    }
  },

  async 'clues from a table'() {
    await openRecord(`${rowOf('BAAS')}text title Farm\ntext clue 1 1 across Sheep\n`);
    await browser.press('F3');
    const csv = (await saved('farm.csv', () => menu('clues-csv'))).toString();
    expect(csv === '\ufeff"Number","Direction","Answer","Clue"\r\n"1","Across","BAAS","Sheep"\r\n', csv);
    await page.statusIs(/^saved: farm.csv$/, 'good');
    // what a table changes is shown first, and cancelled
    const table = join(room, 'table.csv');
    writeFileSync(table, '\ufeffNumber,Direction,Answer,Clue,Note\r\n1,Across,BAAS,"\'=Sheep, ""loud""\nsounds",to check\r\n7,Down,OATS,Feed,\r\n');
    await browser.drop(table);
    await untilInPage(() => document.getElementById('table-dialog').open && document.getElementById('table-told').textContent === 'table.csv: 1 clue and 1 note will change; 1 row is left out.');
    const shown = await inPage(() => [...document.querySelectorAll('#table-changes tr')].map((row) => [...row.children].map(({ textContent }) => textContent).join('|')).join('; '));
    expect(shown === '|Now|In the file; 1 Across|Sheep|=Sheep, "loud" sounds; 1 Across, note||to check', shown);
    expect((await the('#table-others').text()) === 'Line 4: there is no 7 Down, and no light has OATS', 'another row is left out');
    await picture('clues-from-table');
    await browser.click('#table-dialog [value=cancel]');
    await page.statusIs(/^table.csv: the clues stay as they are$/, 'bad');
    await clueIs('Sheep');
    // and taken over in one step. The browser's own dialog would stand in the way
    await inPage(() => (document.getElementById('picker').click = () => {}, 0));
    await menu('clues-from');
    await openFile(table);
    await browser.click('#table-dialog [value=take]');
    await page.statusIs(/^table.csv: 1 clue and 1 note taken over; undo takes this back$/, 'good');
    await clueIs('=Sheep, "loud" sounds');
    await the('.clue-more .note').holds('to check');
    await browser.click('#cell-1-1');
    await browser.press('Control+z');
    await clueIs('Sheep');
    await the('.clue-more .note').holds('');
    await browser.press('Control+y');
    await clueIs('=Sheep, "loud" sounds');
    const again = (await saved('farm.csv', () => menu('clues-csv'))).toString();
    expect(again === '\ufeff"Number","Direction","Answer","Clue","Note"\r\n"1","Across","BAAS","\'=Sheep, ""loud"" sounds","to check"\r\n', again);
    await page.statusIs(/^saved: farm.csv, with a private note$/);
    // what is no table of clues is refused by name
    writeFileSync(table, 'Number,Clue\n1,"Sheep');
    await menu('clues-from');
    await openFile(table);
    await page.statusIs(/^table.csv: line 2 has a quote that opens or closes no field$/, 'bad');
    writeFileSync(table, 'sheep\nlamb\ngoats\n');
    await menu('clues-from');
    await openFile(table);
    await page.statusIs(/^table.csv: its first line names no columns Number \(or Answer\) and Clue$/, 'bad');
    await inPage(() => delete document.getElementById('picker').click);
    await clueIs('=Sheep, "loud" sounds');
  },

  async 'warnings while the grid changes'() {
    await begin(1);
    await browser.click('#tab-words');
    await untilInPage(() => document.getElementById('rules').hidden && / 76 words /.test(document.getElementById('facts').textContent));
    await browser.click('#cell-1-3');
    await browser.press('.');
    await untilInPage(() => /has two letters|lights? have two letters|entries have two letters/.test(document.getElementById('rules').textContent) && Number(document.getElementById('rules-count').textContent) > 0);
    await picture('warnings');
    await browser.click('#rules');
    await untilInPage(() => !document.getElementById('puzzle').hidden && document.querySelector('#checks .warning'));
    await browser.click('#cell-1-1');
    await browser.press('Control+z');
    await untilInPage(() => document.getElementById('rules').hidden && document.getElementById('rules-count').hidden);
    // a word twice
    await browser.click('#cell-1-1');
    await browser.type('tone');
    await browser.click('#cell-2-1');
    if (await page.has('2-1', 'down')) await browser.press('Enter');
    await browser.type('tone');
    await the('#rules').says(/TONE stands twice/);
    await browser.press('Control+z');
    await the('#rules').isHidden();
    await browser.type('z');
    await untilInPage(() => /^TONZ is not in your lists/.test(document.getElementById('rules').textContent) || document.getElementById('rules').title.includes('TONZ is not in your lists'));
    await browser.press('Control+z');
    await the('#rules').isHidden();
    await browser.click('#tab-words');
  },

  async 'warnings of the usual rules'() {
    const warned = (pattern) => browser.until(`[...document.querySelectorAll('#checks .warning')].some((item) => ${pattern}.test(item.textContent))`);
    await browser.click('#tab-puzzle');
    // two rows that a row of blocks parts, with lights of two letters down
    await openRecord('size 6 5\nblock 3 1\nblock 3 2\nblock 3 3\nblock 3 4\nblock 3 5\nblock 3 6\n');
    await warned(/12 (lights|entries) have two letters/);
    await warned(/in 2 parts that do not connect/);
    await openRecord(`size 7 2\n${['block 2 2', 'block 2 3', 'block 2 4'].join('\n')}\n`);
    await warned(/1 Across has 3 unchecked cells in a row/);
    // in an American grid each cell is in two entries
    await openRecord(`size 9 9\nblock 1 2\nblock 3 1\nblock 9 8\nblock 7 9\nsym half\n`);
    await warned(/^⚠ 2 cells are in one entry only: the first is in row 1, column 1$/);
    await browser.click('#checks .warning button[data-cell="0"]');
    await page.cursorAt('1-1');
    const spell = (row, word) => [...word].map((letter, at) => `set ${row} ${at + 1} ${letter}`).join('\n');
    await openRecord(`size 7 5\n${[2, 4].flatMap((row) => Array.from({ length: 7 }, (_, at) => `block ${row} ${at + 1}`)).join('\n')}\n${spell(1, 'BAKINGS')}\n${spell(3, 'UNBAKED')}\n${spell(5, 'BAKEDUP')}\n`);
    await warned(/UNBAKED and BAKEDUP share BAKED/);
    await openRecord(`size 4 7\n${[2, 4, 6].flatMap((row) => [1, 2, 3, 4].map((column) => `block ${row} ${column}`)).join('\n')}\nblock 1 4\nblock 3 4\nblock 7 4\n${spell(1, 'ERE')}\n${spell(3, 'ERR')}\n${spell(5, 'ODDS')}\n${spell(7, 'ODD')}\n`);
    await warned(/ODDS and ODD have one root/);
    expect(!(await inPage(() => /ERE and ERR/.test(document.getElementById('checks').textContent))), 'ERE and ERR have one root');
    // a clue that has a word of an answer, which a click shows
    await openRecord(`size 5 3\n${[1, 2, 3, 4, 5].map((column) => `block 2 ${column}`).join('\n')}\n${spell(1, 'STONE')}\n${spell(3, 'SLATE')}\ntext clue 1 1 across Slate or marble\ntext clue 3 1 across Tiles (5)\n`);
    await warned(/^⚠ the clue of 1 Across has SLATE, which is in 2 Across$/);
    await browser.click('#checks .warning button[data-tab="clue"]');
    await the('[data-light="1 across"]').hasFocus();
    await browser.insert('Pebble');
    await browser.press('F4');
    await the('#checks').saysNot(/which is in/);
    await openRecord(`size 15 15\n`);
    await the('#checks .warning').isGone();
    // the patterns keep the rules
    const patterns = await page.count('#patterns .pattern');
    for (let pattern = 1; pattern <= patterns; pattern++) {
      await begin(pattern);
      await untilInPage(() => document.querySelector('#checks [data-cell]')?.textContent === `${document.querySelectorAll('.cell:not(.block)').length} cells are empty`);
      expect((await page.count('#checks .warning')) === 0, `pattern ${pattern}: ${await inPage(() => document.querySelector('#checks .warning')?.textContent)}`);
    }
  },
};

// What cases need that not every browser can do.
export const NEEDS = {
  'texts that are typed while a fill runs': ['blur'],
  'a panel that stands under its clue': ['blur'],
  'a file that is saved while lengths are added': ['blur'],
  'characters that a .puz cannot hold': ['blur'],
};

await runAlone(import.meta.url, { CASES, NEEDS });
