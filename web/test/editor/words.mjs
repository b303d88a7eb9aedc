// Cases of the tab of words: candidates, crossings, and what is said of words.
import { writeFileSync } from 'node:fs';
import { join } from 'node:path';
import { Xw } from '../../dist/xw.js';
import { PATTERNS, recordOf, rowsOf } from '../../editor/grids/patterns.js';
import { begin, beginBlank, menu, openGraded, openList, openRecord, openWords, saved } from '../doing.mjs';
import { isDrafted } from '../holding.mjs';
import { LIST, PAGE, browser, expect, inPage, module, page, picture, ready, room, runAlone, the, untilInPage } from '../page.mjs';

export const CASES = {
  async 'candidates filtered and placed'() {
    await begin(1);
    await browser.press('/');
    await untilInPage(() => (document.activeElement.id === 'filter' && document.querySelectorAll('#candidates[aria-busy=false] li').length > 100));
    await browser.type('?a*e');
    await untilInPage(() => [...document.querySelectorAll('#candidates li')].every((row) => /^.A/.test(row.dataset.word)));
    await the('#candidates .left').isThere();
    await picture('candidates');
    await browser.press('ArrowDown');
    await browser.press('ArrowDown');
    const word = await inPage(() => (document.querySelector('#candidates [aria-selected=true]').dataset.word));
    await browser.press('Enter');
    await the('#cell-1-4:not(.ghost)').has(word[3]);
    expect((await page.row(1)).startsWith(word), `${word} is not placed`);
    await the('#grid').hasFocus();
    await browser.press('Tab');
    await untilInPage(() => (document.querySelector('#light-name').textContent === '5 Across' && document.querySelector('#candidates[aria-busy=false] li:nth-child(3)')));
    // a word that leaves some stays where it is
    const other = await untilInPage(() => [...document.querySelectorAll('#candidates li')].find((row) => Number(row.querySelector('.left').textContent) > 0)?.dataset.word);
    await browser.click(`#candidates [data-word=${other}]`);
    await the('#cell-1-6:not(.ghost)').has(other[0]);
    await browser.click('#cell-2-2');
    await untilInPage(() => (document.getElementById('cell-coordinates').textContent === 'Row 2, column 2' && document.querySelector('#letters[aria-busy=false] button')));
    const letter = await inPage(() => document.querySelector('#letters button').dataset.letter);
    await browser.click('#letters button');
    await the('#cell-2-2 .letter').says(letter);
  },

  async 'dead ends sink to the bottom of the list'() {
    const list = ['baa', 'bcd', 'aab', 'acd', 'dcb', 'dac', 'cda'];
    writeFileSync(join(room, 'seven.txt'), list.join('\n'));
    await openWords(join(room, 'seven.txt'));
    await page.factsAre(/seven.txt, 7 words/);
    await beginBlank(3, 3);
    // each word is entered in the engine, for what it leaves
    const left = (word) => {
      const xw = Xw.open(module, { list: list.join('\n'), record: 'size 3 3\n' });
      xw.line(`place 1 across ${word}`);
      return Math.min(...xw.line('counts').lines.slice(1).map((line) => Number(line.split(' ')[2])));
    };
    const dead = list.filter((word) => !left(word)).map((word) => word.toUpperCase());
    await browser.click('#cell-1-1');
    if (await page.has('1-1', 'down')) await browser.press('Enter');
    await untilInPage(() => (document.getElementById('light-name').textContent === '1 Across' && document.querySelectorAll('#candidates[aria-busy=false] li').length === 7 && [...document.querySelectorAll('#candidates .left')].every(({ textContent }) => /\d|dead end/.test(textContent))));
    const shown = () => inPage(() => [...document.querySelectorAll('#candidates li')].map((row) => [row.dataset.word, row.classList.contains('dead')]));
    const rows = await shown();
    expect(rows.slice(-dead.length).map(([word]) => word).sort().join() === dead.sort().join() && dead.length > 0 && dead.length < rows.length, `the list is ${rows.join(' ')}; dead are ${dead}`);
    expect(rows.every(([, isDead], at) => isDead === at >= rows.length - dead.length), `the list is ${rows.join(' ')}`);
    // so they do from A to Z
    await the('#order').choose('abc');
    const sorted = (await shown()).map(([word]) => word);
    const alive = sorted.slice(0, -dead.length);
    expect(alive.join() === [...alive].sort().join() && sorted.slice(-dead.length).join() === dead.sort().join(), `from A to Z: ${sorted}`);
    await the('#order').choose('list');
    await menu('built-in');
    await page.factsAre(/built-in list/);
  },

  async 'a candidate in ghost letters'() {
    await begin(1);
    await browser.type('t');
    await page.cursorAt('1-2');
    await browser.press('/');
    await untilInPage(() => (document.querySelectorAll('#candidates[aria-busy=false] li').length > 20 && document.activeElement.id === 'filter'));
    const ghosts = "[...document.querySelectorAll('.cell.ghost .letter')].map(({ textContent }) => textContent).join('')";
    expect((await browser.value(ghosts)) === '', 'a letter is a ghost');
    await browser.press('ArrowDown');
    const [one, two, three] = await inPage(() => [...document.querySelectorAll('#candidates li')].slice(0, 3).map((row) => row.dataset.word));
    await browser.until(`${ghosts} === '${one.slice(1)}'`);
    await picture('ghost-letters');
    await browser.press('ArrowDown');
    await browser.until(`${ghosts} === '${two.slice(1)}'`);
    // the pointer comes before the keys
    const point = (word) => browser.value(`document.querySelector('#candidates [data-word=${word}] span').dispatchEvent(new PointerEvent('pointermove', { bubbles: true, pointerType: 'mouse' }))`);
    await point(three);
    await browser.until(`${ghosts} === '${three.slice(1)}'`);
    await inPage(() => document.getElementById('candidates').dispatchEvent(new PointerEvent('pointerleave')));
    await browser.until(`${ghosts} === '${two.slice(1)}'`);
    expect((await page.facts()).includes('· 1 of'), `the grid has other letters: ${await page.facts()}`);
    // they go with the place in the grid
    await browser.press('Escape');
    await browser.until(`${ghosts} === '' && document.activeElement.id === 'grid'`);
    await point(three);
    await browser.until(`${ghosts} === '${three.slice(1)}'`);
    await browser.press('Tab');
    await browser.until(`${ghosts} === ''`);
    expect((await page.row(1)).startsWith('T...'), `the row is ${await page.row(1)}`);
  },

  async 'a candidate that is pointed at is whole'() {
    await openGraded();
    try {
      for (const letters of [3, 5, 8, 15]) {
        await beginBlank(letters, 1);
        for (const [width, height] of [[1400, 900], [1024, 768], [1920, 1080], [390, 844]]) {
          await browser.view(width, height);
          await browser.press('F2');
          await browser.until(`document.querySelector('#candidates[aria-busy=false] li')?.dataset.word.length === ${letters}`);
          await browser.press('ArrowDown');
          const cut = await untilInPage(() => {
            const row = document.querySelector('#candidates [aria-selected=true]');
            if (!row) return null;
            const { left, right } = row.getBoundingClientRect();
            const shown = [...row.children].filter((part) => getComputedStyle(part).display !== 'none');
            const isCut = (part) => part.scrollWidth > part.clientWidth + 1 && part.clientWidth > 0 || part.getBoundingClientRect().left < left || part.getBoundingClientRect().right > right + 0.5;
            return { parts: shown.filter(isCut).map(({ textContent, className, scrollWidth, clientWidth }) => [textContent, className, scrollWidth, clientWidth].join(' ')), grades: shown.filter(({ className }) => className === 'grade').length };
          });
          expect(!cut.parts.length && cut.grades === 2, `${width}, ${letters} letters: ${cut.parts.join(', ')} is cut; ${cut.grades} buttons`);
          await picture(`pointed-${letters}-${width}`);
          await browser.press('Escape');
        }
        await browser.view(1400, 900);
      }
    } finally {
      await browser.view(1400, 900);
    }
    await menu('built-in');
    await page.factsAre(/built-in list/);
  },

  async 'words that are graded where they stand'() {
    writeFileSync(join(room, 'graded-again.txt'), 'cat;50\ncot;60\ncut;100\n');
    await openList(join(room, 'graded-again.txt'));
    await page.factsAre(/graded-again.txt, 3 words/);
    await beginBlank(3, 1);
    const rows = "[...document.querySelectorAll('#candidates[aria-busy=false] li')].map((row) => `${row.dataset.word} ${row.querySelector('.score').textContent}`).join()";
    await browser.until(`${rows} === 'CUT 100,COT 60,CAT 50'`);
    await browser.press('/');
    await browser.press('ArrowDown');
    await browser.press('ArrowDown');
    await browser.press('-');
    await page.statusIs(/^COT has the score 50 in My words$/);
    await the('#candidates [data-word=COT] .score').says('50');
    await browser.press('-');
    await browser.until(`${rows} === 'CUT 100,CAT 50,COT 40'`);
    expect(await inPage(() => (document.querySelector('#candidates [aria-selected=true]').dataset.word === 'COT')), 'keys point at another word');
    for (const score of [50, 60, 70]) {
      await browser.press('+');
      await the('#candidates [data-word=COT] .score').says(`${score}`);
    }
    await browser.until(`${rows} === 'CUT 100,COT 70,CAT 50'`);
    // the best score is the end
    await browser.press('ArrowUp');
    await browser.press('+');
    await page.statusIs(/^CUT has 100 already, the best score$/i);
    // and so do the buttons of a row
    await the('#candidates [data-word=CAT] [data-step="1"]').press();
    await page.statusIs(/^CAT has the score 60 in My words$/);
    await browser.until(`${rows} === 'CUT 100,COT 70,CAT 60'`);
    expect((await page.row(1)) === '...', 'a word is placed');
    await browser.click('#tab-puzzle');
    await untilInPage(() => document.getElementById('lists').ariaBusy !== 'true' && !document.getElementById('personal-export').disabled);
    expect((await saved('my-words.txt', () => browser.click('#personal-export'))).toString() === 'COT;70\nCAT;60', 'my words are others');
    // in the filter they are text, where nothing is pointed at
    await browser.click('#tab-words');
    await browser.press('/');
    await browser.insert('/C.+/');
    await browser.until(`${rows} === 'CUT 100,COT 70,CAT 60'`);
    await browser.press('Escape');
    await browser.click('#tab-puzzle');
    await browser.click('#personal-edit');
    await the('#personal-text').put('value', '');
    await browser.click('#personal-dialog [value=save]');
    await menu('built-in');
    await page.factsAre(/built-in list/);
    await browser.click('#tab-words');
  },

  async 'both lights of a cell side by side'() {
    await begin(1);
    await browser.view(1700, 950);
    try {
      await browser.type('to');
      await untilInPage(() => document.getElementById('crossing-name').textContent === '3 Down' && document.getElementById('light-name').textContent === '1 Across');
      const xw = Xw.open(module, { list: LIST, record: recordOf(rowsOf(PATTERNS[0]), 'half') });
      for (const line of ['set 1 1 T', 'set 1 2 O']) xw.line(line);
      const count = Number(xw.line('words 3 down').lines[0]);
      await browser.until(`document.getElementById('crossing-summary').textContent === '${count.toLocaleString('en')} words' && document.querySelectorAll('#crossing-candidates[aria-busy=false] li').length > 20`);
      const beside = await inPage(() => [document.getElementById('candidates'), document.getElementById('crossing-candidates')].map((list) => list.getBoundingClientRect()).map(({ left, right, width }) => [left, right, width]));
      expect(beside[0][1] <= beside[1][0] && beside.every(([, , width]) => width > 200), `the lists lie at ${beside}`);
      await picture('both-lights');
      // a word that leaves some stays where it is
      const word = await untilInPage(() => [...document.querySelectorAll('#crossing-candidates li')].find((row) => Number(row.querySelector('.left').textContent) > 0)?.dataset.word);
      await browser.click(`#crossing-candidates [data-word=${word}]`);
      await browser.until(`document.querySelector('#cell-4-3 .letter').textContent === '${word[3]}' && document.activeElement.id === 'grid'`);
      await page.cursorAt('1-3');
      await browser.press('Enter');
      await untilInPage(() => document.getElementById('crossing-name').textContent === '1 Across' && document.getElementById('light-name').textContent === '3 Down');
    } finally {
      await browser.view(1400, 900);
    }
    expect(await inPage(() => document.getElementById('crossing-words').offsetWidth === 0), 'there is no room for two lists');
  },

  async 'filters of the candidates'() {
    await begin(1);
    await browser.press('/');
    await the('#candidates[aria-busy=false] li').areAtLeast(101);
    const words = LIST.toUpperCase().split('\n').filter((word) => word.length === 4);
    const shown = () => inPage(() => [...document.querySelectorAll('#candidates li')].map((row) => row.dataset.word));
    const cases = {
      'q??t': /^Q..T$/, '*zz*': /ZZ/, '[aeiou]?[xyz]*': /^[AEIOU].[XYZ]/, '/.*(oo|ee).*/': /OO|EE/, '/q.+/': /^Q/,
    };
    for (const [typed, pattern] of Object.entries(cases)) {
      await the('#filter').put('value', '');
      await browser.insert(typed);
      // the words of the empty grid that have a fill are most of the list
      await browser.until(`(() => { const words = [...document.querySelectorAll('#candidates li')].map((row) => row.dataset.word); return words.length > 0 && words.every((word) => ${pattern}.test(word)); })()`);
      expect((await shown()).every((word) => words.includes(word)), 'a word is not of the list');
    }
    await the('#filter').put('value', '');
    await browser.insert('@tops');
    const anagrams = words.filter((word) => [...word].sort().join('') === 'OPST').sort();
    await browser.until(`[...document.querySelectorAll('#candidates li')].map((row) => row.dataset.word).sort().join() === '${anagrams}'`);
    // words that are equal come in no order that the alphabet gives, unless it is asked for
    await the('#filter').put('value', '');
    await browser.insert('*s*');
    await untilInPage(() => (({ length }) => length > 50)(document.querySelectorAll('#candidates li')) && [...document.querySelectorAll('#candidates li')].every((row) => row.dataset.word.includes('S')));
    const isSorted = (list) => list.join() === [...list].sort().join();
    expect(!isSorted(await shown()), 'the words come in the order of the alphabet');
    await the('#order').choose('abc');
    const listed = await inPage(() => [...document.querySelectorAll('#candidates li:not(.dead)')].map((row) => row.dataset.word));
    expect(listed.length > 50 && isSorted(listed), 'the words are not sorted');
    await the('#order').choose('list');
  },

  async 'the lights that cross one'() {
    await begin(1);
    await browser.type('toe');
    await page.cursorAt('1-4');
    const shown = "[...document.querySelectorAll('#crossings .crossing')].map((row) => row.innerText.replaceAll(/\\s+/g, ' '))";
    const xw = Xw.open(module, { list: LIST, record: recordOf(rowsOf(PATTERNS[0]), 'half') });
    [...'TOE'].forEach((letter, at) => xw.line(`set 1 ${at + 1} ${letter}`));
    const counts = xw.line('counts').lines.map((line) => line.split(' ')).filter(([number, direction]) => Number(number) <= 4 && direction === 'down');
    const wanted = counts.map(([number, , count]) => `${number} Down ${'TOE'[number - 1] ?? '·'}······ ${Number(count).toLocaleString('en')}`);
    await browser.until(`${shown}.join() === ${JSON.stringify(wanted.join())}`);
    await picture('crossings');
    await browser.click('#crossings .crossing:nth-child(2)');
    await untilInPage(() => document.getElementById('light-name').textContent === '2 Down' && document.querySelector('#crossings .crossing').innerText.includes('TOE·'));
    await page.cursorAt('1-2');
  },

  async 'other words for a light that is entered'() {
    // a fill of the engine, since workers of the page may find one or another
    const blocks = ['size 5 5', ...[[1, 1], [1, 5], [5, 1], [5, 5]].map((cell) => `block ${cell.join(' ')}`)];
    const filled = Xw.open(module, { list: LIST, record: `${blocks.join('\n')}\n` });
    filled.line('autofill 100000 1');
    const letters = filled.line('show').lines.flatMap((line, row) => line.split(' ').flatMap((letter, column) => (letter === '#' ? [] : [`${row + 1} ${column + 1} ${letter}`])));
    await openRecord(`# xw session 1\n# pencil ${letters.map((cell) => cell.slice(0, -2)).join(', ')}\n${[...blocks, ...letters.map((cell) => `set ${cell}`)].join('\n')}\n`);
    const before = await page.rows();
    await browser.click('#cell-2-1');
    if (await page.has('2-1', 'down')) await browser.press('Enter');
    await untilInPage(() => /fit/.test(document.getElementById('light-summary').textContent) && document.querySelector('#candidates[aria-busy=false]'));
    expect((await page.rows()).join() === before.join(), 'the grid has changed');
    await the('#legend').begins('beside a word');
    const shown = await inPage(() => (({ bottom }) => [...document.querySelectorAll('#candidates li')].map((row) =>
      [row.dataset.word, row.className, row.querySelector('.left').title.replace('changes ', ''), row.getBoundingClientRect().bottom < bottom]))(document.getElementById('candidates').getBoundingClientRect()));
    const isOther = ([, name]) => /needs/.test(name);
    expect(!shown.some(([word]) => word === before[1]), 'the word that stands is among its alternatives');
    // each is as the engine says of the grid without the light, and then without what is in pencil
    const grid = (isStanding) => [...blocks, ...before.flatMap((row, at) => [...row].flatMap((letter, column) => (letter !== '#' && at !== 1 && isStanding(column) ? [`set ${at + 1} ${column + 1} ${letter}`] : [])))];
    const over = (isStanding) => Xw.open(module, { list: LIST, record: `${grid(isStanding).join('\n')}\n` });
    const wordsOver = (isStanding) => over(isStanding).line('words 4 across').lines.slice(1);
    const fit = wordsOver(() => true).filter((word) => word !== before[1]);
    expect(shown.filter((row) => !isOther(row)).map(([word]) => word).sort().join() === fit.sort().join(), `these fit: ${fit}; shown: ${shown.map(([word]) => word)}`);
    const wide = new Set(wordsOver(() => false));
    const others = shown.filter(isOther);
    expect(others.length > 0 && others.every(([word, , needs]) => wide.has(word) && /^\d+D|all crossings/.test(needs)), `others: ${others}`);
    // a word that needs others changed is a dead end if a light has no word when their letters are gone
    const columnOf = new Map(['4', '1', '2', '3', '5'].map((number, at) => [`${number}D`, at]));
    const isDeadEnd = (word, needs) => {
      const gone = needs === 'all crossings' ? [0, 1, 2, 3, 4] : needs.split(' ').map((name) => columnOf.get(name));
      const xw = over((column) => !gone.includes(column));
      xw.line(`place 4 across ${word}`);
      const open = xw.line('lights').lines.map((line) => line.slice(line.lastIndexOf(' ')).includes('.'));
      return Math.min(...xw.line('counts').lines.filter((_, at) => open[at]).map((line) => Number(line.split(' ')[2]))) === 0;
    };
    const inSight = others.filter(([, , , isInSight]) => isInSight);
    for (const [word, name, needs] of inSight) expect(isDeadEnd(word, needs) === /dead/.test(name), `${word} ${name}, which changes ${needs}`);
    expect(inSight.length > 0 && inSight.every(([, name]) => /dead/.test(name)) === false, `all are dead ends: ${inSight}`);
    await picture('alternatives');
    const [[word, , needs]] = others;
    await browser.click(`#candidates [data-word=${word}]`);
    await browser.until(`!document.querySelector('.cell.ghost') && [...document.querySelectorAll('[id^="cell-2-"]')].map((cell) => cell.querySelector('.letter').textContent).join('') === '${word}'`);
    expect((await page.rows()).some((row) => row.includes('.')), `no letter of ${needs} is cleared`);
    await browser.press('Control+z');
    await page.factsAre(/filled/);
    expect((await page.rows()).join() === before.join(), 'undo does not lead back');
  },

  async 'other words that are dead ends'() {
    const list = ['baa', 'bcd', 'aab', 'acd', 'dcb', 'dac', 'cda'];
    writeFileSync(join(room, 'seven.txt'), list.join('\n'));
    await openWords(join(room, 'seven.txt'));
    await page.factsAre(/seven.txt, 7 words/);
    await beginBlank(3, 3);
    await browser.type('acd');
    // what the engine says when each is entered
    const left = (word) => {
      const xw = Xw.open(module, { list: list.join('\n'), record: 'size 3 3\n' });
      xw.line(`place 1 across ${word}`);
      return Math.min(...xw.line('counts').lines.slice(1).map((line) => Number(line.split(' ')[2])));
    };
    const wanted = list.filter((word) => word !== 'acd').map((word) => `${word.toUpperCase()} ${left(word) || 'dead end'}`).sort();
    expect(wanted.filter((line) => /dead/.test(line)).length === 2, `the engine says ${wanted}`);
    await browser.until(`[...document.querySelectorAll('#candidates li')].map((row) => \`\${row.dataset.word} \${row.querySelector('.left').textContent}\`).sort().join() === '${wanted}'`);
    expect((await page.count('#candidates li.dead')) === 2 && (await page.count('#candidates li.needs')) === 0, 'the dead ends are not struck through');
    expect((await page.row(1)) === 'ACD' && (await page.row(2)) === '...', `the grid is ${await page.rows()}`);
    await picture('dead-alternatives');
    // the grid is as it was to the engine too
    await browser.click('#candidates [data-word=BCD]');
    await the('#cell-1-1:not(.ghost) .letter').says('B');
    expect((await page.row(1)) === 'BCD', `the row is ${await page.row(1)}`);
    // where there is no other word, that is said in place of a list
    writeFileSync(join(room, 'one-word.txt'), 'cat');
    await openList(join(room, 'one-word.txt'));
    await page.factsAre(/one-word.txt, 1 word/);
    await beginBlank(3, 1);
    await browser.type('cat');
    await untilInPage(() => document.getElementById('candidates').hidden && document.getElementById('legend').textContent === 'no other word of your lists fits here');
    await menu('built-in');
    await page.factsAre(/built-in list/);
  },

  async 'a word that is not in the list, where it stands'() {
    await begin(6);
    await browser.type('zzq');
    await the('.cell.faulty').are(3);
    await the('#standing').says(/^ZZQ is not in your lists/);
    await picture('unlisted');
    await browser.click('#standing button:nth-of-type(2)');
    await untilInPage(() => document.getElementById('standing').hidden && !document.querySelector('.cell.faulty'));
    await browser.click('#cell-1-2');
    if (await page.has('1-2', 'down')) await browser.press('Enter');
    await browser.type('zzq');
    await untilInPage(() => /^ZZQ/.test(document.getElementById('standing').textContent) && document.querySelector('#candidates[aria-busy=false]'));
    await browser.click('#standing button:nth-of-type(1)');
    await page.statusIs(/ZZQ is added/);
    await untilInPage(() => document.getElementById('standing').hidden && !document.querySelector('.cell.faulty'));
    // done is said when nothing is left
    await menu('new');
    await page.wantSize(3, 1);
    await browser.click('#new-blank');
    await page.factsAre(/^3 × 1/);
    await browser.type('qqz');
    await the('#standing').says(/QQZ/);
    await browser.press('Control+j');
    await page.statusIs(/every light is entered, but QQZ is not in your lists: 1 Across/);
    await browser.click('#standing button:nth-of-type(1)');
    await the('#standing').isHidden();
    await browser.press('Control+j');
    await page.statusIs(/every light is entered; one has no clue yet/);
  },

  async 'words added and struck, repeats and unlisted words'() {
    await begin(6);
    await browser.type('zzq');
    await page.cursorAt('1-4');
    await browser.press('F4');
    await the('#checks').says(/ZZQ is not in your lists/);
    await picture('puzzle');
    await browser.click('#checks [data-add=ZZQ]');
    await page.statusIs(/ZZQ is added/);
    await the('#checks').saysNot(/ZZQ is not in your lists/);
    await browser.click('#cell-5-2');
    await browser.type('zzq');
    await browser.press('F4');
    await the('#checks').says(/ZZQ stands twice/);
    await browser.click('#changed [data-strike=ZZQ]');
    await the('#checks').says(/ZZQ is not in your lists/);
    await browser.click('#title');
    await the('#title').choose('a → b');
    await page.statusIs(/“→” stays here and in .ipuz; a .puz gets: a -> b/);
  },

  async 'a key while choices are counted'() {
    await begin(1);
    // notes when an edit goes to the worker, and the answers that come back; queries go right before it, the first of which keeps the worker busy
    await inPage(() => {
      const post = Worker.prototype.postMessage;
      Worker.prototype.postMessage = function (message, transfer) {
        window.engineWorker ??= this;
        if (message.call === 'edit' && window.told) {
          for (const count of [1000, ...Array(40).fill(40)]) post.call(this, { id: 'choices', call: 'ask', sent: { command: 'choices', given: ['5 across', count] } });
          window.told.push('key');
          window.keyId = message.id;
        }
        post.call(this, message, transfer);
      };
    });
    await browser.press('s');
    await untilInPage(() => (document.querySelector('#candidates[aria-busy=false] .left') && !document.getElementById('legend').textContent.startsWith('counting')));
    await inPage(() => {
      window.told = [];
      window.engineWorker.addEventListener('message', ({ data }) => window.told.push(data.id));
      document.getElementById('grid').dispatchEvent(new KeyboardEvent('keydown', { key: 'p', bubbles: true, cancelable: true }));
    });
    await untilInPage(() => window.told.filter((id) => id === 'choices').length === 41);
    const told = await inPage(() => window.told);
    const [sent, answered] = [told.indexOf('key'), told.indexOf(await inPage(() => window.keyId))];
    const [ahead, behind] = [answered - sent - 1, told.length - answered - 1];
    expect(sent >= 0 && ahead <= 2 && behind > 10, `${ahead} queries were answered ahead of the key, and ${behind} after it`);
    await browser.go(PAGE.href);
    await ready();
    return `${ahead} of ${ahead + behind} queries that waited were answered ahead of the key`;
  },

  async 'a new puzzle while words are counted'() {
    await browser.click('#tab-words');
    await begin(1);
    await browser.click('#cell-1-12');
    await the('#light-name').says('10 Across');
    // the next count waits until the worker has the edit that takes the light away
    await inPage(() => {
      const post = Worker.prototype.postMessage;
      Worker.prototype.postMessage = function (message, transfer) {
        if (message.call === 'probe' && !window.late) {
          window.late = message;
          this.addEventListener('message', ({ data }) => {
            if (data.id === message.id) window.lateAnswer = data;
          });
          return;
        }
        post.call(this, message, transfer);
        if (!window.late || !message.sent.lines?.some((line) => line.startsWith('size 5 5'))) return;
        Worker.prototype.postMessage = post;
        post.call(this, window.late);
      };
    });
    await browser.click('#cell-1-13');
    await untilInPage(() => window.late);
    await menu('new');
    await browser.click('.pattern:nth-child(6)');
    await untilInPage(() => window.lateAnswer);
    expect(!(await inPage(() => window.lateAnswer.fault)), 'the count fails');
    await page.factsAre(/^5 × 5/);
    await browser.type('a');
    await isDrafted(/size 5 5[^]*set 1 2 A/);
    expect(!/fail/.test(await page.status()), await page.status());
    expect((await page.row(1)) === '#A..#', `the grid is ${await page.rows()}`);
  },
};

await runAlone(import.meta.url, { CASES });
