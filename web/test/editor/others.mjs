// Cases of what a setter has for others: the statistics that outlets ask for, comments on clues, and the puzzle as a solver has it.
import { writeFileSync } from 'node:fs';
import { join } from 'node:path';
import { begin, menu, openFile, openRecord, print, saved } from '../doing.mjs';
import { browser, expect, inPage, page, picture, reload, room, runAlone, the, untilInPage } from '../page.mjs';

// What is said of an outlet: its line, and the text of each row of its table.
const outlet = (name) => browser.value(`(() => {
  const box = document.querySelector('#outlets [data-outlet=${JSON.stringify(name)}]');
  return box && { told: box.querySelector('summary').textContent, rows: [...box.querySelectorAll('tr')].map((row) => [...row.children].map(({ textContent }) => textContent).join('|')) };
})()`);
const DAILY = 'New York Times, daily';
const dailySays = (pattern) => the(`#outlets [data-outlet="${DAILY}"] summary`).says(pattern);
const statisticsSay = (pattern) => the('#statistics').says(pattern);

const GRID = 'size 3 2\nset 1 1 C\nset 1 2 O\nset 1 3 D\nset 2 1 A\nset 2 2 N\nset 2 3 O\ntext clue 1 1 across Fish\n';
// what stands in the cells of the puzzle that is solved, with a dot for none
const solved = () => inPage(() => [...document.querySelectorAll('.solver-letter')].map(({ textContent }) => textContent || '.').join(''));
const solvedIs = (letters) => browser.until(`[...document.querySelectorAll('.solver-letter')].map(({ textContent }) => textContent || '.').join('') === '${letters}'`);
const solverSays = (text) => the('.solver-told').says(text);
const marked = (name) => browser.value(`[...document.querySelectorAll('.solver-cell.${name}')].map(({ dataset }) => dataset.index).join()`);

export const CASES = {
  async 'statistics and the limits of outlets'() {
    await begin(1);
    await browser.press('F4');
    await dailySays(/✗ 1 of 10 not met, 1 to judge/);
    const { rows } = await outlet(DAILY);
    expect(rows.includes('Words at most|76|78|published|✓') && rows.some((row) => /^Lumps.*\|4\|0\|usual\|✗$/.test(row)), `the rows: ${rows.join('; ')}`);
    await statisticsSay(/Words of 3 letters13.*Letters.*none yet.*Cheaters2.*Connectedyes/);
    // a limit of the setter
    await menu('themes');
    await browser.click('#themes-summary');
    await inPage(() => { const field = document.getElementById('themes-lumps'); field.value = '4'; field.dispatchEvent(new Event('change')); });
    await browser.click('#themes-dialog [value=cancel]');
    await browser.click('#tab-puzzle');
    await dailySays(/✓ met, 1 to judge/);
    // it follows the grid, and what is open stays open
    await browser.click(`#outlets [data-outlet="${DAILY}"] summary`);
    await browser.click('#cell-1-1');
    await browser.type('zq');
    await statisticsSay(/Rare lettersQ 1, Z 1/);
    await browser.click('#cell-8-8');
    await browser.press('.');
    await dailySays(/✗/);
    expect(await inPage(() => document.querySelector('#outlets details[open]').dataset.outlet) === DAILY, 'the outlet is folded again');
    await picture('outlets');
    await menu('themes');
    await browser.click('#themes-reset');
    await browser.click('#themes-dialog [value=cancel]');
    // the outlets of a lattice
    await begin(3);
    await browser.click('#tab-puzzle');
    await the('#outlets').says(/^Guardian.*Times.*Independent/);
    expect((await page.count('#outlets details')) === 3, 'a lattice has other outlets');
  },

  async 'comments on clues'() {
    const comment = async (text) => {
      await the('.clue-more .comment').focus();
      await browser.insert(text);
      await browser.press('Enter');
    };
    const listed = (wanted) => browser.until(`[...document.querySelectorAll('.clue-more li')].map((item) => item.firstChild.textContent).join('|') === ${JSON.stringify(wanted)}`);
    await openRecord('size 3 2\nset 1 1 C\nset 1 2 O\nset 1 3 D\nset 2 1 A\nset 2 2 N\nset 2 3 O\ntext clue 1 1 across Fish\n');
    await browser.press('F3');
    await comment('TB: <b>too</b> hard');
    await listed('TB: <b>too</b> hard');
    await comment('ED: leave it');
    await listed('TB: <b>too</b> hard|ED: leave it');
    await picture('comments');
    expect(await inPage(() => [...document.querySelectorAll('.clue-more :is(input, li button)')].every((one) => one.getBoundingClientRect().right <= document.querySelector('.clue-more').getBoundingClientRect().right)), 'a comment is cut off');
    // one undo takes the last one back
    await browser.press('Control+z');
    await listed('TB: <b>too</b> hard');
    await comment('ED: leave it');
    await listed('TB: <b>too</b> hard|ED: leave it');
    await browser.click('.clue-more li:nth-child(2) button');
    await listed('TB: <b>too</b> hard');
    // what is half typed goes to the clue that it is for
    await the('.clue-more .comment').focus();
    await browser.insert('half a comment');
    await browser.click('#cell-2-1');
    await listed('');
    const below = "[...document.querySelectorAll('.clue .kept-comments')].map(({ textContent }) => textContent).filter(Boolean).join('|')";
    await browser.until(`${below} === 'TB: <b>too</b> hard\\nhalf a comment'`);
    // it is among what is to do
    await browser.press('F4');
    await the('#checks button').oneSays('the clue of 1 Across has comments');
    // the session has them, and no file of solvers
    const session = (await saved('crossword.xw', () => menu('save-session'))).toString();
    const ipuz = (await saved('crossword.ipuz', () => menu('save-ipuz'))).toString();
    await page.statusIs(/the comments on a clue/);
    expect(session.includes('half a comment') && !ipuz.includes('half a comment'), 'comments are in the wrong file');
    await begin(6);
    await openFile(join(room, 'crossword.xw'));
    await browser.until(`${below} === 'TB: <b>too</b> hard\\nhalf a comment'`);
    // those of a session come to the ones that are here, in one step
    await openRecord(GRID);
    await browser.press('F3');
    await comment('mine');
    await browser.until(`${below} === 'mine'`);
    const take = async (name) => {
      // a click by the mouse would show the dialog of the browser, which stands in the way
      await the('[data-do=comments-from]').press();
      await openFile(join(room, name));
    };
    writeFileSync(join(room, 'other.xw'), `# xw session\n# originals ${JSON.stringify([['comment 1 1 across', 'TB: too hard\nmine'], ['comment 1 2 down', 'ED: good'], ['comment 9 9 down', 'gone'], ['note 1 1 down', 'no']])}\n${GRID}`);
    await take('other.xw');
    await page.statusIs(/^other.xw: 2 comments taken over; undo takes this back; left out, since their clues are not here: “gone”$/);
    await browser.until(`${below} === 'mine\\nTB: too hard|ED: good'`);
    await take('other.xw');
    await page.statusIs(/^other.xw has no comment that is not here/);
    await browser.click('#undo');
    await browser.until(`${below} === 'mine'`);
    await take('crossword.ipuz');
    await page.statusIs(/crossword.ipuz is no session/);
    writeFileSync(join(room, 'large.xw'), '# xw session\nsize 9 9\n');
    await take('large.xw');
    await page.statusIs(/^large.xw has a grid of 9 × 9: nothing is taken over$/);
    await openFile(join(room, 'crossword.xw'));
    await browser.until(`${below} === 'TB: <b>too</b> hard\\nhalf a comment'`);
    // a print has them if that is wished
    for (const isWished of [false, true]) {
      await browser.press('Control+p');
      await browser.click('[name=parts][value=submission]');
      await browser.value(`document.getElementById('print-comments').checked !== ${isWished} && document.getElementById('print-comments').click()`);
      await print();
      expect((await inPage(() => document.getElementById('sheet').textContent.includes('half a comment'))) === isWished, `comments are printed if they are wished: ${isWished}`);
    }
    await browser.press('Control+p');
    expect(!(await the('#print-comments').get('checked')), 'comments are chosen still');
    await browser.click('[name=parts][value=both]');
    await browser.click('#print-dialog [value=cancel]');
  },

  async 'solving the puzzle that is here'() {
    await openRecord('size 3 2\nset 1 1 C\n');
    await menu('solve');
    await page.statusIs(/nothing to solve yet: row 1, column 2 is empty/);
    await openRecord(GRID);
    const record = () => saved('crossword.xw', () => menu('save-session')).then(String);
    const before = await record();
    await menu('solve');
    await solvedIs('......');
    await browser.type('cxd');
    await solvedIs('CXD...');
    await browser.click('[data-solver=check-word]');
    await solverSays('1 letter is wrong');
    expect((await marked('wrong')) === '1', 'another cell is marked as wrong');
    // by the keys alone: Esc to the buttons, then to that which reveals the letter
    await browser.click('.solver-cell[data-index="1"]');
    await browser.press('Escape');
    for (let at = 0; at < 3; at++) await browser.press('Tab');
    await browser.press('Enter');
    await solvedIs('COD...');
    expect((await marked('revealed')) === '1', 'another cell is marked as revealed');
    await picture('solving');
    // letters do not go on into the grid, and Undo does nothing here
    await browser.press('Control+z');
    await browser.type('z');
    await browser.press('Escape');
    await browser.press('Escape');
    await the('#solve-dialog').isClosed();
    expect((await page.rows()).join() === 'COD,ANO', 'the grid is changed');
    expect((await record()) === before, 'the session is changed');
    // it goes on as it was, while the puzzle is the same
    await menu('solve');
    await untilInPage(() => /^CO.\.{3}$/.test([...document.querySelectorAll('.solver-letter')].map(({ textContent }) => textContent || '.').join('')));
    await browser.click('[data-solver=reveal-puzzle]');
    expect(!(await solved()).endsWith('ANO'), 'all is shown at the first press');
    await browser.click('[data-solver=reveal-puzzle]');
    await solvedIs('CODANO');
    await inPage(() => [...document.querySelectorAll('.solver-tools button')].at(-1).click());
    await the('#solve-dialog').isClosed();
    await browser.click('#cell-1-1');
    await browser.type('g');
    await page.factsAre(/filled/);
    await menu('solve');
    await solvedIs('......');
    await inPage(() => document.getElementById('solve-dialog').close());
    await browser.press('Control+z');
    await the('#cell-1-1 .letter').says('C');
  },

  async 'a page to solve in one file'() {
    const hostile = '</script><img src=x onerror=document.title=1>';
    await openRecord(`${GRID}text title ${hostile}\ntext author <b>A. Setter</b>\ntext clue 1 2 down ${hostile}\n`);
    const name = 'script-img-src-x-onerror-document-title-1.solve.html';
    const file = (await saved(name, () => menu('save-page'))).toString();
    await page.statusIs(/3 words without a clue/);
    const script = /<script type="module">(.*?)<\/script>/s.exec(file)[1];
    expect(script.length > 0 && Buffer.byteLength(script) <= 60 * 1024, `the script has ${script.length} bytes`);
    expect(/default-src 'none'; script-src 'sha256-[^']+' ?; style-src 'sha256-[^']+' ?; base-uri 'none'; form-action 'none'/.test(file), 'the page has another policy');
    await browser.go(`file://${join(room, name)}`);
    await solvedIs('......');
    expect((await inPage(() => document.title + document.querySelector('h1').textContent + document.querySelectorAll('img, .solver b b').length)) === `${hostile}${hostile}0`, 'a text is read as markup');
    await browser.type('cod');
    await browser.press('Tab');
    await browser.type('ann');
    await solverSays('every cell has a letter, and not all are right');
    await browser.press('Backspace');
    await browser.type('o');
    await solverSays('solved');
    await picture('solved');
    // what was entered stays, if the browser keeps it
    await browser.go(`file://${join(room, name)}`);
    await solvedIs('CODANO');
    await reload();
  },

  async 'a page to solve on a screen that is touched'() {
    await openRecord(GRID);
    await saved('crossword.solve.html', () => menu('save-page'));
    await browser.view(390, 844, { isTouched: true });
    try {
      await browser.go(`file://${join(room, 'crossword.solve.html')}`);
      await the('.solver-cell').isThere();
      await browser.tap('.solver-cell[data-index="3"]');
      await the('#solver-typing').hasFocus();
      await browser.insert('a');
      await solvedIs('...A..');
      await browser.insert('x');
      await browser.erase();
      // at an empty cell the letter before goes
      await solvedIs('...A..');
      await browser.tap('.solver-cell[data-index="1"]');
      await browser.tap('.solver-cell[data-index="1"]');
      await browser.insert('on');
      await solvedIs('.O.AN.');
      expect(await inPage(() => document.documentElement.scrollWidth <= innerWidth), 'the page is too wide');
      await picture('solver-touch');
    } finally {
      await browser.view(1400, 900);
      await reload();
    }
  },
};

// What cases need that not every browser can do.
export const NEEDS = { 'comments on clues': ['pdf'], 'a page to solve in one file': ['folders'], 'a page to solve on a screen that is touched': ['touch'] };

await runAlone(import.meta.url, { CASES, NEEDS });
