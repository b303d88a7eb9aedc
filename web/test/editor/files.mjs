// Cases of files that are opened and saved, and what is printed.
import { mkdirSync, readdirSync, rmSync, writeFileSync } from 'node:fs';
import { join } from 'node:path';
import { Xw, toBytes } from '../../dist/xw.js';
import { takeList } from '../browser.mjs';
import { begin, faultsShown, hush, menu, openAnyway, openFile, openList, openRecord, print, saved } from '../doing.mjs';
import { isDrafted } from '../holding.mjs';
import { browser, expect, inPage, module, page, picture, pictures, reload, room, runAlone, the, untilInPage } from '../page.mjs';
import { pageModules, pageScript } from '../page-modules.mjs';
import { lockedPuzOf, puzOf } from '../puz.mjs';
import { textsFrom } from '../texts.mjs';
import { zipOf } from '../zip.mjs';

const PICTURE = Buffer.from('89504e470d0a1a0a0000000d49484452000000010000000108060000001f15c489', 'hex');

// A text that is an element with a handler wherever it is read as markup: in an element, in an attribute, in SVG and in a script.
const HOSTILE = `"><img src="x" onerror="window.ran = 1"></text></svg></script><script>window.ran = 1</script><svg onload='window.ran = 1'></svg>`;

// Expects that nothing of a file has run, or become an element, in any view of the page or on paper.
async function isHarmless(name) {
  const isClean = async (where) => {
    const found = await inPage(() => [window.ran, ...[...document.querySelectorAll('img, iframe, object, embed, [onerror], [onload], body > * script')].map(({ outerHTML }) => outerHTML.slice(0, 200))].filter(Boolean));
    expect(found.length === 0, `${name}, ${where}: ${found.join('; ')}`);
  };
  for (const tab of ['words', 'clues', 'puzzle']) {
    await browser.click(`#tab-${tab}`);
    await isClean(tab);
  }
  await menu('print');
  for (const parts of ['submission', 'both']) {
    await browser.click(`[name=parts][value=${parts}]`);
    await the('#preview .page').are(2);
    await isClean(`the preview of ${parts}`);
  }
  await print();
  await isClean('what is printed');
  await menu('library');
  await the('#library-dialog').isOpen();
  await isClean('the puzzles');
  await browser.click('#library-dialog [value=close]');
}

// Files with such texts in each place that a format has, and what is said of them, or what is asked.
function hostileFiles() {
  const text = HOSTILE;
  const xml = text.replace(/[&<>"]/g, (one) => `&#${one.charCodeAt(0)};`);
  const ipuz = { version: 'http://ipuz.org/v2', kind: ['http://ipuz.org/crossword#1'], title: text, author: text, copyright: text, notes: text, dimensions: { width: 3, height: 1 } };
  const styled = { ...ipuz, puzzle: [[{ cell: 1, style: text }, { cell: 0, style: { shapebg: text, color: text, barred: text } }, 0]], styles: { [text]: { color: text } }, solution: [['C', 'A', 'T']] };
  const clues = { [text]: [[1, text]], Across: [{ number: 1, clue: text, enumeration: text, continued: [{ number: text, direction: text }] }] };
  const jpz = (solution, more = '') => `<?xml version="1.0"?><crossword-compiler xmlns="http://crossword.info/xml/crossword-compiler"><rectangular-puzzle xmlns="http://crossword.info/xml/rectangular-puzzle">
    <metadata><title>${xml}</title><creator>${xml}</creator><copyright>${xml}</copyright><description>${xml}</description></metadata><crossword><grid width="2" height="1">
    <cell x="1" y="1" solution="A" number="1"${more}/><cell x="2" y="1" solution="${solution}" background-shape="${xml}"/></grid><word id="${xml}" x="1-2" y="1"/>
    <clues><title>${xml}</title><clue word="${xml}" number="${xml}" format="${xml}"><img xmlns="http://www.w3.org/1999/xhtml" src="x" onerror="window.ran = 1"/>${xml}</clue></clues></crossword></rectangular-puzzle></crossword-compiler>`;
  const exolve = (grid) => `exolve-begin\n exolve-title: ${text}\n exolve-setter: ${text}\n exolve-copyright: ${text}\n exolve-width: 2\n exolve-height: 1\n exolve-preamble:\n  ${text}\n exolve-grid:\n  ${grid}
 exolve-across:\n  1 ${text} (2) ${text}\n  [${text}]\n exolve-nina: ${text}\nexolve-end\n`;
  const qxw = (letters) => ['#QXW2v4 http://www.quinapalus.com', 'GP 0 2 1 2 0 0', 'TTL', `+${text}`, 'AUT', `+${text}`, 'SQ 0 0 0 0 0 A', 'SQ 1 0 0 0 0 B', `SQCT 0 0 0 "${letters}"`].join('\n');
  const originals = [
    ['title', text], ['author', text], ['notes', text], ['clue 1 1 across', text], ['note 1 1 across', text], ['cell 1 1', `A${text}`], ['colour 1 1', text], ['link 1 1 across', text], [text, text],
  ];
  const spelled = text.replaceAll('\\', '\\\\');
  const record = `size 2 1\ntext title ${spelled}\ntext author ${spelled}\ntext copyright ${spelled}\ntext notes ${spelled}\ntext clue 1 1 across ${spelled}\nset 1 1 A\nset 1 2 B\n`;
  const session = `# xw session 1\n# ${text}\n# pencil 1 1, ${text}\n# originals ${JSON.stringify(originals)}\n# written ${JSON.stringify([['clue 1 1 across', text]])}\n${record}`;
  const left = 'a pencil mark, a cell with other characters than letters, the colour of a cell, the link of a clue to other lights, a text that belongs to nothing and the word that a clue was written for';
  const kept = { puzzle: text, record, at: 5, pencil: [text], originals, written: [], cursor: text, direction: text };
  const texts = [text, text, text, text, text].map((one) => Buffer.from(one));
  const rebus = [['GRBS', Buffer.from([1, 0])], ['RTBL', Buffer.from(` 0:${text.replace(/[;:]/g, '')};`)]];
  const lines = ['<ACROSS PUZZLE V2>', '<TITLE>', text, '<AUTHOR>', text, '<COPYRIGHT>', text, '<SIZE>', '2x1', '<GRID>', '1B', '<REBUS>', `1:${text.replace(/[;:]/g, '')}:A`, '<ACROSS>', text, '<DOWN>', '<NOTEPAD>', text];
  const strange = (name) => [new RegExp(`^${name} is open.*, with 1 repair[;,]`), /^row 1, column \d has “"><img src="?x.*…” for a letter: left empty$/];
  return [
    ['session.xw', session, new RegExp(`^session.xw is open, but without ${left}; undo`)],
    ['styles.ipuz', JSON.stringify({ ...styled, clues }), /^styles.ipuz is open, but without/],
    ['letters.ipuz', JSON.stringify({ ...styled, solution: [['C', text, 'T']] }), ...strange('letters.ipuz')],
    ['clues.ipuz', JSON.stringify({ ...styled, clues: { Across: 5 } }), /^clues.ipuz: it is not as its format has it$/],
    ['texts.jpz', jpz('B'), /^texts.jpz is open, but without/], ['colours.jpz', jpz('B', ` background-color="${xml}"`), /^colours.jpz is open, but without/], ['letters.jpz', jpz(xml), ...strange('letters.jpz')],
    ['texts.exolve', exolve('AB'), /^texts.exolve is open, but without/], ['letters.exolve', exolve(`A ${text.replace(/\s/g, '')}`), /^letters.exolve is open.*, with 1 repair/, /^row 1, column 2 has “"><img/],
    ['texts.qxw', qxw('A'), /^texts.qxw is open/], ['letters.qxw', qxw(text), ...strange('letters.qxw')],
    ['texts.puz', puzOf({ version: '2.0\0', width: 2, height: 1, solution: 'AB', texts }), /^texts.puz is open/],
    ['rebus.puz', puzOf({ version: '1.3\0', width: 2, height: 1, solution: 'AB', texts, sections: rebus }), /^rebus.puz is open, but without the rebus in row 1/],
    ['texts.txt', lines.join('\n'), /^texts.txt is open, but without the rebus in row 1/],
    ['puzzles.json', JSON.stringify({ format: 'xw puzzles 1', puzzles: [kept], versions: [] }), /^puzzles.json: 1 puzzle is added to File ▸ Puzzles, but without/],
    [`a"><img src=x onerror="window.ran = 1">.ipuz`, JSON.stringify({ ...styled, clues }), /^a"><img src=x onerror="window.ran = 1">.ipuz is open, but without/],
    ['names.zip', zipOf([[`${text}.txt`, 'x'], ['two.txt', 'y']]), null],
    ['prose.txt', text, /^prose.txt is no puzzle/],
  ];
}

export const CASES = {
  async 'files of a stranger run nothing, and become no elements'() {
    await begin(6);
    for (const [name, bytes, said, asked] of hostileFiles()) {
      writeFileSync(join(room, name), bytes);
      await openFile(join(room, name));
      if (asked) {
        const faults = await faultsShown();
        expect(faults.length === 1 && asked.test(faults[0]), `${name}: the page asks: ${faults}`);
        await openAnyway();
      }
      if (said) await page.statusIs(said);
      else {
        await the('#zip-dialog').isOpen();
        await browser.click('#zip-dialog [value=cancel]');
        await page.statusIs(/^names.zip is not opened$/);
      }
      await isHarmless(name);
    }
    // Chromium tells of handlers in HTML that is parsed for its text alone, where none runs
    browser.faults = browser.faults.filter((fault) => !/^Executing inline event handler/.test(fault));
    // what was lawful of the session is there
    await openFile(join(room, 'session.xw'));
    await page.statusIs(/^session.xw is open/);
    expect((await page.rows()).join() === 'AB', `the grid is ${await page.rows()}`);
    await browser.press('F3');
    await the('#clue-list textarea').holds(HOSTILE);
    await browser.press('F4');
    await browser.until(`['title', 'author', 'copyright', 'notes'].every((field) => document.getElementById(field).value === ${JSON.stringify(HOSTILE)})`);
  },

  async 'the policy of the page lets no handler and no script of a text run'() {
    const told = await inPage(() => new Promise((resolve) => {
      const violated = [];
      const take = ({ effectiveDirective }) => {
        violated.push(effectiveDirective);
        if (violated.length === 2) resolve(violated);
      };
      addEventListener('securitypolicyviolation', take);
      const [box, script] = ['div', 'script'].map((name) => document.body.appendChild(document.createElement(name)));
      box.innerHTML = '<img src="data:," onerror="window.ran = 1">';
      script.textContent = 'window.ran = 1';
      document.body.append(script.cloneNode(true));
    }));
    expect(told.every((directive) => /^script-src/.test(directive)), `the policy has kept ${told}`);
    expect(!(await inPage(() => window.ran)), 'it ran');
    // the console of the page that is left tells of it, and of nothing else
    await reload();
    expect(browser.faults.every((fault) => /Content.Security.Policy/.test(fault)), `the console has: ${browser.faults.join('; ')}`);
    browser.faults.length = 0;
  },

  async 'every text is read as it was written, in each format'() {
    await browser.value(`(() => { ${await pageScript('formats', 'formats/exolve', 'formats/ipuz', 'formats/jpz')}; window.formats = formats; })()`);
    const all = Array.from({ length: 400 }, (_, seed) => {
      const of = textsFrom(seed + 1);
      return { title: of.line(), author: of.line(), copyright: of.line(), notes: of.notes(), 'clue 1 across': of.clue() };
    });
    const faults = await browser.value(`(() => {
      const { exolveOf, ipuzOf, jpzOf, readExolve, readIpuz, readJpz } = window.formats;
      const FORMATS = [[ipuzOf, readIpuz], [jpzOf, readJpz], [exolveOf, readExolve]];
      const cell = (column) => ({ coordinates: '1 ' + column, letter: 'A', block: false, circle: false, number: column === 1 ? '1' : '', right: false, below: false });
      const board = { width: 2, height: 1, cells: [cell(1), cell(2)], lights: [{ name: '1 across', number: '1', direction: 'across', cells: [0, 1] }], columnOf: (at) => at + 1, rowOf: () => 1 };
      const again = (texts, [write, read]) => {
        const given = read(write(board, (field) => texts[field]));
        return { ...Object.fromEntries(given.texts), 'clue 1 across': given.clues[0].text };
      };
      const differing = (texts, format) => Object.entries(again(texts, format)).filter(([field, text]) => text !== texts[field]).map(([field, text]) => [field, texts[field], text]);
      return ${JSON.stringify(all)}.flatMap((texts) => FORMATS.flatMap((format) => differing(texts, format)));
    })()`);
    expect(faults.length === 0, `${faults.length} differ, as ${JSON.stringify(faults[0])}`);
  },

  async 'every text of a session is kept'() {
    const { engineText, escapeText, textLines } = await pageModules('model/record');
    for (let seed = 1; seed <= 12; seed++) {
      const of = textsFrom(seed);
      const originals = [['author', of.line()], ['copyright', of.line()], ['notes', of.notes()], ['clue 1 1 across', of.clue()], ['note 1 1 across', of.line()]];
      const lines = originals.slice(0, -1).flatMap(([field, text]) => textLines(field, escapeText(engineText(text).near)));
      const note = JSON.stringify(originals).replace(/[^ -~]/g, (one) => `\\u${one.charCodeAt(0).toString(16).padStart(4, '0')}`);
      writeFileSync(join(room, 'texts.xw'), toBytes(`# xw session 1\n# originals ${note}\nsize 2 1\n${lines.join('\n')}\n`));
      await openFile(join(room, 'texts.xw'));
      await page.statusIs(/^texts.xw is open; undo/, 'good');
      await browser.press('F3');
      await the('#clue-list textarea').holds(originals[3][1]);
      const session = Buffer.from(await saved('crossword.xw', () => menu('save-session'))).toString('latin1').split('\n');
      const kept = JSON.parse(session.find((line) => line.startsWith('# originals ')).slice('# originals '.length));
      expect(JSON.stringify(kept) === JSON.stringify(originals), `${JSON.stringify(kept)}, and not ${JSON.stringify(originals)}`);
      const texts = Buffer.from(toBytes(lines.join('\n'))).toString('latin1').split('\n');
      expect(texts.every((line) => session.includes(line)), `of ${texts.join('; ')} only ${session.join('; ')}`);
    }
  },

  async 'texts with marks of markup, saved and opened again'() {
    const [clue, bold, title] = ['If x<y then? (2)', '<b>bold</b> <i>claim</i> & \u65e5\u672c', 'AT&T &amp; <Sons>'];
    await openRecord(`size 2 2\nset 1 1 A\nset 1 2 B\ntext title ${title}\ntext clue 1 1 across ${clue}\ntext clue 1 1 down Two\ntext clue 1 2 down Three\n`);
    await browser.press('F3');
    await the('#clue-list textarea').focus(1);
    await browser.insert(bold);
    await browser.press('Enter');
    await isDrafted(/<b>bold/);
    const isThere = () => browser.until(`[...document.querySelectorAll('#clue-list textarea')].slice(0, 2).map(({ value }) => value).join('|') === ${JSON.stringify(`${clue}|${bold}`)} && document.getElementById('title').value === ${JSON.stringify(title)}`);
    await isThere();
    for (const [form, action] of [['ipuz', 'save-ipuz'], ['jpz', 'save-jpz'], ['exolve', 'save-exolve'], ['xw', 'save-session']]) {
      await saved(`at-t-amp-sons.${form}`, () => menu(action));
      await begin(6);
      await openFile(join(room, `at-t-amp-sons.${form}`));
      await page.statusIs(new RegExp(`^at-t-amp-sons.${form} is open; undo`), 'good');
      await browser.press('F3');
      await isThere();
    }
    const ipuz = JSON.parse((await saved('at-t-amp-sons.ipuz', () => menu('save-ipuz'))).toString());
    expect(ipuz.title === 'AT&amp;T &amp;amp; &lt;Sons>' && ipuz.clues.Across[0][1] === 'If x&lt;y then? (2)', JSON.stringify(ipuz));
    expect(ipuz.clues.Across[1][1] === '&lt;b>bold&lt;/b> <i>claim</i> & \u65e5\u672c', JSON.stringify(ipuz));
  },

  async 'zips of several files, and characters that a .puz loses'() {
    const texts = ['\u2192 \u0141\u00f3d\u017a \u65e5\u672c', '', '', 'Pet', ''].map((one) => Buffer.from(one));
    const first = puzOf({ version: '2.0\0', width: 3, height: 1, solution: 'CAT', texts });
    const second = puzOf({ version: '1.3\0', width: 3, height: 1, solution: 'DOG', texts: ['', '', '', 'Pet', ''].map((one) => Buffer.from(one)) });
    writeFileSync(join(room, 'both.zip'), zipOf([['one.puz', first], ['more/two.puz', second]]));
    await begin(6);
    const asked = async (answer) => {
      await openFile(join(room, 'both.zip'));
      await untilInPage(() => document.getElementById('zip-dialog').open && /^both.zip has 2 files/.test(document.getElementById('zip-told').textContent));
      expect((await the('#zip-files button').joined()) === 'one.puz,more/two.puz', 'other files are named');
      await picture('zip');
      await browser.click(`#zip-dialog [value="${answer}"]`);
    };
    await asked('cancel');
    await page.statusIs(/^both.zip is not opened$/, 'bad');
    await asked('1');
    await page.statusIs(/^two.puz is open; undo/, 'good');
    expect((await page.rows()).join() === 'DOG', `the grid is ${await page.rows()}`);
    await asked('0');
    await page.statusIs(/^one.puz is open; undo/, 'good');
    expect((await page.rows()).join() === 'CAT', `the grid is ${await page.rows()}`);
    await saved('l-dz.puz', () => menu('save-puz'));
    await page.statusIs(/^saved: l-dz.puz, with near characters for “→”, “Ł”, “ź”, “日”, “本”$/);
    writeFileSync(join(room, 'one.zip'), zipOf([['two.puz', second]]));
    await openFile(join(room, 'one.zip'));
    await page.statusIs(/^two.puz is open; undo/, 'good');
    writeFileSync(join(room, 'none.zip'), zipOf([['folder/', '']]));
    await openFile(join(room, 'none.zip'));
    await page.statusIs(/^none.zip is a zip without a file that can be read/, 'bad');
  },

  async 'puzzles in mails'() {
    const made = (solution) => puzOf({ version: '1.3\0', width: 3, height: 1, solution, texts: ['', '', '', 'Pet', ''].map((one) => Buffer.from(one)) });
    const attached = (name, bytes) => ['--b', `Content-Type: application/octet-stream; name="${name}"`, 'Content-Transfer-Encoding: base64', '', Buffer.from(bytes).toString('base64').replace(/(.{76})/g, '$1\r\n')];
    const mail = (...files) => [
      'From: a@example.org', 'Subject: Puzzles', 'MIME-Version: 1.0', 'Content-Type: multipart/mixed; boundary="b"', '', '--b', 'Content-Type: text/plain', '', 'Here they are.', ...files.flat(), '--b--', '',
    ].join('\r\n');
    writeFileSync(join(room, 'one.eml'), mail(attached('cat.puz', made('CAT'))));
    writeFileSync(join(room, 'two.eml'), mail(attached('cat.puz', made('CAT')), attached('dog.puz', made('DOG'))));
    writeFileSync(join(room, 'zip.eml'), mail(attached('both.zip', zipOf([['cow.puz', made('COW')], ['more/dog.puz', made('DOG')]]))));
    const opening = async (file, names, answer, said, row) => {
      await begin(6);
      await openFile(join(room, file));
      if (names) {
        await untilInPage(() => document.getElementById('zip-dialog').open && /has 2 files. Open which/.test(document.getElementById('zip-told').textContent));
        expect((await the('#zip-files button').joined()) === names, 'other files are named');
        await browser.click(`#zip-dialog [value="${answer}"]`);
      }
      await page.statusIs(said);
      expect(!row || (await page.rows()).join() === row, `the grid is ${await page.rows()}`);
    };
    await opening('one.eml', '', '', /^cat.puz is open; undo/, 'CAT');
    await opening('two.eml', 'cat.puz,dog.puz', '1', /^dog.puz is open; undo/, 'DOG');
    await opening('two.eml', 'cat.puz,dog.puz', 'cancel', /^two.eml is not opened$/);
    await opening('zip.eml', 'cow.puz,more/dog.puz', '0', /^cow.puz is open; undo/, 'COW');
  },

  async 'a .puz opened and saved again'() {
    const xw = Xw.open(module, { record: 'size 4 4\ntext title Round trip\n' });
    for (let row = 1; row <= 4; row++) for (let column = 1; column <= 4; column++) xw.line(`set ${row} ${column} ${'ABCDEFGHIJKLMNOP'[4 * (row - 1) + column - 1]}`);
    xw.answer(Buffer.from([...Buffer.from('author '), 0xe9, 0x93, 0x81]));
    xw.line('clue 1 across one \\ two');
    xw.line('circle 2 2');
    xw.line('text notes line one\\r\\nline two \\s');
    const bytes = Buffer.from(xw.puz());
    const path = join(room, 'given.puz');
    writeFileSync(path, bytes);
    await openFile(path);
    await page.statusIs(/given.puz is open/);
    expect(await page.has('2-2', 'circled'), 'the circle is lost');
    const again = await saved('round-trip.puz', () => browser.press('Control+s'));
    expect(again.equals(bytes), 'the bytes differ');
    await begin(6);
    writeFileSync(path, bytes.fill(0, 0, 2));
    await openFile(path);
    expect((await faultsShown()).join() === 'the checksum of the whole file is wrong', 'something else is wrong');
    await openAnyway();
    await page.statusIs(/^given.puz is open, with 1 repair; undo/, 'good');
    expect((await page.row(1)) === 'ABCD' && (await page.has('2-2', 'circled')), 'the file is opened in part');
  },

  async 'files with faults, opened anyway or not'() {
    const xml = `<crossword-compiler xmlns="http://crossword.info/xml/crossword-compiler"><rectangular-puzzle xmlns="http://crossword.info/xml/rectangular-puzzle"><crossword>
      <grid width="3" height="1"><cell x="1" y="1" solution="C" number="1"/><cell x="2" y="1" solution="7"/><cell x="3" y="1" solution="T"/><cell x="4" y="1" solution="S"/></grid>
      <word id="1" x="1-3" y="1"/><clues><title>Across</title><clue word="1" number="1">Pet</clue><clue word="1" number="1">Pets</clue></clues></crossword></rectangular-puzzle></crossword-compiler>`;
    const ipuz = { version: 'http://ipuz.org/v2', kind: ['http://ipuz.org/crossword#1'], dimensions: { width: 3, height: 1 }, puzzle: [[1, 0]], solution: [['C', '\u2665', 'T']], clues: { Across: [[1, 'Pets']] } };
    const symbol = (mark) => `row 1, column 2 has “${mark}” for a letter: left empty`;
    const files = {
      'faults.puz': [puzOf({ version: '1.3\0', width: 3, height: 1, solution: 'C7T', texts: ['', '', '', 'Pets', 'More', ''].map((one) => Buffer.from(one)) }).fill(0, 0, 2), [
        symbol('7'), 'the checksum of the whole file is wrong', 'a clue too many: “More” is left out',
      ]],
      'faults.txt': ['<ACROSS PUZZLE>\n<TITLE>\n<AUTHOR>\n<COPYRIGHT>\n<SIZE>\n3x1\n<GRID>\nC7T\n<ACROSS>\nPets\nMore\n<DOWN>\n', [symbol('7'), 'a clue across too many: “More” is left out']],
      'faults.ipuz': [JSON.stringify(ipuz), ['row 1 has 1 cell too few: they are left empty', symbol('\u2665')]],
      'cut.jpz': [xml.slice(0, xml.indexOf('ets</clue>')).replace('"7"', '""').replace(/<cell x="4".*?>/, ''), ['the file ends too early: what is there is taken', 'a clue has the place of another one: “Pet” is left out'], 'P'],
      'faults.jpz': [xml, [symbol('7'), 'a cell lies outside the grid, in row 1, column 4: it is left out', 'a clue has the place of another one: “Pet” is left out']],
    };
    for (const [name, [bytes, wanted, clue = 'Pets']] of Object.entries(files)) {
      await begin(6);
      const before = await page.rows();
      writeFileSync(join(room, name), bytes);
      await openFile(join(room, name));
      const faults = await faultsShown();
      expect(faults.join('; ') === wanted.join('; '), `${name}: the page says: ${faults.join('; ')}`);
      await picture(`faults-${name.replace('.', '-')}`);
      await browser.press('Escape');
      await page.statusIs(new RegExp(`^${name} is not opened$`), 'bad');
      expect((await page.rows()).join() === before.join(), `${name} changes the grid`);
      await openFile(join(room, name));
      await faultsShown();
      await openAnyway();
      await page.statusIs(new RegExp(`^${name} is open, with ${wanted.length} repairs; undo`), 'good');
      expect((await page.rows()).join() === 'C.T', `the grid is ${await page.rows()}`);
      await browser.press('F3');
      await the('#clue-list textarea').holds(clue);
      await browser.click('#tab-words');
      await browser.press('Control+z');
      await the('#grid .row').are(before.length);
    }
  },

  async 'a scrambled .puz, by its key, by a search and without letters'() {
    const texts = ['', '', '', 'Firm', 'Also', 'Two', 'Ends', ''].map((one) => Buffer.from(one));
    const bytes = lockedPuzOf({ version: '1.3\0', width: 3, height: 3, solution: 'COTA.OTIE', texts, key: '2718' });
    writeFileSync(join(room, 'locked.puz'), bytes);
    const asked = async (pattern) => {
      await browser.until(`document.getElementById('key-dialog').open && ${pattern}.test(document.getElementById('key-told').textContent)`);
      expect(await inPage(() => document.activeElement.id === 'key'), 'the field of the key has not the focus');
    };
    const opening = async (rows, pattern, tone = 'good') => {
      await page.statusIs(pattern, tone);
      expect((await page.rows()).join() === rows, `the grid is ${await page.rows()}`);
      await browser.press('F3');
      await the('#clue-list textarea').hold('Firm,Ends,Also,Two');
      await begin(6);
      await openFile(join(room, 'locked.puz'));
      await asked(/The solution of locked.puz is scrambled/);
    };
    await begin(6);
    const before = (await page.rows()).join();
    await openFile(join(room, 'locked.puz'));
    await asked(/The solution of locked.puz is scrambled/);
    await picture('key');
    await browser.press('Escape');
    await page.statusIs(/^locked.puz is not opened$/, 'bad');
    expect((await page.rows()).join() === before, 'the grid has changed');
    await openFile(join(room, 'locked.puz'));
    await asked(/is scrambled/);
    await browser.type('2719');
    await browser.press('Enter');
    await asked(/^2719 is not the key of locked.puz/);
    await browser.type('2718');
    await browser.press('Enter');
    await opening('COT,A#O,TIE', /^locked.puz is open, unscrambled by the key 2718; undo/);
    await browser.click('#key-search');
    await opening('COT,A#O,TIE', /^locked.puz is open, unscrambled by the key 2718(, the likeliest of \d+ that fit)?; undo/);
    await browser.click('#key-dialog [value=empty]');
    await opening('...,.#.,...', /^locked.puz is open, but without its solution, which is scrambled; undo/, 'bad');
    await browser.click('#key-dialog [value=cancel]');
    // another checksum of the solution, which no key fits, and a wrong one of the file
    writeFileSync(join(room, 'spoilt.puz'), bytes.fill(0, 0, 2).fill(bytes[0x1e] ^ 8, 0x1e, 0x1f));
    await openFile(join(room, 'spoilt.puz'));
    await asked(/is scrambled/);
    await browser.click('#key-search');
    await asked(/^None of the 9,999 keys fits spoilt.puz/);
    expect(await the('#key-search').get('disabled'), 'the search can be had again');
    await browser.click('#key-dialog [value=empty]');
    expect((await faultsShown()).join() === 'the checksum of the whole file is wrong', 'something else is wrong');
    await openAnyway();
    await page.statusIs(/^spoilt.puz is open, but without its solution, which is scrambled, with 1 repair; undo/, 'bad');
  },

  async 'the finished puzzles of examples/puzzles'() {
    const folder = new URL('../../../examples/puzzles/', import.meta.url).pathname;
    const names = readdirSync(folder).filter((name) => name.endsWith('.ipuz'));
    expect(names.length === 6, `the puzzles are ${names}`);
    // how many entries of a puzzle are phrases, names and abbreviations that the built-in list does not have
    const others = { 'help-wanted.ipuz': 45 };
    for (const name of names) {
      await openFile(join(folder, name));
      await page.statusIs(/^[a-z-]+.ipuz is open; undo/, 'good');
      await browser.press('F4');
      // no empty cell, no light without a clue or with a clue of another word, and no fault; of warnings only those of near words
      await untilInPage((most) => {
        const texts = [...document.querySelectorAll('#checks li:not(.good)')].map((item) => item.textContent);
        const isUnlisted = (text) => text.includes(' is not in your lists: ');
        return document.querySelector('#checks li') && texts.filter(isUnlisted).length === most && texts.every((text) => isUnlisted(text) || /have one root/.test(text));
      }, others[name] ?? 0);
      expect(await inPage(() => document.getElementById('title').value && document.getElementById('author').value === 'xw'), `${name} has no title or another author`);
    }
  },

  async 'text of version 2, and rows of letters'() {
    const text = [
      '<ACROSS PUZZLE V2>', '<TITLE>', '\tTwo', '<AUTHOR>', '\tA. Setter', '<COPYRIGHT>', '', '<SIZE>', '\t3x3', '<GRID>', '\tC1T', '\ta.o', '\tTEE', '<REBUS>', '\tMARK;',
      '\t1:HEART:H', '<ACROSS>', '\tFirst', '\tLast', '<DOWN>', '\tOne', '\tThree', '<NOTEPAD>', '\tA note', '',
    ].join('\n');
    writeFileSync(join(room, 'two.txt'), text);
    await openFile(join(room, 'two.txt'));
    await page.statusIs(/^two.txt is open; undo/, 'good');
    expect((await page.rows()).join() === 'CHEARTT,A#O,TEE', `the grid is ${await page.rows()}`);
    expect((await page.has('2-1', 'circled')) && (await page.has('2-3', 'circled')) && !(await page.has('1-1', 'circled')), 'the marks are not circles');
    await browser.press('F3');
    await the('#clue-list textarea').hold('First,Last,One,Three');
    await browser.press('F4');
    await untilInPage(() => document.getElementById('title').value === 'Two' && document.getElementById('notes').value === 'A note');
    await page.factsAre(/built-in list/);
    // rows of one length are a grid or a list
    writeFileSync(join(room, 'rows.txt'), 'CAT\nA.O\nTEE\n');
    const asked = async (answer) => {
      await openFile(join(room, 'rows.txt'));
      await untilInPage(() => document.getElementById('rows-dialog').open && /^rows.txt has 3 lines of 3 letters/.test(document.getElementById('rows-told').textContent));
      await picture('rows');
      await browser.click(`#rows-dialog [value=${answer}]`);
    };
    await begin(6);
    await asked('cancel');
    await page.statusIs(/^rows.txt is not opened$/, 'bad');
    await page.factsAre(/^5 × 5/);
    await asked('grid');
    await page.statusIs(/^rows.txt is open; undo/);
    expect((await page.rows()).join() === 'CAT,A#O,TEE', `the grid is ${await page.rows()}`);
    await page.factsAre(/built-in list/);
    await asked('list');
    await takeList(browser);
    await page.factsAre(/rows.txt, 3 words/);
    await menu('built-in');
    await page.factsAre(/built-in list/);
  },

  async 'what is dropped of a file'() {
    // the sections of rebus, marks, the timer and another one, as solving programs write them
    const section = (name, data) => {
      const sum = [...data].reduce((so, byte) => (((so >> 1) | ((so & 1) << 15)) + byte) & 0xffff, 0);
      return Buffer.concat([Buffer.from(name), Buffer.from([data.length & 255, data.length >> 8, sum & 255, sum >> 8]), data, Buffer.from([0])]);
    };
    const xw = Xw.open(module, { record: 'size 3 1\nset 1 1 A\nset 1 2 C\nset 1 3 E\ntext clue 1 1 across Organs\ntext notes Two lines' });
    const plain = Buffer.from(xw.puz());
    const write = (name, ...sections) => writeFileSync(join(room, name), Buffer.concat([plain, ...sections]));
    write('heart.puz', section('GRBS', Buffer.from([0, 1, 0])), section('RTBL', Buffer.from(' 0:HEART;')));
    write('timed.puz', section('LTIM', Buffer.from('12,1')), section('GEXT', Buffer.from([0x80, 0x40, 0x10])), section('XYZZ', Buffer.from('?')));
    write('rebus.puz', section('GRBS', Buffer.from([2, 1, 0])), section('RTBL', Buffer.from(' 0:1/2; 1:3/4;')));
    const opening = async (name, pattern, tone) => {
      await openFile(join(room, name));
      await page.statusIs(pattern, tone);
    };
    await opening('heart.puz', /^heart.puz is open; undo/, 'good');
    expect((await page.rows()).join() === 'AHEARTE', `the grid is ${await page.rows()}`);
    await opening('timed.puz', /^timed.puz is open, but without 2 marks of cells, the timer and the section XYZZ; undo/, 'bad');
    expect(await page.has('1-1', 'circled'), 'the circle is lost');
    for (let time = 0; time < 2; time++) await opening('rebus.puz', /^rebus.puz is open, but without 2 rebus cells \(in row 1, column 1 3\/4 is A now\); undo/, 'bad');
    writeFileSync(join(room, 'plain.puz'), plain);
    await opening('plain.puz', /^plain.puz is open; undo/, 'good');
    const ipuz = {
      version: 'http://ipuz.org/v2', kind: ['http://ipuz.org/crossword#1'], dimensions: { width: 3, height: 1 }, saved: [['A', 0, 0]],
      puzzle: [[{ cell: 1, style: { colortext: 'ff0000' } }, { cell: 0, style: { shapebg: 'square' } }, 0]], solution: [['HEART', 'C', 'E']],
      clues: { Across: [[1, 'Organ']], Zones: [[1, 'All']] },
    };
    writeFileSync(join(room, 'coloured.ipuz'), JSON.stringify(ipuz));
    const parts = 'the colour of a cell, a shape that is no circle, the letters of a solver and the clues of Zones';
    await opening('coloured.ipuz', new RegExp(`^coloured.ipuz is open, but without ${parts.replace(/[()]/g, '\\$&')}; undo`), 'bad');
    expect((await page.rows()).join() === 'HEARTCE', `the grid is ${await page.rows()}`);
  },

  async 'files that are refused by name'() {
    await begin(6);
    await browser.type('co');
    await page.factsAre(/· 2 of/);
    const rows = await page.rows();
    const prose = 'It was the best of times, it was the worst of times, it was the age of\nwisdom, it was the age of foolishness, it was the epoch of belief, it was\nthe epoch of incredulity.\n';
    const files = {
      'none.puz': '', 'none.txt': '', 'none.xw': '', 'blank.txt': '\n\n \n', 'notes.xw': '# xw session 1\n\n# no more\n', 'prose.txt': prose,
      'some.puz': 'cat\ncot\n', 'numbers.csv': '1,2\n3,4\n', 'folder.txt': null,
      'sudoku.ipuz': JSON.stringify({ version: 'http://ipuz.org/v2', kind: ['http://ipuz.org/sudoku#1'], dimensions: { width: 2, height: 1 }, puzzle: [[1, 2]] }),
      'short.puz': puzOf({ version: '1.3\0', width: 2, height: 1, solution: 'AB', texts: ['', '', '', 'Clue', ''].map((one) => Buffer.from(one)) }).subarray(0, 40),
      'paper.pdf': '%PDF-1.4\n1 0 obj\n<< /Type /Catalog /Pages 2 0 R >>\nendobj\n2 0 obj\n<< /Type /Pages /Kids [] /Count 0 >>\nendobj\ntrailer\n<< /Root 1 0 R >>\nstartxref\n9\n%%EOF\n',
      'picture.png': PICTURE, 'picture.puz': PICTURE, 'noise.puz': Buffer.from('ACROSS\0\0\0'), 'mail.puz': `From: a@example.org\nSubject: A crossword\nMIME-Version: 1.0\n\n${'\0'.repeat(40)}`,
    };
    const said = {
      'some.puz': 'some.puz: this is no .puz file; it looks like a word list, so give it a name that ends with .txt', 'noise.puz': 'noise.puz: this is no .puz file',
      'paper.pdf': 'paper.pdf is a document (PDF), not a puzzle: nothing is opened', 'picture.puz': 'picture.puz is a picture (PNG), not a puzzle: nothing is opened',
      'short.puz': 'short.puz: the file ends too early', 'mail.puz': 'mail.puz is a mail without a file that can be opened: nothing is opened',
    };
    for (const [name, bytes] of Object.entries(files)) {
      if (bytes === null) mkdirSync(join(room, name));
      else writeFileSync(join(room, name), bytes);
      await hush();
      await browser.drop(join(room, name));
      const text = await page.statusIs(new RegExp(`^${name}`), 'bad');
      expect(!said[name] || text === said[name], `${name}: the page says: ${text}`);
      expect((await page.rows()).join() === rows.join(), `${name} changes the grid`);
      await page.factsAre(/built-in list/);
    }
    rmSync(join(room, 'folder.txt'), { recursive: true });
  },

  async 'sessions with and without their first line'() {
    const body = 'size 3 3\nblock 2 2\nsym half\nset 1 1 T\nset 1 2 O\nset 1 3 E\n';
    const files = { 'head.txt': `# xw session 1\n${body}`, 'older.txt': body, 'noted.txt': `# a note\r\n\r\n${body.replaceAll('\n', '\r\n')}`, 'marked.txt': `\ufeff# xw session 1\n${body}`, 'head.xw': `# xw session 1\n${body}` };
    for (const [name, text] of Object.entries(files)) {
      await begin(6);
      writeFileSync(join(room, name), text);
      await openFile(join(room, name));
      await page.statusIs(new RegExp(`^${name} is open`));
      expect((await page.rows()).join() === 'TOE,.#.,...', `the grid is ${await page.rows()}`);
    }
    const lines = (await saved('crossword.xw', () => menu('save-session'))).toString().split('\n');
    expect(lines[0] === '# xw session 1' && lines.filter((line) => line.startsWith('# xw')).length === 1, `the file begins with ${lines[0]}`);
  },

  async 'Ctrl S saves always'() {
    await begin(6);
    await browser.type('co');
    await page.factsAre(/· 2 of/);
    const session = (await saved('crossword.xw', () => browser.press('Control+s'))).toString();
    await page.statusIs(/^saved: crossword.xw: the session, since row 1, column 4 is empty$/);
    expect(/^# xw session 1$/m.test(session) && /set 1 3 O/.test(session), session);
    await menu('print');
    await the('#print-dialog').isOpen();
    await saved('crossword.xw', () => browser.press('Control+s'));
    await browser.press('Escape');
    await the('dialog[open]').isGone();
    await browser.press('|');
    await the('.bar-right').isThere();
    await saved('crossword.xw', () => browser.press('Control+s'));
    await page.statusIs(/since a .puz cannot hold bars/);
  },

  async 'files dropped on the page, and a session saved and opened'() {
    await begin(6);
    await browser.press('Control+f');
    await page.statusIs(/^filled/);
    const rows = await page.rows();
    await saved('crossword.xw', () => menu('save-session'));
    await begin(1);
    await browser.drop(join(room, 'crossword.xw'));
    await page.statusIs(/crossword.xw is open/);
    expect((await page.rows()).join() === rows.join(), 'the session differs');
    expect(await page.has('2-2', 'pencil'), 'the pencil is lost');
    writeFileSync(join(room, 'wrong.xw'), 'size 3 3\nnonsense\n');
    await openFile(join(room, 'wrong.xw'));
    await page.statusIs(/a line of the file is no command/);
    expect((await page.rows()).join() === rows.join(), 'a file that is refused has changed the grid');
  },

  async '.ipuz opened and saved, and sheets of clues'() {
    const given = {
      version: 'http://ipuz.org/v2', kind: ['http://ipuz.org/crossword#1'], title: 'Bars &amp; circles', author: 'A. Setter', dimensions: { width: 3, height: 3 },
      puzzle: [[1, { cell: 2, style: { barred: 'R' } }, { cell: 0, style: { shapebg: 'circle' } }], [{ cell: 3, style: { barred: 'T' } }, '#', 0], [4, 0, null]],
      solution: [['C', 'O', { value: 'T' }], ['A', '#', 'O'], ['T', '', '#']],
      clues: { Across: [[1, 'Firm =\u2192'], { number: 4, clue: '=1+1', enumeration: '1,1' }], Down: [[3, 'A \u201cquoted\u201d, listed clue (1-1)']] },
    };
    writeFileSync(join(room, 'given.ipuz'), JSON.stringify(given));
    await openFile(join(room, 'given.ipuz'));
    await page.statusIs(/given.ipuz is open/);
    expect((await page.rows()).join() === 'COT,A#O,T.#', `the grid is ${await page.rows()}`);
    expect((await page.has('1-2', 'bar-right')) && (await page.has('1-1', 'bar-below')) && (await page.has('1-3', 'circled')), 'a bar or the circle is lost');
    await picture('ipuz');
    const saves = JSON.parse((await saved('bars-circles.ipuz', () => menu('save-ipuz'))).toString());
    expect(saves.version === given.version && saves.title === 'Bars & circles' && saves.puzzle[1][1] === '#', JSON.stringify(saves));
    expect(saves.puzzle[0][1].style.barred === 'R' && saves.puzzle[0][0].style.barred === 'B' && saves.puzzle[0][2].style.shapebg === 'circle', JSON.stringify(saves.puzzle));
    expect(saves.solution[0].join('') === 'COT' && saves.solution[2][1] === null, JSON.stringify(saves.solution));
    const across = Object.fromEntries(saves.clues.Across);
    expect(across[1] === 'Firm =\u2192' && Object.values(across).includes('=1+1 (1,1)'), JSON.stringify(saves.clues));
    const csv = (await saved('bars-circles.csv', () => menu('clues-csv'))).toString();
    expect(csv.startsWith('\ufeff"Number","Direction","Answer","Clue"\r\n"1","Across","CO","Firm =\u2192"\r\n') && csv.includes(`,"'=1+1 (1,1)"\r\n`), csv);
    expect(csv.includes('"AT","A \u201cquoted\u201d, listed clue (1-1)"'), csv);
    const html = (await saved('bars-circles.html', () => menu('clues-html'))).toString();
    expect(html.includes('<h1>Bars &amp; circles</h1>') && html.includes('<td>Firm =\u2192</td><td>(2)</td><td>CO</td>'), html);
  },

  async 'colours of cells, and what formats cannot keep of a puzzle'() {
    await openRecord('size 3 3\nset 1 1 C\nset 1 2 O\nset 1 3 T\nset 2 1 A\nblock 2 2\nset 2 3 O\nset 3 1 T\nset 3 2 I\nset 3 3 E\n');
    await the('[data-tool=colour]').press();
    await untilInPage(() => !document.getElementById('palette').hidden && document.querySelectorAll('#palette [aria-pressed=true]').length === 1);
    await browser.drag('#cell-1-1', '#cell-1-3');
    await the('.cell.tinted.tint-ffe680').are(3);
    await browser.click('#palette [aria-label=blue]');
    await browser.click('#cell-3-1');
    await the('#cell-3-1.tint-b9d8ff').isThere();
    await picture('colours');
    await browser.press('Escape');
    await the('#mode').isHidden();
    // a key gives the last colour, and takes it away
    await browser.click('#cell-3-3');
    await browser.press('#');
    await the('#cell-3-3.tint-b9d8ff').isThere();
    expect(await inPage(() => document.getElementById('cell-3-3').ariaLabel.includes('E, blue')), 'the colour is not spoken');
    await browser.press('#');
    await the('#cell-3-3.tinted').isGone();
    await browser.press('Control+z');
    await the('#cell-3-3.tinted').isThere();
    await browser.click('#tab-puzzle');
    await the('#counts').says(/Yellow cellsCOT.*Blue cellsTE/);
    await browser.press('Control+p');
    await the('#preview .page:first-child rect[fill="#ffe680"]').are(3);
    await browser.press('Escape');
    // it is kept by the browser, in a session and in .ipuz
    await isDrafted(/colour 3 3/);
    await reload();
    expect((await page.count('.cell.tinted')) === 5, 'the colours are lost');
    await saved('crossword.xw', () => menu('save-session'));
    const ipuz = JSON.parse((await saved('crossword.ipuz', () => menu('save-ipuz'))).toString());
    await page.statusIs(/^saved: crossword.ipuz$/);
    expect(ipuz.puzzle[0][0].style.color === 'FFE680' && ipuz.puzzle[2][0].style.color === 'B9D8FF', JSON.stringify(ipuz.puzzle));
    for (const name of ['crossword.xw', 'crossword.ipuz']) {
      await begin(6);
      await openFile(join(room, name));
      await page.statusIs(/is open; undo/);
      await untilInPage(() => document.querySelectorAll('.cell.tint-ffe680').length === 3 && document.querySelectorAll('.cell.tint-b9d8ff').length === 2);
    }
    // what else is kept beside the grid: a link, a note and italics
    await browser.press('F3');
    await browser.insert('<i>Firm</i> (3)');
    await browser.press('Enter');
    await isDrafted(/<i>Firm/);
    await the('.clue-more .note').focus();
    await browser.insert('two meanings');
    await browser.press('Enter');
    await isDrafted(/two meanings/);
    const losses = {
      puz: ['save-puz', 'the italics of a clue, 5 colours of cells and a private note'], ipuz: ['save-ipuz', 'a private note'],
      jpz: ['save-jpz', 'a private note'], exolve: ['save-exolve', '5 colours of cells and a private note'],
    };
    for (const [form, [action, lost]] of Object.entries(losses)) {
      for (let time = 0; time < 2; time++) {
        await hush();
        await saved(`crossword.${form}`, () => menu(action));
        await page.statusIs(new RegExp(`^saved: crossword.${form}, without ${lost}$`));
      }
    }
    await saved('crossword.csv', () => menu('clues-csv'));
    await page.statusIs(/^saved: crossword.csv, with a private note$/);
    await openFile(join(room, 'crossword.jpz'));
    await page.statusIs(/^crossword.jpz is open; undo/);
    await untilInPage(() => document.querySelectorAll('.cell.tinted').length === 5 && document.querySelector('#clue-list textarea').value === '<i>Firm</i> (3)');
  },

  async '.jpz and the XML of Crossword Compiler'() {
    const cell = (x, y, more) => `<cell x="${x}" y="${y}" ${more}></cell>`;
    const xml = `<?xml version="1.0" encoding="UTF-8"?>
      <crossword-compiler-applet xmlns="http://crossword.info/xml/crossword-compiler"><applet-settings cursor-color="#00FF00"/>
      <rectangular-puzzle xmlns="http://crossword.info/xml/rectangular-puzzle" alphabet="ABCDEFGHIJKLMNOPQRSTUVWXYZ">
      <metadata><title>Bars &amp; circles</title><creator>A. Setter</creator><copyright/><description>Two \u2192 one</description></metadata>
      <crossword><grid width="3" height="3"><grid-look numbering-scheme="normal"/>
      ${cell(1, 1, 'solution="HEART" number="1"')}${cell(2, 1, 'solution="O" number="2" right-bar="true"')}${cell(3, 1, 'solution="T" background-shape="circle" background-color="#FF0000"')}
      ${cell(1, 2, 'solution="A" top-bar="true" number="3"')}${cell(2, 2, 'type="block"')}${cell(3, 2, 'solution="o" solve-state="X" background-color="#FFFFFF"')}
      ${cell(1, 3, 'solution="T" number="4"')}${cell(2, 3, 'solution="" left-bar="false"')}${cell(3, 3, 'type="void"')}</grid>
      <word id="1" x="1-2" y="1"/><word id="2"><cells x="3" y="1-2"/></word><word id="3" x="1" y="2-3"/><word id="4"><cells x="1" y="3"/><cells x="2" y="3"/></word><word id="5" x="1-3" y="2"/>
      <clues ordering="normal"><title><b>Across</b></title><clue word="1" number="1" format="5">A <i>firm</i> \u2665</clue><clue word="4" number="4" format="1,1">Ends</clue></clues>
      <clues ordering="normal"><title><b>Down</b></title><clue word="2" number="2">Also</clue><clue word="3" number="3" format="2">Two (2)</clue><clue word="5" number="5">Nothing</clue></clues>
      </crossword></rectangular-puzzle></crossword-compiler-applet>`;
    const rows = 'HEARTOT,A#O,T.#';
    const parts = 'the letters of a solver and a cell that is left out, which is a block now; 1 clue has no place in its grid';
    const isOpen = async (name, pattern = new RegExp(`^${name} is open, but without ${parts.replace(/[()]/g, '\\$&')}; undo`)) => {
      await openFile(join(room, name));
      await page.statusIs(pattern);
      expect((await page.rows()).join() === rows, `the grid is ${await page.rows()}`);
      expect((await page.has('1-2', 'bar-right')) && (await page.has('1-1', 'bar-below')) && (await page.has('1-3', 'circled')), 'a bar or the circle is lost');
      await browser.press('F3');
      await the('#clue-list textarea').hold('A <i>firm</i> \u2665 (5)|Ends (1,1)|Also|Two (2)', '|');
      expect(await page.has('1-3', 'tint-ff0000'), 'the colour is lost');
      await browser.press('F4');
      await untilInPage(() => document.getElementById('title').value === 'Bars & circles' && document.getElementById('notes').value === 'Two → one');
      await begin(6);
    };
    writeFileSync(join(room, 'given.xml'), xml);
    await isOpen('given.xml');
    writeFileSync(join(room, 'zipped.jpz'), zipOf([['given.xml', xml]]));
    await isOpen('zipped.jpz');
    await openFile(join(room, 'given.xml'));
    await page.statusIs(/^given.xml is open/);
    await saved('bars-circles.jpz', () => menu('save-jpz'));
    await isOpen('bars-circles.jpz', /^bars-circles.jpz is open; undo/);
    writeFileSync(join(room, 'half.jpz'), xml.slice(0, xml.indexOf('<clues')));
    await openFile(join(room, 'half.jpz'));
    expect((await faultsShown()).join() === 'the file ends too early: what is there is taken', 'something else is wrong');
    await openAnyway('cancel');
    await page.statusIs(/^half.jpz is not opened$/, 'bad');
    for (const [name, text, pattern] of [['damaged.jpz', '<crossword-compiler><a></b>', /^damaged.jpz: it is no XML$/], ['none.jpz', '<crossword-compiler/>', /^none.jpz: it is no crossword$/]]) {
      writeFileSync(join(room, name), text);
      await openFile(join(room, name));
      await page.statusIs(pattern, 'bad');
    }
  },

  async 'Exolve, and a .puz of version 2.0'() {
    const [rows, firm] = ['COT,A#O,TIE', 'Firm <i>\u2665</i> & (3)'];
    const isOpen = async (name, pattern, first = firm) => {
      await begin(6);
      await openFile(join(room, name));
      await page.statusIs(pattern);
      expect((await page.rows()).join() === rows, `the grid is ${await page.rows()}`);
      await browser.press('F3');
      await the('#clue-list textarea').hold(`${first}|Ends|Also|Two`, '|');
    };
    const text = `exolve-begin\n exolve-title: Three\n exolve-width: 3\n exolve-height: 3\n exolve-grid:\n  COT\n  A.O@\n  TIE
 exolve-across:\n  1 Firm <i>\u2665</i> &amp; (3) <b>c</b> +<br>ot\n  3 Ends\n exolve-down:\n  1 Also\n  2 Two\n exolve-colour: red a1\nexolve-end\n`;
    writeFileSync(join(room, 'given.exolve'), text);
    await isOpen('given.exolve', /^given.exolve is open, but without the section exolve-colour; undo/);
    expect(await page.has('2-3', 'circled'), 'the circle is lost');
    await the('#clue-list textarea').focus();
    await the('.clue-more .note').holds('c + ot');
    await saved('three.exolve', () => menu('save-exolve'));
    await isOpen('three.exolve', /^three.exolve is open; undo/);
    const texts = ['Three \u2192 four', '', '', 'Firm \u2665 & (3)', 'Also', 'Two', 'Ends', ''].map((one) => Buffer.from(one));
    writeFileSync(join(room, 'later.puz'), puzOf({ version: '2.0\0', width: 3, height: 3, solution: 'COTA.OTIE', texts }));
    // which has no italics
    await isOpen('later.puz', /^later.puz is open; undo/, 'Firm \u2665 & (3)');
    await browser.press('F4');
    await the('#title').holds('Three \u2192 four');
    // as version 1.3, with near characters
    await saved('three-four.puz', () => menu('save-puz'));
    await page.statusIs(/^saved: three-four.puz, with near characters for “→”, “♥”/);
  },

  async 'several letters in a cell'() {
    writeFileSync(join(room, 'sweet.txt'), 'sweetheart\nhearts\nsets\ntea\nsweeth\n');
    await openList(join(room, 'sweet.txt'));
    await page.factsAre(/sweet.txt, 5 words/);
    // SWEET[HEART] across, and [HEART]S down
    await openRecord('size 6 2\nblock 2 1\nblock 2 2\nblock 2 3\nblock 2 4\nblock 2 5\ntext title Sweet\ntext clue 1 1 across Darling (10)\ntext clue 1 6 down Suit\n');
    await browser.type('sweet');
    await page.factsAre(/· 5 of/);
    const enter = async (letters) => {
      await browser.press('Insert');
      await untilInPage(() => document.getElementById('rebus-dialog').open && document.activeElement.id === 'rebus');
      await browser.insert(letters);
      await browser.press('Enter');
      await the('#rebus-dialog').isClosed();
    };
    await page.cursorAt('1-6');
    await enter('heart');
    await page.factsAre(/· 6 of/);
    await the('#cell-1-6.rebus .letter').says('HEART');
    await picture('rebus');
    expect((await the('#cell-1-6').get('ariaLabel')).includes('HEART'), 'the cell is named otherwise');
    await browser.click('#cell-2-6');
    await browser.type('s');
    // SWEETHEART and HEARTS are in the list, and SWEETH is none of the words
    await page.factsAre(/filled/);
    await browser.press('F4');
    await untilInPage(() => /^Nothing is missing|⚠/.test(document.getElementById('checks').textContent) && !/not in your lists|says/.test(document.getElementById('checks').textContent));
    expect(!(await inPage(() => /share HEART/.test(document.getElementById('checks').textContent))), 'it warns of the letters of the cell');
    const bytes = (await saved('sweet.puz', () => browser.press('Control+s'))).toString('latin1');
    expect(bytes.includes(' 0:HEART;') && bytes.includes('GRBS'), 'the .puz has no rebus');
    const ipuz = JSON.parse((await saved('sweet.ipuz', () => menu('save-ipuz'))).toString());
    expect(ipuz.solution[0].join() === 'S,W,E,E,T,HEART', JSON.stringify(ipuz.solution));
    const csv = (await saved('sweet.csv', () => menu('clues-csv'))).toString();
    expect(csv.includes('"Across","SWEETHEART",') && csv.includes('"Down","HEARTS",'), csv);
    await menu('print');
    await the('#preview .solution text').oneSays('HEART');
    await browser.press('Escape');
    await the('dialog[open]').isGone();
    await saved('sweet.xw', () => menu('save-session'));
    // another word there is told; letters over it take its place, and undo brings it back
    await browser.click('#cell-1-6');
    await enter('heat');
    await the('#checks').says(/SWEETHEAT is not in your lists/);
    await browser.press('Control+z');
    await the('#cell-1-6 .letter').says('HEART');
    await browser.click('#cell-1-6');
    await browser.type('h');
    await the('#cell-1-6:not(.rebus) .letter').says('H');
    await browser.press('Control+z');
    await the('#cell-1-6.rebus .letter').says('HEART');
    await browser.press('Control+y');
    await the('#cell-1-6:not(.rebus) .letter').says('H');
    // all of it is in files, and in what the browser keeps
    for (const name of ['sweet.puz', 'sweet.ipuz', 'sweet.xw']) {
      await begin(6);
      await openFile(join(room, name));
      await page.statusIs(new RegExp(`^${name} is open; undo`));
      expect((await page.rows()).join() === 'SWEETHEART,#####S', `${name}: the grid is ${await page.rows()}`);
    }
    await reload();
    expect((await page.rows()).join() === 'SWEETHEART,#####S', `the grid is ${await page.rows()}`);
    // Esc enters nothing, no letters empty the cell, and a block has none
    await browser.click('#cell-1-6');
    await browser.press('Insert');
    await untilInPage(() => document.activeElement.id === 'rebus' && document.activeElement.value === 'HEART');
    await browser.press('Escape');
    await the('#rebus-dialog').isClosed();
    expect((await page.row(1)) === 'SWEETHEART', `the row is ${await page.row(1)}`);
    await browser.press('Insert');
    await the('#rebus').hasFocus();
    await browser.press('Delete');
    await browser.press('Enter');
    await page.factsAre(/· 6 of/);
    await menu('built-in');
    await page.factsAre(/built-in list/);
  },

  async 'printing'() {
    await reload();
    // as a rule clues have lengths in British puzzles alone
    for (const [pattern, hasLengths] of [[3, true], [1, false]]) {
      await begin(pattern);
      await browser.press('Control+p');
      await browser.until(`document.getElementById('print-dialog').open && document.getElementById('print-lengths').checked === ${hasLengths}`);
      await browser.until(`(document.querySelectorAll('#preview .clues .length').length > 30) === ${hasLengths}`);
      await browser.press('Escape');
    }
    await browser.press('Control+f');
    await page.statusIs(/^filled/);
    // the usual paper of the region is chosen
    expect(await inPage(() => (document.querySelector('[name=paper]:checked').value === (/-US$/.test(navigator.language) ? 'letter' : 'A4'))), 'another paper is chosen');
    for (const [paper, width] of [['A4', 595], ['letter', 612]]) {
      await browser.press('Control+p');
      await the('#preview .page').are(2);
      await browser.click(`[name=paper][value=${paper}]`);
      await print();
      const pdf = await browser.pdf();
      if (pictures) writeFileSync(join(pictures, `print-${paper}.pdf`), pdf);
      const text = pdf.toString('latin1');
      const box = /\/MediaBox\s*\[\s*0\s+0\s+([\d.]+)/.exec(text);
      expect(Math.abs(Number(box[1]) - width) < 2, `the paper is ${box[1]} points wide`);
      const pages = (text.match(/\/Type\s*\/Page\b/g) ?? []).length;
      expect(pages === 2, `${pages} pages`);
    }
    await browser.press('Control+p');
    await browser.click('[name=parts][value=submission]');
    await the('#print-address').focus();
    await browser.insert('1 Grid Road');
    // on each page, also where the answers go on
    await untilInPage(() => [...document.querySelectorAll('#preview .page')].every((page) => page.querySelector('.address').textContent.includes('1 Grid Road')) && document.querySelectorAll('#preview .answers tr').length > 60);
    expect(await inPage(() => [...document.querySelectorAll('#preview .page')].every((page) => page.scrollHeight <= page.clientHeight)), 'a page of the preview is cut off');
    await picture('print');
    await print();
    expect((await page.count('#sheet .answers')) > 0, 'the answers are not printed');
    const pdf = await browser.pdf();
    if (pictures) writeFileSync(join(pictures, 'submission.pdf'), pdf);
    await browser.press('Control+p');
    await the('#print-address').holds('1 Grid Road');
    await browser.click('[name=parts][value=both]');
    await browser.click('#print-dialog [value=cancel]');
  },
};

// What cases need that not every browser can do.
export const NEEDS = { 'files that are refused by name': ['folders'], printing: ['pdf'] };

await runAlone(import.meta.url, { CASES, NEEDS });
