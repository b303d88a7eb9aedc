// Tests the built page in Firefox, by keys: a word, a fill, a reload; a barred grid with fills to choose from; grids around theme entries; a raised
// fill.
//
//   node --experimental-websocket web/test/firefox.mjs
//
// It needs web/dist/xw.html (./build web) and Debian's package firefox-esr. The last line is 'N passed, M failed'.
import { Count } from './count.mjs';
import { FirefoxBrowser } from './firefox-browser.mjs';

const PAGE = new URL('../dist/xw.html', import.meta.url).href;
const firefox = await FirefoxBrowser.open();
// Does something in the page, such as a click.
const act = (expression) => firefox.value(`((${expression}), true)`);
const letterIs = (cell, letter) => firefox.until(`document.querySelector('#cell-${cell} .letter')?.textContent === '${letter}'`);
const factsAre = (pattern) => firefox.until(`${pattern}.test(document.getElementById('facts').textContent)`);
const isFilled = () => firefox.until("/filled/.test(document.getElementById('facts').textContent) && document.getElementById('stop').hidden");

const CASES = {
  'a word, a fill and a reload': wordFillReload,
  'a barred grid with fills to choose from': barredFills,
  'grids around theme entries, judged': themes,
  'a raised fill, weak words and the least score': raisedFill,
};

async function wordFillReload() {
  await firefox.go(PAGE);
  await factsAre(/words$/);
  await firefox.type('tone');
  await letterIs('1-4', 'E');
  await firefox.until("document.getElementById('kept').dataset.state === 'kept'");
  await firefox.press('Control+f');
  await isFilled();
  await firefox.press('Control+z');
  await factsAre(/· 4 of/);
  await firefox.until("document.getElementById('kept').dataset.state === 'kept'");
  await firefox.go(PAGE);
  await letterIs('1-4', 'E');
}

async function barredFills() {
  await act("document.querySelector('[data-do=new]').click(), [...document.querySelectorAll('#patterns .pattern')].find(({ textContent }) => textContent.startsWith('Barred 12')).click()");
  await factsAre(/^12 × 12 · 0 of 144/);
  await firefox.press('Control+f');
  await isFilled();
  await firefox.press('Control+g');
  await firefox.until("document.querySelectorAll('#fills-list .fill').length === 3 && document.querySelector('#fills-list .fill:first-child[aria-pressed=true]')");
  await act("document.querySelector('#fills-list .fill:nth-child(2)').click()");
  await firefox.until("document.querySelector('#fills-list .fill:nth-child(2)[aria-pressed=true]')");
}

async function themes() {
  await act("document.querySelector('[data-do=themes]').click(), document.getElementById('themes-entries').value = 'piano\\ndrum machine\\nbass guitars', document.getElementById('themes-show').click()");
  await firefox.until("[...document.querySelectorAll('#themes-grids .pattern')].filter((card) => !card.querySelector('.bad')).length > 2");
  await act("document.querySelector('#themes-grids .pattern').click()");
  await factsAre(/^15 × 15 · 27 of/);
}

async function raisedFill() {
  const list = 'ab;90\\ncd;80\\nac;70\\nbd;60\\nef;75\\ngh;85\\neg;65\\nfh;95\\n';
  await act(`(() => {
    const data = new DataTransfer();
    data.items.add(new File(['${list}'], 'squares.txt'));
    document.getElementById('picker').files = data.files;
    document.getElementById('picker').dispatchEvent(new Event('change'));
  })()`);
  await firefox.until("document.getElementById('list-dialog').open");
  // a key presses no button of a page that has no focus
  await firefox.click('#list-dialog [value=take]');
  await factsAre(/squares.txt, 8 words/);
  await act("document.querySelector('[data-do=new]').click(), document.getElementById('new-width').value = 2, document.getElementById('new-height').value = 2, document.getElementById('new-blank').click()");
  await factsAre(/^2 × 2 · 0 of/);
  // the raising goes on until none is better, however slow the machine is
  await act('window.inTime = window.setTimeout, window.setTimeout = (action, time, ...more) => (time === 2000 || time === 4000 ? 0 : window.inTime(action, time, ...more))');
  await firefox.press('Control+f');
  await firefox.until("/^worst 65, mean 80; no fill is better; all but [13] (Across|Down) have 75 or more$/.test(document.getElementById('figures-text').textContent)");
  await act("document.getElementById('weak').value = 70, document.getElementById('weak').dispatchEvent(new Event('change'))");
  await firefox.until("document.querySelectorAll('.weak-across, .weak-down').length === 2");
  await act("document.getElementById('least').value = 66, document.getElementById('least').dispatchEvent(new Event('input')), document.getElementById('least').dispatchEvent(new Event('change'))");
  await firefox.until("document.getElementById('least-left').textContent === '6 of 8 words'");
  await firefox.press('Control+z');
  await factsAre(/^2 × 2 · 0 of/);
  await firefox.press('Control+f');
  await firefox.until("/there is no fill/.test(document.getElementById('status').textContent)");
}

const count = new Count();
try {
  await count.runAll(CASES);
} finally {
  await firefox.close();
}
count.end();
