// Cases of the page as a whole: browsers, screens, messages and failures.
import { writeFileSync } from 'node:fs';
import { join } from 'node:path';
import { begin, intoDeadEnd, menu, openGraded, openList } from '../doing.mjs';
import { changeEdit } from '../holding.mjs';
import { PAGE, browser, expect, inPage, page, picture, pictures, reload, room, runAlone, the, untilInPage } from '../page.mjs';

export const CASES = {
  async 'a browser that cannot run the page'() {
    const faults = { 'delete window.DecompressionStream': /cannot unpack the engine/, 'delete window.WebAssembly': /cannot run the engine/ };
    for (const [source, pattern] of Object.entries(faults)) {
      const unload = await browser.preload(source);
      await browser.go(PAGE.href);
      await browser.until(`(({ hidden, textContent }) => !hidden && ${pattern}.test(textContent) && /Firefox \\d+/.test(textContent))(document.getElementById('cannot'))`);
      await picture('cannot');
      await unload();
    }
    await reload();
    expect(await the('#cannot').get('hidden'), 'a browser that can run the page is refused');
  },

  async 'messages, and those before them'() {
    await begin(6);
    await browser.press('5');
    await page.statusIs(/“5” does nothing here/);
    await browser.press('Control+z');
    await the('#redo').isEnabled();
    await browser.press('Control+y');
    await the('#redo').isDisabled();
    await browser.click('#messages');
    await untilInPage(() => !document.getElementById('history').hidden && /“5” does nothing here/.test(document.getElementById('history').textContent) && /a new puzzle/.test(document.getElementById('history').textContent));
    await picture('messages');
    await browser.click('#messages');
    await the('#history').isHidden();
    await browser.click('#cell-2-2');
    await browser.press('5');
    await page.statusIs(/“5” does nothing here/);
    await browser.click('#toast-close');
    await untilInPage(() => !document.getElementById('status').textContent && document.activeElement.id === 'grid');
  },

  async 'a failure of the engine'() {
    await begin(1);
    await browser.type('rot');
    await page.factsAre(/· 3 of/);
    await changeEdit('set 1 4 E', "{ ...message, call: 'nonsense' }");
    await browser.type('e');
    await page.statusIs(/the engine failed/);
    await page.factsAre(/· 3 of/);
    expect((await page.row(1)).startsWith('ROT.'), `the grid is lost: ${await page.row(1)}`);
    await browser.click('#cell-2-1');
    await browser.type('a');
    await the('#cell-2-1 .letter').says('A');
    await page.factsAre(/· 4 of/);
  },

  async 'a screen that is touched'() {
    await begin(1);
    await browser.view(390, 844, { isTouched: true });
    try {
      await browser.tap('#cell-1-1');
      await the('#typing').hasFocus();
      await browser.insert('ro');
      await page.cursorAt('1-3');
      await the('#cell-1-2 .letter').says('O');
      await browser.erase();
      await page.cursorAt('1-2');
      await the('#cell-1-2 .letter').says('');
      await browser.insert('A');
      await browser.tap('#cell-1-1');
      await the('#cell-1-1.cursor.across').isThere();
      await browser.tap('#cell-1-1');
      await the('#cell-1-1.cursor.down').isThere();
      await browser.insert('re');
      await page.cursorAt('3-1');
      await untilInPage(() => ['1-1', '1-2', '2-1'].map((cell) => document.querySelector(`#cell-${cell} .letter`).textContent).join('') === 'RAE');
      await picture('touch');
      // a word that leaves some stays where it is
      const word = await untilInPage(() => [...document.querySelectorAll('#candidates[aria-busy=false] li')].find((row) => Number(row.querySelector('.left').textContent) > 0)?.dataset.word);
      await browser.tap(`#candidates [data-word=${word}]`);
      await the('#cell-4-1 .letter').says(word[3]);
      await the('#grid').hasFocus();
      // what is too large for the screen pans, to the cursor too
      await inPage(() => (document.querySelector('[data-do=new]').click(), document.querySelector('#patterns .pattern:nth-child(7)').click()));
      await page.factsAre(/^21 × 21/);
      expect((await the('#cell-1-1').get('offsetWidth')) >= 22, 'a cell is too small');
      await browser.tap('#cell-1-2');
      await browser.press('End');
      await browser.press('Tab');
      await browser.press('Tab');
      await untilInPage(() => (({ right }) => right <= innerWidth)(document.querySelector('.cursor').getBoundingClientRect()));
      await picture('touch-21');
    } finally {
      await browser.view(1400, 900);
    }
  },

  async 'messages that cover no facts and no candidate'() {
    await intoDeadEnd();
    try {
      const sizes = [[1920, 1080], [1400, 900], [1180, 800], [1024, 768], [1000, 700], [768, 1024], [390, 844]];
      for (const [width, height, isRaising] of sizes.flatMap((size) => [[...size, false], [...size, true]])) {
        await browser.view(width, height);
        await browser.press('?');
        await page.statusIs(/no word, by/);
        // the longest one, of a raising
        if (isRaising) await inPage(() => (document.getElementById('status').textContent = 'worst 62, mean 81; no fill is better than 84; all but 14 Down, 23 Across and 31 Across have 61 or more; looking for 63 or more of these; 12 s'));
        const covered = await untilInPage(() => {
          const boxOf = (element) => element.getBoundingClientRect();
          const toast = boxOf(document.getElementById('toast'));
          if (!toast.width) return null;
          // what the panel does not show can be scrolled to
          const end = (element) => (element.closest('.panel, .board') ? boxOf(element.closest('.panel, .board')).bottom : Infinity);
          const isOver = (element) => {
            const { left, right, top, bottom, width } = boxOf(element);
            return width > 0 && left < toast.right && right > toast.left && top < toast.bottom && Math.min(bottom, end(element)) > toast.top;
          };
          const others = ['facts', 'candidates', 'letters', 'crossing-candidates', 'grid'].filter((id) => isOver(document.getElementById(id)));
          return { others, isIn: toast.left >= 0 && toast.right <= innerWidth && toast.bottom <= innerHeight && toast.width > 200 };
        });
        expect(covered.isIn && !covered.others.length, `${width}: the message covers ${covered.others}, or is out of sight`);
        await picture(`toast-${width}${isRaising ? '-raising' : ''}`);
      }
    } finally {
      await browser.view(1400, 900);
    }
    await browser.press('Control+z');
  },

  async 'numbers that keep clear of letters'() {
    await begin(1);
    await browser.type('qmw');
    await page.cursorAt('1-4');
    // what is inked of a text: from the font's box, whose baseline is known, and the box of the letters
    const gaps = await untilInPage(() => {
      const canvas = new OffscreenCanvas(1, 1).getContext('2d');
      const inkOf = (span) => {
        const range = document.createRange();
        range.selectNodeContents(span);
        const box = range.getBoundingClientRect();
        const { fontStyle, fontWeight, fontSize, fontFamily } = getComputedStyle(span);
        canvas.font = [fontStyle, fontWeight, fontSize, fontFamily].join(' ');
        const { fontBoundingBoxAscent, fontBoundingBoxDescent, actualBoundingBoxAscent, actualBoundingBoxDescent } = canvas.measureText(span.textContent);
        const baseline = box.top + box.height * fontBoundingBoxAscent / (fontBoundingBoxAscent + fontBoundingBoxDescent);
        return { top: baseline - actualBoundingBoxAscent, bottom: baseline + actualBoundingBoxDescent };
      };
      const grid = document.getElementById('grid');
      const before = [grid.style.getPropertyValue('--cell'), grid.className];
      const found = [24, 26, 28, 30, 34, 38, 44, 52, 60].flatMap((size) => {
        grid.style.setProperty('--cell', size + 'px');
        grid.classList.toggle('small', size < 30);
        return ['1-1', '1-2', '1-3'].map((cell) => {
          const [root, number, letter] = ['', ' .number', ' .letter'].map((part) => document.querySelector('#cell-' + cell + part));
          const { bottom } = root.getBoundingClientRect();
          return [size, letter.textContent, inkOf(letter).top - inkOf(number).bottom, bottom - inkOf(letter).bottom];
        });
      });
      grid.style.setProperty('--cell', before[0]);
      grid.className = before[1];
      return found;
    });
    const faults = gaps.filter(([, letter, above, below]) => !letter || above < 1 || below < (letter === 'Q' ? -0.5 : 1));
    expect(gaps.length === 27 && !faults.length, `too close: ${faults.map(([size, letter, ...room]) => `${letter} at ${size}: ${room.map((one) => one.toFixed(1))}`).join('; ')}`);
  },

  async 'a mode and the help on a phone'() {
    await browser.view(360, 740, { isTouched: true });
    try {
      await begin(6);
      await browser.click('#more');
      await browser.click('[data-tool=colour]');
      const outside = await inPage(() => [...document.querySelectorAll('#mode button')].map((button) => button.getBoundingClientRect())
        .filter(({ width, left, right, bottom }) => !width || left < 0 || right > innerWidth || bottom > innerHeight / 3).length);
      expect(outside === 0, `${outside} buttons of the mode are out of sight`);
      await picture('mode-phone');
      await browser.click('#mode [data-do=end-mode]');
      await browser.click('#more');
      await browser.click('#tools [data-do=help]');
      await the('#help-dialog').isOpen();
      const top = await inPage(() => document.getElementById('help-title').getBoundingClientRect().top);
      expect(top > 0, `the help begins ${-top} above its first line`);
      const columns = await inPage(() => [...new Set([...document.querySelectorAll('#help-dialog td')].map((cell) => Math.round(cell.getBoundingClientRect().left)))]);
      expect(columns.length === 1, `what keys do begins at ${columns}`);
      await browser.press('Escape');
      await menu('new');
      const width = await inPage(() => (([one, two], dialog) => (two.right - one.left) / dialog)([...document.querySelectorAll('#patterns .pattern')].map((pattern) => pattern.getBoundingClientRect()), document.getElementById('patterns').closest('dialog').clientWidth));
      expect(width > 0.85, `two new puzzles take ${width} of the dialog`);
      await browser.press('Escape');
    } finally {
      await browser.view(1400, 900);
      await reload();
    }
  },

  async 'bars of letters and fields of scores at several widths'() {
    await openGraded();
    try {
      for (const [width, height] of [[1280, 800], [1400, 900], [1920, 1080]]) {
        await browser.view(width, height);
        const top = (id) => browser.value(`document.getElementById('${id}').getBoundingClientRect().top`);
        await browser.click('#tab-words');
        expect((await top('weak')) === (await top('threes')), `${width}: the fields of scores are in two lines`);
        await browser.click('#tab-puzzle');
        await the('#frequency span').are(26);
        const lines = await inPage(() => new Set([...document.querySelectorAll('#frequency span')].map(({ offsetTop }) => offsetTop)).size);
        expect(lines === 1, `${width}: the letters are in ${lines} lines`);
        await picture(`letters-${width}`);
      }
    } finally {
      await browser.view(1400, 900);
    }
    await browser.click('#tab-words');
    await menu('built-in');
    await page.factsAre(/built-in list/);
  },

  async 'scores that fold away on a phone'() {
    writeFileSync(join(room, 'folded.txt'), 'cat;50\ncot;60\ncut;100\n');
    await openList(join(room, 'folded.txt'));
    await page.factsAre(/folded.txt, 3 words/);
    const isOpen = (open) => browser.until(`document.getElementById('least-row').open === ${open} && (document.getElementById('least').checkVisibility() === ${open})`);
    await browser.click('#tab-words');
    await isOpen(true);
    expect(!(await inPage(() => document.getElementById('least-told').checkVisibility())), 'it can be folded in a wide window');
    try {
      await browser.view(390, 844);
      await isOpen(false);
      await the('#least-told').says('All scores, marks below 50');
      await browser.click('#least-told');
      await isOpen(true);
      await picture('scores-on-a-phone');
    } finally {
      await browser.view(1400, 900);
    }
    await isOpen(true);
    await menu('built-in');
    await page.factsAre(/built-in list/);
  },

  async 'tools that stay where they are'() {
    await begin(1);
    try {
      for (const [width, height] of [[1400, 900], [1280, 800], [700, 450], [390, 844], [320, 640]]) {
        await browser.view(width, height);
        const places = (isRunning) => browser.value(`(document.getElementById('stop').hidden = ${!isRunning},
          ['file', 'undo', 'fill'].map((id) => document.getElementById(id).getBoundingClientRect()).map(({ x, y, width }) => [x, y, width].map(Math.round)).join(' '))`);
        const [one, other] = [await places(false), await places(true)];
        const isShown = await inPage(() => (({ x, right, width }) => width > 0 && x >= 0 && right <= innerWidth)(document.getElementById('stop').getBoundingClientRect()));
        await places(false);
        expect(one === other, `${width}: the tools move from ${one} to ${other}`);
        expect(isShown, `${width}: the button is out of sight`);
        expect(await inPage(() => document.querySelector('.tools').offsetHeight < 80), `${width}: the tools have a second row`);
        expect(await inPage(() => document.documentElement.scrollWidth <= innerWidth), `${width}: the page is ${await inPage(() => document.documentElement.scrollWidth)} wide`);
        await picture(`tools-${width}`);
      }
    } finally {
      await browser.view(1400, 900);
    }
  },

  async 'colours that the system forces'() {
    await begin(1);
    await browser.type('to');
    await untilInPage(() => document.querySelector('.block') && document.querySelector('#cell-1-1 .letter').textContent === 'T');
    await the('[data-tool=block]').press();
    await browser.forceColors('active');
    try {
      const lookOf = (selector) => browser.value(`(({ backgroundColor, boxShadow, color }) => ({ backgroundColor, boxShadow, color }))(getComputedStyle(document.querySelector(${JSON.stringify(selector)})))`);
      const [block, cell, cursor] = [await lookOf('.cell.block'), await lookOf('.cell:not(.block, .cursor)'), await lookOf('.cell.cursor')];
      expect(block.backgroundColor !== cell.backgroundColor, `a block looks like a cell: ${cell.backgroundColor}`);
      expect(cursor.boxShadow !== 'none' && !cursor.boxShadow.includes(cell.backgroundColor), `the cursor is not seen: ${cursor.boxShadow}`);
      for (const [chosen, other] of [['.tool[aria-pressed=true]', '.tool[aria-pressed=false]'], ['.tabs [aria-selected=true]', '.tabs [aria-selected=false]']]) {
        const [one, two] = [await lookOf(chosen), await lookOf(other)];
        expect(one.backgroundColor !== two.backgroundColor && one.color !== one.backgroundColor, `${chosen} looks like ${other}: ${one.backgroundColor}`);
      }
      // the number of the warnings
      const count = await inPage(() => (({ backgroundColor, color, forcedColorAdjust }) => ({ backgroundColor, color, forcedColorAdjust }))(getComputedStyle(document.querySelector('.tabs .count'))));
      expect(count.forcedColorAdjust === 'none' && count.color !== count.backgroundColor, `the number of the warnings is not seen: ${count.color} on ${count.backgroundColor}`);
      // a word of the list that is pointed at, and a dead cell
      await browser.press('Escape');
      await browser.click('#tab-words');
      await browser.press('/');
      await the('#candidates[aria-busy=false] li').isThere();
      await browser.press('ArrowDown');
      const [one, two] = [await lookOf('#candidates li[aria-selected=true]'), await lookOf('#candidates li:not([aria-selected=true])')];
      expect(one.backgroundColor !== two.backgroundColor, 'the word that is pointed at is not seen');
      if (pictures) writeFileSync(join(pictures, 'forced-colours.png'), await browser.picture());
    } finally {
      await browser.forceColors('none');
      await browser.scheme('light');
    }
  },

  async 'sizes of type, of targets and of contrasts'() {
    await begin(1);
    await browser.type('to');
    // colours as red, green and blue, and their contrast
    const colours = `
      const canvas = new OffscreenCanvas(1, 1).getContext('2d', { willReadFrequently: true });
      const rgb = (colors) => { canvas.clearRect(0, 0, 1, 1); for (const color of colors) { canvas.fillStyle = color; canvas.fillRect(0, 0, 1, 1); } return [...canvas.getImageData(0, 0, 1, 1).data].slice(0, 3); };
      const light = (color) => color.map((part) => part / 255).map((part) => (part <= 0.03928 ? part / 12.92 : ((part + 0.055) / 1.055) ** 2.4)).reduce((sum, part, at) => sum + part * [0.2126, 0.7152, 0.0722][at], 0);
      const contrast = (colors, others) => { const [one, other] = [light(rgb(colors)), light(rgb(others))].sort((a, b) => b - a); return (one + 0.05) / (other + 0.05); };
      const behind = (element) => { const colors = []; for (let one = element; one; one = one.parentElement) colors.unshift(getComputedStyle(one).backgroundColor); return colors; };`;
    // text, and what lies behind it
    const measure = () => browser.value(`(() => {
      ${colours}
      const faults = [];
      for (const element of document.querySelectorAll('body *')) {
        const text = [...element.childNodes].find((node) => node.nodeType === 3 && node.data.trim());
        const { width, height } = element.getBoundingClientRect();
        if (!text || !width || !height || element.closest('svg, .late, :disabled, option, .typing') || getComputedStyle(element).visibility === 'hidden') continue;
        const style = getComputedStyle(element);
        if (parseFloat(style.fontSize) < 12) faults.push(text.data + ' has ' + style.fontSize);
        const told = contrast([...behind(element), style.color], behind(element));
        if (told < 4.5) faults.push(text.data + ' has a contrast of ' + told.toFixed(2));
      }
      return faults;
    })()`);
    // What carries meaning without being text: colours of cells, and of marks in cells, each beside what it stands out from.
    const meanings = () => browser.value(`(() => {
      ${colours}
      const cell = document.createElement('div');
      document.querySelector('#grid .row').append(cell);
      const root = getComputedStyle(document.documentElement);
      const of = (name) => { cell.className = 'cell ' + name; const { backgroundColor, backgroundImage, boxShadow } = getComputedStyle(cell); return { color: backgroundColor, mark: (backgroundImage + boxShadow).match(/(rgba?|color|oklab)\\([^)]*\\)/g)?.find((one) => !/^rgba.*, 0\\)$/.test(one)) }; };
      const pairs = Array.from({ length: 8 }, (_, at) => ['shade-' + (at + 1), of('shade-' + (at + 1))]).map(([name, { color, mark }]) => [name, mark, color]);
      for (const name of ['dead', 'waiting', 'unmatched', 'chosen', 'within', 'reason', 'cursor', 'weak-across', 'weak-down', 'worst weak-across', 'worst weak-down']) { const { color, mark } = of(name); if (mark) pairs.push([name, mark, color]); }
      pairs.push(['block', of('block').color, of('').color], ['bar', root.getPropertyValue('--ink'), of('').color], ['band', root.getPropertyValue('--cursor'), of('').color]);
      for (const name of ['accent', 'edge', 'reason', 'good', 'few-mark']) pairs.push([name, root.getPropertyValue('--' + name), root.getPropertyValue('--panel')]);
      const spans = ['number', 'letter'].map((className) => cell.appendChild(Object.assign(document.createElement('span'), { className })));
      const texts = ['', 'pencil', 'only', 'reason', 'dead', 'unmatched', 'waiting', 'faulty', 'chosen', 'cursor', 'shade-8', 'ghost', 'spent', 'worst'].flatMap((name) => spans.map((span) => {
        const { color } = of(name);
        const ink = getComputedStyle(span).color;
        // alone, in the light of the cursor, in the one that crosses it, and in both
        return [[], [root.getPropertyValue('--band')], [root.getPropertyValue('--crossing-band')], [root.getPropertyValue('--band'), root.getPropertyValue('--crossing-band')]]
          .map((bands) => [name + ' ' + span.className + ' under ' + bands.length, contrast([color, ink, ...bands], [color, ...bands])]);
      })).flat();
      cell.remove();
      return { texts, marks: pairs.filter(([, mark]) => mark).map(([name, one, other]) => [name, contrast([other, one], [other])]) };
    })()`);
    for (const scheme of ['light', 'dark']) {
      await browser.scheme(scheme);
      const { marks, texts } = await meanings();
      const weak = [...marks.filter(([, contrast]) => contrast < 3), ...texts.filter(([, contrast]) => contrast < 4.5)];
      expect(marks.length >= 20 && texts.length >= 80 && !weak.length, `${scheme}: ${marks.length} marks; ${weak.map(([name, contrast]) => `${name} ${contrast.toFixed(2)}`).join(', ')}`);
      for (const tab of ['words', 'clues', 'puzzle']) {
        await browser.click(`#tab-${tab}`);
        await the('.late').isGone();
        const faults = await measure();
        expect(!faults.length, `${scheme}, ${tab}: ${faults.slice(0, 5).join('; ')}`);
      }
    }
    // the dialogs, light and dark
    const opened = async (name, action) => {
      await the(`[data-do=${name}]`).press();
      await the('dialog[open]').isThere();
      await action(name);
      await inPage(() => document.querySelector('dialog[open]').close());
    };
    const dialogs = ['new', 'themes', 'library', 'print', 'help'];
    for (const scheme of ['dark', 'light']) {
      await browser.scheme(scheme);
      for (const name of dialogs) await opened(name, async () => {
        const faults = await measure();
        expect(!faults.length, `${scheme}, ${name}: ${faults.slice(0, 5).join('; ')}`);
      });
    }
    // what a finger has to hit, and what does not fit on the screen
    const small = async (where) => {
      const found = await inPage(() => {
        const targets = [...document.querySelectorAll('button, select, summary, textarea, #candidates li, label:has([type=checkbox], [type=radio]), input:not([type=range], [type=radio], [type=checkbox], #typing)')];
        const shown = targets.filter((one) => one.offsetWidth && getComputedStyle(one).visibility === 'visible' && (!document.querySelector('dialog[open]') || one.closest('dialog[open]')));
        const least = shown.map((one) => [one.id || one.className || one.textContent, one.offsetWidth, one.offsetHeight]).filter(([, width, height]) => width < 44 || height < 44);
        return [...least.map((one) => one.join(' ')), ...(document.documentElement.scrollWidth > innerWidth ? ['the page is ' + document.documentElement.scrollWidth + ' wide'] : [])];
      });
      expect(!found.length, `${where}: too small for a finger: ${found.slice(0, 6).join('; ')}`);
    };
    // a clue can be read where it is written, in one of two columns
    await browser.view(1280, 800);
    await browser.click('#tab-clues');
    await untilInPage(() => document.querySelector('#clue-list textarea').offsetWidth >= 240 && document.getElementById('grid').offsetHeight > 660);
    await browser.click('#tab-words');
    for (const [width, height] of [[390, 844], [820, 1180]]) {
      await browser.view(width, height, { isTouched: true });
      try {
        await untilInPage(() => parseFloat(getComputedStyle(document.querySelector('.cell .number')).fontSize) >= 12 && document.querySelector('.cell').offsetWidth >= 22);
        // what is below a letter, or else at the foot of the cell, is in sight
        const isFaultShown = `(() => {
          const cell = document.querySelector('#grid .row:nth-child(2)').appendChild(Object.assign(document.createElement('div'), { className: 'cell faulty', innerHTML: '<span class="letter">A</span>' }));
          const shadowOf = (className) => Object.assign(cell, { className }) && getComputedStyle(cell).boxShadow;
          const isUnderlined = getComputedStyle(cell.firstChild).textDecorationLine === 'underline';
          const isShown = (isUnderlined || shadowOf('cell faulty') !== 'none') && shadowOf('cell faulty reason') === shadowOf('cell reason') && isUnderlined === cell.offsetHeight >= 30;
          cell.remove();
          return isShown;
        })()`;
        expect(await browser.value(isFaultShown), `${width}: the mark of a word that is not in the list is not shown`);
        for (const tab of ['puzzle', 'clues', 'words']) {
          await the(`#tab-${tab}`).press();
          await small(`${width}, ${tab}`);
        }
        await the('[data-tool=block]').press();
        await small(`${width}, mode`);
        await the('#mode [data-do=end-mode]').press();
        for (const name of dialogs) await opened(name, () => small(`${width}, ${name}`));
      } finally {
        await browser.view(1400, 900);
      }
    }
  },
};

// What cases need that not every browser can do.
export const NEEDS = { 'colours that the system forces': ['scheme'], 'a screen that is touched': ['touch'], 'sizes of type, of targets and of contrasts': ['touch', 'scheme'] };

await runAlone(import.meta.url, { CASES, NEEDS });
