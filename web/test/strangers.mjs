// Tests that a file of a stranger runs nothing: no text becomes markup, the page runs its own scripts alone, and what a file has beside a record is checked.
//
//   node web/test/strangers.mjs
//
// It needs web/dist/xw.html (./build web). The last line is 'N passed, M failed'.
import { createHash } from 'node:crypto';
import { deepStrictEqual as same, throws } from 'node:assert/strict';
import { readFileSync, readdirSync } from 'node:fs';
import { deflateRawSync, gunzipSync } from 'node:zlib';
import { Count } from './count.mjs';
import { pageModules } from './page-modules.mjs';
import { zipOf } from './zip.mjs';

const { Dropped, filesIn, lawfulBeside, puzzlesIn, unzipped } = await pageModules('model/beside', 'formats/dropped', 'formats/puzzles-file', 'formats/zip');
const WEB = new URL('../', import.meta.url);

// The ways in which a text becomes markup or code.
const WAYS = /\b(?:innerHTML|outerHTML|insertAdjacentHTML|setHTMLUnsafe|createContextualFragment|srcdoc)\b|\bdocument\.write|\beval\(|\bnew Function\(|javascript:/;

const HOSTILE = 'A</text></svg><img src=x onerror="window.ran=1">';

// What is lawful beside a record, and what is left out.
function besideOf(given) {
  const dropped = new Dropped();
  return { ...lawfulBeside(given, dropped), dropped: dropped.phrases };
}

// The policy of a page by its directives. It comes before the scripts that it is for.
function directivesOf(page) {
  same(page.indexOf('Content-Security-Policy') < page.indexOf('<script'), true);
  const [, policy] = /<meta http-equiv="Content-Security-Policy" content="([^"]*)">/.exec(page);
  return new Map(policy.split('; ').map((one) => [one.split(' ')[0], one.split(' ').slice(1)]));
}

// The hashes of the elements of a page with a name, but for scripts that are data.
function hashesOf(page, name) {
  const types = /^(?:|module)$/;
  const found = [...page.matchAll(new RegExp(`<${name}([^>]*)>([^]*?)</${name}>`, 'g'))].filter(([, attributes]) => types.test(/type="([^"]*)"/.exec(attributes)?.[1] ?? ''));
  return found.map(([, , text]) => `'sha256-${createHash('sha256').update(text).digest('base64')}'`);
}

const CASES = {
  'no script makes markup of a text'() {
    const names = [...readdirSync(WEB), ...readdirSync(new URL('editor/', WEB), { recursive: true }).map((name) => `editor/${name}`)];
    const files = names.filter((name) => /\.(js|html)$|^make-page$/.test(name)).map((name) => new URL(name, WEB));
    const found = files.flatMap((file) => readFileSync(file, 'utf8').split('\n').map((line, at) => ({ file, line, at })).filter(({ line }) => WAYS.test(line)));
    same(found.map(({ file, at, line }) => `${file.pathname.replace(WEB.pathname, '')}:${at + 1}: ${line.trim()}`), []);
    same(files.length > 80 && files.some(({ pathname }) => pathname.endsWith('print.js')), true);
    // nor does an element have a handler in its markup
    for (const page of ['editor/index.html', 'editor/solver/page.html']) same(/<[^>]*\son\w+=/.exec(readFileSync(new URL(page, WEB), 'utf8')), null);
  },

  'the policy of the page names its scripts, and lets no other run'() {
    const page = readFileSync(new URL('dist/xw.html', WEB), 'utf8');
    const directives = directivesOf(page);
    same(['default-src', 'worker-src', 'base-uri', 'form-action'].map((name) => directives.get(name)), [["'none'"], ['blob:'], ["'none'"], ["'none'"]]);
    const hashes = hashesOf(page, 'script');
    same([hashes.length, directives.get('script-src')], [2, [...hashes, "'wasm-unsafe-eval'"]]);
  },

  'the policy of a page to solve names its script and its style, and nothing else'() {
    const [, packed] = /<script type="text\/plain" id="solver">([^]*?)<\/script>/.exec(readFileSync(new URL('dist/xw.html', WEB), 'utf8'));
    const page = gunzipSync(Buffer.from(packed, 'base64')).toString();
    const [script, style] = ['script', 'style'].map((name) => hashesOf(page, name));
    same([script.length, style.length], [1, 1]);
    same([...directivesOf(page)], [['default-src', ["'none'"]], ['script-src', script], ['style-src', style], ['base-uri', ["'none'"]], ['form-action', ["'none'"]]]);
    const [, text] = /<script type="module">([^]*?)<\/script>/.exec(page);
    same([Buffer.byteLength(text) <= 60 * 1024, text.includes('WebAssembly')], [true, false]);
  },

  'what a session has beside its record'() {
    const whole = {
      pencil: ['1 1', '12 3'], written: [['clue 1 1 across', 'CAT']],
      originals: [
        ['title', 'A \u2192 <b>'], ['notes', 'x'], ['clue 1 12 down', HOSTILE], ['note 1 1 across', HOSTILE], ['cell 1 1', 'HEART'], ['colour 2 3', 'ffe680'],
        ['link 1 1 across', '1 3 down, 3 1 across'], ['language', 'en-GB'],
      ],
    };
    same(besideOf(whole), { ...whole, dropped: [] });
    same(besideOf({}), { pencil: [], originals: [], written: [], dropped: [] });
    const hostile = {
      pencil: [HOSTILE, '1 1 ', 1], written: [['clue 1 1 across', HOSTILE], ['title', 'CAT'], ['clue 1 1 across', 'cat']],
      originals: [
        ['cell 1 1', HOSTILE], ['cell 1 2', 'A'], ['colour 1 1', '"><img src=x onerror=run()>'], ['colour 1 1', 'FFE680'], ['colour 1 1 x', 'ffe680'],
        ['link 1 1 across', HOSTILE], [HOSTILE, 'x'], ['cell 1 1000', 'AB'], ['title'], ['title', 5], 'title', null, { length: 2 },
      ],
    };
    same(besideOf(hostile), {
      pencil: [], originals: [], written: [],
      dropped: [
        '3 pencil marks', '2 cells with other characters than letters', '2 colours of cells', '8 texts that belong to nothing', 'the link of a clue to other lights',
        '3 words that clues were written for',
      ],
    });
    // a note that is no list
    same(besideOf({ originals: '[["cell', written: 7 }).dropped, ['a text that belongs to nothing', 'the word that a clue was written for']);
  },

  'the sessions of a file of puzzles'() {
    const file = (session) => JSON.stringify({ format: 'xw puzzles 1', puzzles: [session], versions: [] });
    const session = { puzzle: 'a', record: 'size 3 3\nset 1 1 A\n', at: 5, pencil: ['1 1'] };
    const plain = { ...session, originals: [], written: [], cursor: 0, direction: 'across', deleted: null };
    same(puzzlesIn(file(session)), { puzzles: [plain], versions: [], dropped: [] });
    const hostile = { ...session, originals: [['cell 1 1', HOSTILE]], cursor: HOSTILE, direction: HOSTILE, deleted: HOSTILE, more: HOSTILE };
    same(puzzlesIn(file(hostile)), { puzzles: [plain], versions: [], dropped: ['a cell with other characters than letters'] });
    for (const record of ['size 4294967296 1\n', 'size 0 3\n', 'size x y\n', 'set 1 1 A\nsize 3 300\n', 5]) throws(() => puzzlesIn(file({ ...session, record })), /no puzzles/);
  },

  async 'a zip that unpacks to more than it declares'() {
    const [most, zeros] = [1 << 16, Buffer.alloc(1 << 22)];
    const packed = deflateRawSync(zeros);
    // the directory declares 10 bytes
    const zip = zipOf([['one.puz', '0123456789']]);
    const [file] = filesIn(zip);
    same([file.name, Buffer.from(await unzipped(file, 10)).toString(), await unzipped(file, 9)], ['one.puz', '0123456789', null]);
    same(await unzipped({ ...file, packed }, most), null);
    same((await unzipped({ ...file, packed }, zeros.length)).length, zeros.length);
    same(await unzipped({ ...file, method: 0, packed: new Uint8Array(11) }, 10), null);
    same(await unzipped({ ...file, method: 9 }, most), null);
    same(await unzipped({ ...file, packed: packed.subarray(0, 20) }, most), null);
  },
};

const count = new Count();
await count.runAll(CASES);
count.end();
