// Tests what the page reads in mails: which files are attached, how they are encoded, and what they are called. The mails are spelled from the descriptions
// of MIME (RFC 2045 to 2047, 2183 and 2231).
//
//   node web/test/mail.mjs
import { deepStrictEqual as same, rejects } from 'node:assert/strict';
import { Count } from './count.mjs';
import { pageModules } from './page-modules.mjs';
import { puzOf } from './puz.mjs';
import { zipOf } from './zip.mjs';

const { attachedTo, isMeant, kindOf, unpacked } = await pageModules('formats/kinds', 'formats/mail', 'formats/packed');

const PUZ = puzOf({ version: '1.3\0', width: 2, height: 1, solution: 'AB', texts: ['', '', '', 'Clue', ''].map((one) => Buffer.from(one)) });
const EXOLVE = 'exolve-begin\n  exolve-width: 1\nexolve-end\n';
const HEAD = ['Received: from a', ' by b; today', 'From: a@example.org', 'Subject: Two puzzles', 'MIME-Version: 1.0'];
const base64 = (bytes) => Buffer.from(bytes).toString('base64').replace(/(.{76})/g, '$1\r\n');

const part = (headers, body) => [...headers, '', body].join('\r\n');
const multipart = (boundary, parts, { kind = 'mixed', quoted = true } = {}) => part(
  [`Content-Type: multipart/${kind};`, `\tboundary=${quoted ? `"${boundary}"` : boundary}`],
  ['A text for old programs', ...parts.map((one) => `--${boundary}\r\n${one}`), `--${boundary}--`, 'The end', ''].join('\r\n'),
);
const mailOf = (whole) => new Uint8Array(Buffer.from([...HEAD, whole].join('\r\n'), 'latin1'));
const attached = (name, bytes, type = 'application/octet-stream') => part([`Content-Type: ${type}`, `Content-Disposition: attachment; ${name}`, 'Content-Transfer-Encoding: base64'], base64(bytes));
const TEXT = part(['Content-Type: text/plain; charset=utf-8'], 'Here they are.');

// What can be opened of a mail: names and bytes.
const meantIn = (mail) => attachedTo(mail).filter(isMeant).map(({ name, bytes }) => [name, Buffer.from(bytes).toString('latin1')]);
const puz = PUZ.toString('latin1');

const CASES = {
  'puzzles that are attached, among texts and pictures'() {
    const picture = attached('filename=logo.png', Buffer.from('89504e470d0a1a0a0000', 'hex'), 'image/png');
    const mail = mailOf(multipart('b1', [multipart('b2', [TEXT, part(['Content-Type: text/html'], '<html><p>Here')], { kind: 'alternative' }), picture, attached('filename="one.puz"', PUZ), attached('filename=two.exolve', EXOLVE)]));
    same(kindOf('a.eml', mail), 'mail');
    same(meantIn(mail), [['one.puz', puz], ['two.exolve', EXOLVE]]);
    // with other ends of lines, and as a mailbox has it
    const lines = Buffer.from(Buffer.from(mail).toString('latin1').replaceAll('\r\n', '\n'), 'latin1');
    same(meantIn(lines), meantIn(mail));
    same(meantIn(Buffer.concat([Buffer.from('From a@example.org Mon Jan  5 10:00:00 2026\r\n'), mail])), meantIn(mail));
  },

  'boundaries'() {
    // one that is the begin of another, with signs that a pattern has, and none in quotes
    for (const [outer, inner] of [['b', 'b2'], ['=_(1)+?.*[x]$^|', '=_(1)'], ["a'b_c,d./:=?", 'x y']]) {
      same(meantIn(mailOf(multipart(outer, [multipart(inner, [TEXT, attached('filename=one.puz', PUZ)]), attached('filename=two.puz', PUZ)]))).map(([name]) => name), ['one.puz', 'two.puz']);
    }
    same(meantIn(mailOf(multipart('b3', [attached('filename=one.puz', PUZ)], { quoted: false }))), [['one.puz', puz]]);
    // a line that is no boundary
    const text = 'exolve-begin\r\n--b4x\r\nexolve-end';
    same(meantIn(mailOf(multipart('b4', [part([], text)]))), [['the text of the mail', text]]);
  },

  'encodings'() {
    const whole = (encoding, body) => meantIn(mailOf(part(['Content-Type: application/x-crossword; name="one.puz"', `Content-Transfer-Encoding: ${encoding}`], body)));
    same(whole('BASE64', base64(PUZ)), [['one.puz', puz]]);
    same(whole('binary', puz), [['one.puz', puz]]);
    const escaped = [...PUZ].map((byte) => `=${byte.toString(16).toUpperCase().padStart(2, '0')}`).join('').replace(/(.{60})/g, '$1= \r\n');
    same(whole('quoted-printable', escaped), [['one.puz', puz]]);
    // bytes of UTF-8 and of other sets stay as they are
    const text = `${EXOLVE}caf\u00c3\u00a9 \u0080`;
    same(meantIn(mailOf(part(['Content-Type: text/plain', 'Content-Transfer-Encoding: quoted-printable'], `${EXOLVE}caf=C3=a9 =80`))), [['the text of the mail', text]]);
    // damaged, it is what it spells, which the page judges
    same(whole('base64', '!?').length, 0);
    same(whole('base64', `${base64(PUZ).slice(0, 41)}\0*`)[0][1], puz.slice(0, 30));
  },

  'names'() {
    const names = {
      'filename="a b.puz"': 'a b.puz', "filename*=UTF-8''caf%C3%A9%20%E2%99%A5.puz": 'caf\u00e9 \u2665.puz', 'filename="=?UTF-8?Q?caf=C3=A9_1?=.puz"': 'caf\u00e9 1.puz',
      'filename="=?utf-8?B?4pml?= =?utf-8?B?LnB1eg==?="': '\u2665.puz', 'filename="=?iso-8859-1?Q?caf=E9?=.puz"': 'caf\u00e9.puz', 'filename="C:\\\\new\\\\a.puz"': 'a.puz',
      'filename="../../a.puz"': 'a.puz', 'filename*0="long"; filename*1=" name.puz"': 'long name.puz', "filename*0*=utf-8''%E2%99%A5; filename*1=.puz": '\u2665.puz',
      'size=5; FileName=a.puz': 'a.puz', 'filename="a\\"b.puz"': 'a"b.puz', 'filename="a;b.puz"': 'a;b.puz',
    };
    for (const [given, name] of Object.entries(names)) same(meantIn(mailOf(multipart('b', [attached(given, PUZ)])))[0][0], name);
    // by its type alone, and by nothing
    same(meantIn(mailOf(part(['Content-Type: application/x-crossword;', ' name=one.puz', 'Content-Transfer-Encoding: base64'], base64(PUZ))))[0][0], 'one.puz');
    same(meantIn(mailOf(part(['Content-Transfer-Encoding: base64'], base64(PUZ)))), [['the text of the mail', puz]]);
  },

  'mails in mails, and mails without a puzzle'() {
    const inner = Buffer.from(mailOf(multipart('b', [TEXT, attached('filename=one.puz', PUZ)]))).toString('latin1');
    same(meantIn(mailOf(multipart('c', [TEXT, part(['Content-Type: message/rfc822'], inner)]))), [['one.puz', puz]]);
    same(meantIn(mailOf(part(['Content-Type: message/rfc822', 'Content-Transfer-Encoding: base64'], base64(Buffer.from(inner, 'latin1'))))), [['one.puz', puz]]);
    for (const whole of [TEXT, part([], ''), multipart('b', []), part(['Content-Type: multipart/mixed'], '--x'), part(['Content-Type: multipart/mixed; boundary=""'], '--\r\n--')]) same(meantIn(mailOf(whole)), []);
    // a list of words that is attached is one, and words in the text are none
    const words = 'cat\r\ndog\r\nhorse\r\n';
    same(meantIn(mailOf(multipart('b', [part([], words), attached('filename=words.txt', words)]))), [['words.txt', words]]);
    // parts in parts without an end
    let deep = TEXT;
    for (let depth = 0; depth < 300; depth++) deep = multipart(`b${depth}`, [deep]);
    same(meantIn(mailOf(deep)), []);
  },

  async 'zips and mails in one another, and which file of several'() {
    const of = async (name, bytes, ...answers) => {
      const asked = [];
      const ask = async (holder, names) => {
        asked.push([holder, ...names]);
        return answers.shift() ?? null;
      };
      const content = await unpacked({ name, bytes }, 1 << 20, ask);
      return [content.name, Buffer.from(content.bytes).toString('latin1'), ...asked];
    };
    const two = zipOf([['a/one.puz', PUZ], ['two.txt', 'cat']], 0);
    const mail = mailOf(multipart('b', [attached('filename=all.zip', two), attached('filename=three.puz', PUZ)]));
    same(await of('one.puz', PUZ), ['one.puz', puz]);
    same(await of('all.zip', two, 1), ['two.txt', 'cat', ['all.zip', 'a/one.puz', 'two.txt']]);
    same(await of('a.eml', mail, 1), ['three.puz', puz, ['a.eml', 'all.zip', 'three.puz']]);
    same(await of('a.zip', zipOf([['b/a.eml', Buffer.from(mail).toString('latin1')]], 0), 0, 0), ['one.puz', puz, ['a.eml', 'all.zip', 'three.puz'], ['all.zip', 'a/one.puz', 'two.txt']]);
    // so deep and no deeper, and none
    let deep = zipOf([['one.puz', PUZ]], 0);
    for (let depth = 0; depth < 3; depth++) deep = zipOf([['in.zip', Buffer.from(deep)]], 0);
    same((await of('a.zip', deep))[0], 'in.zip');
    await rejects(of('all.zip', two), { status: 'Packed', message: 'all.zip is not opened' });
    await rejects(of('a.eml', mail, 0), { status: 'Packed', message: 'all.zip is not opened' });
    await rejects(of('a.eml', mailOf(TEXT)), { status: 'Packed', message: 'a.eml is a mail without a file that can be opened: nothing is opened' });
    await rejects(of('a.zip', zipOf([['one.puz', 'x'.repeat(1 << 21)]])), { status: 'Packed', message: 'a.zip: one.puz is damaged, or too large to be a puzzle, a session or a word list: nothing is opened' });
  },
};

const count = new Count();
await count.runAll(CASES);
count.end();
