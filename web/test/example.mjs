// Tests the examples of docs/embedding.md in a page: a session in the page, and one in a worker.
//
//   node --experimental-websocket web/test/example.mjs
//
// It needs ./build web, Debian's package chromium, and a Node with WebSocket (20.10 with the option above, or 22). tests/page runs it.
// tests/library runs the examples in Node.
import { deepStrictEqual } from 'node:assert/strict';
import { readFileSync } from 'node:fs';
import { createServer } from 'node:http';
import { exampleOf } from '../../tests/web/example.mjs';
import { Browser } from './browser.mjs';

const BEGINNINGS = ["import { load, Xw } from './xw.js';", "import { RemoteXw } from './remote.js';"];
const examples = BEGINNINGS.map((beginning) => exampleOf('docs/embedding.md', beginning));
const SCRIPTS = ['xw.js', 'asking.js', 'slices.js', 'remote.js', 'worker.js'];
const built = (name) => readFileSync(new URL(`../dist/${name}`, import.meta.url));
const FILES = {
  '/': ['text/html', '<!doctype html><meta charset="utf-8"><title>example</title>'],
  ...Object.fromEntries(examples.map(({ code }, at) => [`/example${at}.js`, ['text/javascript', code]])),
  ...Object.fromEntries(SCRIPTS.map((name) => [`/${name}`, ['text/javascript', built(name)]])),
  '/xw.wasm': ['application/wasm', built('xw.wasm')],
};

const server = createServer((request, response) => {
  const [type, body] = FILES[request.url] ?? ['text/plain', ''];
  response.writeHead(body ? 200 : 404, { 'content-type': type }).end(body);
});
await new Promise((listening) => server.listen(0, '127.0.0.1', listening));

const browser = await Browser.open();
try {
  await browser.go(`http://127.0.0.1:${server.address().port}/`);
  const seen = await browser.value(`(async () => {
    const all = [];
    for (let at = 0; at < ${examples.length}; at++) {
      const seen = [];
      console.log = (value) => seen.push(value);
      await import('./example' + at + '.js');
      all.push(seen);
    }
    return all;
  })()`);
  deepStrictEqual(seen, examples.map(({ printed }) => printed));
  console.log(`${examples.length} passed, 0 failed`);
} finally {
  await browser.close();
  server.close();
}
