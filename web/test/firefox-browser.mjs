// A headless Firefox, driven by WebDriver BiDi, with the calls of browser.mjs. What one of the two cannot do is named in `lacks`.
import { spawn } from 'node:child_process';
import { existsSync, mkdtempSync, readFileSync, rmSync, writeFileSync } from 'node:fs';
import { tmpdir } from 'node:os';
import { basename, join } from 'node:path';
import { awaitFocus, middlesOf, pressOn, removeFolder, untilTrue } from './browser.mjs';

const KEYS = {
  Enter: '\uE006', Tab: '\uE004', Backspace: '\uE003', Delete: '\uE017', Escape: '\uE00C', Home: '\uE011', End: '\uE010', ArrowLeft: '\uE012', ArrowUp: '\uE013',
  ArrowRight: '\uE014', ArrowDown: '\uE015', PageUp: '\uE00E', PageDown: '\uE00F', Control: '\uE009', Shift: '\uE008', Alt: '\uE00A', F1: '\uE031', F2: '\uE032',
  F3: '\uE033', F4: '\uE034', F6: '\uE036', '\n': '\uE006',
};

// Nothing is asked, and nothing is fetched from elsewhere.
const SETTINGS = {
  'browser.download.folderList': 2, 'browser.download.useDownloadDir': true, 'browser.download.alwaysOpenPanel': false, 'browser.helperApps.neverAsk.saveToDisk': 'application/octet-stream',
  'datareporting.policy.dataSubmissionEnabled': false, 'browser.shell.checkDefaultBrowser': false, 'dom.storageManager.prompt.testing': true,
  'dom.storageManager.prompt.testing.allow': true, 'network.captive-portal-service.enabled': false, 'network.connectivity-service.enabled': false,
};

// Commands, their answers, and events.
class Connection {
  #socket;
  #waiting = new Map();
  #events = new Map();
  #id = 0;

  static async open(url) {
    const connection = new Connection();
    connection.#socket = new WebSocket(url);
    await new Promise((resolve) => {
      connection.#socket.onopen = resolve;
    });
    connection.#socket.onmessage = ({ data }) => connection.#take(JSON.parse(data));
    connection.#socket.onclose = () => {
      for (const { reject } of connection.#waiting.values()) reject(new Error('the browser is gone'));
    };
    return connection;
  }

  #take({ id, type, result, message, error, method, params }) {
    if (type === 'event') {
      for (const listener of this.#events.get(method) ?? []) listener(params);
      return;
    }
    const waiting = this.#waiting.get(id);
    if (!waiting) return;
    this.#waiting.delete(id);
    if (result) waiting.resolve(result);
    else waiting.reject(new Error(`${error}: ${message}`));
  }

  on(method, listener) {
    this.#events.set(method, [...(this.#events.get(method) ?? []), listener]);
  }

  send(method, params = {}) {
    const id = ++this.#id;
    this.#socket.send(JSON.stringify({ id, method, params }));
    return new Promise((resolve, reject) => this.#waiting.set(id, { resolve, reject }));
  }
}

export class FirefoxBrowser {
  // What the cases may need that this browser does not tell or do. Its window never has the focus, so fields tell no change when they are left.
  lacks = new Set(['touch', 'scheme', 'pdf', 'folders', 'blur', 'asking']);
  faults = [];
  // what takes the next file that a page saves
  #takeDownload = null;

  static async open() {
    const browser = new FirefoxBrowser();
    browser.folder = mkdtempSync(join(tmpdir(), 'xw-firefox-'));
    browser.downloads = mkdtempSync(join(tmpdir(), 'xw-downloads-'));
    const settings = { ...SETTINGS, 'browser.download.dir': browser.downloads };
    writeFileSync(join(browser.folder, 'user.js'), Object.entries(settings).map(([name, value]) => `user_pref(${JSON.stringify(name)}, ${JSON.stringify(value)});`).join('\n'));
    browser.process = spawn('firefox-esr', ['--headless', '--remote-debugging-port=0', '--profile', browser.folder, '--no-remote'], { stdio: ['ignore', 'ignore', 'pipe'] });
    const url = await new Promise((resolve, reject) => {
      let told = '';
      browser.process.stderr.on('data', (data) => {
        told += data;
        const found = /listening on (ws:\S+)/.exec(told);
        if (found) resolve(found[1]);
      });
      browser.process.on('exit', () => reject(new Error(`Firefox ended: ${told}`)));
    });
    browser.connection = await Connection.open(`${url}/session`);
    await browser.send('session.new', { capabilities: {} });
    const { contexts } = await browser.send('browsingContext.getTree');
    browser.context = contexts[0].context;
    await browser.send('session.subscribe', { events: ['log.entryAdded', 'browsingContext.load', 'browsingContext.downloadWillBegin', 'browsingContext.downloadEnd'] });
    browser.on('log.entryAdded', ({ level, text, type }) => level === 'error' && type === 'javascript' && browser.faults.push(text));
    browser.#takeDownloads();
    return browser;
  }

  on(method, listener) {
    this.connection.on(method, listener);
  }

  send(method, params = {}) {
    return this.connection.send(method, params);
  }

  // Another tab of this browser, with the same calls. Its `close` closes the tab.
  async tab() {
    const { context } = await this.send('browsingContext.create', { type: 'tab' });
    const other = new FirefoxBrowser();
    Object.assign(other, { connection: this.connection, context, close: () => this.send('browsingContext.close', { context }) });
    return other;
  }

  front() {
    return this.send('browsingContext.activate', { context: this.context });
  }

  go(url) {
    return this.send('browsingContext.navigate', { context: this.context, url, wait: 'complete' });
  }

  // Promises that the page is loaded again.
  reloaded() {
    return new Promise((resolve) => this.on('browsingContext.load', ({ context }) => context === this.context && resolve()));
  }

  // Has a script run in each page before its own; returns what takes it away again.
  async preload(source) {
    const { script } = await this.send('script.addPreloadScript', { functionDeclaration: `() => { ${source} }` });
    return () => this.send('script.removePreloadScript', { script });
  }

  // The value of an expression in the page; a promise is awaited.
  async value(expression) {
    const spelled = `(async () => JSON.stringify(await (${expression.trim().replace(/;$/, '')})))()`;
    const told = await this.send('script.evaluate', { expression: spelled, target: { context: this.context }, awaitPromise: true, userActivation: true });
    if (told.type !== 'success') throw new Error(`${expression.split('\n')[0]}: ${told.exceptionDetails.text}`);
    return told.result.value === undefined ? undefined : JSON.parse(told.result.value);
  }

  until(expression) {
    return untilTrue(this, expression);
  }

  #actions(...sources) {
    return this.send('input.performActions', { context: this.context, actions: sources });
  }

  async press(name) {
    await awaitFocus(this, name);
    const parts = name.split(/(?<=.)\+/).map((part) => KEYS[part] ?? part);
    const actions = [...parts.map((value) => ({ type: 'keyDown', value })), ...[...parts].reverse().map((value) => ({ type: 'keyUp', value }))];
    await this.#actions({ type: 'key', id: 'keys', actions });
  }

  async type(text) {
    for (const character of text) await this.press(character);
  }

  insert(text) {
    return this.type(text);
  }

  // Presses the button of the mouse at a point, and releases it at the last of others.
  #mouse(point, ...others) {
    const [begin, ...moves] = [point, ...others].map(({ x, y }) => ({ type: 'pointerMove', x: Math.round(x), y: Math.round(y) }));
    const actions = [begin, { type: 'pointerDown', button: 0 }, ...moves, { type: 'pointerUp', button: 0 }];
    return this.#actions({ type: 'pointer', id: 'mouse', parameters: { pointerType: 'mouse' }, actions });
  }

  click(selector) {
    return pressOn(this, [selector], (point) => this.#mouse(point));
  }

  async point(selector) {
    const [{ x, y }] = await this.until(middlesOf([selector]));
    const actions = [{ type: 'pointerMove', x: Math.round(x), y: Math.round(y) }];
    await this.#actions({ type: 'pointer', id: 'mouse', parameters: { pointerType: 'mouse' }, actions });
  }

  drag(from, to) {
    return pressOn(this, [from, to], (begin, end) => this.#mouse(begin, { x: (begin.x + end.x) / 2, y: (begin.y + end.y) / 2 }, end));
  }

  // Gives files to an input of the page.
  async choose(selector, ...files) {
    const { nodes } = await this.send('browsingContext.locateNodes', { context: this.context, locator: { type: 'css', value: selector } });
    await this.send('input.setFiles', { context: this.context, element: { sharedId: nodes[0].sharedId }, files });
  }

  // Drops a file on the page.
  drop(path) {
    const bytes = readFileSync(path).toString('base64');
    return this.value(`(() => {
      const bytes = Uint8Array.from(atob('${bytes}'), (character) => character.charCodeAt(0));
      const dataTransfer = new DataTransfer();
      dataTransfer.items.add(new File([bytes], ${JSON.stringify(basename(path))}));
      for (const type of ['dragover', 'drop']) document.body.dispatchEvent(new DragEvent(type, { dataTransfer, bubbles: true, cancelable: true }));
    })()`);
  }

  // Promises the name and the bytes of the next file that the page saves.
  download() {
    return new Promise((resolve) => {
      this.#takeDownload = resolve;
    });
  }

  // Takes the files that pages save: each is for the last one who waits, and goes, since the next one may have the same name.
  #takeDownloads() {
    let name;
    this.on('browsingContext.downloadWillBegin', ({ suggestedFilename }) => {
      name = suggestedFilename;
    });
    this.on('browsingContext.downloadEnd', ({ filepath }) => {
      if (!filepath || !existsSync(filepath)) return;
      this.#takeDownload?.({ name, bytes: readFileSync(filepath) });
      rmSync(filepath);
    });
  }

  view(width, height) {
    return this.send('browsingContext.setViewport', { context: this.context, viewport: { width, height } });
  }

  async picture() {
    const { data } = await this.send('browsingContext.captureScreenshot', { context: this.context });
    return Buffer.from(data, 'base64');
  }

  async close() {
    const { exitCode, signalCode } = this.process;
    const ended = exitCode === null && signalCode === null ? new Promise((resolve) => this.process.on('exit', resolve)) : null;
    this.process.kill();
    await ended;
    for (const folder of [this.folder, this.downloads]) await removeFolder(folder);
  }
}
