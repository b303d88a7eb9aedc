// A headless Chromium, driven by its debugging protocol: real keys and clicks on a page.
import { spawn } from 'node:child_process';
import { mkdtempSync, readFileSync, rmSync } from 'node:fs';
import { tmpdir } from 'node:os';
import { join } from 'node:path';

const CODES = {
  Enter: 13, Tab: 9, Backspace: 8, Delete: 46, Escape: 27, Home: 36, End: 35, ArrowLeft: 37, ArrowUp: 38, ArrowRight: 39, ArrowDown: 40,
  F1: 112, F2: 113, F3: 114, F4: 115, F6: 117, '.': 190, '|': 220, _: 189, '*': 56, '=': 187, '+': 187, '?': 191, '/': 191,
  '-': 189, ';': 186, ',': 188, "'": 222, '(': 57, ')': 48, '&': 55, '%': 53, '#': 51, '$': 52, '!': 49, '"': 222,
};

// After so many milliseconds a page counts as hanging, unless the environment has another number. No wait is for time to pass, so this is far above
// what a slow machine needs.
export const HANGS = Number(process.env.HANGS ?? 600000);
// How often what changes outside of the document, as in a store, is looked at.
const LOOKS_EACH = 100;

export class Browser {
  // what the cases may need that this browser does not tell or do
  lacks = new Set();
  #process;
  #host;
  #folder;
  #socket;
  #id = 0;
  #waiting = new Map();
  #events = new Map();
  // what takes the next file that the page saves
  #takeDownload = null;

  // `switches` are further words for the program.
  static async open(switches = [], program = 'chromium') {
    const browser = new Browser();
    await browser.#start(program, switches);
    return browser;
  }

  async #start(program, switches) {
    this.#folder = mkdtempSync(join(tmpdir(), 'xw-browser-'));
    const words = ['--headless=new', '--no-sandbox', '--disable-gpu', '--remote-debugging-port=0', `--user-data-dir=${this.#folder}`, '--hide-scrollbars',
      '--no-first-run', '--disable-extensions', ...switches, 'about:blank'];
    this.#process = spawn(program, words, { stdio: ['ignore', 'ignore', 'pipe'] });
    const url = await new Promise((resolve, reject) => {
      let told = '';
      this.#process.stderr.on('data', (data) => {
        told += data;
        const found = /listening on (ws:\S+)/.exec(told);
        if (found) resolve(found[1]);
      });
      this.#process.on('exit', () => reject(new Error(`${program} ended: ${told}`)));
    });
    this.#host = new URL(url).host;
    await this.#attach(({ type }) => type === 'page');
  }

  // Connects to the first target that passes a test, when it is there.
  async #attach(isWanted) {
    let target;
    while (!target) {
      const targets = await (await fetch(`http://${this.#host}/json/list`)).json();
      target = targets.find(isWanted);
      if (!target) await new Promise((resolve) => setTimeout(resolve, LOOKS_EACH));
    }
    await this.#connect(target.webSocketDebuggerUrl);
    for (const domain of ['Page', 'Runtime', 'Log', 'DOM', 'Inspector']) await this.send(`${domain}.enable`);
    this.faults = [];
    this.on('Runtime.exceptionThrown', ({ exceptionDetails }) => this.faults.push(exceptionDetails.exception?.description ?? exceptionDetails.text));
    // the browser asks the user, who agrees
    this.asked = [];
    this.on('Page.javascriptDialogOpening', ({ type }) => {
      this.asked.push(type);
      this.send('Page.handleJavaScriptDialog', { accept: true });
    });
    this.on('Log.entryAdded', ({ entry }) => entry.level === 'error' && this.faults.push(entry.text));
  }

  // Another tab of this browser, with the same calls. Its `close` closes the tab.
  async tab() {
    const other = new Browser();
    const { targetId } = await this.send('Target.createTarget', { url: 'about:blank' });
    other.#host = this.#host;
    await other.#attach(({ id }) => id === targetId);
    other.close = () => this.send('Target.closeTarget', { targetId });
    return other;
  }

  // Brings the tab to the front. Those behind it have no frames, and are seldom idle.
  front() {
    return this.send('Page.bringToFront');
  }

  async #connect(url) {
    this.#socket = new WebSocket(url);
    await new Promise((resolve, reject) => {
      this.#socket.onopen = resolve;
      this.#socket.onerror = () => reject(new Error('no connection to the browser'));
    });
    this.#socket.onmessage = ({ data }) => this.#take(JSON.parse(data));
    this.#socket.onclose = () => this.#lose('the browser is gone');
    this.on('Inspector.targetCrashed', () => this.#lose('the page has crashed'));
  }

  // Calls that have no answer get none any more.
  #lose(why) {
    for (const { reject } of this.#waiting.values()) reject(new Error(why));
    this.#waiting.clear();
  }

  #take({ id, method, params, result, error }) {
    if (!id) {
      for (const listener of this.#events.get(method) ?? []) listener(params);
      return;
    }
    const { resolve, reject } = this.#waiting.get(id) ?? {};
    if (!this.#waiting.delete(id)) return;
    if (error) reject(new Error(error.message));
    else resolve(result);
  }

  on(method, listener) {
    this.#events.set(method, [...(this.#events.get(method) ?? []), listener]);
  }

  // Takes all listeners of an event away.
  off(method) {
    this.#events.delete(method);
  }

  send(method, params = {}) {
    const id = ++this.#id;
    if (this.#socket.readyState !== WebSocket.OPEN) return Promise.reject(new Error('the browser is gone'));
    this.#socket.send(JSON.stringify({ id, method, params }));
    return new Promise((resolve, reject) => this.#waiting.set(id, { resolve, reject }));
  }

  // Promises that the page is loaded again.
  reloaded() {
    return new Promise((resolve) => this.on('Page.loadEventFired', resolve));
  }

  async go(url) {
    const loaded = this.reloaded();
    await this.send('Page.navigate', { url });
    await loaded;
  }

  // Has a script run in each page before its own; returns what takes it away again.
  async preload(source) {
    const { identifier } = await this.send('Page.addScriptToEvaluateOnNewDocument', { source });
    return () => this.send('Page.removeScriptToEvaluateOnNewDocument', { identifier });
  }

  // Drops a file on the page.
  async drop(path) {
    const data = { items: [], files: [path], dragOperationsMask: 1 };
    for (const type of ['dragEnter', 'dragOver', 'drop']) await this.send('Input.dispatchDragEvent', { type, x: 300, y: 300, data });
  }

  // The value of an expression in the page; a promise is awaited.
  async value(expression) {
    const { result, exceptionDetails } = await this.send('Runtime.evaluate', { expression, awaitPromise: true, returnByValue: true });
    if (exceptionDetails) throw new Error(`${expression.split('\n')[0]}: ${exceptionDetails.exception?.description?.split('\n')[0] ?? exceptionDetails.text}`);
    return result.value;
  }

  // Waits until an expression is true, or a promise of something true. It is tried at each change of the document, so that what is shown for a
  // moment only is seen too. Returns the value.
  until(expression) {
    return untilTrue(this, expression);
  }

  // Presses a key, such as `a`, `Enter` or `Control+z`, and holds it for some milliseconds.
  async press(name, held = 0) {
    await awaitFocus(this, name);
    const parts = name.split(/(?<=.)\+/);
    const key = parts.pop();
    const modifiers = parts.reduce((sum, part) => sum + { Alt: 1, Control: 2, Shift: 8 }[part], 0);
    const isPlain = key.length === 1 && !(modifiers & 3);
    const code = /^[a-z]$/i.test(key) ? `Key${key.toUpperCase()}` : key === ' ' ? 'Space' : key;
    const event = { key, code, modifiers, windowsVirtualKeyCode: CODES[key] ?? key.toUpperCase().charCodeAt(0) };
    const text = isPlain ? { text: key } : key === 'Enter' ? { text: '\r' } : {};
    await this.send('Input.dispatchKeyEvent', { type: 'keyDown', ...event, ...text });
    if (held) await new Promise((resolve) => setTimeout(resolve, held));
    await this.send('Input.dispatchKeyEvent', { type: 'keyUp', ...event });
  }

  // Types plain characters, each by its key.
  async type(text) {
    for (const character of text) await this.press(character);
  }

  #mouse(type, point, modifiers = 0, buttons = 1) {
    return this.send('Input.dispatchMouseEvent', { type, ...point, button: 'left', buttons, clickCount: 1, modifiers });
  }

  // Clicks an element.
  click(selector, modifiers = 0) {
    return pressOn(this, [selector], (point) => Promise.all([
      this.#mouse('mouseMoved', point, modifiers, 0), this.#mouse('mousePressed', point, modifiers), this.#mouse('mouseReleased', point, modifiers, 0),
    ]));
  }

  // Moves the pointer to the middle of an element.
  async point(selector) {
    const [point] = await this.until(middlesOf([selector]));
    await this.#mouse('mouseMoved', point, 0, 0);
  }

  // Drags from one element to another.
  drag(from, to) {
    return pressOn(this, [from, to], async (begin, end) => {
      await this.#mouse('mousePressed', begin);
      await this.#mouse('mouseMoved', { x: (begin.x + end.x) / 2, y: (begin.y + end.y) / 2 });
      await this.#mouse('mouseMoved', end);
      await this.#mouse('mouseReleased', end, 0, 0);
    });
  }

  // Taps with a finger. Both messages go at once: a finger that rests makes another gesture.
  tap(selector) {
    return pressOn(this, [selector], (point) => Promise.all([
      this.send('Input.dispatchTouchEvent', { type: 'touchStart', touchPoints: [point] }), this.send('Input.dispatchTouchEvent', { type: 'touchEnd', touchPoints: [] }),
    ]));
  }

  // Types a text as a keyboard on a screen does, which tells no keys.
  async insert(text) {
    await awaitFocus(this, text);
    for (const character of text) {
      await this.send('Input.dispatchKeyEvent', { type: 'rawKeyDown', key: 'Unidentified', windowsVirtualKeyCode: 229 });
      await this.send('Input.insertText', { text: character });
    }
  }

  // Deletes as such a keyboard does.
  async erase() {
    await this.send('Input.dispatchKeyEvent', { type: 'rawKeyDown', key: 'Unidentified', windowsVirtualKeyCode: 229, commands: ['deleteBackward'] });
  }

  // Gives files to an input of the page.
  async choose(selector, ...paths) {
    const { root } = await this.send('DOM.getDocument');
    const { nodeId } = await this.send('DOM.querySelector', { nodeId: root.nodeId, selector });
    await this.send('DOM.setFileInputFiles', { nodeId, files: paths });
  }

  // Has files saved into a folder.
  saveInto(folder) {
    const names = new Map();
    this.on('Browser.downloadWillBegin', ({ guid, suggestedFilename }) => names.set(guid, suggestedFilename));
    this.on('Browser.downloadProgress', ({ guid, state }) => {
      const name = names.get(guid);
      if (state !== 'completed' || name === undefined) return;
      names.delete(guid);
      this.#takeDownload?.({ name, bytes: readFileSync(join(folder, name)) });
    });
    return this.send('Browser.setDownloadBehavior', { behavior: 'allow', downloadPath: folder, eventsEnabled: true });
  }

  // Promises the name and the bytes of the next file that the page saves.
  download() {
    return new Promise((resolve) => {
      this.#takeDownload = resolve;
    });
  }

  // A window of this size, or with `isTouched` a screen that is touched, when the page has it.
  async view(width, height, { scheme = 'light', isTouched = false } = {}) {
    await this.send('Emulation.setDeviceMetricsOverride', { width, height, deviceScaleFactor: isTouched ? 2 : 1, mobile: isTouched });
    await this.send('Emulation.setTouchEmulationEnabled', { enabled: isTouched });
    await this.scheme(scheme);
    await this.until(`matchMedia('(pointer: coarse)').matches === ${isTouched} && (innerWidth === ${width} || !document.querySelector('meta[name=viewport]'))`);
  }

  // The colours that the page is asked for: `light` or `dark`.
  async scheme(value) {
    await this.send('Emulation.setEmulatedMedia', { features: [{ name: 'prefers-color-scheme', value }] });
    await this.until(`matchMedia('(prefers-color-scheme: ${value})').matches`);
  }

  // Colours that the system forces, or with `none` the page's own.
  async forceColors(value) {
    await this.send('Emulation.setEmulatedMedia', { features: [{ name: 'forced-colors', value }] });
    await this.until(`matchMedia('(forced-colors: ${value})').matches`);
  }

  async picture() {
    const { data } = await this.send('Page.captureScreenshot', { format: 'png' });
    return Buffer.from(data, 'base64');
  }

  // The page as it is printed, in PDF.
  async pdf() {
    const { data } = await this.send('Page.printToPDF', { preferCSSPageSize: true, printBackground: true });
    return Buffer.from(data, 'base64');
  }

  async close() {
    const { exitCode, signalCode } = this.#process;
    const ended = exitCode === null && signalCode === null ? new Promise((resolve) => this.#process.on('exit', resolve)) : null;
    this.send('Browser.close').catch(() => this.#process.kill());
    await ended;
    await removeFolder(this.#folder);
  }
}

// Removes a folder of a browser that has ended. Its helpers may write into it a moment longer, and another try finds what they wrote.
export async function removeFolder(folder, tries = 50) {
  try {
    rmSync(folder, { recursive: true, force: true });
  } catch (fault) {
    if (tries === 0) throw fault;
    await new Promise((resolve) => setTimeout(resolve, LOOKS_EACH));
    await removeFolder(folder, tries - 1);
  }
}

// The keys that the page takes wherever the focus is.
const ANYWHERE = /^(F\d+|Escape)$|^(Control|Alt)\+/;

// Waits until a key can reach an element: it is lost while none has the focus, or one that was hidden.
export async function awaitFocus(browser, name) {
  if (ANYWHERE.test(name)) return;
  await browser.until('document.activeElement !== document.body && document.activeElement.checkVisibility()');
}

// The expression of the middles of elements, when they are there, can be pressed and stay where they are for two frames; else null.
export const middlesOf = (selectors) => `(async () => {
  const middles = () => {
    const elements = ${JSON.stringify(selectors)}.map((selector) => document.querySelector(selector));
    if (elements.some((element) => !element || element.matches(':disabled'))) return [null];
    for (const element of elements) element.scrollIntoView({ block: 'nearest' });
    return elements.map((element) => element.getBoundingClientRect()).map(({ x, y, width, height }) => (width ? { x: x + width / 2, y: y + height / 2 } : null));
  };
  const one = middles();
  await new Promise((resolve) => {
    requestAnimationFrame(() => requestAnimationFrame(resolve));
    // a page behind others has no frames
    if (document.hidden) setTimeout(resolve, ${LOOKS_EACH});
  });
  const other = middles();
  return other.every(Boolean) && JSON.stringify(one) === JSON.stringify(other) ? other : null;
})()`;

// The expression that guards the next press, and whether it could: not if another element is at one of the points by now. A press that begins
// elsewhere is kept from the page, and so is a click that comes of a press on one element and its release on another. `window.endPress` ends the
// guard, and promises whether the press was made: an element took it when it began, as a cell does, or was clicked. The label of a field counts as
// the field.
const guardOf = (selectors, points) => `(() => {
  const places = ${JSON.stringify(selectors.map((selector, at) => [selector, points[at]]))};
  const isNamed = (element, selector) => Boolean(element) && element.closest(selector) !== null;
  const isOf = (target, selector) => target instanceof Element && (isNamed(target, selector) || isNamed(target.closest('label')?.control, selector));
  const isInPlace = () => places.every(([selector, { x, y }]) => isOf(document.elementFromPoint(x, y), selector));
  if (!isInPlace()) return false;
  const kinds = ['pointerdown', 'mousedown', 'touchstart', 'pointermove', 'pointerup', 'mouseup', 'touchend', 'pointercancel', 'contextmenu', 'click'];
  let [down, isMissed, isClicked] = [null, false, false];
  let end;
  const ended = new Promise((resolve) => { end = resolve; });
  const listener = (event) => {
    const { type, target } = event;
    const isMeant = isOf(target, places[0][0]);
    if (type === 'pointerdown') [down, isMissed] = [event, !isMeant || !isInPlace()];
    if (type === 'click' && !isMeant && !down?.defaultPrevented) isMissed = true;
    if (isMissed) {
      event.stopImmediatePropagation();
      event.preventDefault();
    }
    isClicked ||= type === 'click';
    if (['click', 'pointercancel', 'contextmenu'].includes(type)) end();
  };
  for (const kind of kinds) window.addEventListener(kind, listener, { capture: true, passive: false });
  window.endPress = async () => {
    // the click of a tap comes after the finger has gone
    if (down?.pointerType === 'touch') await ended;
    for (const kind of kinds) window.removeEventListener(kind, listener, { capture: true });
    delete window.endPress;
    return Boolean(down) && !isMissed && (isClicked || down.defaultPrevented);
  };
  return true;
})()`;

// Presses at the middles of elements, which `press` does, until the press is made: it is made again if the page has moved or changed meanwhile. The
// press begins at the first element, and ends at the last one.
export async function pressOn(browser, selectors, press) {
  const end = Date.now() + HANGS;
  for (;;) {
    const points = await browser.until(middlesOf(selectors));
    if (await browser.value(guardOf(selectors, points))) {
      await press(...points);
      if (await isMade(browser)) return;
    }
    if (Date.now() > end) throw new Error(`${selectors[0]} cannot be pressed: it is covered, or changes`);
  }
}

// Whether the last press was made. The page may have been left by it, and then it was.
async function isMade(browser) {
  try {
    return await browser.value('window.endPress?.() ?? true');
  } catch (error) {
    if (isLeft(error)) return true;
    throw error;
  }
}

// Whether a call failed since the page was left meanwhile.
const isLeft = ({ message }) => /navigated|context was destroyed|Cannot find context|no such frame|AbortError|unload|aborted|discarded|destroyed|MessageHandler/i.test(message);

// Waits until an expression in the page of a browser is true, and returns its value.
export async function untilTrue(browser, expression) {
  const end = Date.now() + HANGS;
  for (;;) {
    try {
      return await browser.value(waitFor(expression, end - Date.now()));
    } catch (error) {
      if (!isLeft(error)) throw error;
    }
  }
}

// The expression of a promise that is kept once another expression is true.
const waitFor = (expression, most) => `new Promise((resolve, reject) => {
  let fault = '';
  const wanted = async () => (${expression});
  const end = (action, value) => {
    observer.disconnect();
    clearInterval(looks);
    clearTimeout(limit);
    action(value);
  };
  const look = () => wanted().then((value) => value && end(resolve, value), (error) => {
    fault = error.message;
  });
  const observer = new MutationObserver(look);
  observer.observe(document, { subtree: true, childList: true, characterData: true, attributes: true });
  const looks = setInterval(look, ${LOOKS_EACH});
  const said = () => document.getElementById('status')?.textContent;
  const limit = setTimeout(() => end(reject, new Error(${JSON.stringify(`never: ${expression}`)} + '; ' + fault + '; the status line: ' + said())), ${most});
  look();
})`;

// Agrees to how a word list is read, once the page shows that.
export async function takeList(browser) {
  await browser.until("document.getElementById('list-dialog').open");
  await browser.press('Enter');
}
