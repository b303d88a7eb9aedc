// Which tab keeps a puzzle: the one that holds a lock of the puzzle's name. Pages from disk have locks too.

const LOCK = 'xw-editor/';
// marks in a tab that the page before in this tab held the lock of a puzzle, which it may still be giving back
const HELD_BEFORE = 'xw-editor-held';

export class Claim extends EventTarget {
  // the puzzle that this tab has, and whether it keeps it
  puzzle = '';
  isHeld = false;
  /** @type {(() => void) | null} */
  #release = null;
  // ends a request that waits for another page to give the lock back
  /** @type {AbortController | null} */
  #waiting = null;
  // is kept when the requests so far are over and their locks given back
  #over = Promise.resolve();
  // rises with each request, so that the end of an earlier one says nothing
  #turn = 0;

  // Takes the lock of a puzzle if no other tab holds it, and gives back the one of the puzzle before. Tells `held`, or `other` if another tab
  // holds it. A page that is loaded again in its tab waits for the lock of the page before it.
  /** @param {string} puzzle */
  async begin(puzzle) {
    this.#giveBack();
    this.puzzle = puzzle;
    const wasHeld = takeMark() === puzzle;
    if (!navigator.locks) return this.#hold();
    // this page may still have the lock by an earlier request, which is no other tab
    const turn = this.#turn;
    await this.#over;
    if (turn !== this.#turn) return;
    const isHeld = await this.#request({ ifAvailable: true });
    if (isHeld || !wasHeld || this.puzzle !== puzzle) return;
    this.#waiting = new AbortController();
    await this.#request({ signal: this.#waiting.signal });
  }

  // Takes the lock from the tab that holds it.
  async take() {
    if (!navigator.locks) return this.#hold();
    await this.#request({ steal: true });
  }

  // Leaves the puzzle to another tab, which keeps it now.
  yield() {
    this.#release?.();
    this.#lose();
  }

  // Gives the lock back when the page goes.
  leave() {
    if (this.isHeld) setMark(this.puzzle);
    this.#giveBack();
  }

  #giveBack() {
    this.isHeld = false;
    this.#turn++;
    this.#release?.();
    this.#release = null;
    this.#waiting?.abort();
    this.#waiting = null;
  }

  // The names of the puzzles that tabs hold.
  static async held() {
    if (!navigator.locks?.query) return new Set();
    const { held } = await navigator.locks.query();
    return new Set((held ?? []).flatMap(({ name }) => (name?.startsWith(LOCK) ? [name.slice(LOCK.length)] : [])));
  }

  // Asks for the lock, and returns whether it is there.
  /**
   * @param {LockOptions} options
   * @returns {Promise<boolean>}
   */
  #request(options) {
    const turn = ++this.#turn;
    const isNow = () => turn === this.#turn;
    return new Promise((resolve) => {
      const asked = navigator.locks.request(LOCK + this.puzzle, options, (lock) => {
        resolve(Boolean(lock));
        if (!isNow()) return undefined;
        if (!lock) return this.#lose();
        const end = new Promise((/** @type {(value?: undefined) => void} */ release) => {
          this.#release = release;
        });
        this.#hold();
        return end;
      });
      // another tab has taken the lock, or this page may have none
      const over = asked.catch(({ name }) => {
        resolve(name !== 'AbortError');
        if (!isNow()) return;
        if (name === 'AbortError') this.#lose();
        else this.#hold();
      });
      this.#over = Promise.all([this.#over, over]).then(() => {});
    });
  }

  #hold() {
    this.isHeld = true;
    this.dispatchEvent(new Event('held'));
  }

  #lose() {
    this.isHeld = false;
    this.dispatchEvent(new Event('other'));
  }
}

function takeMark() {
  try {
    const mark = sessionStorage.getItem(HELD_BEFORE);
    sessionStorage.removeItem(HELD_BEFORE);
    return mark;
  } catch {
    return null;
  }
}

/** @param {string} puzzle */
function setMark(puzzle) {
  try {
    sessionStorage.setItem(HELD_BEFORE, puzzle);
  } catch {
    // then the page that is loaded next may say that another tab holds the lock
  }
}
