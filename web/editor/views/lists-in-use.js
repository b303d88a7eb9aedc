// The word lists in use: their changes, one after another, the least score, and what is said of them.
import { Aside } from '../engine/aside.js';
import { foldedText, leftOutText, wordCount, withScores } from '../formats/word-list.js';
import { whyNotKept } from '../store/keep.js';
import { Lists } from '../store/lists.js';
import { LeastView, leftOf } from './least.js';
import { ListsView } from './lists-view.js';
import { endWarning, mayEdit, refusalText, refuseAsIs, say, sayAsIs, unforeseen, warn } from './messages.js';
import { $ } from './page.js';
import { RescoreDialog } from './rescore-dialog.js';

const MOST_FORMER = 10;

export class ListsInUse {
  /** @type {import('../model/editor.js').Editor} */
  #editor;
  #lists = new Lists({ parts: [] });
  // the lists before each change, the last one at the end
  /** @type {Lists[]} */
  #former = [];
  // the last change, after which the next one begins, and how often the lists are being kept now
  /** @type {Promise<boolean>} */
  #changing = Promise.resolve(true);
  #storing = 0;
  // words that were graded again, with their scores, which the engine does not have yet
  /** @type {Map<string, number>} */
  #regraded = new Map();
  #least;
  #view;
  #aside;

  /**
   * @param {import('../model/editor.js').Editor} editor
   * @param {import('./leaving.js').Leaving} leaving
   * @param {() => Worker} makeWorker
   */
  constructor(editor, leaving, makeWorker) {
    this.#editor = editor;
    editor.takes({
      changeLists: (changed, name) => this.change(changed, name), regrade: (word, score) => this.#regrade(word, score), keepWord: (word, isHidden) => this.#keepWord(word, isHidden),
      enumerations: (words) => this.#enumerations(words),
    });
    this.#least = new LeastView(
      editor,
      { row: $('least-row'), told: $('least-told'), slider: $('least'), shown: $('least-shown'), left: $('least-left'), weak: $('weak'), threes: $('threes'), apart: $('apart'), target: $('target') },
      {
        use: (least) => this.#useLeast(least), kept: () => this.#keepLeast(), chosen: (chosen) => this.#choose(chosen), threes: (score) => this.#useThrees(score),
      },
    );
    const rescoring = new RescoreDialog(
      {
        dialog: $('rescore-dialog'), title: $('rescore-title'), kind: $('rescore-kind'), text: $('rescore-text'), how: $('rescore-how'), value: $('rescore-value'),
        preview: $('rescore-preview'), stop: $('rescore-stop'), told: $('rescore-told'), changes: $('rescore-changes'), take: $('rescore-take'), back: $('rescore-back'),
      },
      makeWorker,
      (name, rescored) => this.#foreseen(this.change((now) => now.rescoring(name, rescored))),
    );
    this.#aside = new Aside(makeWorker);
    this.#view = new ListsView(
      {
        list: $('lists'), undo: $('lists-undo'), summary: $('personal-summary'), edit: $('personal-edit'), export: $('personal-export'), dialog: $('personal-dialog'),
        text: $('personal-text'), count: $('personal-count'), file: $('personal-file'), import: $('personal-import'),
      },
      {
        change: (changed) => this.#foreseen(this.change(changed)), undo: () => this.#foreseen(this.#undo()),
        export: (text) => editor.do('saveText', text, 'my-words.txt'), kept: (takeBack) => leaving.kept(takeBack), exportList: (part) => this.#export(part).catch(unforeseen),
        rescore: (part) => rescoring.open(part),
      },
    );
  }

  // Whether a change is made; one that fails is told.
  /** @param {Promise<boolean>} changed */
  #foreseen(changed) {
    return changed.catch((fault) => {
      unforeseen(fault);
      return false;
    });
  }

  // Saves a list with its own scores.
  /** @param {import('../store/lists.js').Part} part */
  async #export(part) {
    const text = await this.#aside.ask('linesOfList', part);
    if (text !== null) this.#editor.do('saveText', text, `${part.name.replace(/\.\w+$/, '')}.txt`);
  }

  // Takes over the lists that the browser keeps, or those that the editor began with.
  /** @param {Lists} lists */
  take(lists) {
    this.#lists = lists;
  }

  // Changes the lists, each time from what the change before has left, and keeps them. `change` tells whether others are in use then.
  /** @param {() => Promise<boolean>} change */
  async #inOrder(change) {
    const changed = this.#changing.then(change);
    this.#changing = changed.catch(() => false);
    if (!(await changed)) return false;
    this.show();
    await this.#store();
    return true;
  }

  // Uses the word lists that a function makes of those in use, if the engine takes them. `name` is that of a list that is opened, and `said`
  // is what is said then. Returns whether they are in use.
  /**
   * @param {(lists: Lists) => Lists} changed
   * @param {string} name
   * @param {string} said
   */
  change(changed, name = '', said = '') {
    return this.#inOrder(async () => {
      const before = this.#lists;
      const other = changed(before);
      if (other === before || !(await this.#use(other, name, said))) return false;
      this.#former.push(before);
      if (this.#former.length > MOST_FORMER) this.#former.shift();
      return true;
    });
  }

  // Takes the last change back.
  #undo() {
    return this.#inOrder(async () => {
      const before = this.#former.at(-1);
      if (!before || !(await this.#use(before))) return false;
      this.#former.pop();
      return true;
    });
  }

  // Puts a word that was added or hidden in this puzzle into the personal list.
  /**
   * @param {string} word
   * @param {boolean} isHidden
   */
  #keepWord(word, isHidden) {
    const line = `${isHidden ? '-' : ''}${word}`;
    return this.change((now) => now.withPersonal([now.personal.trimEnd(), line].filter(Boolean).join('\n')));
  }

  // Gives a word another score in the personal list. Those that come while the engine takes one over are taken together.
  /**
   * @param {string} word
   * @param {number} score
   */
  #regrade(word, score) {
    if (!mayEdit(this.#editor)) return Promise.resolve(false);
    this.#regraded.set(word, score);
    const said = `${word} has the score ${score} in My words`;
    sayAsIs(said, 'good');
    return this.change((now) => {
      const scores = this.#regraded;
      this.#regraded = new Map();
      return scores.size ? now.withPersonal(withScores(now.personal, scores)) : now;
    }, 'My words', said);
  }

  // Promises the enumerations of words, by word, as far as the lists show them.
  /**
   * @param {string[]} words
   * @returns {Promise<Map<string, string>>}
   */
  async #enumerations(words) {
    const { plain, chosen: { sources, personal } } = this.#lists;
    return new Map(await this.#editor.engine.call('enumerations', { words, sources, personal, plain }));
  }

  // Has the engine use other lists, and says what they have, or why it refuses them. Returns whether they are in use.
  /**
   * @param {Lists} other
   * @param {string} name
   * @param {string} said
   */
  async #use(other, name = '', said = '') {
    if (!mayEdit(this.#editor)) return false;
    this.#editor.do('stopFill');
    const fault = await this.#editor.useList(other.chosen);
    if (fault) {
      const why = fault.status === 'NoWord' ? fault.answer : '';
      refuseAsIs(`${name || 'the lists'}: ${[refusalText(fault.status), why].filter(Boolean).join('; ')}`);
      this.show();
      return false;
    }
    this.#lists = other;
    const { name: used, words, scored } = this.#editor.list;
    sayAsIs(said || `${used || 'no list'}: ${[`${wordCount(words)}${scored ? ', the best scores first' : ''}`, ...this.#notes()].join('; ')}`, 'good');
    return true;
  }

  // How the lists were read, and what was left out of them, or changed.
  #notes() {
    const { leftOut, folded, asRead } = this.#editor.list;
    return [...asRead, foldedText(folded), leftOutText(leftOut)].filter(Boolean);
  }

  async #store() {
    endWarning('list');
    const tell = (/** @type {number} */ step) => $('lists').setAttribute('aria-busy', String((this.#storing += step) > 0));
    tell(1);
    try {
      await this.#lists.keep();
    } catch (fault) {
      warn('list', `The word lists are not kept: ${whyNotKept(fault)}. Load them again next time.`);
    } finally {
      tell(-1);
    }
  }

  show() {
    const { name, words: count } = this.#editor.list;
    const none = 'No word list is in use, so no word is known: load one, or add words.';
    $('list-name').textContent = name ? [`${name}: ${wordCount(count)}`, ...this.#notes()].join('; ') : none;
    this.#least.show();
    this.#view.show(this.#lists, this.#former.length > 0);
  }

  // Has the engine take over a least score, which may lead into a dead end.
  /** @param {number} least */
  async #useLeast(least) {
    this.#editor.do('stopFill');
    this.#editor.change({ edited: null });
    await this.#editor.useLeast(least);
    this.#lists = this.#lists.atLeast(least);
  }

  #keepLeast() {
    const { list, board } = this.#editor;
    const left = leftOf(list, list.grade);
    say(list.grade ? `${left.toLocaleString('en')} of ${wordCount(list.words)} have ${list.least} or more` : `all ${wordCount(list.words)} are in use`, left ? 'good' : 'bad');
    if (board.lights.some((light) => board.countOf(light) === 0 && !board.isEntered(light))) this.#editor.do('findDeadEnds');
    this.#store();
  }

  // Takes over another score to mark words below, or one at which a raising ends, or whether words are to be apart.
  /** @param {{ weak?: number, apart?: boolean, target?: number | null }} chosen */
  #choose(chosen) {
    this.#editor.changeList(chosen);
    this.#lists = this.#lists.choosing(chosen);
    this.#store();
    this.#editor.do('toGrid');
  }

  // Uses another least score of words of three letters.
  /** @param {number} threes */
  async #useThrees(threes) {
    const said = threes ? `words of three letters have ${threes} or more` : 'words of three letters have any score';
    if (await this.change((now) => now.choosing({ threes }), 'the lists', said)) this.#editor.do('findDeadEnds');
    this.#editor.do('toGrid');
  }
}
