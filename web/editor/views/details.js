// The tab of the puzzle: its texts, counts, repeats and words.
import { named } from '../engine/told.js';
import { lettersByColour, nameOfColour } from '../model/colours.js';
import { faultsOf } from '../model/faults.js';
import { languagesFor } from '../model/language.js';
import { parseRecord } from '../model/record.js';
import { warningsOf } from '../model/rules.js';
import { termed } from '../model/terms.js';
import { staleClues } from '../model/written.js';
import { refuse, say } from './messages.js';
import { all, option, pressed, speakIn } from './page.js';
import { titleOf } from './words.js';

// the fields of texts
const FIELDS = /** @type {const} */ (['title', 'author', 'copyright', 'notes']);
// how long after an edit counts are asked for, in milliseconds
const SETTLED = 200;

/** @typedef {import('../engine/told.js').Answers} Answers */
/** @typedef {typeof FIELDS[number]} Field */
/**
 * @typedef {Record<Field, HTMLInputElement | HTMLTextAreaElement> & Record<'panel' | 'checks' | 'counts' | 'lengths' | 'frequency' | 'changed', HTMLElement> & {
 *   language: HTMLSelectElement, wordForm: HTMLFormElement, word: HTMLInputElement,
 * }} Elements
 */

export class DetailsView {
  /** @type {import('../model/editor.js').Editor} */
  #editor;
  #elements;
  #edits;
  #typed;
  #parts;
  #timer = 0;

  // `parts` are shown with the counts.
  /**
   * @param {import('../model/editor.js').Editor} editor
   * @param {Elements} elements
   * @param {import('./edits.js').Edits} edits
   * @param {import('./typed.js').Typed} typed
   * @param {{ show: () => unknown }[]} parts
   */
  constructor(editor, elements, edits, typed, parts) {
    this.#editor = editor;
    this.#elements = elements;
    this.#edits = edits;
    this.#typed = typed;
    this.#parts = parts;
    editor.on(['board'], () => this.#takeTexts());
    editor.on(['scores'], () => this.soon());
    editor.on(['step', 'written'], () => this.soon());
    for (const field of FIELDS) {
      elements[field].addEventListener('change', () => this.#change(field));
      elements[field].addEventListener('focusout', () => this.#leave(field));
      elements[field].addEventListener('keydown', (/** @type {any} */ event) => {
        if (event.key !== 'Escape') return;
        this.#change(field);
        typed.leave(event);
      });
    }
    elements.language.addEventListener('change', () => edits.language(elements.language.value));
    editor.on(['left'], () => this.#forgetTyped());
    elements.wordForm.addEventListener('submit', (event) => {
      event.preventDefault();
      this.#addOrStrike(/** @type {HTMLButtonElement | null} */ (event.submitter)?.value ?? 'add');
    });
    for (const list of [elements.checks, elements.changed]) list.addEventListener('click', (event) => this.#click(pressed(event, 'button')));
  }

  #takeTexts() {
    if (this.#elements.language.dataset.shown !== this.#editor.language) this.#showLanguage();
    for (const field of FIELDS) {
      const element = this.#elements[field];
      const text = this.#editor.textOf(field);
      // what is being typed stays when the answer to an earlier edit comes
      if (document.activeElement === element && element.dataset.text === text) continue;
      element.dataset.text = text;
      element.value = text;
      // as the browser shows it: a field drops line feeds, an area unites them
      element.dataset.kept = element.value;
    }
  }

  // The language, by which the spelling of the texts is checked.
  #showLanguage() {
    const { language } = this.#editor;
    const { panel, language: choice } = this.#elements;
    const options = languagesFor(language).map(({ code, name }) => option(code, name));
    choice.replaceChildren(option('', 'not said'), ...options);
    choice.value = language;
    choice.dataset.shown = language;
    for (const field of all('#title, #notes', panel)) speakIn(field, language);
  }

  // Takes over what a field holds, if that is another text. The field stays as it is.
  /** @param {Field} field */
  #change(field) {
    const element = this.#elements[field];
    const text = element.value.trim();
    if ([element.value, text].includes(element.dataset.kept ?? '')) return;
    element.dataset.kept = text;
    // what is typed after it stays when the answer comes
    element.dataset.text = text;
    this.#typed.text(element, field, text);
  }

  // Shows the text of a field that is left, without spaces around it.
  /** @param {Field} field */
  #leave(field) {
    const element = this.#elements[field];
    if (element.value.trim() === element.dataset.kept) element.value = element.dataset.kept;
  }

  // What is typed belongs to the puzzle that was here.
  #forgetTyped() {
    for (const field of FIELDS) this.#elements[field].value = this.#elements[field].dataset.kept ?? '';
  }

  // Asks for counts and faults when edits have come to a rest.
  soon() {
    clearTimeout(this.#timer);
    this.#timer = window.setTimeout(() => this.refresh().catch(() => {}), SETTLED);
  }

  // Asks for counts and faults, if the tab is in sight.
  async refresh() {
    if (this.#elements.panel.hidden) return;
    for (const part of this.#parts) part.show();
    const editor = this.#editor;
    const [counted, repeated, found] = await Promise.all([editor.ask('stats'), editor.ask('dups'), faultsOf(editor)]);
    if (counted) this.#showCounts(counted);
    this.#showChecks(repeated ?? [], found);
    this.#showChanged();
  }

  /** @param {Answers['stats']} stats */
  #showCounts(stats) {
    const { board } = this.#editor;
    /** @type {[string, string | number][]} */
    const rows = [
      ['Size', `${board.width} × ${board.height}`], ['Words', stats.lights], ['Mean length', stats.mean.toFixed(2)],
      ['Blocks', `${stats.blocks} (${Math.round((100 * stats.blocks) / stats.cells)} %)`],
      ...(stats.bars ? [pair('Bars', stats.bars)] : []), ['Unchecked cells', stats.unchecked],
      ['Letters entered', `${stats.entered} of ${board.open}`], ...this.#markedRows(),
    ];
    this.#elements.counts.replaceChildren(...rows.flatMap(([name, value]) => [element('dt', name), element('dd', value)]));
    this.#elements.lengths.replaceChildren(...bars(Object.entries(stats.lengths)));
    const alphabet = Array.from('ABCDEFGHIJKLMNOPQRSTUVWXYZ', (letter) => pair(letter, stats.letters[letter] ?? 0));
    this.#elements.frequency.replaceChildren(...bars(alphabet));
  }

  // The letters of the cells of each colour, and of those with a circle, in reading order.
  /** @returns {[string, string][]} */
  #markedRows() {
    const editor = this.#editor;
    const circled = editor.board.cells.filter((cell) => cell.circle && !cell.block).map((cell) => editor.entryOf(cell) || '·').join('');
    const coloured = [...lettersByColour(editor)].map(([colour, letters]) => pair(`${nameOfColour(colour)} cells`.replace(/^./, (first) => first.toUpperCase()), letters));
    return [...coloured, ...(circled ? [pair('Circled', circled)] : [])];
  }

  /**
   * @param {Answers['dups']} repeated
   * @param {Awaited<ReturnType<typeof faultsOf>>} found
   */
  #showChecks(repeated, found) {
    const { board } = this.#editor;
    const items = [];
    for (const { light, first, word } of repeated) items.push(check(`${word} stands twice: ${titleOf(named(light))} and ${titleOf(named(first))}`, light));
    for (const { word, why, ...light } of found) {
      const item = check(`${why}: ${titleOf(light)}`, light.name);
      item.append(button('Add it', { add: word }), button('Erase it', { erase: light.name }));
      items.push(item);
    }
    const lacking = board.lights.filter((light) => !board.hasClue(light));
    if (lacking.length) {
      const text = lacking.length === 1 ? `${titleOf(lacking[0])} has no clue` : `${lacking.length} lights have no clue`;
      items.push(check(text, lacking[0].name, 'clue'));
    }
    const stale = staleClues(this.#editor);
    if (stale.length) {
      const [{ light, word }] = stale;
      items.push(check(stale.length === 1 ? `the clue of ${titleOf(light)} was written for ${word}` : `${stale.length} clues were written for other words`, light.name, 'clue'));
    }
    const commented = board.lights.filter((light) => this.#editor.commentsOn(light).length);
    if (commented.length) items.push(check(commented.length === 1 ? `the clue of ${titleOf(commented[0])} has comments` : `${commented.length} clues have comments`, commented[0].name, 'clue'));
    const empty = board.firstEmpty();
    if (empty >= 0) {
      const item = element('li', '');
      const count = board.open - board.entered;
      item.append(button(count === 1 ? 'one cell is empty' : `${count} cells are empty`, { cell: empty }));
      items.push(item);
    }
    const dead = board.lights.filter((light) => board.countOf(light) === 0 && !board.isEntered(light));
    if (dead.length) items.unshift(check(dead.length === 1 ? `${titleOf(dead[0])} has no word left` : `${dead.length} lights have no word left`, dead[0].name));
    for (const warning of warningsOf(this.#editor)) {
      const item = element('li', '', 'warning');
      /** @type {Record<string, string | number>} */
      const place = warning.cell === undefined ? { light: warning.light ?? '' } : { cell: warning.cell };
      item.append(button(`⚠ ${warning.text}`, warning.isClue ? { ...place, tab: 'clue' } : place));
      items.push(item);
    }
    if (!items.length) items.push(element('li', 'Nothing is missing: no repeat, no unlisted word, no empty cell, a clue for each light and its word.', 'good'));
    this.#elements.checks.replaceChildren(...items);
  }

  #showChanged() {
    const { added, struck } = parseRecord(this.#editor.record);
    const items = [
      ...added.filter((word) => !struck.includes(word)).map((word) => changed(`+ ${word}`, ['Hide', { strike: word }], ['To my words', { keep: word }])),
      ...struck.filter((word) => !added.includes(word)).map((word) => changed(`− ${word}`, ['Add again', { add: word }], ['Hide always', { hide: word }])),
    ];
    this.#elements.changed.replaceChildren(...items);
    this.#elements.changed.hidden = items.length === 0;
  }

  /** @param {string} command */
  async #addOrStrike(command) {
    const { word } = this.#elements;
    const spelled = word.value.replace(/[\s'’-]/g, '').toUpperCase();
    if (!spelled) return refuse('type a word first');
    await this.#edit(command, spelled);
    word.value = '';
    word.focus();
  }

  /**
   * @param {string} command
   * @param {string} word
   */
  async #edit(command, word) {
    const refused = await this.#edits.edit([`${command} ${word}`]);
    if (refused) return;
    say(command === 'add' ? `${word} is added to this puzzle` : `${word} is hidden in this puzzle`, 'good');
  }

  /** @param {HTMLElement | null} pressed */
  #click(pressed) {
    if (!pressed) return;
    const { add, strike, erase, keep, hide, light, cell, tab } = pressed.dataset;
    const kept = keep ?? hide;
    if (kept) return this.#editor.do('keepWord', kept, Boolean(hide));
    if (erase) return this.#edits.edit([`erase ${erase}`]);
    if (add) return this.#edit('add', add);
    if (strike) return this.#edit('strike', strike);
    if (cell) this.#editor.moveTo(Number(cell));
    const there = this.#editor.board.byName.get(light ?? '');
    if (there) this.#editor.moveTo(there.cells[0], there.direction);
    if (tab === 'clue') this.#editor.do('toClue', there ?? null);
    else this.#editor.do('toGrid');
  }
}

/**
 * @template T
 * @param {string} name
 * @param {T} value
 * @returns {[string, T]}
 */
const pair = (name, value) => [name, value];

/**
 * @param {string} name
 * @param {string | number} text
 * @param {string} className
 */
function element(name, text, className = '') {
  const made = document.createElement(name);
  made.textContent = typeof text === 'string' ? termed(text) : String(text);
  made.className = className;
  return made;
}

/**
 * @param {string} text
 * @param {Record<string, string | number>} data
 */
function button(text, data) {
  const made = /** @type {HTMLButtonElement} */ (element('button', text));
  made.type = 'button';
  Object.assign(made.dataset, data);
  return made;
}

/**
 * @param {string} text
 * @param {string} light
 * @param {string} tab
 */
function check(text, light, tab = '') {
  const item = element('li', '');
  item.append(button(text, { light, tab }));
  return item;
}

// A word that was added or struck, with buttons: each a name and what it does.
/**
 * @param {string} text
 * @param {[string, Record<string, string>][]} buttons
 */
function changed(text, ...buttons) {
  const item = element('li', '');
  item.append(element('span', text), ...buttons.map(([name, data]) => button(name, data)));
  return item;
}

// A bar for each pair of a name and a count.
/** @param {[string, number][]} pairs */
function bars(pairs) {
  const most = Math.max(1, ...pairs.map(([, count]) => count));
  return pairs.map(([name, count]) => {
    const bar = element('span', '');
    bar.style.setProperty('--bar', `${(100 * count) / most}%`);
    bar.title = `${name}: ${count}`;
    bar.append(element('i', ''), element('b', name), element('small', count || '–'));
    return bar;
  });
}
