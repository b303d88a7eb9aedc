// Files: what is opened, dropped and saved.
import { toBytes, toText } from '../../xw.js';
import { statusOf } from '../engine/engine.js';
import { lawfulBeside } from '../model/beside.js';
import { addedComments } from '../model/comments.js';
import { enumerated } from '../model/enumeration.js';
import { commentField, isComment } from '../model/links.js';
import { isRebus, keptRebus } from '../model/rebus.js';
import { bodyOf, parseRecord } from '../model/record.js';
import { termed } from '../model/terms.js';
import { staleClues } from '../model/written.js';
import { solverPage, solverPuzzle } from '../solver/puzzle.js';
import { askClues } from '../views/clue-preview.js';
import { solutionOf } from '../views/locked.js';
import { mayEdit, refusalText, refuseAsIs as refuse, sayAsIs as say } from '../views/messages.js';
import { askAnyway, askFile, askKey, askRows } from '../views/questions.js';
import { titleOf } from '../views/words.js';
import { htmlOf } from './clue-sheet.js';
import { clueChanges, clueTable, countClues, readClueTable } from './clue-table.js';
import { Dropped, countText, droppedOfPuz, joinedText, namesText } from './dropped.js';
import { exolveOf, readExolve } from './exolve.js';
import { FileFault } from './given.js';
import { ipuzOf, readIpuz } from './ipuz.js';
import { jpzOf, readJpz } from './jpz.js';
import { SESSION_HEAD, foreignKind, hasCommands, isListText, isPuz, kindOf } from './kinds.js';
import { lossesOf } from './losses.js';
import { unpacked } from './packed.js';
import { rebusOf, withRebus } from './puz-sections.js';
import { asVersion13, originalsOf } from './puz-versions.js';
import { readPuz } from './puz.js';
import { readDeck, readQxw } from './qxw.js';
import { counted } from './repairs.js';
import { asVersion1, isVersion1, isVersion2, letterRows, readText, readText2, recordOfRows } from './text-grids.js';
import { isScrambled } from './unscramble.js';
import { listText } from './word-list.js';

// Notes of sessions, which the program passes over.
const PENCIL = '# pencil ';
const ORIGINALS = '# originals ';
const WRITTEN = '# written ';

// how many comments that are left out are named
const MOST_NAMED = 5;
// the most bytes of a file that is opened; larger ones are none of those that the page knows
const MOST_BYTES = 1 << 27;

// The readers of formats, each of which makes a Given of bytes, and the writers of texts.
/** @type {Record<string, (bytes: Uint8Array) => import('./given.js').Given>} */
const READERS = {
  ipuz: (bytes) => readIpuz(new TextDecoder().decode(bytes)),
  jpz: (bytes) => readJpz(listText(bytes)),
  exolve: (bytes) => readExolve(listText(bytes)),
  qxw: (bytes) => readQxw(listText(bytes)),
  deck: (bytes) => readDeck(listText(bytes)),
};
const WRITERS = { ipuz: ipuzOf, jpz: jpzOf, exolve: exolveOf };

/** @typedef {import('../model/board.js').Cell} Cell */
/** @typedef {import('../model/board.js').Light} Light */
/** @typedef {{ record: string, originals: import('../model/state.js').Pair[], dropped: readonly string[] }} Sound what of a file the engine has read, and what is kept beside it */

export class Files {
  /** @type {import('../model/editor.js').Editor} */
  #editor;
  #edits;
  #words;
  #lists;
  #clues;

  // `words` has the words of the lists, `lists` asks how one is read, and `clues` are the elements that show what a table of clues changes.
  /**
   * @param {import('../model/editor.js').Editor} editor
   * @param {import('../views/edits.js').Edits} edits
   * @param {import('../engine/all-words.js').AllWords} words
   * @param {import('../views/list-dialog.js').ListDialog} lists
   * @param {import('../views/clue-preview.js').Elements} clues
   */
  constructor(editor, edits, words, lists, clues) {
    this.#editor = editor;
    this.#edits = edits;
    this.#words = words;
    this.#lists = lists;
    this.#clues = clues;
    editor.takes({ saveText: (text, name) => this.saveText(text, name), saveSession: () => this.saveSession() });
  }

  // Opens a file of any kind, or one that is said to be a `list` of words, a table of `clues` or a session with `comments`. Returns whether it could.
  /** @param {File} file */
  async open(file, as = '') {
    if (!mayEdit(this.#editor)) return false;
    const content = await this.#contentOf(file);
    if (!content) return false;
    const { name, bytes } = content;
    const kind = as === 'clues' ? as : kindOf(name, bytes);
    if (as === 'comments') return kind === 'session' ? this.#openComments(name, toText(bytes)) : this.#refuse(`${name} is no session, and no other file has comments: nothing is taken over`);
    try {
      switch (kind) {
        case 'list':
          return await this.openList(name, bytes);
        case 'puzzle':
          return await this.#openPuzzle(name, bytes);
        case 'text2':
          return await this.#openText2(name, bytes);
        case 'rows':
          return await (as === 'list' ? this.openList(name, bytes) : this.#openRows(name, bytes));
        case 'clues':
          return await this.#openClues(name, readClueTable(listText(bytes)));
        case 'ipuz':
        case 'jpz':
        case 'exolve':
        case 'qxw':
        case 'deck':
          return await this.#openGiven(name, givenBy(READERS[kind], bytes));
        case 'puzzles':
          return await this.#openPuzzles(name, new TextDecoder().decode(bytes));
        case 'session':
          return await this.#openSession(name, toText(bytes));
        case 'empty':
          return this.#refuse(`${name} is empty: nothing is opened`);
        case 'mail':
          return this.#refuse(`${name} looks like a mail, not a puzzle: save its attachment, and open that`);
        case 'foreign':
          return this.#refuse(`${name} is ${foreignKind(bytes)}, not a puzzle: nothing is opened`);
        default:
          return this.#refuse(`${name} is no puzzle (.puz, .ipuz, .jpz, .qxw, Exolve or text), no session and no word list: nothing is opened`);
      }
    } catch (fault) {
      const told = statusOf(fault);
      if (!told) throw fault;
      // the engine takes what is no .puz file for a text file
      const status = (told === 'Header' || told === 'NulByte') && /\.puz$/i.test(name) ? 'Magic' : told;
      const hint = kind !== 'clues' && isListText(bytes) ? '; it looks like a word list, so give it a name that ends with .txt' : '';
      return this.#refuse(`${name}: ${status === 'File' ? messageOf(fault) : refusalText(status)}${hint}`);
    }
  }

  // `dropped` has what of the file is not kept.
  /**
   * @param {string} name
   * @param {readonly string[]} dropped
   */
  #opened(name, dropped = [], more = '') {
    this.#editor.do('toGrid');
    const lacking = lackingText(dropped);
    say(`${name} is open${lacking}${more}; undo goes back to what was here`, lacking ? 'bad' : 'good');
    return true;
  }

  /**
   * @param {string} name
   * @param {Uint8Array} bytes
   */
  #openText2(name, bytes) {
    return this.#openSound(name, bytes, () => this.#soundText2(bytes));
  }

  /** @param {Uint8Array} bytes */
  async #soundText2(bytes) {
    const { text, lines, originals, dropped } = asVersion1(listText(bytes));
    const read = await this.#editor.engine.call('read', { puzzle: toBytes(text) });
    return { record: [read.trimEnd(), ...lines, ''].join('\n'), originals, dropped };
  }

  // Opens rows of letters as what the user says they are.
  /**
   * @param {string} name
   * @param {Uint8Array} bytes
   */
  async #openRows(name, bytes) {
    const rows = /** @type {string[]} */ (letterRows(listText(bytes)));
    const answer = await askRows(name, rows);
    if (answer === 'list') return this.openList(name, bytes);
    if (answer !== 'grid') return this.#refuse(`${name} is not opened`);
    await this.#editor.replace({ record: await this.#editor.engine.call('read', { record: recordOfRows(rows) }) });
    return this.#opened(name);
  }

  // Opens a .puz or a text file.
  /**
   * @param {string} name
   * @param {Uint8Array} bytes
   */
  #openPuzzle(name, bytes) {
    return isPuz(bytes) && isScrambled(bytes) ? this.#openScrambled(name, bytes) : this.#openSound(name, bytes, () => this.#soundPuzzle(bytes));
  }

  // Opens what the engine makes of a file, or if it refuses the file for a fault, what can be read of it.
  /**
   * @param {string} name
   * @param {Uint8Array} bytes
   * @param {() => Promise<Sound>} read
   */
  async #openSound(name, bytes, read) {
    let puzzle;
    try {
      puzzle = await read();
    } catch (fault) {
      if (!statusOf(fault)) throw fault;
      return await this.#openGiven(name, puzzleDespite(fault, bytes), { fault });
    }
    await this.#editor.replace(puzzle);
    return this.#opened(name, puzzle.dropped);
  }

  // Opens a .puz with a scrambled solution, with its letters or without them.
  /**
   * @param {string} name
   * @param {Uint8Array} bytes
   */
  async #openScrambled(name, bytes) {
    // which is refused if it has no grid
    readPuz(bytes);
    const found = await solutionOf(name, bytes, { ask: askKey, searching: () => say(`trying the keys of ${name} …`, 'busy', true), words: () => this.#words.get() });
    if (!found) return this.#refuse(`${name} is not opened`);
    const given = readPuz(bytes, found.solution);
    if (!found.found) given.drops('its solution, which is scrambled');
    return this.#openGiven(name, given, { found: found.found });
  }

  // What a .puz or a text file has. The characters of a later .puz that earlier ones cannot have are kept beside its texts.
  /**
   * @param {Uint8Array} bytes
   * @returns {Promise<Sound>}
   */
  async #soundPuzzle(bytes) {
    const { bytes: puzzle, texts } = isPuz(bytes) ? asVersion13(bytes) : { bytes, texts: [] };
    const record = await this.#editor.engine.call('read', { puzzle });
    const strange = texts.length ? originalsOf(texts, await this.#editor.engine.call('lights', { record })) : [];
    const { originals, lines } = keptRebus(isPuz(puzzle) ? rebusOf(puzzle) : []);
    return { record: [record.trimEnd(), ...lines, ''].join('\n'), originals: [...strange, ...originals], dropped: isPuz(puzzle) ? droppedOfPuz(puzzle) : [] };
  }

  // Opens what a reader made of a file: its clues are at the lights that the engine finds in its grid. What was wrong in it is shown before. `fault` is why
  // the engine refused the file itself, and `found` says how its solution was found.
  /**
   * @param {string} name
   * @param {import('./given.js').Given} given
   * @param {{ fault?: unknown, found?: string }} why
   */
  async #openGiven(name, given, { fault = null, found = '' } = {}) {
    const { engine } = this.#editor;
    const { record, originals, lost } = given.recordWith(await engine.call('lights', { record: given.grid }));
    const read = await engine.call('read', { record });
    const repairs = given.repairs.lines.length || !fault ? given.repairs.lines : [refusalText(statusOf(fault) ?? '')];
    if (repairs.length && (await askAnyway(name, repairs)) !== 'open') return this.#refuse(`${name} is not opened`);
    await this.#editor.replace({ record: read, originals });
    const repaired = repairs.length ? `, with ${counted(repairs.length, 'repair')}` : '';
    return this.#opened(name, given.dropped, `${found}${repaired}${lost ? `; ${lost} ${lost === 1 ? 'clue has' : 'clues have'} no place in its grid` : ''}`);
  }

  // Shows what a table of clues changes in the puzzle, and changes it in one step if the user agrees.
  /**
   * @param {string} name
   * @param {ReturnType<typeof readClueTable>} rows
   */
  async #openClues(name, rows) {
    const editor = this.#editor;
    const found = await editor.inOrder(() => clueChanges(editor, rows));
    if (!(await askClues(editor, this.#clues, name, found))) return this.#refuse(`${name}: the clues stay as they are`);
    if (await this.#edits.takeClues(found.changes)) return false;
    say(`${name}: ${joinedText(countClues(found.changes))} taken over; undo takes this back`, 'good');
    return true;
  }

  // Adds the puzzles of a file to those that the browser keeps.
  /**
   * @param {string} name
   * @param {string} text
   */
  async #openPuzzles(name, text) {
    try {
      const { added, others, dropped } = await this.#editor.do('addPuzzles', text);
      const versions = others ? `; of ${others} that are here already, versions` : '';
      const lacking = lackingText(dropped);
      say(`${name}: ${added} ${added === 1 ? 'puzzle is' : 'puzzles are'} added to File ▸ Puzzles${versions}${lacking}`, lacking ? 'bad' : 'good');
      return true;
    } catch {
      return this.#refuse(`${name} has puzzles that cannot be read or kept: nothing is added`);
    }
  }

  /** @param {string} text */
  #refuse(text) {
    refuse(text);
    return false;
  }

  // The name and the bytes of a file, or of one in a zip or a mail; null if there are too many, or the file cannot be read, as a folder cannot.
  /** @param {File} file */
  async #contentOf(file) {
    if (file.size > MOST_BYTES) {
      refuse(`${file.name} is too large to be a puzzle, a session or a word list: nothing is opened`);
      return null;
    }
    try {
      return await unpacked({ name: file.name, bytes: new Uint8Array(await file.arrayBuffer()) }, MOST_BYTES, askFile);
    } catch (fault) {
      refuse(statusOf(fault) === 'Packed' ? messageOf(fault) : `${file.name} cannot be read`);
      return null;
    }
  }

  // Only the grid and the texts of a session are tried without the list, since words of the list are not known there.
  /**
   * @param {string} name
   * @param {string} marked
   */
  async #openSession(name, marked) {
    const text = marked.replace(/^\u00ef\u00bb\u00bf/, '');
    if (!hasCommands(text)) return this.#refuse(`${name} is a session without commands: nothing is opened`);
    const lines = text.split('\n').map((line) => line.replace(/\r$/, ''));
    const words = lines.filter((line) => /^\s*(add|strike)\s/.test(line));
    const read = await this.#editor.engine.call('read', { record: text });
    const body = bodyOf(read);
    const dropped = new Dropped();
    await this.#editor.replace({ record: [...words, ...body].join('\n'), ...besideIn(lines, dropped) });
    return this.#opened(name, dropped.phrases);
  }

  // Takes over the comments of a session of this puzzle that are not here yet. Nothing else of it counts.
  /**
   * @param {string} name
   * @param {string} text
   */
  async #openComments(name, text) {
    const editor = this.#editor;
    const { board } = editor;
    const { width, height } = parseRecord(text);
    if (width !== board.width || height !== board.height) return this.#refuse(`${name} has a grid of ${width} × ${height}: nothing is taken over`);
    const dropped = new Dropped();
    const given = besideIn(text.split(/\r?\n/), dropped).originals.filter(([field]) => isComment(field));
    const here = await editor.inOrder(() => new Map(board.lights.map((light) => [commentField(board, light), editor.commentsOn(light)])));
    const { texts, added, others } = addedComments(here, given);
    const left = others.length ? `; left out, since their clues are not here: ${namesText(others.map((one) => `“${one}”`), MOST_NAMED)}` : '';
    if (!added) return this.#refuse(`${name} has no comment that is not here${left}`);
    if (await this.#edits.takeComments(texts)) return false;
    say(`${name}: ${countText(added, '1 comment', 'comments')[0]} taken over; undo takes this back${left}`, left ? 'bad' : 'good');
    return true;
  }

  // Shows how a list is read, and takes it over if the user agrees.
  /**
   * @param {string} name
   * @param {Uint8Array} bytes
   */
  async openList(name, bytes) {
    say(`reading ${name} …`, 'busy', true);
    const form = await this.#lists.ask(name, bytes);
    if (!form) return this.#refuse(`${name} is not opened`);
    say(`reading ${name} …`, 'busy', true);
    return this.#editor.do('changeLists', (lists) => lists.adding(name, bytes, form), name);
  }

  // The name for a file of this puzzle, with an ending.
  /** @param {string} ending */
  #name(ending) {
    const title = this.#editor.board.texts.get('title') ?? '';
    const plain = title.toLowerCase().replace(/[^a-z0-9]+/g, '-').replace(/^-|-$/g, '');
    return `${plain || 'crossword'}.${ending}`;
  }

  /** @param {'puz' | 'text'} form */
  async save(form) {
    try {
      if (form === 'puz') return this.#givePuzzle(await this.#puz(), this.#name('puz'), this.#lossNote(form));
      const bytes = await this.#editor.inOrder(() => this.#editor.engine.call('file', { form }));
      this.#givePuzzle(bytes, this.#name('txt'), this.#lossNote(form));
    } catch (fault) {
      const status = statusOf(fault);
      if (!status) throw fault;
      this.#explain(status);
    }
  }

  // Saves a .puz, or if the puzzle cannot be one yet, the session, and says which and why.
  async saveAny() {
    try {
      this.#givePuzzle(await this.#puz(), this.#name('puz'), this.#lossNote('puz'));
    } catch (fault) {
      const status = statusOf(fault);
      if (!status) throw fault;
      this.saveSession(`: the session, since ${this.#whyNoPuz(status)}`);
    }
  }

  // The cells with several letters, by index.
  get #rebus() {
    const entries = this.#editor.board.cells.map((cell, index) => /** @type {[number, string]} */ ([index, this.#editor.entryOf(cell)]));
    return new Map(entries.filter(([, entry]) => isRebus(entry)));
  }

  // The .puz of the engine, with sections for cells with several letters.
  async #puz() {
    const bytes = await this.#editor.inOrder(() => this.#editor.engine.call('file', { form: 'puz' }));
    return withRebus(bytes, this.#rebus);
  }

  // What a file of a format does not keep.
  /** @param {string} form */
  #lossNote(form) {
    const { lost, strange } = lossesOf(this.#editor, form);
    const near = strange.length ? `, with near characters for ${strange.map((one) => `“${one}”`).join(', ')}` : '';
    return `${lost.length ? `, without ${joinedText(lost)}` : ''}${near}`;
  }

  /** @param {string} status */
  #whyNoPuz(status) {
    const { board } = this.#editor;
    const cell = board.firstEmpty();
    /** @type {Record<string, string>} */
    const texts = { Barred: 'a .puz cannot hold bars', NotFilled: `row ${board.rowOf(cell)}, column ${board.columnOf(cell)} is empty` };
    return texts[status] ?? refusalText(status);
  }

  // Says why a file cannot be made, and goes to where that is.
  /** @param {string} status */
  #explain(status) {
    const editor = this.#editor;
    const { board } = editor;
    if (status === 'NotFilled') {
      const cell = board.firstEmpty();
      editor.moveTo(cell);
      editor.do('toGrid');
      return refuse(`not saved: row ${board.rowOf(cell)}, column ${board.columnOf(cell)} is empty`, true);
    }
    if (status === 'Circled') {
      editor.moveTo(board.cells.findIndex((cell) => cell.circle && !cell.block));
      editor.do('toGrid');
    }
    const order = [...board.lights.filter((light) => light.direction === 'across'), ...board.lights.filter((light) => light.direction === 'down')];
    const lacking = order.find((light) => !board.hasClue(light));
    if (status === 'Field' && lacking) {
      editor.do('toClue', lacking);
      return refuse(termed(`not saved: a text file needs a clue for each light, and ${lacking.name} has none`), true);
    }
    refuse(termed(`not saved: ${refusalText(status)}`), true);
  }

  saveSession(why = '') {
    const { record, pencil, originals } = this.#editor.state;
    const lines = record.split('\n').filter((line) => line !== SESSION_HEAD);
    const ascii = (/** @type {string} */ text) => text.replace(/[^\x20-\x7e]/g, (character) => `\\u${character.charCodeAt(0).toString(16).padStart(4, '0')}`);
    // the others are for the words of the file
    const { board } = this.#editor;
    const stale = staleClues(this.#editor).map(({ light, word }) => [board.clueField(light), word]);
    const notes = [
      pencil.length && `${PENCIL}${pencil.join(', ')}`, originals.length && `${ORIGINALS}${ascii(JSON.stringify(originals))}`,
      stale.length && `${WRITTEN}${JSON.stringify(stale)}`,
    ];
    const head = [SESSION_HEAD, ...notes.filter(Boolean)];
    this.#givePuzzle(toBytes([...head, ...lines].join('\n')), this.#name('xw'), why);
  }

  #textOf = (/** @type {string} */ field) => this.#editor.textOf(field);
  #entryOf = (/** @type {Cell} */ cell) => this.#editor.entryOf(cell);

  // Saves a file that can be unfinished and have bars: `ipuz`, `jpz` or `exolve`.
  /** @param {keyof typeof WRITERS} form */
  saveAs(form) {
    const editor = this.#editor;
    const more = { colourOf: (/** @type {Cell} */ cell) => editor.colourOf(cell), links: editor.links, language: editor.language };
    this.#givePuzzle(new TextEncoder().encode(WRITERS[form](editor.board, this.#textOf, this.#entryOf, more)), this.#name(form), this.#lossNote(form));
  }

  // Saves the clues as a table in CSV, with the private notes.
  saveClues() {
    const editor = this.#editor;
    const notes = countText(editor.board.lights.filter((light) => editor.noteOf(light)).length, 'a private note', 'private notes');
    this.#give(new TextEncoder().encode(clueTable(editor)), this.#name('csv'), `${notes.length ? `, with ${notes[0]}` : ''}${this.#lossNote('csv')}`);
  }

  // Saves the clues as a sheet in HTML.
  saveSheet() {
    const editor = this.#editor;
    const told = { answerOf: (/** @type {Light} */ light) => editor.answerOf(light), cluedBy: (/** @type {Light} */ light) => editor.cluedBy(light), isLinked: (/** @type {Light} */ light) => editor.links.headOf.has(light), language: editor.language };
    this.#give(new TextEncoder().encode(htmlOf(editor.board, this.#textOf, enumerated, told)), this.#name('html'), this.#lossNote('html'));
  }

  // Saves a page to solve the puzzle in, which is made of a template.
  /** @param {string} template */
  savePage(template) {
    const editor = this.#editor;
    const { board } = editor;
    if (board.firstEmpty() >= 0 || !board.lights.length) return this.#explain('NotFilled');
    const without = countText(board.lights.filter((light) => !board.hasClue(light)).length, 'a word without a clue', 'words without a clue');
    const page = solverPage(template, solverPuzzle(editor));
    return this.#give(new TextEncoder().encode(page), this.#name('solve.html'), `${without.length ? `, with ${without[0]}` : ''}${this.#lossNote('page')}`);
  }

  /**
   * @param {Uint8Array} bytes
   * @param {string} name
   */
  #givePuzzle(bytes, name, why = '') {
    this.#give(bytes, name, why);
    this.#editor.do('fileSaved');
  }

  // Gives a file of the puzzle, and warns of clues that were written for other words.
  /**
   * @param {Uint8Array} bytes
   * @param {string} name
   */
  #give(bytes, name, why = '') {
    const [first, ...others] = staleClues(this.#editor);
    const told = first && `the clue of ${titleOf(first.light)} was written for ${first.word}`;
    const more = others.length ? `, and ${others.length} more ${others.length === 1 ? 'was' : 'were'} for other words` : '';
    this.#download(bytes, name, told ? `${why}; but ${told}${more}` : why, told ? 'bad' : 'good');
  }

  // Saves a text of anything else under a name.
  /**
   * @param {string} text
   * @param {string} name
   */
  saveText(text, name) {
    this.#download(new TextEncoder().encode(text), name);
  }

  /**
   * @param {Uint8Array} bytes
   * @param {string} name
   */
  #download(bytes, name, why = '', tone = 'good') {
    const link = document.createElement('a');
    link.href = URL.createObjectURL(new Blob([bytes], { type: 'application/octet-stream' }));
    link.download = name;
    link.click();
    setTimeout(() => URL.revokeObjectURL(link.href), 60000);
    say(`saved: ${name}${why}`, tone, true);
  }

  // Files that are dropped anywhere on the page.
  /** @param {HTMLElement} target */
  takeDrops(target) {
    target.addEventListener('dragover', (event) => {
      event.preventDefault();
      target.classList.add('dropping');
    });
    target.addEventListener('dragleave', (event) => {
      if (!event.relatedTarget) target.classList.remove('dropping');
    });
    target.addEventListener('drop', async (event) => {
      event.preventDefault();
      target.classList.remove('dropping');
      for (const file of event.dataTransfer?.files ?? []) await this.open(file);
    });
  }
}

// What a reader makes of a file. Where the file has something of another kind than its format, as a number for a list, it is refused too.
/**
 * @param {(bytes: Uint8Array) => import('./given.js').Given} reader
 * @param {Uint8Array} bytes
 */
function givenBy(reader, bytes) {
  try {
    return reader(bytes);
  } catch (fault) {
    if (statusOf(fault)) throw fault;
    throw new FileFault('it is not as its format has it');
  }
}

// What can be read of a .puz or a text file that is refused for a fault. If it has not even a grid, it stays refused.
/**
 * @param {unknown} fault
 * @param {Uint8Array} bytes
 */
function puzzleDespite(fault, bytes) {
  try {
    if (isPuz(bytes)) return readPuz(bytes);
    const text = listText(bytes);
    if (isVersion1(text)) return readText(text);
    if (isVersion2(text)) return readText2(text);
  } catch {
    // the first fault says more
  }
  throw fault;
}

// What a fault says.
const messageOf = (/** @type {unknown} */ fault) => /** @type {Error} */ (fault).message;

// What is left out of a file.
const lackingText = (/** @type {readonly string[]} */ dropped) => (dropped.length ? `, but without ${joinedText(dropped)}` : '');

// What the lines of a session have beside its record, as far as it is lawful.
/**
 * @param {string[]} lines
 * @param {Dropped} dropped
 */
function besideIn(lines, dropped) {
  const noteOf = (/** @type {string} */ note) => lines.find((line) => line.startsWith(note))?.slice(note.length);
  const [originals, written] = [ORIGINALS, WRITTEN].map((note) => parsed(noteOf(note)));
  return lawfulBeside({ pencil: noteOf(PENCIL)?.split(', ').filter(Boolean) ?? [], originals, written }, dropped);
}

// What a note of a session spells in JSON; the note itself if it spells nothing.
/** @param {string | undefined} note */
function parsed(note) {
  try {
    return note && JSON.parse(note);
  } catch {
    return note;
  }
}
