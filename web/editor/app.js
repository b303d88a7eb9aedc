// The page: it joins the views with the session.
import { AllWords } from './engine/all-words.js';
import { Filler } from './engine/fill.js';
import { Helpers } from './engine/helpers.js';
import { Reasons } from './engine/reasons.js';
import { Files } from './formats/files.js';
import { MovesView } from './grids/moves-view.js';
import { GridsView } from './grids/view.js';
import { Editor } from './model/editor.js';
import { Faults } from './model/faults.js';
import { SolveDialog } from './solver/dialog.js';
import { embeddedText, start, workers } from './start.js';
import { Claim } from './store/claim.js';
import { ClueBank } from './store/clue-bank.js';
import { Shelf } from './store/shelf.js';
import { BankView } from './views/bank-view.js';
import { CluesView } from './views/clues.js';
import { CrossingsView } from './views/crossings-view.js';
import { DetailsView } from './views/details.js';
import { openDialog } from './views/dialogs.js';
import { Edits } from './views/edits.js';
import { Facts, showKept, toGridIfLost } from './views/facts.js';
import { Figures } from './views/figures.js';
import { Fills } from './views/fills.js';
import { GridView } from './views/grid.js';
import { ImprovingView } from './views/improving.js';
import { Leaving } from './views/leaving.js';
import { LibraryView } from './views/library.js';
import { ListDialog } from './views/list-dialog.js';
import { ListsInUse } from './views/lists-in-use.js';
import { leaveDialogs, takeActions, takeMenu, takeParts, toNextPane } from './views/menu.js';
import { unforeseen, useMessages } from './views/messages.js';
import { NewPuzzle } from './views/new-puzzle.js';
import { NextLight } from './views/next-light.js';
import { $ } from './views/page.js';
import { PrintDialog } from './views/printing.js';
import { StandingView } from './views/standing.js';
import { StatisticsView } from './views/statistics-view.js';
import { Tabs } from './views/tabs.js';
import { Tools } from './views/tools.js';
import { Typed } from './views/typed.js';
import { WarningsView } from './views/warnings-view.js';
import { WeakestView } from './views/weakest.js';
import { WordsView } from './views/words.js';

useMessages({ line: $('status'), toast: $('toast'), history: $('history'), warnings: $('warnings') });

const makeWorker = workers();
const editor = new Editor(makeWorker);
const helpers = new Helpers(editor, makeWorker);
const leaving = new Leaving();
const edits = new Edits(editor);
// what is typed into texts
const typed = new Typed(editor, edits, leaving);

// The views.

const grid = new GridView(editor, $('grid'), edits);
new Tools(editor);
const faults = new Faults(editor);
new StandingView(editor, $('standing'), faults, edits);
new CrossingsView(editor, $('crossings'));
new WarningsView(editor, faults, { button: $('rules'), count: $('rules-count'), tab: $('tab-puzzle') });
const reasons = new Reasons(editor);
new WordsView(
  editor,
  {
    name: $('light-name'), spelled: $('light-letters'), summary: $('light-summary'), filter: $('filter'), order: $('order'), list: $('candidates'),
    legend: $('legend'), letters: $('letters'), coordinates: $('cell-coordinates'),
  },
  edits,
  'light',
);
// in a wide window the other light of the cell has its words beside them
const isWide = matchMedia('(min-width: 1600px)');
const crossingWords = new WordsView(
  editor,
  { name: $('crossing-name'), summary: $('crossing-summary'), list: $('crossing-candidates'), legend: $('crossing-legend') },
  edits,
  'crossing',
  () => isWide.matches,
);
isWide.addEventListener('change', () => crossingWords.soon());
const bank = new ClueBank(editor);
const bankView = new BankView(editor, bank, {
  summary: $('bank-summary'), export: $('bank-export'), import: $('bank-import'), clear: $('bank-clear'), file: $('bank-file'), dialog: $('bank-dialog'), title: $('bank-title'),
  told: $('bank-told'), take: $('bank-take'),
});
const allWords = new AllWords(editor);
const clues = new CluesView(editor, { list: $('clue-list'), summary: $('clue-summary'), lengths: $('clue-lengths') }, edits, typed, bank, allWords);
const figures = new Figures(editor, { box: $('figures'), text: $('figures-text'), worst: $('figures-worst') });
const statistics = new StatisticsView(editor, { panel: $('puzzle'), list: $('statistics'), outlets: $('outlets') }, figures);
const details = new DetailsView(
  editor,
  {
    panel: $('puzzle'), title: $('title'), author: $('author'), copyright: $('copyright'), notes: $('notes'), language: $('language'), checks: $('checks'), counts: $('counts'),
    lengths: $('lengths'), frequency: $('frequency'), wordForm: $('word-form'), word: $('word'), changed: $('changed'),
  },
  edits,
  typed,
  [bankView, statistics],
);
new Tabs(editor, details, clues);
const grids = new GridsView(editor, helpers, {
  dialog: $('themes-dialog'), entries: $('themes-entries'), seeds: $('themes-seeds'), lengths: $('themes-lengths'), show: $('themes-show'), stop: $('themes-stop'),
  told: $('themes-told'), grids: $('themes-grids'),
  limits: {
    outlet: $('themes-outlet'), width: $('themes-width'), height: $('themes-height'), sym: $('themes-sym'), table: $('themes-table'), rules: $('themes-rules'), summary: $('themes-summary'), reset: $('themes-reset'),
  },
});
const moves = new MovesView(editor, helpers, { dialog: $('moves-dialog'), map: $('moves-map'), told: $('moves-told'), moves: $('moves-list') });
new ImprovingView(editor, { row: $('improve-row'), button: $('improve'), told: $('improve-told') });
const fills = new Fills(editor, { box: $('fills'), list: $('fills-list') });
new WeakestView(
  editor,
  { box: $('weakest'), list: $('weakest-list'), offered: $('mend-offer'), told: $('mend-told'), place: $('mend-fill'), use: $('mend-use'), leave: $('mend-leave') },
  figures,
  fills,
);
const filler = new Filler(editor, helpers, fills, figures);
const nextLight = new NextLight(editor, faults);

// Files, lists and puzzles.

const listDialog = new ListDialog(editor, {
  dialog: $('list-dialog'), told: $('list-told'), separator: $('list-separator'), word: $('list-word'), score: $('list-score'), scale: $('list-scale'), scaleRow: $('list-scale-row'),
  lines: $('list-lines'), left: $('list-left'),
});
const files = new Files(editor, edits, allWords, listDialog, { dialog: $('table-dialog'), told: $('table-told'), changes: $('table-changes'), others: $('table-others') });
files.takeDrops(document.body);
const lists = new ListsInUse(editor, leaving, makeWorker);
new NewPuzzle(editor);
const printing = new PrintDialog(editor);
const solving = new SolveDialog(editor, { dialog: $('solve-dialog'), root: $('solve') });

// what the file that is being picked is to be, if that is said
let picked = '';

$('picker').addEventListener('change', async () => {
  const as = picked;
  picked = '';
  for (const file of [...$('picker').files]) await files.open(file, as);
  $('picker').value = '';
});

/** @param {string} accept */
function pick(accept, as = '') {
  picked = as;
  $('picker').accept = accept;
  $('picker').click();
}

// Goes a step of the history back, or forth.
/** @param {boolean} isBack */
function step(isBack) {
  typed.startAnew();
  return edits.step(isBack);
}

// What buttons and keys do.

// What is saved and printed is whole: it has the lengths that are being added, and the edits that are under way.
const wholly = (/** @type {() => unknown} */ action) => async () => {
  await clues.lengthsAdded;
  await editor.inOrder(() => {});
  return action();
};

const ACTIONS = {
  new: () => openDialog($('new-dialog')),
  library: () => library.show(),
  // these have the workers that raise a fill
  themes: () => {
    filler.endRaising();
    grids.open();
  },
  moves: () => {
    filler.endRaising();
    moves.open();
  },
  open: () => pick('.puz,.ipuz,.jpz,.xml,.exolve,.qxw,.qxd,.txt,.xw,.json,.dict,.csv,.zip,.eml'),
  save: wholly(() => files.saveAny()),
  'save-puz': wholly(() => files.save('puz')),
  'save-ipuz': wholly(() => files.saveAs('ipuz')),
  'save-jpz': wholly(() => files.saveAs('jpz')),
  'save-exolve': wholly(() => files.saveAs('exolve')),
  'save-text': wholly(() => files.save('text')),
  'save-page': wholly(async () => files.savePage(await embeddedText('solver'))),
  'clues-csv': wholly(() => files.saveClues()),
  'clues-html': wholly(() => files.saveSheet()),
  'clues-from': () => pick('.csv,.tsv,.txt', 'clues'),
  'comments-from': () => pick('.xw,.zip,.eml', 'comments'),
  'save-session': wholly(() => files.saveSession()),
  list: () => pick('.txt,.dict,.csv,.tsv', 'list'),
  'built-in': () => lists.change((now) => now.onlyBuiltIn()),
  print: wholly(() => printing.open()),
  solve: wholly(() => solving.open()),
  undo: () => step(true),
  redo: () => step(false),
  fill: () => filler.run(false),
  another: () => filler.run(true),
  improve: () => filler.improve(),
  stop: () => filler.stop(),
  hardest: () => nextLight.go(),
  help: () => openDialog($('help-dialog')),
  'next-clue': () => editor.do('toClue', null),
  'end-mode': () => {
    editor.change({ tool: null });
    editor.do('toGrid');
  },
};

const keys = () => ({
  f1: ACTIONS.help, f2: () => editor.do('toField', 'words', 'filter'), f3: () => editor.do('toClue', editor.light), f4: () => editor.do('toField', 'puzzle', 'title'), f6: toNextPane,
  escape: filler.isRunning || filler.isRaising ? () => filler.stop() : leaving.action,
});

takeActions(ACTIONS, keys, typed);
leaveDialogs(editor);
takeParts(editor);
takeMenu();
new Facts(editor, edits);

// What the browser keeps.

// before the shelf keeps what is here
document.addEventListener('visibilitychange', () => document.hidden && typed.take());
addEventListener('pagehide', () => typed.take());

const claim = new Claim();
const shelf = new Shelf(editor, claim, bank);
const library = new LibraryView(editor, $('library-dialog'), $('library-list'), shelf);
$('library-save').addEventListener('click', () => shelf.all().then((text) => files.saveText(text, 'puzzles.json')).catch(unforeseen));
shelf.addEventListener('kept', (event) => showKept(/** @type {CustomEvent} */ (event).detail));
shelf.addEventListener('lasting', (event) => {
  $('kept').title = /** @type {CustomEvent} */ (event).detail ? '' : 'The browser may take it away if it runs out of room, or if you clear its data. Save puzzles that matter to files too.';
});
// the button of the warning is gone
shelf.addEventListener('held', () => toGridIfLost(editor));
// after a click on a button of a warning, letters go to the grid again
$('warnings').addEventListener('click', () => editor.do('toGrid'));
addEventListener('unhandledrejection', ({ reason }) => unforeseen(reason));

start({ editor, grid, lists, reasons, shelf });
