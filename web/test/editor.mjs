// Tests of the editor: real keys and clicks on the built page. Runs the cases of all subjects, each of which can be run alone; page.mjs has the options.
import * as grid from './editor/grid.mjs';
import * as words from './editor/words.mjs';
import * as deadEnds from './editor/dead-ends.mjs';
import * as fills from './editor/fills.mjs';
import * as scores from './editor/scores.mjs';
import * as lists from './editor/lists.mjs';
import * as clues from './editor/clues.mjs';
import * as puzzles from './editor/puzzles.mjs';
import * as newGrids from './editor/new-grids.mjs';
import * as others from './editor/others.mjs';
import * as files from './editor/files.mjs';
import * as kept from './editor/kept.mjs';
import * as screen from './editor/screen.mjs';
import { runAll } from './page.mjs';

await runAll([grid, words, deadEnds, fills, scores, lists, clues, puzzles, newGrids, others, files, kept, screen]);
