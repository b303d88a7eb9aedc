// Checks the types of the page's scripts and of its worker, by tsc, strictly.
//
//   node web/test/types.mjs
//
// The last line is 'N passed, M failed'.
import { spawnSync } from 'node:child_process';
import { Count } from './count.mjs';

const WEB = new URL('../', import.meta.url).pathname;

// Throws the errors of a project.
function check(project) {
  const { stdout, error } = spawnSync('tsc', ['-p', project, '--pretty', 'false'], { cwd: WEB, encoding: 'utf8', maxBuffer: 1 << 26 });
  if (error) throw error;
  const lines = stdout.split('\n').filter((line) => /: error TS\d+: /.test(line));
  if (lines.length) throw new Error(`${lines.length} errors:\n${lines.join('\n')}`);
}

const count = new Count();
for (const project of ['tsconfig.json', 'tsconfig.worker.json']) await count.run(`the types of ${project}`, () => check(project));
count.end();
