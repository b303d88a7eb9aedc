// Modules of the page for tests. Node takes a module for one by its name, so they are joined into one file by esbuild; a browser gets them as a script.
import { execFileSync } from 'node:child_process';
import { mkdtempSync, readFileSync, rmSync, writeFileSync } from 'node:fs';
import { tmpdir } from 'node:os';
import { join } from 'node:path';

const EDITOR = new URL('../editor/', import.meta.url).pathname;

// Joins modules of web/editor, named without their ending, and promises what `use` makes of the file.
async function joined(names, words, use) {
  const room = mkdtempSync(join(tmpdir(), 'xw-modules-'));
  const [entry, file] = ['entry.js', 'joined.mjs'].map((name) => join(room, name));
  writeFileSync(entry, names.map((name) => `export * from '${EDITOR}${name}.js';\n`).join(''));
  execFileSync('esbuild', [entry, '--bundle', '--log-level=warning', `--outfile=${file}`, ...words]);
  try {
    return await use(file);
  } finally {
    rmSync(room, { recursive: true });
  }
}

// What modules export.
export const pageModules = (...names) => joined(names, ['--format=esm'], (file) => import(file));

// The source of a script that has what modules export in a variable of the page.
export const pageScript = (variable, ...names) => joined(names, ['--format=iife', `--global-name=${variable}`, '--define:import.meta.url=location.href'], (file) => readFileSync(file, 'utf8'));
