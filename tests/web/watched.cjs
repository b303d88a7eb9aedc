// Tells the calls by which the command replaces a file, each in a line of the file WATCH. If KILL names one of them, the process ends by SIGKILL before it.
//
//   NODE_OPTIONS=--require=tests/web/watched.cjs WATCH=log KILL=rename node cli.js ..
const fs = require('node:fs');
const { basename } = require('node:path');
const { syncBuiltinESMExports } = require('node:module');

const { appendFileSync, fsyncSync, openSync, renameSync } = fs;
const opened = new Map();

function tell(call, name) {
  if (process.env.KILL === call) process.kill(process.pid, 'SIGKILL');
  appendFileSync(process.env.WATCH, `${call} ${basename(name)}\n`);
}

fs.openSync = (name, ...more) => {
  const file = openSync(name, ...more);
  opened.set(file, name);
  return file;
};
fs.fsyncSync = (file) => {
  tell('fsync', opened.get(file));
  fsyncSync(file);
};
fs.renameSync = (from, to) => {
  tell('rename', from);
  renameSync(from, to);
};
syncBuiltinESMExports();
