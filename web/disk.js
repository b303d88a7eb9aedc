// Files as the program reads and replaces them: docs/commands.md, "How a file is written".
import {
  closeSync, constants, fchmodSync, fsyncSync, lstatSync, openSync, readFileSync, readSync, readlinkSync, renameSync, statSync, unlinkSync,
  writeFileSync,
} from 'node:fs';
import { tmpdir } from 'node:os';
import { basename, dirname, isAbsolute, sep } from 'node:path';
import { cannotRead, cannotWrite, inUse } from './failure.js';

// Where bytes are left that no other folder takes, and the mode of their file: others may use the folder.
const TEMPORARY = process.platform === 'win32' ? tmpdir() : '/tmp';
const PRIVATE = 0o600;
// The most symbolic links that are followed in a row.
const MOST_LINKS = 40;
// The most bytes that are read from a device, which may have no end.
const MOST_OF_DEVICE = 16_777_216;

const NEW = constants.O_WRONLY | constants.O_APPEND | constants.O_CREAT | constants.O_EXCL;

/** What there is under a name, or undefined if there is nothing. */
const found = (name) => statSync(name, { bigint: true, throwIfNoEntry: false });

// ---- which file a name leads to

// What distinguishes a file from all others.
const identity = (stat) => `${stat.dev}:${stat.ino}`;

/** A file of a call: a name, and for a standard stream also the identity of the regular file that it is. */
export const named = (name) => ({ name, identity: null });
export const streamed = (name, stat) => (stat?.isFile() ? { name, identity: identity(stat) } : null);

// The identity of a file, null if there is none, and undefined if that cannot be told.
function identityOf(file) {
  if (file.identity) return file.identity;
  try {
    const stat = found(file.name);
    return stat ? identity(stat) : null;
  } catch {
    return undefined;
  }
}

/** Whether two files of a call are one, by whatever names, even if it does not exist yet. */
export function isOneFile(one, other) {
  const [first, second] = [identityOf(one), identityOf(other)];
  if (first && second) return first === second;
  if (first === null && second === null) return isOnePlace(one.name, other.name);
  return one.name === other.name;
}

// Whether two names of files that do not exist have one last component in one folder.
function isOnePlace(one, other) {
  try {
    const [first, second] = [followed(one), followed(other)];
    const [folder, same] = [found(dirname(first)), found(dirname(second))];
    if (!folder || !same) return first === second;
    return basename(first) === basename(second) && identity(folder) === identity(same);
  } catch {
    return one === other;
  }
}

// A path with another last part.
const withLastPart = (path, name) => path.slice(0, Math.max(path.lastIndexOf('/'), path.lastIndexOf(sep)) + 1) + name;

// The path after all symbolic links.
function followed(name) {
  let path = name;
  for (let links = 0; links < MOST_LINKS; links++) {
    if (!lstatSync(path, { throwIfNoEntry: false })?.isSymbolicLink()) return path;
    const next = readlinkSync(path);
    path = isAbsolute(next) ? next : withLastPart(path, next);
  }
  throw new Error(`${name} leads to too many links`);
}

/**
 * Throws a failure if another program has a file as its journal. A journal is locked, which Node cannot ask about; Linux lists the locks. Where there is no
 * such list, the program does not run either.
 */
export function expectFree(name) {
  let stat, locks;
  try {
    stat = found(name);
    locks = readFileSync('/proc/locks', 'latin1');
  } catch {
    return;
  }
  if (!stat?.isFile()) return;
  const [major, minor] = [((stat.dev >> 8n) & 0xfffn) | ((stat.dev >> 32n) & ~0xfffn), (stat.dev & 0xffn) | ((stat.dev >> 12n) & ~0xffn)];
  const device = [major, minor].map((number) => number.toString(16).padStart(2, '0')).join(':');
  const lock = new RegExp(`FLOCK +ADVISORY +WRITE +\\S+ ${device}:${stat.ino} `);
  if (lock.test(locks)) throw inUse(name);
}

/** A regular file as it is now: which one it is, its length, and when it was changed last. Null if there is none, or if it is empty. */
export function stampOf(name) {
  try {
    const stat = found(name);
    return stat?.isFile() && stat.size ? `${identity(stat)} ${stat.size} ${stat.mtimeNs}` : null;
  } catch {
    return null;
  }
}

// ---- reading

/** The bytes of a file. A device that gives too many of them is refused. */
export function read(name) {
  try {
    if (!statSync(name).isCharacterDevice()) return readFileSync(name);
    const device = openSync(name, 'r');
    try {
      return readAll((room) => readSync(device, room), MOST_OF_DEVICE);
    } finally {
      closeSync(device);
    }
  } catch {
    throw cannotRead(name);
  }
}

/** The rest of standard input, which `more` reads into a room. */
export function readInput(more, isDevice) {
  try {
    return readAll(more, isDevice ? MOST_OF_DEVICE : Infinity);
  } catch {
    throw cannotRead('-');
  }
}

function readAll(more, most) {
  const parts = [];
  let length = 0;
  for (;;) {
    const room = Buffer.allocUnsafe(65536);
    const count = more(room);
    if (!count) return Buffer.concat(parts);
    parts.push(room.subarray(0, count));
    length += count;
    if (length > most) throw new Error('the device has too many bytes');
  }
}

// ---- writing

/**
 * Replaces a file by these bytes: afterwards it has them all, or is as it was. Anything but a regular file that a path leads to is written in place.
 */
export function replace(name, bytes) {
  expectFree(name);
  try {
    const stat = found(name);
    const target = targetOf(name, stat);
    if (target !== null) putNew(target, stat ? modeOf(stat) : null, bytes);
    else if (stat.isFIFO()) writeToPipe(name, bytes);
    else writeFileSync(name, bytes);
  } catch {
    throw cannotWrite(name);
  }
}

const modeOf = (stat) => Number(stat.mode & 0o7777n);

// The path of the file to put under a name, with all links followed, or null if the name is to be written in place: it leads to no regular file, or to one
// that has no path, such as a deleted one under `/dev/fd/3`.
function targetOf(name, stat) {
  const isFile = !stat || stat.isFile();
  // a file without write permission is not replaced either
  if (stat && isFile) closeSync(openSync(name, constants.O_WRONLY));
  if (!isFile) return null;
  const target = followed(name);
  if (!stat) return target;
  const there = found(target);
  return there && identity(there) === identity(stat) ? target : null;
}

// A pipe that no program reads is a failure, and not waited for: with both ends open, the next one opens at once.
function writeToPipe(name, bytes) {
  const ends = openSync(name, constants.O_RDWR);
  const pipe = openSync(name, constants.O_WRONLY);
  closeSync(ends);
  try {
    writeFileSync(pipe, bytes);
  } finally {
    closeSync(pipe);
  }
}

/** Throws a failure if `replace` could not replace a file now. Changes no file, but for a new one that is removed at once. */
export function expectWritable(name) {
  try {
    const stat = found(name);
    if (stat?.isDirectory() || (!stat && name.endsWith('/'))) throw new Error('this is a folder');
    const target = targetOf(name, stat);
    if (target === null) return;
    const { beside, file } = newFile(target, null);
    closeSync(file);
    unlinkSync(beside);
  } catch {
    throw cannotWrite(name);
  }
}

/** The names under which a file is kept: the name with `~`, `~2`, `~3` and so on. */
export const keptName = (name, number) => (number === 1 ? `${name}~` : `${name}~${number}`);

/** Keeps these bytes of a file beside it, under the first name that no file has and that does not lead to `apart`. Returns this name. */
export function keep(name, apart, bytes) {
  for (let number = 1; ; number++) {
    const other = keptName(name, number);
    try {
      if (apart !== undefined && isOneFile(named(other), named(apart))) continue;
      if (create(other, modeOf(found(name)), bytes)) return other;
    } catch {
      throw cannotWrite(other);
    }
  }
}

/**
 * Leaves bytes that a file did not get in a new file, which nobody else may read: beside the file unless that is a device or a pipe, in the current folder or in
 * `/tmp`. Returns its name, or null if there is no place for it.
 */
export function leave(name, apart, bytes) {
  const last = basename(name);
  for (const place of [...(isSpecial(name) ? [] : [name]), last, `${TEMPORARY}/${last}`]) {
    try {
      return leaveAs(place, apart, bytes);
    } catch {
      // the next place may do
    }
  }
  return null;
}

// Returns whether a name leads to a device, a pipe or a socket. No file may be made in the folders of such names.
function isSpecial(name) {
  try {
    const stat = found(name);
    return Boolean(stat) && !stat.isFile() && !stat.isDirectory();
  } catch {
    return false;
  }
}

function leaveAs(name, apart, bytes) {
  for (let number = 1; ; number++) {
    const other = keptName(name, number);
    if (!(apart !== undefined && isOneFile(named(other), named(apart))) && create(other, PRIVATE, bytes)) return other;
  }
}

// Creates a file with these bytes, unless its name is taken. Returns whether it did. It is empty until it has them all.
function create(name, mode, bytes) {
  try {
    closeSync(openSync(name, NEW, mode & 0o777));
  } catch (error) {
    if (error.code === 'EEXIST') return false;
    throw error;
  }
  try {
    putNew(followed(name), mode, bytes);
    return true;
  } catch (error) {
    unlinkSync(name);
    throw error;
  }
}

// Writes a new file beside the target, brings it to the device, and renames it.
function putNew(target, mode, bytes) {
  const { beside, file } = newFile(target, mode);
  try {
    try {
      writeFileSync(file, bytes);
      fsyncSync(file);
      if (mode !== null) fchmodSync(file, mode);
    } finally {
      closeSync(file);
    }
    renameSync(beside, target);
  } catch (error) {
    unlinkSync(beside);
    throw error;
  }
  syncFolder(target);
}

// Creates a file beside the target, under a name that is free. It never has more permissions than `mode`.
function newFile(target, mode) {
  for (let number = 0; ; number++) {
    const beside = withLastPart(target, `.xw-${number}.new`);
    try {
      return { beside, file: openSync(beside, NEW, mode === null ? 0o666 : mode & 0o777) };
    } catch (error) {
      if (error.code !== 'EEXIST') throw error;
    }
  }
}

// The file is replaced already, and not every system can bring a folder to the device.
function syncFolder(target) {
  try {
    const folder = openSync(withLastPart(target, '.'), 'r');
    try {
      fsyncSync(folder);
    } finally {
      closeSync(folder);
    }
  } catch {}
}
