// How a call of the command ends: its exit status, and the message of the program for it (docs/commands.md, "Exit status and messages").

/** The exit statuses of the program. */
export const [ACCEPTED, REFUSED, USAGE, FORMAT, FAILED] = [0, 1, 2, 3, 4];

/** A call that ends early, or a file that was not written. `message` is what standard error gets. */
export class Failure extends Error {
  constructor(status, message) {
    super(message);
    this.name = 'Failure';
    this.status = status;
  }
}

/** A failure that ends a call also while it has other files to check: of the output, or of the memory. */
export class Fatal extends Failure {}

export const cannotRead = (file) => new Failure(FAILED, `xw: ${file}: cannot read\n`);
export const cannotWrite = (file) => new Failure(FAILED, `xw: ${file}: cannot write\n`);
export const inUse = (file) => new Failure(FAILED, `xw: ${file}: in use\n`);
export const memory = () => new Fatal(FAILED, 'xw: memory\n');
export const inputFault = () => new Failure(FAILED, 'xw: input fault\n');
// an output that nobody reads any more is told nobody
export const outputFault = (error) => new Fatal(FAILED, error.code === 'EPIPE' ? '' : 'xw: output fault\n');
export const misused = (said) => new Failure(USAGE, `xw: ${said}\n`);
export const malformed = (file, name) => new Failure(FORMAT, `xw: ${file}: ${name}\n`);

/** The failure of a call, or null if it has none. */
export function failureOf(call) {
  try {
    call();
    return null;
  } catch (failure) {
    if (!(failure instanceof Failure)) throw failure;
    return failure;
  }
}
