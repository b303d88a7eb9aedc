// What the page has beside its modules: a function of index.html, and what this version of tsc does not know of browsers.

declare function cannotRun(why: string): void;

// whether the page has begun
declare var isRunning: boolean;

declare class DecompressionStream extends TransformStream {
  constructor(format: 'gzip' | 'deflate-raw');
}
