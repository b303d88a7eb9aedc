// What can wait until the page has drawn and no key is there.

// The longest wait in milliseconds, and how long it waits where the browser does not tell when it is idle.
const LONGEST = 100;
const WAIT_BLINDLY = 30;

/** @param {() => void} action */
export function whenIdle(action) {
  if ('requestIdleCallback' in globalThis) requestIdleCallback(() => action(), { timeout: LONGEST });
  else setTimeout(action, WAIT_BLINDLY);
}

// A function that has something done when the page is idle: once, however often it is called until then.
/** @param {() => void} action */
export function onceIdle(action) {
  let isDue = false;
  return () => {
    if (isDue) return;
    isDue = true;
    whenIdle(() => {
      isDue = false;
      action();
    });
  };
}
