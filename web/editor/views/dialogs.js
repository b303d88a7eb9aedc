// Dialogs.

// Opens a dialog. Its answer is that of a button which is pressed now: without one, as after Esc, it would still have the answer of the time before.
/** @param {HTMLDialogElement} dialog */
export function openDialog(dialog) {
  dialog.returnValue = '';
  dialog.showModal();
  // a button at its end that has the focus would lead there
  dialog.scrollTop = 0;
}

// Opens a dialog, and promises its answer: the value of the button that was pressed, or '' after Esc.
/**
 * @param {HTMLDialogElement} dialog
 * @returns {Promise<string>}
 */
export function askDialog(dialog) {
  openDialog(dialog);
  return new Promise((resolve) => dialog.addEventListener('close', () => resolve(dialog.returnValue), { once: true }));
}
