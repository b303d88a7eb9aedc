// What a click on a cell does while a tool is in hand, and the buttons of the tools.
import { PALETTE } from '../model/colours.js';
import { $, all, first, pressed } from './page.js';
import { Roving } from './roving.js';

/** @type {Record<string, string>} */
const MODES = {
  block: 'Blocks: click a cell, or drag over several. Esc ends this.', right: 'Bars on the right: click a cell, or drag over several. Esc ends this.',
  below: 'Bars below: click a cell, or drag over several. Esc ends this.', circle: 'Circles: click a cell, or drag over several. Esc ends this.',
  colour: 'Colours: click a cell, or drag over several. Esc ends this.',
  pencil: 'Locks: click a letter in pencil to lock it, and a locked one to put it in pencil, or drag over several. Esc ends this.',
};

/** @typedef {import('../model/state.js').Tool} Tool */

export class Tools {
  /** @type {import('../model/editor.js').Editor} */
  #editor;

  /** @param {import('../model/editor.js').Editor} editor */
  constructor(editor) {
    this.#editor = editor;
    document.addEventListener('click', (event) => {
      const tool = pressed(event, '[data-tool].tool');
      if (tool) this.#take(editor.tool === tool.dataset.tool ? null : /** @type {Tool} */ (tool.dataset.tool));
    });
    editor.on(['tool', 'colour'], () => this.#show());
    this.#makePalette();
  }

  // The colours to choose from, while that tool is in hand.
  #makePalette() {
    const palette = $('palette');
    for (const [name, colour] of Object.entries(PALETTE)) {
      const button = Object.assign(document.createElement('button'), { type: 'button', title: name });
      button.setAttribute('aria-label', name);
      button.dataset.colour = colour;
      button.style.setProperty('--tint', `#${colour}`);
      palette.append(button);
    }
    new Roving(palette);
    palette.addEventListener('click', (/** @type {Event} */ event) => {
      const { colour } = pressed(event, 'button')?.dataset ?? {};
      if (colour) this.#editor.change({ colour });
    });
  }

  /** @param {Tool | null} tool */
  #take(tool) {
    this.#editor.change({ tool });
    this.#editor.do('toGrid');
  }

  // Puts the tool away.
  end() {
    this.#take(null);
  }

  #show() {
    const { tool, colour } = this.#editor;
    const text = MODES[tool ?? ''] ?? '';
    $('mode').hidden = !text;
    first('span', $('mode')).textContent = text;
    $('palette').hidden = tool !== 'colour';
    for (const button of all('button', $('palette'))) button.setAttribute('aria-pressed', String(button.dataset.colour === colour));
    $('more').setAttribute('aria-pressed', String(Boolean(text)));
    for (const button of all('.tool')) button.setAttribute('aria-pressed', String(button.dataset.tool === tool));
    $('grid').dataset.tool = tool ?? '';
  }
}
