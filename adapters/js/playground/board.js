'use strict';
// What the page tells beside the drawing: its status, the verdict, the list of faults, and which buttons do something.

const { many } = require('./told');

const OF_DRAWINGS = ['svg', 'png', 'json', 'copy'];

const OF_VIEWS = ['in', 'out', 'fit'];

class Board {
  #find;
  #told;
  #editor;

  /**
   * @param {(id: string) => HTMLElement} find
   * @param {import('./told').Told} told
   * @param {import('./editor').Editor} editor
   */
  constructor(find, told, editor) {
    this.#find = find;
    this.#told = told;
    this.#editor = editor;
  }

  say(words) {
    this.#find('status').textContent = words;
  }

  sayFailed({ message }) {
    this.say(`This failed: ${message}`);
  }

  sayLink(isCopied) {
    this.say(isCopied ? `The link is copied: ${many(location.href.length, 'letter')}.` : 'The link stands in the address bar.');
  }

  /** Words where the drawing would stand; without any, nothing. */
  hint(words) {
    const hint = this.#find('hint');
    hint.hidden = words === undefined;
    hint.textContent = words;
  }

  /** Shows faults, warnings and notes in the list and in the text. */
  tell(lines) {
    this.#told.show(lines);
    this.#editor.tell(lines.filter(({ line }) => line !== undefined));
  }

  tellVerdict(judged) {
    const verdict = this.#find('verdict');
    verdict.hidden = judged === undefined;
    verdict.className = judged?.isGood ? 'good' : 'bad';
    verdict.textContent = judged ? `check: ${judged.isGood ? 'yes' : 'no'}, ${judged.words}` : '';
  }

  /** Nothing that was told of a text before holds of this one. */
  forget() {
    this.tell([]);
    this.tellVerdict(undefined);
  }

  /** What was told is of a text that has changed: it stays until something is told of the new one. */
  age() {
    this.#told.age();
    this.tellVerdict(undefined);
  }

  /**
   * Shows which buttons do something.
   * @param {{ hasDrawing: boolean, isEmpty: boolean, isCurrent: boolean }} state whether the drawing can be saved, whether
   *   nothing is shown, and whether what is shown is the drawing of the text
   */
  enable({ hasDrawing, isEmpty, isCurrent }) {
    OF_DRAWINGS.forEach((id) => {
      this.#find(id).disabled = !hasDrawing;
    });
    OF_VIEWS.forEach((id) => {
      this.#find(id).disabled = isEmpty;
    });
    document.body.classList.toggle('outdated', !isCurrent && !isEmpty);
  }
}

module.exports = { Board };
