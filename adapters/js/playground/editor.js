'use strict';
// The text of the document in an editor, with marks at places in it.

const { define } = require('./dot/mode');
const CodeMirror = require('./vendor/codemirror');

define(CodeMirror);

// What is marked at a place: a text, a word or a number, or else one letter.
const TOKEN = /"(?:[^"\\\n]|\\.)*"?|[\w.+-]+|[^]/y;

const MOST_MARKS = 100;

// Letters of one line that are coloured: more take long, and nobody reads such a line.
const MOST_COLOURED = 20_000;

const MODES = { json: { name: 'javascript', json: true }, dot: 'dot', lines: 'dot' };

const LOOK = {
  mode: MODES.json,
  lineNumbers: true,
  matchBrackets: true,
  autoCloseBrackets: true,
  tabSize: 2,
  indentUnit: 2,
  undoDepth: Infinity,
  maxHighlightLength: MOST_COLOURED,
  inputStyle: 'contenteditable',
  spellcheck: false,
  // The key leads on to the next control, as everywhere in a page.
  extraKeys: { Tab: false, 'Shift-Tab': false, 'Ctrl-Space': (mirror) => mirror.showHint() },
};

// What is written when words are offered without being asked for.
const WRITTEN = /^["\w.]$/;

/** Words as the editor offers them: each with what is to be known of it. */
function offered(mirror, { from, to, list }) {
  const [start, end] = [from, to].map((at) => mirror.posFromIndex(at));
  const render = (host, _, { displayText, help }) => {
    const about = document.createElement('small');
    about.textContent = help;
    host.append(displayText, about);
  };
  return { from: start, to: end, list: list.map(({ text, help }) => ({ text, displayText: text.replace(/: $/, ''), help, render })) };
}

class Editor {
  #mirror;
  #marks = [];
  #numbered = [];
  #text;

  /**
   * @param {HTMLElement} host
   * @param {object} listener
   * @param {string} listener.label the name of the editor
   * @param {(isUndone: boolean) => void} listener.onChange is told of each change, and whether it was undone or redone
   * @param {() => void} listener.onCaret is told when the caret moves
   * @param {(isAsked: boolean) => object | undefined} listener.complete tells what can be written at the caret, as
   *   `completionAt` does; where it wasn't asked for, it may tell nothing
   */
  constructor(host, { label, onChange, onCaret, complete }) {
    const hint = (mirror, { isAsked = true }) => {
      const words = complete(isAsked);
      return words && offered(mirror, words);
    };
    this.#mirror = CodeMirror(host, { ...LOOK, screenReaderLabel: label, hintOptions: { hint, completeSingle: false } });
    this.#mirror.on('inputRead', (mirror, { text }) => {
      if (text.length === 1 && WRITTEN.test(text[0]) && !mirror.state.completionActive) {
        mirror.showHint({ isAsked: false });
      }
    });
    // Before it is told that the caret has moved.
    this.#mirror.on('change', () => {
      this.#text = undefined;
    });
    this.#mirror.on('changes', (_, changes) => {
      this.tell([]);
      onChange(changes.some(({ origin }) => origin === 'undo' || origin === 'redo'));
    });
    this.#mirror.on('cursorActivity', onCaret);
    this.#mirror.getInputField().setAttribute('aria-describedby', 'told');
    new ResizeObserver(() => {
      this.#readTyped();
      this.#mirror.refresh();
    }).observe(host);
  }

  /**
   * Takes in what a keyboard on a screen, or an input method, has just put into the page. CodeMirror does so a little later, and
   * would undo it if it drew its lines before that.
   */
  #readTyped() {
    const { input } = this.#mirror.display;
    if (input.composing?.done) {
      input.ensurePolled();
    } else if (!input.composing && input.readDOMTimeout !== null) {
      input.updateFromDOM();
    }
  }

  /** Colours the text as one of this form. */
  set form(form) {
    if (this.#mirror.getOption('mode') !== MODES[form]) {
      this.#mirror.setOption('mode', MODES[form]);
    }
  }

  get text() {
    this.#readTyped();
    this.#text ??= this.#mirror.getValue();
    return this.#text;
  }

  /** How many changes can be undone. */
  get depth() {
    return this.#mirror.historySize().undo;
  }

  /** Where the caret stands, in letters from the beginning. */
  get caret() {
    return this.#mirror.indexFromPos(this.#mirror.getCursor());
  }

  get hasFocus() {
    return this.#mirror.hasFocus();
  }

  focus() {
    this.#mirror.focus();
  }

  /** Puts another text in. */
  replace(text) {
    this.#mirror.setValue(text);
    this.#mirror.scrollTo(0, 0);
  }

  /** Puts a text in with which the page begins, so that nothing is undone beyond it. */
  begin(text) {
    this.replace(text);
    this.#mirror.clearHistory();
  }

  /** Changes a part of the text, as one step that can be undone. */
  change({ from, to, text }) {
    const [start, end] = [from, to].map((at) => this.#mirror.posFromIndex(at));
    this.#mirror.replaceRange(text, start, end);
  }

  /**
   * Marks places.
   * @param {{ line: number, column: number, kind: string, message: string }[]} places
   */
  tell(places) {
    const mirror = this.#mirror;
    this.#readTyped();
    const told = places.filter(({ kind }) => kind === 'fault' || kind === 'warning').slice(0, MOST_MARKS);
    mirror.getInputField().setAttribute('aria-invalid', String(told.some(({ kind }) => kind === 'fault')));
    mirror.operation(() => {
      this.#marks.forEach((mark) => mark.clear());
      this.#numbered.forEach(({ line, kind }) => mirror.removeLineClass(line, 'gutter', `of-${kind}`));
      this.#marks = told.map((place) => {
        const { from, to } = this.#rangeAt(place);
        return mirror.markText(from, to, { className: `of-${place.kind}`, attributes: { title: place.message } });
      });
      this.#numbered = told.map(({ line, kind }) => ({
        kind,
        line: mirror.addLineClass(line - 1, 'gutter', `of-${kind}`),
      }));
    });
  }

  /** Puts another text in the place of what stands at a place. */
  mend({ line, column, text }) {
    const { from, to } = this.#rangeAt({ line, column });
    this.#mirror.replaceRange(text, from, to);
  }

  /** Selects what stands at a place, and shows it. */
  goTo(place) {
    const { from, to } = this.#rangeAt(place);
    this.focus();
    this.#mirror.setSelection(from, to, { scroll: false });
    this.#mirror.scrollIntoView({ from, to }, this.#mirror.getScrollInfo().clientHeight / 3);
  }

  #rangeAt({ line, column }) {
    const from = { line: line - 1, ch: column - 1 };
    TOKEN.lastIndex = from.ch;
    const length = TOKEN.exec(this.#mirror.getLine(from.line) ?? '')?.[0].length ?? 0;
    return { from, to: { line: from.line, ch: from.ch + length } };
  }
}

module.exports = { Editor };
