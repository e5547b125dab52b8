'use strict';
// The text: its form, what is done with it, and what is put in its place.

const { FORMS, formOf } = require('./forms');
const { completionAt, helpAt } = require('./json/completion');
const { formatted } = require('./json/format');
const { Ways } = require('./ways');

const LONG = 100_000;

class Writing {
  #find;
  #editor;
  #controls;
  #ways = new Ways();
  // What the reader chose the text to be, if that isn't what it seems.
  #chosenForm;

  /**
   * @param {(id: string) => HTMLElement} find
   * @param {import('./editor').Editor} editor
   * @param {import('./controls').Controls} controls
   */
  constructor(find, editor, controls) {
    this.#find = find;
    this.#editor = editor;
    this.#controls = controls;
    find('form').append(...Object.entries(FORMS).map(([name, { title }]) => new Option(title, name)));
  }

  get text() {
    return this.#editor.text;
  }

  get isLong() {
    return this.text.length > LONG;
  }

  get form() {
    return this.#chosenForm ?? formOf(this.text);
  }

  get isPlaced() {
    return this.#find('way').value === 'placed' && this.form === 'json';
  }

  /** Shows what the text is, and what can be done with it. */
  show() {
    const { form } = this;
    this.#find('form').value = form;
    this.#editor.form = form;
    this.#controls.form = form;
    this.#controls.isOff = this.isPlaced;
    for (const id of ['format', 'way']) {
      this.#find(id).disabled = form !== 'json';
      this.#find(id).title = form === 'json' ? '' : 'Only for documents of JSON';
    }
  }

  /** Undoing leads back to what was done with a text. */
  changed(isUndone) {
    this.#find('way').value = this.#ways.after(this.#editor.depth, isUndone);
    this.show();
  }

  chooseWay(way) {
    this.#find('way').value = way;
    this.#ways.choose(way, this.#editor.depth);
    this.show();
  }

  chooseForm(form) {
    this.#chosenForm = form === formOf(this.text) ? undefined : form;
    this.show();
  }

  /** Puts another document in the place of the text, from which undoing leads back unless the page begins with it. */
  put({ text, isPlaced = false }, { isFirst = false } = {}) {
    this.#chosenForm = undefined;
    if (isFirst) {
      this.#editor.begin(text);
    } else {
      this.#editor.replace(text);
    }
    this.chooseWay(isPlaced ? 'placed' : 'layout');
  }

  /** Writes an option into the text, or takes it out. */
  writeOption(name, value) {
    const change = FORMS[this.form].withOption(this.text, name, value);
    if (change) {
      this.#editor.change(change);
    }
  }

  /** Formats a document of JSON; false if it is none. */
  format() {
    try {
      JSON.parse(this.text);
    } catch {
      return false;
    }
    this.#editor.replace(formatted(this.text));
    return true;
  }

  /** What can be written at the caret of a text of JSON; of a long one only if that is asked for. */
  complete(isAsked, ids) {
    return this.form === 'json' && (isAsked || !this.isLong) ? completionAt(this.text, this.#editor.caret, ids()) : undefined;
  }

  /** What the option at the caret does. */
  get help() {
    return this.isLong || this.form !== 'json' ? '' : helpAt(this.text, this.#editor.caret);
  }
}

module.exports = { Writing };
