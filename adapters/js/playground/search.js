'use strict';
// Looking for nodes by their ids and texts.

class Search {
  #field;
  #places;
  #onFound;
  #words = '';
  #at = 0;

  /**
   * @param {HTMLInputElement} field
   * @param {() => object[]} places tells all elements of the text
   * @param {(node: object | undefined, words: string) => void} onFound is given the node, and which of how many it is
   */
  constructor(field, places, onFound) {
    this.#field = field;
    this.#places = places;
    this.#onFound = onFound;
    field.addEventListener('input', () => this.#find(0));
    field.addEventListener('keydown', (event) => {
      if (event.key === 'Enter') {
        event.preventDefault();
        this.#find(event.shiftKey ? -1 : 1);
      }
    });
  }

  /** The nodes that have the words, without the outermost one, which is the whole drawing. */
  #matches(words) {
    const has = (text) => text.toLowerCase().includes(words);
    return this.#places().slice(1).filter(({ kind, id, text, isAgain }) => kind === 'node' && !isAgain && (has(id) || has(text)));
  }

  #find(by) {
    const words = this.#field.value.trim().toLowerCase();
    const found = words === '' ? [] : this.#matches(words);
    const isSame = words === this.#words;
    this.#words = words;
    this.#at = isSame && found.length > 0 ? (this.#at + by + found.length) % found.length : 0;
    const told = found.length > 0 ? `${this.#at + 1} of ${found.length}` : 'no node has these words';
    this.#onFound(found[this.#at], words === '' ? '' : told);
  }
}

module.exports = { Search };
