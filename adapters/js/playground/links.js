'use strict';
// The link of the page, which carries its document.

const { hashOf } = require('./link');
const { copied } = require('./save');

class Links {
  #desk;
  // The hash that this page wrote itself.
  #own;

  /** @param {import('./desk').Desk} desk hands links to a worker, which is ended if unpacking takes too long */
  constructor(desk) {
    this.#desk = desk;
  }

  /**
   * Writes a document into the address of the page, and copies that.
   * @param {{ text: string, isPlaced: boolean }} given
   * @returns {Promise<boolean>} whether it could be copied
   */
  async copy(given) {
    this.#own = await hashOf(given);
    location.replace(this.#own);
    return copied(location.href);
  }

  /** The address of the page names no document any more, because the text is another one. */
  forget() {
    if (location.hash !== '') {
      this.#own = undefined;
      history.replaceState(null, '', location.href.replace(/#.*/s, ''));
    }
  }

  /** The document of the address; undefined if it has none, or one that this page wrote. */
  async read() {
    if (location.hash === this.#own) {
      return undefined;
    }
    const { given } = await this.#desk.ask({ kind: 'unpack', hash: location.hash });
    return given;
  }
}

module.exports = { Links };
