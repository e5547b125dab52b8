'use strict';
// Reads what the page carries packed: letters of 7 bits, and within them deflate.

const { unpacked } = require('./packing');

/** Inflates the pieces of a packed text, which may come one after the other. */
class Inflation {
  #writer;

  /** All bytes, as a response. */
  response;

  constructor() {
    const { readable, writable } = new DecompressionStream('deflate-raw');
    this.#writer = writable.getWriter();
    this.response = new Response(readable);
  }

  take(piece) {
    // Broken bytes are told to whoever reads the response.
    this.#writer.write(unpacked(piece)).catch(() => {});
  }

  end() {
    this.#writer.close().catch(() => {});
  }
}

/** The bytes of a packed text, as a response. */
function inflated(text) {
  const inflation = new Inflation();
  inflation.take(text);
  inflation.end();
  return inflation.response;
}

module.exports = { Inflation, inflated };
