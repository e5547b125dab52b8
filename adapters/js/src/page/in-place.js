'use strict';

const { Server } = require('../engines/server');

/** A stand-in for a worker, which answers on the thread of its caller. */
class InPlace {
  #server;

  constructor(moduleBytes) {
    this.#server = new Server(moduleBytes);
  }

  postMessage(message) {
    this.#server.answer(message).then((data) => this.onmessage?.({ data }));
  }

  terminate() {
    this.onmessage = undefined;
  }
}

module.exports = { InPlace };
