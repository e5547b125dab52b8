'use strict';
// One layout by the program that the tests ask.

const ELK = require('../../src/elk');
const { PROGRAM } = require('./program');

/** The result of a call; its engine, made with what else is given, is ended after it. */
async function layout(graph, call, given) {
  const elk = new ELK({ program: PROGRAM, ...given });
  try {
    return await elk.layout(graph, call);
  } finally {
    elk.terminateWorker();
  }
}

/** The same without warnings: `call` is an option beside those of the engine. */
const quietLayout = (graph, { call, ...given } = {}) => layout(graph, call, { onWarning: () => {}, ...given });

module.exports = { layout, quietLayout };
