'use strict';
// What a worker does: it answers one request after the other with its program.

const { Program, replyTo } = require('../module');

// JavaScript engines compile functions of a module when they first run. This request runs most of them before anyone waits.
const box = (id, more) => ({ id, width: 30, height: 30, labels: [{ text: id, width: 20, height: 10 }], ...more });
const edge = ([source, target], id) => ({ id, source, target, labels: [{ text: 'e', width: 20, height: 10 }] });
const FIRST = JSON.stringify({
  graph: {
    id: 'r',
    children: [box('a', { ports: [{ id: 'p', width: 5, height: 5 }] }), box('b'), { id: 'c', children: [box('d')] }],
    edges: [['p', 'b'], ['b', 'a'], ['p', 'c'], ['a', 'c'], ['a', 'd']].map(edge),
  },
  give: ['placed', 'svg', 'warnings'],
});

async function started(moduleBytes) {
  const program = new Program(await WebAssembly.compile(await moduleBytes()));
  try {
    replyTo(program, FIRST);
  } catch {
    // If it happens again, the next call fails.
  }
  return program;
}

/** Answers messages `{ text }` with `{ reply, seconds }`, or with `{ error }`, in their order. */
class Server {
  #program;

  /** @param {() => Uint8Array | Promise<Uint8Array>} moduleBytes reads the module, at once, so that it is ready for the first request */
  constructor(moduleBytes) {
    this.#program = started(moduleBytes);
    // Each call that waits for it fails.
    this.#program.catch(() => {});
  }

  async answer({ text }) {
    try {
      const program = await this.#program;
      const since = performance.now();
      const reply = replyTo(program, text);
      return { reply, seconds: (performance.now() - since) / 1000 };
    } catch ({ message, status }) {
      return { error: { message, status } };
    }
  }
}

module.exports = { Server };
