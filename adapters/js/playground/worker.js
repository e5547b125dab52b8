'use strict';
// The script of the playground's workers. One that is stopped is ended, and another is started.

const { Program } = require('../src/module');
const { withCopies } = require('./copies');
const { Inflation } = require('./inflated');
const { documentIn } = require('./link');
const { Studio } = require('./studio');

let studio;

let inflation;

const compiled = async (packed) => WebAssembly.compile(withCopies(new Uint8Array(await packed.arrayBuffer())));

/** Takes the module, which comes compiled or in pieces. A worker that has compiled it hands it on to all others. */
async function begun({ module }) {
  if (module) {
    return new Studio(new Program(module));
  }
  inflation = new Inflation();
  const own = await compiled(inflation.response);
  self.postMessage({ module: own });
  return new Studio(new Program(own));
}

const ANSWERS = {
  answer: async (asked, tell) => (await studio).answer(asked, tell),
  judge: async (asked) => (await studio).judge(asked),
  picture: async ({ placed, look }) => ({ svg: (await studio).pictureOf(placed, look) }),
  sketch: async (asked) => ({ svg: (await studio).sketch(asked) }),
  unpack: async ({ hash }) => ({ given: await documentIn(hash) }),
};

async function answerTo({ id, kind, ...asked }) {
  try {
    const answer = await ANSWERS[kind](asked, (news) => self.postMessage({ id, news }));
    self.postMessage({ id, answer });
  } catch ({ message }) {
    self.postMessage({ id, error: message });
  }
}

const HEARD = {
  begin: (given) => {
    studio = begun(given);
    // Whoever asks is told.
    studio.catch(() => {});
  },
  piece: ({ packed }) => inflation.take(packed),
  end: () => inflation.end(),
};

self.onmessage = ({ data }) => (HEARD[data.kind] ?? answerTo)(data);
