'use strict';
// The module in a page is a text: packed, in base 64.

const { ProgramError } = require('../errors');

function bytesOf(text) {
  const letters = atob(text);
  const bytes = new Uint8Array(letters.length);
  for (let at = 0; at < bytes.length; at += 1) {
    bytes[at] = letters.charCodeAt(at);
  }
  return bytes;
}

/** The bytes of a module from its text. */
async function unpacked(text) {
  const bytes = bytesOf(text);
  if (typeof DecompressionStream === 'function') {
    return new Response(new Blob([bytes]).stream().pipeThrough(new DecompressionStream('gzip'))).arrayBuffer();
  }
  // Test environments for pages in Node may have no streams.
  const zlib = globalThis.process?.getBuiltinModule?.('node:zlib');
  if (!zlib) {
    throw new ProgramError("the module can't be unpacked, because there is no DecompressionStream");
  }
  return zlib.gunzipSync(bytes);
}

/** The bytes of the module whose text stands before the script of a worker: `withModule` puts it there. */
const moduleBytes = () => unpacked(globalThis.elkDrawModule);

/** The parts of a worker's script with its module. */
const withModule = (script, text) => [`globalThis.elkDrawModule="`, text, `";\n`, script];

module.exports = { moduleBytes, unpacked, withModule };
