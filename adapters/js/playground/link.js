'use strict';
// A document in the hash of a link: compressed where the browser can, else as it is.

const DEFLATED = 'z';
const PLAIN = 't';
const PLACED = 'placed';

// A link of few letters may unpack to so much that no page can hold it.
const MOST_BYTES = 2 ** 20;

// So many bytes are turned into letters at once.
const PIECE = 0x8000;

function lettersOf(bytes) {
  let letters = '';
  for (let at = 0; at < bytes.length; at += PIECE) {
    letters += String.fromCharCode(...bytes.subarray(at, at + PIECE));
  }
  return btoa(letters).replace(/\+/g, '-').replace(/\//g, '_').replace(/=+$/, '');
}

function bytesOf(letters) {
  const plain = atob(letters.replace(/-/g, '+').replace(/_/g, '/'));
  return Uint8Array.from(plain, (letter) => letter.charCodeAt(0));
}

async function through(bytes, stream) {
  return new Uint8Array(await new Response(new Blob([bytes]).stream().pipeThrough(stream)).arrayBuffer());
}

/** What a stream gives, up to the bound of links. */
async function upToBound(stream) {
  const [reader, pieces] = [stream.getReader(), []];
  let length = 0;
  for (let read = await reader.read(); !read.done; read = await reader.read()) {
    length += read.value.length;
    if (length > MOST_BYTES) {
      reader.cancel().catch(() => {});
      throw new Error('its document is longer than 1 MiB');
    }
    pieces.push(read.value);
  }
  return new Uint8Array(await new Blob(pieces).arrayBuffer());
}

const unpacked = (bytes) => upToBound(new Blob([bytes]).stream().pipeThrough(new DecompressionStream('deflate-raw')));

/**
 * The hash of a link that carries a document.
 * @param {{ text: string, isPlaced: boolean }} given
 * @throws {Error} where the document is too long for a link
 */
async function hashOf({ text, isPlaced }) {
  const bytes = new TextEncoder().encode(text);
  if (bytes.length > MOST_BYTES) {
    throw new Error('the document is longer than 1 MiB; save it as a file');
  }
  const flag = isPlaced ? `&${PLACED}` : '';
  if (typeof CompressionStream !== 'function') {
    return `#${PLAIN}=${lettersOf(bytes)}${flag}`;
  }
  return `#${DEFLATED}=${lettersOf(await through(bytes, new CompressionStream('deflate-raw')))}${flag}`;
}

/**
 * The document of a hash; undefined where it carries none.
 * @param {string} hash
 * @throws {Error} where it is no hash that `hashOf` has made
 */
async function documentIn(hash) {
  const [, kind, letters, rest] = /^#([zt])=([\w-]*)(.*)$/.exec(hash) ?? [];
  if (kind === undefined) {
    return undefined;
  }
  if (kind === DEFLATED && typeof DecompressionStream !== 'function') {
    throw new Error('this browser can\'t unpack it');
  }
  const packed = bytesOf(letters);
  if (packed.length > MOST_BYTES) {
    throw new Error('its document is longer than 1 MiB');
  }
  const bytes = kind === PLAIN ? packed : await unpacked(packed);
  return { text: new TextDecoder('utf-8', { fatal: true }).decode(bytes), isPlaced: rest === `&${PLACED}` };
}

module.exports = { documentIn, hashOf };
