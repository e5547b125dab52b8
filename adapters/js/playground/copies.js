'use strict';
// Bytes from which far copies were taken out. Deflate finds what occurred in the last 32 KiB; in the module much occurred before that.
//
// A copy has at least 20 bytes. Copies are numbers of 7 bits a byte, the lowest first: how many bytes stand between the last copy
// and this one, how many more bytes than the least it has, and how far before it they occurred.

const LEAST = 20;

/** Reads numbers one after the other. */
function numbersOf(bytes) {
  let at = 0;
  return () => {
    let [number, scale, byte] = [0, 1, 128];
    while (byte >= 128) {
      byte = bytes[at];
      at += 1;
      number += (byte & 127) * scale;
      scale *= 128;
    }
    return number;
  };
}

/**
 * The bytes as they were.
 * @param {Uint8Array} given how many they are, how many copies there are, the copies, and all other bytes
 */
function withCopies(given) {
  const next = numbersOf(given);
  const [count, copies, length] = [next(), next(), next()];
  const bytes = new Uint8Array(count);
  let [from, to] = [given.length - length, 0];
  for (let copy = 0; copy < copies; copy += 1) {
    const [between, more, back] = [next(), next(), next()];
    bytes.set(given.subarray(from, from + between), to);
    from += between;
    to += between;
    bytes.copyWithin(to, to - back, to - back + LEAST + more);
    to += LEAST + more;
  }
  bytes.set(given.subarray(from), to);
  return bytes;
}

module.exports = { LEAST, withCopies };
