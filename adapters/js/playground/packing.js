'use strict';
// Bytes as a text of a page: 7 bits in a letter, which takes 8 bytes for 7. Base 64 takes 4 for 3.

// Letters that HTML doesn't keep, or that could end the text. Each has a letter of two bytes for itself and the next one.
const LEFT_OUT = [0, 13, 60];

const BITS = 7;
const ALL = 2 ** BITS;

/** The groups of 7 bits of bytes. */
function* groupsOf(bytes) {
  let [held, count] = [0, 0];
  for (const byte of bytes) {
    held = (held << 8) | byte;
    count += 8;
    while (count >= BITS) {
      count -= BITS;
      yield (held >> count) & (ALL - 1);
    }
    held &= ALL - 1;
  }
  if (count > 0) {
    yield (held << (BITS - count)) & (ALL - 1);
  }
}

/** Bytes as a text: how many they are, a blank, and their letters. */
function packed(bytes) {
  const letters = [];
  let first;
  for (const group of groupsOf(bytes)) {
    const at = LEFT_OUT.indexOf(group);
    if (first !== undefined) {
      letters.push(String.fromCharCode(ALL + first * ALL + group));
      first = undefined;
    } else if (at >= 0) {
      first = at;
    } else {
      letters.push(String.fromCharCode(group));
    }
  }
  if (first !== undefined) {
    letters.push(String.fromCharCode(ALL + first * ALL));
  }
  return `${bytes.length} ${letters.join('')}`;
}

/** The bytes of a text. */
function unpacked(text) {
  const bytes = new Uint8Array(Number.parseInt(text, 10));
  let [at, held, count] = [0, 0, 0];
  for (let index = text.indexOf(' ') + 1; at < bytes.length; index += 1) {
    const code = text.charCodeAt(index);
    if (code < ALL) {
      held = (held << BITS) | code;
      count += BITS;
    } else {
      held = (((held << BITS) | LEFT_OUT[(code >> BITS) - 1]) << BITS) | (code & (ALL - 1));
      count += 2 * BITS;
    }
    // Of a last letter of two groups the second may stand for nothing.
    for (; count >= 8 && at < bytes.length; at += 1) {
      count -= 8;
      bytes[at] = held >> count;
    }
    held &= ALL - 1;
  }
  return bytes;
}

module.exports = { packed, unpacked };
