'use strict';
// Takes far copies out of bytes, for `playground/copies.js`.

const { LEAST } = require('../playground/copies');

// What occurred nearer is left to deflate.
const NEAR = 32_000;

// So many of the last places with the same sum are tried.
const TRIES = 64;

const SUMS = 2 ** 20;

const FACTOR = 0x01000193;

/** The sums of the bytes at each place, each of as many as the least copy has. */
function sumsOf(bytes) {
  const sums = new Int32Array(Math.max(bytes.length - LEAST + 1, 0));
  let [sum, highest] = [0, 1];
  for (let at = 0; at < bytes.length; at += 1) {
    sum = (Math.imul(sum, FACTOR) + bytes[at]) | 0;
    if (at < LEAST) {
      highest = Math.imul(highest, FACTOR);
    } else {
      sum = (sum - Math.imul(bytes[at - LEAST], highest)) | 0;
    }
    if (at >= LEAST - 1) {
      sums[at - LEAST + 1] = (Math.imul(sum ^ (sum >>> 15), 0x9e3779b1) >>> 12) & (SUMS - 1);
    }
  }
  return sums;
}

/** For how many bytes what stands at one place stands at another one too, without an overlap. */
function lengthOf(bytes, from, to) {
  const most = Math.min(bytes.length, to + to - from) - to;
  let length = 0;
  while (length < most && bytes[from + length] === bytes[to + length]) {
    length += 1;
  }
  return length;
}

/** The places at which copies may begin, by the sums of their first bytes. */
class Places {
  #bytes;
  #sums;
  #last = new Int32Array(SUMS).fill(-1);
  #before;

  constructor(bytes) {
    this.#bytes = bytes;
    this.#sums = sumsOf(bytes);
    this.#before = new Int32Array(bytes.length);
  }

  add(at) {
    if (at < this.#sums.length) {
      const sum = this.#sums[at];
      this.#before[at] = this.#last[sum];
      this.#last[sum] = at;
    }
  }

  /** The longest copy of what occurred far before a place. */
  longest(at) {
    let [best, place] = [{ length: 0 }, this.#last[this.#sums[at]]];
    for (let tried = 0; place >= 0 && tried < TRIES; tried += 1) {
      const length = at - place > NEAR ? lengthOf(this.#bytes, place, at) : 0;
      if (length > best.length) {
        best = { length, back: at - place };
      }
      place = this.#before[place];
    }
    return best;
  }
}

/** A number as bytes of 7 bits. */
function pushNumber(list, number) {
  let rest = number;
  for (; rest >= 128; rest = Math.floor(rest / 128)) {
    list.push(128 | rest % 128);
  }
  list.push(rest);
}

/** Bytes without their far copies. */
function withoutCopies(bytes) {
  const places = new Places(bytes);
  const [copies, left] = [[], []];
  let [count, last, at] = [0, 0, 0];
  while (at + LEAST <= bytes.length) {
    const { length, back } = places.longest(at);
    const end = at + (length >= LEAST ? length : 1);
    if (length >= LEAST) {
      [at - last, length - LEAST, back].forEach((number) => pushNumber(copies, number));
      left.push(bytes.subarray(last, at));
      count += 1;
      last = end;
    }
    for (; at < end; at += 1) {
      places.add(at);
    }
  }
  left.push(bytes.subarray(last));
  const head = [];
  const others = Buffer.concat(left);
  [bytes.length, count, others.length].forEach((number) => pushNumber(head, number));
  return Buffer.concat([Buffer.from(head), Buffer.from(copies), others]);
}

module.exports = { withoutCopies };
