'use strict';
// What a call takes of a graph: a plain graph for the program, and a copy of the elements, with everything that isn't sent.

const { Refusal } = require('../errors');
const { LEVELS, Unreadable, tooDeep, tooLong } = require('./faults');

/** The lists of elements at each kind of element. */
const LISTS = {
  node: { ports: 'port', edges: 'edge', children: 'node', labels: 'label' },
  port: { labels: 'label' },
  edge: { labels: 'label' },
  label: {},
};

// The members whose objects and arrays the program reads. Of others it gets an empty one, so that it knows their names.
const READ = new Set(['id', 'text', 'x', 'y', 'width', 'height', 'layoutOptions', 'properties', 'sources', 'targets']);
['source', 'target', 'sourcePort', 'targetPort', 'style', 'directed', 'link', 'title'].forEach((name) => READ.add(name));

// What pictures read besides.
const PLACED = new Set([...READ, 'sections', 'junctionPoints', 'bendPoints', 'sourcePoint', 'targetPoint', 'container', 'routing']);

// Values in these members are nested so deep at most. What is nested deeper is cut off.
const DEPTH = 4;

// With exact numbers all members are sent, because the program refuses a fraction in any of them.
const EXACT_DEPTH = 16;

// Each takes two bytes of the document at least.
const MOST_VALUES = 2 ** 23;

const isNested = (value) => typeof value === 'object' && value !== null;

const isObject = (value) => isNested(value) && !Array.isArray(value);

/** Whether a value is sent as it is in any member. */
const isPlain = (value) => typeof value === 'string' || typeof value === 'boolean' || Number.isInteger(value) || value === undefined;

/** What is sent for a value that isn't read, and in which the program would find fractions. */
function standIn(value) {
  if (isNested(value)) {
    return Array.isArray(value) ? [] : {};
  }
  return typeof value === 'number' ? true : undefined;
}

class Taker {
  #isExact;
  #read;
  #steps;
  #count = 0;

  constructor({ isExact = false, isPlaced = false, steps = [] }) {
    this.#isExact = isExact;
    this.#read = isPlaced ? PLACED : READ;
    this.#steps = steps;
  }

  /** The steps to what is being read. */
  get steps() {
    return [...this.#steps];
  }

  /** A node, a port, an edge or a label: what is sent of it, and what is kept. */
  element(given, kind, depth) {
    if (!isObject(given)) {
      return { sent: this.#plain(given, this.#depth), kept: given };
    }
    if (depth > LEVELS) {
      throw tooDeep(this.steps);
    }
    this.#countOne();
    const kept = this.#copy(given);
    const sent = { ...kept };
    for (const name of Object.keys(kept).filter((it) => !isPlain(kept[it]))) {
      this.#at(name, () => this.#member(name, { kept, sent, kind, depth }));
    }
    return { sent, kept };
  }

  /** The members of an object, whose getters are called once. */
  #copy(given) {
    try {
      return { ...given };
    } catch (error) {
      // One of them throws, perhaps again.
      Object.keys(given).forEach((name) => this.#at(name, () => given[name]));
      throw error;
    }
  }

  /** A plain value. */
  value(given) {
    return this.#plain(given, this.#depth);
  }

  #member(name, { kept, sent, kind, depth }) {
    const value = kept[name];
    const inner = LISTS[kind][name];
    if (inner && Array.isArray(value)) {
      const items = this.#items(value, (item) => this.element(item, inner, inner === 'node' ? depth + 1 : depth));
      sent[name] = items.map((item) => item.sent);
      kept[name] = items.map((item) => item.kept);
    } else if (this.#isExact || this.#read.has(name) || inner) {
      sent[name] = this.#plain(value, this.#depth);
    } else {
      sent[name] = standIn(value);
    }
  }

  get #depth() {
    return this.#isExact ? EXACT_DEPTH : DEPTH;
  }

  /** A value without what JSON has no form for, down to a depth. */
  #plain(value, depth) {
    if (typeof value === 'bigint') {
      throw new Unreadable(this.steps, `is ${value}n, and JSON has no BigInt`);
    }
    if (!isNested(value)) {
      return typeof value === 'function' ? undefined : value;
    }
    this.#countOne();
    if (Array.isArray(value)) {
      return depth > 0 ? this.#items(value, (item) => this.#plain(item, depth - 1)) : [];
    }
    const names = depth > 0 ? Object.keys(value) : [];
    return Object.fromEntries(names.map((name) => [name, this.#at(name, () => this.#plain(value[name], depth - 1))]));
  }

  #items(list, take) {
    const items = [];
    for (let at = 0; at < list.length; at += 1) {
      this.#countOne();
      items.push(this.#at(at, () => take(list[at])));
    }
    return items;
  }

  #at(step, take) {
    this.#steps.push(step);
    const taken = take();
    this.#steps.pop();
    return taken;
  }

  #countOne() {
    this.#count += 1;
    if (this.#count > MOST_VALUES) {
      throw tooLong(this.steps);
    }
  }
}

/** Takes something. The error says where it couldn't be read. */
function told(taker, take) {
  try {
    return take(taker);
  } catch (error) {
    // A getter or a proxy of the caller's may throw anything.
    const isOwn = error instanceof Refusal || error instanceof Unreadable;
    throw isOwn ? error : new Unreadable(taker.steps, `can't be read: ${error?.message ?? error}`, error);
  }
}

/**
 * What a call takes of a graph. The graph stays as it is, and may be changed afterwards.
 * @param {unknown} graph
 * @param {{ isExact?: boolean, isPlaced?: boolean }} how whether numbers are exact, and whether the graph has places
 * @returns {{ sent: unknown, kept: unknown }} a graph that JSON.stringify writes, and a copy of the elements of the given one,
 *   which shares their other members with it; a Refusal or a TypeError with `path` if it can't be sent
 */
const taken = (graph, how) => told(new Taker(how), (taker) => taker.element(graph, 'node', 0));

/** What a call takes of its own options. */
const takenOptions = (options) => (isObject(options) ? told(new Taker({ steps: ['layoutOptions'] }), (taker) => taker.value(options)) : {});

module.exports = { LISTS, taken, takenOptions };
