'use strict';
// Judges drawings by `elk-draw check`.

const { runText } = require('../src/module');
const { nameOf } = require('./options');
const { placesIn } = require('./json/places');
const { told } = require('./remarks');
const { refusalIn, verdictOf } = require('./verdict');

// What the engine refuses in drawings of the program.
const OF_PROGRAM = new Set(['NotPlaced', 'NotWhole', 'Hyperedge', 'CrossLevel']);

const BY_PROGRAM =
  'the engine knows no labels and no edges with several ends; this is the drawing that the program makes of this document, and it was judged without them';

const IN_LEVELS = 'edges cross the borders of nodes, so the engine drew level by level, and check judges only whole documents';

const SPLIT = 'separateConnectedComponents';

const isSame = (one, other) => {
  if (typeof one !== 'object' || one === null || typeof other !== 'object' || other === null) {
    return one === other;
  }
  const names = Object.keys(one);
  return names.length === Object.keys(other).length && names.every((name) => Object.hasOwn(other, name) && isSame(one[name], other[name]));
};

const asksForParts = ({ layoutOptions, properties }) =>
  Object.keys({ ...properties, ...layoutOptions }).some((key) => nameOf(key) === SPLIT);

/**
 * A placed document as it is judged. The program lays levels out in parts if they say nothing of them, and the engine doesn't,
 * so levels whose drawings have parts must ask for them.
 */
function withParts(text) {
  const document = JSON.parse(text);
  const waiting = [document];
  let isChanged = false;
  while (waiting.length > 0) {
    const node = waiting.pop();
    if (node.layering?.parts && !asksForParts(node)) {
      node.layoutOptions = { ...node.layoutOptions, [`elk.${SPLIT}`]: true };
      isChanged = true;
    }
    for (const child of Array.isArray(node.children) ? node.children : []) {
      waiting.push(child);
    }
  }
  return isChanged ? JSON.stringify(document) : text;
}

class Judge {
  #program;
  #ask;

  /**
   * @param {import('../src/module').Program} program
   * @param {(request: object) => object} ask gives the reply to a request
   */
  constructor(program, ask) {
    this.#program = program;
    this.#ask = ask;
  }

  /** The verdict on what the engine has drawn for a graph, without labels and edges of several ends. */
  laidOut(graph) {
    const { document } = this.#ask({ ...graph, give: ['document'] });
    if (!document) {
      return { notes: [{ message: IN_LEVELS }] };
    }
    const { output, errors } = runText(this.#program, ['layout'], JSON.stringify(document));
    return { verdict: output === '' ? verdictOf(errors) : this.#check(output) };
  }

  #check(text) {
    const { output, errors } = runText(this.#program, ['check'], text);
    return verdictOf(output || errors);
  }

  /** The drawing of the program, if a text is that; undefined otherwise. */
  #isOwn(text) {
    const { placed } = this.#ask({ text, give: ['placed'] });
    return placed !== undefined && isSame(placed, JSON.parse(text));
  }

  /**
   * Judges a document as it is placed.
   * @param {string} text
   */
  placed(text) {
    const first = runText(this.#program, ['check'], text);
    const refusal = refusalIn(first.errors);
    if (!refusal) {
      const parts = first.output.startsWith('no') ? withParts(text) : text;
      return { verdict: parts === text ? verdictOf(first.output || first.errors) : this.#check(parts) };
    }
    if (OF_PROGRAM.has(refusal.name) && this.#isOwn(text)) {
      const { verdict, notes = [{ message: BY_PROGRAM }] } = this.laidOut({ text });
      return { verdict, notes };
    }
    return this.#refused(text, refusal);
  }

  /** The faults for which a placed document isn't judged: those that the program tells, or else the engine's. */
  #refused(text, { message, id }) {
    const { lint } = this.#ask({ text, numbers: 'exact', give: ['lint'] });
    const remarks = told(lint);
    if (remarks.faults.length > 0) {
      return remarks;
    }
    const { line, column } = placesIn(text).find((it) => it.id === id) ?? {};
    return { ...remarks, faults: [{ message, line, column }], counts: { ...remarks.counts, faults: 1 } };
  }
}

module.exports = { Judge };
