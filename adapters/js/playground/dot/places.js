'use strict';
// Where the nodes and edges of a drawing stand in a text in DOT.

const { linesOf } = require('../text-lines');

/** All nodes and edges of a placed graph, by their ids as texts, each with the texts of its labels. */
function elementsOf(placed) {
  const [nodes, edges] = [new Map(), new Map()];
  const waiting = [placed];
  while (waiting.length > 0) {
    const { id, labels = [], children = [], edges: own = [] } = waiting.pop();
    nodes.set(String(id), labels.map(({ text }) => text).join(' '));
    own.forEach((edge) => edges.set(String(edge.id), (edge.labels ?? []).map(({ text }) => text).join(' ')));
    waiting.push(...children);
  }
  return { nodes, edges };
}

/** The words and marks of a text outside of attributes, in which a name has the port and the point that stand behind it. */
function outsideOf(tokens) {
  const found = [];
  let depth = 0;
  for (const token of tokens) {
    const [before, last] = found.slice(-2);
    if (token.text === '[' || token.text === ']') {
      depth += token.text === '[' ? 1 : -1;
      found.push({ ...token, text: '[]' });
    } else if (depth === 0 && token.name !== undefined && last?.text === ':' && before?.name !== undefined) {
      found.splice(-2, 2, { ...before, port: `${before.port ?? ''}:${token.name}`, end: token.end });
    } else if (depth === 0) {
      found.push(token);
    }
  }
  return found;
}

/** Reads the words of a text, and keeps the places of nodes and edges. */
class Reader {
  #elements;
  #counts = new Map();
  #seen;
  // For each brace that is open, the cluster that it holds.
  #open = [];
  #isSubgraph = false;
  #cluster;
  // The last end of an edge, the arrow behind it, and the edges of this statement.
  #last;
  #arrow;
  #statement = [];
  places = [];

  constructor({ nodes, edges, whole }) {
    this.#elements = { node: nodes, edge: edges };
    this.#seen = new Set([`node ${whole}`]);
  }

  take(token) {
    const { text, name } = token;
    if (name !== undefined) {
      this.#takeName(token);
    } else if (text === '[]') {
      this.#statement.forEach((place) => {
        place.end = token.end;
      });
    } else if (text === '->' || text === '--') {
      this.#arrow = text;
    } else if (/^subgraph$/i.test(text)) {
      this.#isSubgraph = true;
    } else {
      this.#takeMark(token);
    }
  }

  #takeMark({ text, end }) {
    if (text === '{') {
      this.#open.push(this.#cluster);
    } else if (text === '}') {
      const cluster = this.#open.pop();
      if (cluster) {
        cluster.end = end;
      }
    }
    [this.#last, this.#arrow, this.#cluster, this.#statement, this.#isSubgraph] = [undefined, undefined, undefined, [], false];
  }

  #takeName(token) {
    const { name, port = '', start, end } = token;
    if (!this.#arrow) {
      [this.#last, this.#statement] = [undefined, []];
    }
    const place = this.#keep('node', name, token);
    if (this.#isSubgraph) {
      this.#cluster = place;
    }
    if (this.#last) {
      this.#keepEdge(`${this.#last.name}${this.#arrow}${name}${port}`, { start: this.#last.start, end });
    }
    [this.#last, this.#arrow] = [{ name: name + port, start }, undefined];
  }

  /** Several edges between the same ends are numbered from the second on. */
  #keepEdge(ends, place) {
    const count = (this.#counts.get(ends) ?? 0) + 1;
    this.#counts.set(ends, count);
    const kept = this.#keep('edge', count === 1 ? ends : `${ends} ${count}`, place);
    this.#statement.push(...(kept ? [kept] : []));
  }

  #keep(kind, id, { start, end }) {
    const text = this.#elements[kind].get(id);
    if (text === undefined) {
      return undefined;
    }
    const key = `${kind} ${id}`;
    const place = { kind, id, text, start, end, isWord: true, isAgain: this.#seen.has(key) };
    this.#seen.add(key);
    this.places.push(place);
    return place;
  }
}

/**
 * Where all nodes and edges stand, in the order in which they begin; first the whole graph.
 * @param {string} text
 * @param {Iterable<object>} tokens of the text
 * @param {object} placed the drawing that was made of it
 */
function placesIn(text, tokens, placed) {
  const whole = { kind: 'node', id: String(placed.id), text: '', start: -1, end: text.length };
  const reader = new Reader({ ...elementsOf(placed), whole: whole.id });
  outsideOf(tokens).forEach((token) => reader.take(token));
  const lineAt = linesOf(text);
  const order = (one, other) => one.start - other.start || other.end - one.end;
  return [whole, ...reader.places.sort(order)].map((place) => ({ ...place, ...lineAt(Math.max(place.start, 0)) }));
}

module.exports = { placesIn };
