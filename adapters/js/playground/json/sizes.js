'use strict';
// Nodes without a size are given that of their text, so that a first document needs no numbers.

const { meantBy, outlineOf } = require('./outline');

// A node is as large as its text, measured in the font of pictures, with this around it in inches of 72 units.
const FRAME = 'graph { node [shape=box width=0.416 height=0.416 margin="0.111,0.111" fontsize=12]';

const LENGTHS = ['width', 'height'];

const childrenOf = (value) => (Array.isArray(value?.children) ? value.children : []);

/** Whether any node but a level lacks a length. */
function isLacking(root) {
  const waiting = [root];
  while (waiting.length > 0) {
    const node = waiting.pop();
    const children = childrenOf(node);
    if (node !== root && children.length === 0 && LENGTHS.some((name) => node?.[name] === undefined)) {
      return true;
    }
    for (const child of children) {
      waiting.push(child);
    }
  }
  return false;
}

/** The nodes that lack a length; a level has its own, and so has one that asks to grow by its labels. */
function lackingIn(text) {
  const [root, ...elements] = outlineOf(text);
  return elements.filter((it) => it !== root && it.kind === 'node' && !it.isLevel && !it.isSized && LENGTHS.some((name) => !it.members.has(name)));
}

/** The words that a picture shows in a node: those of its labels, or its id. */
function wordsOf({ id, texts }) {
  const told = texts.filter((text) => text !== '');
  return told.length > 0 ? told.join('\n') : String(id ? meantBy(id.text) : '');
}

const ESCAPES = { '\\': '\\\\', '"': '\\"', '\n': '\\n', '&': '&amp;' };

/** A text as a label in DOT. */
const quoted = (words) => `"${words.replace(/[\\"\n&]/g, (letter) => ESCAPES[letter])}"`;

/** The sizes that the program gives to nodes with these words, in their order. */
function sizesOf(words, ask) {
  const dot = [FRAME, ...words.map((it, at) => `${at} [label=${quoted(it)}]`), '}'].join('\n');
  return ask({ dot, give: ['graph'] }).graph.children;
}

/**
 * Gives sizes to the nodes of a document that have none.
 * @param {string} text
 * @param {(request: object) => object} ask gives the program's reply
 * @returns {{ text: string, nodes: object[] }} the document with these sizes, and the nodes that have got one
 */
function withSizes(text, ask) {
  let root;
  try {
    root = JSON.parse(text);
  } catch {
    return { text, nodes: [] };
  }
  const nodes = isLacking(root) ? lackingIn(text) : [];
  if (nodes.length === 0) {
    return { text, nodes };
  }
  const sizes = sizesOf(nodes.map(wordsOf), ask);
  const pieces = nodes.map(({ start, members }, at) => {
    const lengths = LENGTHS.filter((name) => !members.has(name)).map((name) => `"${name}":${sizes[at][name]}`);
    const from = at === 0 ? 0 : nodes[at - 1].start + 1;
    return `${text.slice(from, start + 1)}${lengths.join()}${members.size > 0 ? ',' : ''}`;
  });
  return { text: pieces.join('') + text.slice(nodes.at(-1).start + 1), nodes };
}

module.exports = { withSizes };
