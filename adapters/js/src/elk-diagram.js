'use strict';
// <elk-diagram>: an element that lays out its graph and draws it.

const ELK = require('./elk');

const NAME = 'elk-diagram';

// A server loads the module too, and has no elements.
const Base = globalThis.HTMLElement ?? class {};

const PROPERTIES = ['graph', 'layoutOptions', 'theme', 'arrows'];

function parsed(text) {
  try {
    return JSON.parse(text);
  } catch ({ message }) {
    throw new SyntaxError(`the attribute graph of ${NAME} is not JSON: ${message}`);
  }
}

const listOf = (value) => (Array.isArray(value) ? value : []);

/** The number of nodes in a placed graph, and of edges. */
function countsOf(placed) {
  const inner = listOf(placed.children).map(countsOf);
  const sum = (name) => inner.reduce((all, counts) => all + counts[name], 0);
  return { nodes: inner.length + sum('nodes'), edges: listOf(placed.edges).length + sum('edges') };
}

/** What a picture shows, in words, for readers who can't see it. */
function nameOf(placed) {
  const { nodes, edges } = countsOf(placed);
  const { text } = Object(listOf(placed.labels)[0]);
  const counted = (count, noun) => `${count} ${noun}${count === 1 ? '' : 's'}`;
  return text ? String(text) : `a diagram with ${counted(nodes, 'node')} and ${counted(edges, 'edge')}`;
}

/** A graph in ELK's JSON, as its picture. */
class ElkDiagram extends Base {
  static observedAttributes = ['graph', 'theme', 'arrows'];

  /** The engine of all elements; a page that serves the worker itself sets its own. */
  static elk;

  #graph;
  #layoutOptions;
  #placed;
  #isDue = false;
  #turn = 0;

  /** The graph to draw: the object that was set, otherwise that of the attribute's text. */
  get graph() {
    return this.#graph ?? (this.hasAttribute('graph') ? parsed(this.getAttribute('graph')) : undefined);
  }

  set graph(graph) {
    this.#graph = graph ?? undefined;
    this.#ask();
  }

  /** Options of every element of the graph that has none of its own. */
  get layoutOptions() {
    return this.#layoutOptions;
  }

  set layoutOptions(options) {
    this.#layoutOptions = options ?? undefined;
    this.#ask();
  }

  get theme() {
    const theme = this.getAttribute('theme');
    return theme === 'light' || theme === 'dark' ? theme : 'auto';
  }

  set theme(theme) {
    this.setAttribute('theme', theme);
  }

  get arrows() {
    return this.getAttribute('arrows') !== 'false';
  }

  set arrows(arrows) {
    this.setAttribute('arrows', String(arrows));
  }

  /** The placed graph that is shown; undefined before the first, and if the graph can't be drawn. */
  get placed() {
    return this.#placed;
  }

  connectedCallback() {
    // Properties that were set before the element was defined would hide its own.
    for (const name of PROPERTIES.filter((it) => Object.hasOwn(this, it))) {
      const value = this[name];
      delete this[name];
      this[name] = value;
    }
    this.#ask();
  }

  attributeChangedCallback(name, before, now) {
    if (name === 'graph') {
      this.#graph = undefined;
    }
    if (name === 'graph' || before !== now) {
      this.#ask();
    }
  }

  /** Several changes in a row are drawn once. */
  #ask() {
    if (!this.#isDue && this.isConnected) {
      this.#isDue = true;
      queueMicrotask(() => {
        this.#isDue = false;
        this.#draw();
      });
    }
  }

  async #draw() {
    this.#turn += 1;
    const turn = this.#turn;
    try {
      const { graph } = this;
      const drawn = graph && (await this.#drawn(graph));
      // If another graph was set meanwhile, that one is drawn instead.
      if (turn === this.#turn) {
        this.#show(drawn);
      }
    } catch (error) {
      if (turn === this.#turn) {
        this.#complain(error);
      }
    }
  }

  #drawn(graph) {
    ElkDiagram.elk ??= new ELK();
    const { theme, arrows } = this;
    return ElkDiagram.elk.draw(graph, { theme, arrows, layoutOptions: this.#layoutOptions });
  }

  #show(drawn) {
    this.#placed = drawn?.placed;
    if (!drawn) {
      this.replaceChildren();
      return;
    }
    const picture = new DOMParser().parseFromString(drawn.svg, 'image/svg+xml').documentElement;
    picture.setAttribute('role', 'img');
    picture.setAttribute('aria-label', this.getAttribute('aria-label') ?? nameOf(drawn.placed));
    Object.assign(picture.style, { maxWidth: '100%', height: 'auto' });
    this.replaceChildren(this.ownerDocument.importNode(picture, true));
    this.dispatchEvent(new CustomEvent('elk-placed', { detail: drawn.placed, bubbles: true }));
  }

  #complain(error) {
    this.#placed = undefined;
    const line = this.ownerDocument.createElement('p');
    line.setAttribute('role', 'alert');
    line.textContent = error.message;
    this.replaceChildren(line);
    this.dispatchEvent(new CustomEvent('elk-error', { detail: error, bubbles: true }));
  }
}

if (globalThis.customElements && !customElements.get(NAME)) {
  customElements.define(NAME, ElkDiagram);
}

// One object for `require`, for `import ElkDiagram from` and for `import { ElkDiagram } from`.
module.exports = ElkDiagram;
module.exports.ElkDiagram = ElkDiagram;
module.exports.default = ElkDiagram;
