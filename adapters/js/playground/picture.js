'use strict';
// The picture of a drawing: its elements, and how they look when they light up.

// What a document can't name: its classes mean nothing here.
const [LIT, MARKED, TARGET] = ['data-lit', 'data-marked', 'data-target'];

const STYLE = `
  :host { display: block; }
  svg { position: absolute; inset: 0; width: 100%; height: 100%; transform-origin: 0 0; }
  svg[data-moving] { will-change: transform; overflow: visible; }
  svg[data-far] text { display: none; }
  svg[data-far] :is(path, rect, ellipse, polygon):not([stroke="none"], [${TARGET}]) { stroke-width: .7px; vector-effect: non-scaling-stroke; }
  [${TARGET}] { stroke: transparent !important; stroke-width: 10 !important; fill: none !important; pointer-events: stroke; }
  g[${LIT}] path:not([${TARGET}]) { stroke: var(--accent) !important; stroke-width: 2.6 !important; }
  g[${LIT}] path[stroke="none"]:not([${TARGET}]), g[${LIT}] circle { fill: var(--accent) !important; stroke: none !important; }
  :not(g)[${LIT}] { stroke: var(--accent) !important; stroke-width: 2.6 !important; }
  :not(g)[${MARKED}] { stroke: var(--accent) !important; stroke-width: 2.2 !important; stroke-dasharray: 5 3; }
  g[${MARKED}] path:not([${TARGET}]):not([stroke="none"]) { stroke: var(--accent) !important; stroke-width: 2.2 !important; }
  svg[data-lighting] g[data-id]:not([${LIT}]) { opacity: .25; }
  @media print { svg { position: static; height: auto; max-height: 100vh; } svg[data-far] text { display: inline; } }
`;

// Only the group of all edges has this class alone: a document can add classes to elements, but not replace theirs.
const isEdge = (element) => element.closest('[class=edges]') !== null;

const kindOf = (element) => (isEdge(element) ? 'edge' : 'node');

const chosenOf = (element) => ({ kind: kindOf(element), id: element.dataset.id });

const wordsOf = (element) => element?.querySelector('title')?.textContent ?? '';

// A picture of more letters isn't drawn anew while it moves, and its edges aren't made wider for pointers.
const LARGE = 250_000;

const isLarge = (svg) => svg.length > LARGE;

// A picture of more letters is read part by part, so that the page is never long at work.
const PART = 250_000;

// The first tag of a group, such as that of all edges. An edge has another class before its own.
const GROUP = /^<g class="[a-z]+s"[^>]*>/gm;

// Where an element of a group begins.
const ELEMENT = /\n(?=<[a-z])(?!<g class="[a-z]+s"[ >])/g;

/** The parts in which a picture is read, of about one length. Each later one begins with the tag of the group that goes on in it. */
function partsOf(svg) {
  const length = svg.length / Math.ceil(svg.length / PART);
  const parts = [];
  let [start, group] = [0, ''];
  while (start < svg.length) {
    ELEMENT.lastIndex = start + length;
    const end = ELEMENT.test(svg) ? ELEMENT.lastIndex : svg.length;
    const part = group + svg.slice(start, end);
    parts.push(part);
    [start, group] = [end, part.match(GROUP)?.at(-1) ?? ''];
  }
  return parts;
}

function firstIn(text) {
  const made = document.createElement('template');
  made.innerHTML = text;
  return made.content.firstElementChild;
}

/** The groups of a part that isn't the first. */
const groupsIn = (part) => [...firstIn(`<svg>${part}</svg>`).children];

/** The picture of a text, as large as its room, with a name. */
function pictureIn(svg) {
  const picture = firstIn(svg);
  ['width', 'height'].forEach((name) => picture.removeAttribute(name));
  picture.setAttribute('role', 'img');
  picture.setAttribute('aria-label', 'the drawing');
  return picture;
}

/** Makes an edge's lines wide enough to be met by a pointer. */
function widen(edge) {
  const lines = [...edge.querySelectorAll('path:not([stroke="none"])')];
  lines.forEach((line) => {
    const target = line.cloneNode();
    target.setAttribute(TARGET, '');
    edge.append(target);
  });
}

/** The size of the largest letters. */
const largestText = (svg) => Math.max(0, ...new Set(Array.from(svg.matchAll(/ font-size="([\d.]+)"/g), ([, size]) => Number(size))));

/** The nodes or the edges of a picture, in the order of the drawing, without its outermost level. */
function elementsIn(picture, kind) {
  const all = [...picture.querySelectorAll(`:scope > [class=${kind}s] [data-id]`)];
  return kind === 'node' ? all.slice(1) : all;
}

module.exports = { LIT, MARKED, STYLE, chosenOf, elementsIn, groupsIn, isEdge, isLarge, largestText, partsOf, pictureIn, widen, wordsOf };
