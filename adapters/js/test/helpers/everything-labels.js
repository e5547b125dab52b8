'use strict';
// Labels of documents that are drawn at random.

const WORDS = ['a', 'b2', 'label', 'two words', 'a label of some words', 'two\nlines', ''];
const COLUMNS = ['H_LEFT', 'H_CENTER', 'H_RIGHT'];
const ROWS = ['V_TOP', 'V_CENTER', 'V_BOTTOM'];

/** A label with a text, with a size or as large as its text. */
function labelFor(maker, named = {}) {
  const { is, of } = maker.draw;
  const options = maker.options(named);
  return {
    text: of(WORDS),
    ...(is(0.6) && { width: maker.length(1, 80), height: maker.length(6, 22) }),
    ...(is(0.1) && { id: maker.id('l') }),
    ...(Object.keys(options).length > 0 && { layoutOptions: options }),
  };
}

function placementBy({ is, of }) {
  const names = [of(['INSIDE', 'INSIDE', 'OUTSIDE', 'OUTSIDE']), of(ROWS), of(COLUMNS), ...(is(0.2) ? ['H_PRIORITY'] : [])];
  return is(0.3) ? `[${names.join(', ')}]` : names.join(' ');
}

/** Gives a node labels. Each of them asks for its own place, or the node for that of all. */
function nodeLabelsFor(maker, node, isRoot) {
  const { draw } = maker;
  const placement = draw.is(0.85) ? placementBy(draw) : undefined;
  const isOwn = draw.is(0.4);
  const count = draw.of([1, 1, 1, 2, 3]);
  const placed = (value) => (isRoot ? value?.replace('OUTSIDE', 'INSIDE') : value);
  const own = () => ({ 'nodeLabels.placement': placed(isOwn ? placementBy(draw) : undefined) });
  node.labels = Array.from({ length: count }, () => labelFor(maker, own()));
  const padding = draw.is(0.15) ? `[top=${draw.below(9)},left=${draw.below(9)},bottom=${draw.below(9)},right=${draw.below(9)}]` : undefined;
  const named = { 'nodeLabels.placement': placed(placement), 'nodeLabels.padding': padding };
  node.layoutOptions = { ...node.layoutOptions, ...maker.options(named) };
}

const PLACES = ['CENTER', 'CENTER', 'HEAD', 'TAIL'];

/** The labels of an edge. They ask for their places themselves, or the edge does. */
function edgeLabelsFor(maker, edge) {
  const { is, of } = maker.draw;
  const isOwn = is(0.7);
  const asked = () => ({ 'edgeLabels.placement': is(0.8) ? of(PLACES) : undefined, 'edgeLabels.inline': is(0.15) ? of([true, 'true', false]) : undefined });
  edge.labels = Array.from({ length: of([1, 1, 1, 2, 3]) }, () => labelFor(maker, isOwn ? asked() : {}));
  if (!isOwn) {
    edge.layoutOptions = { ...edge.layoutOptions, ...maker.options(asked()) };
  }
}

module.exports = { edgeLabelsFor, labelFor, nodeLabelsFor };
