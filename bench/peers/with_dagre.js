'use strict';
// Lays out flat documents, one a line, with dagre. Each answer is a line: boxes and routes in the order of the document, and the
// milliseconds of processor time of the bare call.

const dagre = require('dagre');
const { readFileSync } = require('node:fs');

function laidOut({ layoutOptions, children, edges }) {
  const graph = new dagre.graphlib.Graph({ multigraph: true });
  const { 'elk.spacing.nodeNode': nodesep, 'elk.layered.spacing.nodeNodeBetweenLayers': ranksep } = layoutOptions;
  graph.setGraph({ rankdir: 'LR', nodesep, edgesep: 10, ranksep });
  for (const { id, width, height } of children) {
    graph.setNode(id, { width, height });
  }
  for (const { id, sources, targets } of edges) {
    // In the middle of its edge a label takes no room of its own.
    graph.setEdge(sources[0], targets[0], { labelpos: 'c' }, id);
  }
  const began = process.cpuUsage();
  dagre.layout(graph);
  const { user, system } = process.cpuUsage(began);
  const boxes = children.map(({ id }) => graph.node(id)).map(({ x, y, width, height }) => [x - width / 2, y - height / 2]);
  const lines = edges.map(({ id, sources, targets }) => graph.edge(sources[0], targets[0], id).points);
  return { boxes, routes: lines.map((points) => points.map(({ x, y }) => [x, y])), ms: (user + system) / 1000 };
}

const texts = readFileSync(0, 'utf8').split('\n').filter((text) => text !== '');
process.stdout.write(texts.map((text) => `${JSON.stringify(laidOut(JSON.parse(text)))}\n`).join(''));
