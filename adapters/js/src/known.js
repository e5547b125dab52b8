'use strict';
// The options and algorithms that this package knows, by data/options.json.

const { adapter, options, prefixes } = require('../data/options.json');

const [PREFIX] = prefixes;

// The elements that read an option, as ELK names them.
const TARGETS = { levels: ['PARENTS'], nodes: ['NODES', 'PARENTS'], ports: ['PORTS'], edges: ['EDGES'], labels: ['LABELS'] };

const words = (name) => name.split('.').at(-1).replace(/[A-Z]/g, (letter) => ` ${letter.toLowerCase()}`);

const valuesOf = ({ words: told, values }) => told ?? values.join(', ');

/** All options that anything reads, in the form of elkjs. */
const LAYOUT_OPTIONS = [...options, ...adapter].map(({ name, at, type, default: byDefault, ...option }) => ({
  id: PREFIX + name,
  name: words(name),
  description: `${valuesOf(option)}; default ${byDefault || 'none'}`,
  group: name.split('.').slice(0, -1).join('.'),
  type,
  targets: [...new Set([at].flat().flatMap((it) => TARGETS[it]))],
}));

const LAYERED = `${PREFIX}layered`;
const BOX = `${PREFIX}box`;

const LAYOUT_ALGORITHMS = [
  {
    id: LAYERED,
    name: 'layered',
    description:
      'Nodes with ports, edges, also between levels, self-loops, and nodes within nodes, up to 50 levels, ' +
      'in all four directions and under all port constraints.',
    category: LAYERED,
    knownOptions: LAYOUT_OPTIONS.map(({ id }) => id),
    supportedFeatures: ['SELF_LOOPS', 'MULTI_EDGES', 'PORTS', 'COMPOUND', 'CLUSTERS'],
  },
  {
    id: BOX,
    name: 'box',
    description:
      'A level of boxes has no edges. The outlines of its children stand in rows from left to right, ' +
      'in document order, whatever the direction: spacing.nodeNode apart, under the least limit of width ' +
      'whose rows have the smallest longer side.',
    category: BOX,
    knownOptions: ['algorithm', 'direction', 'portConstraints', 'padding', 'spacing.nodeNode'].map(
      (name) => PREFIX + name,
    ),
    supportedFeatures: ['PORTS', 'COMPOUND'],
  },
];

/** The kinds of drawing, each with its algorithms. */
const LAYOUT_CATEGORIES = LAYOUT_ALGORITHMS.map(({ id, name, description }) => ({ id, name, description, knownLayouters: [id] }));

module.exports = { LAYOUT_ALGORITHMS, LAYOUT_CATEGORIES, LAYOUT_OPTIONS };
