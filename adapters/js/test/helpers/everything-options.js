'use strict';
// What the levels of documents that are drawn at random ask for.

const STRATEGIES = ['BRANDES_KOEPF', 'NETWORK_SIMPLEX', 'SIMPLE', 'LINEAR_SEGMENTS', 'INTERACTIVE'];
const ALIGNMENTS = ['NONE', 'LEFTUP', 'LEFTDOWN', 'RIGHTUP', 'RIGHTDOWN', 'BALANCED'];

const paddingBy = ({ from, of }) => {
  const sides = ['top', 'left', 'bottom', 'right'].map((side) => `${side}=${of([0, from(0, 50), from(0, 50)])}`);
  return `[${sides.slice(of([0, 0, 0, 1])).join(',')}]`;
};

// How often each is asked for, its name, and what draws its value.
const LEVEL_OPTIONS = [
  [0.25, 'padding', paddingBy],
  [0.2, 'spacing.nodeNode', ({ from }) => from(0, 45)],
  [0.15, 'spacing.edgeNode', ({ from }) => from(0, 25)],
  [0.15, 'spacing.edgeEdge', ({ from }) => from(0, 20)],
  [0.2, 'layered.spacing.nodeNodeBetweenLayers', ({ from }) => from(0, 70)],
  [0.1, 'layered.spacing.edgeNodeBetweenLayers', ({ from }) => from(0, 25)],
  [0.1, 'layered.spacing.edgeEdgeBetweenLayers', ({ from }) => from(0, 20)],
  [0.15, 'spacing.componentComponent', ({ from }) => from(0, 60)],
  [0.3, 'separateConnectedComponents', ({ of }) => of([true, 'true', false, false])],
  [0.2, 'layered.nodePlacement.strategy', ({ of }) => of(STRATEGIES)],
  [0.1, 'layered.nodePlacement.bk.fixedAlignment', ({ of }) => of(ALIGNMENTS)],
  [0.1, 'layered.straightness', ({ from }) => from(1, 16)],
  [0.1, 'layered.thoroughness', ({ from }) => from(1, 12)],
  [0.15, 'layered.slots', ({ of }) => of(['FEWEST', 'UNCROSSED'])],
  [0.15, 'aspectRatio', ({ of }) => of([0.3, 1, '2.5', 6])],
  [0.15, 'spacing.edgeLabel', ({ from, of }) => of([from(0, 12), 2.5])],
  [0.15, 'spacing.labelLabel', ({ from }) => from(0, 8)],
  [0.15, 'spacing.labelNode', ({ from }) => from(0, 12)],
  [0.1, 'spacing.labelPortHorizontal', ({ from }) => from(0, 6)],
  [0.1, 'spacing.labelPortVertical', ({ from }) => from(0, 6)],
  [0.1, 'spacing.portPort', ({ from }) => from(0, 25)],
];

const CROSSINGS = 'layered.crossingMinimization';

// What asks for the order of an earlier drawing, or for that of the document.
const ORDERS = [
  { interactive: true },
  { interactive: 'true' },
  { interactiveLayout: true },
  { [`${CROSSINGS}.semiInteractive`]: true },
  { [`${CROSSINGS}.strategy`]: 'INTERACTIVE' },
  { 'layered.order': 'KEPT' },
  { 'layered.order': 'KEPT' },
  { 'layered.order': 'DOCUMENT' },
  { [`${CROSSINGS}.forceNodeModelOrder`]: true },
  { [`${CROSSINGS}.strategy`]: 'NONE' },
  { interactive: true, [`${CROSSINGS}.forceNodeModelOrder`]: true },
];

module.exports = { LEVEL_OPTIONS, ORDERS };
