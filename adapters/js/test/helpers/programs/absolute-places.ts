// A walk through a nested result, with places in the whole drawing.
import type { ElkExtendedEdge, ElkNode, ElkPoint } from 'elkjs';

interface Absolute { node: ElkNode; x: number; y: number; depth: number }

export function* walk(node: ElkNode, offset: ElkPoint = { x: 0, y: 0 }, depth = 0): Generator<Absolute> {
  const x = offset.x + (node.x ?? 0);
  const y = offset.y + (node.y ?? 0);
  yield { node, x, y, depth };
  for (const child of node.children ?? []) {
    yield* walk(child, { x, y }, depth + 1);
  }
}

export const allEdges = (node: ElkNode): ElkExtendedEdge[] => [...(node.edges ?? []), ...(node.children ?? []).flatMap(allEdges)];

export const byId = (root: ElkNode): Map<string, Absolute> => new Map([...walk(root)].map((it) => [it.node.id, it]));

export const bounds = (root: Required<Pick<ElkNode, 'width' | 'height'>>): [number, number] => [root.width, root.height];
