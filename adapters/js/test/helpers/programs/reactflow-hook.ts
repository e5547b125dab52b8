// React Flow: a flat graph, laid out in one direction or the other.
import ELK from 'elkjs/lib/elk.bundled.js';

interface Node<Data = any> {
  id: string;
  position: { x: number; y: number };
  data: Data;
  width?: number;
  height?: number;
  targetPosition?: string;
  sourcePosition?: string;
}

interface Edge {
  id: string;
  source: string;
  target: string;
}

const elk = new ELK();

const elkOptions = {
  'elk.algorithm': 'layered',
  'elk.layered.spacing.nodeNodeBetweenLayers': '100',
  'elk.spacing.nodeNode': '80',
};

export const getLayoutedElements = async (nodes: Node[], edges: Edge[], options: Record<string, string> = {}) => {
  const isHorizontal = options?.['elk.direction'] === 'RIGHT';
  const graph = {
    id: 'root',
    layoutOptions: { ...elkOptions, ...options },
    children: nodes.map((node) => ({
      ...node,
      targetPosition: isHorizontal ? 'left' : 'top',
      sourcePosition: isHorizontal ? 'right' : 'bottom',
      width: 150,
      height: 50,
    })),
    edges: edges.map((edge) => ({ ...edge, sources: [edge.source], targets: [edge.target] })),
  };
  return elk
    .layout(graph)
    .then((layoutedGraph) => ({
      nodes: (layoutedGraph.children ?? []).map((node) => ({ ...node, position: { x: node.x ?? 0, y: node.y ?? 0 } })),
      edges: layoutedGraph.edges,
    }))
    .catch(console.error);
};

export async function positions(nodes: Node[], edges: Edge[]): Promise<Node[]> {
  const done = await getLayoutedElements(nodes, edges, { 'elk.direction': 'DOWN' });
  return done ? done.nodes.map(({ id, position, data }) => ({ id, position, data })) : nodes;
}
