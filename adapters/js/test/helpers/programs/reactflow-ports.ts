// React Flow: handles as ports, and the result looked up by id.
import ELK, { type ElkNode, type ElkPort, type LayoutOptions } from 'elkjs/lib/elk.bundled.js';

type Handle = { id: string };
type FlowNode = { id: string; data: { sourceHandles: Handle[]; targetHandles: Handle[] }; measured?: { width?: number; height?: number } };
type FlowEdge = { id: string; source: string; target: string; sourceHandle?: string | null; targetHandle?: string | null };

const layoutOptions: LayoutOptions = { 'elk.algorithm': 'layered', 'elk.direction': 'RIGHT', 'elk.spacing.nodeNode': '80' };
const elk = new ELK({ defaultLayoutOptions: layoutOptions });

const port = (side: 'WEST' | 'EAST') => ({ id }: Handle): ElkPort => ({ id, properties: { side } } as ElkPort);

export const getLayoutedNodes = async (nodes: FlowNode[], edges: FlowEdge[]) => {
  const graph: ElkNode = {
    id: 'root',
    layoutOptions,
    children: nodes.map((n) => ({
      id: n.id,
      width: n.measured?.width ?? 150,
      height: n.measured?.height ?? 50,
      layoutOptions: { 'org.eclipse.elk.portConstraints': 'FIXED_ORDER' },
      ports: [{ id: n.id }, ...n.data.targetHandles.map(port('WEST')), ...n.data.sourceHandles.map(port('EAST'))],
    })),
    edges: edges.map((e) => ({ id: e.id, sources: [e.sourceHandle || e.source], targets: [e.targetHandle || e.target] })),
  };
  const layoutedGraph = await elk.layout(graph);
  return nodes.map((node) => {
    const found = layoutedGraph.children?.find((lgNode) => lgNode.id === node.id);
    return { ...node, position: { x: found?.x ?? 0, y: found?.y ?? 0 } };
  });
};
