// React Flow: the hook of its example for elkjs, over a store that stands for the flow.
import ELK, { ElkNode } from 'elkjs/lib/elk.bundled.js';

interface FlowNode { id: string; position: { x: number; y: number }; data: { label: string }; measured: { width: number; height: number } }
interface FlowEdge { id: string; source: string; target: string; type?: string; animated?: boolean }

export interface Flow {
  getNodes(): FlowNode[];
  getEdges(): FlowEdge[];
  setNodes(nodes: FlowNode[]): void;
  fitView(): void;
}

const elk = new ELK();

const defaultOptions = {
  'elk.algorithm': 'layered',
  'elk.layered.spacing.nodeNodeBetweenLayers': 100,
  'elk.spacing.nodeNode': 80,
};

export const useLayoutedElements = ({ getNodes, getEdges, setNodes, fitView }: Flow) => {
  const getLayoutedElements = async (options: Record<string, string | number>): Promise<void> => {
    const graph = {
      id: 'root',
      layoutOptions: Object.assign({}, defaultOptions, options),
      children: getNodes().map((node) => ({ ...node, width: node.measured.width, height: node.measured.height })),
      edges: getEdges(),
    };
    const { children } = await elk.layout(graph as unknown as ElkNode);
    const nodes = (children ?? []) as unknown as (FlowNode & { x: number; y: number })[];
    nodes.forEach((node) => {
      node.position = { x: node.x, y: node.y };
    });
    setNodes(nodes);
    fitView();
  };
  return { getLayoutedElements };
};
