// mermaid: a graph of any type, options by the diagram's configuration.
import ELK from 'elkjs/lib/elk.bundled.js';

interface LabelData { width: number; height: number; wrappingWidth?: number; labelNode?: unknown }
interface NodeWithVertex { id: string; parentId?: string; isGroup?: boolean; children?: unknown[]; labelData?: LabelData; domId?: unknown }

export const render = async (data4Layout: { nodes: NodeWithVertex[]; edges: { id: string; start: string; end: string }[]; direction?: string }, algorithm?: string) => {
  const nodeDb: Record<string, any> = {};
  const elk = new ELK();
  let elkGraph: any = {
    id: 'root',
    layoutOptions: {
      'elk.hierarchyHandling': 'INCLUDE_CHILDREN',
      'elk.algorithm': algorithm,
      'nodePlacement.strategy': 'BRANDES_KOEPF',
      'elk.layered.mergeEdges': true,
      'elk.direction': 'DOWN',
      'spacing.baseValue': 35,
    },
    children: [],
    edges: [],
  };
  for (const node of data4Layout.nodes) {
    const child = { ...node, width: 100, height: 40, labels: [{ text: node.id, width: 20, height: 10 }] };
    elkGraph.children.push(child);
    nodeDb[node.id] = child;
  }
  elkGraph.edges = data4Layout.edges.map((edge) => ({ id: edge.id, sources: [edge.start], targets: [edge.end] }));
  const g = await elk.layout(elkGraph);
  const offsets: { x: number; y: number }[] = [];
  g.children?.map((node: any) => offsets.push({ x: node.x, y: node.y }));
  g.edges?.map((edge: any) => {
    const src = edge.sections[0].startPoint;
    const segments = edge.sections[0].bendPoints ? edge.sections[0].bendPoints : [];
    return [{ x: src.x, y: src.y }, ...segments.map((segment: any) => ({ x: segment.x, y: segment.y }))];
  });
  elkGraph = g;
  return { elkGraph, offsets, nodeDb };
};
