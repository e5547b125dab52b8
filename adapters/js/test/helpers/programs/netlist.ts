// netlistsvg: a circuit, callbacks, and a result that is handed on.
import ELK = require('elkjs');

interface Cell { key: string; width: number; height: number; pins: { id: string; x: number; y: number; side: string }[] }

const elk = new ELK.default();

function toGraph(cells: Cell[], nets: [string, string][]): ELK.ElkNode {
  return {
    id: 'module',
    layoutOptions: { 'org.eclipse.elk.layered.spacing.nodeNodeBetweenLayers': '35' },
    children: cells.map((cell) => ({
      id: cell.key,
      width: cell.width,
      height: cell.height,
      ports: cell.pins.map(({ id, x, y }) => ({ id: `${cell.key}.${id}`, width: 0, height: 0, x, y })),
      layoutOptions: { 'org.eclipse.elk.portConstraints': 'FIXED_POS' },
      labels: [{ id: `${cell.key}.label`, text: cell.key, x: 0, y: -10, width: 6 * cell.key.length, height: 11 }],
    })),
    edges: nets.map(([from, to], at) => ({ id: `e${at}`, sources: [from], targets: [to], layoutOptions: { 'org.eclipse.elk.edge.thickness': '1' } })),
  };
}

export function draw(cells: Cell[], nets: [string, string][], done: (error: Error | undefined, graph?: ELK.ElkNode) => void): void {
  elk
    .layout(toGraph(cells, nets), { layoutOptions: { 'elk.layered.feedbackEdges': 'true' } })
    .then((graph) => done(undefined, graph))
    .catch((error: Error) => done(error));
}
