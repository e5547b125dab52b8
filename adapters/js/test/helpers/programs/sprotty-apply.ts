// sprotty-elk: a result is written back, edges of both forms.
import { ElkEdge, ElkExtendedEdge, ElkLabel, ElkNode, ElkPoint, ElkPort, ElkPrimitiveEdge, ElkShape } from 'elkjs/lib/elk-api';

const isPrimitive = (edge: ElkEdge): edge is ElkPrimitiveEdge => typeof (edge as ElkPrimitiveEdge).source === 'string';
const isPlaced = (edge: ElkEdge): edge is ElkExtendedEdge => Array.isArray((edge as ElkExtendedEdge).sections);

export function pointsOf(elkEdge: ElkEdge): ElkPoint[] {
  const points: ElkPoint[] = [];
  if (isPlaced(elkEdge)) {
    for (const section of elkEdge.sections ?? []) {
      points.push(section.startPoint, ...(section.bendPoints ?? []), section.endPoint);
    }
  } else if (isPrimitive(elkEdge)) {
    if (elkEdge.sourcePoint) points.push(elkEdge.sourcePoint);
    if (elkEdge.bendPoints) points.push(...elkEdge.bendPoints);
    if (elkEdge.targetPoint) points.push(elkEdge.targetPoint);
  }
  return points;
}

export function applyLayout(elkNode: ElkNode, apply: (id: string, shape: ElkShape, points?: ElkPoint[]) => void): void {
  apply(elkNode.id, elkNode);
  elkNode.ports?.forEach((port: ElkPort) => apply(port.id, port));
  elkNode.labels?.forEach((label: ElkLabel) => label.id && apply(label.id, label));
  elkNode.children?.forEach((child) => applyLayout(child, apply));
  elkNode.edges?.forEach((edge) => {
    apply(edge.id, {}, pointsOf(edge));
    edge.labels?.forEach((label) => label.id !== undefined && apply(label.id, label));
  });
}
