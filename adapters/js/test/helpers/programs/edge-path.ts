// Routes as paths of SVG, with junctions.
import { ElkEdgeSection, ElkExtendedEdge, ElkPoint } from 'elkjs';

const move = ({ x, y }: ElkPoint) => `M ${x} ${y}`;
const line = ({ x, y }: ElkPoint) => `L ${x} ${y}`;

export const sectionPath = ({ startPoint, bendPoints = [], endPoint }: ElkEdgeSection): string =>
  [move(startPoint), ...bendPoints.map(line), line(endPoint)].join(' ');

export const edgePath = (edge: ElkExtendedEdge): string => edge.sections?.map(sectionPath).join(' ') ?? '';

export function circles(edges: readonly ElkExtendedEdge[]): string[] {
  return edges.flatMap((edge) => edge.junctionPoints ?? []).map(({ x, y }) => `<circle cx="${x}" cy="${y}" r="2"/>`);
}

export const ends = (section: ElkEdgeSection): [string | undefined, string | undefined] => [section.incomingShape, section.outgoingShape];

export const chain = (sections: ElkEdgeSection[]): string[][] => sections.map((it) => [...(it.incomingSections ?? []), it.id, ...(it.outgoingSections ?? [])]);
