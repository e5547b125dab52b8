// An older program, with edges of the primitive form.
import ELK, { ElkEdge, ElkNode, ElkPrimitiveEdge } from 'elkjs';

const edge = (id: string, source: string, target: string, sourcePort?: string): ElkPrimitiveEdge => ({ id, source, target, sourcePort });

export async function old(children: ElkNode[], links: [string, string][]): Promise<ElkEdge[]> {
  const edges: ElkPrimitiveEdge[] = links.map(([from, to], at) => edge(`l${at}`, from, to));
  const graph = { id: 'old', children, edges: edges as unknown as ElkNode['edges'] };
  const placed = await new ELK().layout(graph);
  return placed.edges ?? [];
}
