// The engine is loaded where it is first needed.
import type { ELK, ElkNode } from 'elkjs';

let loading: Promise<ELK> | undefined;

const engine = (): Promise<ELK> => {
  loading ??= import('elkjs').then(({ default: Constructor }) => new Constructor());
  return loading;
};

export const layout = async (graph: ElkNode): Promise<ElkNode> => (await engine()).layout(graph);
