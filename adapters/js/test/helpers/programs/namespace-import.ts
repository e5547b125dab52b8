// All names under one.
import * as Elk from 'elkjs';

export type Graph = Elk.ElkNode;

export const label = (text: string): Elk.ElkLabel => ({ text, width: text.length * 7, height: 14 });

export const group = (id: string, children: Elk.ElkNode[], options: Elk.LayoutOptions = {}): Elk.ElkNode => ({
  id,
  children,
  labels: [label(id)],
  layoutOptions: { 'elk.padding': '[top=40,left=12,bottom=12,right=12]', ...options },
});

export const layout = (graph: Graph, args: Elk.ElkLayoutArguments = {}): Promise<Graph> => new Elk.default().layout(graph, args);
