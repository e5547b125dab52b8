// A run of each program, in Node and in pages: what it does with a small graph.
import type { ElkNode, ElkPoint, LayoutOptions } from 'elkjs';
import * as places from './absolute-places';
import * as dynamic from './dynamic-import';
import { circles, edgePath } from './edge-path';
import { panel } from './known-options';
import { elk as bound } from './langium-factory';
import { render } from './mermaid';
import * as namespace from './namespace-import';
import { draw } from './netlist';
import { gapOf, keys, toOptions, withOptions } from './options-builder';
import { arrange, same } from './own-nodes';
import { old } from './primitive-edges';
import { useLayoutedElements } from './reactflow-elements';
import { positions } from './reactflow-hook';
import { getLayoutedNodes } from './reactflow-ports';
import { ElkService } from './service';
import { applyLayout } from './sprotty-apply';
import { ElkLayoutEngine, SModelElement } from './sprotty-transform';
import { Store } from './state';
import { useLayout } from './vue-ref';

const box = (id: string): ElkNode => ({ id, width: 30, height: 20 });

const pair = (more: Partial<ElkNode> = {}): ElkNode => ({
  id: 'root',
  children: [box('a'), box('b')],
  edges: [{ id: 'e', sources: ['a'], targets: ['b'] }],
  ...more,
});

const xs = (node: ElkNode): (number | undefined)[] => (node.children ?? []).map(({ x }) => x);

const netlist = (): Promise<ElkNode> => {
  const pin = (id: string, x: number, y: number, side: string) => ({ id, x, y, side });
  const gate = (key: string) => ({ key, width: 30, height: 25, pins: [pin('A', 0, 5, 'WEST'), pin('B', 0, 15, 'WEST'), pin('Y', 30, 10, 'EAST')] });
  const wires: [string, string][] = [['and.Y', 'or.A'], ['and.Y', 'not.A'], ['not.Y', 'or.B'], ['or.Y', 'and.B']];
  return new Promise((resolve, reject) => {
    draw([gate('and'), gate('not'), gate('or')], wires, (error, graph) => (graph ? resolve(graph) : reject(error)));
  });
};

const model = (): SModelElement => {
  const size = { width: 40, height: 30 };
  const node = (id: string, ...children: object[]) => ({ type: 'node', id, size, children }) as SModelElement;
  const edge = (id: string, sourceId: string, targetId: string) => ({ type: 'edge', id, sourceId, targetId }) as SModelElement;
  const label = { type: 'label', id: 'l', text: 'a state', size: { width: 30, height: 10 } };
  const port = { type: 'port', id: 'p', size: { width: 5, height: 5 } };
  const group = node('g', node('c'), node('d'), edge('cd', 'c', 'd'));
  return { type: 'graph', id: 'graph', children: [node('s', label, port), group, edge('pg', 'p', 'g')] };
};

const optionsOf = ({ type }: SModelElement): LayoutOptions | undefined =>
  ({ graph: { 'elk.direction': 'DOWN' }, port: { 'elk.port.side': 'SOUTH' }, node: { 'elk.nodeLabels.placement': 'INSIDE V_TOP H_CENTER' } } as Record<string, LayoutOptions>)[type];

export const RUNS: Record<string, () => Promise<unknown>> = {
  async 'absolute-places'() {
    const group = { id: 'g', children: [box('c')] };
    const placed = await dynamic.layout(pair({ children: [box('a'), box('b'), group] }));
    const { x, depth, node } = places.byId(placed).get('c') ?? { x: 0, depth: 0, node: placed };
    return [x === (places.byId(placed).get('g')?.x ?? 0) + (node.x ?? 0), depth, places.allEdges(placed).length];
  },
  'dynamic-import': async () => xs(await dynamic.layout(pair())),
  async 'edge-path'() {
    const { edges = [] } = await dynamic.layout(pair());
    return [edges.map(edgePath), circles(edges)];
  },
  async 'known-options'() {
    const { algorithms, categories, groups } = await panel();
    return [algorithms.length > 0, categories.length > 0, groups.size > 0];
  },
  'langium-factory': async () => xs(await bound.layout(pair())),
  async mermaid() {
    const nodes = ['A', 'B', 'C'].map((id) => ({ id }));
    const ends = [['A', 'B'], ['A', 'C']].map(([start, end]) => ({ id: `${start}${end}`, start, end }));
    const { offsets } = await render({ nodes, edges: ends }, 'layered');
    return offsets.map(({ y }) => y);
  },
  'namespace-import': async () => xs(await namespace.layout(namespace.group('root', [box('a'), box('b')]))),
  async netlist() {
    const { children = [], edges = [] } = await netlist();
    const ports = children.flatMap(({ x = 0, y = 0, ports = [] }) => ports.map((port): [string, ElkPoint] => [port.id, { x: x + (port.x ?? 0), y: y + (port.y ?? 0) }]));
    const at = new Map(ports);
    const meets = edges.every(({ sources, targets, sections: [{ startPoint, endPoint }] = [] as never }) =>
      [[sources[0], startPoint] as const, [targets[0], endPoint] as const].every(([id, { x, y }]) => at.get(id)?.x === x && at.get(id)?.y === y));
    return [meets, edges.flatMap(({ junctionPoints = [] }) => junctionPoints).length];
  },
  async 'options-builder'() {
    const options = toOptions({ direction: 'DOWN', gap: 33, isSplit: false });
    const { children = [] } = await dynamic.layout(withOptions(pair(), options));
    return [gapOf(options), keys({ id: 'x', layoutOptions: options }).length, children[0].x === children[1].x];
  },
  async 'own-nodes'() {
    const task = (id: string) => ({ id, width: 30, height: 20, title: id.toUpperCase() });
    const board = { id: 'board', owner: 'me', children: [task('a'), task('b')], edges: [{ id: 'e', sources: ['a'], targets: ['b'], colour: 'red' }] };
    return [await arrange(board), xs(await same(pair()))];
  },
  'primitive-edges': async () => (await old([box('a'), box('b')], [['a', 'b']])).map(({ id }) => id),
  async 'reactflow-elements'() {
    let [shown, views] = [[] as { id: string; position: ElkPoint }[], 0];
    const node = (id: string) => ({ id, position: { x: 0, y: 0 }, data: { label: id }, measured: { width: 150, height: 40 } });
    const edge = (source: string, target: string) => ({ id: `${source}-${target}`, source, target, type: 'smoothstep', animated: true });
    const flow = {
      getNodes: () => ['1', '2', '3', '4'].map(node),
      getEdges: () => [edge('1', '2'), edge('1', '3'), edge('2', '4'), edge('3', '4')],
      setNodes: (nodes: typeof shown) => { shown = nodes; },
      fitView: () => { views += 1; },
    };
    const { getLayoutedElements } = useLayoutedElements(flow);
    const seen = [];
    for (const direction of ['DOWN', 'RIGHT']) {
      await getLayoutedElements({ 'elk.direction': direction });
      seen.push(shown.map(({ position: { x, y } }) => [x, y]));
    }
    return [seen, views];
  },
  async 'reactflow-hook'() {
    const nodes = ['a', 'b'].map((id) => ({ id, position: { x: 0, y: 0 }, data: { label: id } }));
    return (await positions(nodes, [{ id: 'e', source: 'a', target: 'b' }])).map(({ position, data }) => [position.y, data.label]);
  },
  async 'reactflow-ports'() {
    const handles = (...ids: string[]) => ids.map((id) => ({ id }));
    const node = (id: string) => ({ id, data: { sourceHandles: handles(`${id}-s1`, `${id}-s2`), targetHandles: handles(`${id}-t1`) } });
    const edges = [{ id: 'e', source: 'n1', target: 'n2', sourceHandle: 'n1-s2', targetHandle: 'n2-t1' }];
    return (await getLayoutedNodes([node('n1'), node('n2')], edges)).map(({ position }) => position.x);
  },
  async service() {
    const service = new ElkService({ algorithms: ['layered'] });
    const both = await Promise.all([service.layout(pair()), service.layout(pair())]);
    service.dispose();
    return both.map(xs);
  },
  async sprotty() {
    const placed = await new ElkLayoutEngine(() => bound, optionsOf).layout(model());
    const found: Record<string, unknown> = {};
    applyLayout(placed, (id, { x, y }, points) => {
      found[id] = points ? points.length > 1 : [x, y];
    });
    return found;
  },
  async state() {
    const store = new Store();
    await store.set(pair());
    return store.names();
  },
  async 'vue-ref'() {
    const { placed, isBusy, run } = useLayout({ value: pair() });
    await run();
    return [placed.value && xs(placed.value), isBusy.value];
  },
};
