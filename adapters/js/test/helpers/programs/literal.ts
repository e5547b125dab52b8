// The first example that everybody tries.
import ELK from 'elkjs';

const elk = new ELK();

const graph = {
  id: 'root',
  layoutOptions: { 'elk.algorithm': 'layered' },
  children: [
    { id: 'n1', width: 30, height: 30 },
    { id: 'n2', width: 30, height: 30 },
    { id: 'n3', width: 30, height: 30 },
  ],
  edges: [
    { id: 'e1', sources: ['n1'], targets: ['n2'] },
    { id: 'e2', sources: ['n1'], targets: ['n3'] },
  ],
};

elk.layout(graph).then(console.log).catch(console.error);

elk
  .layout(graph, { layoutOptions: { 'elk.direction': 'DOWN' } })
  .then((g) => {
    const first = g.children?.[0];
    return first?.x;
  })
  .then((x: number | undefined) => console.log(x))
  .finally(() => elk.terminateWorker());
