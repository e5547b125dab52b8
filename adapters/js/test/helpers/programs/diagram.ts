// The element that draws a graph, by script and by events.
import ElkDiagram, { ElkDiagram as Named } from 'elkjs/elk-diagram';
import ELK from 'elkjs';

ElkDiagram.elk = new ELK({ workerUrl: '/elk-worker.js' });

export function shown(parent: HTMLElement, graph: { id: string; children: { id: string }[] }): Promise<object> {
  const diagram = document.createElement('elk-diagram');
  diagram.graph = graph;
  diagram.layoutOptions = { 'elk.direction': 'DOWN', 'elk.spacing.nodeNode': 30 };
  diagram.theme = 'dark';
  diagram.arrows = false;
  parent.append(diagram);
  return new Promise((resolve, reject) => {
    diagram.addEventListener('elk-placed', ({ detail }) => resolve(detail));
    diagram.addEventListener('elk-error', ({ detail }) => reject(new Error(detail.message)));
  });
}

export const isDiagram = (element: Element): element is Named => element instanceof Named;
