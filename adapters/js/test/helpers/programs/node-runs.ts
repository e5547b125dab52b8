// Runs of the programs for Node alone: what they use is not in pages, is there by promises, or is served as a file.
import ElkDiagram from 'elkjs/elk-diagram';
import * as additions from './additions';
import { layoutOff } from './worker-factory';
import './diagram';
import './literal';

export const NODE_RUNS: Record<string, () => Promise<unknown>> = {
  async additions() {
    const refused = await additions.told({ id: 'r', children: [{ id: 'r' }] } as { id: string });
    const [picture, fault] = await additions.pictured({ id: 'r', width: 9, height: 9 }, '{"id":"r","children":[{"id":"r"}]}');
    return [await additions.numbered(), refused.map(({ name }) => name), additions.lines('{\n"id":"r","id":"r"}').length, picture.slice(0, 4), fault.length > 0];
  },
  diagram: async () => [typeof ElkDiagram, ElkDiagram.elk !== undefined],
  'worker-factory': async () => (await layoutOff({ id: 'r' }, 100))?.width,
};
