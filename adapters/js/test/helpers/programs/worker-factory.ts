// A page with a bundler that starts the worker itself.
import ELK, { ElkNode } from 'elkjs/lib/elk-api';

const byUrl = new ELK({ workerUrl: './elk-worker.min.js' });
const byFactory = new ELK({ workerFactory: () => new Worker('elk-worker.js') });
const byFactoryOfUrl = new ELK({
  workerUrl: '/static/elk-worker.js',
  workerFactory: function (url?: string): Worker {
    return new Worker(url ?? '/elk-worker.js', { type: 'classic', name: 'elk' });
  },
});

export async function layoutOff(graph: ElkNode, seconds: number): Promise<ElkNode | undefined> {
  const timer = setTimeout(() => byFactory.terminateWorker(), seconds * 1000);
  try {
    return await byFactory.layout(graph);
  } catch {
    return undefined;
  } finally {
    clearTimeout(timer);
  }
}

export const engines = [byUrl, byFactory, byFactoryOfUrl];
