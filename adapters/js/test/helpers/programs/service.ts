// A service with a queue, as Angular and Nest have them.
import ELK, { ELK as ElkEngine, ElkNode, ELKConstructorArguments } from 'elkjs';

export abstract class LayoutService {
  abstract layout(graph: ElkNode): Promise<ElkNode>;
}

export class ElkService extends LayoutService {
  private queue: Promise<unknown> = Promise.resolve();
  private readonly engine: ElkEngine;

  constructor(args: ELKConstructorArguments = {}, make: (args: ELKConstructorArguments) => ElkEngine = (it) => new ELK(it)) {
    super();
    this.engine = make(args);
  }

  override layout(graph: ElkNode): Promise<ElkNode> {
    const next = this.queue.then(() => this.engine.layout(graph));
    this.queue = next.catch(() => undefined);
    return next;
  }

  dispose(): void {
    this.engine.terminateWorker();
  }
}
