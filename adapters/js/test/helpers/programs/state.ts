// A store that keeps the last result, by the types that the call itself has.
import ELK from 'elkjs';
import type { ELK as Engine } from 'elkjs';

type Graph = Parameters<Engine['layout']>[0];
type Arguments = Parameters<Engine['layout']>[1];
type Layout = Awaited<ReturnType<Engine['layout']>>;

interface State {
  layout: Layout | null;
  error: string | null;
}

export class Store {
  private readonly engine: InstanceType<typeof ELK> = new ELK();
  private state: State = { layout: null, error: null };
  private readonly listeners = new Set<(state: State) => void>();

  async set(graph: Graph, given?: Arguments): Promise<void> {
    try {
      this.state = { layout: await this.engine.layout(graph, given), error: null };
    } catch (error) {
      this.state = { layout: null, error: error instanceof Error ? error.message : String(error) };
    }
    this.listeners.forEach((listener) => listener(this.state));
  }

  names(): string[] {
    return this.state.layout?.children?.map((child) => child.id) ?? [];
  }
}
