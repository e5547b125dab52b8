// langium and sprotty: the constructor is bound in a container, workers by a factory.
import ElkConstructor from 'elkjs/lib/elk.bundled.js';
import { ELK, ELKConstructorArguments } from 'elkjs/lib/elk-api';

export type ElkFactory = () => ELK;
export const ElkFactory = Symbol('ElkFactory');

const elkFactory: ElkFactory = () => new ElkConstructor({ algorithms: ['layered'] });

class Container {
  private readonly values = new Map<symbol, unknown>();
  bind<T>(key: symbol, value: T): void {
    this.values.set(key, value);
  }
  get<T>(key: symbol): T {
    return this.values.get(key) as T;
  }
}

const args: ELKConstructorArguments = { algorithms: ['layered', 'stress'], defaultLayoutOptions: { 'elk.direction': 'UP' } };

export const container = new Container();
container.bind<ElkFactory>(ElkFactory, elkFactory);
container.bind<ElkFactory>(Symbol('other'), () => new ElkConstructor(args));
export const elk: ELK = container.get<ElkFactory>(ElkFactory)();
