// Vue and Svelte: a reactive graph, frozen where it is shown.
import ELK from 'elkjs/lib/elk.bundled';
import type { ElkNode } from 'elkjs/lib/elk-api';

interface Ref<T> { value: T }
const ref = <T>(value: T): Ref<T> => ({ value });

export function useLayout(source: Ref<ElkNode>) {
  const placed = ref<ElkNode | undefined>(undefined);
  const isBusy = ref(false);
  const elk = new ELK();
  const run = async () => {
    isBusy.value = true;
    placed.value = Object.freeze(await elk.layout(structuredClone(source.value)));
    isBusy.value = false;
  };
  return { placed, isBusy, run };
}
