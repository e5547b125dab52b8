// A panel of options, from what the engine says of itself.
import ELK, { ElkLayoutAlgorithmDescription, ElkLayoutCategoryDescription, ElkLayoutOptionDescription } from 'elkjs';

export interface Panel {
  algorithms: ElkLayoutAlgorithmDescription[];
  categories: ElkLayoutCategoryDescription[];
  groups: Map<string, ElkLayoutOptionDescription[]>;
}

export async function panel(): Promise<Panel> {
  const elk = new ELK();
  const [algorithms, options, categories] = await Promise.all([
    elk.knownLayoutAlgorithms(),
    elk.knownLayoutOptions(),
    elk.knownLayoutCategories(),
  ]);
  const groups = new Map<string, ElkLayoutOptionDescription[]>();
  for (const option of options) {
    const group = option.group ?? '';
    groups.set(group, [...(groups.get(group) ?? []), option]);
  }
  const used = algorithms.find(({ id }) => id?.endsWith('layered'))?.knownOptions ?? [];
  console.log(used.length, categories.map(({ knownLayouters }) => knownLayouters?.length ?? 0));
  return { algorithms, categories, groups };
}
