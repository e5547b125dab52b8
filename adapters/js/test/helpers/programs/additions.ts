// What this engine has besides: other ids, values and edges, refusals, warnings, pictures, and judging of texts.
import ELK, { Fault, ProgramError, Refusal, Warning } from 'elkjs';
import { lint } from 'elkjs/lint';
import { Program, runText } from 'elkjs/module';
import { toSvg } from 'elkjs/svg';

const warnings: Warning[] = [];
const elk = new ELK({ numbers: 'exact', onWarning: (warning) => warnings.push(warning) });

export const native = (): ELK => new ELK({ program: '/usr/bin/elk-draw' });

export async function numbered(): Promise<number> {
  const placed = await elk.layout(
    {
      id: 0,
      layoutOptions: { 'elk.spacing.nodeNode': 30, 'elk.separateConnectedComponents': true },
      children: [{ id: 1, width: 30 }, { id: 2 }],
      edges: [{ id: 3, source: 1, target: 2 }],
    },
    { layoutOptions: { 'elk.spacing.edgeEdge': 5 } },
  );
  const [first] = placed.children;
  const id: number = first.id;
  const x: number | undefined = first.x;
  const route = placed.edges[0].sections?.[0].bendPoints ?? [];
  return id + (x ?? 0) + route.length + placed.width + (placed.layering?.span ?? 0);
}

export async function told(graph: { id: string }): Promise<readonly Fault[]> {
  try {
    const placed = await elk.layout(graph);
    console.log(toSvg(placed, { arrows: false }), await elk.svg(graph, { theme: 'dark' }));
    return [];
  } catch (error) {
    if (error instanceof Refusal) {
      const { rule, name, path, allowed } = error;
      console.log(rule + 1, name.length, path?.length, allowed);
      return error.faults;
    }
    throw error instanceof ProgramError ? new Error(`status ${error.status ?? 0}`) : error;
  }
}

export const lines = (text: string): number[] => lint(text, { numbers: 'exact' }).map(({ line }) => line ?? 0);

export async function pictured(placed: object, text: string): Promise<string[]> {
  const faults = (await elk.lint(text)).filter(({ severity }) => severity === 'fault');
  return [await elk.toSvg(placed, { arrows: false }), ...faults.map(({ message }) => message)];
}

export const demo = (module: object): number => runText(new Program(module), ['demo', '1'], '').status;

// @ts-expect-error: an id is a text or a number
export const wrongId = () => elk.layout({ id: true });
// @ts-expect-error: there are two ways with numbers
export const wrongNumbers = () => new ELK({ numbers: 'round' });
