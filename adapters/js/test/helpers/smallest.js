'use strict';
// The smallest document that shows a fault: parts of one are left out as long as the fault is found without them.

const LISTS = ['children', 'edges', 'ports', 'labels', 'sources', 'targets'];
const isObject = (value) => typeof value === 'object' && value !== null;

/** All parts of an element in lists, each with its list and its place there. */
function* partsOf(element) {
  for (const name of LISTS) {
    for (const [at, part] of (Array.isArray(element[name]) ? element[name] : []).entries()) {
      yield { list: element[name], at, part };
      yield* isObject(part) ? partsOf(part) : [];
    }
  }
}

/** All elements of a document. */
const elementsOf = (root) => [root, ...[...partsOf(root)].map(({ part }) => part).filter(isObject)];

const endsOf = ({ sources = [], targets = [], source, target, sourcePort, targetPort }) =>
  [...sources, ...targets, source, target, sourcePort, targetPort].filter((id) => id !== undefined);

/** Leaves out edges whose ends are gone, and lists that are empty. */
function tidy(root) {
  const all = elementsOf(root);
  const ids = new Set(all.map(({ id }) => id));
  const isWhole = (edge) => edge.sources?.length !== 0 && edge.targets?.length !== 0 && endsOf(edge).every((id) => ids.has(id));
  for (const element of all) {
    if (element.edges) {
      element.edges = element.edges.filter(isWhole);
    }
    LISTS.filter((name) => element !== root && element[name]?.length === 0).forEach((name) => delete element[name]);
  }
  return root;
}

// Each removes a part of a copy by its number, and returns whether there was such a part.
const CUTS = [
  (root, number) => {
    const found = [...partsOf(root)][number];
    found?.list.splice(found.at, 1);
    tidy(root);
    return found !== undefined;
  },
  (root, number) => {
    const all = elementsOf(root).flatMap(({ layoutOptions = {} }) => Object.keys(layoutOptions).map((name) => [layoutOptions, name]));
    const [options, name] = all[number] ?? [];
    delete options?.[name];
    return options !== undefined;
  },
  (root, number) => {
    const names = ['x', 'y', 'sections', 'junctionPoints', 'container', 'text', 'layoutOptions'];
    const isThere = (element, name) => name in element && (name !== 'layoutOptions' || Object.keys(element[name]).length === 0);
    const all = elementsOf(root).flatMap((element) => names.filter((name) => isThere(element, name)).map((name) => [element, name]));
    const [element, name] = all[number] ?? [];
    delete element?.[name];
    return element !== undefined;
  },
  (root, number) => {
    const all = elementsOf(root).flatMap((element) => ['width', 'height', 'x', 'y'].filter((name) => element[name] % 20 !== 0 && element[name]).map((name) => [element, name]));
    const [element, name] = all[number] ?? [];
    Object.assign(element ?? {}, { [name]: Math.round(element?.[name] / 20) * 20 });
    return element !== undefined;
  },
];

/**
 * @param {object} graph stays as it is
 * @param {(graph: object) => Promise<boolean>} isFaulty
 * @returns {Promise<object>}
 */
async function smallest(graph, isFaulty) {
  let best = graph;
  for (let isFound = true; isFound; ) {
    isFound = false;
    for (const cut of CUTS) {
      for (let number = 0; ; ) {
        const less = structuredClone(best);
        if (!cut(less, number)) {
          break;
        }
        if (await isFaulty(less)) {
          [best, isFound] = [less, true];
        } else {
          number += 1;
        }
      }
    }
  }
  return best;
}

module.exports = { smallest };
