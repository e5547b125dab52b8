'use strict';
// The files of the package that are made from others: its folder lib/, with the paths that users of elkjs import.

const { packedModule } = require('../src/module/file');
const { withModule } = require('../src/page/module-file');
const { bundle, universal } = require('./bundle');

const moduleText = () => packedModule().toString('base64');

/** The script of a worker, without the module. */
const workerScript = () => universal('ElkWorker', bundle('src/page/elk-worker.js'));

const fileOf = (name, entry, texts) => universal(name, bundle(entry, texts));

/** An entry with its worker and the module in one file. */
const bundled = (name, entry) => fileOf(name, entry, { 'module-text': moduleText(), 'worker-script': workerScript() });

/** The call alone, for pages that serve the worker as a file of its own. */
const api = () => fileOf('ELK', 'src/elk.js', { 'module-text': '', 'worker-script': '' });

// In a page without a bundler the file is a script that leaves the class behind; a bundler passes it on.
const BUNDLED_MODULE = `import * as bundled from './elk.bundled.js';

const ELK = bundled.default ?? globalThis.ELK;

export default ELK;
export { ELK };
export const { Refusal, ProgramError } = ELK;
`;

// What Node does at once, the worker of a page does.
const CALLS = {
  svg: `export const toSvg = (placed, look) => new ELK().toSvg(placed, look);\n`,
  lint: `export const lint = (text, { numbers, layoutOptions } = {}) => new ELK({ numbers }).lint(text, { layoutOptions });\n`,
};

const inPages = (name) => `import ELK from './elk.bundled.mjs';\n\n${CALLS[name]}`;

const NODE = `'use strict';\n\nmodule.exports = require('../src/elk');\n`;

const TYPES = `import ELK = require('../src/elk');\n\nexport = ELK;\n`;

const DIAGRAM_TYPES = TYPES.replaceAll('ELK', 'ElkDiagram').replace('src/elk', 'src/elk-diagram');

/** All files of lib/, by their names. */
function library() {
  const worker = withModule(workerScript(), moduleText()).join('');
  return {
    'main.js': NODE,
    'main.d.ts': TYPES,
    'elk-api.js': api(),
    'elk-api.d.ts': TYPES,
    'elk-worker.js': worker,
    'elk-worker.min.js': worker,
    'elk.bundled.js': bundled('ELK', 'src/elk.js'),
    'elk.bundled.d.ts': TYPES,
    'elk.bundled.mjs': BUNDLED_MODULE,
    'elk-diagram.js': bundled('ElkDiagram', 'src/elk-diagram.js'),
    'elk-diagram.d.ts': DIAGRAM_TYPES,
    'svg.mjs': inPages('svg'),
    'lint.mjs': inPages('lint'),
  };
}

module.exports = { library };
