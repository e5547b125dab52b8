'use strict';
// The playground as one file that needs no network: the page, its worker, and the module.

const { createHash } = require('node:crypto');
const { readFileSync } = require('node:fs');
const path = require('node:path');
const { deflateRawSync } = require('node:zlib');
const { packed } = require('../playground/packing');
const { moduleBytes } = require('../src/module/file');
const { bundle, expression } = require('./bundle');
const { withoutCopies } = require('./copies');

const SOURCES = path.join(__dirname, '..', 'playground');
const VENDOR = path.join(SOURCES, 'vendor');
const EXAMPLES = path.join(__dirname, '..', '..', '..', 'examples');

const read = (folder, name) => readFileSync(path.join(folder, name), 'utf8');

/** The examples of the page, in its order. */
function examples() {
  const listed = JSON.parse(read(SOURCES, 'examples.json'));
  return listed.map(({ file, title, isPlaced = false, isOwn = false }) => ({
    id: file.replace(/\.\w+$/, ''),
    title,
    isPlaced,
    text: read(isOwn ? path.join(SOURCES, 'examples') : EXAMPLES, file),
  }));
}

/** A script of the page: a bundle that is run at once. */
const scriptOf = (text) => `\n'use strict';\n${expression(text)};\n`;

/** @param {string} worker the module of the worker, below the package */
function mainScript(worker) {
  return scriptOf(
    bundle('playground/main.js', {
      'editor-style': read(VENDOR, 'codemirror.css'),
      'worker-script': `'use strict';\n${expression(bundle(worker))};\n`,
      'examples-text': JSON.stringify(examples()),
    }),
  );
}

/** The licence of the editor, which can be read in the page. */
const licence = () => `/*\n${read(VENDOR, 'LICENSE')}*/\n`;

/** The script that stands in the page as it is. Within an element nothing may look like its end, or like a comment of HTML. */
const bootScript = () => `\n${licence()}${scriptOf(bundle('playground/boot.js'))}`.replace(/<(?=\/script|!--)/gi, '\\x3c');

/** The policy that lets a browser run these scripts of the page and no other. */
const sourcesOf = (scripts) => scripts.map((script) => `'sha256-${createHash('sha256').update(script).digest('base64')}'`).join(' ');

const deflated = (bytes) => deflateRawSync(bytes, { level: 9 });

// The module stands in pieces of so many bytes, so that a worker unpacks them while the browser reads the page.
const PIECE = 2 ** 17;

/** The elements of the page that hold the module. */
function elementsWith(bytes) {
  const starts = Array.from({ length: Math.ceil(bytes.length / PIECE) }, (_, at) => at * PIECE);
  return starts.map((start) => `<script class="module" type="text/plain">${packed(bytes.subarray(start, start + PIECE))}</script>`).join('\n');
}

let last;

/** The module as the page carries it. Packing takes seconds, so that of the last module is kept. */
function packedModule() {
  const bytes = Buffer.from(moduleBytes());
  if (!last?.bytes.equals(bytes)) {
    last = { bytes, text: elementsWith(deflated(withoutCopies(bytes))) };
  }
  return last.text;
}

/**
 * The text of the page.
 * @param {{ worker?: string }} [given] the module of its worker, below the package
 */
function playground({ worker = 'playground/worker.js' } = {}) {
  const [boot, main] = [bootScript(), mainScript(worker)];
  const holes = {
    STYLE: read(SOURCES, 'style.css').trim(),
    SOURCES: sourcesOf([boot, main]),
    SCRIPT: packed(deflated(main)),
    MODULE: packedModule(),
    BOOT: boot,
  };
  return read(SOURCES, 'page.html').replace(/@(STYLE|SOURCES|SCRIPT|MODULE|BOOT)@/g, (_, name) => holes[name]);
}

module.exports = { examples, playground };
