'use strict';
// Bundles for pages, by Debian's esbuild.

const { spawnSync } = require('node:child_process');
const { mkdtempSync, rmSync, writeFileSync } = require('node:fs');
const { tmpdir } = require('node:os');
const path = require('node:path');

const TOP = path.join(__dirname, '..');

const ESBUILD = process.env.ELK_ESBUILD ?? 'esbuild';

// Names of files would make bundles depend on the folder in which they are made, so identifiers are shortened as well.
const WORDS = ['--bundle', '--minify', '--format=cjs', '--platform=browser', '--target=es2022', '--charset=ascii', '--loader:.txt=text', '--log-level=error'];

/** What esbuild writes to stdout. */
function esbuild(words) {
  const { status, stdout, stderr, error } = spawnSync(ESBUILD, words, { cwd: TOP, encoding: 'utf8', maxBuffer: 2 ** 26 });
  if (status !== 0) {
    throw new Error(`esbuild failed: ${error?.message ?? stderr}`);
  }
  return stdout;
}

/** The version of esbuild; undefined if it isn't installed. */
function version() {
  const { status, stdout } = spawnSync(ESBUILD, ['--version'], { encoding: 'utf8' });
  return status === 0 ? stdout.trim() : undefined;
}

/**
 * A module and everything that it requires, as the text of a CommonJS module. The field `browser` of package.json names the
 * modules that pages have instead of Node's.
 * @param {string} entry its path below the package
 * @param {Record<string, string>} [texts] modules whose value is a text, by the names by which they are required
 */
function bundle(entry, texts = {}) {
  const room = mkdtempSync(path.join(tmpdir(), 'elk-bundle-'));
  try {
    const aliases = Object.entries(texts).map(([name, text]) => {
      const file = path.join(room, `${name}.txt`);
      writeFileSync(file, text);
      return `--alias:${name}=${file}`;
    });
    return esbuild([path.join(TOP, entry), ...WORDS, ...aliases]);
  } finally {
    rmSync(room, { recursive: true });
  }
}

/** A module with its bundle as one expression, whose value is what the module exports. */
const expression = (text) => `(() => {\nconst module = { exports: {} };\n${text}return module.exports;\n})()`;

/** A file for <script> tags, for `require` and for `define`, as elkjs has them. Another version of esbuild may make another file. */
function universal(name, text) {
  return `// Made by esbuild ${version()} from the sources of elk-layout.
(function (make) {
  if (typeof exports === 'object' && typeof module !== 'undefined') {
    module.exports = make();
  } else if (typeof define === 'function' && define.amd) {
    define([], make);
  } else {
    globalThis.${name} = make();
  }
})(() => ${expression(text)});
`;
}

module.exports = { bundle, expression, universal, version };
