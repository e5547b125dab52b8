'use strict';
// Where Node finds the module: the file that ELK_MODULE names, else the package's own, else the repository's. ELK_MEMORY is an
// upper limit of the program's memory, in bytes. Bundles for pages have page/module-file.js instead.

const { existsSync, readFileSync } = require('node:fs');
const path = require('node:path');
const { gunzipSync, gzipSync } = require('node:zlib');
const { ProgramError } = require('../errors');
const { withMemoryLimit } = require('./memory');

const NAME = 'elk-draw.wasm.gz';

const PACKAGE = path.join(__dirname, '..', '..');

const PLACES = [path.join(PACKAGE, NAME), path.join(PACKAGE, '..', '..', 'release', NAME)];

/** The path of the module; undefined if there is none. */
function moduleFile() {
  return process.env.ELK_MODULE || PLACES.find((place) => existsSync(place));
}

const isPacked = (bytes) => bytes[0] === 0x1f && bytes[1] === 0x8b;

function bytesOfFile() {
  const file = moduleFile();
  if (!file) {
    throw new ProgramError(`there is no module: ${PLACES.join(' and ')} don't exist, and ELK_MODULE isn't set`);
  }
  try {
    return readFileSync(file);
  } catch (cause) {
    throw new ProgramError(`the module ${file} can't be read: ${cause.message}`, { cause });
  }
}

/** The module's bytes, with its limit. */
function moduleBytes() {
  const bytes = bytesOfFile();
  const plain = isPacked(bytes) ? gunzipSync(bytes) : bytes;
  const limit = process.env.ELK_MEMORY;
  return limit ? withMemoryLimit(plain, Number(limit)) : plain;
}

/** The module as packages carry it. */
function packedModule() {
  const bytes = bytesOfFile();
  return isPacked(bytes) ? bytes : gzipSync(bytes);
}

module.exports = { moduleBytes, moduleFile, packedModule };
