'use strict';
// The module on the thread of its caller, in Node.

const { moduleBytes } = require('./file');
const { Program } = require('./program');

let program;

/** The program, compiled once. */
const programHere = () => (program ??= new Program(new WebAssembly.Module(moduleBytes())));

module.exports = { programHere };
