'use strict';
// The program as a WebAssembly module, for those who run it by themselves.

const { withMemoryLimit } = require('./memory');
const { Program } = require('./program');
const { replyTo, runText } = require('./text');

module.exports = { Program, replyTo, runText, withMemoryLimit };
