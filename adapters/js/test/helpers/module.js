'use strict';
// The modules that the tests run: the program's own, if it is there, and one whose calls they choose.

const path = require('node:path');
const { moduleFile } = require('../../src/module/file');

/** Its calls do what test/helpers/puppet.wat says; `wasm-as test/helpers/puppet.wat -o test/helpers/puppet.wasm` makes it. */
const PUPPET_MODULE = path.join(__dirname, 'puppet.wasm');

/** The options of a test that runs the program's module: whether it is skipped, and why. */
const WITH_MODULE = { skip: moduleFile() ? false : 'no module stands: ELK_MODULE names one, or release/ has it' };

module.exports = { PUPPET_MODULE, WITH_MODULE };
