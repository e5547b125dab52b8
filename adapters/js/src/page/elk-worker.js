'use strict';
// The script of a worker as a file. Outside a worker it exports a stand-in for one, as that of elkjs does.

const { moduleBytes } = require('../module/file');
const { InPlace } = require('./in-place');

if (typeof document === 'undefined' && typeof self !== 'undefined') {
  require('../engines/worker');
}

class Worker extends InPlace {
  constructor() {
    super(moduleBytes);
  }
}

module.exports = { Worker, default: Worker };
