'use strict';
// The script of a worker, in Node and in pages.

const { moduleBytes } = require('../module/file');
const { Server } = require('./server');

const server = new Server(moduleBytes);

self.onmessage = async ({ data }) => self.postMessage(await server.answer(data));
