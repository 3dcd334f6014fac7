'use strict';

// The loader that the plugin of webpack adds behind all others: runs `shake` on one module.

const { nameOf } = require('./modules.js');
const { Shaker, ShakeError, noteOf } = require('./shake.js');

// The key of what is noted of a module; webpack keeps it with the module in its caches.
const NOTE = 'zorikham';
// Maps nothing.
const NO_MAP = { version: 3, sources: [], names: [], mappings: '' };

const shakers = new Map();

// The shaker of some options. The loader gets a copy of them for each module.
function shakerOf(options) {
    const key = JSON.stringify(options);
    if (!shakers.has(key)) shakers.set(key, new Shaker(options));
    return shakers.get(key);
}

// A fault as webpack shows it: without the stack of this code.
function shown(name, fault) {
    const place = fault.line === undefined ? '' : ` (${name}:${fault.line}:${fault.column + 1})`;
    const error = new Error(`${fault.message}${place}`);
    error.stack = '';
    return error;
}

// Simplifies the module of a loader: `{ text, map }`.
async function simplifyModule(loader, text, map) {
    const { type, buildInfo } = loader._module;
    if (!type.startsWith('javascript/')) return { text, map };
    const { options, tracked } = loader.getOptions();
    const name = nameOf(loader.resource, loader.rootContext);
    const shaker = shakerOf(options);
    // What webpack takes for a CommonJS module by its type isn't one of the others by its words.
    const result = type === 'javascript/dynamic' ? shaker.leave(name, text, 'no ES module') : await shaker.module(name, text, { module: type === 'javascript/esm' });
    if (result.warning !== undefined) loader.emitWarning(shown(name, result.warning));
    buildInfo[NOTE] = noteOf(text, result, options);
    return result.code === undefined ? { text, map } : { text: result.code, map: tracked ? NO_MAP : undefined };
}

module.exports = function load(source, map) {
    const done = this.async();
    const fail = (fault) => done(fault instanceof ShakeError ? shown(nameOf(this.resource, this.rootContext), fault) : fault);
    simplifyModule(this, source, map).then((answer) => done(null, answer.text, answer.map), fail);
};

module.exports.NOTE = NOTE;
