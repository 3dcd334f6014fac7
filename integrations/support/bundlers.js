'use strict';

// Builds by each bundler: `build(entries, folder, { options, more, plugins, warnings })` writes a file for each entry to the
// folder, with the plugin if there are options for it. Texts of warnings are added to the list. The same for all, so that a
// test can go through those that are installed.

const path = require('node:path');
const test = require('node:test');
const { host } = require('./hosts.js');

const ROOT = path.join(__dirname, '..');

async function rollup(entries, dir, { options, more = {}, plugins = [], warnings = [] }) {
    const plugin = require('../rollup.js');
    const { output, ...input } = more;
    const bundle = await host('rollup').rollup({ input: entries, onwarn: ({ message }) => warnings.push(message), ...input,
        plugins: [...plugins, ...(options === undefined ? [] : [plugin(options)])] });
    await bundle.write({ dir, entryFileNames: '[name].mjs', chunkFileNames: '[name]-[hash].mjs', ...output });
    await bundle.close();
    return { ending: '.mjs' };
}

async function vite(entries, outDir, { options, more = {}, plugins = [], warnings = [] }) {
    const plugin = require('../rollup.js');
    const output = { entryFileNames: '[name].mjs', chunkFileNames: '[name]-[hash].mjs' };
    const rollupOptions = { input: entries, output, preserveEntrySignatures: 'strict', onwarn: ({ message }) => warnings.push(message) };
    await host('vite').build({ configFile: false, logLevel: 'silent', root: path.dirname(Object.values(entries)[0]),
        plugins: [...plugins, ...(options === undefined ? [] : [plugin(options)])],
        build: { outDir, emptyOutDir: true, minify: false, modulePreload: false, rollupOptions, ...more } });
    return { ending: '.mjs' };
}

function webpack(entry, folder, { options, more = {}, plugins = [], warnings = [] }) {
    const Plugin = require('../webpack.js');
    const all = [...plugins, ...(options === undefined ? [] : [new Plugin(options)])];
    const config = { mode: 'production', target: 'node', context: ROOT, entry, optimization: { minimize: false }, devtool: false, plugins: all,
        output: { path: folder, filename: '[name].cjs' }, infrastructureLogging: { level: 'none' }, ...more };
    return new Promise((resolve, reject) => {
        host('webpack')(config, (error, stats) => {
            if (error !== null) return reject(error);
            warnings.push(...stats.compilation.warnings.map(({ message }) => message));
            const [fault] = stats.compilation.errors;
            return fault === undefined ? resolve({ ending: '.cjs', stats }) : reject(fault);
        });
    });
}

async function esbuild(entries, outdir, { options, more = {}, plugins = [], warnings = [] }) {
    const plugin = require('../esbuild.js');
    const result = await host('esbuild').build({ entryPoints: entries, bundle: true, format: 'esm', outdir, outExtension: { '.js': '.mjs' }, logLevel: 'silent',
        plugins: [...plugins, ...(options === undefined ? [] : [plugin(options)])], ...more });
    warnings.push(...result.warnings.map(({ text }) => text));
    return { ending: '.mjs', result };
}

const bundlers = { rollup, vite, webpack, esbuild };

/** Adds the test of a bundler, `body(build, t)`. It is skipped where the bundler isn't installed. */
function hosted(name, title, body, also = false) {
    const skip = also || (host(name) === null ? `${name} is not installed` : false);
    test(`${name}: ${title}`, { skip }, (t) => body(bundlers[name], t));
}

module.exports = { hosted };
