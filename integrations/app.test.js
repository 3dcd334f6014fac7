'use strict';

// The application in `example/app` has twenty modules, one of them with a class. Each bundler makes less of it with the plugin
// than alone, and both outputs do the same. It needs a built `shake`: SHAKE is its path.

const assert = require('node:assert/strict');
const fs = require('node:fs');
const path = require('node:path');
const { hosted } = require('./support/bundlers.js');
const { example, room, runs } = require('./support/hosts.js');

const ENTRIES = { main: example('app/main.js') };
const missing = process.env.SHAKE === undefined ? 'SHAKE is not set' : false;
const MODULES = 20;
// Builds that the bundler minifies itself.
const MINIFIED = { webpack: { optimization: { minimize: true } }, esbuild: { minify: true } };

for (const name of ['rollup', 'vite', 'webpack', 'esbuild']) {
    hosted(name, 'the application is smaller with the plugin than without', async (build, t) => {
        for (const more of [{}, MINIFIED[name]].filter(Boolean)) {
            const [plain, shaken, reports] = [room(t), room(t), []];
            const options = { program: process.env.SHAKE, pass: ['inline', 'simplify'], report: (report) => reports.push(report) };
            const { ending } = await build(ENTRIES, plain, { more });
            await build(ENTRIES, shaken, { options, more });
            const [before, after] = [plain, shaken].map((folder) => path.join(folder, `main${ending}`));
            assert.equal(runs(after), runs(before));
            const [{ total, simplified, left }] = reports;
            assert.deepEqual([total, simplified, left.length, path.basename(left[0].name)], [MODULES, MODULES - 1, 1, 'store.js']);
            const [bytesBefore, bytesAfter] = [before, after].map((file) => fs.statSync(file).size);
            assert.ok(bytesAfter < bytesBefore, `${bytesAfter} of ${bytesBefore}`);
            t.diagnostic(`${more === MINIFIED[name] ? 'minified' : 'not minified'}: ${bytesBefore} bytes alone, ${bytesAfter} with the plugin`);
        }
    }, missing);
}
