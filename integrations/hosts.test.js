'use strict';

// Chunks of the small project in `example` are simplified by each bundler. Both outputs, without and with the plugin, have to
// do the same when node runs them. A bundler that isn't installed is skipped. SHAKE is the path of a built `shake`; without it
// its replacement is run.

const assert = require('node:assert/strict');
const fs = require('node:fs');
const path = require('node:path');
const { hosted } = require('./support/bundlers.js');
const { example, fake, host, program, room, runs, writeAll } = require('./support/hosts.js');

const ENTRIES = { main: example('main.mjs'), outside: example('outside.mjs') };
const BUNDLERS = ['rollup', 'vite', 'webpack', 'esbuild'];

// The options of a plugin that adds its report to the list.
const reporting = (reports, more = {}) => ({ program, unit: 'chunk', report: (report) => reports.push(report), ...more });

// The outputs of both builds do the same.
function assertSame(plain, shaken, ending) {
    for (const entry of Object.keys(ENTRIES)) {
        const before = runs(path.join(plain, entry + ending));
        assert.notEqual(before, '');
        assert.equal(runs(path.join(shaken, entry + ending)), before, entry);
    }
}

// One chunk lies outside the core, and its class is where the report says.
function assertReport(reports, folder) {
    assert.equal(reports.length, 1);
    const [{ unit, total, simplified, bytesBefore, bytesAfter, left }] = reports;
    assert.equal(unit, 'chunk');
    assert.equal(left.length, 1);
    assert.equal(simplified, total - 1);
    assert.ok(bytesAfter < bytesBefore);
    const [{ name, reason, line, column }] = left;
    assert.equal(reason, 'out of core: Class');
    const text = fs.readFileSync(path.join(folder, name), 'utf8').split('\n')[line - 1];
    assert.match(text.slice(column), /^class\b/);
}

// One map is left: that of the chunk which was left alone.
function assertMaps(folder) {
    assert.equal(fs.readdirSync(folder).filter((name) => name.endsWith('.map')).length, 1);
    for (const name of fs.readdirSync(folder).filter((file) => /js$/.test(file))) {
        const text = fs.readFileSync(path.join(folder, name), 'utf8');
        assert.equal(/sourceMappingURL/.test(text), fs.existsSync(path.join(folder, `${name}.map`)), name);
    }
}

for (const name of BUNDLERS) {
    hosted(name, 'chunks are simplified and do the same', async (build, t) => {
        const [plain, shaken, reports] = [room(t), room(t), []];
        await build(ENTRIES, plain, {});
        const { ending } = await build(ENTRIES, shaken, { options: reporting(reports), more: name === 'esbuild' ? { absWorkingDir: shaken } : {} });
        assertSame(plain, shaken, ending);
        assertReport(reports, shaken);
    });

    hosted(name, 'source maps of simplified chunks are dropped with a warning', async (build, t) => {
        const [folder, reports, warnings] = [room(t), [], []];
        const more = { rollup: { output: { sourcemap: true } }, webpack: { devtool: 'source-map' } }[name] ?? { sourcemap: true };
        await build(ENTRIES, folder, { options: reporting(reports), more, warnings });
        assert.equal(warnings.filter((text) => /source map of .* is dropped/.test(text)).length, reports[0].simplified);
        assertMaps(folder);
    });

    hosted(name, 'a program that fails is an error, and flags that are lost too', async (build, t) => {
        const failing = (define) => build(ENTRIES, room(t), { options: { program: fake, unit: 'chunk', define } });
        await assert.rejects(failing({ x: '(' }), /define\.x: unexpected end/);
        await assert.rejects(failing({ Box: '1' }), /left as it is: out of core: Class; so nothing replaces Box in it/);
        const warnings = [];
        await build(ENTRIES, room(t), { options: reporting([], { define: { Box: '1' }, left: 'warn' }), warnings });
        assert.equal(warnings.filter((text) => /nothing replaces Box/.test(text)).length, 1);
    });

    hosted(name, 'a build in which no chunk is simplified is a warning', async (build, t) => {
        const warnings = [];
        await build({ outside: ENTRIES.outside }, room(t), { options: { program, unit: 'chunk' }, warnings });
        assert.ok(warnings.includes('zorikham: 0 of 1 chunks simplified'), warnings.join('\n'));
    });
}

hosted('rollup', 'faults have a place', async (build, t) => {
    const syntax = { name: 'syntax', renderChunk: () => 'f();\n @' };
    await assert.rejects(build(ENTRIES, room(t), { options: { program: fake, unit: 'chunk' }, plugins: [syntax] }), (error) => {
        assert.match(error.message, /zorikham: syntax: unexpected "@"/);
        assert.deepEqual([error.loc.line, error.loc.column], [2, 1]);
        return true;
    });
});

hosted('esbuild', 'faults have a place in bytes', async (build, t) => {
    const wrong = build(ENTRIES, room(t), { options: { program: fake, unit: 'chunk' }, more: { banner: { js: "f();\n 'é', '@';" } } });
    await assert.rejects(wrong, (error) => {
        assert.deepEqual([error.errors[0].location.line, error.errors[0].location.column], [2, 8]);
        return true;
    });
});

hosted('esbuild', 'files that are not written come back simplified', async (build, t) => {
    const folder = room(t);
    const { result } = await build(ENTRIES, folder, { options: reporting([]), more: { write: false, metafile: true, sourcemap: true, absWorkingDir: folder } });
    assert.equal(result.outputFiles.length, 3);
    for (const { path: file, contents } of result.outputFiles) {
        assert.equal(result.metafile.outputs[path.relative(folder, file)].bytes, contents.length);
    }
    assert.equal(Object.keys(result.metafile.outputs).length, 3);
});

hosted('esbuild', 'what is minified stays so', async (build, t) => {
    const folder = room(t);
    await build({ main: ENTRIES.main }, folder, { options: reporting([]), more: { minify: true } });
    assert.doesNotMatch(fs.readFileSync(path.join(folder, 'main.mjs'), 'utf8').trim(), /\n| = /);
});

hosted('esbuild', 'stale hashes and a second instance are said', async (build, t) => {
    const warnings = [];
    await build({ main: ENTRIES.main }, room(t), { options: reporting([]), more: { entryNames: '[name]-[hash]' }, warnings });
    assert.equal(warnings.filter((text) => /\[hash\] in names of files is of the text before/.test(text)).length, 1);
    const second = require('./esbuild.js')({ program });
    await assert.rejects(build(ENTRIES, room(t), { options: { program }, plugins: [second] }), /a build has this plugin once; for several passes give a list/);
});

hosted('esbuild', 'the second build of a context says what would be served', async (build, t) => {
    const plugin = require('./esbuild.js')({ program, unit: 'chunk', report: false });
    const context = await host('esbuild').context({ entryPoints: ENTRIES, bundle: true, format: 'esm', outdir: room(t), logLevel: 'silent', plugins: [plugin] });
    const said = [];
    for (let turn = 0; turn < 3; turn++) {
        const { warnings } = await context.rebuild();
        said.push(warnings.filter(({ text }) => text.includes('what is served is the text before it was simplified')).length);
    }
    await context.dispose();
    assert.deepEqual(said, [0, 1, 0]);
});

// What is declared at the top of a chunk that nothing reads, by the form of the output.
const TOP = {
    'top.mjs': "import { write } from './write.mjs';\nfunction unread() { write('unread'); }\nwrite(1 + 2);\n",
    'write.mjs': 'export const write = console.log;\nexport default {};\n',
};
const KEPT = {
    rollup: [
        [{ output: { format: 'es' } }, false], [{ output: { format: 'cjs' } }, false], [{ output: { format: 'iife' } }, false],
        [{ output: { format: 'iife', name: 'lib' } }, true], [{ output: { format: 'umd', name: 'lib' } }, true],
    ],
    esbuild: [
        [{ format: 'esm' }, false], [{ format: 'cjs' }, false], [{ format: 'iife' }, false], [{ format: undefined }, false],
        [{ format: undefined, platform: 'node' }, false], [{ format: 'iife', globalName: 'lib' }, true], [{ format: undefined, globalName: 'lib' }, true],
    ],
    webpack: [
        [{}, false], [{ output: { library: { type: 'commonjs2' } } }, false], [{ output: { library: { name: 'lib', type: 'var' } } }, true],
        [{ output: { library: { name: 'lib', type: 'assign' } } }, true], [{ target: 'web', output: { iife: false } }, true],
    ],
};
// A program that says whether it was asked to keep what is declared at the top.
const asked = [process.execPath, '-e', "process.stdout.write(`globalThis.kept = ${process.argv.includes('--keep-top')};\\n`)"];

for (const [name, rows] of Object.entries(KEPT)) {
    hosted(name, 'what is declared at the top of a chunk is kept where something sees it', async (build, t) => {
        const source = room(t);
        writeAll(source, TOP);
        for (const [more, kept] of rows) {
            const folder = room(t);
            const output = name === 'webpack' ? { output: { path: folder, filename: '[name].cjs', ...more.output } } : {};
            await build({ top: path.join(source, 'top.mjs') }, folder, { options: { program: asked, unit: 'chunk', report: false }, more: { ...more, ...output } });
            const [file] = fs.readdirSync(folder);
            assert.match(fs.readFileSync(path.join(folder, file), 'utf8'), new RegExp(`kept = ${kept}`), JSON.stringify(more));
        }
    });
}
