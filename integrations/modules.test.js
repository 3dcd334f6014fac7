'use strict';

// Modules are simplified by each bundler before it bundles them. A bundler that isn't installed is skipped. SHAKE is the path
// of a built `shake`; without it its replacement is run.

const assert = require('node:assert/strict');
const { spawnSync } = require('node:child_process');
const fs = require('node:fs');
const path = require('node:path');
const test = require('node:test');
const { hosted } = require('./support/bundlers.js');
const { fake, host, program, room, runs, writeAll } = require('./support/hosts.js');

const BUNDLERS = ['rollup', 'vite', 'webpack', 'esbuild'];
// Lines as a text.
const text = (...lines) => lines.map((line) => `${line}\n`).join('');

const PROJECT = {
    'main.js': text(
        "import { count, label } from './values.js';",
        "import { Box } from './box.js';",
        "import './effect.js';",
        '/*! main licence */',
        "if (0) console.log('never');",
        'console.log(label, count, new Box().count, 1 + 2);',
    ),
    'values.js': text('export const count = 1 + 2;', "export const label = 'values';", 'export function unread() { return label; }'),
    'box.js': text('export class Box { count = 1 + 2; }'),
    'effect.js': text("import './other.js';", "if (0) console.log('no effect');", "console.log('effect', 1 + 2);"),
    'other.js': text("console.log('other');", 'export {};'),
};

// A project in a folder of its own, and a build of it that adds its report to a list.
function project(t, files = PROJECT) {
    const source = room(t);
    // A package of its own, whatever is in the folders above.
    writeAll(source, { 'package.json': '{}', ...files });
    const reports = [];
    const options = (more = {}) => ({ program, report: (report) => reports.push(report), ...more });
    return { source, reports, options, entries: { main: path.join(source, 'main.js') }, file: (name) => path.join(source, name) };
}

const output = (folder, ending, name = 'main') => fs.readFileSync(path.join(folder, name + ending), 'utf8');

for (const name of BUNDLERS) {
    hosted(name, 'modules are simplified, and one outside the core is left', async (build, t) => {
        const { entries, reports, options } = project(t);
        const [plain, shaken] = [room(t), room(t)];
        await build(entries, plain, {});
        const { ending } = await build(entries, shaken, { options: options() });
        assert.equal(runs(path.join(shaken, `main${ending}`)), runs(path.join(plain, `main${ending}`)));
        const [{ unit, total, simplified, bytesBefore, bytesAfter, left }] = reports;
        assert.deepEqual([reports.length, unit, total, simplified], [1, 'module', 5, 4]);
        assert.ok(bytesAfter < bytesBefore);
        assert.deepEqual([left.length, path.basename(left[0].name), left[0].reason, left[0].line, left[0].column], [1, 'box.js', 'out of core: Class', 1, 7]);
        const code = output(shaken, ending);
        assert.match(code, /main licence/);
        assert.match(code, /Box\(\)\.count, 3\)/);
        assert.doesNotMatch(code, /never|no effect/);
    });

    hosted(name, 'exports stay, for modules that read them', async (build, t) => {
        const { entries, options } = project(t, {
            'main.js': text("import { a } from './a.js';", "import * as all from './b.js';", 'console.log(a(1 + 2), Object.keys(all).sort().join());'),
            'a.js': text('export function a(x) { return x; }', 'export let b = 1 + 2;'),
            'b.js': text('export const b = 1 + 2;', 'let c = 4;', 'export { c as d };', 'export default 1 + 2;', 'function e() {}'),
        });
        const folder = room(t);
        const { ending } = await build(entries, folder, { options: options() });
        assert.equal(runs(path.join(folder, `main${ending}`)), '3 b,d,default\n');
    });

    hosted(name, 'source maps have the modules that are left', async (build, t) => {
        const { entries, options } = project(t);
        const [folder, warnings] = [room(t), []];
        const more = { rollup: { output: { sourcemap: true } }, webpack: { devtool: 'source-map' } }[name] ?? { sourcemap: true };
        const { ending } = await build(entries, folder, { options: options(), more, warnings });
        assert.equal(warnings.filter((text) => text === 'zorikham: 4 simplified modules have no source map, since the program makes none').length, 1);
        const { sources } = JSON.parse(output(folder, `${ending}.map`));
        const own = sources.map((source) => path.basename(source)).filter((source) => Object.hasOwn(PROJECT, source));
        assert.deepEqual(own, ['box.js']);
    });

    hosted(name, 'flags that are lost are an error, or a warning', async (build, t) => {
        const files = { ...PROJECT, 'box.js': 'export class Box { count = DEBUG ? 1 : 2; }\n' };
        const { entries, options } = project(t, files);
        const lost = /box\.js:1:8: left as it is: out of core: Class; so nothing replaces DEBUG in it/;
        await assert.rejects(build(entries, room(t), { options: options({ define: { DEBUG: 'false' } }) }), lost);
        const warnings = [];
        await build(entries, room(t), { options: options({ define: { DEBUG: 'false' }, left: 'warn' }), warnings });
        assert.equal(warnings.filter((text) => /nothing replaces DEBUG/.test(text)).length, 1);
        await build(entries, room(t), { options: options({ define: { OTHER: 'false' } }) });
    });

    hosted(name, 'a build in which no module is simplified is a warning', async (build, t) => {
        const { entries, options } = project(t, { 'main.js': 'class A {}\nconsole.log(new A());\nexport {};\n' });
        const warnings = [];
        await build(entries, room(t), { options: { ...options(), report: undefined }, warnings });
        assert.ok(warnings.includes('zorikham: 0 of 1 modules simplified'), warnings.join('\n'));
    });

    hosted(name, 'a program that fails is an error', async (build, t) => {
        const { entries } = project(t, { 'main.js': 'export {};\nconsole.log("MEMORY");\n' });
        await assert.rejects(build(entries, room(t), { options: { program: fake } }), /zorikham: out of memory/);
        const missing = build(entries, room(t), { options: { program: '/nowhere/shake' } });
        await assert.rejects(missing, /the program isn't found: the option program is \/nowhere\/shake/);
    });

    hosted(name, 'a page about the modules, and one about the chunks', async (build, t) => {
        const { entries, options } = project(t);
        const folder = room(t);
        await build(entries, room(t), { options: options({ unit: ['module', 'chunk'], report: path.join(folder, 'page.html') }) });
        assert.deepEqual(fs.readdirSync(folder).sort(), ['page.chunks.html', 'page.html']);
        const page = fs.readFileSync(path.join(folder, 'page.html'), 'utf8');
        for (const file of Object.keys(PROJECT)) assert.ok(page.includes(file), file);
        assert.match(page, /out of core: Class/);
    });

    hosted(name, 'modules and then chunks', async (build, t) => {
        const { entries, options, reports } = project(t, { 'main.js': "import { a } from './a.js';\nconsole.log(a, 1 + 2);\n", 'a.js': 'export const a = 1 + 2;\n' });
        const folder = room(t);
        const { ending } = await build(entries, folder, { options: options({ unit: ['module', 'chunk'] }) });
        assert.equal(runs(path.join(folder, `main${ending}`)), '3 3\n');
        assert.deepEqual(reports.map(({ unit, total, simplified }) => [unit, total, simplified]), [['module', 2, 2], ['chunk', 1, 1]]);
    });
}

for (const name of ['webpack', 'esbuild']) {
    hosted(name, 'what is no ES module stays as it is', async (build, t) => {
        const { entries, options, reports } = project(t, {
            'main.js': text("import common from './common.js';", "import data from './data.json';", 'console.log(common.a, data.b, 1 + 2);'),
            'common.js': text('if (0) console.log(this);', 'module.exports = { a: 1 + 2 };'),
            'data.json': '{ "b": 2 }',
        });
        const folder = room(t);
        const { ending } = await build(entries, folder, { options: options() });
        assert.equal(runs(path.join(folder, `main${ending}`)), '3 2 3\n');
        assert.deepEqual(reports[0].left.map(({ name: file, reason }) => [path.basename(file), reason]), [['common.js', 'no ES module']]);
        assert.equal(reports[0].total, 2);
        const lost = build(entries, room(t), { options: options({ define: { module: '1' } }) });
        await assert.rejects(lost, /common\.js: left as it is: no ES module; so nothing replaces module in it/);
    });

    hosted(name, 'a package of ES modules says that its files are', async (build, t) => {
        const { entries, options, reports } = project(t, { 'package.json': '{ "type": "module" }', 'main.js': 'console.log(1 + 2);\n' });
        await build(entries, room(t), { options: options() });
        assert.deepEqual([reports[0].total, reports[0].simplified], [1, 1]);
    });
}

const TYPED = {
    'main.ts': text("import { type A, a } from './a';", 'const count: number = 1 + 2;', 'console.log(a(count) as number);'),
    'a.ts': text('export interface A { b: number }', 'export function a(x: number): number { return x * (1 + 2); }'),
    'tsconfig.json': '{}',
};

hosted('esbuild', 'TypeScript and JSX are made JavaScript first', async (build, t) => {
    const { options, reports, file } = project(t, { ...TYPED, 'page.jsx': 'export const page = () => <div>{1 + 2}</div>;\n' });
    const folder = room(t);
    await build({ main: file('main.ts'), page: file('page.jsx') }, folder, { options: options(), more: { jsxFactory: 'h' } });
    assert.equal(runs(path.join(folder, 'main.mjs')), '9\n');
    assert.match(output(folder, '.mjs', 'page'), /h\("div", null, 3\)/);
    assert.deepEqual([reports[0].total, reports[0].simplified], [3, 3]);
    // For browsers esbuild replaces process.env.NODE_ENV by itself, but behind the plugin.
    fs.writeFileSync(file('main.ts'), "import './a';\nclass A {}\nconsole.log(process.env.NODE_ENV as string);\n");
    const flags = { env: { NODE_ENV: 'production' } };
    await assert.rejects(build({ main: file('main.ts') }, room(t), { options: options(flags) }), /so nothing replaces process\.env\.NODE_ENV in it/);
    fs.writeFileSync(file('main.ts'), 'const a: = 1;\n');
    await assert.rejects(build({ main: file('main.ts') }, room(t), { options: options() }), (error) => {
        assert.equal(error.errors.length, 1);
        assert.match(error.errors[0].text, /Unexpected "="/);
        return true;
    });
});

hosted('esbuild', 'what another plugin loads is not simplified, and flags are lost there', async (build, t) => {
    const { entries, options } = project(t, { 'main.js': "import { z } from 'made:z.js';\nconsole.log(z);\n" });
    const made = { name: 'made', setup(host) {
        host.onResolve({ filter: /^made:/ }, ({ path: name }) => ({ path: name, namespace: 'made' }));
        host.onLoad({ filter: /./, namespace: 'made' }, () => ({ contents: 'export const z = 1;' }));
    } };
    await build(entries, room(t), { options: options(), plugins: [made] });
    const flags = { define: { DEBUG: '1' } };
    const lost = build(entries, room(t), { options: options(flags), plugins: [made] });
    await assert.rejects(lost, /z\.js: left as it is: another plugin loaded it, or it is no file; so nothing replaces DEBUG/);
    const warnings = [];
    const { result } = await build(entries, room(t), { options: options({ ...flags, left: 'warn' }), plugins: [made], warnings });
    assert.equal(warnings.length, 1);
    assert.equal(result.metafile, undefined);
});

hosted('esbuild', 'warnings are written, since esbuild shows none of the end of a build', async (build, t) => {
    const { source, options } = project(t, { 'main.js': 'class A {}\nexport {};\n' });
    const [hosts, plugin] = ['./support/hosts.js', './esbuild.js'].map((name) => JSON.stringify(require.resolve(name)));
    const script = `require(${hosts}); require('esbuild').build({ entryPoints: ['main.js'], outdir: 'out',
        plugins: [require(${plugin})(${JSON.stringify(options())})] })`;
    const { stderr } = spawnSync(process.execPath, ['-e', script], { cwd: source, encoding: 'utf8' });
    assert.match(stderr, /WARNING.*zorikham: 0 of 1 modules simplified/);
    assert.match(stderr, /zorikham: main\.js:1:1: left as it is: out of core: Class/);
});

hosted('esbuild', 'an import whose names are dropped is no warning', async (build, t) => {
    const { entries, options } = project(t, {
        'main.js': text("import { a } from './lib/a.js';", 'if (0) console.log(a);', 'console.log(1 + 2);'),
        'lib/package.json': '{ "sideEffects": false }',
        'lib/a.js': text("console.log('effect');", 'export const a = 1;'),
    });
    // What the program makes of it.
    const script = "const text = require('fs').readFileSync(0, 'utf8'); console.log(text.replace('{ a } from ', '').replace('if (0) console.log(a);', ''))";
    const bare = [process.execPath, '-e', script];
    const [folder, warnings] = [room(t), []];
    await build(entries, folder, { options: options({ program: bare }), warnings });
    assert.deepEqual(warnings, []);
    assert.equal(runs(path.join(folder, 'main.mjs')), '3\n');
});

hosted('esbuild', 'a build again simplifies what changed', async (_, t) => {
    const { entries, options, reports, file } = project(t);
    const plugin = require('./esbuild.js')(options());
    const context = await host('esbuild').context({ entryPoints: entries, bundle: true, write: false, format: 'esm', logLevel: 'silent', plugins: [plugin] });
    await context.rebuild();
    fs.writeFileSync(file('values.js'), PROJECT['values.js'].replace('values', 'changed'));
    const { outputFiles } = await context.rebuild();
    await context.dispose();
    assert.match(outputFiles[0].text, /changed/);
    assert.deepEqual(reports.map(({ total, simplified }) => [total, simplified]), [[5, 4], [5, 4]]);
});

hosted('rollup', 'what other plugins made stays as it is', async (build, t) => {
    const { entries, options, reports } = project(t, {
        'main.js': text("import { a } from 'made';", "import b from './b.css';", "import c from './c.js?raw';", 'console.log(a, b, c, 1 + 2);'),
        'b.css': 'a {}',
    });
    const made = { name: 'made',
        resolveId: (id) => (id === 'made' ? '\0made.js' : id.endsWith('?raw') ? id : null),
        load: (id) => ({ '\0made.js': 'export const a = 1 + 2;', './c.js?raw': 'export default 1 + 2;' }[id] ?? null),
        transform: (_, id) => (id.endsWith('.css') ? { code: 'export default "1 + 2";', map: null } : null) };
    const folder = room(t);
    await build(entries, folder, { options: options(), plugins: [made] });
    assert.match(output(folder, '.mjs'), /const a = 1 \+ 2/);
    assert.equal(runs(path.join(folder, 'main.mjs')), '3 1 + 2 3 3\n');
    assert.deepEqual([reports[0].total, reports[0].simplified], [2, 2]);
    const lost = build(entries, room(t), { options: options({ define: { a: '1' } }), plugins: [made] });
    await assert.rejects(lost, /made\.js: left as it is: made by another plugin; so nothing replaces a in it/);
});

hosted('rollup', 'the program reads modules behind the other plugins', async (build, t) => {
    const { entries, options, reports } = project(t, { 'main.js': "console.log(1 + 2); 'LATER';\n" });
    const later = { name: 'later', transform: (text) => ({ code: text.replace("'LATER'", "console.log('later', 1 + 2)"), map: null }) };
    const folder = room(t);
    const order = require('./rollup.js')(options());
    const bundle = await host('rollup').rollup({ input: entries, plugins: [order, later] });
    await bundle.write({ dir: folder, entryFileNames: '[name].mjs' });
    assert.match(output(folder, '.mjs'), /console\.log\('later', 3\)/);
    assert.equal(reports[0].simplified, 1);
});

const [commonjs, json] = ['@rollup/plugin-commonjs', '@rollup/plugin-json'].map(host);

hosted('rollup', 'what plugins make modules of is simplified', async (build, t) => {
    const { entries, options, reports } = project(t, {
        'main.js': text("import common from './common.js';", "import data from './data.json';", 'console.log(common.a, data.b, 1 + 2);'),
        'common.js': text("if (0) console.log('never');", 'exports.a = 1 + 2;'),
        'data.json': '{ "b": 2 }',
    });
    const folder = room(t);
    await build(entries, folder, { options: options(), plugins: [commonjs, json].map((plugin) => (plugin.default ?? plugin)()) });
    assert.equal(runs(path.join(folder, 'main.mjs')), '3 2 3\n');
    assert.doesNotMatch(output(folder, '.mjs'), /never|1 \+ 2/);
    assert.deepEqual([reports[0].total, reports[0].simplified], [2, 2]);
}, commonjs === null || json === null ? 'plugins of rollup are not installed' : false);

hosted('rollup', 'a build from a cache reports all', async (_, t) => {
    const { entries, options, reports } = project(t);
    const { rollup } = host('rollup');
    const input = { input: entries, plugins: [require('./rollup.js')(options())] };
    const { cache } = await rollup(input);
    await rollup({ ...input, cache });
    assert.deepEqual(reports.map(({ total, simplified }) => [total, simplified]), [[5, 4], [5, 4]]);
});

hosted('webpack', 'flags that are lost in other kinds of files are an error', async (build, t) => {
    const { entries, options } = project(t, {
        'main.js': text("import { a } from './a.page';", 'console.log(a);'),
        'a.page': 'export const a = DEBUG;',
        'loader.js': text('module.exports = (source) => source;'),
    });
    const more = { module: { rules: [{ test: /\.page$/, loader: path.join(path.dirname(entries.main), 'loader.js') }] } };
    await build(entries, room(t), { options: options({ define: { OTHER: '1' } }), more });
    const lost = build(entries, room(t), { options: options({ define: { DEBUG: '1' } }), more });
    await assert.rejects(lost, /a\.page: left as it is: no file of JavaScript by its name; so nothing replaces DEBUG in it/);
    const warnings = [];
    await build(entries, room(t), { options: options({ define: { DEBUG: '1' }, left: 'warn' }), more, warnings });
    assert.equal(warnings.filter((warning) => /nothing replaces DEBUG/.test(warning)).length, 1);
});

hosted('webpack', 'a build from a cache reports all, and another option is another cache', async (build, t) => {
    const { entries, options, reports } = project(t);
    const [folder, cacheDirectory] = [room(t), room(t)];
    const cached = async (more) => {
        const counting = path.join(cacheDirectory, 'runs');
        const { stats } = await build(entries, folder, { options: options(more), more: { cache: { type: 'filesystem', cacheDirectory, name: counting } } });
        await new Promise((done) => stats.compilation.compiler.close(done));
    };
    await cached();
    await cached();
    await cached({ define: { unread: '1' } });
    assert.deepEqual(reports.map(({ total, simplified }) => [total, simplified]), [[5, 4], [5, 4], [5, 4]]);
});

test('names of modules', () => {
    const { isData, isScript, nameOf, reasonOfId } = require('./modules.js');
    for (const id of ['a.js', 'a.mjs?x', 'a.tsx', 'a.cts#b']) assert.equal(isScript(id), true, id);
    for (const id of ['a.css', 'a.json', 'a.vue', 'a']) assert.equal(isScript(id), false, id);
    for (const id of ['a.css', 'a.json?x', 'a.vue?vue&type=style&lang.css', 'a.png']) assert.equal(isData(id), true, id);
    for (const id of ['a.js', 'a.vue', 'a.js?raw', 'virtual:a']) assert.equal(isData(id), false, id);
    assert.equal(reasonOfId('a.js', 'f();'), undefined);
    assert.equal(reasonOfId('\0a.js', 'f();'), 'made by another plugin');
    assert.match(reasonOfId('a.js', 'export default "__VITE_ASSET__abc__"'), /vite replaces/);
    assert.equal(nameOf('/a/b/c.js?d', '/a'), 'b/c.js?d');
    assert.equal(nameOf('/e/c.js', '/a'), '/e/c.js');
    assert.equal(nameOf('\0made', '/a'), 'made');
});

