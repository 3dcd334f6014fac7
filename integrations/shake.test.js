'use strict';

// Tests of the code that the plugins share. They run a replacement of `shake`, so they need none built. SHAKE is the path of
// a built `shake`, for the test that needs a real one.

const assert = require('node:assert/strict');
const { spawnSync } = require('node:child_process');
const fs = require('node:fs');
const os = require('node:os');
const path = require('node:path');
const test = require('node:test');
const { Report, Shaker, linesOf, noteOf, placeOf, reasonOf, simplify, wordsOf } = require('./shake.js');

const program = [process.execPath, path.join(__dirname, 'support', 'fake.js')];

test('options become words of the command line', () => {
    assert.deepEqual(wordsOf(), ['simplify']);
    const options = {
        pass: 'dce', keepTop: true, retain: ['a', 'b'], dropImports: true, rounds: 0, minCost: 7, compact: true, verbatim: true,
    };
    assert.deepEqual(wordsOf(options), [
        'dce', '--keep-top', '--retain', 'a', '--retain', 'b', '--drop-imports', '--rounds', '0', '--min-cost', '7', '--compact', '--verbatim',
    ]);
    assert.deepEqual(wordsOf({ keepTop: false, retain: [], rounds: undefined }), ['simplify']);
});

test('flags become words of the command line', () => {
    const options = {
        define: { DEBUG: 'false', 'a.b': '1' }, env: { NODE_ENV: 'production' }, typeof: { window: 'object' },
        const: { 'build:info': { VERSION: "'1'", default: '{}' } },
    };
    assert.deepEqual(wordsOf(options), [
        'simplify', '--define', 'DEBUG=false', '--define', 'a.b=1', '--env', 'NODE_ENV=production', '--typeof', 'window=object',
        '--const', "build:info:VERSION='1'", '--const', 'build:info:default={}',
    ]);
    assert.deepEqual(wordsOf({ define: {}, const: { m: {} } }), ['simplify']);
});

test('a wrong option is refused with its name and what it must be', () => {
    const wrong = [
        [{ keeptop: true }, 'there is no option keeptop; did you mean keepTop?'],
        [{ pass: 'simplfy' }, 'unknown pass "simplfy"; did you mean simplify? (simplify, optimize, expr, branch, dce, const, inline, json)'],
        [{ pass: [] }, 'pass must be the name of a pass or a list of names'],
        [{ unit: 'file' }, 'unit must be "module", "chunk" or a list of both'],
        [{ left: 'error' }, 'left must be "warn"'],
        [{ keepTop: 1 }, 'keepTop must be true or false'],
        [{ retain: 'a' }, 'retain must be a list of names'],
        [{ rounds: -1 }, 'rounds must be a whole number'],
        [{ minCost: 1.5 }, 'minCost must be a whole number'],
        [{ define: { A: true } }, 'define.A must be a string of JavaScript ("true")'],
        [{ define: 'A' }, 'define must be an object of strings'],
        [{ env: { 'A=B': '1' } }, 'env: the key "A=B" has a "="'],
        [{ env: { A: 1 } }, 'env.A must be a string'],
        [{ typeof: [] }, 'typeof must be an object of strings'],
        [{ typeof: { '': 'object' } }, 'typeof has an empty key'],
        [{ const: { m: '1' } }, 'const.m must be an object of strings'],
        [{ const: { m: { 'a:b': '1' } } }, 'const.m: the key "a:b" has a ":"'],
        [{ const: { m: { a: 1 } } }, 'const.m.a must be a string of JavaScript ("true")'],
        [{ program: [] }, 'program must be a path or a list of words'],
        [{ report: true }, 'report must be false, a file or a function'],
    ];
    for (const [options, message] of wrong) assert.throws(() => wordsOf(options), { name: 'ShakeError', message: `zorikham: ${message}` });
});

test('offsets of bytes become lines and columns', () => {
    assert.deepEqual(placeOf('', 0), { line: 1, column: 0 });
    assert.deepEqual(placeOf('ab\ncd', 4), { line: 2, column: 1 });
    assert.deepEqual(placeOf('a\r\nb\rc\u2028d', 9), { line: 4, column: 0 });
    // é has 2 bytes and 1 unit, the other 4 bytes and 2 units.
    assert.deepEqual(placeOf('é\u{1f600}x', 6), { line: 1, column: 3 });
});

test('lines of the program that leave a text alone', () => {
    const text = 'f();\nclass A {}';
    assert.deepEqual(reasonOf('out of core at 5: Class', text), { reason: 'out of core: Class', line: 2, column: 0 });
    assert.deepEqual(reasonOf('number range at 2', text), { reason: 'number range', line: 1, column: 2 });
    for (const said of ['too deep', 'too long', 'captured x']) assert.deepEqual(reasonOf(said, text), { reason: said });
    for (const said of ['syntax at 1', 'out of memory', 'input', 'invalid tree', '']) assert.equal(reasonOf(said, text), null);
});

test('a text is simplified, left or refused', async () => {
    assert.deepEqual(await simplify('f(1 + 2);\n', { program }), { code: 'f(3);\n' });
    assert.deepEqual(await simplify('é;\n class A {}', { program }), { left: { reason: 'out of core: Class', line: 2, column: 1 } });
    assert.deepEqual(await simplify('TOO_DEEP', { program }), { left: { reason: 'too deep' } });
    assert.deepEqual(await simplify("'\ud800'", { program }), { left: { reason: 'a lone surrogate' } });
    await assert.rejects(simplify('f();\n@', { program }), { message: 'zorikham: syntax: unexpected "@"', line: 2, column: 0 });
    await assert.rejects(simplify('MEMORY', { program }), { message: 'zorikham: out of memory' });
    await assert.rejects(simplify('f();', { program, define: { x: '(' } }), { message: 'zorikham: define.x: unexpected end of "(" at column 2' });
    await assert.rejects(simplify('CRASH', { program }), /the program was ended by SIGKILL/);
    await assert.rejects(simplify('OLD', { program }), /does not know a pass or an option that was given: it is of another version/);
});

test('a program that is missing or that does not run', async () => {
    const missing = path.join(__dirname, 'no-such-program');
    await assert.rejects(simplify('f();', { program: missing }), (error) => {
        assert.ok(error.message.includes(`the program isn't found: the option program is ${missing}. Set the option program or SHAKE to a built shake`));
        return true;
    });
    await assert.rejects(simplify('f();', { program: __filename }), /can't be run: .*it needs x86-64 Linux with glibc 2\.34 or later/);
    const old = [process.execPath, '-e', "console.error(\"version `GLIBC_2.34' not found\"); process.exit(1)"];
    await assert.rejects(simplify('f();', { program: old }), /can't be run: it needs x86-64 Linux with glibc 2\.34 or later/);
});

test('the program is looked for beside the package, then in SHAKE, then on the path', async (t) => {
    const folder = fs.mkdtempSync(path.join(os.tmpdir(), 'shake-'));
    t.after(() => fs.rmSync(folder, { recursive: true }));
    fs.cpSync(__dirname, path.join(folder, 'integrations'), { recursive: true });
    const script = "const { simplify } = require('./integrations/shake.js');"
        + "simplify('f();').then(({ code }) => console.log(code.trim()), (error) => console.log(error.message))";
    const found = (env) => spawnSync(process.execPath, ['-e', script], { cwd: folder, env: { PATH: '/nowhere', ...env }, encoding: 'utf8' }).stdout.trim();
    const place = (name) => {
        const file = path.join(folder, name);
        fs.mkdirSync(path.dirname(file), { recursive: true });
        fs.writeFileSync(file, `#!/bin/sh\necho ${name}\n`, { mode: 0o755 });
        return file;
    };
    const said = found({});
    for (const looked of [path.join(folder, 'bin', 'shake'), 'SHAKE is not set', 'no shake on the path']) assert.ok(said.includes(looked), said);
    assert.match(found({ SHAKE: '/nowhere/shake' }), /SHAKE is \/nowhere\/shake/);
    const onPath = place('path/shake');
    assert.equal(found({ PATH: path.dirname(onPath) }), 'path/shake');
    const named = place('named');
    assert.equal(found({ PATH: path.dirname(onPath), SHAKE: named }), 'named');
    place('crates/shake/out/shake');
    assert.equal(found({ SHAKE: named }), 'crates/shake/out/shake');
    place('bin/shake');
    assert.equal(found({ SHAKE: named }), 'bin/shake');
});

test('the program is asked to take large pages and to keep what is freed, unless the user says otherwise', async () => {
    const said = process.env.GLIBC_TUNABLES;
    const program = [process.execPath, '-e', 'process.stdout.write(process.env.GLIBC_TUNABLES)'];
    try {
        delete process.env.GLIBC_TUNABLES;
        assert.match((await simplify('', { program })).code, /^glibc\.malloc\.hugetlb=1:.*:glibc\.malloc\.tcache_count=4000$/);
        process.env.GLIBC_TUNABLES = 'glibc.malloc.check=0';
        assert.deepEqual(await simplify('', { program }), { code: 'glibc.malloc.check=0' });
    } finally {
        if (said === undefined) delete process.env.GLIBC_TUNABLES;
        else process.env.GLIBC_TUNABLES = said;
    }
});

test('each option reaches the program', { skip: process.env.SHAKE === undefined ? 'SHAKE is not set' : false }, async () => {
    const rows = [
        ['let a = 1 + 2;', { pass: 'expr' }, 'let a = 3;\n'],
        ['let a = 1;', {}, ''],
        ['let a = 1;', { keepTop: true }, 'let a = 1;\n'],
        ['let a = 1, b = 2, c = 3;', { retain: ['a', 'c'] }, 'let a = 1, c = 3;\n'],
        ["import {a} from 'm';", {}, "import 'm';\n"],
        ["import {a} from 'm';", { dropImports: true }, ''],
        ['f(1 + 2);', { rounds: 0 }, 'f(1 + 2);\n'],
        ['f([1]);', { pass: 'json' }, 'f([1]);\n'],
        ['f([1]);', { pass: 'json', minCost: 3 }, "f(JSON.parse('[1]'));\n"],
        ['const a = 1; f(a);', { pass: 'const' }, 'const a = 1;\nf(1);\n'],
        ['const a = 1; if (a) f(a + 1); g();', { pass: 'optimize' }, 'f(2);\ng();\n'],
        ["f('a'); if (a) { g(); }", { pass: 'expr', compact: true }, 'f("a");if(a){g()}'],
        ['f(A, b.c);', { define: { A: '1', 'b.c': '2' } }, 'f(1, 2);\n'],
        ['f(process.env.A);', { env: { A: 'x' } }, "f('x');\n"],
        ['f(typeof a);', { typeof: { a: 'object' } }, "f('object');\n"],
        ["import {A as b} from 'm:n'; f(b);", { const: { 'm:n': { A: '1' } } }, 'f(1);\n'],
    ];
    for (const [text, options, code] of rows) {
        assert.deepEqual(await simplify(text, { program: process.env.SHAKE, ...options }), { code }, text);
    }
});

const real = { skip: process.env.SHAKE === undefined ? 'SHAKE is not set' : false };

test('passes in a row run until nothing changes', real, async () => {
    const text = "const MODE = process.env.NODE_ENV; if (MODE === 'production') a(); else b();";
    const options = { program: process.env.SHAKE, env: { NODE_ENV: 'production' } };
    assert.deepEqual(await simplify(text, { ...options, pass: ['inline', 'simplify'] }), { code: 'a();\n' });
    assert.deepEqual(await simplify('class A {}', { ...options, pass: ['inline', 'simplify'] }), { left: { reason: 'out of core: Class', line: 1, column: 0 } });
});

test('what is wrong with a flag is said in its words', real, async () => {
    const rows = [
        [{ A: 'x =>' }, 'define.A: unexpected end of "x =>" at column 5'],
        [{ A: '1 +* 2' }, 'define.A: unexpected "*" in "1 +* 2" at column 4'],
        [{ 'f()': '1' }, 'define key "f()" must be a name or a.b.c'],
        [{ 'a b': '1' }, 'define key "a b" must be a name or a.b.c'],
        [{ A: 'x => x' }, 'define.A: "x => x" binds a name, which isn\'t supported'],
        [{ A: '1.5' }, 'define.A: "1.5" isn\'t in the core: Number at column 1'],
        [{ A: '[/x/]' }, 'define.A: "[/x/]" isn\'t in the core: Regex at column 2'],
        [{ A: 'B', B: 'A' }, 'define: the value of A leads back to itself'],
    ];
    for (const [define, message] of rows) await assert.rejects(simplify('f(A);', { program: process.env.SHAKE, define }), { message: `zorikham: ${message}` });
    const ofModules = [
        ["import {B} from 'm'; f(B);", 'const.m has no B, which is imported'],
        ["import B from 'm'; f(B);", 'const.m has no default, which is imported'],
        ["import * as B from 'm'; f(B);", 'const: the namespace B is used for more than to name an export (B.NAME)'],
        ["import {A} from 'm'; export {A};", 'const: A is imported from a module of const and exported again'],
    ];
    for (const [text, message] of ofModules) {
        await assert.rejects(simplify(text, { program: process.env.SHAKE, const: { m: { A: '1' } } }), { message: `zorikham: ${message}` });
    }
    const unread = simplify('f(A);', { program: process.env.SHAKE, const: { m: { A: '(' } } });
    await assert.rejects(unread, { message: 'zorikham: const.m.A: unexpected end of "(" at column 2' });
});

test('a program that stops reading is no fault of the plugin', async () => {
    await assert.rejects(simplify('f();\n'.repeat(200000), { program, define: { x: '(' } }), /unexpected end/);
});

// Reads units side by side and reports.
async function reported(texts, options = {}) {
    const shaker = new Shaker({ program, ...options });
    const report = new Report('chunk', shaker.options);
    const results = await Promise.all(Object.entries(texts).map(async ([name, text]) => {
        const result = await shaker.chunk(name, text);
        report.add(name, noteOf(text, result, shaker.options));
        return result.code ?? null;
    }));
    const [lines, warnings] = [[], []];
    await report.publish((line) => lines.push(line), (line) => warnings.push(line));
    return { results, lines, warnings };
}

test('a build is counted and reported', async () => {
    const texts = { 'b.js': 'class A {}', 'a.js': 'CAPTURED', 'c.js': 'f(1 + 2);', 'd.js': 'g(1 + 2);' };
    const { results, lines, warnings } = await reported(texts);
    assert.deepEqual(results, [null, null, 'f(3);', 'g(3);']);
    assert.deepEqual(warnings, []);
    assert.deepEqual(lines, [
        'zorikham: 2 of 4 chunks simplified, 8 of 18 bytes less',
        'zorikham: a.js: left as it is: captured x1',
        'zorikham: b.js:1:1: left as it is: out of core: Class',
    ]);
    const given = [];
    for (const report of [false, (one) => given.push(one)]) {
        const silent = await reported(texts, { report });
        assert.deepEqual([silent.lines, silent.warnings], [[], []]);
    }
    assert.deepEqual([given[0].unit, given[0].total, given[0].simplified, given[0].left.length], ['chunk', 4, 2, 2]);
});

test('a build in which nothing is simplified is a warning', async () => {
    const { lines, warnings } = await reported({ 'a.js': 'class A {}' });
    assert.deepEqual(warnings, ['zorikham: 0 of 1 chunks simplified']);
    assert.deepEqual(lines, ['zorikham: a.js:1:1: left as it is: out of core: Class']);
    assert.deepEqual((await reported({})).warnings, []);
});

test('many that are left are counted', async () => {
    const { lines } = await reported(Object.fromEntries(Array.from({ length: 14 }, (_, i) => [`${i}.js`, 'class A {}'])));
    assert.equal(lines.length, 11);
    assert.equal(lines.at(-1), 'zorikham: 4 more chunks are left as they are; the option report has them all');
});

test('bytes may grow', () => {
    const report = { unit: 'chunk', total: 1, simplified: 1, bytesBefore: 4, bytesAfter: 6, left: [] };
    assert.deepEqual(linesOf(report), ['zorikham: 1 of 1 chunks simplified, 2 bytes more than 4']);
});

test('what a chunk declares at its top stays where it is seen, unless the option says otherwise', () => {
    assert.deepEqual(wordsOf(new Shaker({}, { keepTop: true }).chunkOptions), ['simplify', '--keep-top']);
    assert.deepEqual(wordsOf(new Shaker({ keepTop: false }, { keepTop: true }).chunkOptions), ['simplify']);
    assert.deepEqual(wordsOf(new Shaker({}).chunkOptions), ['simplify']);
});

test('a module is simplified, and stays one', async () => {
    const shaker = new Shaker({ program });
    assert.deepEqual(await shaker.module('a.js', 'export const a = 1 + 2;'), { code: 'export const a = 3;' });
    assert.deepEqual(await shaker.module('a.js', "if (0) f();\nimport 'm';"), { code: "\nimport 'm';" });
    // The replacement of the program drops such a line.
    assert.deepEqual(await shaker.module('a.js', '//# x\nimport.meta;'), { code: '\nimport.meta;' });
    const dropping = new Shaker({ program: [process.execPath, '-e', "process.stdout.write('f();\\n')"] });
    assert.deepEqual(await dropping.module('a.js', "import 'm'; f();"), { code: 'f();\nexport {};\n' });
});

test('a module stays as it is where it is none, or where the bundler may drop more of it', async () => {
    const shaker = new Shaker({ program });
    assert.deepEqual(await shaker.module('a.js', 'module.exports = 1 + 2;'), { left: { reason: 'no ES module' } });
    assert.deepEqual(await shaker.module('a.mjs', 'f(1 + 2);', { module: true }), { code: 'f(3);' });
    const annotated = await shaker.module('a.js', 'f(1 + 2);\nexport const a = /* #__PURE__ */ g();');
    assert.deepEqual([annotated.left.line, annotated.left.column], [2, 17]);
    assert.match(annotated.left.reason, /#__PURE__/);
    const inside = 'export function a() { return /* #__PURE__ */ g(1 + 2); }';
    assert.deepEqual(await shaker.module('a.js', inside), { code: inside.replace('1 + 2', '3') });
    // A flag in it is the greater loss.
    const flagged = new Shaker({ program, define: { DEBUG: 'false' } });
    assert.equal((await flagged.module('a.js', 'export const a = /* #__PURE__ */ g(DEBUG);')).left, undefined);
    // The bundler may read more than the program.
    assert.deepEqual(await shaker.module('a.js', 'export {};\n @'), { left: { reason: 'syntax: unexpected "@"', line: 2, column: 1 } });
});

test('flags that are lost are an error, or a warning where the option left says so', async () => {
    const flags = { define: { DEBUG: 'false' }, env: { NODE_ENV: 'production' } };
    const text = 'class A {}\nif (DEBUG) f(process.env.NODE_ENV);';
    const message = 'zorikham: a.js:1:1: left as it is: out of core: Class; so nothing replaces DEBUG, process.env.NODE_ENV in it: '
        + 'give the flag to the bundler instead (its own define), or set left: "warn"';
    const failing = new Shaker({ program, ...flags });
    await assert.rejects(failing.chunk('a.js', text), { message, line: 2, column: 4 });
    await assert.rejects(failing.module('a.js', `export {}; ${text}`), { line: 2, column: 4 });
    await assert.rejects(failing.module('a.js', 'module.exports = DEBUG;'), /no ES module; so nothing replaces DEBUG/);
    assert.deepEqual(await failing.chunk('a.js', 'class A {} // DEBUG'), { left: { reason: 'out of core: Class', line: 1, column: 0 } });
    const warning = new Shaker({ program, ...flags, left: 'warn' });
    assert.equal((await warning.chunk('a.js', text)).warning.message, message);
});

test('licence comments stay in front of the output', async () => {
    const shaker = new Shaker({ program: [process.execPath, '-e', "process.stdout.write('f(3);\\n')"] });
    const text = '/*! a */\nexport {}; f(1 + 2); // no licence\n// @license b\n';
    const code = '/*! a */\n// @license b\nf(3);\n';
    assert.deepEqual(await shaker.chunk('a.js', text), { code });
    assert.deepEqual(await shaker.module('a.js', text), { code: `${code}export {};\n` });
});
