'use strict';

// Whole modules: what is kept stays word for word, and the rest is simplified. SHAKE is the path of a built `shake`.

const assert = require('node:assert/strict');
const { spawnSync } = require('node:child_process');
const fs = require('node:fs');
const path = require('node:path');
const test = require('node:test');

const program = process.env.SHAKE;
const skip = program === undefined ? 'SHAKE is not set' : false;
const shake = (words, input) => {
    const { status, stdout, stderr } = spawnSync(program, words, { input, encoding: 'utf8' });
    return { status, stdout, stderr };
};

// Each text, and what `simplify` makes of it.
const ROWS = [
    ['if (false) f(); g(a?.b, 2 * 3);', 'g(a?.b, 6);\n'],
    ['let dead = 1; class A extends B {}', 'class A extends B {}\n'],
    ['async function gone() { await 1; } export async function stays() { await 1; }', 'export async function stays() { await 1; }\n'],
    ['function used() {} class A { m() { used(); } }', 'function used() {}\nclass A { m() { used(); } }\n'],
    ['let n = 1; class A { m() { n = 2; } } f(n);', 'let n = 1;\nclass A { m() { n = 2; } }\nf(n);\n'],
    ['export function f(xs) { for (const x of xs) { if (x) return x; } return 1 + 1; }', 'export function f(xs) { for (const x of xs) { if (x) return x; } return 2; }\n'],
    ['export * from "a"; import b from "b" with { type: "json" }; f(b);', 'export * from "a";\nimport b from "b" with { type: "json" };\nf(b);\n'],
    ['export default class {}', 'export default class {}\n'],
    ['const { a, b = 2 } = c; if (true) f(a);', 'const { a, b = 2 } = c;\nf(a);\n'],
    ['(0, a?.b)();', '(0, a?.b)();\n'],
    ['(a?.b)();', '(a?.b)();\n'],
    ['f(1.5, 0x10, /x/g.test(y));', 'f(1.5, 16, /x/g.test(y));\n'],
];

test('what is kept stays word for word', { skip }, () => {
    for (const [text, result] of ROWS) assert.deepEqual(shake(['simplify', '--verbatim'], text), { status: 0, stdout: result, stderr: '' }, text);
});

test('a text in the core is as without the word', { skip }, () => {
    const text = 'const a = 1 + 2; export function f() { return a; } if (false) g();';
    assert.deepEqual(shake(['simplify', '--verbatim'], text), shake(['simplify'], text));
});

test('passes that carry values leave what is kept', { skip }, () => {
    const text = 'const n = 1; f(n); class A { m() { return n; } }';
    for (const pass of ['const', 'inline', 'optimize']) {
        const { stdout } = shake([pass, '--verbatim'], text);
        assert.ok(stdout.includes('class A { m() { return n; } }') && stdout.includes('const n = 1;'), stdout);
    }
});

test('flags for what kept text mentions are an error', { skip }, () => {
    const text = 'class A { m() { return DEBUG; } }';
    assert.deepEqual(shake(['simplify', '--define', 'DEBUG=false', '--verbatim'], text), { status: 1, stdout: '', stderr: 'shake: kept text at 0 mentions DEBUG\n' });
    assert.deepEqual(shake(['simplify', '--verbatim', '--define', 'OTHER=false'], `${text} f(OTHER);`).stdout, `${text}\nf(false);\n`);
});

test('a module that calls eval in kept text is written as it is', { skip }, () => {
    const text = 'let a = 1; class A { m(x) { return eval(x); } } if (false) f();';
    assert.deepEqual(shake(['simplify', '--verbatim'], text), { status: 0, stdout: text, stderr: '' });
});

test('what is no module is an error', { skip }, () => {
    assert.deepEqual(shake(['simplify', '--verbatim'], 'class { }'), { status: 1, stdout: '', stderr: 'shake: syntax at 6\n' });
    assert.equal(shake(['nothing', '--verbatim'], '').status, 2);
});

test('modules with units of each sort come back with all of them', { skip }, () => {
    const folder = path.join(__dirname, 'outline');
    for (const name of fs.readdirSync(folder).filter((file) => file.endsWith('.mjs'))) {
        const once = shake(['expr', '--verbatim'], fs.readFileSync(path.join(folder, name)));
        assert.deepEqual([name, once.status, once.stderr], [name, 0, '']);
        assert.deepEqual(shake(['expr', '--verbatim'], once.stdout), once, name);
    }
});
