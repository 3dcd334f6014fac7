'use strict';

// Hosts that call the functions of a module see the same before and after each pass. The modules are in `callbacks`. SHAKE is the
// path of a built `shake`.

const assert = require('node:assert/strict');
const { spawnSync } = require('node:child_process');
const fs = require('node:fs');
const path = require('node:path');
const test = require('node:test');
const { MANNERS, record } = require('./support/recorder.js');

const FOLDER = path.join(__dirname, 'callbacks');
const PASSES = ['simplify', 'expr', 'branch', 'dce', 'const', 'inline'];
const modules = fs.readdirSync(FOLDER).map((name) => ({ name, text: fs.readFileSync(path.join(FOLDER, name), 'utf8') }));
const needsShake = { skip: process.env.SHAKE === undefined ? 'SHAKE is not set' : false };

function run(pass, { name, text }) {
    const { status, stdout, stderr } = spawnSync(process.env.SHAKE, [pass], { input: text, encoding: 'utf8' });
    assert.equal(status, 0, `${name}: ${stderr}`);
    return stdout;
}

// What hosts of each manner see of a module, by its text.
async function seenOf(text) {
    const seen = {};
    for (const manner of Object.keys(MANNERS)) seen[manner] = await record(text, manner);
    return seen;
}

for (const pass of PASSES) {
    test(`${pass}: a host that calls functions of the module sees the same`, needsShake, async () => {
        for (const module of modules) {
            const result = run(pass, module);
            if (pass === 'simplify') assert.ok(!result.includes('never'), `${module.name}: ${result}`);
            module.seen ??= await seenOf(module.text);
            assert.deepEqual(await seenOf(result), module.seen, `${module.name}:\n${result}`);
        }
    });
}

test('the modules are called back, return and throw', async () => {
    const lines = [];
    for (const { text } of modules) lines.push(...Object.values(await seenOf(text)).flat());
    for (const start of ['calls function', 'returns function', 'throws', 'new', 'set', 'ends by a throw']) {
        assert.ok(lines.some((line) => line.startsWith(start)), start);
    }
});

test('a host sees a handler that is dropped, called with another receiver, or moved', async () => {
    const rows = [
        ["on('x', () => 1);", "on('x', undefined);"],
        ["on('x', () => 1); log(2);", 'log(2);'],
        ["on('x', () => log(1)); log(2);", "log(2); on('x', () => log(1));"],
        ['call(() => log(1)); log(2);', 'log(2); call(() => log(1));'],
        ['call(() => { log(1); log(2); });', 'call(() => { log(2); log(1); });'],
        ['let n = 0; call(() => n++, () => n); export { n };', 'let n = 0; call(() => n, () => n++); export { n };'],
        ['call(() => { throw 1; });', 'call(() => 1);'],
        ['page.on(() => 1);', '(0, page.on)(() => 1);'],
        ['call(function () { return this; });', 'call(() => undefined);'],
        ['export const f = () => () => 1;', 'export const f = () => 1;'],
        ['for (let i = 0; i < 2; i++) on(() => i);', 'for (var i = 0; i < 2; i++) on(() => i);'],
    ];
    for (const [before, after] of rows) {
        const seen = [];
        for (const text of [before, before, after]) seen.push(await record(text, 'calls each at once'));
        assert.deepEqual(seen[1], seen[0], before);
        assert.notDeepEqual(seen[2], seen[0], `${before} -> ${after}`);
    }
});
