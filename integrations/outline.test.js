'use strict';

// Compares outlines with those by the trees of acorn, on the texts of the folder `outline`. They have what is left out of the core, in
// each sort of unit. OUTLINE is the path of a built `outline`.

const assert = require('node:assert/strict');
const fs = require('node:fs');
const path = require('node:path');
const test = require('node:test');
const { acorn, compare, treeOf } = require('../tools/outline/compare.js');
const { differences, expected, printed } = require('../tools/outline/outlines.js');

const TEXTS = path.join(__dirname, 'outline');
const read = (...parts) => fs.readFileSync(path.join(...parts), 'utf8');
const texts = fs.readdirSync(TEXTS).filter((name) => name.endsWith('.mjs')).map((name) => [name, read(TEXTS, name)]);

const unread = acorn === null ? 'acorn is not installed' : false;
const program = process.env.OUTLINE;
const skip = unread || (program === undefined ? 'OUTLINE is not set' : false);

// The outline of a text by acorn, as the program prints one: each unit with one of its words.
const outlineOf = (text) => expected(text, treeOf(text)).map((unit) => ({ ...unit, words: unit.words.slice(0, 1) }));

test('outlines are those by acorn', { skip }, () => {
    for (const [name, text] of texts) assert.deepEqual([name, ...compare(program, text).lines], [name]);
});

test('what is no module is refused', { skip }, () => {
    const lines = read(TEXTS, 'no_module.txt').split('\n').filter(Boolean);
    for (const line of lines) assert.deepEqual([line, compare(program, line).verdict], [line, 'no module']);
});

// Not every acorn reads them (ECMA-262, 16.2.2, WithClause).
test('import attributes make a unit of the item', { skip: program === undefined ? 'OUTLINE is not set' : false }, () => {
    const said = { sort: 'item', words: ['Meta'], source: "'b'", mentions: [], writes: [], jumps: [] };
    const imported = "import a from 'b' with { type: 'json' };";
    assert.deepEqual(printed(program, `${imported}f(a)`), [{ start: 0, end: 40, ...said, declared: ['import a'], exports: [] }]);
    const exported = "export { a as c } from 'b' with { type: 'json', 'e': 'f', }";
    assert.deepEqual(printed(program, exported), [{ start: 0, end: 59, open: true, ...said, words: ['ReExport'], declared: [], exports: ['c'] }]);
});

test('the texts have each construct and each sort of unit', { skip: unread }, () => {
    const units = texts.flatMap(([, text]) => expected(text, treeOf(text)));
    const words = new Set(units.flatMap((unit) => unit.words));
    // No module has a `with`.
    for (const [, word] of read(__dirname, '..', 'crates', 'text_lexer', 'src', 'fault.rt').matchAll(/Construct::(\w+) => "\w+"/g)) {
        assert.ok(words.has(word) || word === 'With', word);
    }
    assert.deepEqual([...new Set(units.map(({ sort }) => sort))].sort(), ['expr', 'item', 'stmt']);
});

test('what is wrong with an outline is found', { skip: unread }, () => {
    for (const [name, text] of texts) {
        const right = outlineOf(text);
        assert.deepEqual(differences(right, expected(text, treeOf(text))), [], name);
        const wrong = (change) => differences(right.map((unit) => ({ ...unit, ...change(unit) })), expected(text, treeOf(text)));
        for (const field of ['mentions', 'writes', 'declared', 'exports', 'jumps']) {
            const count = right.filter((unit) => unit[field].length > 0).length;
            assert.equal(wrong((unit) => ({ [field]: unit[field].slice(1) })).length, count, `${name}: ${field}`);
        }
        assert.equal(wrong(({ start }) => ({ start: start + 1 })).length, 2 * right.length, name);
        assert.equal(differences(right.slice(1), expected(text, treeOf(text))).length, 1, name);
    }
});
