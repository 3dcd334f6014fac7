'use strict';

// Tests of what is found in a text without a parser: words, licence comments, flags, and whether it is a module.

const assert = require('node:assert/strict');
const test = require('node:test');
const { flagsIn } = require('./flags.js');
const { nearest, suggestion } = require('./nearest.js');
const { annotationIn, isModule, licenceComments, withLicence, wordsIn } = require('./words.js');

const spelt = (text) => wordsIn(text).words.map((word) => word.text).join(' ');

test('a text is cut into words', () => {
    assert.equal(spelt("a = b / c / d; e = /x\\//g;"), 'a = b / c / d ; e = /x\\//g ;');
    assert.equal(spelt('f(/[/"]/.test(a), b ? .5 : 1, c?.d, i++ / 2)'), 'f ( /[/"]/ . test ( a ) , b ? .5 : 1 , c ?. d , i ++ / 2 )');
    assert.equal(spelt('`a${b + `c${d}`}e`; // f\n/* g */ #h'), 'a${ b + c${ d ` e` ; #h');
    assert.equal(wordsIn('f("a\n")').sound, false);
    assert.equal(wordsIn('f(').sound, false);
    assert.equal(wordsIn('#!/usr/bin/node "\nf();').sound, true);
});

test('a text is an ES module by its own imports and exports', () => {
    for (const text of ['export {};', "import 'm'", 'f(import.meta.url)', "if (a) {}\nexport default 1"]) assert.equal(isModule(text), true, text);
    const others = ['f();', 'module.exports = 1', "import('m')", 'a.export = a.import', '// import x\n"export"', '({ import: 1, export: 2 })', '`import x`'];
    for (const text of others) assert.equal(isModule(text), false, text);
});

test('licence comments', () => {
    const text = '#!/usr/bin/env node\n/*! a */ f("/*! no */"); // @license b\n/** no */ g(/[/"]/, `/*! no */`);\n/* @preserve\n c */\n//! d\n/*! a */';
    const found = ['/*! a */', '// @license b', '/* @preserve\n c */', '//! d'];
    assert.deepEqual(licenceComments(text), found);
    assert.deepEqual(licenceComments('f();'), []);
    assert.equal(withLicence(text, 'f();\n'), `${found.join('\n')}\nf();\n`);
    assert.equal(withLicence(text, `/*! a */\nf();\n`), `${found.slice(1).join('\n')}\n/*! a */\nf();\n`);
});

test('annotations at the top level', () => {
    const call = '/* @__PURE__ */ f()';
    for (const text of [`a = ${call}`, `a = x => 1, b = ${call}`, `const a = x => 1\nconst b = ${call}`, `g(x => 1, ${call})`, `a = { b: ${call} }`]) {
        assert.equal(annotationIn(text), text.indexOf('/*'), text);
    }
    const inside = [`a = () => ${call}`, `a = () => { return ${call}; }`, `function a() { ${call}; }`, `a = x => y => (${call})`, `a = '${call}'`];
    for (const text of inside) assert.equal(annotationIn(text), null, text);
});

test('flags are found where they would be replaced', () => {
    const options = { define: { DEBUG: 'false', 'a.b': '1', "c['d']": '2' }, env: { MODE: 'x' }, typeof: { window: 'object' }, const: { 'build:info': { A: '1' } } };
    const names = (text) => flagsIn(text, options).map((flag) => flag.name);
    const rows = [
        ['if (DEBUG) f();', ['DEBUG']],
        ['f(a.b.c, a . b)', ['a.b']],
        ['f(c["d"])', ["c['d']"]],
        ["f(process.env.MODE); g(process.env['MODE'])", ['process.env.MODE']],
        ['f(typeof window, typeof(window))', ['typeof window']],
        ["import { A } from 'build:info'", ['an import of build:info']],
        ['x ? DEBUG : 1', ['DEBUG']],
        ['({ DEBUG })', ['DEBUG']],
        ['return (process.env).MODE', ['process.env.MODE']],
        ["x = (a)['b'] + (a).b", ['a.b']],
    ];
    for (const [text, found] of rows) assert.deepEqual(names(text), found, text);
    const others = ['// DEBUG', 'x.DEBUG', '({ DEBUG: 1 })', "f('DEBUG')", 'x.a.b', 'a["b"]', 'window', 'f(a).b', 'process.env.OTHER', "'build:info'"];
    for (const text of others) assert.deepEqual(names(text), [], text);
    assert.deepEqual(flagsIn('f();\n if (DEBUG) g();', options), [{ name: 'DEBUG', line: 2, column: 5 }]);
    // Where the words can't be told apart, a text that is spelt so is found.
    assert.deepEqual(names('f(") // DEBUG'), ['DEBUG']);
});

test('the nearest word', () => {
    const known = ['simplify', 'inline', 'json'];
    assert.equal(nearest('simplfy', known), 'simplify');
    assert.equal(nearest('other', known), null);
    assert.equal(suggestion('jsno', known), '; did you mean json?');
    assert.equal(suggestion('x1', known), '');
});
