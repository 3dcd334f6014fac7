'use strict';

// Tests of the package: what it exports, its types, and that what npm packs of it can be installed and used without network.

const assert = require('node:assert/strict');
const { execFileSync, spawnSync } = require('node:child_process');
const fs = require('node:fs');
const path = require('node:path');
const test = require('node:test');
const { fake, room, writeAll } = require('./support/hosts.js');

const TOP = path.join(__dirname, '..');
const { bin, exports: entries, license, version } = require('../package.json');

// Why a test that calls programs can't run, or false.
const missing = (...names) => names.map((name) => (spawnSync(name, ['--version']).error === undefined ? null : `${name} is not installed`)).find(Boolean) ?? false;

test('each file that the package names is there', () => {
    assert.match(version, /^\d+\.\d+\.\d+$/);
    assert.equal(license, 'Apache-2.0');
    const files = [bin, ...Object.values(entries)].flatMap((entry) => (typeof entry === 'string' ? entry : Object.values(entry)));
    for (const file of [...files, 'LICENSE', 'README.md']) assert.ok(fs.existsSync(path.join(TOP, file)), file);
});

const USES = {
    'uses.cjs': `const names = ['zorikham/rollup', 'zorikham/vite', 'zorikham/webpack', 'zorikham/esbuild'];
const { simplify } = require('zorikham');
simplify('f(1 + 2);').then(({ code }) => console.log(names.map((name) => typeof require(name)).join(), code.trim()));
`,
    'uses.mjs': `import rollup from 'zorikham/rollup';
import vite from 'zorikham/vite';
import Webpack from 'zorikham/webpack';
import esbuild from 'zorikham/esbuild';
import { simplify } from 'zorikham';
const { code } = await simplify('f(1 + 2);');
console.log([rollup, vite, Webpack, esbuild].map((plugin) => typeof plugin).join(), code.trim());
`,
};

// Each link of a document in the package leads to a file in it, unless it is one of a crate.
function assertLinked(names) {
    for (const name of names.filter((it) => it.endsWith('.md'))) {
        for (const [, link] of fs.readFileSync(path.join(TOP, name), 'utf8').matchAll(/\]\(([^)#:]+)(?:#[^)]*)?\)/g)) {
            const target = path.posix.join(path.posix.dirname(name), link);
            assert.ok(target.startsWith('crates/') || names.includes(target), `${name}: ${link}`);
        }
    }
}

test('what npm packs can be installed and used, by import and by require', { skip: missing('npm') }, (t) => {
    const folder = room(t);
    const env = { ...process.env, npm_config_cache: path.join(folder, 'cache'), npm_config_offline: 'true', npm_config_update_notifier: 'false' };
    delete env.SHAKE;
    const call = (cwd, ...words) => execFileSync(words[0], words.slice(1), { cwd, env, encoding: 'utf8' });
    const [{ filename, files }] = JSON.parse(call(TOP, 'npm', 'pack', '--json', '--silent', '--pack-destination', folder));
    for (const { path: name } of files) assert.doesNotMatch(name, /\.test\.js$|integrations\/(?:support|callbacks|example|outline)\/|^crates\//);
    assertLinked(files.map(({ path: name }) => name));
    writeAll(folder, { 'package.json': '{ "private": true }', ...USES });
    call(folder, 'npm', 'install', '--no-audit', '--no-fund', `./${filename}`);
    // A release has the program here.
    const program = path.join(folder, 'node_modules', 'zorikham', 'bin', 'shake');
    fs.mkdirSync(path.dirname(program), { recursive: true });
    fs.writeFileSync(program, `#!/bin/sh\nexec '${fake[0]}' '${fake[1]}' "$@"\n`, { mode: 0o755 });
    for (const name of Object.keys(USES)) assert.equal(call(folder, process.execPath, name), 'function,function,function,function f(3);\n', name);
    assert.match(call(folder, path.join('node_modules', '.bin', 'zorikham'), '--version'), new RegExp(version.replaceAll('.', '\\.')));
});

const TYPED = `import rollup from 'zorikham/rollup';
import esbuild from 'zorikham/esbuild';
import Webpack from 'zorikham/webpack';
import { simplify, type Report } from 'zorikham';

rollup({ pass: ['inline', 'simplify'], report: ({ left }: Report) => left[0].name.length });
esbuild({ unit: ['module', 'chunk'], const: { 'build:info': { VERSION: "'1'" } } });
new Webpack({ define: { DEBUG: 'false' }, left: 'warn' });
const result = await simplify('f();', { rounds: 2 });
const length: number = result.code === undefined ? result.left.reason.length : result.code.length;
// @ts-expect-error
rollup({ pass: 'simplfy' });
// @ts-expect-error
esbuild({ define: { DEBUG: false } });
`;

test('the types are those of the options', { skip: missing('tsc') }, (t) => {
    const folder = room(t);
    writeAll(folder, { 'uses.mts': TYPED, 'package.json': '{}', 'node_modules/.keep': '' });
    fs.symlinkSync(TOP, path.join(folder, 'node_modules', 'zorikham'));
    const words = ['--noEmit', '--strict', '--skipLibCheck', '--target', 'es2022', '--module', 'nodenext', '--moduleResolution', 'nodenext', 'uses.mts'];
    const { status, stdout } = spawnSync('tsc', words, { cwd: folder, encoding: 'utf8' });
    assert.equal(stdout, '');
    assert.equal(status, 0);
});

// A small program of the same kind in place of the real one.
const PROGRAM = '/bin/true';
const released = missing('npm', 'git', PROGRAM) || (process.arch === 'x64' ? false : 'this is not x86-64')
    || (fs.existsSync(path.join(TOP, '.git')) ? false : 'there is no repository of git');

test('a release has the program, checksums, and what it is of', { skip: released }, (t) => {
    const [clone, folder] = [room(t), room(t)];
    execFileSync('git', ['clone', '-q', TOP, clone]);
    execFileSync(path.join(clone, 'tools', 'release'), ['--unproved', PROGRAM, folder]);
    const name = `zorikham-${version}.tgz`;
    execFileSync('sha256sum', ['-c', '--quiet', `${name}.sha256`], { cwd: folder });
    execFileSync('tar', ['xzf', name], { cwd: folder });
    const inside = path.join(folder, 'package');
    execFileSync('sha256sum', ['-c', '--quiet', 'SHA256SUMS'], { cwd: inside });
    const read = (file) => fs.readFileSync(path.join(inside, file));
    assert.deepEqual(read('bin/shake'), fs.readFileSync(PROGRAM));
    assert.match(read('LICENSE').toString(), /Apache License/);
    assert.match(read('README.md').toString(), /^# Zorikham in a bundler\n[^]*\]\(docs\/USING\.md\)/);
    const commit = execFileSync('git', ['rev-parse', 'HEAD'], { cwd: clone, encoding: 'utf8' });
    assert.equal(read('RELEASE').toString(), `zorikham ${version}\ncommit ${commit}not proved\nneeds x86-64 Linux with glibc 2.34 or later\n`);
    fs.appendFileSync(path.join(clone, 'README.md'), 'more\n');
    const { status, stderr } = spawnSync(path.join(clone, 'tools', 'release'), ['--unproved', PROGRAM, folder], { encoding: 'utf8' });
    assert.deepEqual([status, stderr], [1, "release: there are changes that aren't committed\n"]);
    const proved = spawnSync(path.join(clone, 'tools', 'release'), [folder], { encoding: 'utf8' });
    assert.match(proved.stderr, /^release: there is no .*crates\/shake\/out\/shake: call rt ci/);
});
