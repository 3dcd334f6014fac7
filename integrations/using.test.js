'use strict';

// Runs the examples of docs/USING.md and docs/COMMAND.md with the program that SHAKE names. Of a section, a block with a name is
// written to a file, a block `sh` without one is run, and the block `text` behind it is what it has to write.

const assert = require('node:assert/strict');
const { spawnSync } = require('node:child_process');
const fs = require('node:fs');
const path = require('node:path');
const test = require('node:test');
const { folderOf, host, room } = require('./support/hosts.js');

const TOP = path.join(__dirname, '..');
const HOSTS = path.join(__dirname, 'support', 'hosts.js');
const BUNDLERS = ['rollup', 'webpack', 'esbuild'];
const DOCUMENTS = ['USING.md', 'COMMAND.md'];

// The fenced blocks of a section: `{ kind, name, text }`.
function blocksOf(section) {
    const found = section.matchAll(/^```(\w+) ?(\S*)\n(.*?)^```$/gms);
    return [...found].map(([, kind, name, text]) => ({ kind, name, text }));
}

// A folder in which the program, this repository and the bundlers are found.
function prepared(t) {
    const folder = room(t);
    fs.mkdirSync(path.join(folder, 'bin'));
    fs.symlinkSync(path.resolve(process.env.SHAKE), path.join(folder, 'bin', 'shake'));
    fs.symlinkSync(path.join(TOP, 'integrations', 'cli', 'zorikham.js'), path.join(folder, 'bin', 'zorikham'));
    fs.writeFileSync(path.join(folder, 'package.json'), '{}');
    fs.mkdirSync(path.join(folder, 'node_modules'));
    fs.symlinkSync(TOP, path.join(folder, 'node_modules', 'zorikham'));
    // An import looks at nothing but such folders.
    for (const name of BUNDLERS) {
        const place = folderOf(name);
        if (place !== null) fs.symlinkSync(place, path.join(folder, 'node_modules', name));
    }
    return folder;
}

function runScript(folder, script) {
    const env = { ...process.env, PATH: `${path.join(folder, 'bin')}:${process.env.PATH}`, NODE_OPTIONS: `--require ${JSON.stringify(HOSTS)}` };
    return spawnSync('sh', ['-e', '-c', script], { cwd: folder, env, encoding: 'utf8' });
}

// Why a section can't be run here, or false.
function missing(section) {
    if (process.env.SHAKE === undefined) return 'SHAKE is not set';
    for (const name of BUNDLERS) if (new RegExp(`^import .* from '${name}'`, 'm').test(section) && host(name) === null) return `${name} is not installed`;
    for (const tool of ['esbuild', 'make']) {
        if (new RegExp(`^${tool} `, 'm').test(section) && spawnSync(tool, ['--version']).error) return `${tool} is not installed`;
    }
    return false;
}

const sections = DOCUMENTS.flatMap((name) => fs.readFileSync(path.join(TOP, 'docs', name), 'utf8').split(/^## /m));

for (const section of sections) {
    const blocks = blocksOf(section);
    if (!blocks.some((block) => block.kind === 'sh')) continue;
    const title = section.split('\n')[0].replace(/^# /, '');
    test(title, { skip: missing(section) }, (t) => {
        const folder = prepared(t);
        let last;
        for (const { kind, name, text } of blocks) {
            if (name !== '') {
                const file = path.join(folder, name);
                fs.mkdirSync(path.dirname(file), { recursive: true });
                fs.writeFileSync(file, text);
            } else if (kind === 'sh') {
                last = runScript(folder, text);
                assert.equal(last.stderr, '');
                assert.equal(last.status, 0);
            } else if (kind === 'text') {
                assert.equal(last.stdout, text);
            }
        }
    });
}
