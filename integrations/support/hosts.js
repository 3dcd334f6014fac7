'use strict';

// Finds the bundlers that are installed, and runs what they build.

const { execFileSync } = require('node:child_process');
const fs = require('node:fs');
const Module = require('node:module');
const os = require('node:os');
const path = require('node:path');

const fake = [process.execPath, path.join(__dirname, 'fake.js')];
const real = process.env.SHAKE;

// Debian puts its packages of node in folders that another node doesn't look at by itself.
function lookAtDebianFolders() {
    const found = ['/usr/share/nodejs', '/usr/lib/nodejs'];
    for (const name of fs.existsSync('/usr/lib') ? fs.readdirSync('/usr/lib') : []) found.push(`/usr/lib/${name}/nodejs`);
    const folders = found.filter((folder) => fs.existsSync(folder));
    process.env.NODE_PATH = [process.env.NODE_PATH, ...folders].filter(Boolean).join(path.delimiter);
    Module._initPaths();
}

// Debian's webpack asks Debian's node for the folders of its packages; another node doesn't know of them.
function suitDebianWebpack() {
    const { variables } = process.config;
    if (variables.node_relative_path !== undefined) return;
    const known = { ...variables, node_prefix: '/usr', node_relative_path: 'share/nodejs:lib/nodejs' };
    Object.defineProperty(process, 'config', { value: { ...process.config, variables: known }, configurable: true });
}

lookAtDebianFolders();
suitDebianWebpack();

/** Returns the module of a bundler, or null where it isn't installed or doesn't load. */
function host(name) {
    try {
        const found = require(name);
        // Webpack loads its parts when they are asked for, and Debian's does so in Debian's node alone.
        if (name === 'webpack') void found.Compiler.name;
        return found;
    } catch {
        return null;
    }
}

/** Returns the folder of an installed package, or null. */
function folderOf(name) {
    const paths = (require.resolve.paths(name) ?? []).map((folder) => path.join(folder, name));
    return paths.find((folder) => fs.existsSync(path.join(folder, 'package.json'))) ?? null;
}

/** Writes files into a folder, by their names. */
function writeAll(folder, files) {
    for (const [name, text] of Object.entries(files)) {
        const file = path.join(folder, name);
        fs.mkdirSync(path.dirname(file), { recursive: true });
        fs.writeFileSync(file, text);
    }
}

/** Returns an empty folder that goes when the test ends. */
function room(t) {
    const folder = fs.mkdtempSync(path.join(os.tmpdir(), 'shake-'));
    t.after(() => fs.rmSync(folder, { recursive: true }));
    return folder;
}

/** Returns what node writes when it runs a file. */
function runs(file) {
    return execFileSync(process.execPath, [file], { encoding: 'utf8', stdio: 'pipe' });
}

const example = (name) => path.join(__dirname, '..', 'example', name);

module.exports = { example, fake, folderOf, host, program: real ?? fake, room, runs, writeAll };
