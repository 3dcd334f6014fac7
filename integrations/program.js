'use strict';

// The program: where it is looked for, and how it is run.

const { spawn } = require('node:child_process');
const fs = require('node:fs');
const path = require('node:path');
const { ShakeError } = require('./options.js');

const TOP = path.join(__dirname, '..');
// The program of a package, and that of a repository in which it was built.
const BESIDE = [path.join(TOP, 'bin', 'shake'), path.join(TOP, 'crates', 'shake', 'out', 'shake')];
const NEEDS = 'it needs x86-64 Linux with glibc 2.34 or later';

/**
 * Returns the command of the program: the option `program`, or the program beside this package, or the variable `SHAKE`, or
 * `shake` of the path.
 */
function commandOf(options) {
    if (options.program !== undefined) return [options.program].flat();
    return [BESIDE.find((file) => fs.existsSync(file)) ?? (process.env.SHAKE || 'shake')];
}

// Where the program was looked for, as a message says it.
function lookedAt(options) {
    if (options.program !== undefined) return `the option program is ${[options.program].flat().join(' ')}`;
    const [file, built] = BESIDE;
    const said = !process.env.SHAKE ? 'SHAKE is not set, and there is no shake on the path' : `SHAKE is ${process.env.SHAKE}`;
    return `there is no ${file} and no ${built}, ${said}`;
}

// The fault of a program that doesn't start.
function missing(options, error) {
    if (error.code === 'ENOENT') {
        const advice = 'Set the option program or SHAKE to a built shake; the README of zorikham says how to get one';
        return new ShakeError(`the program isn't found: ${lookedAt(options)}. ${advice}`);
    }
    return new ShakeError(`the program can't be run: ${error.message}; ${NEEDS}`);
}

// A tree has millions of small nodes. With memory in pages of 2 MB, which Linux gives a program that asks for them, and with
// thousands of freed nodes of each size at hand for new ones, the program takes up to a quarter less time (docs/BENCH.md). glibc
// does so where this variable says it; other systems don't read it.
const MEMORY = 'glibc.malloc.hugetlb=1:glibc.malloc.top_pad=67108864:glibc.malloc.tcache_count=4000';

/** Returns the variables that the program is started with: those of this process, and what asks for memory so unless it is set. */
function environment() {
    return { GLIBC_TUNABLES: MEMORY, ...process.env };
}

// Runs a command on a text.
function runCommand([program, ...words], text, options) {
    return new Promise((resolve, reject) => {
        const child = spawn(program, words, { stdio: ['pipe', 'pipe', 'pipe'], env: environment() });
        const parts = { stdout: [], stderr: [] };
        for (const stream of ['stdout', 'stderr']) child[stream].on('data', (part) => parts[stream].push(part));
        const whole = (stream) => Buffer.concat(parts[stream]).toString('utf8');
        child.on('error', (error) => reject(missing(options, error)));
        child.on('close', (status, signal) => resolve({ status, signal, output: whole('stdout'), errors: whole('stderr') }));
        // The program may end before it has read everything.
        child.stdin.on('error', () => {});
        child.stdin.end(text, 'utf8');
    });
}

/**
 * Runs the program with some words on a text. Returns `{ code }` where its status is 0, else `{ status, said }`, the line that
 * it wrote. Throws a ShakeError where it isn't found, can't be run, was ended by a signal, or ended without a word.
 */
async function run(words, text, options) {
    const { status, signal, output, errors } = await runCommand([...commandOf(options), ...words], text, options);
    if (status === 0) return { code: output };
    if (signal !== null) throw new ShakeError(`the program was ended by ${signal}`);
    if (/GLIBC_/.test(errors)) throw new ShakeError(`the program can't be run: ${NEEDS}`);
    const said = errors.trimEnd().replace(/^shake: /, '');
    if (said === '') throw new ShakeError(`the program ended with status ${status}`);
    return { status, said };
}

module.exports = { commandOf, run };
