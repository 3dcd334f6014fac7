#!/usr/bin/env node
'use strict';

// The command `zorikham`: files through the program `shake`. docs/COMMAND.md has what it does.

const fs = require('node:fs');
const os = require('node:os');
const path = require('node:path');
const { writeReport } = require('../report/report.js');
const { ShakeError, flagsIn, limiter } = require('../shake.js');
const { decoded, simplifySource } = require('../source.js');
const { help, parse } = require('./arguments.js');
const { inputsOf, writeAll } = require('./files.js');
const { Progress } = require('./progress.js');
const { isRefused, jsonOf, messagesOf, summaryOf } = require('./said.js');
const { UsageError } = require('./usage.js');

const DONE = 0;
const REFUSED = 1;
const USAGE = 2;

function version() {
    const place = path.join(__dirname, '..', '..', 'package.json');
    return JSON.parse(fs.readFileSync(place, 'utf8')).version;
}

async function allOf(stream) {
    const parts = [];
    for await (const part of stream) parts.push(part);
    return Buffer.concat(parts);
}

// Reads one input and runs the passes on it: the input with `text`, and with `code`, `fault`, or `left`. Of a text that is left,
// `lost` has the flags that would replace something in it, and `policy` is what becomes of it.
async function fileOf(input, asked) {
    const file = { ...input, lost: [] };
    try {
        file.bytes = input.place === null ? await allOf(process.stdin) : fs.readFileSync(input.place);
        file.text = decoded(file.bytes);
        Object.assign(file, await simplifySource(file.text, asked.shake));
        if (file.left === undefined) return file;
        file.lost = flagsIn(file.text, asked.shake);
        file.policy = asked.left ?? (file.lost.length > 0 ? 'error' : 'warn');
    } catch (fault) {
        // Others than faults of the text, of the program and of the system are faults of this code.
        if (!(fault instanceof ShakeError) && fault.code === undefined) throw fault;
        file.fault = fault;
    }
    return file;
}

async function filesOf(inputs, asked) {
    const progress = new Progress(process.stderr, inputs.length);
    const limit = limiter(asked.jobs ?? os.availableParallelism());
    try {
        return await Promise.all(inputs.map((input) => limit(async () => {
            const file = await fileOf(input, asked);
            progress.step();
            return file;
        })));
    } finally {
        progress.end();
    }
}

// Writes all of standard output, also to a pipe.
function say(text) {
    return new Promise((resolve, reject) => {
        process.stdout.on('error', reject);
        process.stdout.write(text, (error) => (error ? reject(error) : resolve()));
    });
}

// What is written of a file: a left one is copied, byte by byte.
const outputOf = ({ code, bytes }) => code ?? bytes;

// Writes what is asked for. Returns whether a summary is of use.
async function write(files, asked, status) {
    if (asked.report !== undefined) {
        const read = files.filter(({ text }) => text !== undefined);
        await writeReport(asked.report, read, { options: asked.shake, passes: asked.shake.pass });
    }
    const placed = files.filter(({ output }) => output !== undefined);
    if (status === DONE) writeAll(placed.map((file) => [file.output, outputOf(file)]));
    if (asked.json) await say(jsonOf(status, files));
    else if (status === DONE && placed.length === 0 && files.length === 1) await say(outputOf(files[0]));
    return placed.length > 0 || files.length > 1;
}

async function run(asked) {
    if (asked.files.length === 0 && process.stdin.isTTY) throw new UsageError('there is no FILE, and standard input is a terminal; give - to read it');
    const files = await filesOf(inputsOf(asked), asked);
    for (const message of messagesOf(files)) console.error(message);
    const status = files.some(isRefused) ? REFUSED : DONE;
    if (await write(files, asked, status)) console.error(summaryOf(files));
    return status;
}

async function main(words) {
    try {
        const asked = parse(words);
        if (asked.help) await say(help());
        else if (asked.version) await say(`zorikham ${version()}\n`);
        else return await run(asked);
        return DONE;
    } catch (error) {
        console.error(`zorikham: ${error.message}`);
        if (!(error instanceof UsageError)) return REFUSED;
        console.error('zorikham --help has all options');
        return USAGE;
    }
}

if (require.main === module) {
    main(process.argv.slice(2)).then((status) => {
        process.exitCode = status;
    });
}

module.exports = { main };
