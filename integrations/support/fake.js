#!/usr/bin/env node
'use strict';

// Replaces `shake` in the tests of the plugins: it has the same arguments, ends with the same statuses and writes the
// same lines, by words in the text. It simplifies only `1 + 2` and `if (0) f(..);`.

const fs = require('node:fs');

const PASSES = ['simplify', 'optimize', 'expr', 'branch', 'dce', 'json', 'const', 'inline'];
const SWITCHES = ['--keep-top', '--drop-imports', '--compact'];
const VALUED = ['--retain', '--rounds', '--min-cost', '--define', '--env', '--typeof', '--const'];

function understands([pass, ...words]) {
    if (!PASSES.includes(pass)) return false;
    while (words.length > 0) {
        const word = words.shift();
        if (SWITCHES.includes(word)) continue;
        if (!VALUED.includes(word) || words.shift() === undefined) return false;
    }
    return true;
}

function refuse(status, said) {
    fs.writeSync(2, `shake: ${said}\n`);
    process.exit(status);
}

// The faults, each with the text that it is found by. `AT` stands for the offset.
const FAULTS = [
    [/@(?!__)/, 'syntax at AT'],
    [/\bclass\b/, 'out of core at AT: Class'],
    [/\b\d{17,}\b/, 'number range at AT'],
    [/TOO_DEEP/, 'too deep'],
    [/TOO_LONG/, 'too long'],
    [/CAPTURED/, 'captured x1'],
    [/MEMORY/, 'out of memory'],
];

const words = process.argv.slice(2);
if (!understands(words)) refuse(2, 'arguments');
// A value that isn't read.
for (const word of words) if (word.endsWith('=(')) refuse(1, `given ${word.slice(0, -2)}: syntax at 1`);
const text = fs.readFileSync(0, 'utf8');
if (text.includes('OLD')) refuse(2, 'arguments');
if (text.includes('CRASH')) process.kill(process.pid, 'SIGKILL');
for (const [pattern, said] of FAULTS) {
    const found = pattern.exec(text);
    if (found !== null) refuse(1, said.replace('AT', Buffer.byteLength(text.slice(0, found.index))));
}
process.stdout.write(text.replace(/\b1 \+ 2\b/g, '3').replace(/if \(0\)\s+[^;{}]*;/g, '').replace(/^\/\/# .*$/gm, ''));
