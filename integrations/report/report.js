'use strict';

// The report of a build for people: a page with a map of its modules, what was removed of each, what was left and why, and
// what is claimed.

const fs = require('node:fs');
const os = require('node:os');
const path = require('node:path');
const { excerptOf } = require('../excerpt.js');
const { flagsIn, limiter } = require('../shake.js');
const { simplifySource } = require('../source.js');
const { UNTOUCHED, claimsOf } = require('./claims.js');
const { diff, hunks } = require('./diff.js');
const { laidOut } = require('./layout.js');
const { pageOf, summaryOf } = require('./page.js');

const CLAIM = path.join(__dirname, '..', '..', 'docs', 'CLAIM.md');
// Lines of both texts around a change.
const CONTEXT = 2;
// How many lines of differences are in a page, in one module's and in each module's at least, and how long a line may be.
const LINES = { page: 200_000, module: 2_000, least: 50, length: 1_000 };

// The pass json replaces nothing where no literal is long enough: what it prints is the module as it is.
const PRINTING = { pass: 'json', minCost: Number.MAX_SAFE_INTEGER };

/** Returns the text that the program prints of a module without changing it, or undefined where it prints none. */
async function printed(text, program) {
    try {
        return (await simplifySource(text, { ...PRINTING, program })).code;
    } catch {
        return undefined;
    }
}

const short = (line) => (line.length <= LINES.length ? line : `${line.slice(0, LINES.length)} .. (${line.length - LINES.length} more)`);

// The first parts of a difference, up to a number of lines, and how many lines are left out.
function firstOf(parts, most) {
    const found = [];
    let [room, more] = [most, 0];
    for (const { line, lines } of parts) {
        const taken = lines.slice(0, room).map(([kind, text]) => [kind, short(text)]);
        if (taken.length > 0) found.push({ line, lines: taken });
        room -= taken.length;
        more += lines.length - taken.length;
    }
    return { hunks: found, more };
}

// What the page says of one module.
function entryOf({ name, text, code, left, fault }, print, options) {
    const before = Buffer.byteLength(text);
    if (code === undefined) {
        const { line, column } = left ?? fault;
        const source = line === undefined ? undefined : excerptOf(text, { line, column });
        const reason = left === undefined ? fault.reason ?? fault.message : left.reason;
        const lost = flagsIn(text, options);
        return { name, result: left === undefined ? 'refused' : 'left', before, after: before, reason, line, column, source, lost };
    }
    const size = print === undefined ? undefined : Buffer.byteLength(print);
    return { name, result: 'simplified', before, after: Buffer.byteLength(code), printed: size };
}

// What ran, in words.
function ranOf(passes, options) {
    const flags = ['define', 'env', 'typeof', 'const'].filter((flag) => Object.keys(options[flag] ?? {}).length > 0).map((flag) => `--${flag}`);
    return `Passes: ${passes.join(', ')}. Flags: ${flags.length === 0 ? 'none' : flags.join(', ')}.`;
}

/**
 * Returns the page on some modules as a text. Each is `{ name, text }` with `code` where it was simplified (and with `print`,
 * the text that the program prints of it without a change, where that is known), with
 * `left: { reason, line, column }` where it was left as it is, or with `fault: { message, line, column }`. Lines are counted
 * from 1 and columns from 0. `passes` are those that ran, with `options`, those of a plugin; `how` says what the modules are.
 */
async function reportOf(modules, { options = {}, passes, how = '', claimLink }) {
    const limit = limiter(os.availableParallelism());
    const printOf = ({ code, text, print }) => (code === undefined ? undefined : print ?? limit(() => printed(text, options.program)));
    const prints = await Promise.all(modules.map(printOf));
    let room = LINES.page;
    const entries = modules.map((module, i) => {
        const entry = entryOf(module, prints[i], options);
        entry.summary = summaryOf(entry);
        entry.claim = entry.result === 'simplified' ? 0 : 1;
        if (entry.result !== 'simplified') return entry;
        const most = Math.max(Math.min(room, LINES.module), LINES.least);
        const found = firstOf(hunks(diff(laidOut(prints[i] ?? module.text), laidOut(module.code)), CONTEXT), most);
        room -= found.hunks.reduce((sum, { lines }) => sum + lines.length, 0);
        return Object.assign(entry, found);
    });
    return pageOf({ modules: entries, claims: [claimsOf(passes, options), UNTOUCHED], how: `${ranOf(passes, options)}${how === '' ? '' : ` Of ${how}.`}`, claimLink });
}

/** Writes the page that `reportOf` returns to a file. Its link to the claims leads to the document beside this code. */
async function writeReport(file, modules, about) {
    const folder = path.dirname(path.resolve(file));
    const claimLink = path.relative(folder, CLAIM).split(path.sep).map(encodeURIComponent).join('/');
    const page = await reportOf(modules, { ...about, claimLink });
    fs.mkdirSync(folder, { recursive: true });
    fs.writeFileSync(file, page);
}

module.exports = { reportOf, writeReport };
