'use strict';

// Which files a command line names, and where their results are written.

const fs = require('node:fs');
const path = require('node:path');
const { PASSES, nearest } = require('../shake.js');
const { UsageError } = require('./usage.js');

const SCRIPT = /\.[cm]?js$/;
const PATTERN = /[*?[{]/;

const isFile = (name) => fs.statSync(name, { throwIfNoEntry: false })?.isFile() ?? false;
const isFolder = (name) => fs.statSync(name, { throwIfNoEntry: false })?.isDirectory() ?? false;

// A pattern with `{a,b}` as the patterns that it stands for.
function expanded(pattern) {
    const found = /^(.*?)\{([^{}]*)\}(.*)$/su.exec(pattern);
    if (found === null) return [pattern];
    const [, head, inner, tail] = found;
    return inner.split(',').flatMap((part) => expanded(head + part + tail));
}

// The regular expression of one part of a pattern: a folder's name or a file's.
function partOf(pattern) {
    const text = pattern.replace(/\[!?[^\]]+\]|[\s\S]/gu, (token) => {
        if (token.length > 2 && token.startsWith('[')) return token.replace(/\\/g, '\\\\').replace(/^\[!/, '[^');
        if (token === '*') return '.*';
        if (token === '?') return '.';
        return token.replace(/[.+^$()|\\[\]{}/]/, '\\$&');
    });
    try {
        return new RegExp(`^${text}$`, 'su');
    } catch {
        throw new UsageError(`${pattern} isn't a pattern`);
    }
}

// The names in a folder that aren't hidden, nor `node_modules`, unless the pattern says them itself.
function namesIn(folder, pattern = '') {
    const found = fs.readdirSync(folder, { withFileTypes: true });
    const seen = found.filter(({ name }) => (pattern.startsWith('.') || !name.startsWith('.')) && name !== 'node_modules');
    return seen.map((entry) => entry.name).sort();
}

// The files of a folder and of those in it, whose names pass a test.
function filesIn(folder, test) {
    return namesIn(folder).flatMap((name) => {
        const place = path.join(folder, name);
        if (isFolder(place)) return filesIn(place, test);
        return test(name) && isFile(place) ? [place] : [];
    });
}

// The files that fit the parts of a pattern, from a folder on.
function fitting(folder, [part, ...rest]) {
    if (part === '**') {
        const deeper = namesIn(folder || '.').map((name) => path.join(folder, name)).filter(isFolder);
        return [...(rest.length === 0 ? [] : fitting(folder, rest)), ...deeper.flatMap((place) => fitting(place, ['**', ...rest]))];
    }
    const test = PATTERN.test(part) ? partOf(part) : null;
    const names = test === null ? [part] : namesIn(folder || '.', part).filter((name) => test.test(name));
    const places = names.map((name) => (folder === '' ? name : path.join(folder, name)));
    if (rest.length === 0) return places.filter(isFile);
    return places.filter(isFolder).flatMap((place) => fitting(place, rest));
}

// The files of one word.
function filesOf(word) {
    if (isFile(word)) return [word];
    if (isFolder(word)) {
        const found = filesIn(word, (name) => SCRIPT.test(name));
        if (found.length === 0) throw new UsageError(`the folder ${word} has no .js, .mjs or .cjs file`);
        return found;
    }
    if (PATTERN.test(word)) {
        const found = expanded(word).flatMap((pattern) => {
            const parts = path.normalize(pattern).split(path.sep);
            return path.isAbsolute(pattern) ? fitting(path.sep, parts.slice(1)) : fitting('', parts);
        });
        if (found.length === 0) throw new UsageError(`no file fits ${word}`);
        return found;
    }
    if (fs.existsSync(word)) throw new UsageError(`${word} is neither a file nor a folder`);
    const pass = nearest(word, PASSES);
    throw new UsageError(`there is no file ${word}${pass === null ? '' : `; a pass is given by --passes ${pass}`}`);
}

// The deepest folder that has all of the files.
function baseOf(places) {
    const parts = places.map((place) => path.dirname(path.resolve(place)).split(path.sep));
    let depth = 0;
    while (parts.every((part) => part.length > depth && part[depth] === parts[0][depth])) depth += 1;
    return parts[0].slice(0, depth).join(path.sep) || path.sep;
}

function outputIn({ outdir, outbase }, base, place) {
    const inside = path.relative(outbase === undefined ? base : path.resolve(outbase), path.resolve(place));
    if (inside.startsWith('..')) throw new UsageError(`${place} isn't in the folder ${outbase} of --outbase`);
    return path.join(outdir, inside);
}

const real = (place) => (fs.existsSync(place) ? fs.realpathSync(place) : path.resolve(place));

/**
 * Returns the inputs in order, each once: `{ name, place, output }`. `place` is null for standard input, `output` undefined
 * for standard output. Throws a UsageError where a file isn't there, where several results would be written to one place, or
 * where a result would replace an input.
 */
function inputsOf(asked) {
    const words = asked.files.length === 0 ? ['-'] : asked.files;
    const places = [...new Set(words.flatMap((word) => (word === '-' ? [word] : filesOf(word).map((place) => path.normalize(place)))))];
    const files = places.filter((place) => place !== '-');
    if (asked.outdir !== undefined && places.includes('-')) throw new UsageError('standard input has no place in --outdir; give -o FILE');
    if (places.length > 1 && asked.outfile !== undefined) throw new UsageError(`-o is for one file, and there are ${places.length}; give --outdir DIR`);
    if (places.length > 1 && asked.outdir === undefined && !asked.json && asked.report === undefined) {
        throw new UsageError(`there are ${places.length} files; give --outdir DIR, --json or --report FILE.html`);
    }
    const base = files.length === 0 ? '' : baseOf(files);
    const inputs = places.map((place) => {
        const output = asked.outdir === undefined ? asked.outfile : outputIn(asked, base, place);
        return place === '-' ? { name: '<stdin>', place: null, output } : { name: place, place, output };
    });
    const sources = new Set(files.map(real));
    for (const place of [...inputs.map(({ output }) => output), asked.report]) {
        if (place !== undefined && sources.has(real(place))) throw new UsageError(`${place} would replace a file that is read`);
    }
    return inputs;
}

/** Writes texts to files, all of them to files beside first, so that no file is half written: `[[place, text]]`. */
function writeAll(outputs) {
    const parts = [];
    try {
        for (const [place, text] of outputs) {
            fs.mkdirSync(path.dirname(place), { recursive: true });
            const part = `${place}.${process.pid}.part`;
            parts.push(part);
            fs.writeFileSync(part, text);
        }
        outputs.forEach(([place], i) => fs.renameSync(parts[i], place));
    } finally {
        for (const part of parts) fs.rmSync(part, { force: true });
    }
}

module.exports = { inputsOf, writeAll };
