'use strict';

// The command line of `zorikham`: its options, in one table, and what a list of words asks for.

const { PASSES, suggestion } = require('../shake.js');
const { UsageError } = require('./usage.js');

const LEFT = ['error', 'warn', 'copy'];

// The value is one of some words.
function oneOf(name, word, known) {
    if (known.includes(word)) return word;
    throw new UsageError(`--${name}: unknown ${name === 'left' ? 'policy' : 'pass'} ${word}${suggestion(word, known)} (${known.join(', ')})`);
}

function countOf(name, text, least) {
    if (/^\d+$/.test(text) && Number(text) >= least) return Math.min(Number(text), Number.MAX_SAFE_INTEGER);
    throw new UsageError(`--${name}: ${text} isn't a whole number of at least ${least}`);
}

// The key and the value of a flag: a key ends at the first `=`.
function givenOf(name, word) {
    const at = word.indexOf('=');
    if (at > 0) return [word.slice(0, at), word.slice(at + 1)];
    throw new UsageError(`--${name}: ${word} has no ${at === 0 ? 'key in front of its =' : '= behind its key'}`);
}

// The name of a module ends at the last `:` in front of the `=`.
function givenOfModule(word) {
    const [key, value] = givenOf('const', word);
    const at = key.lastIndexOf(':');
    if (at > 0 && at < key.length - 1) return [key.slice(0, at), key.slice(at + 1), value];
    throw new UsageError(`--const: ${word} isn't MODULE:NAME=EXPRESSION`);
}

// Adds a value by a key, also by one as `__proto__`.
function add(object, key, value) {
    Object.defineProperty(object, key, { value, enumerable: true, configurable: true, writable: true });
}

function addConst(all, word) {
    const [module, name, value] = givenOfModule(word);
    if (!Object.hasOwn(all, module)) add(all, module, {});
    add(all[module], name, value);
}

/**
 * The options. `value` is what an option takes, if it takes anything; `take` notes it in what is asked for; `short` is
 * another name. Those with `shake` are options of the program.
 */
const OPTIONS = [
    { name: 'outfile', short: 'o', value: 'FILE', help: 'write the result to FILE', take: (asked, text) => { asked.outfile = text; } },
    { name: 'outdir', value: 'DIR', help: 'write each result to a file in DIR', take: (asked, text) => { asked.outdir = text; } },
    { name: 'outbase', value: 'DIR', help: 'the folder that --outdir mirrors: without it, the deepest that has all files', take: (asked, text) => { asked.outbase = text; } },
    { name: 'passes', value: 'PASS[,PASS]*', help: `the passes, in a row, again until nothing changes: ${PASSES.join(', ')}`, take: (asked, text) => { asked.shake.pass = text.split(',').map((word) => oneOf('passes', word, PASSES)); } },
    { name: 'keep-top', shake: true, help: 'keep what is declared at the top level', take: (asked) => { asked.shake.keepTop = true; } },
    { name: 'retain', shake: true, value: 'NAME', help: 'keep what is declared with this name', take: (asked, text) => { asked.shake.retain.push(text); } },
    { name: 'drop-imports', shake: true, help: 'remove an import once all of its names are removed', take: (asked) => { asked.shake.dropImports = true; } },
    { name: 'verbatim', shake: true, help: 'read every module: keep word for word what isn\'t in the core', take: (asked) => { asked.shake.verbatim = true; } },
    { name: 'compact', shake: true, help: 'write no white space that isn\'t needed', take: (asked) => { asked.shake.compact = true; } },
    { name: 'rounds', shake: true, value: 'N', help: 'the most rounds of simplify and optimize', take: (asked, text) => { asked.shake.rounds = countOf('rounds', text, 0); } },
    { name: 'min-cost', shake: true, value: 'N', help: 'json replaces literals of at least N bytes of JSON (1024)', take: (asked, text) => { asked.shake.minCost = countOf('min-cost', text, 0); } },
    { name: 'define', shake: true, value: 'KEY=EXPRESSION', help: 'replace reads of a name or of members, as a.b', take: (asked, text) => add(asked.shake.define, ...givenOf('define', text)) },
    { name: 'env', shake: true, value: 'KEY=TEXT', help: 'replace process.env.KEY', take: (asked, text) => add(asked.shake.env, ...givenOf('env', text)) },
    { name: 'typeof', shake: true, value: 'NAME=TEXT', help: 'replace typeof NAME', take: (asked, text) => add(asked.shake.typeof, ...givenOf('typeof', text)) },
    { name: 'const', shake: true, value: 'MODULE:NAME=EXPRESSION', help: 'replace an import of a module that the build knows', take: (asked, text) => addConst(asked.shake.const, text) },
    { name: 'left', value: LEFT.join('|'), help: 'what becomes of files that the program leaves as they are (warn)', take: (asked, text) => { asked.left = oneOf('left', text, LEFT); } },
    { name: 'report', value: 'FILE.html', help: 'write a page about what was removed and what was left', take: (asked, text) => { asked.report = text; } },
    { name: 'json', help: 'write the result as JSON to standard output', take: (asked) => { asked.json = true; } },
    { name: 'jobs', value: 'N', help: 'how many files at once (the number of processors)', take: (asked, text) => { asked.jobs = countOf('jobs', text, 1); } },
    { name: 'program', value: 'FILE', help: 'the program shake', take: (asked, text) => { asked.shake.program = text; } },
    { name: 'help', short: 'h', help: 'write this', take: (asked) => { asked.help = true; } },
    { name: 'version', short: 'v', help: 'write the version', take: (asked) => { asked.version = true; } },
];

// The option of a word: by its name, or by its short name.
function optionOf(word) {
    const found = OPTIONS.find(({ name, short }) => word === `--${name}` || word === `-${short}`);
    if (found !== undefined) return found;
    const known = OPTIONS.map(({ name }) => `--${name}`);
    // `--define:KEY=VALUE`, as esbuild has it.
    throw new UsageError(`unknown option ${word}${suggestion(word.split(':')[0], known)}`);
}

// The value of an option: behind its `=`, or the next word.
function valueOf(option, word, inline, rest) {
    if (inline !== undefined) return inline;
    const next = rest[0];
    if (next === undefined || (next.startsWith('-') && OPTIONS.some(({ name, short }) => next === `--${name}` || next === `-${short}`))) {
        throw new UsageError(`${word} needs ${option.value} behind it`);
    }
    return rest.shift();
}

function takeOption(asked, word, rest) {
    const at = word.startsWith('--') ? word.indexOf('=') : -1;
    const [name, inline] = at < 0 ? [word, undefined] : [word.slice(0, at), word.slice(at + 1)];
    const option = optionOf(name);
    if (option.value === undefined) {
        if (inline !== undefined) throw new UsageError(`${name} takes no value`);
        option.take(asked);
    } else {
        option.take(asked, valueOf(option, name, inline, rest));
    }
}

// Which options don't go together.
function check(asked) {
    if (asked.outfile !== undefined && asked.outdir !== undefined) throw new UsageError('-o and --outdir can\'t be given together');
    if (asked.outbase !== undefined && asked.outdir === undefined) throw new UsageError('--outbase is of no use without --outdir');
    return asked;
}

/**
 * Returns what the words ask for: `files` and the options; those of the program are in `shake`, as the plugins have them.
 * Throws a UsageError.
 */
function parse(words) {
    const shake = { pass: ['simplify'], retain: [], define: {}, env: {}, typeof: {}, const: {} };
    const asked = { files: [], json: false, help: false, version: false, shake };
    const rest = [...words];
    while (rest.length > 0) {
        const word = rest.shift();
        if (word === '--') asked.files.push(...rest.splice(0));
        else if (word.startsWith('-') && word !== '-') takeOption(asked, word, rest);
        else asked.files.push(word);
    }
    return asked.help || asked.version ? asked : check(asked);
}

/** Returns the text of `--help`. */
function help() {
    const rows = OPTIONS.map(({ name, short, value, help: text }) => {
        const names = short === undefined ? `    --${name}` : `-${short}, --${name}`;
        const head = `  ${names}${value === undefined ? '' : ` ${value}`}`;
        return head.length < 34 ? `${head.padEnd(34)}${text}` : `${head}\n${' '.repeat(34)}${text}`;
    });
    return `Usage: zorikham [OPTION]* [FILE]*

Simplifies modules of JavaScript. A FILE is a file, a folder, or a pattern
with *, **, ?, [..] and {..}; without one, or for -, standard input is read.
A single result is written to standard output, unless it has a file.

${rows.join('\n')}

Status 0: all is done. 1: something was refused, and nothing is written.
2: the command line isn't understood. docs/COMMAND.md has all of it.
`;
}

module.exports = { help, parse };
