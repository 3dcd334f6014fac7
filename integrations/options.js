'use strict';

// The options of a plugin: what each may be, and the words of the command line that they become.

const { suggestion } = require('./nearest.js');

/**
 * A fault of the build. `line` is counted from 1 and `column` from 0; both are undefined where the fault has no place. `reason`
 * is the message without the name of this package.
 */
class ShakeError extends Error {
    constructor(reason, place = {}) {
        super(`zorikham: ${reason}`);
        this.name = 'ShakeError';
        this.reason = reason;
        this.line = place.line;
        this.column = place.column;
    }
}

/** The names of the passes. */
const PASSES = ['simplify', 'optimize', 'expr', 'branch', 'dce', 'const', 'inline', 'json'];
/** What a run of the program may be given: modules as the bundler loads them, or chunks as it makes them. */
const UNITS = ['module', 'chunk'];

const isText = (value) => typeof value === 'string';
const isObject = (value) => typeof value === 'object' && value !== null && !Array.isArray(value);
const isListOf = (test) => (value) => Array.isArray(value) && value.every(test);
const isOneOrList = (test) => (value) => test(value) || (isListOf(test)(value) && value.length > 0);

// Returns a check that throws where a value fails a test.
const must = (test, what) => (name, value) => {
    if (!test(value)) throw new ShakeError(`${name} must be ${what}`);
};

// A key ends at the first `=` on the command line, so none holds one.
function checkKey(name, key, without) {
    const found = [...without].find((character) => key.includes(character));
    if (found !== undefined) throw new ShakeError(`${name}: the key "${key}" has a "${found}"`);
    if (key === '') throw new ShakeError(`${name} has an empty key`);
}

// Returns the check of an object of texts by keys.
const given = (what, without = '=') => (name, value) => {
    if (!isObject(value)) throw new ShakeError(`${name} must be an object of strings`);
    for (const [key, text] of Object.entries(value)) {
        checkKey(name, key, without);
        if (!isText(text)) throw new ShakeError(`${name}.${key} must be ${what}`);
    }
};

const JAVASCRIPT = 'a string of JavaScript ("true")';

function checkModules(name, value) {
    if (!isObject(value)) throw new ShakeError(`${name} must be an object of modules`);
    for (const [module, values] of Object.entries(value)) {
        checkKey(name, module, '=');
        given(JAVASCRIPT, '=:')(`${name}.${module}`, values);
    }
}

function checkPass(name, value) {
    must(isOneOrList(isText), 'the name of a pass or a list of names')(name, value);
    for (const pass of [value].flat()) {
        if (!PASSES.includes(pass)) throw new ShakeError(`unknown pass "${pass}"${suggestion(pass, PASSES)} (${PASSES.join(', ')})`);
    }
}

const isFlag = must((value) => typeof value === 'boolean', 'true or false');
const isCount = must((value) => Number.isSafeInteger(value) && value >= 0, 'a whole number');

const CHECKS = {
    program: must(isOneOrList(isText), 'a path or a list of words'),
    unit: must(isOneOrList((value) => UNITS.includes(value)), '"module", "chunk" or a list of both'),
    left: must((value) => value === 'warn', '"warn"'),
    pass: checkPass,
    keepTop: isFlag,
    retain: must(isListOf(isText), 'a list of names'),
    dropImports: isFlag,
    rounds: isCount,
    minCost: isCount,
    compact: isFlag,
    verbatim: isFlag,
    define: given(JAVASCRIPT),
    env: given('a string'),
    typeof: given('a string'),
    const: checkModules,
    report: must((value) => value === false || isText(value) || typeof value === 'function', 'false, a file or a function'),
};

/** Throws a ShakeError where an option is unknown or its value is of the wrong kind. */
function checkOptions(options) {
    for (const [name, value] of Object.entries(options)) {
        if (!Object.hasOwn(CHECKS, name)) throw new ShakeError(`there is no option ${name}${suggestion(name, Object.keys(CHECKS))}`);
        if (value !== undefined) CHECKS[name](name, value);
    }
}

/** Returns the names of the passes that run, in a row. */
const passesOf = (options) => [options.pass ?? 'simplify'].flat();

/** Returns the units of which the program gets one at a time: `module`, `chunk` or both. */
const unitsOf = (options) => new Set([options.unit ?? 'module'].flat());

// The words of the flags.
function wordsOfFlags(options) {
    const words = [];
    for (const flag of ['define', 'env', 'typeof']) {
        for (const [key, text] of Object.entries(options[flag] ?? {})) words.push(`--${flag}`, `${key}=${text}`);
    }
    for (const [module, values] of Object.entries(options.const ?? {})) {
        for (const [key, text] of Object.entries(values)) words.push('--const', `${module}:${key}=${text}`);
    }
    return words;
}

/** Returns the words of the command line for one pass, the first without a name. Throws as `checkOptions` does. */
function wordsOf(options = {}, pass = passesOf(options)[0]) {
    checkOptions(options);
    const words = [pass];
    if (options.keepTop) words.push('--keep-top');
    for (const name of options.retain ?? []) words.push('--retain', name);
    if (options.dropImports) words.push('--drop-imports');
    if (options.rounds !== undefined) words.push('--rounds', String(options.rounds));
    if (options.minCost !== undefined) words.push('--min-cost', String(options.minCost));
    if (options.compact) words.push('--compact');
    if (options.verbatim) words.push('--verbatim');
    return [...words, ...wordsOfFlags(options)];
}

/** Returns the options without flags. */
function withoutFlags({ define, env, typeof: types, const: modules, ...others }) {
    return others;
}

module.exports = { PASSES, ShakeError, checkOptions, passesOf, unitsOf, withoutFlags, wordsOf };
