'use strict';

// What the plugins and the front end share: one text is simplified, or left with a reason.

const os = require('node:os');
const { flagsIn } = require('./flags.js');
const { SyntaxFault, faultOf, reasonOf } = require('./messages.js');
const { nearest, suggestion } = require('./nearest.js');
const { PASSES, ShakeError, checkOptions, passesOf, unitsOf, withoutFlags, wordsOf } = require('./options.js');
const { placeAt, placeOf, shownPlace } = require('./places.js');
const { commandOf, run } = require('./program.js');
const { Report, linesOf, mapWarning, mapsWarning, noteOf } = require('./report.js');
const { annotationIn, isModule, licenceComments, withLicence } = require('./words.js');

// Passes in a row come to an end by themselves; this many rounds are no endless loop.
const MOST_ROUNDS = 100;

// Runs one pass on a text. Returns `{ code }` or `{ left }`.
async function runPass(pass, text, options) {
    const { code, status, said } = await run(wordsOf(options, pass), text, options);
    if (code !== undefined) return { code };
    const left = status === 1 ? reasonOf(said, text) : null;
    if (left !== null) return { left };
    throw faultOf(said, text, options);
}

/**
 * Simplifies one text. Returns `{ code }`, or `{ left }` with the reason where the text is left as it is. Throws a
 * ShakeError where the text has a syntax error or the program fails. Several passes run in turn until none changes anything;
 * flags are for the first of them that reads the text.
 */
async function simplify(text, options = {}) {
    checkOptions(options);
    if (!text.isWellFormed()) return { left: { reason: 'a lone surrogate' } };
    const passes = passesOf(options);
    if (passes.length === 1) return runPass(passes[0], text, options);
    let [current, result] = [text, undefined];
    for (let [turn, still] = [0, 0]; still < passes.length && turn < passes.length * MOST_ROUNDS; turn += 1) {
        const read = result?.code !== undefined;
        const answer = await runPass(passes[turn % passes.length], current, read ? withoutFlags(options) : options);
        still = answer.code === undefined || answer.code === current ? still + 1 : 0;
        if (!read) result ??= answer;
        if (answer.code !== undefined) [current, result] = [answer.code, answer];
    }
    return result;
}

/** Returns the fault of a text that was left though flags would replace something in it: `found` is what `flagsIn` returns. */
function lostFlags(name, left, found) {
    const names = found.map((flag) => flag.name).join(', ');
    const advice = 'give the flag to the bundler instead (its own define), or set left: "warn"';
    return new ShakeError(`${shownPlace(name, left)}: left as it is: ${left.reason}; so nothing replaces ${names} in it: ${advice}`, found[0]);
}

/** Returns a function that runs tasks, at most `count` of them at once. */
function limiter(count) {
    const waiting = [];
    let running = 0;
    return async (task) => {
        if (running === count) await new Promise((wake) => waiting.push(wake));
        else running += 1;
        try {
            return await task();
        } finally {
            if (waiting.length > 0) waiting.shift()();
            else running -= 1;
        }
    };
}

// Why a module isn't given to the program, or null. `module` says that the bundler takes it for an ES module.
function reasonToSkip(text, options, module) {
    if (!module && !isModule(text)) return { reason: 'no ES module' };
    const at = annotationIn(text);
    // The output has no comments. Where a flag is read, it is the greater loss.
    if (at === null || flagsIn(text, options).length > 0) return null;
    return { reason: 'an annotation for the bundler (#__PURE__), which the output would not have', ...placeAt(text, at) };
}

// The code of a module, which is one by its words if the text is: bundlers take another file for a script or for CommonJS.
function markedAs(text, code) {
    return isModule(text) && !isModule(code) ? `${code}export {};\n` : code;
}

/** One build: simplifies its modules and chunks side by side. */
class Shaker {
    /** `keepTop` says whether what chunks declare at the top stays, where the option `keepTop` doesn't say it. */
    constructor(options = {}, { keepTop = false } = {}) {
        checkOptions(options);
        this.options = options;
        this.chunkOptions = { ...options, keepTop: options.keepTop ?? keepTop };
        this.limit = limiter(os.availableParallelism());
    }

    // Adds the fault of lost flags to what `simplify` returned: throws it, or returns it as `warning`.
    checked(name, text, result) {
        if (result.left === undefined) return { code: withLicence(text, result.code) };
        const found = flagsIn(text, this.options);
        if (found.length === 0) return result;
        const fault = lostFlags(name, result.left, found);
        if (this.options.left !== 'warn') throw fault;
        return { ...result, warning: fault };
    }

    /** Returns `{ left }` for a text that isn't simplified for a reason, with `warning` as `chunk` does. */
    leave(name, text, reason) {
        return this.checked(name, text, { left: { reason } });
    }

    /**
     * Simplifies a chunk. Returns `{ code }`, or `{ left }` where the chunk stays as it is, with `warning` where flags are
     * lost. Throws as `simplify` does, and where flags are lost and the option `left` doesn't say otherwise.
     */
    async chunk(name, text) {
        return this.checked(name, text, await this.limit(() => simplify(text, this.chunkOptions)));
    }

    /**
     * Simplifies a module, as `chunk` does. `module` says that the bundler takes it for an ES module; where it isn't so by
     * its words either, it stays as it is. A text with a syntax error is left too: the bundler may read more than the program.
     */
    async module(name, text, { module = false } = {}) {
        const skipped = reasonToSkip(text, this.options, module);
        if (skipped !== null) return this.checked(name, text, { left: skipped });
        try {
            const { code, left } = await this.limit(() => simplify(text, this.options));
            return this.checked(name, text, left === undefined ? { code: markedAs(text, code) } : { left });
        } catch (fault) {
            if (!(fault instanceof SyntaxFault)) throw fault;
            const { reason, line, column } = fault;
            return this.checked(name, text, { left: { reason, line, column } });
        }
    }
}

module.exports = {
    PASSES, Report, ShakeError, Shaker, checkOptions, commandOf, flagsIn, isModule, licenceComments, limiter, linesOf, lostFlags, mapWarning, mapsWarning,
    nearest, noteOf, passesOf, placeOf, reasonOf, shownPlace, simplify, suggestion, unitsOf, withLicence, wordsOf,
};
