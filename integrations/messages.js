'use strict';

// What the lines of the program on standard error mean, in words for the user of a bundler.

const { ShakeError } = require('./options.js');
const { placeOf } = require('./places.js');

/** A syntax error of the text that the program read. */
class SyntaxFault extends ShakeError {}

// A name or a chain of members.
const CHAIN = /^[\p{ID_Start}$_][\p{ID_Continue}$]*(?:\.[\p{ID_Start}$_][\p{ID_Continue}$]*|\[(?:'[^']*'|"[^"]*")\])*$/u;

// Lines about texts that the program doesn't simplify, though nothing is wrong with them.
const OUTSIDE = /^(out of core|number range)(?: at (\d+))(?:: (\w+))?$|^too deep$|^too long$|^captured .+$/;
// Lines about a kept part of a text: a pass left no place for it, or it can't be shown to a pass.
const KEPT = /^kept text at (\d+) (has no place|can't be enclosed)$/;

/**
 * Returns why a text is left as it is, by the line that the program wrote: `{ reason }`, with `line` and `column` where
 * the line has an offset. Null for any other line.
 */
function reasonOf(said, text) {
    const kept = KEPT.exec(said);
    if (kept !== null) return { reason: `what is kept ${kept[2]}`, ...placeOf(text, Number(kept[1])) };
    const found = OUTSIDE.exec(said);
    if (found === null) return null;
    const [, kind, offset, construct] = found;
    if (kind === undefined) return { reason: said };
    return { reason: construct === undefined ? kind : `${kind}: ${construct}`, ...placeOf(text, Number(offset)) };
}

// The word of a text at a byte, as a message says it.
function unexpected(text, offset) {
    const rest = Buffer.from(text, 'utf8').subarray(offset).toString('utf8');
    if (rest.trim() === '') return 'unexpected end';
    const [word] = /^(?:[\p{ID_Start}$_][\p{ID_Continue}$]*|'[^'\n]*'|"[^"\n]*"|\d+|[^])/u.exec(rest);
    return `unexpected ${word.startsWith('"') ? word : `"${word}"`}`;
}

// Whose value a key is: `{ name, value }` for the key of a flag that the program names.
function flagOf(key, options) {
    if (options.define !== undefined && Object.hasOwn(options.define, key)) return { name: `define.${key}`, value: options.define[key] };
    const at = key.lastIndexOf(':');
    const [module, name] = [key.slice(0, at), key.slice(at + 1)];
    return { name: `const.${module}.${name}`, value: options.const?.[module]?.[name] ?? '' };
}

// The fault of a flag whose key or value isn't read.
function faultOfFlag(key, line, options) {
    const { name, value } = flagOf(key, options);
    if (name.startsWith('define') && (line === 'no chain' || !CHAIN.test(key))) return `define key "${key}" must be a name or a.b.c`;
    const shown = `${name}: "${value}"`;
    if (line === 'unfit') return /=>|\bfunction\b/.test(value) ? `${shown} binds a name, which isn't supported` : `${shown} isn't in the core`;
    const [, kind, offset, construct] = /^(syntax|out of core|number range) at (\d+)(?:: (\w+))?$/.exec(line) ?? [];
    if (kind === undefined) return `${shown} isn't read: ${line}`;
    const column = placeOf(value, Number(offset)).column + 1;
    if (kind !== 'syntax') return `${shown} isn't in the core: ${construct ?? kind} at column ${column}`;
    const found = unexpected(value, Number(offset));
    return found === 'unexpected end' ? `${name}: unexpected end of "${value}" at column ${column}` : `${name}: ${found} in "${value}" at column ${column}`;
}

// What is wrong with flags or with imports of their modules, by the program's line.
const OF_FLAGS = [
    [/^given (.*): (no chain|unfit|(?:syntax|out of core|number range) at \d+.*|too \w+)$/s, ([, key, line], options) => faultOfFlag(key, line, options)],
    [/^cyclic (.*)$/s, ([, name]) => `define: the value of ${name} leads back to itself`],
    [/^no export (.*) in (.*)$/s, ([, name, module]) => `const.${module} has no ${name}, which is imported`],
    [/^no default in (.*)$/s, ([, module]) => `const.${module} has no default, which is imported`],
    [/^namespace (.*)$/s, ([, name]) => `const: the namespace ${name} is used for more than to name an export (${name}.NAME)`],
    [/^re-exported (.*)$/s, ([, name]) => `const: ${name} is imported from a module of const and exported again`],
];

// A flag for a name that a kept part of the text mentions.
const MENTIONED = /^kept text at (\d+) mentions (.*)$/s;

/** Returns the fault that the program's line stands for, of a text and some options. */
function faultOf(said, text, options) {
    const found = /^syntax at (\d+)$/.exec(said);
    if (found !== null) return new SyntaxFault(`syntax: ${unexpected(text, Number(found[1]))}`, placeOf(text, Number(found[1])));
    const mention = MENTIONED.exec(said);
    if (mention !== null) return new ShakeError(`what is kept as it is written mentions ${mention[2]}, and flags replace nothing in it`, placeOf(text, Number(mention[1])));
    if (said === 'arguments') return new ShakeError('the program does not know a pass or an option that was given: it is of another version than the plugin');
    for (const [pattern, message] of OF_FLAGS) {
        const parts = pattern.exec(said);
        if (parts !== null) return new ShakeError(message(parts, options));
    }
    return new ShakeError(said);
}

module.exports = { SyntaxFault, faultOf, reasonOf };
