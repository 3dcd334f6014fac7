'use strict';

// Where flags would replace something in a text that the program leaves as it is.

const { placeAt } = require('./places.js');
const { BEFORE_EXPRESSION, wordsIn } = require('./words.js');

// A text in quotes, without them.
const unquoted = (text) => text.replace(/^(['"])(.*)\1$/s, '$2');

// What a flag replaces, as words in a row. `name` is what a message says of it.
function sequence(name, code) {
    const words = wordsIn(code).words.map(({ kind, text }) => (kind === 'string' ? { string: unquoted(text) } : { text }));
    return { name, words };
}

function sequencesOf(options) {
    const defined = Object.keys(options.define ?? {}).map((key) => sequence(key, key));
    const envs = Object.keys(options.env ?? {}).flatMap((key) => {
        const name = `process.env.${key}`;
        return [sequence(name, name), sequence(name, `process.env['${key}']`)];
    });
    const types = Object.keys(options.typeof ?? {}).map((key) => sequence(`typeof ${key}`, `typeof ${key}`));
    const modules = Object.keys(options.const ?? {}).flatMap((key) => {
        const name = `an import of ${key}`;
        const of = (...front) => ({ name, words: [...front.map((text) => ({ text })), { string: key }] });
        return [of('from'), of('import'), of('import', '('), of('require', '(')];
    });
    return [...defined, ...envs, ...types, ...modules];
}

function matches({ kind, text }, wanted) {
    return kind === 'string' ? unquoted(text) === wanted.string : text === wanted.text;
}

// Words behind which a `(` begins the arguments of a call.
function isCalled(word) {
    if (word === undefined) return false;
    return [')', ']'].includes(word.text) || word.kind === 'template' || (word.kind === 'name' && !BEFORE_EXPRESSION.has(word.text));
}

const isOfChain = (word) => word !== undefined && (['name', 'string'].includes(word.kind) || ['.', '[', ']'].includes(word.text));

// The words without brackets round a chain of members: `(a.b).c` reads `a.b.c`.
function unwrapped(words) {
    const found = [];
    for (let i = 0; i < words.length; i += 1) {
        let end = i + 1;
        if (words[i].text === '(' && !isCalled(found.at(-1))) while (isOfChain(words[end])) end += 1;
        if (end > i + 1 && words[end]?.text === ')') {
            found.push(...words.slice(i + 1, end));
            i = end;
        } else {
            found.push(words[i]);
        }
    }
    return found;
}

// Whether a word is the key of a property, and no read.
const isKey = (words, i) => words[i + 1]?.text === ':' && ['{', ','].includes(words[i - 1]?.text);

// Whether the words from one on are those that a flag replaces.
function isAt(words, i, wanted) {
    if (!wanted.every((word, k) => i + k < words.length && matches(words[i + k], word))) return false;
    return !['.', '?.'].includes(words[i - 1]?.text) && !(wanted.length === 1 && isKey(words, i));
}

// Where a name is in a text whose words aren't known.
function anywhere(text, { words }) {
    const first = words.at(-1).string ?? words[0].text;
    return text.indexOf(first);
}

/**
 * Returns where the flags of some options would replace something in a text: `{ name, line, column }` for each flag that is
 * found, with its first place. A name that the text itself binds is found too, and in a text whose words can't be told apart
 * any text that is spelt as the flag.
 */
function flagsIn(text, options) {
    const sequences = sequencesOf(options).filter((sought) => anywhere(text, sought) >= 0);
    if (sequences.length === 0) return [];
    const { words: all, sound } = wordsIn(text);
    const words = unwrapped(all);
    const found = new Map();
    for (const sought of sequences) {
        const i = words.findIndex((_, at) => isAt(words, at, sought.words));
        const at = i >= 0 ? words[i].at : sound ? -1 : anywhere(text, sought);
        if (at >= 0 && !found.has(sought.name)) found.set(sought.name, { name: sought.name, ...placeAt(text, at) });
    }
    return [...found.values()];
}

module.exports = { flagsIn };
