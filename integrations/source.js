'use strict';

// A whole file: what the program doesn't keep of it is kept here, its first line `#!` and its licence comments.

const { isUtf8 } = require('node:buffer');
const { ShakeError } = require('./options.js');
const { placeOf } = require('./places.js');
const { simplify, withLicence } = require('./shake.js');

const HASHBANG = /^#!.*/;

/** Returns the text of bytes in UTF-8, without the mark at its head. Throws a ShakeError where they aren't UTF-8. */
function decoded(bytes) {
    const text = bytes.toString('utf8');
    if (!isUtf8(bytes)) {
        const again = Buffer.from(text, 'utf8');
        let offset = 0;
        while (again[offset] === bytes[offset]) offset += 1;
        throw new ShakeError('the text is not UTF-8', placeOf(text, offset));
    }
    return text.replace(/^\ufeff/, '');
}

/** Simplifies the text of a file, as `simplify` does. A line `#!` at its head and licence comments stay. */
async function simplifySource(text, options) {
    const hashbang = HASHBANG.exec(text)?.[0] ?? '';
    // The program doesn't read `#!`. A comment of the same length keeps all places.
    const found = await simplify(hashbang === '' ? text : `//${text.slice(2)}`, options);
    if (found.code === undefined) return found;
    const code = withLicence(text, found.code);
    return { code: hashbang === '' ? code : `${hashbang}\n${code}` };
}

module.exports = { decoded, simplifySource };
