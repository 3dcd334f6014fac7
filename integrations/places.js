'use strict';

// Lines and columns, as the bundlers count them: lines from 1, columns from 0 in UTF-16 units. Lines end as ECMA-262 ends them.

const LINE_END = /\r\n|[\n\r\u2028\u2029]/;

/** Returns the line and the column behind a text. */
function placeBehind(before) {
    const lines = before.split(LINE_END);
    return { line: lines.length, column: lines[lines.length - 1].length };
}

/** Returns the line and the column of a byte of a text in UTF-8. */
function placeOf(text, offset) {
    return placeBehind(Buffer.from(text, 'utf8').subarray(0, offset).toString('utf8'));
}

/** Returns the line and the column of a unit of a text. */
function placeAt(text, index) {
    return placeBehind(text.slice(0, index));
}

/** Returns a place as editors show it: the line and the column, both from 1, behind a name; the name alone where there is no line. */
function shownPlace(name, { line, column }) {
    return line === undefined ? name : `${name}:${line}:${column + 1}`;
}

module.exports = { LINE_END, placeAt, placeOf, shownPlace };
