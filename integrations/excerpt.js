'use strict';

// The line of a fault's place with a caret below it.

const { LINE_END } = require('./places.js');

// A longer line is cut on both sides of the place.
const LONGEST = 160;
const ASIDE = 60;

const COMBINING = /[\p{M}\u200b-\u200d\ufe0e\ufe0f]/u;
const WIDE = /[\p{Script=Han}\p{Script=Hangul}\p{Script=Hiragana}\p{Script=Katakana}\p{Emoji_Presentation}\u3000-\u303e\uff01-\uff60]/u;
// A terminal may not get these.
const CONTROL = /[\0-\x08\x0b-\x1f\x7f-\x9f]/g;

// What has the width of a text on a terminal, and shows nothing.
function blank(text) {
    return [...text].map((character) => {
        if (character === '\t') return '\t';
        if (COMBINING.test(character)) return '';
        return WIDE.test(character) ? '  ' : ' ';
    }).join('');
}

const isLow = (unit) => unit >= 0xdc00 && unit <= 0xdfff;

// The part of a line around a column, and the column in it. No pair of units is cut.
function cut(source, column) {
    if (source.length <= LONGEST) return [source, column];
    let from = Math.max(0, column - ASIDE);
    let to = Math.min(source.length, from + LONGEST);
    if (isLow(source.charCodeAt(from))) from -= 1;
    if (isLow(source.charCodeAt(to))) to += 1;
    const head = from === 0 ? '' : '..';
    return [head + source.slice(from, to) + (to === source.length ? '' : '..'), head.length + column - from];
}

/**
 * Returns two lines: that of the place, with its number, and a caret below the place. `line` is counted from 1, and `column`
 * from 0 in UTF-16 units. The result has no line end behind it.
 */
function excerptOf(text, { line, column }) {
    const source = (text.split(LINE_END)[line - 1] ?? '').replace(CONTROL, '\ufffd');
    const [shown, at] = cut(source, column);
    const number = String(line).padStart(5);
    return `${number} | ${shown}\n${' '.repeat(number.length)} | ${blank(shown.slice(0, at))}^`;
}

module.exports = { excerptOf };
