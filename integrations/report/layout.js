'use strict';

// The program prints a function on one line. For a difference by lines, a text gets a line for each statement.

const { wordsIn } = require('../words.js');

// A list in braces or brackets that is longer gets a line for each of its items.
const LONG = 80;
const INDENT = '    ';
const CLOSING = { '{': '}', '[': ']', '(': ')' };
// Words behind a block that belong to the same statement.
const SAME_STATEMENT = new Set(['else', 'catch', 'finally', 'in', 'of', 'instanceof', 'from', 'as']);

const isMark = (word, ...texts) => word?.kind === 'mark' && texts.includes(word.text);

// The brackets of a text, by the numbers of their words: `{ open, statements, list, close }`. `statements` says that a line
// ends with each `;` in it, and `list` that one ends with each `,`.
function groupsOf(words) {
    const [found, open] = [new Map(), []];
    for (const [i, word] of words.entries()) {
        if (isMark(word, ...Object.keys(CLOSING))) {
            open.push({ open: i, statements: false, list: false });
        } else if (isMark(word, ';') && words[open.at(-1)?.open]?.text !== '(') {
            for (const group of open) group.statements ||= words[group.open].text === '{';
        } else if (isMark(word, ...Object.values(CLOSING))) {
            const group = open.pop();
            if (group === undefined) continue;
            group.list = !group.statements && words[group.open].text !== '(' && word.at - words[group.open].at > LONG;
            found.set(group.open, group);
            found.set(i, group);
        }
    }
    return found;
}

// Whether a statement begins with a word behind a block.
function beginsBehind(words, i, group) {
    const word = words[i];
    if (word.text === 'while') return words[group.open - 1]?.text !== 'do';
    return word.kind !== 'mark' && word.kind !== 'template' && !SAME_STATEMENT.has(word.text);
}

const isBroken = (group) => group !== undefined && (group.statements || group.list);

// Whether a line begins with a word. `around` is the innermost group that is open in front of it.
function begins(words, i, groups, around) {
    const [last, here] = [groups.get(i - 1), groups.get(i)];
    if (isBroken(here) && here.open !== i) return true;
    if (isBroken(last) && last.open === i - 1) return true;
    if (last?.statements && last.open !== i - 1) return beginsBehind(words, i, last);
    if (isMark(words[i - 1], ';')) return around === undefined || words[around.open].text === '{';
    return isMark(words[i - 1], ',') && around?.list === true;
}

/** Returns a text with a line for each statement, and for each item of a long list. Nothing but space is changed. */
function laidOut(text) {
    const { words, sound } = wordsIn(text);
    if (!sound) return text;
    const groups = groupsOf(words);
    const open = [];
    let [result, end] = ['', 0];
    for (const [i, word] of words.entries()) {
        const gap = text.slice(end, word.at);
        const group = groups.get(i);
        const around = open.at(-1);
        if (group !== undefined && group.open !== i) open.pop();
        const depth = open.filter(isBroken).length;
        const free = gap.trim() === '' && word.kind !== 'template' && words[i - 1]?.kind !== 'template';
        if (i > 0 && free && (gap.includes('\n') || begins(words, i, groups, around))) result += `\n${INDENT.repeat(depth)}`;
        else result += gap;
        if (group !== undefined && group.open === i) open.push(group);
        result += word.text;
        end = word.at + word.text.length;
    }
    return result + text.slice(end);
}

module.exports = { laidOut };
