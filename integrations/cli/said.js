'use strict';

// What is said of the files: lines for people, and a value for machines.

const { excerptOf } = require('../excerpt.js');
const { shownPlace } = require('../shake.js');

const bytesOf = (text) => Buffer.byteLength(text, 'utf8');
const reasonOf = ({ left, fault }) => (left ?? fault).reason ?? fault.message;

/** Returns whether nothing may be written because of a file: it has a fault, or it is left and that is an error. */
const isRefused = ({ fault, policy }) => fault !== undefined || policy === 'error';

/**
 * Returns a message with its place, the line of source and a caret: `file:line:column: error: ..`. Lines and columns are
 * counted from 1, columns in UTF-16 units. Without a place it is `file: error: ..`.
 */
function messageOf(name, kind, message, text, place) {
    const head = `${shownPlace(name, place)}: ${kind}: ${message}`;
    return place.line === undefined || text === undefined ? head : `${head}\n${excerptOf(text, place)}`;
}

// The messages of a file that is left. That a flag is lost is said always.
function messagesOfLeft({ name, text, left, policy, lost }) {
    const kind = policy === 'error' ? 'error' : 'warning';
    const found = policy === 'copy' ? [] : [messageOf(name, kind, `left as it is: ${left.reason}`, text, left)];
    const advice = policy === 'error' ? '; --left warn lets it stay' : '';
    return [...found, ...lost.map((flag) => messageOf(name, kind, `${flag.name} isn't replaced here, since the file is left as it is${advice}`, text, flag))];
}

// Faults without a place are often those of an option or of the program, and the same in many files.
function messagesOfShared(files) {
    const names = new Map();
    for (const file of files) names.set(reasonOf(file), [...(names.get(reasonOf(file)) ?? []), file.name]);
    return [...names].map(([reason, [name, ...more]]) => {
        const others = more.length === 0 ? '' : ` and ${more.length} more ${more.length === 1 ? 'file' : 'files'}`;
        return `${name}${others}: error: ${reason}`;
    });
}

/** Returns the messages of files. */
function messagesOf(files) {
    const found = files.flatMap((file) => {
        if (file.left !== undefined) return messagesOfLeft(file);
        return file.fault?.line === undefined ? [] : [messageOf(file.name, 'error', reasonOf(file), file.text, file.fault)];
    });
    return [...found, ...messagesOfShared(files.filter(({ fault }) => fault !== undefined && fault.line === undefined))];
}

// How many files have which result, and the bytes of those that were simplified.
function totalsOf(files) {
    const simplified = files.filter(({ code }) => code !== undefined);
    const sum = (of) => simplified.reduce((total, file) => total + bytesOf(of(file)), 0);
    return {
        simplified: simplified.length,
        left: files.filter((file) => file.left !== undefined && !isRefused(file)).length,
        refused: files.filter(isRefused).length,
        bytesBefore: sum(({ text }) => text),
        bytesAfter: sum(({ code }) => code),
    };
}

/** Returns the last line: how many files were simplified, and what that is in bytes; or how many were refused. */
function summaryOf(files) {
    const { simplified, refused, bytesBefore, bytesAfter } = totalsOf(files);
    const all = `of ${files.length} ${files.length === 1 ? 'file' : 'files'}`;
    if (refused > 0) return `zorikham: ${refused} ${all} refused; nothing is written`;
    if (simplified === 0) return `zorikham: warning: 0 ${all} simplified`;
    const less = bytesBefore - bytesAfter;
    const bytes = less >= 0 ? `${less} of ${bytesBefore} bytes less` : `${-less} bytes more than ${bytesBefore}`;
    return `zorikham: ${simplified} ${all} simplified, ${bytes}`;
}

// One file for machines.
function entryOf(file) {
    const { name, text, output, code, left, fault, lost } = file;
    const result = code !== undefined ? 'simplified' : isRefused(file) ? 'refused' : 'left';
    const entry = { file: name, result, output: output ?? null };
    const why = left ?? fault;
    if (why !== undefined) {
        entry.reason = reasonOf(file);
        if (why.line !== undefined) Object.assign(entry, { line: why.line, column: why.column + 1 });
    }
    if (lost.length > 0) entry.lost = lost.map((flag) => ({ name: flag.name, line: flag.line, column: flag.column + 1 }));
    if (text !== undefined) entry.bytesBefore = bytesOf(text);
    if (code !== undefined) entry.bytesAfter = bytesOf(code);
    if (code !== undefined && output === undefined) entry.code = code;
    return entry;
}

/** Returns the result for machines as a text. */
function jsonOf(status, files) {
    return `${JSON.stringify({ status, ...totalsOf(files), files: files.map(entryOf) }, null, 2)}\n`;
}

module.exports = { isRefused, jsonOf, messagesOf, summaryOf };
