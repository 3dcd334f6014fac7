'use strict';

// The difference of two texts by lines: lines that both have once are matched first, in the longest order that both share
// ("patience"), and what lies between two of these by the longest common sequence, where it is small enough.

// The greatest table that is made for a longest common sequence. Where it would be greater, all lines between are replaced.
const TABLE = 1_000_000;
// How much a line and one that replaces it have in common at least.
const LIKE = 0.4;

// Counts the lines of a part of a list: the index of each line that is there once, by the line.
function singles(lines, from, to) {
    const found = new Map();
    for (let i = from; i < to; i += 1) found.set(lines[i], found.has(lines[i]) ? -1 : i);
    return found;
}

// The longest subsequence of pairs whose second numbers rise. The pairs are in the order of their first numbers.
function rising(pairs) {
    const ends = [];
    const before = new Map();
    for (const pair of pairs) {
        let [low, high] = [0, ends.length];
        while (low < high) {
            const middle = (low + high) >> 1;
            if (ends[middle][1] < pair[1]) low = middle + 1;
            else high = middle;
        }
        before.set(pair, ends[low - 1]);
        ends[low] = pair;
    }
    const found = [];
    for (let pair = ends.at(-1); pair !== undefined; pair = before.get(pair)) found.push(pair);
    return found.reverse();
}

// The pairs of lines that are once in both parts and in the same order.
function anchors(a, b, part) {
    const [inA, inB] = [singles(a, part.a, part.aEnd), singles(b, part.b, part.bEnd)];
    const pairs = [];
    for (const [line, i] of inA) if (i >= 0 && (inB.get(line) ?? -1) >= 0) pairs.push([i, inB.get(line)]);
    return rising(pairs);
}

// The pairs of a longest common sequence of two small parts; none of large ones.
function common(a, b, part) {
    const [height, width] = [part.aEnd - part.a, part.bEnd - part.b];
    if (height * width > TABLE) return [];
    const row = width + 1;
    const lengths = new Uint32Array((height + 1) * row);
    for (let i = height - 1; i >= 0; i -= 1) {
        for (let j = width - 1; j >= 0; j -= 1) {
            const same = a[part.a + i] === b[part.b + j];
            lengths[i * row + j] = same ? lengths[(i + 1) * row + j + 1] + 1 : Math.max(lengths[(i + 1) * row + j], lengths[i * row + j + 1]);
        }
    }
    const found = [];
    for (let i = 0, j = 0; i < height && j < width;) {
        if (a[part.a + i] === b[part.b + j]) found.push([part.a + i++, part.b + j++]);
        else if (lengths[(i + 1) * row + j] >= lengths[i * row + j + 1]) i += 1;
        else j += 1;
    }
    return found;
}

// Takes the lines off a part that both begin and end with, and returns their pairs.
function trimmed(a, b, part) {
    const found = [];
    while (part.a < part.aEnd && part.b < part.bEnd && a[part.a] === b[part.b]) found.push([part.a++, part.b++]);
    while (part.a < part.aEnd && part.b < part.bEnd && a[part.aEnd - 1] === b[part.bEnd - 1]) found.push([--part.aEnd, --part.bEnd]);
    return found;
}

// A list may be too long for the arguments of one call.
function addAll(found, more) {
    for (const one of more) found.push(one);
}

// The pairs of equal lines, in order.
function matches(a, b) {
    const found = [];
    const parts = [{ a: 0, aEnd: a.length, b: 0, bEnd: b.length }];
    while (parts.length > 0) {
        const part = parts.pop();
        addAll(found, trimmed(a, b, part));
        if (part.a === part.aEnd || part.b === part.bEnd) continue;
        const fixed = anchors(a, b, part);
        if (fixed.length === 0) {
            addAll(found, common(a, b, part));
            continue;
        }
        addAll(found, fixed);
        for (const [i, [nextA, nextB]] of [...fixed, [part.aEnd, part.bEnd]].entries()) {
            const [lastA, lastB] = i === 0 ? [part.a - 1, part.b - 1] : fixed[i - 1];
            parts.push({ a: lastA + 1, aEnd: nextA, b: lastB + 1, bEnd: nextB });
        }
    }
    return found.sort((x, y) => x[0] - y[0]);
}

// How much two lines have in common: the part of the longer one that both begin or end with.
function likeness(a, b) {
    const most = Math.min(a.length, b.length);
    let [head, tail] = [0, 0];
    while (head < most && a[head] === b[head]) head += 1;
    while (tail < most - head && a[a.length - 1 - tail] === b[b.length - 1 - tail]) tail += 1;
    return (head + tail) / Math.max(a.length, b.length, 1);
}

// Removed lines and the added ones that replace them, each added one behind the removed one that it is most like, in order.
function beside(removed, added) {
    const [height, row] = [removed.length, added.length + 1];
    const apart = [...removed.map((line) => ['-', line]), ...added.map((line) => ['+', line])];
    if (height * row > TABLE / 10) return apart;
    const like = (i, j) => likeness(removed[i], added[j]);
    const sums = new Float64Array((height + 1) * row);
    const pair = (i, j) => (like(i, j) < LIKE ? -1 : like(i, j) + sums[(i + 1) * row + j + 1]);
    for (let i = height - 1; i >= 0; i -= 1) {
        for (let j = added.length - 1; j >= 0; j -= 1) sums[i * row + j] = Math.max(pair(i, j), sums[(i + 1) * row + j], sums[i * row + j + 1]);
    }
    const found = [];
    let [i, j] = [0, 0];
    while (i < height && j < added.length) {
        const best = sums[i * row + j];
        if (best > 0 && best === pair(i, j)) found.push(['-', removed[i++]], ['+', added[j++]]);
        else if (best === sums[(i + 1) * row + j]) found.push(['-', removed[i++]]);
        else found.push(['+', added[j++]]);
    }
    return [...found, ...removed.slice(i).map((line) => ['-', line]), ...added.slice(j).map((line) => ['+', line])];
}

// The lines of a text, without their ends. An empty text has none.
function linesOf(text) {
    if (text === '') return [];
    return text.replace(/\n$/, '').split('\n');
}

/**
 * Returns the lines of both texts in one list: `[kind, line]`, where the kind is `-` for a line of `before` alone, `+` for
 * one of `after` alone, and a space for one of both. An added line is right behind the removed one that it is like.
 */
function diff(before, after) {
    const [a, b] = [linesOf(before), linesOf(after)];
    const found = [];
    let [i, j] = [0, 0];
    for (const [nextA, nextB] of [...matches(a, b), [a.length, b.length]]) {
        addAll(found, beside(a.slice(i, nextA), b.slice(j, nextB)));
        if (nextA < a.length) found.push([' ', a[nextA]]);
        [i, j] = [nextA + 1, nextB + 1];
    }
    return found;
}

/**
 * Returns the parts of a difference that have changes, each with at most `context` lines of both texts around them:
 * `{ line, lines }`, where `line` is the number of the first of its lines in the text before, counted from 1.
 */
function hunks(found, context) {
    const near = new Uint8Array(found.length);
    for (const [i, [kind]] of found.entries()) {
        if (kind === ' ') continue;
        near.fill(1, Math.max(0, i - context), i + context + 1);
    }
    const parts = [];
    let line = 1;
    for (const [i, entry] of found.entries()) {
        if (near[i] === 1) {
            if (i === 0 || near[i - 1] === 0) parts.push({ line, lines: [] });
            parts.at(-1).lines.push(entry);
        }
        if (entry[0] !== '+') line += 1;
    }
    return parts;
}

module.exports = { diff, hunks };
