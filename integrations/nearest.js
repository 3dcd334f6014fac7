'use strict';

// The nearest known word to one that isn't known.

// How many letters have to be added, left out, replaced or swapped with the next to make one word of the other.
function distance(a, b) {
    const rows = [Array.from({ length: b.length + 1 }, (_, j) => j)];
    for (let i = 1; i <= a.length; i += 1) {
        const row = [i];
        for (let j = 1; j <= b.length; j += 1) {
            const same = a[i - 1] === b[j - 1];
            row[j] = Math.min(rows[i - 1][j] + 1, row[j - 1] + 1, rows[i - 1][j - 1] + (same ? 0 : 1));
            const swapped = i > 1 && j > 1 && a[i - 1] === b[j - 2] && a[i - 2] === b[j - 1];
            if (swapped) row[j] = Math.min(row[j], rows[i - 2][j - 2] + 1);
        }
        rows.push(row);
    }
    return rows[a.length][b.length];
}

/** Returns the known word that is nearest to another, or null where none is near: at most one letter in three differs. */
function nearest(word, known) {
    let [found, least] = [null, Infinity];
    for (const other of known) {
        const steps = distance(word, other);
        if (steps < least) [found, least] = [other, steps];
    }
    return least <= Math.max(1, Math.floor(word.length / 3)) ? found : null;
}

/** Returns `; did you mean X?` for the nearest known word, or nothing where none is near. */
function suggestion(word, known) {
    const found = nearest(word, known);
    return found === null ? '' : `; did you mean ${found}?`;
}

module.exports = { nearest, suggestion };
