'use strict';

// One text: its outline by the program and by acorn.

const { host } = require('../../integrations/support/hosts.js');
const { differences, expected, printed } = require('./outlines.js');

const acorn = host('acorn');

/** Returns the tree of a module, or null where acorn refuses the text. */
function treeOf(text) {
    try {
        return acorn.parse(text, { ecmaVersion: 'latest', sourceType: 'module', allowHashBang: true });
    } catch (error) {
        if (error instanceof SyntaxError) return null;
        throw error;
    }
}

/**
 * Compares the outline that a program prints of a text with the one by acorn: `{ verdict, units, lines }`, where the lines are of what
 * is wrong. The verdict is `equal`, `different`, `refused` where acorn reads the text, `failed` where the program ends otherwise, `no
 * module` where both refuse the text, or `let through` where acorn alone does.
 */
function compare(program, text) {
    const outline = printed(program, text);
    if (outline.failed) return { verdict: 'failed', lines: [outline.failed] };
    const tree = treeOf(text);
    if (tree === null) return { verdict: outline.refused ? 'no module' : 'let through' };
    if (outline.refused) return { verdict: 'refused', lines: [outline.refused] };
    const lines = differences(outline, expected(text, tree));
    return { verdict: lines.length === 0 ? 'equal' : 'different', units: outline.length, lines };
}

module.exports = { acorn, compare, treeOf };
