'use strict';

// The units of a tree: the smallest expressions, statements and items of a module that can hold what is left out of the core.

const { constructOf } = require('./constructs.js');
const { childrenOf, isClass, isFunction } = require('./tree.js');

const isUpdated = (node, field) => (node.type === 'AssignmentExpression' && field === 'left') || node.type === 'UpdateExpression'
    || (node.type === 'UnaryExpression' && node.operator === 'delete');

// Whether a name in this field of a node is no expression.
function isNameAlone(node, field) {
    if (['label', 'meta', 'local', 'imported', 'exported', 'id', 'params', 'param'].includes(field)) return true;
    if (['ArrayPattern', 'RestElement'].includes(node.type)) return true;
    return (field === 'property' && !node.computed) || (node.type === 'AssignmentPattern' && field === 'left');
}

// Whether what stands in this field of a node belongs to it: a key, a method's function, a declaration in a head or behind `export`.
function belongs(node, field, child) {
    if (field === 'key' && !node.computed) return true;
    if (/^(Import|Export)/.test(node.type) && node.type !== 'ImportExpression') {
        return node.type !== 'ExportDefaultDeclaration' || field !== 'declaration' || /Declaration$/.test(child.type);
    }
    if (/^For/.test(node.type) && child.type === 'VariableDeclaration' && field !== 'body') return true;
    if (node.type === 'MethodDefinition' && field === 'value') return true;
    if (node.type === 'Property' && (node.shorthand || ((node.method || node.kind !== 'init') && field === 'value'))) return true;
    return field === 'quasi' || (isFunction(node) && field === 'body' && child.type === 'BlockStatement') || (isClass(node) && field === 'body');
}

/** Returns the sort of unit that a child in this field of a node can be, or null. */
function sortOf(node, field, child) {
    if (!/(Statement|Declaration|Expression|Literal)$|^MetaProperty$|^Identifier$/.test(child.type)) return null;
    if (belongs(node, field, child) || (child.type === 'Identifier' && isNameAlone(node, field))) return null;
    if (/^(Import|Export).*Declaration$/.test(child.type)) return 'item';
    return /(Statement|Declaration)$/.test(child.type) ? 'stmt' : 'expr';
}

/** Returns the units below a module's tree: `{ node, sort, words }`, where the words are of what can't stand alone in the unit. */
function unitsOf(tree, text) {
    const units = [];
    // Adds what is a unit at or below a node, and returns the words of what is left to the node round it.
    function visit(node, sort) {
        const first = units.length;
        const own = constructOf(node, text);
        const words = own === null ? [] : [own];
        for (const [field, child] of childrenOf(node)) {
            if (node.type === 'Property' && node.shorthand && field === 'key') continue;
            const count = units.length;
            words.push(...visit(child, sortOf(node, field, child)));
            const last = units.at(-1);
            if (units.length > count && last.node === child && isUpdated(node, field)) words.push(...last.words);
        }
        if (words.length === 0 || sort === null) return words;
        units.splice(first, Infinity, { node, sort, words });
        return [];
    }
    visit(tree, null);
    return units;
}

module.exports = { unitsOf };
