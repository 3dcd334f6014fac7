'use strict';

// What declares names, and which.

const { childrenOf, isClass, isFunction } = require('./tree.js');

/** Returns the names that a pattern binds. */
function namesIn(pattern) {
    switch (pattern?.type) {
        case 'Identifier': return [pattern.name];
        case 'ObjectPattern': return pattern.properties.flatMap((part) => namesIn(part.argument ?? part.value));
        case 'ArrayPattern': return pattern.elements.flatMap(namesIn);
        case 'AssignmentPattern': return namesIn(pattern.left);
        case 'RestElement': return namesIn(pattern.argument);
        default: return [];
    }
}

/** Returns the names that `var` declares in a node, outside the functions and classes in it. */
function varsIn(node) {
    const names = node.type === 'VariableDeclaration' && node.kind === 'var' ? node.declarations.flatMap((part) => namesIn(part.id)) : [];
    if (isFunction(node) || isClass(node) || /Expression$|Literal$|Identifier$/.test(node.type)) return names;
    return names.concat(childrenOf(node).flatMap(([, child]) => varsIn(child)));
}

function lexicalOf(statement) {
    switch (statement.type) {
        case 'ExportNamedDeclaration':
        case 'ExportDefaultDeclaration': return statement.declaration ? lexicalOf(statement.declaration) : [];
        case 'VariableDeclaration': return statement.kind === 'var' ? [] : statement.declarations.flatMap((part) => namesIn(part.id)).map((name) => [name, statement.kind]);
        case 'FunctionDeclaration': return statement.id ? [[statement.id.name, 'function']] : [];
        case 'ClassDeclaration': return statement.id ? [[statement.id.name, 'class']] : [];
        case 'ImportDeclaration': return statement.specifiers.map((part) => [part.local.name, 'import']);
        default: return [];
    }
}

/** Returns the names that the statements of a list declare in its scope, but by `var`, each with the word that declares it. */
const lexicalIn = (statements) => new Map(statements.flatMap(lexicalOf));

/** Returns whether the scope of a function has a name twice, as ECMA-262 admits it and the core doesn't. */
function redeclares({ params, body }) {
    if (body.type !== 'BlockStatement') return false;
    const parameters = params.flatMap(namesIn);
    const vars = varsIn(body);
    const functions = body.body.filter(({ type }) => type === 'FunctionDeclaration').map(({ id }) => id.name);
    const others = new Set([...parameters, ...vars]);
    if (functions.some((name, place) => others.has(name) || functions.indexOf(name) < place)) return true;
    return params.some(({ type }) => type === 'AssignmentPattern') && vars.some((name) => parameters.includes(name));
}

module.exports = { lexicalIn, namesIn, redeclares, varsIn };
