'use strict';

// What a node of acorn's tree has beside the core, in the words of `text_lexer::Construct`.

const { redeclares, varsIn } = require('./declared.js');

const GREATEST = Number.MAX_SAFE_INTEGER;

function literal(node) {
    if (node.regex) return 'Regex';
    if (node.bigint) return 'BigInt';
    if (typeof node.value === 'number' && !(/^(0|[1-9]\d*)$/.test(node.raw) && node.value <= GREATEST)) return 'Number';
    return typeof node.value === 'string' && !node.value.isWellFormed() ? 'Surrogate' : null;
}

function functionWord(node) {
    if (node.async) return 'Async';
    if (node.generator) return 'Generator';
    return redeclares(node) ? 'Redeclared' : null;
}

function handled({ handler }) {
    const isName = handler?.param?.type === 'Identifier';
    return isName && varsIn(handler.body).includes(handler.param.name) ? 'Redeclared' : null;
}

const isText = (name) => name?.type === 'Literal';

const WORDS = {
    Literal: literal,
    TemplateLiteral: ({ quasis }) => (quasis.every(({ value }) => (value.cooked ?? '').isWellFormed()) ? null : 'Surrogate'),
    Identifier: (node, text) => (/^[\w$]+$/.test(text.slice(node.start, node.end)) ? null : 'Name'),
    ForInStatement: () => 'ForIn',
    ForOfStatement: (node) => (node.await ? 'Async' : 'ForOf'),
    ObjectPattern: () => 'Pattern',
    ArrayPattern: () => 'Pattern',
    RestElement: () => 'Rest',
    ClassDeclaration: () => 'Class',
    ClassExpression: () => 'Class',
    PrivateIdentifier: () => 'Class',
    ExportAllDeclaration: () => 'ReExport',
    ExportNamedDeclaration: ({ source, specifiers }) => (source ? 'ReExport' : specifiers.some(({ exported }) => isText(exported)) ? 'TextName' : null),
    ImportDeclaration: ({ specifiers }) => (specifiers.some(({ imported }) => isText(imported)) ? 'TextName' : null),
    FunctionDeclaration: functionWord,
    FunctionExpression: functionWord,
    ArrowFunctionExpression: functionWord,
    TryStatement: handled,
    AwaitExpression: () => 'Async',
    YieldExpression: () => 'Generator',
    CallExpression: (node) => spreads(node),
    NewExpression: (node) => spreads(node),
    ChainExpression: () => 'OptChain',
    Property: ({ kind }) => (kind === 'init' ? null : 'Accessor'),
    MetaProperty: () => 'Meta',
    Super: () => 'Meta',
    ImportExpression: () => 'Meta',
    TaggedTemplateExpression: () => 'Template',
    DebuggerStatement: () => 'Debugger',
};

const spreads = (node) => (node.arguments.some(({ type }) => type === 'SpreadElement') ? 'CallSpread' : null);

/** Returns what a node has of its own that is left out of the core, or null. */
const constructOf = (node, text) => WORDS[node.type]?.(node, text) ?? null;

module.exports = { constructOf };
