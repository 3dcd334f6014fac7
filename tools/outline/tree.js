'use strict';

// What a tree of acorn has below a node.

const isNode = (value) => value !== null && typeof value === 'object' && typeof value.type === 'string';

/** Returns the children of a node in the order of the text, each with the name of its field. */
function childrenOf(node) {
    const children = Object.entries(node).flatMap(([field, value]) => [value].flat().filter(isNode).map((child) => [field, child]));
    return children.sort(([, left], [, right]) => left.start - right.start);
}

const isFunction = (node) => /Function/.test(node.type);
const isClass = (node) => /^Class(Declaration|Expression)$/.test(node.type);

module.exports = { childrenOf, isClass, isFunction };
