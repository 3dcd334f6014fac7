'use strict';

// The names that stand in a unit and aren't bound in it, and the jumps that leave it.

const { lexicalIn, namesIn, varsIn } = require('./declared.js');
const { childrenOf, isClass } = require('./tree.js');

/** A scope: the names that it binds, and the scope round it. */
class Scope {
    constructor(names, round) {
        this.names = new Set(names);
        this.round = round;
    }

    binds(name) {
        return this.names.has(name) || (this.round !== null && this.round.binds(name));
    }
}

// What jumps and `this` belong to: whether a function is round them in the unit, the labels in it, and whether a loop or a `switch` is.
const OUTSIDE = { returns: false, labels: [], continues: false, breaks: false, hasThis: false };
const inFunction = (hasThis) => ({ ...OUTSIDE, returns: true, hasThis });
const inLoop = (round) => ({ ...round, continues: true, breaks: true });

class Walk {
    mentions = new Set();
    writes = new Set();
    jumps = new Set();

    visit(node, scope, round) {
        if (!node) return;
        const visitor = VISITORS[node.type];
        if (visitor) visitor(this, node, scope, round);
        else for (const [, child] of childrenOf(node)) this.visit(child, scope, round);
    }

    all(nodes, scope, round) {
        for (const node of nodes) this.visit(node, scope, round);
    }

    mention(name, scope) {
        if (!scope.binds(name)) this.mentions.add(name);
    }

    needThis(round) {
        if (!round.hasThis) this.mentions.add('this');
    }

    // What is written to, or, where no name is to be noted, declared.
    pattern(node, scope, round, isWritten) {
        switch (node?.type) {
            case undefined: return;
            case 'Identifier':
                if (!isWritten) return;
                this.mention(node.name, scope);
                if (!scope.binds(node.name)) this.writes.add(node.name);
                return;
            case 'ObjectPattern':
            case 'ArrayPattern':
                for (const part of node.properties ?? node.elements) this.pattern(part, scope, round, isWritten);
                return;
            case 'Property':
                if (node.computed) this.visit(node.key, scope, round);
                this.pattern(node.value, scope, round, isWritten);
                return;
            case 'AssignmentPattern':
                this.pattern(node.left, scope, round, isWritten);
                this.visit(node.right, scope, round);
                return;
            case 'RestElement': this.pattern(node.argument, scope, round, isWritten); return;
            default: this.visit(node, scope, round);
        }
    }

    block(statements, scope, round, vars = []) {
        this.all(statements, new Scope([...vars, ...lexicalIn(statements).keys()], scope), round);
    }

    function(node, scope, round) {
        const isArrow = node.type === 'ArrowFunctionExpression';
        const hasThis = round.hasThis || !isArrow;
        const named = node.type === 'FunctionExpression' && node.id ? new Scope([node.id.name], scope) : scope;
        const params = new Scope([...node.params.flatMap(namesIn), ...(isArrow ? [] : ['arguments'])], named);
        for (const param of node.params) this.pattern(param, params, { ...round, hasThis }, false);
        if (node.body.type === 'BlockStatement') this.block(node.body.body, params, inFunction(hasThis), varsIn(node.body));
        else this.visit(node.body, params, inFunction(hasThis));
    }

    class(node, scope, round) {
        const inner = new Scope(node.id ? [node.id.name] : [], scope);
        this.visit(node.superClass, inner, round);
        for (const member of node.body.body) {
            if (member.computed) this.visit(member.key, inner, round);
            if (member.type === 'StaticBlock') this.block(member.body, inner, inFunction(true), member.body.flatMap(varsIn));
            else this.visit(member.value, inner, inFunction(true));
        }
    }

    loop(node, scope, round) {
        const head = node.init ?? node.left;
        const inner = new Scope(head?.type === 'VariableDeclaration' ? lexicalIn([head]).keys() : [], scope);
        if (head?.type === 'VariableDeclaration') this.visit(head, inner, round);
        else this.pattern(head, inner, round, true);
        this.all([node.test, node.update, node.right], inner, round);
        this.visit(node.body, inner, inLoop(round));
    }

    jump({ type, label }, round) {
        const word = type === 'BreakStatement' ? 'break' : 'continue';
        if (label ? !round.labels.includes(label.name) : !round[`${word}s`]) this.jumps.add(label ? `${word} ${label.name}` : word);
    }
}

const loop = (walk, node, scope, round) => walk.loop(node, scope, round);
const repeated = (walk, { test, body }, scope, round) => {
    walk.visit(test, scope, round);
    walk.visit(body, scope, inLoop(round));
};
const keyed = (walk, node, scope, round) => {
    if (node.computed) walk.visit(node.key ?? node.property, scope, round);
    walk.visit(node.object ?? node.value, scope, round);
};
const jump = (walk, node, scope, round) => walk.jump(node, round);
const made = (walk, node, scope, round) => (isClass(node) ? walk.class(node, scope, round) : walk.function(node, scope, round));
const nothing = () => {};

const VISITORS = {
    Identifier: (walk, { name }, scope) => walk.mention(name, scope),
    ThisExpression: (walk, node, scope, round) => walk.needThis(round),
    Super: (walk, node, scope, round) => walk.needThis(round),
    MetaProperty: (walk, { meta }, scope, round) => meta.name === 'new' && walk.needThis(round),
    FunctionDeclaration: made,
    FunctionExpression: made,
    ArrowFunctionExpression: made,
    ClassDeclaration: made,
    ClassExpression: made,
    VariableDeclarator(walk, { id, init }, scope, round) {
        walk.pattern(id, scope, round, false);
        walk.visit(init, scope, round);
    },
    BlockStatement: (walk, { body }, scope, round) => walk.block(body, scope, round),
    SwitchStatement(walk, { discriminant, cases }, scope, round) {
        walk.visit(discriminant, scope, round);
        const inner = new Scope(lexicalIn(cases.flatMap(({ consequent }) => consequent)).keys(), scope);
        walk.all(cases, inner, { ...round, breaks: true });
    },
    ForStatement: loop,
    ForInStatement: loop,
    ForOfStatement: loop,
    WhileStatement: repeated,
    DoWhileStatement: repeated,
    CatchClause(walk, { param, body }, scope, round) {
        const inner = new Scope(namesIn(param), scope);
        walk.pattern(param, inner, round, false);
        walk.block(body.body, inner, round);
    },
    LabeledStatement: (walk, { label, body }, scope, round) => walk.visit(body, scope, { ...round, labels: [...round.labels, label.name] }),
    BreakStatement: jump,
    ContinueStatement: jump,
    ReturnStatement(walk, { argument }, scope, round) {
        if (!round.returns) walk.jumps.add('return');
        walk.visit(argument, scope, round);
    },
    AssignmentExpression(walk, { left, right }, scope, round) {
        walk.pattern(left, scope, round, true);
        walk.visit(right, scope, round);
    },
    UpdateExpression: (walk, { argument }, scope, round) => walk.pattern(argument, scope, round, true),
    MemberExpression: keyed,
    Property: keyed,
    ImportDeclaration: nothing,
    ExportAllDeclaration: nothing,
    ExportNamedDeclaration(walk, { declaration, source, specifiers }, scope, round) {
        walk.visit(declaration, scope, round);
        if (!source) walk.all(specifiers.map(({ local }) => local), scope, round);
    },
};

/** Returns what stands in a unit: `{ mentions, writes, jumps }`, each a list of texts. */
function namesOf({ node }) {
    const walk = new Walk();
    walk.visit(node, new Scope([], null), OUTSIDE);
    return { mentions: [...walk.mentions], writes: [...walk.writes], jumps: [...walk.jumps] };
}

module.exports = { namesOf };
