'use strict';

// The outline of a module by acorn's tree, the one that the program `outline` prints, and what differs.

const { spawnSync } = require('node:child_process');
const { lexicalIn, varsIn } = require('./declared.js');
const { namesOf } = require('./names.js');
const { unitsOf } = require('./units.js');

const nameOf = (part) => part.name ?? part.value;

// What a unit declares in the scopes round it, each a name and the word that declares it.
function declaredBy({ node, sort }) {
    const inner = node.declaration === undefined ? node : node.declaration;
    if (sort === 'expr' || inner === null) return [];
    const vars = /^(Function|Class)Declaration$/.test(inner.type) ? [] : varsIn(inner).map((name) => [name, 'var']);
    return [...vars, ...lexicalIn([node])].map(([name, word]) => `${word} ${name}`);
}

function exportedBy({ node }) {
    switch (node.type) {
        case 'ExportAllDeclaration': return [node.exported ? nameOf(node.exported) : '*'];
        case 'ExportDefaultDeclaration': return ['default'];
        case 'ExportNamedDeclaration': {
            const declared = node.declaration ? declaredBy({ node, sort: 'item' }).map((text) => text.split(' ')[1]) : [];
            return [...declared, ...node.specifiers.map(({ exported }) => nameOf(exported))];
        }
        default: return [];
    }
}

const sourceOf = ({ node }) => (/^(Import|Export).*Declaration$/.test(node.type) ? node.source?.raw : undefined);

// The whole number that a number stands for, where the core has it.
function valueOf({ node, words }) {
    return words[0] === 'Number' && node.type === 'Literal' && Number.isSafeInteger(node.value) ? node.value : undefined;
}

const TIGHT = {
    AssignmentExpression: 'assignment', ArrowFunctionExpression: 'assignment', YieldExpression: 'assignment', AwaitExpression: 'unary',
    UnaryExpression: 'unary', UpdateExpression: 'unary', ChainExpression: 'chain', CallExpression: 'call', MemberExpression: 'call', NewExpression: 'call',
    TaggedTemplateExpression: 'call', ImportExpression: 'call',
};

// How tightly an expression binds.
function tightOf({ node, sort }) {
    if (sort !== 'expr') return undefined;
    return TIGHT[node.type] ?? (node.type === 'MetaProperty' && node.meta.name === 'import' ? 'call' : 'primary');
}

// Whether the last semicolon of a statement or an item is left out.
function isOpen(node, text) {
    const last = node.type === 'IfStatement' ? node.alternate ?? node.consequent : node.body ?? node.declaration;
    if (/^(For|While|Labeled|If)/.test(node.type) || (/^Export/.test(node.type) && /Declaration$/.test(last?.type))) return isOpen(last, text);
    if (!/^(Variable|Import|Export)|^(Expression|Return|Break|Continue|Throw|Debugger)Statement$/.test(node.type)) return false;
    return text[node.end - 1] !== ';';
}

// The place in bytes of each place in a text.
function bytePlaces(text) {
    const places = new Uint32Array(text.length + 1);
    let [place, bytes] = [0, 0];
    for (const sign of text) {
        places[place] = bytes;
        place += sign.length;
        bytes += Buffer.byteLength(sign);
    }
    places[place] = bytes;
    return places;
}

const list = (texts) => [...new Set(texts)].sort();

/** Returns the outline of a text by the tree that acorn makes of it. */
function expected(text, tree) {
    const places = bytePlaces(text);
    const units = unitsOf(tree, text).map((unit) => {
        const { mentions, writes, jumps } = namesOf(unit);
        return {
            start: places[unit.node.start], end: places[unit.node.end], sort: unit.sort, words: unit.words, value: valueOf(unit), source: sourceOf(unit),
            tight: tightOf(unit), open: (unit.sort !== 'expr' && isOpen(unit.node, text)) || undefined,
            mentions: list(mentions), writes: list(writes), declared: list(declaredBy(unit)), exports: list(exportedBy(unit)), jumps: list(jumps),
        };
    });
    const [line] = /^#!.*/.exec(text) ?? [];
    if (line === undefined) return units;
    const nothing = { mentions: [], writes: [], declared: [], exports: [], jumps: [] };
    return [{ start: 0, end: Buffer.byteLength(line), sort: 'item', words: ['Meta'], ...nothing }, ...units];
}

/** Returns the outline that a program prints of a text, or `{ refused }` with what it says instead. */
function printed(program, text) {
    const bytes = Buffer.from(text);
    const { status, signal, stdout } = spawnSync(program, { input: bytes, maxBuffer: 1 << 30 });
    if (status !== 0) return { failed: `status ${signal ?? status}` };
    const lines = stdout.toString().split('\n').filter(Boolean);
    if (lines.length === 1 && !lines[0].startsWith('{')) return { refused: lines[0] };
    return lines.map((line) => {
        const { what, source, declares, ...unit } = JSON.parse(line);
        return {
            ...unit, words: [what], source: source && bytes.subarray(...source).toString(),
            mentions: list(unit.mentions), writes: list(unit.writes), exports: list(unit.exports), jumps: list(unit.jumps),
            declared: list(declares.map(([name, word]) => `${word} ${name}`)),
        };
    });
}

const FIELDS = ['sort', 'value', 'tight', 'open', 'source', 'mentions', 'writes', 'declared', 'exports', 'jumps'];

function differencesOf(unit, right) {
    const differ = FIELDS.filter((field) => JSON.stringify(unit[field]) !== JSON.stringify(right[field]));
    const lines = differ.map((field) => `${field} ${JSON.stringify(unit[field])}, and by acorn ${JSON.stringify(right[field])}`);
    return right.words.includes(unit.words[0]) ? lines : [...lines, `told as ${unit.words[0]}, and by acorn ${right.words}`];
}

/** Returns a line for each difference of two outlines. */
function differences(outline, right) {
    const key = ({ start, end }) => `${start} to ${end}`;
    const [found, wanted] = [outline, right].map((units) => new Map(units.map((unit) => [key(unit), unit])));
    const extra = outline.filter((unit) => !wanted.has(key(unit))).map((unit) => `${key(unit)}: no unit by acorn`);
    return extra.concat(right.flatMap((unit) => {
        const own = found.get(key(unit));
        return (own ? differencesOf(own, unit) : ['a unit by acorn alone']).map((line) => `${key(unit)}: ${line}`);
    }));
}

module.exports = { differences, expected, printed };
