'use strict';

// Runs the examples of docs/RULES.md with the program that SHAKE names: one run of a pass makes of the text in the column
// `Before` the text in the last column.

const assert = require('node:assert/strict');
const { spawnSync } = require('node:child_process');
const fs = require('node:fs');
const path = require('node:path');
const test = require('node:test');

const document = fs.readFileSync(path.join(__dirname, '..', 'docs', 'RULES.md'), 'utf8');

// The words of the command line for a row, by the heading of its section. The first cells of the row are given.
const WORDS = {
    'Expressions: `expr`': () => ['expr'],
    'Dead branches': () => ['branch'],
    'Names that nothing reads': ([, rule]) => (rule.startsWith('with `--drop-imports`') ? ['dce', '--drop-imports'] : ['dce']),
    'Constants and names: `const` and `inline`': ([pass]) => [textOf(pass)],
    'JSON texts: `json_parse`': () => ['json', '--min-cost', '0'],
    'Imports of given modules: `const_modules`': ([rule]) => {
        const [, value = '1'] = /`A` is `(.*?)`/.exec(rule) ?? [];
        return ['expr', '--const', `env:A=${value}`, '--const', 'env:default=2'];
    },
    'Given expressions: `inline_globals`': ([, given]) => ['expr', ...flagOf(given)],
    'Flags of the program: `shake_given`': ([flags]) => ['expr', ...textOf(flags).split(' ')],
};

// The flag that gives what a cell as `globals`: `DEBUG` = `false` says.
function flagOf(given) {
    const [, kind, key, value] = /^`(\w+)`: `(.*?)` = `(.*?)`$/.exec(given);
    const flag = { global_exprs: 'define', globals: 'define', envs: 'env', typeofs: 'typeof' }[kind];
    return [`--${flag}`, `${key}=${kind === 'envs' ? value.slice(1, -1) : value}`];
}

// The text of a cell that is code, or null.
function textOf(cell) {
    if (cell === '') return '';
    const [, text] = /^`` ?(.*?) ?``$/.exec(cell) ?? /^`([^`]*)`$/.exec(cell) ?? [];
    return text === undefined ? null : text.replaceAll('\\|', '|');
}

function cellsOf(line) {
    return line.split(/(?<!\\)\|/).slice(1, -1).map((cell) => cell.trim());
}

// The rows of the tables of a section whose last columns are `Before` and another.
function rowsOf(section) {
    const rows = [];
    let inside = false;
    for (const line of section.split('\n')) {
        const cells = cellsOf(line);
        if (cells.at(-2) === 'Before') inside = true;
        else if (!line.startsWith('|')) inside = false;
        else if (inside && !line.startsWith('|---')) rows.push(cells);
    }
    return rows;
}

function run(words, text) {
    const { status, stdout, stderr } = spawnSync(process.env.SHAKE, words, { input: text, encoding: 'utf8' });
    assert.equal(status, 0, `${words.join(' ')}: ${text}: ${stderr}`);
    return stdout;
}

// The form in which the program prints a text: `json` with the greatest number changes nothing.
const printed = (text) => run(['json', '--min-cost', '18446744073709551615'], text);

// An example that is an expression is the argument of a call, since a statement of it might go.
const statement = (text) => (text === '' || /[;}]$/.test(text) ? text : `f(${text});`);

for (const section of document.split(/^## /m)) {
    const title = section.split('\n')[0];
    if (WORDS[title] === undefined) continue;
    test(title, { skip: process.env.SHAKE === undefined ? 'SHAKE is not set' : false }, () => {
        // What is said of trees that no text gives is no row of this test.
        const rows = rowsOf(section.replace(/^Two rows hold of trees.*?^Exceptions:/ms, ''));
        assert.notEqual(rows.length, 0);
        for (const cells of rows) {
            const [before, after] = cells.slice(-2).map(textOf);
            assert.notEqual(before, null, cells.at(-2));
            assert.equal(run(WORDS[title](cells), statement(before)), printed(statement(after)), before);
        }
    });
}
