'use strict';

// What the documents name is there: crates, rules, headings of texts, and files.

const assert = require('node:assert/strict');
const { spawnSync } = require('node:child_process');
const fs = require('node:fs');
const path = require('node:path');
const test = require('node:test');
const { PASSES } = require('./shake.js');

const TOP = path.join(__dirname, '..');
const read = (...parts) => fs.readFileSync(path.join(TOP, ...parts), 'utf8');
const pages = fs.readdirSync(path.join(TOP, 'docs'), { recursive: true }).filter((name) => name.endsWith('.md'));
const documents = ['README.md', 'CHANGELOG.md', ...pages.map((name) => `docs/${name}`)];

// The texts of all files of one kind in the folder `src` or `specs` of each crate.
function textOf(folder, ending) {
    const texts = [];
    for (const crate of fs.readdirSync(path.join(TOP, 'crates'))) {
        const place = path.join(TOP, 'crates', crate, folder);
        if (!fs.existsSync(place)) continue;
        const names = fs.readdirSync(place, { recursive: true }).filter((name) => name.endsWith(ending));
        texts.push(...names.map((name) => fs.readFileSync(path.join(place, name), 'utf8')));
    }
    return texts.join('\n');
}

// The first cells of the rows of RULES that name a rule: `constructors: functions`.
function rulesOf(document) {
    const cells = [...document.matchAll(/^\| (`[^|]*?: `[a-z_`, ]*) \|/gm)].map(([, cell]) => cell.split(': '));
    const namesOf = (text) => [...text.matchAll(/`([a-z_]+)`/g)].map(([, name]) => name);
    return cells.map(([constructors, functions]) => ({ constructors: namesOf(constructors), functions: namesOf(functions) }));
}

test('each link of a document leads to a file', () => {
    for (const name of documents) {
        for (const [, link] of read(name).matchAll(/\]\(([^)#:]+)(?:#[^)]*)?\)/g)) {
            assert.ok(fs.existsSync(path.join(TOP, path.dirname(name), link)), `${name}: ${link}`);
        }
    }
});

test('each rule of RULES is in a relation and in the code', () => {
    const [code, relations] = [textOf('src', '.rt'), textOf('specs', '.antt')];
    const rules = rulesOf(read('docs', 'RULES.md'));
    assert.ok(rules.length > 60);
    for (const { constructors, functions } of rules) {
        for (const name of functions) assert.match(code, new RegExp(`\\bfn ${name}\\b`), name);
        for (const name of constructors) assert.match(relations, new RegExp(`^ +${name} : `, 'm'), name);
    }
});

test('each constructor of RULES is in the table of texts and edits, and each heading there in the texts', () => {
    const document = read('docs', 'RULES.md');
    const table = document.slice(document.indexOf('## Texts and edits'));
    for (const { constructors } of rulesOf(document)) {
        for (const name of constructors) assert.ok(table.includes(`\`${name}\``), name);
    }
    const headings = new Set(read('crates', 'tests', 'stdin').split('\n').filter((line) => line.startsWith('# ')));
    for (const [, double, single] of table.matchAll(/``(# .*?) ?``(?!`)|`(# [^`]*)`/g)) {
        assert.ok(headings.has(double ?? single), double ?? single);
    }
});

const python = { skip: spawnSync('python3', ['--version']).error === undefined ? false : 'python3 is not installed' };

// What a tool prints that is written in Python.
function printed(tool, ...words) {
    const { status, stdout } = spawnSync('python3', [path.join(TOP, 'tools', tool), ...words], { encoding: 'utf8' });
    assert.equal(status, 0, stdout);
    return stdout;
}

test('CRATES is what tools/crates prints', python, () => {
    assert.equal(read('docs', 'CRATES.md'), printed('crates'), 'call tools/crates --write');
});

test('the floors that ARCHITECTURE draws are those of CRATES', () => {
    const floors = new Map([...read('docs', 'CRATES.md').matchAll(/^\| (\d+) \| \[`(\w+)`\]/gm)].map(([, floor, crate]) => [crate, floor]));
    const [, drawing] = read('docs', 'ARCHITECTURE.md').split('```\n');
    for (const [, names, floor] of drawing.matchAll(/((?:\w+, +)*\w+) \((\d+)\)/g)) {
        for (const crate of names.split(/, +/)) if (floors.has(crate)) assert.equal(floor, floors.get(crate), crate);
    }
});

test('CRATES says of each crate what is proved or tested', () => {
    for (const [, crate, , proved, tested] of read('docs', 'CRATES.md').matchAll(/^\| \d+ \| \[`(\w+)`\][^|]*\|([^|]*)\|([^|]*)\|([^|]*)\|/gm)) {
        assert.ok(proved.trim() !== '' || tested.trim() !== '', crate);
    }
});

test('the list of functions without an edit is that of tools/edits', python, () => {
    assert.ok(read('docs', 'GATE.md').includes(`-->\n${printed('edits', '--unedited')}<!--`), 'call tools/edits --unedited --write');
});

test('GATE has the numbers of edits', python, () => {
    for (const [, folder, count] of printed('edits').matchAll(/^(\S+): (\d+) edits/gm)) {
        assert.match(read('docs', 'GATE.md'), new RegExp(`^\\| \`crates/NAME/${folder}\` \\| ${count}:`, 'm'), folder);
    }
});

test('each edit that RULES names is there', () => {
    const document = read('docs', 'RULES.md');
    for (const [, crate, name] of document.slice(document.indexOf('## Texts and edits')).matchAll(/`([a-z]\w*)\/([\w-]+)`/g)) {
        const places = ['must-fail', 'wrong'].map((folder) => path.join(TOP, 'crates', crate, folder, `${name}.edit`));
        assert.ok(places.some((file) => fs.existsSync(file)), `${crate}/${name}`);
    }
});

test('the costs and CRATES name each crate', () => {
    const crates = [...read('crates.txt').matchAll(/^(\w+):/gm)].map(([, name]) => name);
    for (const name of ['docs/notes/costs.md', 'docs/CRATES.md']) {
        for (const crate of crates) assert.ok(read(name).includes(`\`${crate}\``), `${name}: ${crate}`);
    }
});

test('no pass uses a crate of another pass', () => {
    const passes = ['expr', 'branch', 'dce', 'carry', 'const'];
    const passOf = (crate) => passes.find((pass) => crate.startsWith(`${pass}_`) || crate === `swc_${pass}`);
    for (const [, crate, below] of read('crates.txt').matchAll(/^(\w+):(.*)$/gm)) {
        const pass = passOf(crate);
        if (pass === undefined) continue;
        const others = below.split(' ').filter((other) => ![undefined, pass].includes(passOf(other)));
        assert.deepEqual(others, [], crate);
    }
});

test('the name of a crate tells whether it has code', () => {
    for (const [, crate] of read('crates.txt').matchAll(/^(\w+):/gm)) {
        if (!/_(rules|proofs)$/.test(crate)) continue;
        const sources = fs.readdirSync(path.join(TOP, 'crates', crate, 'src'));
        const bodies = sources.flatMap((file) => read('crates', crate, 'src', file).match(/^\{[^}]*\S[^}]*\}/gm) ?? []);
        assert.deepEqual(bodies, [], `${crate} has code`);
    }
});

test('the help of the program names each pass and each option of CLI', () => {
    const source = read('crates', 'shake_options', 'src', 'notice.rt');
    const help = source.slice(source.indexOf('const HELP'));
    for (const pass of PASSES) assert.match(help, new RegExp(`^  ${pass} `, 'm'));
    for (const [option] of read('docs', 'CLI.md').matchAll(/(?<!-)--[a-z][a-z-]*/g)) assert.ok(help.includes(option), option);
    assert.ok(source.includes(`"shake ${JSON.parse(read('package.json')).version}\\n"`));
});

test('help and version of the program', { skip: process.env.SHAKE === undefined ? 'SHAKE is not set' : false }, () => {
    const run = (...words) => spawnSync(process.env.SHAKE, words, { input: '', encoding: 'utf8' });
    for (const words of [['--help'], ['-h'], ['simplify', '--help'], ['fold', '-h', '--version']]) {
        const { status, stdout, stderr } = run(...words);
        assert.deepEqual([status, stderr], [0, '']);
        assert.match(stdout, /^Usage: shake PASS/);
    }
    const { version } = JSON.parse(read('package.json'));
    for (const word of ['--version', '-v']) assert.equal(run(word).stdout, `shake ${version}\n`);
    // Such a word is an operand here.
    assert.equal(run('simplify', '--retain', '--help').stdout, '');
    assert.equal(run('simplify', '--retain').status, 2);
});

test('the first screen of README has 40 lines at most', () => {
    const lines = read('README.md').split('\n');
    assert.ok(lines.findIndex((line) => line.startsWith('## ')) <= 40);
});

test('the example of README is what the program makes', { skip: process.env.SHAKE === undefined ? 'SHAKE is not set' : false }, () => {
    const document = read('README.md');
    const [before, after] = [...document.matchAll(/^```js\n(.*?)^```$/gms)].map(([, text]) => text);
    const [, words] = /^`shake (.*?)` makes$/m.exec(document);
    const { status, stdout, stderr } = spawnSync(process.env.SHAKE, words.split(' '), { input: before, encoding: 'utf8' });
    assert.equal(status, 0, stderr);
    assert.equal(stdout.trimEnd(), after.trimEnd());
});

test('the example of a library in USING is that of crates/example', () => {
    const [, section] = read('docs', 'USING.md').split('\n## As a library\n');
    const blocks = [...section.matchAll(/^```(?:rust|js)\n(.*?)^```$/gms)].slice(0, 3).map(([, text]) => text);
    assert.deepEqual(blocks, ['src/main.rt', 'stdin', 'stdout'].map((name) => read('crates', 'example', ...name.split('/'))));
});

test('BENCH and HOSTILE have one table each, which tools/bench writes', () => {
    const tool = read('tools', 'bench');
    for (const name of ['BENCH.md', 'HOSTILE.md']) {
        const text = read('docs', name);
        const heads = [...text.matchAll(/^(\|.*\|)\n\|---/gm)].map(([, head]) => head);
        assert.equal(heads.length, 1, name);
        assert.ok(tool.includes(`"${heads[0]}\\n`), heads[0]);
        assert.match(text, /^<!-- tools\/bench --write -->\n\n\|[^]*\|\n\n<!-- end of the table -->$/m);
    }
});

test('tools/bench measures the program', python.skip ? python : { skip: process.env.SHAKE === undefined ? 'SHAKE is not set' : false }, () => {
    const table = printed('bench', '--program', process.env.SHAKE, '--times', '--runs', '1', '--scale', '0.01');
    for (const text of ['1 MB', '10 MB', '10 MB of `f(1 + 2);`']) assert.ok(table.includes(`\n| ${text} | \`shake simplify\` | `), text);
});
