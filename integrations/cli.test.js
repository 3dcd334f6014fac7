'use strict';

// Tests of the command `zorikham`. They run a replacement of `shake`; SHAKE is the path of a built one, for the tests that need
// a real program.

const assert = require('node:assert/strict');
const { spawnSync } = require('node:child_process');
const fs = require('node:fs');
const path = require('node:path');
const test = require('node:test');
const { Progress } = require('./cli/progress.js');
const { excerptOf } = require('./excerpt.js');
const { room } = require('./support/hosts.js');

const COMMAND = path.join(__dirname, 'cli', 'zorikham.js');
const FAKE = path.join(__dirname, 'support', 'fake.js');
const needsShake = { skip: process.env.SHAKE === undefined ? 'SHAKE is not set' : false };

// Files by their names, in an empty folder.
function folderWith(t, files) {
    const folder = room(t);
    for (const [name, text] of Object.entries(files)) write(path.join(folder, name), text);
    return folder;
}

function write(place, text) {
    fs.mkdirSync(path.dirname(place), { recursive: true });
    fs.writeFileSync(place, text);
}

// A program of the shell.
function script(folder, text) {
    const place = path.join(folder, 'program.sh');
    fs.writeFileSync(place, `#!/bin/sh\n${text}`, { mode: 0o755 });
    return place;
}

// Runs the command in a folder: `{ status, stdout, stderr }`.
function run(folder, words, { program = FAKE, input = '' } = {}) {
    const { status, stdout, stderr } = spawnSync(process.execPath, [COMMAND, '--program', program, ...words], { cwd: folder, input, encoding: 'utf8' });
    return { status, stdout, stderr };
}

const read = (folder, name) => fs.readFileSync(path.join(folder, name), 'utf8');
const namesIn = (folder) => fs.readdirSync(folder, { recursive: true, withFileTypes: true }).filter((entry) => entry.isFile())
    .map((entry) => path.relative(folder, path.join(entry.parentPath ?? entry.path, entry.name))).sort();

test('a file, and standard input, on standard output', (t) => {
    const folder = folderWith(t, { 'a.js': 'f(1 + 2);\n' });
    const done = { status: 0, stdout: 'f(3);\n', stderr: '' };
    assert.deepEqual(run(folder, ['a.js']), done);
    assert.deepEqual(run(folder, [], { input: 'f(1 + 2);\n' }), done);
    assert.deepEqual(run(folder, ['-'], { input: 'f(1 + 2);\n' }), done);
    assert.deepEqual(namesIn(folder), ['a.js']);
});

test('a result in a file', (t) => {
    const folder = folderWith(t, { 'a.js': 'f(1 + 2);\n' });
    const stderr = 'zorikham: 1 of 1 file simplified, 4 of 10 bytes less\n';
    assert.deepEqual(run(folder, ['a.js', '-o', 'new/b.js']), { status: 0, stdout: '', stderr });
    assert.equal(read(folder, 'new/b.js'), 'f(3);\n');
    assert.equal(run(folder, ['--outfile=c.js', 'a.js']).status, 0);
    assert.equal(run(folder, ['-o', 'd.js'], { input: 'g(1 + 2);' }).status, 0);
    assert.deepEqual([read(folder, 'c.js'), read(folder, 'd.js')], ['f(3);\n', 'g(3);']);
    assert.deepEqual(namesIn(folder), ['a.js', 'c.js', 'd.js', 'new/b.js']);
});

test('several files in a folder that mirrors theirs', (t) => {
    const folder = folderWith(t, { 'src/a.js': 'f(1 + 2);', 'src/x/b.mjs': 'g(1 + 2);' });
    const { status, stdout, stderr } = run(folder, ['src/a.js', 'src/x/b.mjs', 'src/a.js', '--outdir', 'out']);
    assert.deepEqual({ status, stdout }, { status: 0, stdout: '' });
    assert.equal(stderr, 'zorikham: 2 of 2 files simplified, 8 of 18 bytes less\n');
    assert.deepEqual(namesIn(path.join(folder, 'out')), ['a.js', 'x/b.mjs']);
    assert.equal(read(folder, 'out/x/b.mjs'), 'g(3);');
    run(folder, ['src/x/b.mjs', '--outdir', 'all', '--outbase', '.']);
    assert.deepEqual(namesIn(path.join(folder, 'all')), ['src/x/b.mjs']);
});

test('folders and patterns', (t) => {
    const files = ['a.js', 'b.mjs', 'c.cjs', 'd.ts', 'x/ab.js', 'x/ac.js', 'x/y/ad.js', '.hidden/e.js', 'node_modules/f.js', 'x/[g].js'];
    const folder = folderWith(t, Object.fromEntries(files.map((name) => [name, 'f();'])));
    const rows = [
        [['.'], ['a.js', 'b.mjs', 'c.cjs', 'x/[g].js', 'x/ab.js', 'x/ac.js', 'x/y/ad.js']],
        [['*.js'], ['a.js']],
        [['**/*.js'], ['a.js', 'x/[g].js', 'x/ab.js', 'x/ac.js', 'x/y/ad.js']],
        [['x/*.js'], ['x/[g].js', 'x/ab.js', 'x/ac.js']],
        [['x/a?.js'], ['x/ab.js', 'x/ac.js']],
        [['x/a[b].js'], ['x/ab.js']],
        [['x/a[!b].js'], ['x/ac.js']],
        [['{a,x/ab}.js', '*.{m,c}js'], ['a.js', 'x/ab.js', 'b.mjs', 'c.cjs']],
        [['x/**/a*.js'], ['x/ab.js', 'x/ac.js', 'x/y/ad.js']],
        [['d.ts'], ['d.ts']],
        [['x/[g].js'], ['x/[g].js']],
        [['.hidden/*.js', 'node_modules/*.js'], ['.hidden/e.js', 'node_modules/f.js']],
        [[path.join(folder, 'x', 'a[b].js')], [path.join(folder, 'x', 'ab.js')]],
    ];
    for (const [words, found] of rows) {
        const { stdout } = run(folder, ['--json', ...words]);
        assert.deepEqual(JSON.parse(stdout).files.map(({ file }) => file), found, words.join(' '));
    }
});

test('a fault with its place, the line of source and a caret', (t) => {
    // Columns from 1 in UTF-16 units: é has one, the face two. A tab stays a tab before the caret.
    const folder = folderWith(t, {
        'a.js': "f();\n\tg('é', '\u{1f600}', @);\n", 'crlf.js': 'f();\r\ng();\r\n  @\r\n', 'mark.js': '\ufeff @\n',
    });
    assert.deepEqual(run(folder, ['a.js']), { status: 1, stdout: '',
        stderr: "a.js:2:15: error: syntax: unexpected \"@\"\n    2 | \tg('é', '\u{1f600}', @);\n      | \t             ^\n" });
    assert.equal(run(folder, ['crlf.js']).stderr, 'crlf.js:3:3: error: syntax: unexpected "@"\n    3 |   @\n      |   ^\n');
    assert.equal(run(folder, ['mark.js']).stderr, 'mark.js:1:2: error: syntax: unexpected "@"\n    1 |  @\n      |  ^\n');
    assert.equal(run(folder, [], { input: '@' }).stderr, '<stdin>:1:1: error: syntax: unexpected "@"\n    1 | @\n      | ^\n');
});

test('a long line is cut on both sides, and no control character gets to a terminal', () => {
    const line = `${'a'.repeat(500)}@${'b'.repeat(500)}`;
    const [source, caret] = excerptOf(`f();\n${line}`, { line: 2, column: 500 }).split('\n');
    assert.ok(source.length < 200);
    assert.match(source, /^ {4}2 \| \.\.a+@b+\.\.$/);
    assert.equal(caret.indexOf('^'), source.indexOf('@'));
    assert.equal(excerptOf('\x1b[31m@', { line: 1, column: 5 }), '    1 | \ufffd[31m@\n      |      ^');
    // Characters that are two columns wide, and one that has no width.
    assert.equal(excerptOf('日e\u0301@', { line: 1, column: 3 }), '    1 | 日e\u0301@\n      |    ^');
});

test('files that are left', (t) => {
    const text = '\ufeffclass A {}\n';
    const folder = folderWith(t, { 'a.js': text, 'b.js': 'f(1 + 2);', 'deep.js': 'TOO_DEEP' });
    const place = 'a.js:1:1';
    const excerpt = 'left as it is: out of core: Class\n    1 | class A {}\n      | ^\n';
    for (const [words, status, stdout, stderr] of [
        [[], 0, text, `${place}: warning: ${excerpt}`],
        [['--left', 'warn'], 0, text, `${place}: warning: ${excerpt}`],
        [['--left', 'copy'], 0, text, ''],
        [['--left=error'], 1, '', `${place}: error: ${excerpt}`],
    ]) assert.deepEqual(run(folder, ['a.js', ...words]), { status, stdout, stderr }, words.join(' '));
    assert.equal(run(folder, ['a.js', 'b.js', '--outdir', 'out']).status, 0);
    assert.deepEqual([read(folder, 'out/a.js'), read(folder, 'out/b.js')], [text, 'f(3);']);
    assert.equal(run(folder, ['deep.js']).stderr, 'deep.js: warning: left as it is: too deep\n');
    const summary = run(folder, ['a.js', 'deep.js', '--outdir', 'none', '--left', 'copy']).stderr;
    assert.equal(summary, 'zorikham: warning: 0 of 2 files simplified\n');
});

test('a flag that is not replaced is never lost without a word', (t) => {
    const folder = folderWith(t, { 'a.js': 'class A {}\nif (DEBUG) f();\n', 'b.js': 'class B {}\n' });
    const words = ['--define', 'DEBUG=false'];
    const excerpt = '    2 | if (DEBUG) f();\n      |     ^\n';
    const lost = run(folder, ['a.js', ...words]);
    assert.deepEqual([lost.status, lost.stdout], [1, '']);
    assert.ok(lost.stderr.includes(`a.js:2:5: error: DEBUG isn't replaced here, since the file is left as it is; --left warn lets it stay\n${excerpt}`));
    assert.match(lost.stderr, /^a\.js:1:1: error: left as it is: out of core: Class\n/);
    for (const policy of ['warn', 'copy']) {
        const { status, stderr } = run(folder, ['a.js', '--left', policy, ...words]);
        assert.equal(status, 0);
        assert.ok(stderr.endsWith(`a.js:2:5: warning: DEBUG isn't replaced here, since the file is left as it is\n${excerpt}`), policy);
    }
    // Where the flag isn't in the text nothing is lost.
    assert.equal(run(folder, ['b.js', ...words]).status, 0);
});

test('a command line that is not understood', (t) => {
    const folder = folderWith(t, { 'a.js': 'f();', 'b.js': 'f();', 'none/a.txt': '' });
    const rows = [
        [['--kep-top', 'a.js'], 'unknown option --kep-top; did you mean --keep-top?'],
        [['--outdri=x', 'a.js'], 'unknown option --outdri; did you mean --outdir?'],
        [['--define:A=1', 'a.js'], 'unknown option --define:A; did you mean --define?'],
        [['--something', 'a.js'], 'unknown option --something'],
        [['-q', 'a.js'], 'unknown option -q'],
        [['--passes', 'inline,simplfy', 'a.js'], '--passes: unknown pass simplfy; did you mean simplify? (simplify, optimize, expr, branch, dce, const, inline, json)'],
        [['--left', 'wran', 'a.js'], '--left: unknown policy wran; did you mean warn? (error, warn, copy)'],
        [['--rounds', '-1', 'a.js'], "--rounds: -1 isn't a whole number of at least 0"],
        [['--jobs', '0', 'a.js'], "--jobs: 0 isn't a whole number of at least 1"],
        [['a.js', '--retain'], '--retain needs NAME behind it'],
        [['-o', '--json', 'a.js'], '-o needs FILE behind it'],
        [['--json=yes', 'a.js'], '--json takes no value'],
        [['--define', 'A', 'a.js'], '--define: A has no = behind its key'],
        [['--env', '=A', 'a.js'], '--env: =A has no key in front of its ='],
        [['--const', 'A=1', 'a.js'], "--const: A=1 isn't MODULE:NAME=EXPRESSION"],
        [['simplfy'], 'there is no file simplfy; a pass is given by --passes simplify'],
        [['other.js'], 'there is no file other.js'],
        [['x*.js'], 'no file fits x*.js'],
        [['none'], 'the folder none has no .js, .mjs or .cjs file'],
        [['a.js', 'b.js'], 'there are 2 files; give --outdir DIR, --json or --report FILE.html'],
        [['a.js', 'b.js', '-o', 'c.js'], '-o is for one file, and there are 2; give --outdir DIR'],
        [['a.js', '-o', 'c.js', '--outdir', 'out'], "-o and --outdir can't be given together"],
        [['a.js', '--outbase', '.'], '--outbase is of no use without --outdir'],
        [['a.js', '--outdir', 'out', '--outbase', 'none'], "a.js isn't in the folder none of --outbase"],
        [['-', '--outdir', 'out'], 'standard input has no place in --outdir; give -o FILE'],
        [['a.js', '-o', './a.js'], './a.js would replace a file that is read'],
        [['a.js', '--outdir', '.'], 'a.js would replace a file that is read'],
        [['a.js', '--report', 'a.js'], 'a.js would replace a file that is read'],
    ];
    for (const [words, message] of rows) {
        const stderr = `zorikham: ${message}\nzorikham --help has all options\n`;
        assert.deepEqual(run(folder, words), { status: 2, stdout: '', stderr }, words.join(' '));
    }
    assert.deepEqual(namesIn(folder), ['a.js', 'b.js', 'none/a.txt']);
});

test('words behind -- are files', (t) => {
    const folder = folderWith(t, { '--help': 'f(1 + 2);' });
    assert.deepEqual(run(folder, ['--', '--help']), { status: 0, stdout: 'f(3);', stderr: '' });
});

test('where something is refused, nothing is written', (t) => {
    const folder = folderWith(t, { 'a.js': 'f(1 + 2);', 'b.js': '@', 'c.js': 'MEMORY', 'out/a.js': 'old' });
    const { status, stdout, stderr } = run(folder, ['a.js', 'b.js', 'c.js', '--outdir', 'out']);
    assert.deepEqual([status, stdout], [1, '']);
    assert.equal(stderr, 'b.js:1:1: error: syntax: unexpected "@"\n    1 | @\n      | ^\nc.js: error: out of memory\nzorikham: 2 of 3 files refused; nothing is written\n');
    assert.equal(read(folder, 'out/a.js'), 'old');
    assert.deepEqual(namesIn(path.join(folder, 'out')), ['a.js']);
    fs.writeFileSync(path.join(folder, 'u.js'), Buffer.from([0x66, 0x28, 0xff]));
    assert.equal(run(folder, ['u.js']).stderr, 'u.js:1:3: error: the text is not UTF-8\n');
    const nowhere = run(folder, ['a.js', '-o', 'b.js/c.js']);
    assert.deepEqual([nowhere.status, nowhere.stdout], [1, '']);
    assert.match(nowhere.stderr, /^zorikham: /);
});

test('standard output that is closed is no success', (t) => {
    const folder = folderWith(t, { 'a.js': 'f();\n'.repeat(100_000) });
    const pipe = `"${process.execPath}" "${COMMAND}" --program "${FAKE}" a.js; echo "status $?" >&2`;
    const { stderr } = spawnSync('sh', ['-c', `(${pipe}) | true`], { cwd: folder, encoding: 'utf8' });
    assert.match(stderr, /^zorikham: .*EPIPE.*\nstatus 1\n$/);
});

test('a program that is not there is said once', (t) => {
    const folder = folderWith(t, { 'a.js': 'f();', 'b.js': 'f();', 'c.js': 'f();' });
    const { status, stdout, stderr } = run(folder, ['.', '--outdir', 'out'], { program: '/no/such/shake' });
    assert.deepEqual([status, stdout], [1, '']);
    assert.match(stderr, /^a\.js and 2 more files: error: the program isn't found: .*\nzorikham: 3 of 3 files refused; nothing is written\n$/);
});

test('the result for machines', (t) => {
    const folder = folderWith(t, { 'a.js': 'f(1 + 2);', 'b.js': 'é;\nclass B { f() { return DEBUG; } }', 'c.js': ' @' });
    const { status, stdout } = run(folder, ['--json', 'a.js', 'b.js', 'c.js', '--define', 'DEBUG=1', '--left', 'warn']);
    assert.equal(status, 1);
    assert.deepEqual(JSON.parse(stdout), {
        status: 1, simplified: 1, left: 1, refused: 1, bytesBefore: 9, bytesAfter: 5,
        files: [
            { file: 'a.js', result: 'simplified', output: null, bytesBefore: 9, bytesAfter: 5, code: 'f(3);' },
            { file: 'b.js', result: 'left', output: null, reason: 'out of core: Class', line: 2, column: 1, lost: [{ name: 'DEBUG', line: 2, column: 24 }], bytesBefore: 37 },
            { file: 'c.js', result: 'refused', output: null, reason: 'syntax: unexpected "@"', line: 1, column: 2, bytesBefore: 2 },
        ],
    });
    const written = run(folder, ['--json', 'a.js', '--outdir', 'out']);
    assert.deepEqual(JSON.parse(written.stdout).files, [{ file: 'a.js', result: 'simplified', output: 'out/a.js', bytesBefore: 9, bytesAfter: 5 }]);
});

test('a report, also where something is refused', (t) => {
    const folder = folderWith(t, { 'a.js': 'f(1 + 2);', 'b.js': 'class B {}', 'c.js': ' @' });
    const { status, stdout, stderr } = run(folder, ['a.js', 'b.js', '--report', 'new/report.html']);
    assert.deepEqual([status, stdout], [0, '']);
    assert.match(stderr, /1 of 2 files simplified/);
    const report = read(folder, 'new/report.html');
    for (const said of ['a.js: 9 bytes before', 'b.js: 10 bytes, left as it is', 'Passes: simplify. Flags: none.']) assert.ok(report.includes(said), said);
    assert.equal(run(folder, ['a.js', 'c.js', '--report', 'refused.html']).status, 1);
    assert.ok(read(folder, 'refused.html').includes('c.js: 2 bytes, refused'));
    // One result alone is on standard output too.
    assert.equal(run(folder, ['a.js', '--report', 'one.html']).stdout, 'f(3);');
});

test('help and version', (t) => {
    const folder = room(t);
    for (const word of ['--help', '-h']) {
        const { status, stdout, stderr } = run(folder, [word]);
        assert.deepEqual([status, stderr], [0, '']);
        for (const option of ['--passes', '--outdir', '--keep-top', '--retain', '--drop-imports', '--verbatim', '--compact', '--rounds', '--min-cost', '--define', '--env', '--typeof', '--const', '--left', '--report', '--json']) {
            assert.ok(stdout.includes(option), option);
        }
    }
    const { version } = JSON.parse(read(path.join(__dirname, '..'), 'package.json'));
    for (const word of ['--version', '-v']) assert.deepEqual(run(folder, [word]), { status: 0, stdout: `zorikham ${version}\n`, stderr: '' });
});

test('each option gets to the program by its name', (t) => {
    const folder = folderWith(t, { 'a.js': '' });
    const program = script(folder, 'printf "%s|" "$@"');
    const rows = [
        [[], 'simplify|'],
        [['--passes', 'dce'], 'dce|'],
        [['--keep-top', '--drop-imports', '--compact', '--verbatim'], 'simplify|--keep-top|--drop-imports|--compact|--verbatim|'],
        [['--passes', 'optimize'], 'optimize|'],
        [['--retain', 'a', '--retain=b'], 'simplify|--retain|a|--retain|b|'],
        [['--rounds', '3', '--min-cost=0'], 'simplify|--rounds|3|--min-cost|0|'],
        [['--define', 'a.b=c=d', '--define=A=1', '--define', 'A=2'], 'simplify|--define|a.b=c=d|--define|A=2|'],
        [['--define', '__proto__=1'], 'simplify|--define|__proto__=1|'],
        [['--env', 'A=', '--typeof', 'w=object'], 'simplify|--env|A=|--typeof|w=object|'],
        [['--const', 'build:info:A=b:c'], 'simplify|--const|build:info:A=b:c|'],
    ];
    for (const [words, said] of rows) assert.equal(run(folder, ['a.js', ...words], { program }).stdout, said, words.join(' '));
});

test('several passes run in a row until none changes the text, and flags are for the first', (t) => {
    const folder = folderWith(t, { 'a.js': 'aaa' });
    // One pass makes a `b` of the first `a`, the other a `c` of the first `b`.
    const program = script(folder, `printf '%s|' "$@" >> words
echo >> words
case "$1" in inline) sed s/a/b/ ;; *) sed s/b/c/ ;; esac
`);
    const words = ['--passes', 'inline,simplify', '--define', 'A=1', '--keep-top'];
    assert.deepEqual(run(folder, ['a.js', ...words], { program }), { status: 0, stdout: 'ccc', stderr: '' });
    const [first, second, ...more] = read(folder, 'words').trimEnd().split('\n');
    assert.deepEqual([first, second], ['inline|--keep-top|--define|A=1|', 'simplify|--keep-top|']);
    assert.ok(more.length >= 4 && more.every((line) => !line.includes('--define')));
});

test('the line #! and licence comments stay', (t) => {
    const folder = folderWith(t, { 'a.js': '#!/usr/bin/env node\n/*! of a */\nf(1 + 2);\n', 'b.js': '#!/usr/bin/env node\n @' });
    const program = script(folder, 'sed -e "/^\\/\\*/d" -e "/^\\/\\//d" -e "s/1 + 2/3/"');
    assert.deepEqual(run(folder, ['a.js'], { program }), { status: 0, stdout: '#!/usr/bin/env node\n/*! of a */\nf(3);\n', stderr: '' });
    assert.match(run(folder, ['b.js']).stderr, /^b\.js:2:2: error: /);
});

test('files side by side, and no more than are asked for', (t) => {
    const folder = folderWith(t, { 'a.js': '', 'b.js': '', 'c.js': '', 'd.js': '' });
    fs.mkdirSync(path.join(folder, 'running'));
    // Each run waits until as many are running as are asked for, and says how many there were.
    const program = script(folder, `touch running/$$
for i in $(seq 200); do [ "$(ls running | wc -l)" -ge "$MOST" ] && break; sleep 0.05; done
ls running | wc -l
sleep 0.2
rm running/$$
`);
    for (const most of [1, 2]) {
        process.env.MOST = String(most);
        const { stdout } = run(folder, ['--json', '--jobs', String(most), 'a.js', 'b.js', 'c.js', 'd.js'], { program });
        const counts = JSON.parse(stdout).files.map(({ code }) => Number(code));
        assert.equal(Math.max(...counts), most);
    }
    delete process.env.MOST;
});

test('progress is said on a terminal alone, and where it takes long', () => {
    const said = [];
    let time = 0;
    const terminal = { isTTY: true, write: (text) => said.push(text) };
    const progress = new Progress(terminal, 3, () => time);
    progress.step();
    assert.deepEqual(said, []);
    time = 1000;
    progress.step();
    assert.deepEqual(said, ['\r\x1b[Kzorikham: 2 of 3 files']);
    time = 1050;
    progress.step();
    assert.equal(said.length, 1);
    progress.end();
    assert.deepEqual(said.slice(1), ['\r\x1b[K']);
    const silent = new Progress({ isTTY: false, write: () => assert.fail() }, 1, () => time);
    time = 9000;
    silent.step();
    silent.end();
});

test('passes in a row, until nothing changes', needsShake, (t) => {
    const folder = folderWith(t, { 'a.js': "const MODE = process.env.NODE_ENV;\nif (MODE === 'production') a(); else b();\n" });
    const shake = { program: process.env.SHAKE };
    const words = ['--env', 'NODE_ENV=production', '--passes', 'inline,simplify'];
    assert.deepEqual(run(folder, ['a.js', ...words], shake), { status: 0, stdout: 'a();\n', stderr: '' });
    // One pass alone is one run.
    assert.equal(run(folder, ['a.js', '--passes', 'expr'], shake).stdout, read(folder, 'a.js'));
});

test('a real program', needsShake, (t) => {
    const folder = folderWith(t, { 'a.js': 'let unused = 1;\nf(1 + 2);\n', 'b.js': "\t'é';  class A {}\n", 'c.js': 'f(\n  ;\n' });
    const shake = { program: process.env.SHAKE };
    assert.deepEqual(run(folder, ['a.js'], shake), { status: 0, stdout: 'f(3);\n', stderr: '' });
    assert.deepEqual(run(folder, ['a.js', '--keep-top'], shake).stdout, 'let unused = 1;\nf(3);\n');
    assert.match(run(folder, ['b.js'], shake).stderr, /^b\.js:1:8: warning: left as it is: out of core: Class\n/);
    assert.match(run(folder, ['c.js'], shake).stderr, /^c\.js:2:3: error: syntax/);
});
