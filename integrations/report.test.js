'use strict';

// Tests of the report of a build. What the page shows is read in headless Chromium, where it is installed; CHROMIUM may name it.

const assert = require('node:assert/strict');
const fs = require('node:fs');
const path = require('node:path');
const test = require('node:test');
const { claimsOf } = require('./report/claims.js');
const { diff, hunks } = require('./report/diff.js');
const { laidOut } = require('./report/layout.js');
const { neighbours, rectangles } = require('./report/map.js');
const { writeReport } = require('./report/report.js');
const { Browser, command } = require('./support/chromium.js');
const { room } = require('./support/hosts.js');

// Prints each text as it is.
const printing = ['sh', '-c', 'cat'];

const browser = new Browser();
test.after(() => browser.close());
const needsChromium = { skip: command === null ? 'chromium is not installed' : false };

// Numbers from 0 to 1 that are the same at each run.
function numbers(seed) {
    let state = seed;
    return () => {
        state = (state * 1103515245 + 12345) % 2147483648;
        return state / 2147483648;
    };
}

test('the difference of two texts', () => {
    const shown = (before, after) => diff(before, after).map(([kind, line]) => kind + line);
    assert.deepEqual(shown('', ''), []);
    assert.deepEqual(shown('a\nb\n', 'a\nb\n'), [' a', ' b']);
    assert.deepEqual(shown('a\nb\nc\n', 'a\nc\n'), [' a', '-b', ' c']);
    assert.deepEqual(shown('a\n', ''), ['-a']);
    assert.deepEqual(shown('', 'a\n'), ['+a']);
    // An added line is behind the one that it is like.
    assert.deepEqual(shown('gone();\nf(1 + 2);\nlost();\ng(1 + 1);\n', 'f(3);\ng(2);\n'), ['-gone();', '-f(1 + 2);', '+f(3);', '-lost();', '-g(1 + 1);', '+g(2);']);
});

test('a difference has both texts, and no line is both removed and added without need', () => {
    const next = numbers(7);
    const text = (most, letters) => Array.from({ length: Math.floor(next() * most) }, () => `${letters[Math.floor(next() * letters.length)]}\n`).join('');
    for (let i = 0; i < 2000; i += 1) {
        const letters = 'abcdefgh'.slice(0, 1 + (i % 8));
        const [before, after] = [text(12, letters), text(12, letters)];
        const found = diff(before, after);
        const of = (kind) => found.filter(([other]) => other !== kind).map(([, line]) => `${line}\n`).join('');
        assert.equal(of('+'), before);
        assert.equal(of('-'), after);
    }
});

test('a large difference ends soon', () => {
    const lines = Array.from({ length: 20_000 }, (_, i) => `line ${i}\n`);
    const alike = Array.from({ length: 20_000 }, (_, i) => `line ${i % 10}\n`);
    for (const all of [lines, alike]) {
        const found = diff(all.join(''), all.filter((_, i) => i % 7 > 0).join(''));
        assert.ok(found.some(([kind]) => kind === '-'));
    }
});

test('the parts of a difference around its changes', () => {
    const found = diff('1\n2\n3\n4\n5\n6\n7\n8\n9\n', '1\n2\n4\n5\n6\n7\n8\n9\nx\n');
    assert.deepEqual(hunks(found, 1), [
        { line: 2, lines: [[' ', '2'], ['-', '3'], [' ', '4']] },
        { line: 9, lines: [[' ', '9'], ['+', 'x']] },
    ]);
    assert.deepEqual(hunks(diff('1\n', '1\n'), 3), []);
});

test('a text gets a line for each statement, and for each item of a long list', () => {
    const long = "{alpha: 1, beta: [1, 2], gamma: 'text; with {', delta: 'dddddddddddddddddddddddddddddddddddd', e: /;{/}";
    const rows = [
        ['f();\ng();\n', 'f();\ng();\n'],
        ['a = function() { f(); return {b: 1}; };', 'a = function() {\n    f();\n    return {b: 1};\n};'],
        ['if (a) { f(); } else { g(); } h();', 'if (a) {\n    f();\n} else {\n    g();\n}\nh();'],
        ['for (let i = 0; i < 3; i++) { f(); }', 'for (let i = 0; i < 3; i++) {\n    f();\n}'],
        ['do { f(); } while (a); while (b) { g(); }', 'do {\n    f();\n} while (a);\nwhile (b) {\n    g();\n}'],
        ['try { f(); } catch (e) { g(); } finally { h(); }', 'try {\n    f();\n} catch (e) {\n    g();\n} finally {\n    h();\n}'],
        ['f(() => { g(); }, 1)(2);', 'f(() => {\n    g();\n}, 1)(2);'],
        ['f(`a;\n  b${ {c} };`);', 'f(`a;\n  b${ {c} };`);'],
        ['/*! a; b */\nf(); g();', '/*! a; b */\nf();\ng();'],
        [`f(${long});`, "f({\n    alpha: 1,\n    beta: [1, 2],\n    gamma: 'text; with {',\n    delta: 'dddddddddddddddddddddddddddddddddddd',\n    e: /;{/\n});"],
        // What isn't understood stays as it is.
        ['f(); g(`;', 'f(); g(`;'],
    ];
    for (const [before, after] of rows) assert.equal(laidOut(before), after);
});

test('the map has an area for each value, in proportion, and none covers another', () => {
    const next = numbers(3);
    for (const count of [1, 2, 7, 100]) {
        const values = Array.from({ length: count }, () => 1 + Math.floor(next() ** 6 * 1e6)).sort((a, b) => b - a);
        const total = values.reduce((sum, value) => sum + value, 0);
        const boxes = rectangles(values, 200, 100);
        assert.equal(boxes.length, count);
        boxes.forEach((box, i) => {
            assert.ok(Math.abs(box.width * box.height - (values[i] / total) * 20000) < 1e-6);
            assert.ok(box.x > -1e-6 && box.y > -1e-6 && box.x + box.width < 200 + 1e-6 && box.y + box.height < 100 + 1e-6);
            for (const other of boxes.slice(i + 1)) {
                const apart = box.x + box.width <= other.x + 1e-6 || other.x + other.width <= box.x + 1e-6 || box.y + box.height <= other.y + 1e-6 || other.y + other.height <= box.y + 1e-6;
                assert.ok(apart);
            }
        });
    }
});

test('arrow keys lead from the first module of a map to each', () => {
    const next = numbers(5);
    for (const count of [1, 2, 7, 1000]) {
        const values = Array.from({ length: count }, () => 1 + Math.floor(next() ** 6 * 1e6)).sort((a, b) => b - a);
        const beside = neighbours(rectangles(values, 200, 100));
        const [seen, todo] = [new Set([0]), [0]];
        while (todo.length > 0) {
            for (const to of Object.values(beside[todo.pop()])) {
                if (!seen.has(to)) todo.push(to);
                seen.add(to);
            }
        }
        assert.equal(seen.size, count);
    }
    // Two beside each other.
    assert.deepEqual(neighbours(rectangles([1, 1], 200, 100)), [{ ArrowRight: 1 }, { ArrowLeft: 0 }]);
});

test('no more is claimed than docs/CLAIM.md claims', () => {
    const of = (passes, options) => claimsOf(passes, options).join(' ');
    for (const pass of ['simplify', 'expr', 'branch', 'dce', 'const', 'inline']) {
        assert.match(of([pass]), /wherever its run ends inside the core, the result's run makes the same host calls in the same order/);
        assert.match(of([pass]), /Nothing is claimed of a run that leaves the core or doesn't end\./);
        assert.match(of([pass]), /hosts that change neither data .* call no export during a run, .* compare functions/);
        assert.match(of([pass]), /is tested\.$/);
    }
    // Of json alone it isn't claimed that a module does the same.
    assert.doesNotMatch(of(['json']), /host calls/);
    assert.match(of(['json']), /it isn't claimed that json keeps what the module does/);
    // With flags the claim is about another world.
    for (const options of [{ define: { A: '1' } }, { env: { A: '1' } }, { typeof: { a: 'object' } }, { const: { m: { A: '1' } } }]) {
        assert.match(of(['simplify'], options), /^Flags make another world/);
        assert.match(of(['simplify'], options), /in the plain world/);
    }
    // Given modules and other flags are two worlds, one after the other, and given modules aren't loaded.
    assert.match(of(['simplify'], { define: { A: '1' }, const: { m: { A: '1' } } }), /^Flags make two other worlds.* without these imports .* a module in between/);
    assert.match(of(['simplify'], { const: { m: { A: '1' } } }), /without these imports/);
    assert.doesNotMatch(of(['simplify'], { define: {} }), /Flags/);
    assert.match(of(['simplify'], { dropImports: true }), /Loads of modules are left out/);
    assert.match(of(['inline', 'simplify']), /proved of each pass by itself/);
});

const NASTY = '</script><img src=x onerror="document.title=1">';
const MODULES = [
    { name: 'src/main.js', text: `if (0) gone('${NASTY}');\nf(1 + 2);\ng();\n`, code: '\nf(3);\ng();\n' },
    { name: 'src/same.js', text: 'f();\n', code: 'f();\n' },
    { name: `src/${NASTY}.js`, text: 'f();\n  class A {}\n', left: { reason: 'out of core: Class', line: 2, column: 2 } },
    { name: 'src/wrong.js', text: '@\n', fault: { message: 'syntax', line: 1, column: 0 } },
];

// Writes a report and returns its file.
async function reported(t, modules = MODULES, about = {}) {
    const file = path.join(room(t), 'report.html');
    await writeReport(file, modules, { options: { program: printing }, passes: ['simplify'], how: 'modules of a build', ...about });
    return file;
}

test('the page is one file that names no other', async (t) => {
    const html = fs.readFileSync(await reported(t), 'utf8');
    assert.doesNotMatch(html, /https?:|<link|@import|url\(|<script src|<img src/);
    assert.match(html, /default-src 'none'/);
    // The link to the claims is the one thing that leads elsewhere.
    assert.deepEqual([...html.matchAll(/href="([^#"][^"]*)"/g)].map(([, link]) => path.basename(link)), ['CLAIM.md']);
});

test('the link to the claims leads to the document', async (t) => {
    const file = await reported(t);
    const [, link] = /id="claim" href="([^"]*)"/.exec(fs.readFileSync(file, 'utf8'));
    assert.equal(fs.realpathSync(path.join(path.dirname(file), link)), fs.realpathSync(path.join(__dirname, '..', 'docs', 'CLAIM.md')));
});

const text = (selector) => `document.querySelector(${JSON.stringify(selector)}).innerText`;

test('the page shows bytes, what was removed, what was left and why, and what is claimed', needsChromium, async (t) => {
    const file = await reported(t);
    const page = await browser.page();
    await page.open(file);
    // After: 12, 5, 18 and 2.
    const before = MODULES.map((module) => Buffer.byteLength(module.text));
    assert.match(await page.value(text('header')), new RegExp(`2 of 4 modules simplified, 1 left as it is, 1 refused\\. ${before.reduce((a, b) => a + b)} bytes before, 37 after`));
    assert.equal(await page.value("document.querySelectorAll('#map .cell').length"), 4);
    assert.match(await page.value(text('header')), /\nPasses: simplify\. Flags: none\. Of modules of a build\.$/);
    assert.match(await page.value(text('#detail')), /No module is shown yet/);

    await page.open(file, { hash: '#0' });
    const main = await page.value(text('#detail'));
    assert.match(main, /^src\/main\.js\n/);
    assert.match(main, new RegExp(`${before[0]} bytes before, 12 after`));
    assert.match(main, /- f\(1 \+ 2\);\n\+ f\(3\);/);
    assert.match(main, /What is claimed\n+In each world/);
    assert.deepEqual(await page.value("[...document.querySelectorAll('#detail del mark, #detail ins mark')].map((part) => part.innerText)"), ['1 + 2', '3']);
    assert.match(await page.value("document.querySelector('#detail a').href"), /docs\/CLAIM\.md$/);

    await page.open(file, { hash: '#1' });
    assert.match(await page.value(text('#detail')), /Nothing: the result is the module as it prints\./);
    await page.open(file, { hash: '#2' });
    const left = await page.value(text('#detail'));
    assert.ok(left.includes(NASTY));
    assert.match(left, /What was left, and why\n+out of core: Class at line 2, column 3\./);
    assert.match(left, / 2 \| {3}class A \{\}\n +\| {3}\^/);
    assert.match(left, /nothing is claimed/);
    await page.open(file, { hash: '#3' });
    assert.match(await page.value(text('#detail')), /Why it was refused\n+syntax at line 1, column 1\./);

    // The texts of modules are no part of the page, and it loads nothing.
    assert.equal(await page.value('document.title'), 'What was simplified');
    assert.equal(await page.value("document.querySelectorAll('img').length"), 0);
    assert.deepEqual(page.requests.filter((url) => !url.endsWith('report.html')), []);
    assert.deepEqual(page.faults, []);
});

const focus = "(document.activeElement.dataset.module ?? document.activeElement.innerText)";
// The way of the focus through the page by the key Tab.
async function tabs(page, count) {
    const found = [];
    for (let i = 0; i < count; i += 1) {
        await page.press('Tab');
        found.push(await page.value('document.activeElement.tagName + (document.activeElement.id === "" ? "" : "#" + document.activeElement.id)'));
    }
    return found;
}

test('the page is used by keys alone', needsChromium, async (t) => {
    const page = await browser.page();
    await page.open(await reported(t));
    // The map is one stop. Its first module is the largest.
    await page.press('Tab');
    assert.equal(await page.value(focus), '0');
    const outline = await page.value('(({ outlineStyle, outlineWidth }) => [outlineStyle, outlineWidth])(getComputedStyle(document.activeElement))');
    assert.deepEqual(outline, ['solid', '3px']);
    await page.press('ArrowRight');
    const right = await page.value(focus);
    assert.notEqual(right, '0');
    await page.press('ArrowLeft');
    assert.equal(await page.value(focus), '0');
    await page.press('ArrowLeft');
    assert.equal(await page.value(focus), '0');
    await page.press('End', 'Home');
    assert.equal(await page.value(focus), '0');
    await page.press('Enter');
    assert.equal(await page.value(focus), 'src/main.js');
    assert.match(await page.value(text('#detail')), /f\(3\);/);
    await page.press('Escape');
    assert.equal(await page.value(focus), '0');
    // Behind the map: the two fields, the headings of five columns, the list as one stop, and what is shown.
    assert.deepEqual(await tabs(page, 10), ['INPUT#search', 'SELECT#kind', 'BUTTON', 'BUTTON', 'BUTTON', 'BUTTON', 'BUTTON', 'A', 'DIV', 'A']);
});

test('the list is moved in, sorted and filtered by keys', needsChromium, async (t) => {
    const page = await browser.page();
    await page.open(await reported(t));
    const rows = () => page.value("[...document.querySelectorAll('#rows tr')].filter((row) => !row.hidden).map((row) => row.cells[0].innerText)");
    await page.value("document.querySelector('#rows a').focus()");
    await page.press('ArrowDown', 'Enter');
    assert.match(await page.value(text('#detail')), /^src\/same\.js/);
    await page.press('Escape', 'ArrowUp');
    assert.equal(await page.value(focus), 'src/main.js');
    await page.value("document.querySelector('th[data-by=before] button').focus()");
    await page.press('Enter');
    const names = MODULES.map(({ name }) => name);
    assert.deepEqual(await rows(), [names[3], names[1], names[2], names[0]]);
    assert.equal(await page.value("document.querySelector('th[data-by=before]').getAttribute('aria-sort')"), 'ascending');
    await page.press('Enter');
    assert.deepEqual(await rows(), [names[0], names[2], names[1], names[3]]);
    await page.value("document.getElementById('search').focus()");
    await page.type('MAIN');
    assert.deepEqual(await rows(), ['src/main.js']);
    assert.equal(await page.value(text('#count')), '1 of 4 modules');
});

test('each part of the page has a role and a name for assistive technology', needsChromium, async (t) => {
    const page = await browser.page();
    await page.open(await reported(t), { hash: '#0' });
    const parts = await page.accessible();
    const names = (role) => parts.filter(([other]) => other === role).map(([, name]) => name);
    const headings = ['List of the modules', 'Map of the modules', 'What is claimed', 'What was removed', 'What was simplified', 'src/main.js'];
    assert.deepEqual(names('heading').sort(), headings);
    const before = Buffer.byteLength(MODULES[0].text);
    assert.ok(names('button').some((name) => name.startsWith(`src/main.js: ${before} bytes before`)));
    assert.ok(names('button').includes(`src/${NASTY}.js: 18 bytes, left as it is.`));
    assert.ok(names('region').includes('What was removed of src/main.js'));
    assert.ok(parts.some(([role, name]) => role === 'group' && name === 'Map of the modules'));
    assert.ok(parts.some(([role, name]) => role === 'searchbox' && name === 'Name has'));
    assert.ok(parts.every(([role, name]) => !['button', 'link', 'combobox', 'searchbox'].includes(role) || name !== ''));
});

// The contrast of each text with what is behind it, by WCAG 2.1: the least of all, and where it is.
const CONTRAST = `(() => {
    const parse = (color) => color.match(/[\\d.]+/g).map(Number);
    const light = (color) => parse(color).slice(0, 3).map((part) => part / 255).map((part) => (part <= 0.04045 ? part / 12.92 : ((part + 0.055) / 1.055) ** 2.4))
        .reduce((sum, part, i) => sum + part * [0.2126, 0.7152, 0.0722][i], 0);
    const behind = (element) => {
        const color = getComputedStyle(element).backgroundColor;
        return parse(color)[3] === 0 && element.parentElement !== null ? behind(element.parentElement) : color;
    };
    let least = [Infinity, ''];
    const walker = document.createTreeWalker(document.body, NodeFilter.SHOW_TEXT);
    for (let node = walker.nextNode(); node !== null; node = walker.nextNode()) {
        const element = node.parentElement;
        if (node.data.trim() === '' || element.closest('script, style, noscript, option') !== null) continue;
        const [a, b] = [light(getComputedStyle(element).color), light(behind(element))].sort((x, y) => y - x);
        const ratio = (a + 0.05) / (b + 0.05);
        if (ratio < least[0]) least = [ratio, node.data];
    }
    return least;
})()`;

test('light and dark, each with enough contrast', needsChromium, async (t) => {
    const file = await reported(t);
    const page = await browser.page();
    const brightness = {};
    for (const scheme of ['light', 'dark']) {
        for (const hash of ['#0', '#2']) {
            await page.open(file, { hash, scheme });
            const [ratio, where] = await page.value(CONTRAST);
            assert.ok(ratio >= 4.5, `${scheme}: ${ratio}: ${where}`);
        }
        brightness[scheme] = await page.value('getComputedStyle(document.body).backgroundColor.match(/\\d+/g).reduce((sum, part) => sum + Number(part), 0)');
    }
    assert.ok(brightness.light > 600 && brightness.dark < 165);
});

test('a narrow page needs no sideways scrolling', needsChromium, async (t) => {
    const page = await browser.page();
    await page.open(await reported(t), { hash: '#0', width: 400, height: 800 });
    assert.ok(await page.value('document.documentElement.scrollWidth <= innerWidth'));
});

// Modules of many sizes, some of them left.
function many(count) {
    const next = numbers(11);
    return Array.from({ length: count }, (_, i) => {
        const text = 'if (0) f();\ng(1 + 2);\n'.repeat(1 + Math.floor(next() ** 4 * 100));
        const name = `src/d${i % 17}/module${i}.js`;
        return i % 10 === 0 ? { name, text, left: { reason: 'too deep' } } : { name, text, print: text, code: 'g(3);\n' };
    });
}

test('a thousand modules', needsChromium, async (t) => {
    const file = await reported(t, many(1000));
    const page = await browser.page();
    assert.ok(fs.statSync(file).size < 10_000_000);
    await page.open(file);
    // Milliseconds for a click and for a filter: a tenth of a second each, and much more on a machine with other work.
    const LONG = 5000;
    const took = (what) => page.value(`(() => { const start = performance.now(); ${what}; return performance.now() - start; })()`);
    assert.ok(await took("document.querySelectorAll('#map .cell')[500].click()") < LONG);
    assert.ok(await took("const field = document.getElementById('search'); field.value = 'module9'; field.dispatchEvent(new Event('input'))") < LONG);
    assert.equal(await page.value(text('#count')), '111 of 1,000 modules');
});

test('flags that are not replaced in a module that is left are in the page', needsChromium, async (t) => {
    const page = await browser.page();
    const modules = [{ name: 'a.js', text: 'class A {}\nif (DEBUG) f();\n', left: { reason: 'out of core: Class', line: 1, column: 0 } }];
    await page.open(await reported(t, modules, { options: { define: { DEBUG: 'false' } } }), { hash: '#0' });
    assert.match(await page.value(text('#detail')), /Flags that aren't replaced in it: DEBUG \(line 2, column 5\)\./);
    assert.match(await page.value(text('header')), /Flags: --define\./);
});

test('a large difference is cut, and the page says so', needsChromium, async (t) => {
    const lines = Array.from({ length: 5000 }, (_, i) => `if (0) f${i}();\n`).join('');
    const page = await browser.page();
    await page.open(await reported(t, [{ name: 'a.js', text: lines, print: lines, code: '' }]), { hash: '#0' });
    assert.match(await page.value(text('#detail')), /3,000 more lines of the difference aren't in this page\./);
    assert.equal(await page.value("document.querySelectorAll('#detail del').length"), 2000);
});
