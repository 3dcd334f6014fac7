'use strict';

// The page of a report: one file of HTML with all that it needs, which loads nothing.

const fs = require('node:fs');
const path = require('node:path');
const { neighbours, rectangles } = require('./map.js');

// The map is twice as wide as it is high.
const [WIDTH, HEIGHT] = [200, 100];
// The least part of the map's width and height that has room for a name, in percent.
const ROOM = { width: 7, height: 6 };
// A module that has less of the map's width or height has no border.
const TINY = 0.8;
const RESULTS = { simplified: 'simplified', left: 'left as it is', refused: 'refused' };

const part = (name) => fs.readFileSync(path.join(__dirname, name), 'utf8');
const ENTITIES = { '&': '&amp;', '<': '&lt;', '>': '&gt;', '"': '&quot;', "'": '&#39;' };
const escape = (text) => String(text).replace(/[&<>"']/g, (character) => ENTITIES[character]);
const count = (number) => number.toLocaleString('en-US');
const counted = (number, word) => `${count(number)} ${word}${number === 1 ? '' : 's'}`;

// How much less the second number of bytes is, in words.
function changeOf(before, after) {
    if (before === after) return 'the same';
    if (before === 0) return `${count(after)} more`;
    const percent = Math.round((Math.abs(before - after) / before) * 1000) / 10;
    return `${percent} % ${after < before ? 'less' : 'more'}`;
}

/** Returns the sentence about a module's bytes. `printed` is missing where the module wasn't printed as it is. */
function summaryOf({ result, before, after, printed }) {
    if (result !== 'simplified') return `${counted(before, 'byte')}, ${RESULTS[result]}.`;
    const middle = printed === undefined || printed === before ? '' : ` (${count(printed)} as the module prints without any change)`;
    return `${counted(before, 'byte')} before${middle}, ${count(after)} after: ${changeOf(before, after)}.`;
}

// A module in the map. The part that is left of it is filled from below.
function cellOf(module, index, { x, y, width, height }, beside) {
    const percent = (value, whole) => `${Math.round((value / whole) * 1e5) / 1e3}%`;
    const style = `left:${percent(x, WIDTH)};top:${percent(y, HEIGHT)};width:${percent(width, WIDTH)};height:${percent(height, HEIGHT)}`;
    const room = width / WIDTH >= ROOM.width / 100 && height / HEIGHT >= ROOM.height / 100;
    const tiny = width / WIDTH < TINY / 100 || height / HEIGHT < TINY / 50 ? ' tiny' : '';
    const kept = module.result === 'simplified' ? `<span class="kept" style="height:${percent(Math.min(module.after, module.before), Math.max(module.before, 1))}"></span>` : '';
    const label = room ? `<span class="label">${escape(module.name.split('/').at(-1))}</span>` : '';
    const said = escape(`${module.name}: ${module.summary}`);
    const sides = Object.entries(beside).map(([key, at]) => ` data-${key.toLowerCase()}="${at}"`).join('');
    return `<button type="button" class="cell ${module.result}${tiny}" style="${style}" data-module="${index}"${sides} tabindex="-1" aria-label="${said}" title="${said}">${kept}${label}</button>`;
}

function mapOf(modules) {
    const order = modules.map((module, index) => index).sort((a, b) => modules[b].before - modules[a].before || a - b);
    const boxes = rectangles(order.map((index) => Math.max(modules[index].before, 1)), WIDTH, HEIGHT);
    const beside = neighbours(boxes);
    const cells = order.map((index, i) => cellOf(modules[index], index, boxes[i], beside[i]));
    return cells.join('\n').replace('tabindex="-1"', 'tabindex="0"');
}

function rowOf({ name, before, after, result }, index) {
    const cells = [count(before), count(after), changeOf(before, after)].map((text) => `<td class="number">${text}</td>`);
    return `<tr><td><a href="#${index}" tabindex="${index === 0 ? 0 : -1}">${escape(name)}</a></td>${cells.join('')}<td>${RESULTS[result]}</td></tr>`;
}

function headings() {
    const columns = [['name', 'Module', ''], ['before', 'Before', 'number'], ['after', 'After', 'number'], ['change', 'Change', 'number'], ['result', 'Result', '']];
    return columns.map(([by, text, kind]) => `<th scope="col" class="${kind}" data-by="${by}"><button type="button">${text}</button></th>`).join('');
}

function totalOf(modules) {
    const sum = (of) => modules.reduce((total, module) => total + of(module), 0);
    const [before, after] = [sum((module) => module.before), sum((module) => module.after)];
    const others = ['left', 'refused'].map((result) => [result, modules.filter((module) => module.result === result).length]);
    const said = others.filter(([, number]) => number > 0).map(([result, number]) => `, ${count(number)} ${RESULTS[result]}`);
    const simplified = modules.filter((module) => module.result === 'simplified').length;
    const bytes = `${counted(before, 'byte')} before, ${count(after)} after: ${changeOf(before, after)}.`;
    return `<p><strong>${count(simplified)} of ${counted(modules.length, 'module')} simplified</strong>${said.join('')}. ${bytes}</p>`;
}

const LEGEND = [['kept', 'bytes after'], ['gone', 'bytes that were removed'], ['left', 'left as it is'], ['refused', 'refused']];

// Texts in a script may not end it.
const inScript = (value) => JSON.stringify(value).replace(/</g, '\\u003c').replace(/\u2028|\u2029/g, (end) => (end === '\u2028' ? '\\u2028' : '\\u2029'));

/**
 * Returns the page. `modules` has `{ name, result, before, after, summary, claim }` of each module, and `{ hunks, more }`
 * or `{ reason, line, column, source, lost }`. `claims` are lists of sentences, `how` is the line on what ran, and `claimLink`
 * leads to the document on claims.
 */
function pageOf({ modules, claims, how, claimLink }) {
    return `<!doctype html>
<html lang="en">
<head>
<meta charset="utf-8">
<meta name="viewport" content="width=device-width, initial-scale=1">
<meta http-equiv="Content-Security-Policy" content="default-src 'none'; style-src 'unsafe-inline'; script-src 'unsafe-inline'">
<title>What was simplified</title>
<style>
${part('page.css')}</style>
</head>
<body>
<header>
<h1>What was simplified</h1>
${totalOf(modules)}
<p class="soft">${escape(how)}</p>
</header>
<main>
<div id="overview">
<section aria-labelledby="map-title">
<h2 id="map-title">Map of the modules</h2>
<p id="map-hint" class="soft">The area is a module's bytes before, and the filled part its bytes after. Arrow keys move, and Enter shows a module; Escape leads back.</p>
<ul class="legend">${LEGEND.map(([kind, text]) => `<li><span class="key ${kind}"></span>${text}</li>`).join('')}</ul>
<div id="map" role="group" aria-labelledby="map-title" aria-describedby="map-hint">${mapOf(modules)}</div>
</section>
<section aria-labelledby="list-title">
<h2 id="list-title">List of the modules</h2>
<div class="controls">
<label>Name has <input id="search" type="search"></label>
<label>Result <select id="kind"><option value="">any</option>${Object.entries(RESULTS).map(([result, text]) => `<option value="${result}">${text}</option>`).join('')}</select></label>
<span id="count" class="soft" role="status"></span>
</div>
<div class="sideways">
<table>
<caption>Sizes in bytes</caption>
<thead><tr>${headings()}</tr></thead>
<tbody id="rows">${modules.map(rowOf).join('\n')}</tbody>
</table>
</div>
</section>
</div>
<section id="detail" aria-label="The module that is shown" tabindex="-1">
<h2>No module is shown yet</h2>
<p>Choose one in the map or in the list.</p>
</section>
</main>
<p class="soft">What is claimed of each pass, exactly: <a id="claim" href="${escape(claimLink)}">docs/CLAIM.md</a>.</p>
<noscript><p>The details of a module need JavaScript. The page loads nothing.</p></noscript>
<script type="application/json" id="data">${inScript({ modules, claims })}</script>
<script>
${part('client.js')}</script>
</body>
</html>
`;
}

module.exports = { pageOf, summaryOf };
