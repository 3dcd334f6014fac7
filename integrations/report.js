'use strict';

// What became of the modules and chunks of one build, as a report and as lines.

const path = require('node:path');
const { ShakeError, passesOf, unitsOf } = require('./options.js');
const { shownPlace } = require('./places.js');

// How many units that are left get a line.
const MOST_LINES = 10;

/** Returns a report as lines of text. Columns are counted from 1 here, as editors count them. */
function linesOf(report) {
    const { unit, total, simplified, bytesBefore, bytesAfter, left } = report;
    const less = bytesBefore - bytesAfter;
    const bytes = less >= 0 ? `${less} of ${bytesBefore} bytes less` : `${-less} bytes more than ${bytesBefore}`;
    const lines = [`zorikham: ${simplified} of ${total} ${unit}s simplified${simplified === 0 ? '' : `, ${bytes}`}`];
    for (const one of left.slice(0, MOST_LINES)) lines.push(`zorikham: ${shownPlace(one.name, one)}: left as it is: ${one.reason}`);
    const more = left.length - MOST_LINES;
    if (more > 0) lines.push(`zorikham: ${more} more ${unit}s are left as they are; the option report has them all`);
    return lines;
}

/** Returns the warning about the source map of a simplified chunk. */
function mapWarning(name) {
    return `zorikham: the source map of ${name} is dropped, since the program makes none`;
}

/** Returns the warning about the source maps of simplified modules. */
function mapsWarning(count) {
    return `zorikham: ${count} simplified modules have no source map, since the program makes none`;
}

const byName = (a, b) => (a.name < b.name ? -1 : a.name > b.name ? 1 : 0);

/**
 * Returns what is noted of a unit: its bytes before and after, or why it is left; both texts too where the option `report`
 * names a page. `result` is `{ code }` or `{ left }`, as `simplify` returns it.
 */
function noteOf(text, { code, left }, options) {
    const texts = typeof options.report === 'string' ? { text, code } : {};
    if (left !== undefined) return { left, ...texts };
    return { before: Buffer.byteLength(text), after: Buffer.byteLength(code), ...texts };
}

/** The modules or the chunks of one build. */
class Report {
    /** `unit` is `module` or `chunk`. `options` are those of the plugin. */
    constructor(unit, options) {
        this.options = options;
        this.report = { unit, total: 0, simplified: 0, bytesBefore: 0, bytesAfter: 0, left: [] };
        this.texts = [];
    }

    /** Adds a unit by its note. */
    add(name, { before, after, left, text, code }) {
        const { report } = this;
        report.total += 1;
        if (text !== undefined) this.texts.push({ name, text, ...(left === undefined ? { code } : { left }) });
        if (left !== undefined) {
            report.left.push({ name, ...left });
            return;
        }
        report.simplified += 1;
        report.bytesBefore += before;
        report.bytesAfter += after;
    }

    /** Gives the units that are left other names. */
    rename(nameOf) {
        for (const one of [...this.report.left, ...this.texts]) one.name = nameOf(one.name);
    }

    // Writes the page about the build. Where there is one about its modules, that about its chunks is beside it.
    async page(to) {
        const { writeReport } = require('./report/report.js');
        const { unit } = this.report;
        const { dir, name, ext } = path.parse(to);
        const file = unit === 'chunk' && unitsOf(this.options).size === 2 ? path.join(dir, `${name}.chunks${ext}`) : to;
        await writeReport(file, this.texts, { options: this.options, passes: passesOf(this.options), how: `${unit}s of a build` });
    }

    /**
     * Hands the report to the option `report`, or writes the page that it names, or hands lines to `log`. A build in which
     * nothing was simplified is a warning.
     */
    async publish(log, warn) {
        const { report } = this;
        report.left.sort(byName);
        const { report: to } = this.options;
        if (typeof to === 'function') to(report);
        if (typeof to === 'string') {
            this.texts.sort(byName);
            await this.page(to).catch((error) => { throw new ShakeError(`report: ${to} can't be written: ${error.message}`); });
        }
        if (to !== undefined && typeof to !== 'string') return;
        const [first, ...more] = linesOf(report);
        (report.simplified === 0 && report.total > 0 ? warn : log)(first);
        more.forEach((line) => log(line));
    }
}

module.exports = { Report, linesOf, mapWarning, mapsWarning, noteOf };
