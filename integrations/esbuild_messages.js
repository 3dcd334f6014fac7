'use strict';

// Faults and warnings as esbuild has them. Its columns are counted in bytes.

const { LINE_END } = require('./places.js');

/** Returns a fault of a text as a message of esbuild. */
function messageOf(file, text, fault) {
    if (fault.line === undefined) return { text: fault.message };
    const lineText = text.split(LINE_END)[fault.line - 1];
    const column = Buffer.byteLength(lineText.slice(0, fault.column));
    return { text: fault.message, location: { file, line: fault.line, column, lineText } };
}

/** Adds warnings to the result of a build, and writes them, since esbuild itself shows none of the end of a build. */
async function warn(build, result, warnings) {
    for (const { text, location = null } of warnings) result.warnings.push({ id: '', pluginName: 'zorikham', text, location, notes: [], detail: undefined });
    const { logLevel = 'warning', color = process.stderr.isTTY } = build.initialOptions;
    if (['silent', 'error'].includes(logLevel) || warnings.length === 0) return;
    const lines = await build.esbuild.formatMessages(warnings, { kind: 'warning', color });
    process.stderr.write(lines.join(''));
}

module.exports = { messageOf, warn };
