'use strict';

// Output files of a build by esbuild: they are simplified before they are written.

const fs = require('node:fs/promises');
const path = require('node:path');
const { messageOf, warn } = require('./esbuild_messages.js');
const { Report, Shaker, mapWarning, noteOf } = require('./shake.js');

// An output without a name goes to standard output.
const STDOUT = '<stdout>';
const SCRIPT = /\.[cm]?js$|^<stdout>$/;
const MAP_COMMENT = /\n\/\/# sourceMappingURL=[^\n]*\n*$/;

// An output file with another text.
function withText(file, text) {
    return { path: file.path, contents: Buffer.from(text), text, hash: undefined };
}

// The form of the output, where the options don't say it.
function formatOf({ format, bundle, platform }) {
    if (format !== undefined || !bundle) return format;
    return { node: 'cjs', neutral: 'esm' }[platform] ?? 'iife';
}

// Whether something outside an output sees what it declares at its top. A file of `cjs` is the body of a function, and `iife`
// without a global name declares nothing.
function isSeen(options) {
    const format = formatOf(options);
    return format === undefined || (format === 'iife' && Boolean(options.globalName));
}

/** The output files of the builds of one set of options. */
class Chunks {
    constructor(build, options) {
        this.build = build;
        this.options = options;
        const { write = true, absWorkingDir = process.cwd(), minify, minifyWhitespace } = build.initialOptions;
        this.write = write;
        this.folder = absWorkingDir;
        this.minified = Boolean(minify || minifyWhitespace);
        this.builds = 0;
    }

    // The text without spaces, where the build asks for that: the program prints with spaces.
    async minify(code) {
        if (!this.minified) return code;
        const { target, charset } = this.build.initialOptions;
        const { code: minified } = await this.build.esbuild.transform(code, { minifyWhitespace: true, legalComments: 'inline', target, charset });
        return minified;
    }

    // Simplifies one output file: the file, and the path of its map if that is dropped.
    async simplifyFile(shaker, report, file, found) {
        const name = file.path === STDOUT ? STDOUT : path.relative(this.folder, file.path);
        try {
            const result = await shaker.chunk(name, file.text.replace(MAP_COMMENT, '\n'));
            if (result.warning !== undefined) found.warnings.push(messageOf(name, file.text, result.warning));
            const code = result.code === undefined ? undefined : await this.minify(result.code);
            report.add(name, noteOf(file.text, { ...result, code }, this.options));
            if (code === undefined) return file;
            const external = `${file.path}.map`;
            if (MAP_COMMENT.test(file.text) || found.paths.has(external)) {
                found.dropped.add(external);
                found.warnings.push({ text: mapWarning(name) });
            }
            return withText(file, code);
        } catch (fault) {
            found.errors.push(messageOf(file.path, file.text, fault));
            return file;
        }
    }

    // Simplifies the files of a build: `{ files, errors, warnings }`.
    async simplifyFiles(outputFiles, shaker, report) {
        const found = { errors: [], warnings: [], dropped: new Set(), paths: new Set(outputFiles.map((file) => file.path)) };
        const files = await Promise.all(outputFiles.map((file) => (SCRIPT.test(file.path) ? this.simplifyFile(shaker, report, file, found) : file)));
        return { files: files.filter((file) => !found.dropped.has(file.path)), errors: found.errors, warnings: found.warnings };
    }

    // The metafile says how many bytes each file has.
    correct({ outputs }, files) {
        const sizes = new Map(files.map((file) => [path.relative(this.folder, file.path).split(path.sep).join('/'), file.contents.length]));
        for (const [name, output] of Object.entries(outputs)) {
            if (sizes.has(name)) output.bytes = sizes.get(name);
            else delete outputs[name];
        }
    }

    // What esbuild says of the text before: hashes in names, and what it serves.
    stale() {
        const { entryNames = '', chunkNames = '[name]-[hash]', splitting } = this.build.initialOptions;
        const warnings = [];
        if (entryNames.includes('[hash]') || (splitting && chunkNames.includes('[hash]'))) {
            warnings.push('[hash] in names of files is of the text before it was simplified, so it stays where only an option of the plugin changes');
        }
        this.builds += 1;
        if (this.builds === 2) warnings.push('if this build is served by esbuild, what is served is the text before it was simplified');
        return warnings.map((warning) => ({ text: `zorikham: ${warning}; unit: "module" has no such limit` }));
    }

    /** Ends a build: returns errors, or simplifies, writes the files, adds warnings to the result and reports. */
    async end(result) {
        const shaker = new Shaker(this.options, { keepTop: isSeen(this.build.initialOptions) });
        const report = new Report('chunk', this.options);
        const { files, errors, warnings } = await this.simplifyFiles(result.outputFiles, shaker, report);
        if (errors.length > 0) return { errors };
        result.outputFiles = files;
        if (result.metafile !== undefined) this.correct(result.metafile, files);
        if (this.write) {
            await writeFiles(files);
            delete result.outputFiles;
        }
        warnings.push(...this.stale());
        await report.publish(console.error, (text) => warnings.push({ text }));
        await warn(this.build, result, warnings);
        return {};
    }
}

async function writeFiles(files) {
    for (const { path: place, contents } of files) {
        if (place === STDOUT) {
            process.stdout.write(contents);
            continue;
        }
        await fs.mkdir(path.dirname(place), { recursive: true });
        await fs.writeFile(place, contents);
    }
}

/** Has output files simplified before they are written. */
function simplifyChunks(build, options) {
    const chunks = new Chunks(build, options);
    // The files come to the plugin in place of going to the disk.
    build.initialOptions.write = false;
    build.onEnd((result) => (result.outputFiles === undefined || result.errors.length > 0 ? {} : chunks.end(result)));
}

module.exports = { simplifyChunks };
