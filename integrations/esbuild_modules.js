'use strict';

// Modules of a build by esbuild: each is made JavaScript by esbuild itself and then simplified, before it is bundled.

const fs = require('node:fs/promises');
const path = require('node:path');
const { messageOf, warn } = require('./esbuild_messages.js');
const { fileOf, isData, isScript, nameOf } = require('./modules.js');
const { Report, Shaker, lostFlags, mapsWarning, noteOf } = require('./shake.js');

const FILTER = /\.[cm]?[jt]sx?$/;
const LOADERS = { '.js': 'js', '.mjs': 'js', '.cjs': 'js', '.jsx': 'jsx', '.ts': 'ts', '.mts': 'ts', '.cts': 'ts', '.tsx': 'tsx' };
// Options of a build that say what JavaScript a file becomes.
const KEPT = ['absWorkingDir', 'charset', 'jsx', 'jsxDev', 'jsxFactory', 'jsxFragment', 'jsxImportSource', 'jsxSideEffects', 'loader', 'tsconfig', 'tsconfigRaw'];
// A map that maps nothing, for a module whose map is dropped. With an empty list of mappings it would be no map for esbuild.
const NO_MAP = Buffer.from(JSON.stringify({ version: 3, sources: [''], names: [], mappings: 'A' })).toString('base64');

// Whether a file is an ES module by its ending or by the nearest package.
async function isModuleFile(file) {
    if (/\.m[jt]s$/.test(file)) return true;
    if (/\.c[jt]s$/.test(file)) return false;
    for (let folder = path.dirname(file); ; folder = path.dirname(folder)) {
        const text = await fs.readFile(path.join(folder, 'package.json'), 'utf8').catch(() => null);
        if (text !== null) return /"type"\s*:\s*"module"/.test(text);
        if (path.dirname(folder) === folder) return false;
    }
}

/** The modules of the builds of one set of options. */
class Modules {
    constructor(build, options) {
        this.build = build;
        this.options = options;
        this.shaker = new Shaker(options);
        this.folder = build.initialOptions.absWorkingDir ?? process.cwd();
        this.loaders = { ...LOADERS, ...build.initialOptions.loader };
        // By path: the text that was read, and what became of it. They are of use for the next build too.
        this.known = new Map();
        this.seen = new Map();
    }

    // The JavaScript of a file: TypeScript and JSX are made JavaScript by esbuild, for the newest engines.
    async scriptOf(file, text) {
        const loader = this.loaders[path.extname(file)];
        if (loader === 'js') return text;
        const { initialOptions, esbuild } = this.build;
        const kept = Object.fromEntries(KEPT.filter((name) => name in initialOptions).map((name) => [name, initialOptions[name]]));
        // For no platform, since esbuild replaces process.env.NODE_ENV for browsers by itself.
        const { outputFiles } = await esbuild.build({ ...kept, entryPoints: [file], bundle: false, write: false, target: 'esnext', platform: 'neutral',
            logLevel: 'silent', outdir: this.folder });
        return outputFiles[0].text;
    }

    async simplify(file, text) {
        const name = nameOf(file, this.folder);
        const script = await this.scriptOf(file, text).catch(() => null);
        // The fault is esbuild's to report.
        if (script === null) return { answer: undefined };
        try {
            const result = await this.shaker.module(name, script, { module: await isModuleFile(file) });
            const warnings = result.warning === undefined ? [] : [messageOf(name, script, result.warning)];
            const contents = result.code === undefined ? undefined : this.unmapped(result.code);
            const answer = contents === undefined ? { warnings } : { contents, loader: 'js', resolveDir: path.dirname(file), warnings };
            return { note: noteOf(script, result, this.options), answer };
        } catch (fault) {
            return { answer: { errors: [messageOf(name, script, fault)] } };
        }
    }

    // The code of a module, with a map that maps nothing where the build makes maps.
    unmapped(code) {
        if (!this.build.initialOptions.sourcemap) return code;
        return `${code}//# sourceMappingURL=data:application/json;base64,${NO_MAP}\n`;
    }

    async load({ path: file, namespace }) {
        if (namespace !== 'file' || !['js', 'jsx', 'ts', 'tsx'].includes(this.loaders[path.extname(file)])) return undefined;
        const text = await fs.readFile(file, 'utf8').catch(() => null);
        if (text === null) return undefined;
        if (this.known.get(file)?.text !== text) this.known.set(file, { text, ...await this.simplify(file, text) });
        const { note, answer } = this.known.get(file);
        this.seen.set(file, note);
        return answer;
    }

    // Modules that another plugin loaded or that come from no file: flags are lost there.
    unseen({ inputs }) {
        const own = new Set([...this.seen.keys()].map((file) => path.relative(this.folder, file).split(path.sep).join('/')));
        const isCode = (name) => isScript(name) || !(isData(name) || path.extname(fileOf(name)) in this.loaders);
        return Object.keys(inputs).filter((name) => isCode(name) && !own.has(fileOf(name)) && !name.startsWith('(disabled):'));
    }

    // What is wrong with flags in modules that weren't given to the program.
    lost(metafile) {
        const flags = ['define', 'env', 'typeof', 'const'].flatMap((kind) => Object.keys(this.options[kind] ?? {}));
        if (flags.length === 0 || metafile === undefined) return [];
        return this.unseen(metafile).map((name) => ({ text: lostFlags(name, { reason: 'another plugin loaded it, or it is no file' }, flags.map((flag) => ({ name: flag }))).message }));
    }

    /** Ends a build: returns errors, or adds warnings to the result and reports. */
    async end(result) {
        const lost = this.lost(result.metafile);
        if (lost.length > 0 && this.options.left !== 'warn') return { errors: lost };
        const report = new Report('module', this.options);
        const notes = [...this.seen].filter(([, note]) => note !== undefined);
        for (const [file, note] of notes) report.add(nameOf(file, this.folder), note);
        const warnings = [...lost];
        const { simplified } = report.report;
        if (this.build.initialOptions.sourcemap && simplified > 0) warnings.push({ text: mapsWarning(simplified) });
        await report.publish(console.error, (text) => warnings.push({ text }));
        await warn(this.build, result, warnings);
        return {};
    }
}

/** Has modules simplified before they are bundled. */
function simplifyModules(build, options) {
    const modules = new Modules(build, options);
    const { metafile = false, logOverride } = build.initialOptions;
    // The program makes `import 'm'` of an import whose names nothing reads; esbuild would warn where m has no side effects.
    build.initialOptions.logOverride = { 'ignored-bare-import': 'silent', ...logOverride };
    // It says which modules another plugin loaded.
    build.initialOptions.metafile = true;
    build.onStart(() => modules.seen.clear());
    build.onLoad({ filter: FILTER }, (given) => modules.load(given));
    build.onEnd(async (result) => {
        const answer = result.errors.length > 0 ? {} : await modules.end(result);
        if (!metafile) delete result.metafile;
        return answer;
    });
}

module.exports = { simplifyModules };
