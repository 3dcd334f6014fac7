'use strict';

// A plugin of webpack 5: runs `shake` on each module, behind the loaders that make JavaScript of it, and, where it is asked
// for, on each file of a chunk, before the minimizer.

const fs = require('node:fs');
const { nameOf } = require('./modules.js');
const { Report, Shaker, commandOf, mapWarning, mapsWarning, noteOf, unitsOf, wordsOf } = require('./shake.js');
const { NOTE } = require('./webpack_loader.js');

const NAME = 'ZorikhamPlugin';
const SCRIPT = /\.[cm]?js(?:$|\?)/;
const MODULE = /\.[cm]?[jt]sx?$/;
// Kinds of libraries that declare nothing at the top of a file: they are exports of a module, or properties of an object.
const UNDECLARED = new Set([
    'module', 'modern-module', 'commonjs', 'commonjs2', 'commonjs-module', 'commonjs-static', 'this', 'window', 'self', 'global', 'umd', 'umd2', 'amd',
    'amd-require', 'system', 'jsonp',
]);

// The fault as an error of the build.
function errorOf({ WebpackError }, name, fault) {
    const error = new WebpackError(fault.message);
    error.file = name;
    if (fault.line !== undefined) error.loc = { start: { line: fault.line, column: fault.column } };
    return error;
}

// Whether something outside a file sees what it declares at its top.
function isSeen({ module, iife, chunkFormat, enabledLibraryTypes }) {
    const scoped = module || iife !== false || chunkFormat === 'commonjs';
    return !scoped || !(enabledLibraryTypes ?? []).every((type) => UNDECLARED.has(type));
}

// What tells one program from another: webpack's caches hold what it made.
function stampOf(options) {
    try {
        const { size, mtimeMs } = fs.statSync(commandOf(options).at(-1));
        return `${size} ${mtimeMs}`;
    } catch {
        return '';
    }
}

// What writes the report of a compilation.
const publish = (report, compilation, webpack) => {
    const warn = (line) => compilation.warnings.push(new webpack.WebpackError(line));
    return report.publish((line) => compilation.getLogger(NAME).info(line), warn);
};

// Simplifies one file of the compilation.
async function simplifyAsset({ compilation, webpack, shaker, report }, name) {
    const { source } = compilation.getAsset(name);
    const text = source.source().toString();
    try {
        const result = await shaker.chunk(name, text);
        report.add(name, noteOf(text, result, shaker.options));
        if (result.warning !== undefined) compilation.warnings.push(errorOf(webpack, name, result.warning));
        if (result.left !== undefined) return;
        const mapped = compilation.options.devtool && source.map() !== null;
        compilation.updateAsset(name, new webpack.sources.RawSource(result.code));
        if (mapped) compilation.warnings.push(new webpack.WebpackError(mapWarning(name)));
    } catch (fault) {
        compilation.errors.push(errorOf(webpack, name, fault));
    }
}

// Has each module read by the program, behind all other loaders.
function addLoader(compiler, options) {
    const { report, ...plain } = options;
    const given = { options: typeof report === 'string' ? options : plain, tracked: Boolean(compiler.options.devtool), stamp: stampOf(options) };
    compiler.options.module.rules.unshift({ test: MODULE, enforce: 'post', loader: require.resolve('./webpack_loader.js'), options: given });
}

// Says where flags are lost in a module that the loader didn't get.
function checkOther(compilation, webpack, shaker, module) {
    const text = module.originalSource?.()?.source();
    if (typeof text !== 'string' || !module.type.startsWith('javascript/')) return;
    const name = nameOf(module.resource, compilation.compiler.context);
    try {
        const { warning } = shaker.leave(name, text, 'no file of JavaScript by its name');
        if (warning !== undefined) compilation.warnings.push(errorOf(webpack, name, warning));
    } catch (fault) {
        compilation.errors.push(errorOf(webpack, name, fault));
    }
}

// Reports what became of the modules, also of those that webpack has from a cache.
async function reportModules(compilation, webpack, options) {
    const report = new Report('module', options);
    const shaker = new Shaker(options);
    for (const module of compilation.modules) {
        const note = module.buildInfo?.[NOTE];
        if (note !== undefined) report.add(nameOf(module.resource, compilation.compiler.context), note);
        else if (module.resource !== undefined) checkOther(compilation, webpack, shaker, module);
    }
    await publish(report, compilation, webpack);
    const { simplified } = report.report;
    if (compilation.options.devtool && simplified > 0) compilation.warnings.push(new webpack.WebpackError(mapsWarning(simplified)));
}

/** The plugin. `docs/USING.md` has the options. */
module.exports = class ZorikhamPlugin {
    constructor(options = {}) {
        wordsOf(options);
        this.options = options;
    }

    apply(compiler) {
        const { webpack } = compiler;
        const units = unitsOf(this.options);
        if (units.has('module')) addLoader(compiler, this.options);
        compiler.hooks.thisCompilation.tap(NAME, (compilation) => {
            if (units.has('module')) compilation.hooks.finishModules.tapPromise(NAME, () => reportModules(compilation, webpack, this.options));
            if (!units.has('chunk')) return;
            // In front of the minimizer, which is at OPTIMIZE_SIZE.
            const stage = webpack.Compilation.PROCESS_ASSETS_STAGE_OPTIMIZE_SIZE - 1;
            compilation.hooks.processAssets.tapPromise({ name: NAME, stage }, async () => {
                const shaker = new Shaker(this.options, { keepTop: isSeen(compilation.outputOptions) });
                const report = new Report('chunk', this.options);
                const files = new Set();
                for (const chunk of compilation.chunks) for (const file of chunk.files) if (SCRIPT.test(file)) files.add(file);
                await Promise.all([...files].map((name) => simplifyAsset({ compilation, webpack, shaker, report }, name)));
                await publish(report, compilation, webpack);
            });
        });
    }
};
