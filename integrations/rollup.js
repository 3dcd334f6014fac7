'use strict';

// A plugin of rollup and of vite: runs `shake` on each module, behind the plugins that make JavaScript of it, and, where it is
// asked for, on each chunk, behind the tree shaker and before a minifier.

const { isData, nameOf, reasonOfId } = require('./modules.js');
const { Report, Shaker, mapWarning, mapsWarning, noteOf, unitsOf, wordsOf } = require('./shake.js');

// Says at the end of a chunk where its source map is.
const MAP_COMMENT = /\n?\/\/# sourceMappingURL=[^\n]*\n?$/;
// The key of what this plugin notes of a module.
const META = 'zorikham';

// Takes the source map of a chunk out of what is written.
function dropMap(bundle, chunk) {
    delete bundle[chunk.sourcemapFileName ?? `${chunk.fileName}.map`];
    chunk.map = null;
    chunk.code = chunk.code.replace(MAP_COMMENT, '\n');
}

// The key of a chunk. Its file gets its name later.
function keyOf(chunk) {
    return JSON.stringify([chunk.name, chunk.facadeModuleId, chunk.moduleIds ?? Object.keys(chunk.modules)]);
}

// Whether something outside a chunk sees what it declares at its top. A file of `cjs` is the body of a function, and `iife`
// without a name declares nothing.
function isSeen({ format, name }) {
    return !['es', 'cjs'].includes(format) && (format !== 'iife' || Boolean(name));
}

// An output of the build. `rendered` has the keys of the chunks by their names at rendering, `simplified` those of the
// chunks that were simplified.
class Output {
    constructor(options, output) {
        this.shaker = new Shaker(options, { keepTop: isSeen(output) });
        this.report = new Report('chunk', options);
        this.mapped = Boolean(output.sourcemap);
        this.rendered = new Map();
        this.simplified = new Set();
    }

    async render(chunk, code, warn) {
        this.rendered.set(chunk.fileName, keyOf(chunk));
        const result = await this.shaker.chunk(chunk.fileName, code);
        this.report.add(chunk.fileName, noteOf(code, result, this.report.options));
        if (result.warning !== undefined) warn(result.warning.message);
        if (result.left !== undefined) return null;
        this.simplified.add(keyOf(chunk));
        return { code: result.code, map: this.mapped ? { mappings: '' } : null };
    }

    async finish(bundle, warn, log) {
        const names = new Map();
        for (const chunk of Object.values(bundle)) {
            if (chunk.type !== 'chunk') continue;
            names.set(keyOf(chunk), chunk.fileName);
            if (this.mapped && this.simplified.has(keyOf(chunk))) {
                dropMap(bundle, chunk);
                warn(mapWarning(chunk.fileName));
            }
        }
        this.report.rename((name) => names.get(this.rendered.get(name)) ?? name);
        await this.report.publish(log, warn);
    }
}

// Fails the build with a fault in a file.
function fail(context, file, error) {
    const loc = error.line === undefined ? undefined : { file, line: error.line, column: error.column };
    return context.error({ message: error.message, loc });
}

const logOf = (context) => (context.info === undefined ? console.error : (line) => context.info(line));

// The modules of a build with their notes. Rollup keeps these with the texts, so a build that reads only some again has all.
function notesOf(context) {
    const notes = [...context.getModuleIds()].map((id) => [id, context.getModuleInfo(id).meta[META]]);
    return notes.filter(([, note]) => note !== undefined && note !== null);
}

// The hooks that simplify modules.
function moduleHooks(options) {
    const shaker = new Shaker(options);
    const folder = process.cwd();
    // Simplifies a module: `{ code, note, warning }`.
    const simplifyModule = async (text, id) => {
        if (isData(id)) return {};
        const reason = reasonOfId(id, text);
        if (reason !== undefined) return { warning: shaker.leave(nameOf(id, folder), text, reason).warning };
        const result = await shaker.module(nameOf(id, folder), text, { module: true });
        return { ...result, note: noteOf(text, result, options) };
    };
    return {
        transform: {
            order: 'post',
            async handler(text, id) {
                try {
                    const { code, note, warning } = await simplifyModule(text, id);
                    if (warning !== undefined) this.warn(warning.message);
                    const meta = { [META]: note ?? null };
                    return code === undefined ? { meta } : { code, map: { mappings: '' }, meta };
                } catch (error) {
                    return fail(this, id, error);
                }
            },
        },

        async buildEnd(error) {
            if (error !== undefined) return;
            const report = new Report('module', options);
            for (const [id, note] of notesOf(this)) report.add(nameOf(id, folder), note);
            await report.publish(logOf(this), (line) => this.warn(line));
        },

        generateBundle({ sourcemap }) {
            const count = notesOf(this).filter(([, { left }]) => left === undefined).length;
            if (sourcemap && count > 0) this.warn(mapsWarning(count));
        },
    };
}

// The hooks that simplify chunks.
function chunkHooks(options) {
    const outputs = new WeakMap();
    return {
        renderStart(outputOptions) {
            outputs.set(outputOptions, new Output(options, outputOptions));
        },

        async renderChunk(code, chunk, outputOptions) {
            try {
                return await outputs.get(outputOptions).render(chunk, code, (line) => this.warn(line));
            } catch (error) {
                return fail(this, chunk.fileName, error);
            }
        },

        async generateBundle(outputOptions, bundle) {
            await outputs.get(outputOptions).finish(bundle, (line) => this.warn(line), logOf(this));
        },
    };
}

// Both sets of hooks; those at the end of an output run one after the other.
function joined(modules, chunks) {
    return {
        ...modules,
        ...chunks,
        async generateBundle(...given) {
            modules.generateBundle.apply(this, given);
            await chunks.generateBundle.apply(this, given);
        },
    };
}

/** The plugin. `docs/USING.md` has the options. */
module.exports = function zorikham(options = {}) {
    wordsOf(options);
    const units = unitsOf(options);
    const hooks = units.size === 2 ? joined(moduleHooks(options), chunkHooks(options)) : units.has('module') ? moduleHooks(options) : chunkHooks(options);
    // For vite: builds alone, behind the other plugins.
    return { name: 'zorikham', apply: 'build', enforce: 'post', ...hooks };
};
