'use strict';

// A plugin of esbuild: runs `shake` on each module, before it is bundled, and, where it is asked for, on each output file.

const { simplifyChunks } = require('./esbuild_chunks.js');
const { simplifyModules } = require('./esbuild_modules.js');
const { ShakeError, unitsOf, wordsOf } = require('./shake.js');

// Options of builds that have this plugin.
const prepared = new WeakSet();

/** The plugin. `docs/USING.md` has the options. */
module.exports = function zorikham(options = {}) {
    wordsOf(options);
    return {
        name: 'zorikham',
        setup(build) {
            if (prepared.has(build.initialOptions)) throw new ShakeError('a build has this plugin once; for several passes give a list: pass: ["inline", "simplify"]');
            prepared.add(build.initialOptions);
            const units = unitsOf(options);
            if (units.has('module')) simplifyModules(build, options);
            if (units.has('chunk')) simplifyChunks(build, options);
        },
    };
};
