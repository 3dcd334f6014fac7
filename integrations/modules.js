'use strict';

// Which files of a build are modules of JavaScript by their names.

const path = require('node:path');

const SCRIPT = /\.[cm]?[jt]sx?$/;
const NOT_JAVASCRIPT = /\.(?:css|s[ac]ss|less|styl|stylus|pcss|json5?|html?|wasm|node|txt|svg|png|jpe?g|gif|webp|avif|ico|woff2?|ttf|eot|otf|mp[34]|webm|ogg|wav|pdf)$/;
// What vite replaces in chunks, with the double quotes round it.
const OF_VITE = /__VITE_[A-Z_]+__/;

/** Returns the file of a name with a query or a fragment. */
const fileOf = (id) => id.replace(/[?#].*$/s, '');

/** Returns whether a file has JavaScript or TypeScript, by its ending. */
const isScript = (id) => SCRIPT.test(fileOf(id));

/** Returns whether a file has style sheets, data, pictures and the like, by its ending. They may have become JavaScript. */
const isData = (id) => NOT_JAVASCRIPT.test(fileOf(id)) || NOT_JAVASCRIPT.test(id);

/**
 * Returns why the plugin of rollup and vite doesn't simplify a module of JavaScript, or undefined: another plugin made it
 * (its name begins with `\0`, and other plugins are asked to leave it), or vite replaces something in it later.
 */
function reasonOfId(id, text) {
    if (id.startsWith('\0')) return 'made by another plugin';
    return OF_VITE.test(text) ? 'vite replaces something in its chunk' : undefined;
}

/** Returns the name of a module in messages: its path from a folder, with its query. */
function nameOf(id, folder) {
    if (!path.isAbsolute(id)) return id.replace(/^\0/, '');
    const name = path.relative(folder, id);
    return name.startsWith('..') ? id : name;
}

module.exports = { fileOf, isData, isScript, nameOf, reasonOfId };
