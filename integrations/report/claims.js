'use strict';

// What is claimed of a module's result, in sentences that claim no more than docs/CLAIM.md does.

const SAME = 'makes the same host calls in the same order, ends alike, exports the same, and later calls of the exports return alike';
const HOST = 'It is about hosts that change neither data that they were given nor built-in prototypes, call no export during a run, and neither compare functions that they were given nor look into them.';

const isGiven = (given) => Object.keys(given ?? {}).length > 0;

// The sentence about runs, by the flags that were substituted.
function sameness(options) {
    const [modules, reads] = [isGiven(options.const), ['define', 'env', 'typeof'].some((flag) => isGiven(options[flag]))];
    if (modules && reads) {
        return `Flags make two other worlds: in the first, imports of the given modules have the given values; in the second, reads evaluate what the other flags give. What the module without these imports does in the first, a module in between does in the plain world; and what that one does in the second, the result does in the plain world. Each time: wherever the one run ends inside the core, the other run ${SAME}.`;
    }
    if (modules) return `Flags make another world: one in which imports of the given modules have the given values. Wherever a run of the module without these imports ends inside the core in that world, the result's run in the plain world ${SAME}.`;
    if (reads) return `Flags make another world: one in which reads evaluate what the flags give. Wherever the module's run in that world ends inside the core, the result's run in the plain world ${SAME}.`;
    return `In each world that the module may meet: wherever its run ends inside the core, the result's run ${SAME}.`;
}

/**
 * Returns the sentences about a module that was simplified: by which passes, a list of their names, with which options,
 * those of the plugins.
 */
function claimsOf(passes, options = {}) {
    const found = [];
    if (passes.some((pass) => pass !== 'json')) {
        found.push(sameness(options));
        if (options.dropImports) found.push('Loads of modules are left out of this, since imports may be removed.');
        found.push("Nothing is claimed of a run that leaves the core or doesn't end.", HOST);
    }
    if (passes.includes('json')) {
        found.push("Of the pass json it is claimed that exactly the outermost literals were replaced that are JSON and long enough, and that each text has its literal's value. What JSON.parse does is up to the host, so it isn't claimed that json keeps what the module does.");
    }
    if (passes.length > 1) found.push('This is proved of each pass by itself. Between two passes the text was printed and read again.');
    found.push('It is proved of trees, for a program that is built from the proved crates. That the text means the tree that it was read as, and that the printed text means the tree that was printed, is tested.');
    return found;
}

/** What is said of a module that was left as it is, or that was refused. */
const UNTOUCHED = ['The module is as it was: no pass ran on it, and no flag was replaced in it. So nothing is claimed.'];

module.exports = { UNTOUCHED, claimsOf };
