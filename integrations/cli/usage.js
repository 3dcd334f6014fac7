'use strict';

/** What is wrong with the command line: nothing is read and nothing written then, and the status is 2. */
class UsageError extends Error {
    constructor(message) {
        super(message);
        this.name = 'UsageError';
    }
}

module.exports = { UsageError };
