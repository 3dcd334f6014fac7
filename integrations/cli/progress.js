'use strict';

// A line on a terminal that says how far the work is, where it takes long.

// Milliseconds: the work has to take longer for a line, and a line stays for so long at least.
const LONG = 1000;
const STEP = 100;

/** Says on a stream how many of `total` files are done. Where the stream is no terminal it says nothing. */
class Progress {
    constructor(stream, total, now = Date.now) {
        this.stream = stream;
        this.total = total;
        this.now = now;
        this.done = 0;
        this.next = now() + LONG;
        this.shown = false;
        // Where one file alone takes long, no file ends to say so.
        if (stream.isTTY) this.timer = setInterval(() => this.say(), LONG).unref();
    }

    /** One more file is done. */
    step() {
        this.done += 1;
        this.say();
    }

    say() {
        if (!this.stream.isTTY || this.now() < this.next) return;
        this.next = this.now() + STEP;
        this.shown = true;
        this.stream.write(`\r\x1b[Kzorikham: ${this.done} of ${this.total} ${this.total === 1 ? 'file' : 'files'}`);
    }

    /** Takes the line away. */
    end() {
        clearInterval(this.timer);
        if (this.shown) this.stream.write('\r\x1b[K');
        this.shown = false;
    }
}

module.exports = { Progress };
