'use strict';

// Runs modules with a host that records what is done with it, and that calls the functions that it is given.

// The names that a module finds at the host.
const NAMES = ['call', 'log', 'on', 'page', 'timer', 'Widget'];
// What calls give, in turn.
const ANSWERS = [7, 'text', true, undefined, [1, 'a'], null, { a: 0 }, ''];
const LATER_CALLS = 8;
const DEEPEST = 2;

// Manners of a host: which of the functions, by their places, it calls while it is called itself, where those from `first` on were
// given to it now. `throws`: each fourth of its calls throws.
const MANNERS = {
    'calls later': { places: () => [] },
    'calls each at once': { places: (first, end) => Array.from({ length: end - first }, (_, i) => first + i) },
    'calls the last and the first, and throws': { places: (first, end) => (end > 0 ? [end - 1, 0, end - 1] : []), throws: true },
};

class Host {
    constructor(manner) {
        this.manner = manner;
        this.seen = [];
        this.handed = [];
        this.objects = new WeakMap();
        this.calls = 0;
        this.depth = 0;
    }

    // A value as the host sees it. In the place of a function of the module it has a number, a new one each time.
    text(value) {
        if (this.objects.has(value)) return this.objects.get(value);
        if (typeof value === 'function') return `function ${this.handed.push(value) - 1}`;
        if (value instanceof TypeError) return 'TypeError';
        if (Array.isArray(value)) return `[${value.map((item) => this.text(item)).join(', ')}]`;
        if (typeof value === 'object' && value !== null) {
            return `{${Object.entries(value).map(([key, item]) => `${key}: ${this.text(item)}`).join(', ')}}`;
        }
        return typeof value === 'string' ? JSON.stringify(value) : String(value);
    }

    // An object that records reads and writes of members, calls and `new`.
    object(name) {
        const made = new Proxy(function () {}, {
            get: (_, key) => {
                this.seen.push(`get ${name}.${String(key)}`);
                return this.object(`${name}.${String(key)}`);
            },
            set: (_, key, value) => {
                this.seen.push(`set ${name}.${String(key)} = ${this.text(value)}`);
                return true;
            },
            apply: (_, receiver, values) => this.called(`call ${name} of ${this.text(receiver)}`, values),
            construct: (_, values) => {
                this.called(`new ${name}`, values);
                return this.object(`new ${name}`);
            },
        });
        this.objects.set(made, name);
        return made;
    }

    called(line, values) {
        const first = this.handed.length;
        this.seen.push(`${line} ${this.text(values)}`);
        if (this.depth < DEEPEST) {
            this.depth++;
            for (const place of this.manner.places(first, this.handed.length)) this.callBack(place);
            this.depth--;
        }
        const count = this.calls++;
        if (this.manner.throws && count % 4 === 3) throw `thrown ${count}`;
        return ANSWERS[count % ANSWERS.length];
    }

    // Calls a function that was handed over, with its place as the receiver.
    callBack(place) {
        this.seen.push(`calls function ${place}`);
        this.outcome(() => Reflect.apply(this.handed[place], place, [place, 'b']));
    }

    outcome(run) {
        try {
            this.seen.push(`returns ${this.text(run())}`);
        } catch (error) {
            this.seen.push(`throws ${this.text(error)}`);
        }
    }

    // What a module exports now. A function that is exported isn't handed over.
    exports(module) {
        const shown = Object.entries(module).map(([name, value]) => `${name}: ${typeof value === 'function' ? 'function' : this.text(value)}`);
        this.seen.push(`exports ${shown.join(', ')}`);
    }

    // Calls what is exported, and then some of what was handed over.
    callLater(module) {
        this.exports(module);
        for (const [name, value] of Object.entries(module)) {
            if (typeof value !== 'function') continue;
            this.seen.push(`calls ${name}`);
            this.outcome(() => value(2, 'c'));
            this.exports(module);
        }
        for (let place = 0; place < Math.min(this.handed.length, LATER_CALLS); place++) {
            this.callBack(place);
            this.exports(module);
        }
    }
}

let runs = 0;

// What a host of one of the manners sees of a module, by its text: one line for each event, and how the module and each later
// call ended. The host's names are properties of the global object meanwhile, so runs must not overlap.
async function record(text, manner) {
    const host = new Host(MANNERS[manner]);
    for (const name of NAMES) {
        const get = () => {
            host.seen.push(`read ${name}`);
            return host.object(name);
        };
        Object.defineProperty(globalThis, name, { get, configurable: true });
    }
    try {
        // A comment makes each text a module of its own.
        const module = await import(`data:text/javascript,${encodeURIComponent(`${text}\n// ${runs++}`)}`);
        host.callLater(module);
    } catch (error) {
        if (error instanceof SyntaxError) throw error;
        host.seen.push(`ends by a throw of ${host.text(error)}`);
    } finally {
        for (const name of NAMES) delete globalThis[name];
    }
    return host.seen;
}

module.exports = { MANNERS, record };
