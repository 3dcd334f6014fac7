'use strict';

// Opens a page in headless Chromium, by its protocol over two pipes.

const { spawn, spawnSync } = require('node:child_process');
const fs = require('node:fs');
const os = require('node:os');
const path = require('node:path');
const { pathToFileURL } = require('node:url');

/** The command of Chromium, or null where none is installed: the variable CHROMIUM, or one of the path. */
const command = [process.env.CHROMIUM, 'chromium', 'chromium-browser', 'google-chrome'].find(
    (name) => name !== undefined && spawnSync(name, ['--version']).status === 0,
) ?? null;

const FLAGS = ['--headless=new', '--no-sandbox', '--disable-gpu', '--disable-dev-shm-usage', '--no-first-run', '--remote-debugging-pipe', '--hide-scrollbars'];

// Messages are JSON texts with a zero byte behind each.
class Connection {
    constructor(child) {
        [, , , this.out, this.in] = child.stdio;
        this.answers = new Map();
        this.listeners = [];
        this.last = 0;
        let rest = Buffer.alloc(0);
        this.in.on('data', (part) => {
            rest = Buffer.concat([rest, part]);
            for (let end = rest.indexOf(0); end >= 0; end = rest.indexOf(0)) {
                this.take(JSON.parse(rest.subarray(0, end).toString('utf8')));
                rest = rest.subarray(end + 1);
            }
        });
    }

    take(message) {
        if (message.id === undefined) {
            this.listeners.forEach((listener) => listener(message));
            return;
        }
        const { resolve, reject, method } = this.answers.get(message.id);
        this.answers.delete(message.id);
        if (message.error === undefined) resolve(message.result);
        else reject(new Error(`${method}: ${message.error.message}`));
    }

    send(method, params = {}, sessionId = undefined) {
        this.last += 1;
        this.out.write(`${JSON.stringify({ id: this.last, method, params, sessionId })}\0`);
        return new Promise((resolve, reject) => this.answers.set(this.last, { resolve, reject, method }));
    }

    // Resolves at the next message of a kind to a session.
    next(method, session) {
        return new Promise((resolve) => {
            const listener = (message) => {
                if (message.method !== method || message.sessionId !== session) return;
                this.listeners.splice(this.listeners.indexOf(listener), 1);
                resolve(message.params);
            };
            this.listeners.push(listener);
        });
    }
}

const CODES = { Enter: 13, Escape: 27, Tab: 9, End: 35, Home: 36, ArrowLeft: 37, ArrowUp: 38, ArrowRight: 39, ArrowDown: 40 };

/** An open page. */
class Page {
    constructor(connection, session) {
        this.connection = connection;
        this.session = session;
        // What the page asked to load, and what it wrote about faults.
        this.requests = [];
        this.faults = [];
        connection.listeners.push(({ method, params, sessionId }) => {
            if (sessionId !== session) return;
            if (method === 'Network.requestWillBeSent') this.requests.push(params.request.url);
            if (method === 'Runtime.exceptionThrown') this.faults.push(params.exceptionDetails.exception?.description ?? params.exceptionDetails.text);
            if (method === 'Log.entryAdded') this.faults.push(params.entry.text);
        });
    }

    send(method, params) {
        return this.connection.send(method, params, this.session);
    }

    /** Opens a file, with what follows its name in the address, in one of the two schemes. */
    async open(file, { hash = '', scheme = 'light', width = 1200, height = 900 } = {}) {
        await this.send('Emulation.setEmulatedMedia', { features: [{ name: 'prefers-color-scheme', value: scheme }] });
        await this.send('Emulation.setDeviceMetricsOverride', { width, height, deviceScaleFactor: 1, mobile: false });
        // Another address with the same file and another hash would not load it again.
        await this.load('about:blank');
        this.requests.length = 0;
        await this.load(pathToFileURL(file).href + hash);
    }

    async load(url) {
        const loaded = this.connection.next('Page.loadEventFired', this.session);
        await this.send('Page.navigate', { url });
        await loaded;
    }

    /** Returns the value of an expression in the page. */
    async value(expression) {
        const { result, exceptionDetails } = await this.send('Runtime.evaluate', { expression, returnByValue: true, awaitPromise: true });
        if (exceptionDetails !== undefined) throw new Error(exceptionDetails.exception?.description ?? exceptionDetails.text);
        return result.value;
    }

    /** Presses keys, one after the other. */
    async press(...keys) {
        for (const key of keys) {
            const shared = { key, code: key, windowsVirtualKeyCode: CODES[key], text: key === 'Enter' ? '\r' : undefined };
            await this.send('Input.dispatchKeyEvent', { type: shared.text === undefined ? 'rawKeyDown' : 'keyDown', ...shared });
            await this.send('Input.dispatchKeyEvent', { type: 'keyUp', key, code: key, windowsVirtualKeyCode: CODES[key] });
        }
    }

    /** Types a text where the focus is. */
    async type(text) {
        await this.send('Input.insertText', { text });
    }

    /** Returns the page as assistive technology has it: `[role, name]` of each part that isn't ignored. */
    async accessible() {
        const { nodes } = await this.send('Accessibility.getFullAXTree');
        return nodes.filter(({ ignored }) => !ignored).map(({ role, name }) => [role?.value, name?.value ?? '']);
    }

    /** Writes a picture of the page. */
    async picture(file) {
        const { data } = await this.send('Page.captureScreenshot', { format: 'png' });
        fs.writeFileSync(file, Buffer.from(data, 'base64'));
    }
}

/** One Chromium for several tests, since it takes long to start. */
class Browser {
    // Starts it, unless it runs.
    start() {
        this.folder ??= fs.mkdtempSync(path.join(os.tmpdir(), 'chromium-'));
        this.child ??= spawn(command, [...FLAGS, `--user-data-dir=${this.folder}`], { stdio: ['ignore', 'ignore', 'ignore', 'pipe', 'pipe'] });
        this.connection ??= new Connection(this.child);
        return this.connection;
    }

    /** Returns an empty page. */
    async page() {
        const connection = this.start();
        const { targetId } = await connection.send('Target.createTarget', { url: 'about:blank' });
        const { sessionId } = await connection.send('Target.attachToTarget', { targetId, flatten: true });
        const page = new Page(connection, sessionId);
        for (const part of ['Page', 'Runtime', 'Network', 'Log', 'Accessibility']) await page.send(`${part}.enable`);
        return page;
    }

    /** Ends it. */
    async close() {
        if (this.child === undefined) return;
        const ended = new Promise((resolve) => this.child.on('exit', resolve));
        this.connection.send('Browser.close').catch(() => {});
        const killer = setTimeout(() => this.child.kill('SIGKILL'), 10_000);
        await ended;
        clearTimeout(killer);
        fs.rmSync(this.folder, { recursive: true, force: true, maxRetries: 5 });
    }
}

module.exports = { Browser, command };
