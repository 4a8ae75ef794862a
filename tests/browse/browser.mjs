// Chromium and Firefox, without a window, driven over what they offer for it: Chromium's protocol over two pipes, Firefox's WebDriver BiDi over
// a socket. Both give the same few calls.
import { spawn } from 'node:child_process';
import { mkdtempSync, rmSync } from 'node:fs';
import { tmpdir } from 'node:os';
import { join } from 'node:path';
import { connect } from './socket.mjs';

const LONGEST_START = 120000;
const CHROMIUM_KEYS = { Tab: [9, {}], Enter: [13, { text: '\r' }], Escape: [27, {}] };
const FIREFOX_KEYS = {
    Tab: '\ue004', Enter: '\ue007', Escape: '\ue00c', ArrowLeft: '\ue012', ArrowUp: '\ue013', ArrowRight: '\ue014', ArrowDown: '\ue015',
};

/// Answers by the number of the question.
class Answers {
    constructor(send) {
        this.send = send;
        this.asked = new Map();
        this.next = 1;
        this.told = () => {};
    }

    ask(method, params, further = {}) {
        const id = this.next++;
        return new Promise((resolve, reject) => {
            this.asked.set(id, { resolve, reject });
            this.send(JSON.stringify({ id, method, params, ...further }));
        });
    }

    came(text) {
        const message = JSON.parse(text);
        const waiting = this.asked.get(message.id);
        if (!waiting) return this.told(message);
        this.asked.delete(message.id);
        if (message.error) return waiting.reject(new Error(`${message.error.message ?? message.error} ${message.message ?? ''}`));
        return waiting.resolve(message.result);
    }
}

function start(command, words, options) {
    const child = spawn(command, words, { detached: true, ...options });
    child.end = () => {
        try {
            process.kill(-child.pid, 'SIGKILL');
        } catch {
            // it has ended by itself
        }
    };
    process.on('exit', child.end);
    return child;
}

class Browser {
    constructor(child, folder) {
        this.child = child;
        this.folder = folder;
        this.console = [];
    }

    async end() {
        const ended = new Promise((resolve) => this.child.once('exit', resolve));
        this.child.end();
        await ended;
        rmSync(this.folder, { recursive: true, force: true, maxRetries: 10, retryDelay: 100 });
    }

    /// Opens the page and waits until it has begun.
    async open(address) {
        await this.go(address);
        await this.wait("document.documentElement?.dataset.ready === '1'");
    }

    async wait(condition, seconds = 60) {
        const until = Date.now() + 1000 * seconds;
        for (;;) {
            if (await this.value(condition)) return;
            if (Date.now() > until) throw new Error(`this did not become so: ${condition}; console: ${this.console.join('; ')}`);
            await new Promise((resolve) => setTimeout(resolve, 50));
        }
    }
}

const wrong_of = (details) => details.exception?.description ?? details.text;

export class Chromium extends Browser {
    static async start() {
        const folder = mkdtempSync(join(tmpdir(), 'chromium-'));
        // A browser may refuse its sandbox to root; what it opens is a page of this machine alone.
        const looks = ['--headless', '--no-sandbox', '--disable-gpu', '--hide-scrollbars', '--force-color-profile=srgb'];
        const words = [...looks, '--remote-debugging-pipe', `--user-data-dir=${folder}`, 'about:blank'];
        const child = start('chromium', words, { stdio: ['ignore', 'ignore', 'ignore', 'pipe', 'pipe'] });
        const browser = new Chromium(child, folder);
        const answers = new Answers((text) => child.stdio[3].write(`${text}\0`));
        let rest = Buffer.alloc(0);
        child.stdio[4].on('data', (part) => {
            rest = Buffer.concat([rest, part]);
            for (let end = rest.indexOf(0); end >= 0; end = rest.indexOf(0)) {
                answers.came(rest.subarray(0, end).toString());
                rest = rest.subarray(end + 1);
            }
        });
        const { targetInfos } = await answers.ask('Target.getTargets', {});
        const { targetId } = targetInfos.find(({ type }) => type === 'page');
        const { sessionId } = await answers.ask('Target.attachToTarget', { targetId, flatten: true });
        browser.ask = (method, params = {}) => answers.ask(method, params, { sessionId });
        answers.told = ({ method, params }) => {
            if (method === 'Runtime.consoleAPICalled') browser.console.push(params.args.map((said) => said.value ?? said.description).join(' '));
            if (method === 'Runtime.exceptionThrown') browser.console.push(wrong_of(params.exceptionDetails));
            if (method === 'Log.entryAdded') browser.console.push(`${params.entry.source}: ${params.entry.text}`);
        };
        for (const domain of ['Page', 'Runtime', 'Log']) await browser.ask(`${domain}.enable`);
        await browser.ask('Emulation.setFocusEmulationEnabled', { enabled: true });
        await browser.ask('Performance.enable', { timeDomain: 'threadTicks' });
        return browser;
    }

    /// How many milliseconds the page's thread has worked, whatever else the machine does.
    async worked() {
        const { metrics } = await this.ask('Performance.getMetrics');
        return 1000 * metrics.find(({ name }) => name === 'TaskDuration').value;
    }

    async go(address) {
        await this.ask('Page.navigate', { url: 'about:blank' });
        await this.ask('Page.navigate', { url: address });
    }

    async value(expression) {
        const { result, exceptionDetails } = await this.ask('Runtime.evaluate', { expression, returnByValue: true, awaitPromise: true });
        if (exceptionDetails) throw new Error(wrong_of(exceptionDetails));
        return result.value;
    }

    async look(width, height, scheme, media = '') {
        await this.ask('Emulation.setDeviceMetricsOverride', { width, height, deviceScaleFactor: 1, mobile: false });
        await this.ask('Emulation.setEmulatedMedia', { media, features: [{ name: 'prefers-color-scheme', value: scheme }] });
    }

    async key(name) {
        const [code, further] = CHROMIUM_KEYS[name] ?? [0, {}];
        for (const type of ['keyDown', 'keyUp']) {
            const text = type === 'keyDown' ? further : {};
            await this.ask('Input.dispatchKeyEvent', { type, key: name, code: name, windowsVirtualKeyCode: code, ...text });
        }
    }

    async picture() {
        const { data } = await this.ask('Page.captureScreenshot', { format: 'png' });
        return Buffer.from(data, 'base64');
    }
}

export class Firefox extends Browser {
    static async start() {
        const folder = mkdtempSync(join(tmpdir(), 'firefox-'));
        const words = ['--headless', '--no-remote', '--profile', folder, '--remote-debugging-port=0', 'about:blank'];
        const child = start('firefox-esr', words, { stdio: ['ignore', 'ignore', 'pipe'] });
        const address = await new Promise((resolve, reject) => {
            let text = '';
            const waiting = setTimeout(() => reject(new Error(`Firefox does not say where it listens: ${text}`)), LONGEST_START);
            child.stderr.on('data', (part) => {
                text += part;
                const found = /WebDriver BiDi listening on (ws:\S+)/.exec(text);
                if (found) {
                    clearTimeout(waiting);
                    resolve(found[1]);
                }
            });
        });
        const browser = new Firefox(child, folder);
        const answers = new Answers((text) => send(text));
        const send = await connect(`${address}/session`, (text) => answers.came(text));
        browser.ask = (method, params = {}) => answers.ask(method, params);
        answers.told = ({ method, params }) => method === 'log.entryAdded' && browser.console.push(`${params.level}: ${params.text}`);
        await browser.ask('session.new', { capabilities: {} });
        await browser.ask('session.subscribe', { events: ['log.entryAdded'] });
        const { contexts } = await browser.ask('browsingContext.getTree');
        browser.context = contexts[0].context;
        return browser;
    }

    async go(address) {
        await this.ask('browsingContext.navigate', { context: this.context, url: 'about:blank', wait: 'complete' });
        await this.ask('browsingContext.navigate', { context: this.context, url: address, wait: 'complete' });
    }

    async value(expression) {
        const wrapped = `(async () => JSON.stringify(await (${expression})) ?? 'null')()`;
        const answer = await this.ask('script.evaluate', { expression: wrapped, target: { context: this.context }, awaitPromise: true });
        if (answer.type === 'exception') throw new Error(answer.exceptionDetails.text);
        return JSON.parse(answer.result.value);
    }

    async look(width, height) {
        await this.ask('browsingContext.setViewport', { context: this.context, viewport: { width, height } });
    }

    async key(name) {
        const value = FIREFOX_KEYS[name] ?? name;
        const actions = [{ type: 'key', id: 'keys', actions: [{ type: 'keyDown', value }, { type: 'keyUp', value }] }];
        await this.ask('input.performActions', { context: this.context, actions });
    }
}
