// node in-browser.mjs NAME MODULE CALLS: makes the recorded calls in Chromium or Firefox. A server on this machine alone hands out the page and what
// it needs. Exit status: 0 all calls are right; 1 one is not, or the page is not ready in four minutes.
import { once } from 'node:events';
import { readFileSync } from 'node:fs';
import { createServer } from 'node:http';
import { Chromium, Firefox } from '../browse/browser.mjs';
import { report } from './replay.mjs';

const [name, module, calls] = process.argv.slice(2);
const MOST_SECONDS = 240;
const page = `<!doctype html><meta charset="utf-8"><title>vcube</title><script type="module">
    const bytes = async (path) => new Uint8Array(await (await fetch(path)).arrayBuffer());
    try {
        const { replay_and_drive } = await import('/replay.mjs');
        window.found = await replay_and_drive(await bytes('/module'), await bytes('/calls'));
    } catch (error) {
        window.found = { made: 0, wrong: [String(error)], milliseconds: 0, grants: '0' };
    }
</script>`;
const answers = {
    '/': ['text/html', () => page],
    '/replay.mjs': ['text/javascript', () => readFileSync(new URL('./replay.mjs', import.meta.url))],
    '/module': ['application/wasm', () => readFileSync(module)],
    '/calls': ['application/octet-stream', () => readFileSync(calls)],
};
const server = createServer((request, response) => {
    const [type, contents] = answers[request.url] ?? ['text/plain', () => ''];
    response.setHeader('Content-Type', type);
    response.end(contents());
}).listen(0, '127.0.0.1');
await once(server, 'listening');
const browser = await { Chromium, Firefox }[name].start();
try {
    await browser.go(`http://127.0.0.1:${server.address().port}/`);
    await browser.wait('window.found !== undefined', MOST_SECONDS);
    process.exitCode = report(name, await browser.value('window.found'));
} finally {
    await browser.end();
    server.close();
    server.closeAllConnections();
}
