// A socket to a browser on this machine: as much of WebSocket (RFC 6455) as its texts need, since not every node has it.
import { randomBytes } from 'node:crypto';
import { request } from 'node:http';

const [CONTINUED, TEXT, CLOSE, PING, PONG] = [0, 1, 8, 9, 10];

function frame(kind, contents) {
    const head = [0x80 | kind];
    const { length } = contents;
    if (length < 126) head.push(0x80 | length);
    else if (length < 65536) head.push(0x80 | 126, length >> 8, length & 255);
    else head.push(0x80 | 127, 0, 0, 0, 0, length >>> 24, (length >> 16) & 255, (length >> 8) & 255, length & 255);
    const mask = randomBytes(4);
    return Buffer.concat([Buffer.from(head), mask, contents.map((byte, k) => byte ^ mask[k % 4])]);
}

/// The first frame of what came, if it is there whole: its kind, whether it ends its message, its contents, and how long it is with its head.
function first_frame(bytes) {
    if (bytes.length < 2) return undefined;
    let [length, at] = [bytes[1] & 127, 2];
    const more = { 126: 2, 127: 8 }[length] ?? 0;
    if (bytes.length < at + more) return undefined;
    if (more === 2) length = bytes.readUInt16BE(at);
    if (more === 8) length = Number(bytes.readBigUInt64BE(at));
    at += more;
    if (bytes.length < at + length) return undefined;
    return { kind: bytes[0] & 15, ends: (bytes[0] & 128) !== 0, contents: bytes.subarray(at, at + length), whole: at + length };
}

/// Gives how to send a text; each text that comes is handed to `came`.
export function connect(address, came) {
    const key = randomBytes(16).toString('base64');
    const headers = { Connection: 'Upgrade', Upgrade: 'websocket', 'Sec-WebSocket-Version': '13', 'Sec-WebSocket-Key': key };
    return new Promise((resolve, reject) => {
        const asked = request(address.replace(/^ws:/, 'http:'), { headers });
        asked.on('error', reject);
        asked.on('response', (response) => reject(new Error(`${address} answers ${response.statusCode}`)));
        asked.on('upgrade', (response, socket, head) => {
            let rest = head;
            let parts = [];
            const take = () => {
                for (let found = first_frame(rest); found; found = first_frame(rest)) {
                    rest = rest.subarray(found.whole);
                    if (found.kind === PING) socket.write(frame(PONG, found.contents));
                    if (found.kind === CLOSE) socket.end();
                    if (found.kind !== TEXT && found.kind !== CONTINUED) continue;
                    parts.push(found.contents);
                    if (!found.ends) continue;
                    const text = Buffer.concat(parts).toString();
                    parts = [];
                    came(text);
                }
            };
            socket.on('data', (part) => {
                rest = Buffer.concat([rest, part]);
                take();
            });
            socket.on('error', () => {});
            resolve((text) => socket.write(frame(TEXT, Buffer.from(text))));
            take();
        });
        asked.end();
    });
}
