// Makes the calls that tests/compare recorded (tests/harness/shared/src/record.rs says how they stand in the file) by the module
// target/wasm/vcube.wasm, in node or in a browser, and compares number, buffers and guard bytes with what the simulator gives.

const GUARD = 16;
const GUARD_BYTE = 0xa5;
const WIDTHS = { b: 1, B: 1, R: 2, i: 4, s: 8, t: 8, T: 8 };
const LISTS = ['b', 'B', 'R'];
const PAGE = 65536;

/// The calls, one after the other.
function* recorded(file) {
    const view = new DataView(file.buffer, file.byteOffset, file.byteLength);
    let at = 0;
    const take = (length) => file.subarray(at, (at += length));
    while (at < file.length) {
        const end = file.indexOf(0, at);
        const name = new TextDecoder().decode(take(end - at));
        at += 1;
        const call = { name, arguments: [] };
        for (;;) {
            const form = String.fromCharCode(file[at++]);
            if (form === '.') break;
            if (form === 'n') {
                call.arguments.push({ form, number: view.getBigUint64(at, true) });
                at += 8;
            } else if (form === 'w') {
                call.arguments.push({ form, number: view.getUint32(at, true) });
                at += 4;
            } else if (form in WIDTHS) {
                const length = view.getUint32(at, true);
                at += 4;
                const before = take(length);
                const after = String.fromCharCode(file[at++]) === '=' ? before : take(length);
                call.arguments.push({ form, before, after });
            } else {
                throw new Error(`an unknown argument: ${form}`);
            }
        }
        call.number = file[at++];
        yield call;
    }
}

/// The end of what the module itself uses: its stack and its data.
function start_of(exports) {
    const base = exports.__heap_base;
    if (base === undefined) throw new Error('the module does not say where its own memory ends (__heap_base)');
    return Number(base.value ?? base);
}

/// Makes a call. Each buffer stands between guard bytes. Gives what is wrong.
function make(exports, start, call) {
    let next = start;
    const words = [];
    const places = [];
    for (const argument of call.arguments) {
        if (argument.before === undefined) {
            words.push(argument.number);
            continue;
        }
        const at = Math.ceil((next + GUARD) / 8) * 8;
        next = at + argument.before.length + GUARD;
        places.push({ ...argument, at });
        words.push(BigInt(at));
        if (LISTS.includes(argument.form)) {
            words.push(BigInt(argument.before.length / WIDTHS[argument.form]));
        }
    }
    const missing = next - exports.memory.buffer.byteLength;
    if (missing > 0) exports.memory.grow(Math.ceil(missing / PAGE));
    let memory = new Uint8Array(exports.memory.buffer);
    for (const { at, before } of places) {
        memory.fill(GUARD_BYTE, at - GUARD, at + before.length + GUARD);
        memory.set(before, at);
    }
    const number = exports[call.name](...words) & 0xff;
    const wrong = number === call.number ? [] : [`${call.name} gives ${number}, not ${call.number}`];
    memory = new Uint8Array(exports.memory.buffer);
    for (const { at, before, after } of places) {
        const is_guard = (byte) => byte === GUARD_BYTE;
        const guards = [memory.subarray(at - GUARD, at), memory.subarray(at + before.length, at + before.length + GUARD)];
        const is_same = after.every((byte, k) => byte === memory[at + k]);
        if (!is_same || !guards.every((guard) => guard.every(is_guard))) wrong.push(`${call.name}: a buffer is not what it must be`);
    }
    return wrong;
}

/// Makes all calls; gives how many were made, and what was wrong. Then drives 1,000 rounds; gives how many grants, and how long they took.
export async function replay_and_drive(module, file) {
    const { milliseconds, grants } = await drive(module, 1000);
    return { ...(await replay(module, file)), milliseconds, grants: String(grants) };
}

/// Says what was found. Gives the exit status.
export function report(name, { made, wrong, milliseconds, grants }) {
    for (const text of wrong) console.error(`${name}: ${text}`);
    console.log(`${name}: ${made} calls made, ${wrong.length} wrong; ${grants} grants driven in ${Math.round(milliseconds)} ms`);
    return wrong.length > 0 ? 1 : 0;
}

async function replay(module, file) {
    const { instance } = await WebAssembly.instantiate(module, {});
    const start = start_of(instance.exports);
    let made = 0;
    const wrong = [];
    for (const call of recorded(file)) {
        made += 1;
        for (const text of make(instance.exports, start, call)) wrong.push(`call ${made}, ${text}`);
        if (wrong.length >= 10) break;
    }
    if (made === 0) wrong.push('no call was made');
    return { made, wrong };
}

/// The rounds of a plant of 64 boards, each driven from the table that the one before left: how long they take, in milliseconds.
async function drive(module, rounds) {
    const { instance } = await WebAssembly.instantiate(module, {});
    const { memory, vcube_fresh_table, vcube_drive } = instance.exports;
    const length = 64 * 70;
    const table = Math.ceil(start_of(instance.exports) / 8) * 8;
    const [tally, tests, last, grants] = [0, 8, 16, 24].map((k) => table + length + k);
    const missing = grants + 8 - memory.buffer.byteLength;
    if (missing > 0) memory.grow(Math.ceil(missing / PAGE));
    const view = new DataView(memory.buffer);
    for (const place of [tally, tests]) view.setUint32(place, 0, true);
    view.setBigUint64(last, 255n, true);
    const began = performance.now();
    let made = 0n;
    if (vcube_fresh_table(1n, 64n, BigInt(table), BigInt(length)) !== 0) throw new Error('no fresh table');
    const words = [1n, 64n, table, length, tally, tests, last, grants].map(BigInt);
    for (let k = 0; k < rounds; k++) {
        if (vcube_drive(...words) !== 0) throw new Error('a drive was refused');
        made += view.getBigUint64(grants, true);
    }
    return { milliseconds: performance.now() - began, grants: made };
}
