// The module in memory, and one way to call it: what is lent goes in behind the module's own memory, and comes back after the call.

/// A variable of the caller's, of 4 bytes (uint32_t) or 8 (size_t), by its address.
export class Cell {
    constructor(width, value = 0) {
        this.width = width;
        this.value = value;
    }
}

export class Module {
    constructor(exports) {
        this.exports = exports;
        this.start = Number(exports.__heap_base.value ?? exports.__heap_base);
    }

    static async of(bytes) {
        const { instance } = await WebAssembly.instantiate(bytes, {});
        return new Module(instance.exports);
    }

    /// Calls by the header's name. A BigInt is a size_t, a number a uint32_t, bytes a buffer and its length, a cell a pointer. Gives the number.
    call(name, ...given) {
        const places = [];
        const words = [];
        let next = this.start;
        for (const item of given) {
            if (typeof item === 'bigint') {
                words.push(item);
            } else if (typeof item === 'number') {
                words.push(item | 0);
            } else {
                const at = Math.ceil(next / 8) * 8;
                places.push([item, at]);
                words.push(BigInt(at));
                if (item instanceof Cell) {
                    next = at + 8;
                } else {
                    next = at + item.length;
                    words.push(BigInt(item.length));
                }
            }
        }
        const missing = next - this.exports.memory.buffer.byteLength;
        if (missing > 0) this.exports.memory.grow(Math.ceil(missing / 65536));
        const memory = new Uint8Array(this.exports.memory.buffer);
        const view = new DataView(memory.buffer);
        for (const [item, at] of places) {
            if (!(item instanceof Cell)) memory.set(item, at);
            else if (item.width === 4) view.setUint32(at, item.value, true);
            else view.setBigUint64(at, BigInt(item.value), true);
        }
        const number = this.exports[name](...words) & 0xff;
        for (const [item, at] of places) {
            if (!(item instanceof Cell)) item.set(memory.subarray(at, at + item.length));
            else item.value = item.width === 4 ? view.getUint32(at, true) : Number(view.getBigUint64(at, true));
        }
        return number;
    }
}
