// A moment as the part of an address behind #, and back.
import { CUBE, RING } from './library.mjs';

const LETTERS = ['', 'T', 'L', 'C'];

const to_base64 = (bytes) =>
    btoa(Array.from(bytes, (byte) => String.fromCharCode(byte)).join('')).replace(/\+/g, '-').replace(/\//g, '_').replace(/=+$/, '');

export function from_base64(text) {
    const plain = atob(text.replace(/-/g, '+').replace(/_/g, '/'));
    return Uint8Array.from(plain, (letter) => letter.charCodeAt(0));
}

export const letter_of = (kind) => LETTERS[kind];

/// The entries as an input of the run program.
export const input_of = (n, entries) => `${n}\n${entries.map(({ kind, board }) => `${letter_of(kind)} ${board}\n`).join('')}`;

export function link_of(plant, names, saved_start) {
    const parts = new URLSearchParams();
    parts.set('wiring', plant.wiring === RING ? 'ring' : 'cube');
    if (saved_start) parts.set('saved', to_base64(saved_start));
    else parts.set('boards', String(plant.n));
    parts.set('entries', plant.entries.map(({ kind, board }) => `${letter_of(kind)}${board}`).join(''));
    parts.set('at', String(plant.at));
    names.forEach((name, board) => name && parts.set(`name${board}`, name));
    return parts.toString();
}

/// What an address says: wiring, an input or a saved plant with an input for its entries, names, the moment.
export function read_link(text) {
    const parts = new URLSearchParams(text);
    if (!parts.has('boards') && !parts.has('saved')) return undefined;
    const lines = (parts.get('entries') ?? '').replace(/([A-Za-z])(\d+)/g, '\n$1 $2');
    const names = [];
    for (const [part, name] of parts) {
        const read = /^name(\d{1,3})$/.exec(part);
        // a name is one line, wherever it comes from
        if (read) names[Number(read[1])] = name.replace(/[\p{Cc}\u2028\u2029]+/gu, ' ').trim();
    }
    return {
        wiring: parts.get('wiring') === 'ring' ? RING : CUBE,
        input: `${parts.get('boards') ?? ''}${lines}`,
        entries: lines,
        saved: parts.get('saved') ?? undefined,
        at: parts.has('at') ? Number(parts.get('at')) : undefined,
        names,
    };
}
