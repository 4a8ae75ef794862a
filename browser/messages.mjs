// What went over the cable in the turn at hand: by the run sheet's line, and by the lines of the table as they were before the entry.
import { EXCHANGED, LATE_TURN, NO_REPLY, NO_STATION, TESTED_TOLD, is_live } from './library.mjs';
import { make } from './elements.mjs';
import { mentioned } from './names.mjs';
import { suspected_by } from './tables.mjs';

/// The messages of the entry before the moment, in their order: what each is, from whom to whom, and, if it brings its sender's row, the state that
/// has this row: a reply that before the entry, an exchange that after it, which is joined. A closing is told to all boards.
export function messages(plant) {
    if (plant.at === 0) return [];
    const { kind, board, line } = plant.entries[plant.at - 1];
    const [, tested, outcome] = line;
    const sent = [];
    if (tested !== NO_STATION) {
        sent.push({ what: 'test', from: board, to: tested });
        const is_late = kind === LATE_TURN && is_live(plant.before, tested);
        if (is_late) sent.push({ what: 'reply, late: thrown away', from: tested, to: board });
        if (outcome !== NO_REPLY) sent.push({ what: 'reply', from: tested, to: board, row_in: plant.before });
        if (outcome === TESTED_TOLD) sent.push({ what: 'told', from: board, to: tested });
        if (outcome === EXCHANGED) sent.push({ what: 'exchange', from: board, to: tested, row_in: plant.state });
    }
    if (plant.closed(plant.at)) sent.push({ what: 'round closed' });
    return sent;
}

const in_hex = (bytes) => Array.from(bytes, (byte) => byte.toString(16).padStart(2, '0')).join(' ');

export class Messages {
    constructor(list, none) {
        this.list = list;
        this.none = none;
    }

    show(plant, names) {
        const sent = messages(plant);
        this.none.hidden = sent.length > 0;
        this.list.hidden = sent.length === 0;
        this.list.replaceChildren(...sent.map((message) => this.item(plant, names, message)));
    }

    item(plant, names, { what, from, to, row_in }) {
        if (from === undefined) return make('li', { textContent: `To all: ${what}` });
        const who = `${mentioned(names, from)} to ${mentioned(names, to)}: ${what}`;
        if (row_in === undefined) return make('li', { textContent: who });
        const others = suspected_by(row_in, from);
        const row = others.length === 0 ? 'suspects nobody' : `suspects ${others.join(', ')}`;
        const item = make('li', { textContent: `${who}, ${row}` });
        const packed = plant.library.packed_row(row_in, from);
        const bytes = packed.length === 1 ? 'byte' : 'bytes';
        item.append(' ', make('span', { className: 'bytes', textContent: `(${bytes} ${in_hex(packed)})` }));
        return item;
    }
}
