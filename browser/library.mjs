// The calls of include/vcube.h that the page makes, and the places of bytes in a table as that header tells them.
import { Cell } from './module.mjs';

export const CUBE = 1;
export const RING = 2;
export const TURN = 1;
export const LATE_TURN = 2;
export const CRASH = 3;
export const NO_STATION = 255;
export const NOT_RECORDED = 254;
export const MOST_ROUNDS_AGO = 255;
export const LIVE = 0;
export const CRASHED = 1;
export const TOLD = 2;
export const ALONE = 3;
export const STATUSES = [LIVE, CRASHED, TOLD, ALONE];
export const EXCHANGED = 1;
export const TOLD_NOW = 2;
export const NO_REPLY = 3;
export const CRASHED_NOW = 4;
export const TESTED_TOLD = 5;
export const MOST_ENTRIES = 4096;
export const REFUSED = { LINE_RULE: 3, ROUND_NOT_CLOSED: 4, FIRST_FIELD: 21 };
const HEAD = 6;
const WORDS_LENGTH = 128;

/// Of a state { wiring, n, table, rounds, tests } line by line.
export const line_of = (state, board) => board * (state.n + HEAD);
export const status_of = (state, board) => state.table[line_of(state, board)];
export const tests_of = (state, board) => state.table[line_of(state, board) + 3];
export const told_by = (state, board) => state.table[line_of(state, board) + 4];
export const rounds_ago = (state, board) => state.table[line_of(state, board) + 5];
export const suspects = (state, board, other) => state.table[line_of(state, board) + HEAD + other] === 1;
export const is_live = (state, board) => status_of(state, board) === LIVE;
const own_line = (state, board) => state.table.subarray(line_of(state, board), line_of(state, board) + state.n + HEAD);
export const row_of = (state, board) => state.table.subarray(line_of(state, board) + HEAD, line_of(state, board) + HEAD + state.n);
export const copy_of = (state) => ({ ...state, table: state.table.slice() });

export const saved_length = (n) => 19 + n * (n + 10);

/// Bytes that hold a string of C.
const text_of = (bytes) => String.fromCharCode(...bytes.subarray(0, bytes.indexOf(0)));

/// What the library says to people of a refusal, a status or an outcome, by its number. Each is asked for once.
class Words {
    constructor(module) {
        this.module = module;
        this.known = new Map();
    }

    of(call, number) {
        const key = `${call} ${number}`;
        if (!this.known.has(key)) {
            const words = new Uint8Array(WORDS_LENGTH);
            this.module.call(call, BigInt(number), words);
            this.known.set(key, text_of(words));
        }
        return this.known.get(key);
    }

    refusal(number) {
        return this.of('vcube_refusal_words', number);
    }

    status(number) {
        return this.of('vcube_status_words', number);
    }

    outcome(number) {
        return this.of('vcube_outcome_words', number);
    }
}

export class Library {
    constructor(module) {
        this.module = module;
        this.words = new Words(module);
    }

    /// Reads an input: its size and its entries as a schedule, or the first line that cannot be read and why.
    read_input(input) {
        const schedule = new Uint8Array(2 * MOST_ENTRIES);
        const words = new Uint8Array(WORDS_LENGTH);
        const [n, entries, line] = [new Cell(8), new Cell(8), new Cell(8)];
        this.module.call('vcube_read_input', input, schedule, words, n, entries, line);
        if (line.value !== 0) return { line: line.value, fault: text_of(words) };
        return { n: n.value, schedule: schedule.subarray(0, 2 * entries.value) };
    }

    /// A plant that begins, or the number of the refusal.
    fresh(wiring, n) {
        const table = new Uint8Array(n >= 0 && n <= 1024 ? n * (n + HEAD) : 0);
        const number = this.module.call('vcube_fresh_table', BigInt(wiring), BigInt(Math.max(0, n)), table);
        return number === 0 ? { state: { wiring, n, table, rounds: 0, tests: 0 } } : { refused: number };
    }

    /// Carries out one entry in the state. Gives the refusal, or the line of the run sheet.
    run(state, kind, board) {
        const sheet = new Uint8Array(4);
        const [rounds, tests, taken] = [new Cell(4, state.rounds), new Cell(4, state.tests), new Cell(8)];
        const schedule = Uint8Array.of(kind, board);
        const call = ['vcube_run', BigInt(state.wiring), BigInt(state.n), state.table, rounds, tests, schedule, sheet, taken];
        const refused = this.module.call(...call);
        [state.rounds, state.tests] = [rounds.value, tests.value];
        return refused === 0 ? { line: sheet } : { refused };
    }

    /// Carries out many entries that were taken before.
    run_all(state, schedule) {
        const sheet = new Uint8Array(2 * schedule.length);
        const [rounds, tests, taken] = [new Cell(4, state.rounds), new Cell(4, state.tests), new Cell(8)];
        this.module.call('vcube_run', BigInt(state.wiring), BigInt(state.n), state.table, rounds, tests, schedule, sheet, taken);
        [state.rounds, state.tests] = [rounds.value, tests.value];
    }

    /// The row of a live board as it goes over the cable, by its line of the table.
    packed_row(state, board) {
        const packed = new Uint8Array((state.n + 7) >> 3);
        this.module.call('vcube_board_row', BigInt(state.wiring), BigInt(state.n), BigInt(board), own_line(state, board), packed);
        return packed;
    }

    grant(state, last) {
        const board = new Cell(8);
        const refused = this.module.call('vcube_grant', BigInt(state.wiring), BigInt(state.n), state.table, BigInt(last), board);
        return refused === 0 ? { board: board.value } : { refused };
    }

    drive(state, last) {
        const [rounds, tests] = [new Cell(4, state.rounds), new Cell(4, state.tests)];
        const [granted, grants] = [new Cell(8, last), new Cell(8)];
        const refused = this.module.call('vcube_drive', BigInt(state.wiring), BigInt(state.n), state.table, rounds, tests, granted, grants);
        [state.rounds, state.tests] = [rounds.value, tests.value];
        return { refused, last: granted.value };
    }

    /// The pair of the doubt lamp, or nothing if it is out.
    lamp(state) {
        const [by, of] = [new Cell(8), new Cell(8)];
        const refused = this.module.call('vcube_doubt_lamp', BigInt(state.wiring), BigInt(state.n), state.table, by, of);
        return refused !== 0 || by.value === NO_STATION ? undefined : { by: by.value, of: of.value };
    }

    /// After how many closed rounds and turns at most all live boards know the dead ones, from the start of a round with the lamp out.
    wait(state) {
        const [rounds, per_round, turns, from_crash] = [new Cell(8), new Cell(8), new Cell(8), new Cell(8)];
        const refused = this.module.call('vcube_wait', BigInt(state.wiring), BigInt(state.n), state.table, rounds, per_round, turns, from_crash);
        return refused === 0 ? { rounds: rounds.value, turns: turns.value } : { refused };
    }

    /// After how many closed rounds, that of its crash among them, and grants from its crash at most all others know one dead board, under a bus
    /// master and from the start of a round with nobody dead or suspected. Nothing where that is not proved.
    one_dead(state) {
        const [rounds, grants] = [new Cell(8), new Cell(8)];
        const refused = this.module.call('vcube_one_dead', BigInt(state.wiring), BigInt(state.n), rounds, grants);
        return refused !== 0 || rounds.value === 0 ? undefined : { rounds: rounds.value, grants: grants.value };
    }

    save(state) {
        const file = new Uint8Array(saved_length(state.n));
        const refused = this.module.call('vcube_save', BigInt(state.n), state.table, state.rounds, state.tests, file);
        return refused === 0 ? { file } : { refused };
    }

    /// Whether its fields are those of a saved plant, or of a file of edition 1.
    is_saved(file) {
        const size = new Cell(8);
        return this.module.call('vcube_saved_size', file, size) === 0 || this.module.call('vcube_converted_length', file, size) === 0;
    }

    load(file) {
        const size = new Cell(8);
        const refused = this.module.call('vcube_saved_size', file, size);
        if (refused !== 0) return { refused };
        const [n, rounds, tests] = [new Cell(8), new Cell(4), new Cell(4)];
        const table = new Uint8Array(size.value * (size.value + HEAD));
        const number = this.module.call('vcube_load', file, table, n, rounds, tests);
        if (number !== 0) return { refused: number };
        return { state: { wiring: CUBE, n: n.value, table, rounds: rounds.value, tests: tests.value } };
    }

    /// A file of edition 1, as a saved plant.
    convert(file) {
        const length = new Cell(8);
        const refused = this.module.call('vcube_converted_length', file, length);
        if (refused !== 0) return { refused };
        const saved = new Uint8Array(length.value);
        const number = this.module.call('vcube_convert', file, saved);
        return number === 0 ? { file: saved } : { refused: number };
    }

    /// Mends the table in the state. Gives the changes: board, byte of its line, before, after.
    mend(state) {
        const report = new Uint8Array(4 * state.table.length);
        const changes = new Cell(8);
        const refused = this.module.call('vcube_mend', BigInt(state.wiring), BigInt(state.n), state.table, report, changes);
        if (refused !== 0) return { refused };
        const width = state.n + HEAD;
        return {
            changes: Array.from({ length: changes.value }, (_, k) => {
                const offset = 256 * report[4 * k] + report[4 * k + 1];
                return { board: Math.floor(offset / width), byte: offset % width, before: report[4 * k + 2], after: report[4 * k + 3] };
            }),
        };
    }

    /// The most tests that one more dead board can make of this board's, by which its slot is timed. Nothing on the ring, or if it is not live.
    slot(state, board) {
        if (state.wiring !== CUBE) return undefined;
        const [tests, most] = [new Cell(8), new Cell(8)];
        const refused = this.module.call('vcube_slot', BigInt(state.n), state.table, BigInt(board), tests, most);
        return refused === 0 ? most.value : undefined;
    }
}

/// The state in a saved plant whose form is right and whose lines are not: the load said 3 or 4, which come behind all of the form. The places
/// are those of the header: opening 4 bytes, size 4, tally 11, and line fields of n + 10.
export function lines_of_saved(file) {
    const n = file[7];
    const view = new DataView(file.buffer, file.byteOffset, file.byteLength);
    const table = new Uint8Array(n * (n + HEAD));
    for (let board = 0; board < n; board++) {
        const at = 19 + board * (n + 10) + 4;
        table.set(file.subarray(at, at + n + HEAD), board * (n + HEAD));
    }
    return { wiring: CUBE, n, table, rounds: view.getUint32(11), tests: view.getUint32(15) };
}
