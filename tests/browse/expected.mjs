// What the page must say, by the simulator: its programs are run on the entries.
import { spawnSync } from 'node:child_process';

const HEAD = 6;
const NONE = 255;
const STATUSES = ['live', 'crashed', 'left because told', 'left because alone'];
/// Of an outcome: the arrow's class, whether it goes from the tested board to the tester, and whether it has two heads.
const ARROWS = { 1: ['exchanged', false, true], 2: ['told', true, false], 3: ['no-reply', false, false], 5: ['told', false, false] };
const OUTCOMES = ['pass finished', 'exchanged', 'told, and left', 'no reply', 'crash', 'the tested board was told, and left'];

export class Simulator {
    constructor(folder) {
        this.folder = folder;
    }

    program(name, words, input) {
        return spawnSync(`${this.folder}/${name}`, words, { input, maxBuffer: 1 << 26 }).stdout;
    }

    /// The refusal and how many entries were taken; or the line that cannot be read.
    run(input, is_ring = false) {
        const last = this.program('simulate', is_ring ? ['--ring'] : [], input).toString().trimEnd().split('\n').at(-1).split(' ');
        return last[0] === 'unread' ? { unread: Number(last[1]) } : { refused: Number(last[5]), taken: Number(last[7]) };
    }

    /// The plant before the first entry, and after each.
    states(n, entries, is_ring = false) {
        let tests = 0;
        const lines = this.program('plant_tables', [is_ring ? 'ring' : 'cube'], input_of(n, entries)).toString().trimEnd().split('\n');
        return lines.map((line) => {
            const [board, tested, outcome, , rounds, by, of, most_rounds, most_turns, , granted] = line.split(' ').map(Number);
            tests += tested === NONE ? 0 : 1;
            const bytes = Buffer.from(line.split(' ').at(-1), 'hex');
            const table = Array.from({ length: n }, (_, k) => bytes.subarray(k * (n + HEAD), (k + 1) * (n + HEAD)));
            return { board, tested, outcome, rounds, tests, by, of, wait: [most_rounds, most_turns], granted, table };
        });
    }

    /// The last column of the commissioning sheet, for each board in it.
    sheet(n, dead) {
        const text = this.program('simulate_sheet', [n, ...dead].map(String)).toString();
        const rows = text.split('\n\n')[1].split('\n').slice(1);
        return new Map(rows.map((row) => row.trim().split(/\s+/).map(Number)).map((row) => [row[0], row.at(-1)]));
    }

    /// Of random entries those that are taken, about as many as asked for.
    entries(n, count, seed, is_ring) {
        let state = seed;
        const random = (below) => {
            state = (Math.imul(state, 1664525) + 1013904223) >>> 0;
            return Math.floor((state / 2 ** 32) * below);
        };
        const letter = () => ['T', 'T', 'T', 'T', 'T', 'T', 'T', 'T', 'T', 'L', 'T', 'T', 'T', 'C'][random(n > 2 ? 14 : 9)];
        const entries = Array.from({ length: count }, () => `${letter()} ${random(n)}`);
        for (;;) {
            const { refused, taken } = this.run(input_of(n, entries), is_ring);
            if (refused === 0) return entries;
            entries.splice(taken, 1);
        }
    }
}

/// After how many rounds and grants one dead board is known under a bus master, by the rule Bounds of one dead board. Nothing at other sizes.
export function bounds_of_one_dead(n, is_ring) {
    if (n < 4 || (!is_ring && !Number.isInteger(Math.log2(n)))) return undefined;
    return is_ring ? [3, 5 * n - 8] : [2, (n - 1) * (Math.log2(n) + 2) - 1];
}

export const input_of = (n, entries) => `${n}\n${entries.map((entry) => `${entry}\n`).join('')}`;

const is_live = (line) => line[0] === 0;

/// In how many rounds the simulator's boards all know the dead ones, if they are driven on: 0 if they do now.
export function rounds_until_known(simulator, n, begun) {
    const entries = [...begun];
    const last = () => simulator.states(n, entries).at(-1);
    const is_known = ({ table }) => table.every((line, dead) => is_live(line) || table.every((by) => !is_live(by) || by[HEAD + dead] === 1));
    let state = last();
    const first = state.rounds;
    while (!is_known(state)) {
        for (const before = state.rounds; state.rounds === before; state = last()) entries.push(`T ${state.granted}`);
    }
    return state.rounds - first;
}

/// What a plant holds, as the page tells it.
function told({ by, of, granted, table }) {
    const suspects = table.map((line) => [...line.subarray(HEAD)].map((byte) => byte === 1));
    const ago = (line) => (line[5] === 0 ? 'in this round' : line[5] === 1 ? '1 round ago' : `${line[5]} rounds ago`);
    const mark = (board, other) => (is_live(table[board]) && is_live(table[other]) ? '▲' : '●');
    return {
        lamp: by === NONE ? 'out' : `${by} suspects ${of}`,
        granted: granted === NONE ? 'no board is live' : String(granted),
        boards: table.map((line, board) => ({
            status: STATUSES[line[0]],
            told: line[4] > 253 ? '' : String(line[4]),
            ago: is_live(line) ? '' : ago(line),
            made: String(line[3]),
            suspects: suspects[board].flatMap((is_so, other) => (is_so ? [other] : [])).join(' '),
        })),
        matrix: suspects.map((row, board) => row.map((is_so, other) => (is_so ? mark(board, other) : ' ')).join('')),
    };
}

/// A row as it goes over the cable: board k has bit k % 8 of byte k / 8, bit 0 the lowest.
function packed(row) {
    const bytes = Array.from({ length: Math.floor((row.length + 7) / 8) }, () => 0);
    row.forEach((byte, board) => (bytes[Math.floor(board / 8)] += byte * 2 ** (board % 8)));
    return bytes.map((byte) => byte.toString(16).padStart(2, '0')).join(' ');
}

/// The messages of an entry: from whom, to whom, what, and of a row whom it suspects and its bytes. A reply brings the row before the entry, an
/// exchange that after it.
function sent(state, before, is_late) {
    const ends = [String(state.board), String(state.tested)];
    const back = [ends[1], ends[0]];
    const with_row = ([from, to], what, table) => {
        const row = [...table[from].subarray(HEAD)];
        const others = row.flatMap((byte, other) => (byte === 1 ? [other] : []));
        return [from, to, what, others.length === 0 ? 'nobody' : others.join(', '), packed(row)];
    };
    const of_outcome = {
        0: () => [],
        1: () => [[...ends, 'test'], with_row(back, 'reply', before.table), with_row(ends, 'exchange', state.table)],
        2: () => [[...ends, 'test'], with_row(back, 'reply', before.table)],
        3: () => [[...ends, 'test'], ...(is_late ? [[...back, 'reply, late: thrown away']] : [])],
        4: () => [],
        5: () => [[...ends, 'test'], with_row(back, 'reply', before.table), [...ends, 'told']],
    };
    return [...of_outcome[state.outcome](), ...(state.rounds > before.rounds ? [['all', 'round closed']] : [])];
}

/// What the page must say at each moment of a list of entries: after none, after one, ..
export function moments(simulator, n, entries, is_ring) {
    const states = simulator.states(n, entries, is_ring);
    return states.map((state, k) => {
        const { board, tested, outcome, rounds, tests } = state;
        const figures = { rounds: String(rounds), tests: String(tests), at: `${k} of ${entries.length}` };
        const moment = { ...figures, entry: '', arrows: [], messages: [], ...told(state) };
        if (k === 0) return moment;
        const [before, is_late_turn] = [states[k - 1], entries[k - 1].startsWith('L')];
        moment.entry = `Board ${board}${tested === NONE ? '' : ` tests ${tested}`}: ${OUTCOMES[outcome]}.`;
        if (is_late_turn) moment.entry += ' (A turn, reply late.)';
        moment.messages = sent(state, before, is_late_turn && tested !== NONE && is_live(before.table[tested]));
        if (tested !== NONE) {
            const [name, is_back, is_both] = ARROWS[outcome];
            moment.arrows = [[name, ...(is_back ? [tested, board] : [board, tested]), is_both]];
        }
        return moment;
    });
}
