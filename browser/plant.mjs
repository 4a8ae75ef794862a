// A plant and its entries so far: any moment of it, by the library, from the nearest moment kept.
import { CRASH, LIVE, MOST_ENTRIES, NO_STATION, TESTED_TOLD, copy_of, row_of, status_of } from './library.mjs';

const KEPT_EVERY = 64;
/// Stands for what the library has not been asked yet.
export const NOT_ASKED = 'not asked';
const MOST_ANSWERS = 16384;

export class Plant {
    /// From a first moment: a fresh plant, or one that was loaded.
    constructor(library, state, is_fresh) {
        this.library = library;
        this.is_fresh = is_fresh;
        this.wiring = state.wiring;
        this.n = state.n;
        this.entries = [];
        this.kept = [copy_of(state)];
        this.rounds = [state.rounds];
        this.at = 0;
        this.state = copy_of(state);
        this.before = undefined;
        this.answers = new Map();
    }

    get length() {
        return this.entries.length;
    }

    /// Who had the last turn up to the moment, for the grant.
    last_granted() {
        for (let k = this.at - 1; k >= 0; k--) if (this.entries[k].kind !== CRASH) return this.entries[k].board;
        return NO_STATION;
    }

    /// Takes an entry at the moment; the entries behind the moment are dropped. Gives the refusal, if it is refused: nothing is changed then.
    take(kind, board) {
        const state = copy_of(this.state);
        const { refused, line } = this.library.run(state, kind, board);
        if (refused !== undefined) return refused;
        this.entries.length = this.at;
        this.rounds.length = this.at + 1;
        this.kept.length = Math.floor(this.at / KEPT_EVERY) + 1;
        this.entries.push({ kind, board, line });
        this.rounds.push(state.rounds);
        [this.before, this.state] = [this.state, state];
        this.at += 1;
        if (this.at % KEPT_EVERY === 0) this.kept.push(copy_of(state));
        return undefined;
    }

    get is_full() {
        return this.at >= MOST_ENTRIES;
    }

    state_at(k) {
        const from = Math.floor(k / KEPT_EVERY);
        const state = copy_of(this.kept[from]);
        const schedule = this.entries.slice(from * KEPT_EVERY, k).flatMap(({ kind, board }) => [kind, board]);
        if (schedule.length > 0) this.library.run_all(state, Uint8Array.from(schedule));
        return state;
    }

    go(k) {
        const to = Math.max(0, Math.min(this.length, k));
        if (to === this.at) return;
        this.before = to === this.at + 1 ? this.state : to > 0 ? this.state_at(to - 1) : undefined;
        this.state = this.state_at(to);
        this.at = to;
    }

    /// Whether the entry before this moment closed a round, and whether a board left or crashed by it.
    closed(k) {
        return k > 0 && this.rounds[k] > this.rounds[k - 1];
    }

    had_exit(k) {
        if (k === 0) return false;
        const { line } = this.entries[k - 1];
        return line[3] !== LIVE || line[2] === TESTED_TOLD;
    }

    next(is_there) {
        for (let k = this.at + 1; k <= this.length; k++) if (is_there.call(this, k)) return k;
        return undefined;
    }

    /// The moment at which the round of this moment began.
    round_began() {
        for (let k = this.at; k > 0; k--) if (this.closed(k)) return k;
        return 0;
    }

    /// What each board's slot is timed for, by its row as it was when this round began: the library's answer depends on no more than that. 64
    /// answers take longer than a step may: the library is asked until a time, but once at least.
    timed_slots(until) {
        const began = this.round_began();
        const of = this.entries[began - 1];
        if (this.round?.began !== began || this.round.of !== of) this.round = { began, of, state: this.state_at(began) };
        const { state } = this.round;
        if (this.answers.size > MOST_ANSWERS) this.answers.clear();
        let is_time = true;
        return Array.from({ length: this.n }, (_, board) => {
            const key = String.fromCharCode(board, status_of(state, board), ...row_of(state, board));
            if (!this.answers.has(key)) {
                if (!is_time) return NOT_ASKED;
                this.answers.set(key, this.library.slot(state, board));
                is_time = performance.now() < until;
            }
            return this.answers.get(key);
        });
    }

    /// Drives a copy of the plant at this moment round by round, until a time, but one round at least: in how many rounds the copy is as it is asked
    /// for, or the refusal of a drive, or neither if it is not so in so many rounds. Asked again at the same moment it goes on where it stopped.
    driven_until(is_so, most_rounds, until) {
        if (this.ahead?.of !== this.state || this.ahead.is_so !== is_so) {
            this.ahead = { of: this.state, is_so, driven: copy_of(this.state), last: this.last_granted(), rounds: 0 };
        }
        const { ahead } = this;
        while (!ahead.answer) {
            const { refused, last } = this.library.drive(ahead.driven, ahead.last);
            ahead.last = last;
            ahead.rounds += 1;
            if (refused !== 0) ahead.answer = { refused };
            else if (is_so(ahead.driven)) ahead.answer = { rounds: ahead.rounds };
            else if (ahead.rounds === most_rounds) ahead.answer = {};
            else if (performance.now() >= until) return NOT_ASKED;
        }
        return ahead.answer;
    }
}
