// What an entry did, told: the run sheet's line in the library's words, and what is another in the table behind it.
import { CRASH, CRASHED_NOW, LATE_TURN, LIVE, NO_STATION, is_live, status_of, suspects, told_by } from './library.mjs';
import { mentioned } from './names.mjs';

function list(texts) {
    return texts.length < 2 ? texts.join('') : `${texts.slice(0, -1).join(', ')} and ${texts.at(-1)}`;
}

/// Who suspects whom now and did not before: "4 suspects 5 now".
function new_suspicions(before, after) {
    const told = [];
    for (let board = 0; board < after.n; board++) {
        const others = [];
        for (let other = 0; other < after.n; other++) {
            if (suspects(after, board, other) && !suspects(before, board, other)) others.push(String(other));
        }
        if (others.length > 0) told.push(`${board} suspects ${list(others)} now`);
    }
    return told;
}

function new_exits(before, after, words) {
    const told = [];
    for (let board = 0; board < after.n; board++) {
        if (!is_live(before, board) || is_live(after, board)) continue;
        const by = told_by(after, board);
        told.push(`${board} ${words.status(status_of(after, board))}${by === NO_STATION ? '' : ` by ${by}`}`);
    }
    return told;
}

/// The entry at the moment, in one sentence or two.
export function tell(plant, names) {
    if (plant.at === 0) {
        const rest = plant.length === 0 ? '' : plant.length === 1 ? ' 1 entry follows.' : ` ${plant.length} entries follow.`;
        return plant.is_fresh ? `A fresh plant: all boards are live, and nobody is suspected.${rest}` : `The saved plant as it was opened.${rest}`;
    }
    const { words } = plant.library;
    const { kind, board, line } = plant.entries[plant.at - 1];
    const parts = [line_text(board, line, names, words)];
    // of the entry, not of the tested board: a dead one has no reply
    if (kind === LATE_TURN) parts.push('(A turn, reply late.)');
    if (plant.before) {
        const further = [...new_suspicions(plant.before, plant.state), ...(kind === CRASH ? [] : new_exits(plant.before, plant.state, words))];
        if (further.length > 0) parts.push(`${further.join('; ')}.`);
    }
    if (plant.closed(plant.at)) parts.push(`Round ${plant.state.rounds} is closed.`);
    return parts.join(' ');
}

function line_text(board, line, names, words) {
    const who = `Board ${mentioned(names, board)}`;
    const what = words.outcome(line[2]);
    if (line[2] === CRASHED_NOW) return `${who}: ${what}.`;
    if (line[1] === NO_STATION) return `${who}: ${what}.`;
    return `${who} tests ${mentioned(names, line[1])}: ${what}.`;
}

/// What an entry would do, tried on a copy by the library.
export function would(tried, names, words) {
    if (tried.refused !== undefined) return `refused, ${words.refusal(tried.refused)}`;
    const { line } = tried;
    const after = line[3] === LIVE ? '' : `, then ${words.status(line[3])}`;
    return line[1] === NO_STATION ? `${words.outcome(line[2])}${after}` : `tests ${mentioned(names, line[1])}: ${words.outcome(line[2])}${after}`;
}
