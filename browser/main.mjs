// The page: what is opened, what the buttons do, and what is shown of a moment.
import { CRASH, CUBE, LATE_TURN, Library, MOST_ENTRIES, NO_STATION, REFUSED, RING, TURN } from './library.mjs';
import { copy_of, is_live, lines_of_saved, row_of, status_of, suspects, told_by } from './library.mjs';
import { Boards, Matrix, ago_text, suspected_by, told_text } from './tables.mjs';
import { Circle, legend } from './circle.mjs';
import { Messages } from './messages.mjs';
import { Module } from './module.mjs';
import { NOT_ASKED, Plant } from './plant.mjs';
import { by_id, make, set_attribute, set_class, set_text } from './elements.mjs';
import { called, decoded, is_of_names, mentioned, names_text, read_names } from './names.mjs';
import { from_base64, input_of, link_of, read_link } from './link.mjs';
import { tell, would } from './telling.mjs';

const library = new Library(await Module.of(from_base64(by_id('module').textContent.trim())));
const { words } = library;
const samples = [...document.querySelectorAll('script[data-sample]')];
const sample_text = (name) => samples.find((sample) => sample.dataset.sample === name).textContent;
const narrow = matchMedia('(max-width: 40rem)');
const encoder = new TextEncoder();
const LONGEST_FILE = 4194304;
/// For how many milliseconds of a step the library is asked what takes long.
const ASKED_FOR = 4;
/// For so many rounds at most a copy is driven, to see what comes.
const MOST_DRIVEN = 64;
const GRANTING = 'Granting: each step adds an entry.';

let plant;
let names = [];
let selected = 0;
let saved_start;
let playing;
let asking;
/// What is said below, and what can be brought back: { label, does }.
let said = { text: '', kind: 'note' };
let offer;

const circle = new Circle(by_id('circle'), select);
const boards = new Boards(by_id('boards'), select);
const matrix = new Matrix(by_id('matrix'));
const messages_shown = new Messages(by_id('messages'), by_id('no-messages'));

/// Says something below. What can be brought back stays offered beside it.
function say(text, kind = 'note') {
    said = { text, kind: text === '' ? 'note' : kind };
    set_class(by_id('notice'), `message ${said.kind}`);
    set_text(by_id('message'), text);
    by_id('notice').dataset.is = text === '' && !offer ? 'empty' : 'said';
    by_id('bring-back').hidden = offer === undefined;
    set_text(by_id('bring-back'), offer?.label ?? '');
}

// What is shown of the moment.

function all_known(state) {
    for (let board = 0; board < state.n; board++) {
        if (!is_live(state, board)) continue;
        for (let other = 0; other < state.n; other++) if (!is_live(state, other) && !suspects(state, board, other)) return false;
    }
    return true;
}

/// How many rounds until all live boards know all dead ones, if they are driven from here.
function known_text(state, until) {
    const dead = Array.from({ length: state.n }, (_, board) => board).filter((board) => !is_live(state, board));
    if (dead.length === 0) return 'none is dead';
    if (dead.length === state.n) return 'no board is live';
    if (all_known(state)) return 'now';
    const ahead = plant.driven_until(all_known, MOST_DRIVEN, until);
    if (ahead === NOT_ASKED) return '…';
    if (ahead.refused !== undefined) return words.refusal(ahead.refused);
    if (ahead.rounds === undefined) return `not in ${MOST_DRIVEN} rounds, if driven on`;
    return ahead.rounds === 1 ? 'when this round closes, if driven on' : `in ${ahead.rounds} rounds, if driven on`;
}

function bound_text(state) {
    const { refused, rounds, turns } = library.wait(state);
    if (refused !== undefined) return words.refusal(refused);
    const closed = `at most ${rounds} closed ${rounds === 1 ? 'round' : 'rounds'}, ${turns.toLocaleString('en')} turns`;
    return `${closed}, from the start of a round with the lamp out, if no further board crashes, no reply is late and two boards are live`;
}

/// Whether nobody is dead or suspected.
function is_sound(state) {
    for (let board = 0; board < state.n; board++) {
        if (!is_live(state, board) || row_of(state, board).includes(1)) return false;
    }
    return true;
}

/// Nothing where that is not proved.
function one_dead_text(state) {
    const bound = is_sound(state) ? library.one_dead(state) : undefined;
    if (!bound) return undefined;
    const within = `at most ${bound.rounds} closed rounds, that of its crash among them, and ${bound.grants} grants from its crash`;
    return `${within}, if a bus master grants from the start of a round on, no further board crashes and no reply is late`;
}

function show_facts(lamp, until) {
    const { state } = plant;
    set_text(by_id('rounds'), state.rounds.toLocaleString('en'));
    set_text(by_id('tests'), state.tests.toLocaleString('en'));
    const granted = library.grant(state, plant.last_granted());
    set_text(by_id('granted'), granted.refused === undefined ? called(names, granted.board) : words.refusal(granted.refused));
    set_text(by_id('lamp'), lamp ? `${mentioned(names, lamp.by)} suspects ${mentioned(names, lamp.of)}` : 'out');
    set_class(by_id('lamp'), lamp ? 'lamp lit' : 'lamp');
    set_text(by_id('known'), known_text(state, until));
    set_text(by_id('bound'), bound_text(state));
    const one_dead = one_dead_text(state);
    for (const id of ['one-dead-term', 'one-dead']) by_id(id).hidden = one_dead === undefined;
    set_text(by_id('one-dead'), one_dead ?? '');
    set_text(by_id('grant'), granted.refused === undefined ? `Grant the next: ${granted.board}` : 'Grant the next');
}

function show_board(timed) {
    const { state } = plant;
    set_text(by_id('board-heading'), `Board ${called(names, selected)}`);
    const others = suspected_by(state, selected);
    const facts = [['Status', words.status(status_of(state, selected))]];
    if (told_by(state, selected) !== NO_STATION) facts.push(['Told by', told_text(state, selected, names)]);
    if (!is_live(state, selected)) facts.push(['How long ago', ago_text(state, selected)]);
    facts.push(['Suspects', others.length === 0 ? 'nobody' : others.map((other) => mentioned(names, other)).join(', ')]);
    const most = is_live(state, selected) ? timed[selected] : undefined;
    if (most !== undefined) facts.push(['Slot is timed for', most === NOT_ASKED ? '…' : most === 1 ? '1 test' : `${most} tests`]);
    set_text(by_id('slots-note'), slots_note());
    by_id('board-facts').replaceChildren(...facts.flatMap(([term, text]) => [make('dt', { textContent: term }), make('dd', { textContent: text })]));
    const turn = library.run(copy_of(state), TURN, selected);
    set_text(by_id('preview'), `A turn now: ${would(turn, names, words)}.`);
}

function slots_note() {
    if (plant.wiring === RING) return 'No slots: the commissioning sheet is for the cube.';
    if (plant.is_fresh || plant.round_began() > 0) return '';
    return 'Slots are from the opened moment: a saved plant does not hold how its round began.';
}

function show_history() {
    const moment = by_id('moment');
    moment.max = plant.length;
    moment.value = plant.at;
    moment.setAttribute('aria-valuetext', `entry ${plant.at} of ${plant.length}`);
    set_text(by_id('moment-text'), `${plant.at} of ${plant.length}`);
    set_text(by_id('printed'), `Entry ${plant.at} of ${plant.length}`);
    // a button that does nothing now stays where it is for the keys: it is not disabled, but says so
    const does_nothing = {
        first: plant.at === 0,
        back: plant.at === 0,
        forward: plant.at === plant.length,
        last: plant.at === plant.length,
        'next-round': plant.next(plant.closed) === undefined,
        'next-exit': plant.next(plant.had_exit) === undefined,
    };
    for (const [id, is_so] of Object.entries(does_nothing)) set_attribute(by_id(id), 'aria-disabled', is_so);
}

function show() {
    const until = performance.now() + ASKED_FOR;
    const lamp = library.lamp(plant.state);
    const timed = plant.timed_slots(until);
    set_text(by_id('entry'), tell(plant, names));
    circle.show(plant, names, selected, lamp);
    boards.show(plant, names, selected, timed);
    matrix.show(plant);
    messages_shown.show(plant, names);
    show_facts(lamp, until);
    show_board(timed);
    show_history();
    // what the library was not asked in this step it is asked after it
    const is_asked = !timed.includes(NOT_ASKED) && by_id('known').textContent !== '…';
    by_id('main').dataset.asks = is_asked ? 'nothing' : 'more';
    clearTimeout(asking);
    if (!is_asked) asking = setTimeout(show);
}

function lay_out() {
    selected = Math.min(selected, plant.n - 1);
    const wiring = plant.wiring === RING ? 'ring' : 'cube';
    by_id('main').dataset.size = plant.n <= 16 ? 'small' : 'large';
    set_text(by_id('plant-line'), `${plant.n} boards, wired as the ${wiring}`);
    circle.lay_out(plant, names, narrow.matches);
    boards.lay_out(plant, names);
    matrix.lay_out(plant, names);
    show();
}

function select(board, focuses) {
    selected = board;
    say('');
    show();
    if (focuses) by_id('circle').querySelector(`[data-board="${board}"]`).focus();
}

// Trying.

/// Takes an entry at the moment shown. Says what the library refuses.
function take(kind, board) {
    if (plant.is_full) {
        stop();
        say(`An input has ${MOST_ENTRIES.toLocaleString('en')} entries at most. Save this moment, and go on from it.`, 'wrong');
        return false;
    }
    const refused = plant.take(kind, board);
    if (refused !== undefined) {
        stop();
        say(`Refused for board ${mentioned(names, board)}: ${words.refusal(refused)}. Nothing was changed.`, 'wrong');
        return false;
    }
    return true;
}

function grant_next() {
    const granted = library.grant(plant.state, plant.last_granted());
    if (granted.refused !== undefined) {
        stop();
        say(`Refused: ${words.refusal(granted.refused)}. Nothing was changed.`, 'wrong');
        return false;
    }
    return take(TURN, granted.board);
}

/// Grants until the entry that was taken is such a one.
function grant_until(is_there) {
    while (grant_next() && !is_there.call(plant, plant.at));
}

/// Drives a copy first: where no board leaves, no entry is taken.
function grant_until_exit() {
    const { state } = plant;
    const all = Array.from({ length: plant.n }, (_, board) => board);
    const has_exit = (driven) => all.some((board) => status_of(driven, board) !== status_of(state, board));
    const { refused, rounds } = plant.driven_until(has_exit, MOST_DRIVEN, Infinity);
    if (refused !== undefined) say(`Refused: ${words.refusal(refused)}. Nothing was changed.`, 'wrong');
    else if (rounds === undefined) say(`No board leaves in ${MOST_DRIVEN} rounds, if driven on. Nothing was changed.`);
    else grant_until(plant.had_exit);
}

/// Does what takes entries at the moment shown. What followed the moment is dropped then, and can be brought back until the next take.
function add(does) {
    stop();
    say('');
    const [{ at }, followed] = [plant, plant.entries.slice(plant.at)];
    does();
    show();
    if (plant.at === at) return;
    forget_link();
    const does_again = () => {
        plant.go(at);
        for (const { kind, board } of followed) plant.take(kind, board);
        plant.go(at);
        show();
    };
    offer = undefined;
    let dropped = '';
    if (followed.length > 0) {
        const is_one = followed.length === 1;
        dropped = `${is_one ? 'The entry that followed is' : `The ${followed.length} entries that followed are`} dropped.`;
        offer = { label: `Bring back ${is_one ? 'the entry' : `${followed.length} entries`}`, does: does_again };
    }
    say(`${said.text} ${dropped}`.trim(), said.kind);
}

function bring_back() {
    const { does } = offer;
    stop();
    offer = undefined;
    does();
    say('');
    by_id('moment').focus();
}

function stop() {
    clearInterval(playing);
    playing = undefined;
    set_text(by_id('play'), 'Play');
    by_id('entry').setAttribute('aria-live', 'polite');
    if (said.text === GRANTING) say('');
}

function play() {
    if (playing !== undefined) return stop();
    say('');
    set_text(by_id('play'), 'Pause');
    by_id('entry').setAttribute('aria-live', 'off');
    playing = setInterval(() => {
        forget_link();
        if (plant.at < plant.length) {
            plant.go(plant.at + 1);
        } else if (grant_next()) {
            offer = undefined;
            say(GRANTING);
        }
        show();
    }, 1000 / Number(by_id('speed').value));
    return undefined;
}

function go(to) {
    if (to === undefined) return;
    stop();
    say('');
    plant.go(to);
    forget_link();
    show();
}

// Opening.

function rename(others) {
    names = others;
    forget_link();
    lay_out();
}

/// Another plant in place of this one, which can be brought back until the next take, if it had entries or was a saved one.
function put(next) {
    const former = plant && { plant, names, saved_start, selected };
    ({ plant, names, saved_start, selected } = next);
    const is_worth = former && (former.plant.length > 0 || !former.plant.is_fresh);
    offer = is_worth ? { label: 'Bring back the former plant', does: () => put(former) } : undefined;
    lay_out();
}

/// Begins with a state. The schedule's entries are carried out; where one is refused, the entries before it stay.
function begin(state, is_fresh, further) {
    stop();
    const { schedule = [], note = '', saved } = further;
    const opened = new Plant(library, state, is_fresh);
    let text = '';
    for (let k = 0; k < schedule.length; k += 2) {
        const refused = opened.take(schedule[k], schedule[k + 1]);
        if (refused !== undefined) {
            const which = `entry ${k / 2 + 1}, line ${k / 2 + 2} (board ${schedule[k + 1]})`;
            text = `Refused at ${which}: ${words.refusal(refused)}. The entries before it were carried out.`;
            break;
        }
    }
    if (further.at !== undefined && Number.isInteger(further.at)) opened.go(further.at);
    put({
        plant: opened,
        names: (further.names ?? (plant?.n === opened.n ? names : [])).slice(0, opened.n),
        saved_start: saved,
        selected: opened.at > 0 ? opened.entries[opened.at - 1].board : 0,
    });
    say([text, note, offer ? 'The former plant is put aside.' : ''].filter(Boolean).join(' '), text === '' ? 'note' : 'wrong');
    if (!further.is_link) forget_link();
}

/// Gives why the input cannot be opened, or nothing.
function open_input(bytes, wiring, further = {}) {
    const read = library.read_input(bytes);
    if (read.fault) return `Line ${read.line}: ${read.fault}.`;
    const { state, refused } = library.fresh(wiring, read.n);
    if (refused !== undefined) return `Line 1: ${words.refusal(refused)}.`;
    begin(state, true, { ...further, schedule: read.schedule });
    return undefined;
}

/// A saved plant, of edition 1 too. Gives why it cannot be opened, or nothing; one whose lines are damaged is offered mended.
function open_saved(file, further = {}) {
    const loaded = library.load(file);
    if (loaded.state) {
        begin(loaded.state, false, { ...further, saved: file });
        return undefined;
    }
    if (loaded.refused === REFUSED.LINE_RULE || loaded.refused === REFUSED.ROUND_NOT_CLOSED) {
        offer_mending(file, loaded.refused, further);
        return undefined;
    }
    if (loaded.refused !== REFUSED.FIRST_FIELD) return `Refused: ${words.refusal(loaded.refused)}.`;
    const converted = library.convert(file);
    if (converted.refused !== undefined) return `Refused as a file of edition 1: ${words.refusal(converted.refused)}.`;
    return open_saved(converted.file, { ...further, note: 'This was a file of edition 1: it was converted.' });
}

const BYTES = ['status', 'next distance', 'pass finished', 'tests made', 'told by', 'rounds ago'];

function offer_mending(file, refused, further) {
    const state = lines_of_saved(file);
    const { changes } = library.mend(state);
    set_text(by_id('mend-why'), `${words.refusal(refused)}. Mended it has ${changes.length} changed ${changes.length === 1 ? 'byte' : 'bytes'}:`);
    const items = changes.map(({ board, byte, before, after }) => {
        const what = BYTES[byte] ?? `about board ${byte - BYTES.length}`;
        return make('li', { textContent: `board ${board}, ${what}: ${before} became ${after}` });
    });
    by_id('mend-changes').replaceChildren(...items);
    by_id('mend-form').onsubmit = () => {
        const saved = library.save(state);
        if (saved.file) begin(state, false, { ...further, saved: saved.file, is_link: false });
        else say(`Refused: ${words.refusal(saved.refused)}.`, 'wrong');
    };
    // first the dialog that it came of is closed, so that the focus goes back to where it was
    document.querySelector('dialog[open]')?.close();
    by_id('mend-dialog').showModal();
}

/// Gives a file's bytes, or why there are none.
async function bytes_of(file) {
    if (file.size > LONGEST_FILE) return { fault: 'It is longer than any input, plant or names.' };
    try {
        return { bytes: new Uint8Array(await file.arrayBuffer()) };
    } catch {
        return { fault: 'It cannot be read: it may be a folder, or gone.' };
    }
}

/// A file may be a saved plant, an input, or names: the library reads it first. Gives why it cannot be opened, or nothing.
async function open_file(file, wiring, note) {
    const { bytes, fault } = await bytes_of(file);
    if (fault) return fault;
    if (library.is_saved(bytes)) return open_saved(bytes);
    const unread = open_input(bytes, wiring, { note });
    if (!unread) return undefined;
    const { text, is_odd } = decoded(bytes);
    if (is_of_names(text)) {
        const read = read_names(text, plant.n);
        if (read.fault) return `Names, ${read.fault}.`;
        rename(read.names);
        say(is_odd ? 'These names are no UTF-8: they were read as Windows-1252.' : '');
        return undefined;
    }
    // no text has such bytes: it was to be a saved plant
    return bytes.some((byte) => byte < 9) ? open_saved(bytes) : unread;
}

/// What stands behind # is a moment: once another one is shown it would be untrue.
function set_address(hash) {
    if (location.hash.slice(1) === hash) return;
    try {
        history.replaceState(undefined, '', hash === '' ? ' ' : `#${hash}`);
    } catch {
        // where a browser does not let a page do so, the address stays
    }
}

function forget_link() {
    set_address('');
}

/// Opens what stands behind #, if that is a moment.
function open_link() {
    const link = read_link(location.hash.slice(1));
    if (!link) return;
    const fault = open_read(link);
    if (fault) say(`The link cannot be opened. ${fault}`, 'wrong');
}

function open_read(link) {
    const further = { names: link.names, at: link.at, is_link: true };
    if (link.saved === undefined) return open_input(encoder.encode(link.input), link.wiring, further);
    let saved;
    try {
        saved = from_base64(link.saved);
    } catch {
        return 'The saved plant in it is no base64.';
    }
    const read = library.read_input(encoder.encode(`2${link.entries}`));
    return read.fault ? `Line ${read.line}: ${read.fault}.` : open_saved(saved, { ...further, schedule: read.schedule });
}

/// A sample of eight boards, with their names.
function open_sample(name) {
    const list = read_names(sample_text('eight-boards-names.txt'), 8).names;
    return open_input(encoder.encode(sample_text(name)), CUBE, { names: list, at: 0 });
}

// Keeping.

function keep(name, bytes, type) {
    const address = URL.createObjectURL(new Blob([bytes], { type }));
    make('a', { href: address, download: name }).click();
    setTimeout(() => URL.revokeObjectURL(address), 10000);
}

function save_plant(wrong) {
    if (plant.wiring === RING) return set_text(wrong, 'A saved plant holds nothing of the wiring: it is for the cube.');
    const saved = library.save(plant.state);
    if (saved.refused !== undefined) return set_text(wrong, `Refused: ${words.refusal(saved.refused)}.`);
    return keep('plant.saved', saved.file, 'application/octet-stream');
}

function save_input(wrong) {
    if (!plant.is_fresh) {
        const why = 'This plant began as a saved one, and an input begins with a fresh one';
        return set_text(wrong, `${why}. Save this moment instead, or copy a link.`);
    }
    return keep('plant.txt', encoder.encode(input_of(plant.n, plant.entries.slice(0, plant.at))), 'text/plain');
}

async function copy_link() {
    const hash = link_of(plant, names, saved_start);
    const address = `${location.href.replace(/#.*/, '')}#${hash}`;
    set_address(hash);
    try {
        await navigator.clipboard.writeText(address);
        say('The link to this moment is copied.');
    } catch {
        by_id('link-text').value = address;
        by_id('link-dialog').showModal();
        by_id('link-text').select();
    }
}

// Buttons, keys, files.

const on_click = {
    first: () => go(0),
    back: () => go(plant.at - 1),
    forward: () => go(plant.at + 1),
    last: () => go(plant.length),
    'next-round': () => go(plant.next(plant.closed)),
    'next-exit': () => go(plant.next(plant.had_exit)),
    grant: () => add(grant_next),
    'to-round': () => add(() => grant_until(plant.closed)),
    'to-exit': () => add(grant_until_exit),
    play,
    turn: () => add(() => take(TURN, selected)),
    late: () => add(() => take(LATE_TURN, selected)),
    crash: () => add(() => take(CRASH, selected)),
    'bring-back': bring_back,
    dismiss: () => {
        offer = undefined;
        say('');
    },
    link: copy_link,
    print: () => print(),
    'save-plant': () => save_plant(wrong_of('save-dialog')),
    'save-input': () => save_input(wrong_of('save-dialog')),
};

function wrong_of(dialog) {
    return by_id(dialog).querySelector('.wrong');
}

/// A dialog's form: it stays open, with why, if what was entered cannot be taken.
function on_submit(name, take_it) {
    by_id(`${name}-form`).addEventListener('submit', (event) => {
        event.preventDefault();
        Promise.resolve(take_it()).catch((error) => `It cannot be done: ${error.message}`).then((fault) => {
            set_text(wrong_of(`${name}-dialog`), fault ?? '');
            if (!fault) by_id(`${name}-dialog`).close();
        });
    });
}

const chosen_wiring = (name) => Number(document.querySelector(`input[name="${name}"]:checked`).value);

// Of the ways to open one counts: to fill in one empties the others.
const WAYS = ['open-file', 'open-text', 'open-sample'];

function reset_open() {
    for (const way of WAYS) by_id(way).value = '';
    document.querySelector(`input[name="open-wiring"][value="${plant.wiring}"]`).checked = true;
}

/// A file that is dropped into a field of a dialog is the field's; elsewhere in a dialog it is nobody's.
async function on_drop(event) {
    if (event.target.closest?.('dialog :is(input, textarea)')) return;
    event.preventDefault();
    const [file] = event.dataTransfer.files;
    if (!file || document.querySelector('dialog[open]')) return;
    set_attribute(by_id('main'), 'aria-busy', true);
    const wiring = plant.wiring === RING ? 'ring' : 'cube';
    const note = `An input does not say its wiring: it was opened as the ${wiring}, like the plant before it.`;
    const fault = await open_file(file, plant.wiring, note).catch(({ message }) => message);
    if (fault) say(`${file.name} cannot be opened. ${fault}`, 'wrong');
    set_attribute(by_id('main'), 'aria-busy', false);
}

async function take_names_file({ target }) {
    const [file] = target.files;
    if (!file) return;
    const { bytes, fault } = await bytes_of(file);
    const { text, is_odd } = decoded(bytes ?? new Uint8Array());
    if (!fault) by_id('names-text').value = text;
    set_text(wrong_of('names-dialog'), fault ?? (is_odd ? 'No UTF-8: it was read as Windows-1252.' : ''));
    target.value = '';
}

function wire() {
    for (const [id, does] of Object.entries(on_click)) by_id(id).addEventListener('click', does);
    for (const button of document.querySelectorAll('[data-opens]')) {
        button.addEventListener('click', () => {
            stop();
            set_text(wrong_of(button.dataset.opens), '');
            if (button.dataset.opens === 'names-dialog') by_id('names-text').value = names_text(names);
            if (button.dataset.opens === 'open-dialog') reset_open();
            by_id(button.dataset.opens).showModal();
        });
    }
    for (const button of document.querySelectorAll('[data-closes]')) button.addEventListener('click', () => button.closest('dialog').close());
    by_id('moment').addEventListener('input', (event) => go(Number(event.target.value)));
    by_id('speed').addEventListener('change', () => playing !== undefined && (stop(), play()));
    on_submit('new', () => {
        const n = Number(by_id('new-size').value);
        const { state, refused } = library.fresh(chosen_wiring('wiring'), n);
        if (refused !== undefined) return `${words.refusal(refused)}.`;
        begin(state, true, {});
        return undefined;
    });
    on_submit('open', async () => {
        const [file] = by_id('open-file').files;
        const sample = by_id('open-sample').value;
        const wiring = chosen_wiring('open-wiring');
        if (sample) return open_sample(sample);
        return file ? open_file(file, wiring) : open_input(encoder.encode(by_id('open-text').value), wiring);
    });
    for (const way of WAYS) {
        by_id(way).addEventListener('input', () => {
            for (const other of WAYS) if (other !== way) by_id(other).value = '';
        });
    }
    by_id('names-file').addEventListener('change', take_names_file);
    on_submit('names', () => {
        const read = read_names(by_id('names-text').value, plant.n);
        if (read.fault) return `${read.fault}.`;
        rename(read.names);
        return undefined;
    });
    addEventListener('dragover', (event) => event.target.closest?.('dialog :is(input, textarea)') || event.preventDefault());
    addEventListener('drop', on_drop);
    by_id('mend-dialog').addEventListener('close', forget_link);
    by_id('skip').addEventListener('click', (event) => {
        event.preventDefault();
        by_id('grant').focus();
    });
    addEventListener('hashchange', open_link);
    narrow.addEventListener('change', lay_out);
    addEventListener('keydown', on_key);
}

function on_key(event) {
    const is_for_other = event.target.closest('input, select, textarea, dialog') || event.target.matches('.scroll');
    if (event.altKey || event.ctrlKey || event.metaKey || is_for_other) return;
    const steps = { ArrowLeft: -1, ArrowRight: 1 };
    const on_circle = event.target.closest('#circle');
    if (event.key in steps) {
        event.preventDefault();
        go(plant.at + steps[event.key]);
    } else if (on_circle && (event.key === 'ArrowUp' || event.key === 'ArrowDown')) {
        event.preventDefault();
        select((selected + (event.key === 'ArrowUp' ? plant.n - 1 : 1)) % plant.n, true);
    } else if (on_circle && (event.key === 'Enter' || event.key === ' ')) {
        event.preventDefault();
        select(Number(event.target.closest('[data-board]').dataset.board), true);
    }
}

for (const sample of samples.filter(({ dataset }) => dataset.title)) {
    by_id('open-sample').append(make('option', { value: sample.dataset.sample, textContent: sample.dataset.title }));
}
legend(by_id('legend'), words);
begin(library.fresh(CUBE, 8).state, true, { names: read_names(sample_text('eight-boards-names.txt'), 8).names, is_link: true });
open_link();
wire();
document.documentElement.dataset.ready = '1';
