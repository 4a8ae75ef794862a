// node page.mjs BROWSER PAGE SIMULATOR-FOLDER SAMPLES-FOLDER [PICTURES-FOLDER]: opens the page in a browser, plays plants in it and compares what
// its elements say with the simulator, for each entry; then what is refused, names, files, links, keys, width, console and times.
// Exit status: 0 all is as it must be; 1 something is not.
import { readFileSync, writeFileSync } from 'node:fs';
import { pathToFileURL } from 'node:url';
import { Chromium, Firefox } from './browser.mjs';
import { audit, focused } from './audit.mjs';
import { Simulator, bounds_of_one_dead, input_of, moments, rounds_until_known } from './expected.mjs';

const [name, page, folder, samples, option, pictures] = process.argv.slice(2);
const address = pathToFileURL(page).href;
const simulator = new Simulator(folder);
const wrong = [];
let compared = 0;

function check(is_so, what) {
    compared += 1;
    if (!is_so) wrong.push(what);
}

function same(found, expected, what) {
    const [a, b] = [JSON.stringify(found), JSON.stringify(expected)];
    check(a === b, `${what}: ${a}, not ${b}`);
}

const sample = (file) => readFileSync(`${samples}/${file}`, 'utf8').trimEnd().split('\n');
const short = (entries) => entries.map((entry) => entry.replace(' ', '')).join('');
const link = (n, entries, at, wiring = 'cube', further = '') =>
    `${address}#wiring=${wiring}&boards=${n}&entries=${short(entries)}&at=${at}${further}`;
const pause = (milliseconds) => new Promise((resolve) => setTimeout(resolve, milliseconds));

// Read in the page: what its elements say.
const reader = `
    // each arrow's class, the boards that are nearest to its beginning and to its end, and whether both have a head
    window.arrows = () => {
        const numbers = (text) => text.match(/-?[0-9.]+/g).map(Number);
        const places = [...document.querySelectorAll('#circle .board')].map((board) => numbers(board.getAttribute('transform')));
        const nearest = (x, y) => {
            const far = places.map((place) => Math.hypot(place[0] - x, place[1] - y));
            return far.indexOf(Math.min(...far));
        };
        return [...document.querySelectorAll('#circle .arrow:not(.doubt)')].map((path) => {
            const ends = numbers(path.getAttribute('d'));
            const heads = ['marker-end', 'marker-start'].map((marker) => path.hasAttribute(marker));
            if (!heads[0]) throw new Error('an arrow with no head');
            return [path.getAttribute('class').slice(6), nearest(ends[0], ends[1]), nearest(ends[4], ends[5]), heads[1]];
        });
    };
    // from whom, to whom, what, and of a row whom it suspects and its bytes; what is none of these stays a text
    window.messages = () => {
        const texts = [...document.querySelectorAll('#messages li')].filter((item) => item.checkVisibility()).map((item) => item.textContent);
        if (texts.length > 0 === document.getElementById('no-messages').checkVisibility()) texts.push('messages, and that there are none');
        const board = '([0-9]+)(?: [(].*?[)])?';
        const form = new RegExp('^' + board + ' to ' + board + ': ([a-z]+|reply, late: thrown away)(?:, suspects (.*) [(]bytes? ([0-9a-f ]+)[)])?$');
        return texts.map((text) => {
            if (text === 'To all: round closed') return ['all', 'round closed'];
            return form.exec(text)?.slice(1).filter((part) => part !== undefined) ?? text;
        });
    };
    window.until = async (is_so) => {
        for (let k = 0; k < 2000 && !is_so(); k++) await new Promise((resolve) => setTimeout(resolve, 5));
    };
    window.fill = (field, value) => {
        const element = document.getElementById(field);
        if (element.type === 'file') {
            const held = new DataTransfer();
            held.items.add(new File([Uint8Array.from(value)], 'chosen'));
            element.files = held.files;
        } else {
            element.value = value;
        }
        for (const type of ['input', 'change']) element.dispatchEvent(new Event(type, { bubbles: true }));
    };
    window.submit = async (dialog) => {
        const shown = document.getElementById(dialog + '-dialog');
        shown.querySelector('.wrong').textContent = '';
        document.querySelector('#' + dialog + '-form [type=submit]').click();
        await until(() => !shown.open || shown.querySelector('.wrong').textContent !== '');
        return { is_open: shown.open, wrong: shown.querySelector('.wrong').textContent };
    };
    window.said = () => {
        const text = (element) => element.textContent.trim();
        const at = (id) => text(document.getElementById(id));
        const cell = (row, name) => text(row.querySelector('.' + name)).replace(', above', '');
        const marks = (row) => [...row.querySelectorAll('td')].map((cell) => cell.textContent || ' ').join('');
        return {
            rounds: at('rounds').replace(/,/g, ''), tests: at('tests').replace(/,/g, ''), at: at('moment-text'),
            entry: at('entry'), lamp: at('lamp'), granted: at('granted'), arrows: arrows(), messages: messages(),
            boards: [...document.querySelectorAll('#boards tbody tr')].map((row) => ({
                status: text(row.querySelector('.status span:last-child')),
                ...Object.fromEntries(['told', 'ago', 'made', 'suspects'].map((name) => [name, cell(row, name)])),
            })),
            matrix: [...document.querySelectorAll('#matrix tbody tr')].map(marks),
            timed: [...document.querySelectorAll('#boards .timed')].map(text),
            signs: [...document.querySelectorAll('#circle .board')].map((board) => board.getAttribute('aria-label')),
        };
    };
    window.move_to = (k) => {
        const slider = document.getElementById('moment');
        slider.value = k;
        slider.dispatchEvent(new Event('input'));
        return window.said();
    };
    window.press = (id) => { document.getElementById(id).click(); return window.said(); };
    window.typed = async (dialog, field, value) => {
        document.querySelector('[data-opens="' + dialog + '-dialog"]').click();
        fill(field, value);
        const answer = await submit(dialog);
        document.getElementById(dialog + '-dialog').close();
        return answer;
    };
    window.kept = [];
    URL.createObjectURL = (blob) => { window.kept.push(blob); return '#'; };
    HTMLAnchorElement.prototype.click = () => {};
    true`;

function compare(found, expected, what) {
    const { timed, signs, ...rest } = found;
    // of the entry's words the page says more: what is another in the table
    check(rest.entry.startsWith(expected.entry), `${what}: the entry "${rest.entry}" does not begin with "${expected.entry}"`);
    const { entry, ...told } = rest;
    const { entry: _, ...wanted } = expected;
    for (const key of ['rounds', 'tests', 'at', 'arrows', 'messages', 'lamp', 'granted', 'boards', 'matrix']) same(told[key], wanted[key], `${what}, ${key}`);
    same(signs, wanted.boards.map(({ status }, board) => `Board ${board}, ${status}`), `${what}, the circle`);
}

async function open(browser, to) {
    await browser.open(to);
    await browser.value(`(() => { ${reader} })() ?? true`);
}

/// Every moment of a plant, by the slider; then back by keys.
async function play(browser, n, listed, wiring = 'cube') {
    const what = `${n} boards, ${wiring}`;
    // the last entry of a sample may be refused
    const entries = listed.slice(0, simulator.run(input_of(n, listed), wiring === 'ring').taken);
    const expected = moments(simulator, n, entries, wiring === 'ring');
    await open(browser, link(n, entries, 0, wiring));
    for (const [k, moment] of expected.entries()) compare(await browser.value(`move_to(${k})`), moment, `${what}, entry ${k}`);
    // back by the key, from the last
    await browser.value('document.activeElement.blur() ?? true');
    for (let k = entries.length - 1; k >= Math.max(0, entries.length - 5); k--) {
        await browser.key('ArrowLeft');
        compare(await browser.value('said()'), expected[k], `${what}, back to entry ${k}`);
    }
    await browser.key('ArrowRight');
    compare(await browser.value('said()'), expected[Math.max(0, entries.length - 5) + 1], `${what}, on by a key`);
    if (wiring === 'cube') {
        await browser.value('move_to(0)');
        const { timed } = await all_said(browser);
        same(timed, [...simulator.sheet(n, []).values()].map(String), `${what}, slots with nobody dead`);
    }
    return expected;
}

/// What is shown once all slots are asked.
async function all_said(browser) {
    await browser.wait(`document.getElementById('main').dataset.asks === 'nothing'`);
    return browser.value('said()');
}

/// The same by the buttons: each entry as a person would give it.
async function play_by_buttons(browser, n, entries) {
    const expected = moments(simulator, n, entries, false);
    await open(browser, link(n, [], 0));
    for (const [k, entry] of entries.entries()) {
        const [letter, board] = entry.split(' ');
        await browser.value(`document.querySelector('#boards tr[data-board="${board}"] button').click() ?? true`);
        const found = await browser.value(`press('${{ T: 'turn', L: 'late', C: 'crash' }[letter]}')`);
        compare(found, { ...expected[k + 1], at: `${k + 1} of ${k + 1}` }, `by buttons, entry ${k + 1}`);
    }
}

async function slots(browser) {
    const entries = sample('eight-boards-4-out.txt').slice(1);
    await open(browser, link(8, entries, entries.length));
    const { timed } = await all_said(browser);
    const sheet = simulator.sheet(8, [4]);
    same(timed, Array.from({ length: 8 }, (_, board) => (sheet.has(board) ? String(sheet.get(board)) : '–')), 'slots with 4 dead');
    // three more dead at once: board 5 makes more tests than its slot is timed for
    const more = ['C 4', 'C 6', 'C 7', ...Array.from({ length: 7 }, () => 'T 5')];
    await open(browser, link(8, more, more.length));
    const red = await browser.value(
        `[...document.querySelectorAll('#boards .above')].map((cell) => [cell.closest('tr').dataset.board, cell.textContent])`,
    );
    same(red, [['5', '7, above']], 'tests above the slot');
}

/// Rows on the cable with names, and on the ring: 0 finds 1 dead, and then exchanges with 2. 3 hears of it
/// from 0, and sends the row that it joined that into. The reply of 3 to 2 is late.
async function sends(browser) {
    await open(browser, link(4, ['C 1', 'T 0', 'T 0', 'T 3', 'L 2'], 3, 'ring', '&name2=the%20long%20(press)'));
    const rows = [['0', '2', 'test'], ['2', '0', 'reply', 'nobody', '00'], ['0', '2', 'exchange', '1', '02']];
    same((await browser.value('said()')).messages, rows, 'messages on the ring');
    const text = await browser.value(`document.querySelector('#messages li').textContent`);
    same(text, '0 to 2 (the long (press)): test', 'a message with a name');
    const joined = [['3', '0', 'test'], ['0', '3', 'reply', '1', '02'], ['3', '0', 'exchange', '1', '02']];
    same((await browser.value('move_to(4)')).messages, joined, 'messages of an exchange that brings a joined row');
    same((await browser.value('move_to(5)')).messages, [['2', '3', 'test'], ['3', '2', 'reply, late: thrown away']], 'messages of a late turn');
    await browser.value('move_to(3)');
    same((await browser.value(`press('back')`)).messages, [['0', '1', 'test']], 'messages without a reply');
    same((await browser.value(`press('first')`)).messages, [], 'messages before the first entry');
}

/// The bounds on rounds and turns, and on one dead board while nobody is dead or suspected.
async function bounds(browser) {
    const plants = [2, 3, 4, 5, 8, 9, 16, 17, 32, 33, 64].map((n) => ['cube', n, []]);
    plants.push(['cube', 8, ['C 4']], ['cube', 11, ['C 0', 'C 10']], ['ring', 8, ['C 4']], ...[2, 3, 4, 8, 63].map((n) => ['ring', n, []]));
    plants.push(['cube', 8, ['T 0', 'T 3']], ['cube', 8, ['L 2']]);
    for (const [wiring, n, entries] of plants) {
        const is_ring = wiring === 'ring';
        const { wait: [rounds, turns] } = simulator.states(n, entries, is_ring).at(-1);
        await open(browser, link(n, entries, entries.length, wiring));
        const said = await browser.value(`document.getElementById('bound').textContent`);
        const closed = `at most ${rounds} closed ${rounds === 1 ? 'round' : 'rounds'}, ${turns.toLocaleString('en')} turns`;
        const conditions = 'from the start of a round with the lamp out, if no further board crashes, no reply is late and two boards are live';
        same(said, `${closed}, ${conditions}`, `the bound of ${n} boards, ${wiring}, ${entries}`);
        const shown = await browser.value(
            `['one-dead-term', 'one-dead'].map((id) => document.getElementById(id)).filter((it) => it.checkVisibility()).map((it) => it.textContent)`,
        );
        const bound = entries.some((entry) => !entry.startsWith('T')) ? undefined : bounds_of_one_dead(n, is_ring);
        const within = bound && `at most ${bound[0]} closed rounds, that of its crash among them, and ${bound[1]} grants from its crash`;
        const text = `${within}, if a bus master grants from the start of a round on, no further board crashes and no reply is late`;
        same(shown, bound ? ['The bound, one dead board', text] : [], `the bound of one dead board, ${n} boards, ${wiring}, ${entries}`);
    }
}

async function drives(browser) {
    for (const [n, entries] of [[8, ['C 4']], [8, ['C 4', 'T 0', 'T 1', 'C 7']], [11, ['C 4', 'C 9', 'C 0']], [8, ['T 0']]]) {
        await open(browser, link(n, entries, entries.length));
        await all_said(browser);
        const rounds = rounds_until_known(simulator, n, entries);
        const words = rounds === 1 ? 'when this round closes, if driven on' : `in ${rounds} rounds, if driven on`;
        same(await browser.value(`document.getElementById('known').textContent`), rounds === 0 ? 'none is dead' : words, `known, ${n}: ${entries}`);
    }
    await open(browser, link(8, ['C 4'], 1));
    const found = await browser.value(`press('to-round')`);
    const turns = await browser.value(`document.getElementById('moment').max`);
    check(found.rounds === '1' && Number(turns) > 8, `to the end of the round: ${found.rounds} rounds, ${turns} entries`);
    check((await browser.value(`document.getElementById('known').textContent`)).includes('now'), 'board 4 is not known to all after a driven round');
    await open(browser, link(8, ['L 4'], 1));
    const left = await browser.value(`press('to-exit')`);
    same(left.boards.filter(({ status }) => status !== 'live').length, 1, 'to the next exit');
    await browser.value(`press('first')`);
    same((await browser.value(`press('next-exit')`)).boards, left.boards, 'to the next exit, going back');
    await open(browser, link(8, ['C 4'], 1));
    same((await browser.value(`press('to-exit')`)).at, '1 of 1', 'to the next exit, where none comes');
    same(await message(browser), 'No board leaves in 64 rounds, if driven on. Nothing was changed.', 'why there is no exit');
    // what followed a moment is dropped by an entry, and brought back
    await open(browser, link(8, ['T 0', 'T 1', 'L 2', 'C 3'], 2));
    const before = await all_said(browser);
    same((await browser.value(`press('to-round')`)).rounds, '1', 'to the end of the round, in the midst');
    same(await message(browser), 'The 2 entries that followed are dropped.', 'what an entry in the midst drops');
    // looking at other entries does not lose it; nor does a click on a board
    await browser.value(`press('back')`);
    await browser.value(`document.querySelector('#boards tr[data-board="1"] button').click() ?? true`);
    const label = await browser.value(`document.getElementById('bring-back').textContent`);
    same([await message(browser), label], ['', 'Bring back 2 entries'], 'what is offered after a look at others');
    await browser.value(`press('bring-back')`);
    same(await is_offered(browser), false, 'what was brought back is offered no more');
    same(await all_said(browser), before, 'what was brought back');
    await browser.value(`press('turn')`);
    await browser.value(`press('turn')`);
    same(await is_offered(browser), false, 'what was dropped, after the next take');
}

const is_offered = (browser) => browser.value(`!document.getElementById('bring-back').hidden`);

/// Another plant in place of one with entries: the former one is brought back.
async function is_put_aside(browser) {
    const plant_line = () => browser.value(`document.getElementById('plant-line').textContent`);
    await open(browser, link(8, ['T 0', 'L 2', 'C 3'], 2, 'cube', '&name1=press'));
    const before = await all_said(browser);
    same(await browser.value(`typed('new', 'new-size', '65')`), { is_open: true, wrong: 'a plant has 2 to 64 boards.' }, 'a new plant of 65');
    await browser.value(`document.querySelector('input[name=wiring][value="2"]').click() ?? true`);
    same(await browser.value(`typed('new', 'new-size', '5')`), { is_open: false, wrong: '' }, 'a new plant of 5');
    same(await plant_line(), '5 boards, wired as the ring', 'a new plant');
    const slots_note = () => browser.value(`document.getElementById('slots-note').textContent`);
    same(await slots_note(), 'No slots: the commissioning sheet is for the cube.', 'slots on the ring');
    same(await message(browser), 'The former plant is put aside.', 'the former plant');
    await browser.value(`press('save-plant')`);
    const wrong_of_save = () => browser.value(`document.querySelector('#save-dialog .wrong').textContent`);
    same(await wrong_of_save(), 'A saved plant holds nothing of the wiring: it is for the cube.', 'a ring, saved');
    await browser.value(`press('bring-back')`);
    same(await all_said(browser), before, 'the former plant, brought back');
    same(await browser.value(`document.querySelector('#boards tr[data-board="1"] button').textContent`), '1 press', 'its names');
    // a saved plant: its entries do not begin fresh, and its slots are from the opened moment
    await drop(browser, readFileSync(`${samples}/eight-boards-4-out.saved`));
    const note = 'Slots are from the opened moment: a saved plant does not hold how its round began.';
    same(await slots_note(), note, 'slots of a saved plant');
    await browser.value(`press('save-input')`);
    check((await wrong_of_save()).startsWith('This plant began as a saved one'), 'a saved plant, as an input');
    await browser.value(`press('to-round')`);
    same(await slots_note(), '', 'slots after a closed round');
}

/// Play goes through the entries, then grants, and says so; it stops by the same button.
async function plays(browser) {
    const entries = ['T 0', 'T 1'];
    await open(browser, link(8, entries, 0));
    await browser.value(`fill('speed', '16') ?? true`);
    await browser.value(`press('play')`);
    same(await browser.value(`document.getElementById('play').textContent`), 'Pause', 'the button while it plays');
    await browser.value(`fill('speed', '60') ?? true`);
    await browser.wait(`document.getElementById('moment').max > 6`);
    same(await message(browser), 'Granting: each step adds an entry.', 'what is said while it grants');
    await browser.value(`press('play')`);
    const [text, number] = await browser.value(`[document.getElementById('play').textContent, Number(document.getElementById('moment').max)]`);
    same([text, await message(browser)], ['Play', ''], 'after a pause');
    while (entries.length < number) entries.push(`T ${simulator.states(8, entries).at(-1).granted}`);
    compare(await browser.value('said()'), moments(simulator, 8, entries, false).at(-1), 'what was played');
    // longer than ten steps took
    await pause(200);
    same(await browser.value(`Number(document.getElementById('moment').max)`), number, 'entries after a pause');
}

/// The ways to open: samples, a file, what is typed. To fill in one empties the others.
async function opens(browser) {
    await open(browser, link(2, [], 0));
    const list = await browser.value(`[...document.getElementById('open-sample').options].map(({ value }) => value).filter(Boolean)`);
    check(list.length >= 3, `samples: ${list}`);
    for (const file of list) {
        same(await browser.value(`typed('open', 'open-sample', '${file}')`), { is_open: false, wrong: '' }, `the sample ${file}`);
        const listed = sample(file).slice(1);
        const entries = listed.slice(0, simulator.run(input_of(8, listed)).taken);
        same((await browser.value('said()')).at, `0 of ${entries.length}`, `the sample ${file} as it is opened`);
        same(await browser.value(`document.querySelector('#boards tr[data-board="5"] button').textContent`), '5 press', `names of ${file}`);
        await browser.value(`typed('names', 'names-text', '')`);
        compare(await browser.value(`press('last')`), moments(simulator, 8, entries, false).at(-1), `the sample ${file}`);
    }
    const fields = () => browser.value(`['open-file', 'open-text', 'open-sample'].map((id) => document.getElementById(id).value !== '')`);
    await browser.value(`document.querySelector('[data-opens=open-dialog]').click() ?? true`);
    same(await fields(), [false, false, false], 'the ways to open when the dialog opens');
    await browser.value(`fill('open-text', '8') ?? true`);
    await browser.value(`fill('open-sample', '${list[0]}') ?? true`);
    same(await fields(), [false, false, true], 'a sample in place of what was typed');
    await browser.value(`fill('open-file', ${JSON.stringify([...Buffer.from('8\nT 4 \n')])}) ?? true`);
    same(await fields(), [true, false, false], 'a file in place of a sample');
    const words = 'Line 2: a space where the end of the line is expected.';
    same(await browser.value(`submit('open')`), { is_open: true, wrong: words }, 'a file that cannot be read');
    await browser.value(`fill('open-text', '3\\nT 0\\n') ?? true`);
    same(await fields(), [false, true, false], 'what is typed in place of a file');
    same(await browser.value(`submit('open')`), { is_open: false, wrong: '' }, 'what was typed after a file that cannot be read');
    compare(await browser.value('said()'), moments(simulator, 3, ['T 0'], false)[1], 'what was typed');
    await browser.value(`document.querySelector('[data-opens=open-dialog]').click() ?? true`);
    await browser.value(`fill('open-file', ${JSON.stringify([...readFileSync(`${samples}/eight-boards-4-out.saved`)])}) ?? true`);
    same(await browser.value(`submit('open')`), { is_open: false, wrong: '' }, 'a saved plant by the field');
    same((await browser.value('said()')).boards[4].status, 'crashed', 'a saved plant by the field');
    // a damaged one: the mender in place of this dialog; behind it the focus is where it was
    const damaged = readFileSync(`${samples}/eight-boards-4-out.saved`);
    damaged[19 + 2 * 18 + 4] = 12;
    await browser.value(`(() => {
        document.querySelector('[data-opens=open-dialog]').focus();
        document.querySelector('[data-opens=open-dialog]').click();
        fill('open-file', ${JSON.stringify([...damaged])});
        return true;
    })()`);
    same(await browser.value(`submit('open')`), { is_open: false, wrong: '' }, 'a damaged plant by the field');
    const dialogs = `[...document.querySelectorAll('dialog[open]')].map(({ id }) => id)`;
    same(await browser.value(dialogs), ['mend-dialog'], 'a damaged plant by the field');
    await browser.value(`document.querySelector('#mend-form [type=submit]').click() ?? true`);
    same(await browser.value(`document.activeElement.dataset.opens ?? 'nowhere'`), 'open-dialog', 'the focus behind the mender');
    same((await browser.value('said()')).boards[2].status, 'crashed', 'a mended plant by the field');
}

/// A link with a damaged plant: cancelled the page goes on with its own plant; mended it has the link's names, entries and moment.
async function links(browser) {
    const saved = readFileSync(`${samples}/eight-boards-4-out.saved`);
    saved[19 + 2 * 18 + 4] = 12;
    const to = `${address}#saved=${saved.toString('base64url')}&entries=T0T0&at=1&name0=press`;
    const is_open = () => browser.value(`document.getElementById('mend-dialog').open`);
    const first_name = () => browser.value(`document.querySelector('#boards tr[data-board="0"] button').textContent`);
    await open(browser, to);
    same(await is_open(), true, 'the mender for a damaged plant in a link');
    await browser.value(`document.querySelector('#mend-dialog [data-closes]').click() ?? true`);
    await browser.wait(`location.hash === ''`);
    same([await is_open(), (await browser.value(`press('grant')`)).at], [false, '1 of 1'], 'after a mender that was cancelled');
    await open(browser, to);
    await browser.value(`document.querySelector('#mend-form [type=submit]').click() ?? true`);
    same([(await browser.value('said()')).at, await first_name()], ['1 of 2', '0 press'], 'a mended plant of a link');
    // the address says what is shown, or nothing
    await open(browser, link(8, ['T 0'], 1, 'cube', '&name0=a%0Ab'));
    same(await first_name(), '0 a b', 'a name of two lines');
    await browser.value(`press('back')`);
    same(await browser.value('location.hash'), '', 'the address after a step');
    same((await browser.value('said()')).entry, 'A fresh plant: all boards are live, and nobody is suspected. 1 entry follows.', 'one entry follows');
    await browser.value(`document.getElementById('skip').dispatchEvent(new MouseEvent('click', { bubbles: true, cancelable: true }))`);
    same(await browser.value('[location.hash, document.activeElement.id]'), ['', 'grant'], 'to the buttons');
}

/// Printed it says which entry it shows, and which boards are dead by more than grey.
async function prints(browser) {
    await open(browser, link(8, ['C 4', 'T 0'], 1));
    const heading = `document.querySelectorAll('#matrix tbody th')[4].textContent`;
    same(await browser.value(heading), '✕4, crashed', 'the heading of a dead row');
    const seen = `['printed', 'grant', 'moment'].map((id) => document.getElementById(id).checkVisibility())`;
    same(await browser.value(seen), [false, true, true], 'what is seen on the screen');
    if (name !== 'Chromium') return;
    await browser.look(794, 1123, 'light', 'print');
    same(await browser.value(seen), [true, false, false], 'what is printed');
    same(await browser.value(`document.getElementById('printed').textContent`), 'Entry 1 of 2', 'the entry that is printed');
    await browser.look(1280, 900, 'light');
}

const message = (browser) => browser.value(`document.getElementById('message').textContent`);

const unreadable = [
    ['', 'an empty input where the size (one to three digits) is expected'],
    ['x\n', 'a lower case letter where the size (one to three digits) is expected'],
    ['8\nT\n', 'the end of the line where a space is expected'],
    ['8\nT 4\nX 4\n', 'the character X where T, L or C is expected'],
    ['8\nT 4\n\nT 5\n', 'an empty line where an entry (T, L or C, a space, one or two digits) is expected'],
    ['8\nT 100\n', 'a digit too many where the end of the line is expected'],
    ['8\nT 4 \n', 'a space where the end of the line is expected'],
    ['8\nT <b>\n', 'the character < where a digit is expected'],
    ['8\nT ä\n', 'the byte c3 (hexadecimal) where a digit is expected'],
    [`8\n${'T 0\n'.repeat(4097)}`, 'a 4,097th entry where the end of the input (4,096 entries at most) is expected'],
];

async function refusals(browser) {
    await open(browser, link(8, ['C 4', 'T 0'], 2));
    const before = await all_said(browser);
    for (const [input, words] of unreadable) {
        const answer = await browser.value(`typed('open', 'open-text', ${JSON.stringify(input)})`);
        const { unread } = simulator.run(input);
        same(answer, { is_open: true, wrong: `Line ${unread}: ${words}.` }, `an input that cannot be read, ${JSON.stringify(input.slice(0, 20))}`);
    }
    for (const size of ['0', '1', '65', '999']) {
        const answer = await browser.value(`typed('open', 'open-text', '${size}\\nT 0')`);
        same(answer, { is_open: true, wrong: 'Line 1: a plant has 2 to 64 boards.' }, `a plant of ${size}`);
    }
    same(await all_said(browser), before, 'what is shown after inputs that cannot be read');
    await browser.value(`document.querySelector('#boards tr[data-board="4"] button').click() ?? true`);
    for (const [id, words] of [['turn', 'this board is not live'], ['late', 'this board is not live'], ['crash', 'this board is not live']]) {
        await browser.value(`press('${id}')`);
        const said = await message(browser);
        same(said, `Refused for board 4: ${words}. Nothing was changed.`, `a refused ${id}`);
    }
    same(await all_said(browser), before, 'what is shown after refused entries');
    // an input that is refused at an entry keeps the entries before it
    await browser.value(`typed('open', 'open-text', '2\\nC 1\\nT 0\\nT 1\\nT 0\\n')`);
    const said = await message(browser);
    check(said.includes('line 4') && said.includes('not live'), `an entry that is refused: ${said}`);
    compare(await browser.value('said()'), moments(simulator, 2, ['C 1', 'T 0'], false)[2], 'the entries before a refused one');
    const begun = ['0 of 0', '0 feeder'];
    const none = [
        ['#boards=8&entries=Q5', 'The link cannot be opened. Line 2: the character Q where T, L or C is expected.', begun],
        ['#boards=999', 'The link cannot be opened. Line 1: a plant has 2 to 64 boards.', begun],
        ['#saved=!!!', 'The link cannot be opened. The saved plant in it is no base64.', begun],
        ['#saved=BAAB', 'The link cannot be opened. Refused: the file is cut off: a field or its head goes past the end.', begun],
        ['#boards=8&entries=T0&at=-5', '', ['0 of 1', '0']],
        ['#boards=8&entries=T0&at=x', '', ['1 of 1', '0']],
    ];
    for (const [hash, words, shown] of none) {
        await open(browser, address + hash);
        same(await message(browser), words, `a link that is none, ${hash}`);
        const { at, boards } = await browser.value('said()');
        const first = await browser.value(`document.querySelector('#boards tr[data-board="0"] button').textContent`);
        same([at, first, boards.length], [...shown, 8], `what is shown of a link that is none, ${hash}`);
    }
}

async function names_as_they_are(browser) {
    const markup = ['<img src=x onerror="window.hacked=1">', '&amp; & "quoted" \'so\'', '</script><script>window.hacked=1</script>'];
    const odd = [...markup, 'Äußerst öde Übung – 雪', 'x'.repeat(200), '${1}', 'javascript:alert(1)', '\\u003cb>'];
    const in_full = odd.map((name_of_board, board) => `${board} ${name_of_board}`);
    await open(browser, link(8, ['L 4'], 1));
    const text = in_full.join('\n');
    same(await browser.value(`typed('names', 'names-text', ${JSON.stringify(text)})`), { is_open: false, wrong: '' }, 'odd names');
    const shown = () => browser.value(`[...document.querySelectorAll('#boards .name-button')].map((button) => button.textContent)`);
    same(await shown(), in_full, 'odd names in the table');
    const on_circle = await browser.value(`[...document.querySelectorAll('#circle .board title')].map((title) => title.textContent)`);
    same(on_circle, in_full, 'odd names on the circle');
    check((await browser.value(`document.querySelectorAll('img, #boards script, #boards b').length`)) === 0, 'a name became an element');
    check((await browser.value(`document.documentElement.scrollWidth <= innerWidth`)) === true, 'long names widen the page');
    // in a link, and opened again
    await browser.value(`press('link')`);
    await browser.wait(`location.hash.includes('entries=')`);
    const there = await browser.value('location.href');
    await open(browser, there);
    same(await shown(), in_full, 'odd names by a link');
    check((await browser.value('window.hacked === undefined')) === true, 'a name was run');
    same((await browser.value(`typed('names', 'names-text', '9 press')`)).is_open, true, 'the name of no board');
}

/// Drops a file on the page.
const drop = (browser, bytes) =>
    browser.value(`(async () => {
        const held = new DataTransfer();
        held.items.add(new File([Uint8Array.from(${JSON.stringify([...bytes])})], 'dropped'));
        window.dispatchEvent(new DragEvent('drop', { dataTransfer: held, bubbles: true, cancelable: true }));
        await until(() => document.getElementById('main').getAttribute('aria-busy') !== 'true');
        return document.getElementById('message').textContent;
    })()`);
const unknown_tag = 'a field is out of order or has an unknown tag';
const odd_names = 'These names are no UTF-8: they were read as Windows-1252.';
const wiring_note = (wiring) => `An input does not say its wiring: it was opened as the ${wiring}, like the plant before it.`;
const kept = (browser) => browser.value(`(async () => [...new Uint8Array(await window.kept.at(-1).arrayBuffer())])()`);

async function files(browser) {
    const input = readFileSync(`${samples}/eight-boards-4-out.txt`);
    const entries = sample('eight-boards-4-out.txt').slice(1);
    const expected = moments(simulator, 8, entries, false).at(-1);
    await open(browser, link(2, [], 0));
    same(await drop(browser, input), wiring_note('cube'), 'a dropped input');
    compare(await browser.value('said()'), expected, 'a dropped input');
    await browser.value(`press('save-plant')`);
    const saved = readFileSync(`${samples}/eight-boards-4-out.saved`);
    same(await kept(browser), [...saved], 'the plant, saved');
    await browser.value(`press('save-input')`);
    same(Buffer.from(await kept(browser)).toString(), input.toString(), 'the input, saved');
    await open(browser, link(2, [], 0));
    same(await drop(browser, saved), '', 'a dropped saved plant');
    // No board was granted yet: the first that is live and has not finished its pass is.
    const opened = { ...expected, at: '0 of 0', entry: 'The saved plant as it was opened.', messages: [], granted: '0' };
    compare(await browser.value('said()'), opened, 'a dropped saved plant');
    // names from a file, beside what is shown
    same(await drop(browser, readFileSync(`${samples}/eight-boards-names.txt`)), '', 'dropped names');
    const press = await browser.value(`document.querySelector('#boards tr[data-board="5"] button').textContent`);
    same(press, '5 press', 'dropped names');
    same(await browser.value(`typed('names', 'names-text', '')`), { is_open: false, wrong: '' }, 'no names');
    const from_file = await browser.value(`(async () => {
        document.querySelector('[data-opens=names-dialog]').click();
        fill('names-file', new TextEncoder().encode('1 fan\\n'));
        await until(() => document.getElementById('names-text').value !== '');
        await submit('names');
        return document.querySelector('#boards tr[data-board="1"] button').textContent;
    })()`);
    same(from_file, '1 fan', 'names from a file');
    for (const [bytes, words] of [
        ['new Uint8Array(4194305)', 'It is longer than any input, plant or names.'],
        ['[49, 32, 0xd6, 108]', 'No UTF-8: it was read as Windows-1252.'],
    ]) {
        const said = await browser.value(`(async () => {
            document.querySelector('[data-opens=names-dialog]').click();
            const wrong = document.querySelector('#names-dialog .wrong');
            fill('names-file', ${bytes});
            await until(() => wrong.textContent !== '');
            document.getElementById('names-dialog').close();
            return wrong.textContent;
        })()`);
        same(said, words, 'names from a file');
    }
    same(await browser.value(`typed('names', 'names-text', '')`), { is_open: false, wrong: '' }, 'no names');
    // its link, with an entry behind it
    await browser.value(`press('turn')`);
    const before = await all_said(browser);
    await browser.value(`press('link')`);
    await browser.wait(`location.hash.includes('saved=')`);
    const there = await browser.value('location.href');
    await open(browser, there);
    same(await all_said(browser), before, 'a saved plant and an entry, by a link');
    const former = readFileSync(`${samples}/eight-boards-4-out-edition-1.saved`);
    same(await drop(browser, former), 'This was a file of edition 1: it was converted. The former plant is put aside.', 'edition 1');
    check((await drop(browser, saved.subarray(0, 100))).includes('the file is cut off'), 'a file that is cut off');
    const odd = Buffer.from(former);
    odd[0] = 9;
    same(await drop(browser, odd), `dropped cannot be opened. Refused as a file of edition 1: ${unknown_tag}.`, 'a damaged file of edition 1');
    // what is none of these
    const one_line = 'dropped cannot be opened. Line 1: a space where the end of the line is expected.';
    same(await drop(browser, Buffer.from('8 T 4\n')), one_line, 'an input on one line');
    same(await drop(browser, Buffer.from('0 feeder\n1 Tr\u00f6ckner\n', 'latin1')), odd_names, 'names in another encoding');
    same(await browser.value(`document.querySelector('#boards tr[data-board="1"] button').textContent`), '1 Tröckner', 'names in another encoding');
    check((await drop(browser, Buffer.from('0 feeder\nfan\n2 press\n'))).includes('Names, line 2'), 'names of which a line is none');
    await browser.value(`(() => {
        window.reads = Blob.prototype.arrayBuffer;
        Blob.prototype.arrayBuffer = () => Promise.reject(new Error('none'));
        return true;
    })()`);
    check((await drop(browser, input)).includes('It cannot be read: it may be a folder'), 'a folder');
    await browser.value(`(Blob.prototype.arrayBuffer = window.reads) && true`);
    // in a dialog a file is the field's, and nobody's beside it
    const is_taken = await browser.value(`(() => {
        document.querySelector('[data-opens=open-dialog]').click();
        const taken = ['open-file', 'open-heading'].map((id) => {
            const dropped = new DragEvent('drop', { dataTransfer: new DataTransfer(), bubbles: true, cancelable: true });
            document.getElementById(id).dispatchEvent(dropped);
            return dropped.defaultPrevented;
        });
        return taken;
    })()`);
    same(is_taken, [false, true], 'what the page takes of a drop in a dialog');
    const shown_behind = await all_said(browser);
    await drop(browser, Buffer.from('3\n'));
    same(await all_said(browser), shown_behind, 'behind a dialog');
    await browser.value(`document.getElementById('open-dialog').close() ?? true`);
    // a ring input on the page of a ring
    await open(browser, link(4, [], 0, 'ring'));
    const ring = sample('four-boards.txt').slice(1);
    same(await drop(browser, Buffer.from(input_of(4, ring))), wiring_note('ring'), 'a dropped input of a ring');
    compare(await browser.value('said()'), moments(simulator, 4, ring, true).at(-1), 'a dropped input of a ring');
    await open(browser, link(8, [], 0));
    // damaged: the mender's report, then the mended plant
    const damaged = Buffer.from(saved);
    const at = (board, byte) => 19 + board * 18 + 4 + byte;
    damaged[at(2, 0)] = 12;
    damaged[at(5, 1)] = 0;
    damaged[at(7, 6 + 6)] = 64;
    await drop(browser, damaged);
    const report = await browser.value(`[...document.querySelectorAll('#mend-changes li')].map((item) => item.textContent)`);
    const changes = ['board 2, status: 12 became 1', 'board 5, next distance: 0 became 1', 'board 7, about board 6: 64 became 0'];
    same(report, changes, "the mender's report");
    await browser.value(`document.querySelector('#mend-form [type=submit]').click() ?? true`);
    same((await browser.value('said()')).boards[2].status, 'crashed', 'the mended plant');
}

/// On the circle: the arrows choose a board and go to it; what is chosen can be given a turn.
async function by_keys(browser) {
    await open(browser, link(8, ['T 0'], 1));
    await browser.value(`document.querySelector('#circle [tabindex="0"]').focus() ?? true`);
    for (const [key, board] of [['ArrowDown', 1], ['ArrowDown', 2], ['ArrowUp', 1], ['ArrowUp', 0], ['ArrowUp', 7]]) {
        await browser.key(key);
        const chosen = await browser.value(`[document.activeElement.dataset.board, document.getElementById('board-heading').textContent]`);
        same(chosen, [String(board), `Board ${board}`], `${key} on the circle`);
    }
    same(await browser.value(`document.querySelectorAll('#circle [tabindex="0"]').length`), 1, 'boards of the circle that a tab comes to');
}

async function is_usable(browser) {
    for (const [n, entries] of [[8, ['L 4', 'T 4']], [64, ['C 3', 'T 0']], [2, []]]) {
        await browser.look(360, 780, 'light');
        await open(browser, link(n, entries, entries.length));
        const widths = await browser.value('[innerWidth, document.documentElement.scrollWidth > innerWidth]');
        same(widths, [360, false], `the width of ${n} boards at 360 pixels`);
    }
    await browser.look(1280, 900, 'light');
    // few names of many boards, and an arrow between boards that are near to each other
    for (const [n, further] of [[2, ''], [12, '&name5=press'], [16, '&name5=press'], [64, '&name63=press'], [64, '']]) {
        await open(browser, link(n, ['L 1', 'T 0'], 1, 'cube', further));
        check(!(await browser.value(`/NaN|undefined/.test(document.getElementById('circle').outerHTML)`)), `no place on the circle: ${n}${further}`);
    }
}

/// What audit.mjs finds: of plants, of each dialog, and of a message; where the browser can, dark too.
async function is_accessible(browser) {
    const plants = [[8, ['L 4', 'T 4'], 1], [8, sample('eight-boards-4-out.txt').slice(1), 18], [64, ['C 3', 'T 2', 'L 7', 'T 7'], 4], [2, [], 0]];
    for (const scheme of name === 'Chromium' ? ['light', 'dark'] : ['light']) {
        for (const width of [1280, 360]) {
            await browser.look(width, 900, scheme);
            for (const [n, entries, at] of plants) {
                await open(browser, link(n, entries, at, 'cube', '&name1=dryer'));
                await browser.value(`press('turn')`);
                same(await browser.value(`(${audit})()`), [], `${n} boards, ${width} pixels, ${scheme}`);
            }
            for (const dialog of ['new', 'open', 'save', 'names']) {
                await browser.value(`document.querySelector('[data-opens=${dialog}-dialog]').click() ?? true`);
                await browser.value(`document.querySelector('#${dialog}-dialog .wrong').textContent = 'wrong'`);
                same(await browser.value(`(${audit})()`), [], `the dialog ${dialog}, ${width} pixels, ${scheme}`);
                await browser.value(`document.getElementById('${dialog}-dialog').close() ?? true`);
            }
        }
    }
    await browser.look(1280, 900, 'light');
}

/// Without a mouse: a tab comes to each control, where it is seen; keys press them, and leave a dialog. Without a window Firefox presses none.
async function by_tabs(browser) {
    await open(browser, link(8, ['L 4', 'T 4'], 1));
    const presses = await browser.value('document.hasFocus()');
    check(presses || name === 'Firefox', 'the page has not the focus');
    const wanted = await browser.value(`[...document.querySelectorAll('button, input, select, textarea, a, [tabindex="0"]')]
        .filter((element) => element.tabIndex >= 0 && element.checkVisibility() && !element.closest('#notice'))
        .map((element) => element.id || element.dataset.opens || element.dataset.board || element.className || element.textContent)`);
    const reached = [];
    for (let k = 0; k < 2 * wanted.length; k++) {
        await browser.key('Tab');
        const at = await browser.value(`(${focused})()`);
        if (!at) break;
        check(at.is_seen, `the focus is not seen at ${at.what}`);
        check(at.is_inside, `the focus is outside of the window at ${at.what}`);
        reached.push(at.what);
        if (at.what === 'grant' && presses) {
            await browser.key('Enter');
            same((await browser.value('said()')).at, '2 of 2', 'a grant by the key');
        }
    }
    same(reached, wanted, 'what a tab comes to, in order');
    if (!presses) return;
    // a dialog
    await browser.value(`document.querySelector('[data-opens=new-dialog]').focus() ?? true`);
    await browser.key('Enter');
    const inside = await browser.value(`document.activeElement.closest('dialog')?.id ?? ''`);
    same(inside, 'new-dialog', 'the focus when a dialog opens');
    await browser.key('Escape');
    const outside = await browser.value(`[document.getElementById('new-dialog').open, document.activeElement.dataset.opens]`);
    same(outside, [false, 'new-dialog'], 'the focus when a dialog closes');
    // back to the start by a button, which keeps the focus, and on by a key
    await browser.value(`document.getElementById('first').focus() ?? true`);
    await browser.key('Enter');
    await browser.key('ArrowRight');
    same((await browser.value('said()')).at, '1 of 2', 'on by a key from the button that does nothing now');
}

/// 64 boards and 4,096 entries, of which a crash begins each of the first rounds.
async function full_plant(browser) {
    await open(browser, link(64, [], 0));
    await browser.value(`(() => {
        for (let round = 0; Number(document.getElementById('moment').max) < 4096 && round < 60; round++) {
            if (round < 20) {
                document.querySelector('#boards tr[data-board="' + ((round * 23) % 64) + '"] button').click();
                document.getElementById('crash').click();
            }
            document.getElementById('to-round').click();
        }
        return true;
    })()`);
    const text = await browser.value(`(() => { document.getElementById('link').click(); return location.hash; })()`);
    const entries = [...new URLSearchParams(text.slice(1)).get('entries').matchAll(/([TLC])(\d+)/g)].map(([, letter, board]) => `${letter} ${board}`);
    same(entries.length, 4096, 'entries of a full plant');
    same(simulator.run(input_of(64, entries)).refused, 0, 'the entries of a full plant');
    return entries;
}

/// Of milliseconds, sorted: that in the middle, that of which nine tenths are no longer, and the longest.
const of_times = (times) => {
    if (times.length === 0) return { median: 0, most: 0, longest: 0 };
    const sorted = [...times].sort((a, b) => a - b);
    return { median: sorted[sorted.length >> 1], most: sorted[Math.floor(sorted.length * 0.9)], longest: sorted.at(-1) };
};
const in_words = ({ median, most, longest }) => `${median.toFixed(1)} ms (nine tenths below ${most.toFixed(1)}, the longest ${longest.toFixed(1)})`;

async function times(browser) {
    const entries = await full_plant(browser);
    // anew, so that no slot was asked before
    await open(browser, link(64, [], 0));
    const measured = await browser.value(`(async () => {
        const press = (id) => {
            const began = performance.now();
            document.getElementById(id).click();
            document.body.offsetHeight;
            return performance.now() - began;
        };
        const opened = [];
        for (let k = 0; k < 3; k++) {
            const began = performance.now();
            document.querySelector('[data-opens=open-dialog]').click();
            document.getElementById('open-text').value = ${JSON.stringify(input_of(64, entries))};
            document.querySelector('#open-form [type=submit]').click();
            while (document.getElementById('open-dialog').open) await new Promise((resolve) => setTimeout(resolve, 1));
            document.body.offsetHeight;
            opened.push(performance.now() - began);
        }
        // the longest that anything else had to wait, while the slots were asked
        const channel = new MessageChannel();
        let last = performance.now();
        let waits = [];
        channel.port1.onmessage = () => {
            const now = performance.now();
            waits.push(now - last);
            last = now;
            channel.port2.postMessage(0);
        };
        const calm = async () => {
            while (document.getElementById('main').dataset.asks === 'more') await new Promise((resolve) => setTimeout(resolve, 5));
        };
        press('first');
        await calm();
        channel.port2.postMessage(0);
        const starts = [];
        const asked = [];
        for (let round = 0; round < 20; round++) {
            // where the round begins; then the crash; then the first turn, after which not all know the dead
            for (const id of ['next-round', 'forward', 'forward']) {
                starts.push(press(id));
                last = performance.now();
                waits = [0];
                const asks = document.getElementById('main').dataset.asks === 'more';
                await calm();
                if (asks) asked.push(Math.max(...waits));
            }
        }
        channel.port1.close();
        press('last');
        await calm();
        window.press_timed = press;
        return { starts, asked, opened };
    })()`);
    const before = await browser.worked?.();
    const each = await browser.value(`Array.from({ length: 100 }, () => press_timed('back'))`);
    const worked = ((await browser.worked?.()) - before) / 100;
    const [steps, starts, asked] = [each, measured.starts, measured.asked].map(of_times);
    const opened = Math.min(...measured.opened);
    console.log(`${name}: 64 boards, 4,096 entries: a step ${in_words(steps)}, opened in ${Math.round(opened)} ms`);
    console.log(`${name}: the same where a round begins and a board crashes: a step ${in_words(starts)}; what it asks after it ${in_words(asked)}`);
    if (before !== undefined) {
        console.log(`${name}: of processor time a step takes ${worked.toFixed(1)} ms, with all that is drawn after it`);
        check(worked < 16, `a step of 64 boards takes ${worked} ms of processor time`);
    }
    // What is twenty times too slow is wrong on any machine, whatever else it does.
    for (const { median } of [steps, starts, asked]) check(median < 320, `of the steps of 64 boards half take ${median} ms or more`);
    check(opened < 20000, `4,096 entries of 64 boards open in ${opened} ms`);
    // The clock says how fast the page is only where the machine does nothing else.
    if (option !== '--times') return;
    for (const { most } of [steps, starts, asked]) check(most < 16, `of the steps of 64 boards a tenth takes ${most} ms or more`);
    check(opened < 1000, `4,096 entries of 64 boards open in ${opened} ms`);
}

async function take_pictures(browser) {
    const list = readFileSync(`${samples}/eight-boards-names.txt`, 'utf8').trimEnd().split('\n');
    const named = list.map((line) => line.replace(/^(\d+) (.*)$/, (_, board, text) => `&name${board}=${encodeURIComponent(text)}`)).join('');
    const out = sample('eight-boards-4-out.txt').slice(1);
    const shots = [['page-board-4-out', link(8, out, 18, 'cube', named)]];
    for (const at of [1, 2, 4]) shots.push([`page-press-${at}`, link(8, sample('late-press.txt').slice(1), at, 'cube', named)]);
    await browser.look(1280, 875, 'light');
    for (const [file, to] of shots) {
        await browser.open(to);
        writeFileSync(`${pictures}/${file}.png`, await browser.picture());
    }
}

/// What these tests look at can be found wrong: an expectation that was altered is, and so is a line on the console.
async function finds(browser) {
    await open(browser, link(2, ['T 0'], 1));
    const [found, right] = [await browser.value('said()'), moments(simulator, 2, ['T 0'], false)[1]];
    const [before, before_compared] = [wrong.length, compared];
    compare(found, { ...right, matrix: ['●●', '  '] }, 'altered');
    compare(found, { ...right, entry: 'Board 1' }, 'altered');
    compare(found, { ...right, messages: [['0', '1', 'test'], ['1', '0', 'reply', 'nobody', '01'], right.messages[2]] }, 'altered');
    compare(found, { ...right, boards: [{ ...right.boards[0], made: '9' }, right.boards[1]] }, 'altered');
    const is_found = wrong.length === before + 4;
    [wrong.length, compared] = [before, before_compared];
    check(is_found, 'an altered expectation is not found');
    await browser.value(`console.error('seen') ?? true`);
    for (let k = 0; k < 100 && browser.console.length === 0; k++) await pause(20);
    check(browser.console.some((line) => line.includes('seen')), 'a line on the console is not seen');
    browser.console.length = 0;
    // nothing but the page's own script may run
    await browser.value(`(() => {
        const added = document.createElement('script');
        added.textContent = 'window.hacked = 1';
        document.body.append(added);
        return true;
    })()`);
    check((await browser.value('window.hacked === undefined')) === true, 'a script that was put in is run');
    await pause(300);
    browser.console.length = 0;
}

const browser = await { Chromium, Firefox }[name].start();
try {
    await browser.look(1280, 900, 'light');
    await finds(browser);
    await play(browser, 2, sample('two-boards.txt').slice(1));
    await play(browser, 8, sample('late-reply.txt').slice(1));
    await play(browser, 8, sample('late-press.txt').slice(1));
    // a tester that its tested board tells, and one that tests a dead board when its reply would be late
    await play(browser, 8, ['L 1', 'T 0', 'C 5', 'L 4', 'T 1']);
    await play(browser, 11, simulator.entries(11, 220, 5));
    await play(browser, 64, simulator.entries(64, 90, 7));
    await play(browser, 4, sample('four-boards.txt').slice(1), 'ring');
    await play(browser, 11, simulator.entries(11, 100, 3, true), 'ring');
    await play_by_buttons(browser, 8, sample('eight-boards-4-out.txt').slice(1));
    const of_plants = [slots, sends, bounds, drives, is_put_aside, plays, opens, links, prints, refusals, names_as_they_are, files];
    const tests = [...of_plants, by_keys, by_tabs, is_usable, is_accessible, times];
    for (const test of tests) await test(browser);
    if (option === '--pictures' && name === 'Chromium') await take_pictures(browser);
    same(browser.console, [], 'the console');
} catch (error) {
    wrong.push(error.stack);
} finally {
    await browser.end();
}
for (const text of wrong.slice(0, 20)) console.error(`${name}: ${text.slice(0, 1500)}`);
console.log(`${name}: ${compared} comparisons, ${wrong.length} wrong`);
process.exitCode = wrong.length === 0 ? 0 : 1;
