// The table of boards and the matrix of suspicions. Rows and cells are made once for a plant; a step changes what is another.
import { MOST_ROUNDS_AGO, NOT_RECORDED, NO_STATION, is_live, rounds_ago, row_of, status_of, suspects, tests_of, told_by } from './library.mjs';
import { SIGNS, status_class } from './circle.mjs';
import { make, set_attribute, set_class, set_text } from './elements.mjs';
import { NOT_ASKED } from './plant.mjs';
import { called } from './names.mjs';

export function told_text(state, board, names) {
    const by = told_by(state, board);
    if (by === NO_STATION) return '';
    return by === NOT_RECORDED ? 'not recorded' : called(names, by);
}

export function ago_text(state, board) {
    if (is_live(state, board)) return '';
    const ago = rounds_ago(state, board);
    if (ago === 0) return 'in this round';
    if (ago === MOST_ROUNDS_AGO) return '255 rounds ago or more';
    return ago === 1 ? '1 round ago' : `${ago} rounds ago`;
}

export const suspected_by = (state, board) => Array.from(row_of(state, board).keys()).filter((other) => suspects(state, board, other));

export class Boards {
    constructor(table, select) {
        this.body = table.tBodies[0];
        this.select = select;
    }

    lay_out(plant, names) {
        this.rows = Array.from({ length: plant.n }, (_, board) => {
            const button = make('button', { type: 'button', className: 'name-button', textContent: called(names, board) });
            button.addEventListener('click', () => this.select(board, false));
            const sign = make('span', { className: 'sign', ariaHidden: 'true' });
            const status = make('span');
            const cells = ['told', 'ago', 'made', 'timed', 'suspects'].map((className) => make('td', { className }));
            const row = make('tr', {}, make('th', { scope: 'row' }, button), make('td', { className: 'status' }, sign, status), ...cells);
            row.dataset.board = board;
            return { row, sign, status, button, cells };
        });
        this.body.replaceChildren(...this.rows.map(({ row }) => row));
    }

    show(plant, names, selected, timed) {
        const { state, library } = plant;
        this.rows.forEach(({ row, sign, status, button, cells }, board) => {
            const now = status_of(state, board);
            const most = is_live(state, board) ? timed[board] : undefined;
            const made = tests_of(state, board);
            const is_above = Number.isInteger(most) && made > most;
            set_class(row, `${status_class(now)}${board === selected ? ' selected' : ''}`);
            set_attribute(button, 'aria-pressed', board === selected);
            set_text(sign, SIGNS[now] || '●');
            set_text(status, library.words.status(now));
            const texts = [told_text(state, board, names), ago_text(state, board), is_above ? `${made}, above` : String(made)];
            texts.push(most === undefined ? '–' : most === NOT_ASKED ? '…' : String(most), suspected_by(state, board).join(' '));
            texts.forEach((text, k) => set_text(cells[k], text));
            set_class(cells[2], is_above ? 'made above' : 'made');
        });
    }
}

export class Matrix {
    constructor(table) {
        this.table = table;
    }

    lay_out(plant, names) {
        const { n } = plant;
        const boards = Array.from({ length: n }, (_, board) => board);
        set_class(this.table, n <= 8 ? 'largest' : n <= 16 ? 'large' : n <= 32 ? 'middle' : 'small');
        const caption = make('caption', { className: 'unseen', textContent: 'Line: the board that suspects. Column: the one that is suspected.' });
        const head = make('tr', {}, make('td'), ...boards.map((board) => make('th', { scope: 'col', textContent: String(board) })));
        this.rows = boards.map((board) => {
            const cells = boards.map((other) => make('td', { className: board === other ? 'own' : '' }));
            const sign = make('span', { className: 'sign', ariaHidden: 'true' });
            const status = make('span', { className: 'unseen' });
            const heading = make('th', { scope: 'row', title: called(names, board) }, sign, String(board), status);
            return { row: make('tr', {}, heading, ...cells), cells, sign, status };
        });
        this.table.replaceChildren(caption, make('thead', {}, head), make('tbody', {}, ...this.rows.map(({ row }) => row)));
        this.table.style.setProperty('--boards', n);
        this.shown = new Uint8Array(n * n);
    }

    show(plant) {
        const { n, state, library } = plant;
        const live = Array.from({ length: n }, (_, board) => is_live(state, board));
        this.rows.forEach(({ row, cells, sign, status }, board) => {
            const now = status_of(state, board);
            set_class(row, live[board] ? '' : 'out');
            set_text(sign, SIGNS[now]);
            set_text(status, live[board] ? '' : `, ${library.words.status(now)}`);
            const suspicions = row_of(state, board);
            for (let other = 0; other < n; other++) {
                const mark = suspicions[other] === 0 ? 0 : live[board] && live[other] ? 2 : 1;
                if (this.shown[board * n + other] === mark) continue;
                this.shown[board * n + other] = mark;
                cells[other].textContent = ['', '●', '▲'][mark];
                cells[other].className = ['', 'dead', 'doubt'][mark];
                if (mark === 0) cells[other].removeAttribute('aria-label');
                else cells[other].setAttribute('aria-label', mark === 1 ? 'suspects' : 'suspects, and both are live');
            }
        });
    }
}
