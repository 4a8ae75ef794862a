// The boards around a circle, and the entry of the moment as an arrow.
import { CRASHED, EXCHANGED, NO_REPLY, NO_STATION, STATUSES, TESTED_TOLD, TOLD, TOLD_NOW, status_of } from './library.mjs';
import { draw, set_attribute, set_class, set_text } from './elements.mjs';
import { called, mentioned, shortened } from './names.mjs';

/// Each status has a sign and a form of its own, so that colour is not needed.
export const SIGNS = ['', '✕', '!', '–'];
const STATUS_CLASSES = ['live', 'crashed', 'told', 'alone'];
export const status_class = (status) => STATUS_CLASSES[status];

function mark(status, r) {
    if (status === CRASHED) return draw('rect', { x: -r * 0.9, y: -r * 0.9, width: r * 1.8, height: r * 1.8, rx: r * 0.2, class: 'form' });
    if (status === TOLD) return draw('path', { d: `M0 ${-r * 1.2}L${r * 1.2} 0L0 ${r * 1.2}L${-r * 1.2} 0Z`, class: 'form' });
    return draw('circle', { r, class: 'form' });
}

/// Of an outcome of a test: the arrow's form, whether it goes from the tested board back to the tester, and whether it goes both ways. Who tells
/// stands at its beginning, who is told at its end.
function arrow_of(outcome) {
    if (outcome === EXCHANGED) return ['exchanged', false, true];
    if (outcome === NO_REPLY) return ['no-reply', false, false];
    return ['told', outcome === TOLD_NOW, false];
}

export function legend(list, words) {
    for (const status of STATUSES) {
        const item = document.createElement('li');
        const sign = draw('svg', { viewBox: '-14 -14 28 28', width: 22, height: 22, 'aria-hidden': 'true' });
        sign.append(draw('g', { class: `board ${STATUS_CLASSES[status]}` }, mark(status, 10), draw('text', { y: 5, class: 'sign' }, SIGNS[status])));
        item.append(sign, words.status(status));
        list.append(item);
    }
    const arrows = [EXCHANGED, NO_REPLY, TOLD_NOW, TESTED_TOLD].map((outcome) => [...arrow_of(outcome), words.outcome(outcome)]);
    for (const [name, is_back, is_both, text] of [...arrows, ['doubt', false, false, 'doubt lamp']]) {
        const item = document.createElement('li');
        const line = draw('svg', { viewBox: '0 0 44 14', width: 44, height: 14, 'aria-hidden': 'true' });
        // the tester on the left, in grey as on the circle
        if (name !== 'doubt') line.append(draw('circle', { cx: 5, cy: 7, r: 4.5, class: 'tester' }));
        const [begins, ends] = [is_back || is_both ? 20 : 14, is_back ? 43 : 36];
        line.append(draw('path', { d: `M${begins} 7H${ends}`, class: `arrow ${name}` }));
        if (!is_back) line.append(draw('path', { d: 'M35 2L43 7L35 12Z', class: `head ${name}` }));
        if (is_back || is_both) line.append(draw('path', { d: 'M21 2L13 7L21 12Z', class: `head ${name}` }));
        item.append(line, text);
        list.append(item);
    }
    const item = document.createElement('li');
    const dot = draw('svg', { viewBox: '0 0 10 14', width: 10, height: 14, 'aria-hidden': 'true' });
    dot.append(draw('circle', { cx: 5, cy: 7, r: 4.5, class: 'tester' }));
    item.append(dot, 'the board of the entry');
    list.append(item);
}

export class Circle {
    constructor(svg, select) {
        this.svg = svg;
        this.select = select;
    }

    /// Lays the boards out anew: for another plant, other names or another width.
    lay_out(plant, names, is_narrow) {
        const { n } = plant;
        const has_names = names.some(Boolean);
        const beside = n <= 12;
        const below = is_narrow && n <= 10;
        const has_labels = has_names && (!is_narrow || below);
        let [width, height, around] = [640, 640, n > 32 ? 288 : 270];
        if (has_labels && below) [width, height, around] = [450, 440, 170];
        else if (has_labels && beside) [width, height, around] = [900, 620, 235];
        else if (has_labels) {
            // as much room as the longest of the names takes
            const longest = Math.max(...Array.from(names, (name) => [...shortened(name ?? '', 14)].length));
            [width, height, around] = [800, 800, 367 - longest * turned_size(n) * 0.58];
        }
        this.around = around;
        this.middle = has_labels && below ? -12 : 0;
        this.inwards = n > 32 ? around * 0.17 : 0;
        this.places = Array.from({ length: n }, (_, board) => this.place(board, n));
        this.radius = Math.min(below || is_narrow ? 30 : 27, this.least_distance() * 0.4);
        this.svg.setAttribute('viewBox', `${-width / 2} ${-height / 2} ${width} ${height}`);
        this.arrows = draw('g', { class: 'arrows', 'aria-hidden': 'true' });
        this.boards = this.places.map((place, board) => this.board(place, board, plant, names, { has_labels, below, beside }));
        const cable = draw('path', { d: this.inwards > 0 ? this.zigzag() : round(around, this.middle), class: 'cable' });
        set_class(this.svg, this.inwards > 0 ? 'crowded' : '');
        this.svg.replaceChildren(this.markers(), cable, ...this.boards.map(({ group }) => group), this.arrows);
    }

    /// Many boards stand by turns further out and further in. Of an odd number the last stands between, beside the first.
    place(board, n) {
        const angle = (2 * Math.PI * board) / n - Math.PI / 2;
        const part = n % 2 === 1 && board === n - 1 ? 0.5 : board % 2;
        const inwards = this.inwards * part;
        const out = this.around - inwards;
        return { x: out * Math.cos(angle), y: out * Math.sin(angle) + this.middle, angle, inwards };
    }

    /// That of two boards of which at most one stands between them.
    least_distance() {
        const { places } = this;
        const to = ({ x, y }, k) => Math.hypot(places[k % places.length].x - x, places[k % places.length].y - y) || Infinity;
        return Math.min(...places.flatMap((place, board) => [to(place, board + 1), to(place, board + 2)]));
    }

    zigzag() {
        return `M${this.places.map(({ x, y }) => `${tidy(x)} ${tidy(y)}`).join('L')}Z`;
    }

    board(place, board, plant, names, { has_labels, below, beside }) {
        const r = this.radius;
        const transform = `translate(${tidy(place.x)} ${tidy(place.y)})`;
        const group = draw('g', { transform, role: 'button', tabindex: -1, 'data-board': board });
        const title = draw('title', {}, called(names, board));
        const form = draw('g');
        const number = draw('text', { class: 'number', y: r * 0.36, 'font-size': (r * (board > 9 ? 1.02 : 1.1)).toFixed(1) }, String(board));
        const sign = draw('text', { class: 'badge', x: r * 0.95, y: -r * 0.62, 'font-size': (r * 0.95).toFixed(1) });
        group.append(title, draw('circle', { r: r * 1.45, class: 'halo' }), form, number, sign);
        if (has_labels && names[board]) group.append(this.label(place, names[board], { below, beside }));
        group.addEventListener('click', () => this.select(board, true));
        return { group, form, sign, status: undefined };
    }

    label(place, name, { below, beside }) {
        const r = this.radius;
        if (below) return draw('text', { class: 'name', y: r * 1.45 + 13, 'text-anchor': 'middle', 'font-size': 15 }, shortened(name, 14));
        const [cos, sin] = [Math.cos(place.angle), Math.sin(place.angle)];
        if (beside) {
            const is_middle = Math.abs(cos) < 0.3;
            const attributes = {
                class: 'name',
                x: is_middle ? 0 : Math.sign(cos) * (r * 1.45 + 8),
                y: is_middle ? Math.sign(sin) * (r * 1.45 + 14) + 7 : 7 + sin * 8,
                'text-anchor': is_middle ? 'middle' : cos > 0 ? 'start' : 'end',
                'font-size': 21,
            };
            return draw('text', attributes, shortened(name, 16));
        }
        const turned = (place.angle * 180) / Math.PI;
        const is_left = cos < -1e-9;
        const attributes = {
            class: 'name',
            x: (is_left ? -1 : 1) * (r * 1.45 + 9 + place.inwards),
            y: 5,
            'text-anchor': is_left ? 'end' : 'start',
            transform: `rotate(${is_left ? turned + 180 : turned})`,
            'font-size': turned_size(this.places.length),
        };
        return draw('text', attributes, shortened(name, 14));
    }

    markers() {
        const defs = draw('defs');
        for (const name of ['exchanged', 'told', 'no-reply', 'doubt']) {
            const size = { viewBox: '0 0 10 10', refX: 8, refY: 5, markerWidth: 5.5, markerHeight: 5.5 };
            const marker = { id: `head-${name}`, orient: 'auto-start-reverse', ...size };
            defs.append(draw('marker', marker, draw('path', { d: 'M0 0L10 5L0 10Z', class: `head ${name}` })));
        }
        return defs;
    }

    show(plant, names, selected, lamp) {
        const { state, library } = plant;
        const entry = plant.at > 0 ? plant.entries[plant.at - 1] : undefined;
        this.boards.forEach((shown, board) => {
            const status = status_of(state, board);
            if (shown.status !== status) {
                shown.status = status;
                shown.form.replaceChildren(mark(status, this.radius));
                set_text(shown.sign, SIGNS[status]);
            }
            const is_selected = board === selected;
            const further = `${is_selected ? ' selected' : ''}${entry?.board === board ? ' acts' : ''}`;
            set_class(shown.group, `board ${STATUS_CLASSES[status]}${further}`);
            set_attribute(shown.group, 'tabindex', is_selected ? 0 : -1);
            set_attribute(shown.group, 'aria-pressed', is_selected);
            set_attribute(shown.group, 'aria-label', `Board ${mentioned(names, board)}, ${library.words.status(status)}`);
        });
        const arrows = [];
        const tested = entry?.line[1] ?? NO_STATION;
        if (lamp) {
            const is_same = tested !== NO_STATION && Math.min(lamp.by, lamp.of) === Math.min(entry.board, tested) &&
                Math.max(lamp.by, lamp.of) === Math.max(entry.board, tested);
            arrows.push(this.arrow(lamp.by, lamp.of, 'doubt', false, is_same ? 26 : 0));
        }
        if (tested !== NO_STATION) {
            const [name, is_back, is_both] = arrow_of(entry.line[2]);
            const [from, to] = is_back ? [tested, entry.board] : [entry.board, tested];
            arrows.push(this.arrow(from, to, name, is_both, 0));
        }
        this.arrows.replaceChildren(...arrows);
    }

    /// From board to board: straight, or bent to the inside by so much; between boards that are near to each other through the inside of the circle.
    arrow(from, to, name, both, aside) {
        const [a, b] = [this.places[from], this.places[to]];
        const bent = this.is_near(a, b) ? this.inside(a, b, aside) : this.beside(a, b, aside);
        const attributes = { d: this.curve(a, bent, b), class: `arrow ${name}`, 'marker-end': `url(#head-${name})` };
        if (both) attributes['marker-start'] = `url(#head-${name})`;
        return draw('path', attributes);
    }

    is_near(a, b) {
        return Math.hypot(b.x - a.x, b.y - a.y) < this.around * 0.7;
    }

    /// What a curve between a and b is drawn to: a point further inside.
    inside(a, b, aside) {
        const middle = { x: (a.x + b.x) / 2, y: (a.y + b.y) / 2 - this.middle };
        const depth = this.radius * 1.5 + Math.hypot(b.x - a.x, b.y - a.y) * 0.35 + 14 + aside + this.inwards;
        const part = 1 - depth / Math.hypot(middle.x, middle.y);
        return { x: middle.x * part, y: middle.y * part + this.middle };
    }

    /// The same: a point beside the line from a to b, on the side of the middle.
    beside(a, b, aside) {
        const length = Math.hypot(b.x - a.x, b.y - a.y);
        const [ux, uy] = [(b.x - a.x) / length, (b.y - a.y) / length];
        const [x, y] = [(a.x + b.x) / 2, (a.y + b.y) / 2];
        const bend = (ux * y - uy * x > 0 ? -2 : 2) * aside;
        return { x: x - uy * bend, y: y + ux * bend };
    }

    /// It begins and ends a little outside of the boards.
    curve(a, bent, b) {
        const gap = this.radius * (this.inwards > 0 ? 1.3 : 1.5);
        const rim = (board) => {
            const [dx, dy] = [bent.x - board.x, bent.y - board.y];
            const part = gap / Math.hypot(dx, dy);
            return `${tidy(board.x + dx * part)} ${tidy(board.y + dy * part)}`;
        };
        return `M${rim(a)}Q${tidy(bent.x)} ${tidy(bent.y)} ${rim(b)}`;
    }
}

const tidy = (number) => number.toFixed(1);
const turned_size = (n) => (n > 40 ? 15 : 17);
const round = (r, y) => `M${-r} ${y}A${r} ${r} 0 1 1 ${r} ${y}A${r} ${r} 0 1 1 ${-r} ${y}Z`;
