// What a person who sees little, hears the page or uses no mouse would stumble over: it runs in the page, and gives a line for each fault.

export function audit() {
    const found = [];
    const shown = (element) => element.checkVisibility({ checkOpacity: true, checkVisibilityCSS: true });
    const all = (selector) => [...document.querySelectorAll(selector)].filter(shown);
    const say = (element) => {
        const text = element.textContent.trim().replace(/\s+/g, ' ').slice(0, 30);
        return `${element.localName}#${element.id}.${element.getAttribute('class')} "${text}"`;
    };

    // Colours: red, green, blue to 255, and how dense.
    const colour = (text) => {
        const values = text.slice(text.indexOf('(') + 1).match(/-?[\d.]+(e-?\d+)?/g).map(Number);
        const scale = text.startsWith('color(') ? 255 : 1;
        return [...values.slice(0, 3).map((value) => value * scale), values[3] ?? 1];
    };
    const over = (top, below) => [...[0, 1, 2].map((k) => top[k] * top[3] + below[k] * (1 - top[3])), 1];
    const behind = (element) => {
        if (!element) return [255, 255, 255, 1];
        const own = colour(getComputedStyle(element).backgroundColor);
        return own[3] === 1 ? own : over(own, behind(element.parentElement));
    };
    const light = (rgb) => {
        const [r, g, b] = rgb.slice(0, 3).map((part) => (part <= 10.31475 ? part / 3294.6 : ((part / 255 + 0.055) / 1.055) ** 2.4));
        return 0.2126 * r + 0.7152 * g + 0.0722 * b;
    };
    const contrast = (a, b) => (Math.max(light(a), light(b)) + 0.05) / (Math.min(light(a), light(b)) + 0.05);
    const under = (element) => {
        const form = element.matches('.number, .legend .sign') && element.parentElement.querySelector('.form');
        if (form) return colour(getComputedStyle(form).fill);
        return behind(element);
    };
    const judge = (element, ink, what, least) => {
        let opacity = 1;
        for (let at = element; at; at = at.parentElement) opacity *= Number(getComputedStyle(at).opacity);
        const ground = under(element);
        const is = contrast(over([ink[0], ink[1], ink[2], ink[3] * opacity], ground), ground);
        if (is < least) found.push(`contrast ${is.toFixed(2)}, below ${least}: ${what} of ${say(element)}`);
    };
    const has_text = (element) => [...element.childNodes].some((node) => node.nodeType === Node.TEXT_NODE && node.data.trim() !== '');
    for (const element of all('body *')) {
        if (!has_text(element) || element.closest('title, script, option') || element.closest('.unseen')) continue;
        const style = getComputedStyle(element);
        const size = parseFloat(style.fontSize);
        const is_large = size >= 24 || (size >= 18.66 && Number(style.fontWeight) >= 700);
        judge(element, colour(element instanceof SVGElement ? style.fill : style.color), 'text', is_large ? 3 : 4.5);
    }
    for (const field of all('input[type=number], textarea, select')) {
        const ink = colour(getComputedStyle(field).borderTopColor);
        const ground = behind(field.parentElement);
        if (contrast(ink, ground) < 3) found.push(`contrast ${contrast(ink, ground).toFixed(2)}, below 3: border of ${say(field)}`);
        if (field.placeholder) judge(field, colour(getComputedStyle(field, '::placeholder').color), 'placeholder', 4.5);
    }

    // Names, roles, places that are named.
    const text_of = (ids) => (ids ?? '').split(/\s+/).map((id) => document.getElementById(id)?.textContent ?? '').join(' ').trim();
    const name_of = (element) =>
        element.getAttribute('aria-label')?.trim() || text_of(element.getAttribute('aria-labelledby')) ||
        [...(element.labels ?? [])].map((label) => label.textContent).join(' ').trim();
    for (const element of all('button, input, select, textarea, a, [role=button], [role=link], [role=slider], summary')) {
        if (!name_of(element) && !element.textContent.trim()) found.push(`no name: ${say(element)}`);
    }
    for (const element of all('nav, dialog, table, section, [role=group], [role=region], ul.legend')) {
        if (!name_of(element) && !element.caption) found.push(`no name: ${say(element)}`);
    }
    for (const element of all('fieldset')) if (!element.querySelector('legend')) found.push(`no legend: ${say(element)}`);
    for (const element of all('th')) if (!element.scope) found.push(`a heading of neither row nor column: ${say(element)}`);
    for (const element of all('svg')) {
        if (element.getAttribute('aria-hidden') !== 'true' && !element.getAttribute('role')) found.push(`a drawing with no role: ${say(element)}`);
    }
    for (const element of document.querySelectorAll('[tabindex]')) if (element.tabIndex > 0) found.push(`an order of its own: ${say(element)}`);
    const fields = ':is(button, input, select, textarea, a, [tabindex="0"])';
    for (const element of all(`[aria-hidden=true] ${fields}`)) found.push(`hidden: ${say(element)}`);
    for (const element of document.querySelectorAll('[aria-labelledby], [aria-describedby], [aria-controls], label[for], output[for]')) {
        const named = ['aria-labelledby', 'aria-describedby', 'aria-controls', 'for'].map((name) => element.getAttribute(name) ?? '');
        for (const id of named.join(' ').split(/\s+/).filter(Boolean)) {
            if (!document.getElementById(id)) found.push(`no element ${id} for ${say(element)}`);
        }
    }
    const ids = [...document.querySelectorAll('[id]')].map(({ id }) => id);
    for (const [k, id] of ids.entries()) if (ids.indexOf(id) !== k) found.push(`two elements are ${id}`);
    if (document.documentElement.lang === '' || document.title === '') found.push('no language or no title');
    if (all('main').length !== 1 || all('h1').length !== 1) found.push('not one main part and one heading');
    let level = 0;
    for (const heading of all('h1, h2, h3, h4')) {
        const own = Number(heading.localName[1]);
        if (own > level + 1) found.push(`a level of headings is left out at ${say(heading)}`);
        level = own;
    }
    // Regions that are read out by themselves: the entry and the message, and why a dialog refuses.
    const read_out = [...document.querySelectorAll('[aria-live], [role=status], [role=alert], [role=log], output')];
    for (const element of read_out) {
        if (!element.matches('#entry, #message, dialog [role=alert]')) found.push(`is read out by itself: ${say(element)}`);
    }
    // Wide enough for a finger.
    for (const element of all('button, input, select, textarea, summary')) {
        const { width, height } = (element.labels?.[0] && element.matches('[type=radio]') ? element.labels[0] : element).getBoundingClientRect();
        if (width < 24 || height < 24) found.push(`${Math.round(width)} by ${Math.round(height)} pixels: ${say(element)}`);
    }
    return found;
}

/// What has the focus, whether that is seen, and whether it stands in the window. Without a window Firefox shows no focus.
export function focused() {
    const element = document.activeElement;
    if (!element || element === document.body || element === document.documentElement) return null;
    const outline = getComputedStyle(element);
    const halo = element.querySelector?.(':scope > .halo');
    const has_outline = outline.outlineStyle !== 'none' && parseFloat(outline.outlineWidth) >= 2;
    const { top, bottom, left, right } = element.getBoundingClientRect();
    return {
        what: element.id || element.dataset.opens || element.dataset.board || element.className || element.textContent,
        is_seen: !document.hasFocus() || has_outline || (halo ? parseFloat(getComputedStyle(halo).strokeWidth) >= 5 : false),
        is_inside: !document.hasFocus() || (bottom > 0 && top < innerHeight && right > 0 && left < innerWidth),
    };
}
