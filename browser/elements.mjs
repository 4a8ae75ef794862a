// Elements, made and filled. Text goes in as text, never as markup.

export const by_id = (id) => document.getElementById(id);

export function make(name, properties = {}, ...children) {
    const element = document.createElement(name);
    Object.assign(element, properties);
    element.append(...children);
    return element;
}

export function draw(name, attributes = {}, ...children) {
    const element = document.createElementNS('http://www.w3.org/2000/svg', name);
    for (const [key, value] of Object.entries(attributes)) element.setAttribute(key, value);
    element.append(...children);
    return element;
}

/// Sets a text only where it is another: a live region is not read out again, and a step costs little.
export function set_text(element, text) {
    if (element.textContent !== text) element.textContent = text;
}

export function set_attribute(element, name, value) {
    if (element.getAttribute(name) !== String(value)) element.setAttribute(name, value);
}

export const set_class = (element, name) => set_attribute(element, 'class', name);
