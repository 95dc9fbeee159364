/** Elements of the page. */
export const by = (id) => document.getElementById(id);

/** A new element with a text and attributes. */
export function made(name, text, attributes = {}) {
    const it = document.createElement(name);
    if (text !== undefined) it.textContent = text;
    for (const [key, value] of Object.entries(attributes)) it.setAttribute(key, value);
    return it;
}

/** A new button, and what it does. */
export function pressed(text, act, attributes = {}) {
    const it = made("button", text, { type: "button", ...attributes });
    it.onclick = act;
    return it;
}

/** A new element of a drawing. */
export function drawn(name, attributes) {
    const it = document.createElementNS("http://www.w3.org/2000/svg", name);
    for (const [key, value] of Object.entries(attributes)) it.setAttribute(key, value);
    return it;
}

/** Which of some radio buttons is on. */
export const picked = (name) => document.querySelector(`#${name} :checked`).value;

/** Has the radio button of a value on. */
export function pick(name, value) {
    document.querySelector(`#${name} [value="${value}"]`).checked = true;
}
