// Elements. Whatever a text holds, it becomes a text node: there is no way here to make markup of it.

import {MOST_WORD} from "./state.mjs";
import {valueIn} from "./tables.mjs";
import {say, WORDS} from "./words.mjs";

const SVG_FREE = /^(?:on|style$|src|href$|srcdoc$)/i; // attributes that could run or load something

function setAttribute(element, name, value) {
    if (value === null || value === undefined || value === false) {
        return;
    }
    if (name.startsWith("on") && typeof value === "function") {
        element.addEventListener(name.slice(2), value);
        return;
    }
    if (SVG_FREE.test(name)) {
        throw new RangeError(`not an attribute for a text: ${name}`);
    }
    element.setAttribute(name, value === true ? "" : String(value));
}

// An element with attributes, listeners ({onclick}) and children: elements, texts, lists of them, or nothing.
export function make(name, attributes = {}, ...children) {
    const element = document.createElement(name);
    for (const [attribute, value] of Object.entries(attributes)) {
        setAttribute(element, attribute, value);
    }
    element.append(...children.flat(Infinity)
                       .filter((child) => child !== null && child !== undefined && child !== false)
                       .map((child) => (child instanceof Node ? child : document.createTextNode(String(child)))));
    return element;
}

/**
 * Elements with a type of their own, by their ids.
 * @typedef {Record<"text" | "domain" | "classes" | "report-text", HTMLInputElement> &
 *     Record<"form" | "kind" | "chosen", HTMLSelectElement> & Record<"lines-stop" | "lines-save", HTMLButtonElement> &
 *     {"lines-bar": HTMLProgressElement, "more-options": HTMLDetailsElement}} Elements
 */

/** @type {<Id extends string>(id: Id) => Id extends keyof Elements ? Elements[Id] : HTMLElement} */
export const byId = (id) => /** @type {any} */ (document.getElementById(id));

// Whether a place takes what is typed or pasted itself, so that keys such as Ctrl+Z mean its text.
export const isTyped = (target) => Boolean(target.closest?.("textarea, input[type='text']"));

export function show(element, ...children) {
    element.replaceChildren(...children.flat(Infinity).filter(Boolean));
    element.hidden = element.childNodes.length === 0;
}

// A control with its label.
export function labelled(text, control, hint) {
    const id = control.id;
    return make("div", {class: "field"}, make("label", { for: id
    }, text), control, hint ? make("small", {class: "hint", id: `${id}-hint`}, hint) : null);
}

// OPTIONS is an object of texts by their values, or a list of both.
export function select(id, options, value, onchange, attributes = {}) {
    const list = make("select", {id, ...attributes, onchange: (event) => onchange(event.target.value)},
        (Array.isArray(options) ? options : Object.entries(options)).map(([key,
            text]) => make("option", {value: key}, text)));
    list.value = value;
    return list;
}

// What is said of a text that a field doesn't take.
export const tooLong = (text, most) => (text.length > most ? say(WORDS.tooLong, {count: text.length, most}) : "");

// A field of one line. A text that is too long for it is not taken.
export function input(id, value, oninput,
    /** @type {{most?: number, [attribute: string]: unknown}} */ {most = MOST_WORD, ...attributes} = {}) {
    const note = `${id}-long`;
    const type = () => {
        const said = tooLong(field.value, most);
        byId(note)?.remove();
        if (said) {
            field.value = "";
            field.after(make("small", {id: note, class: "fault-name", role: "alert"}, said));
        }
        oninput(field.value);
    };
    const field =
        make("input", {id, type: "text", autocomplete: "off", spellcheck: "false", ...attributes, oninput: type});
    field.defaultValue = value;
    return field;
}

export function area(id, value, oninput, attributes = {}) {
    const field = make("textarea", {
        id,
        rows: 3,
        autocomplete: "off",
        autocapitalize: "off",
        spellcheck: "false",
        ...attributes,
        oninput: (event) => oninput(event.target.value)
    });
    field.value = value;
    return field;
}

export function box(id, text, checked, onchange) {
    const field = make("input", {id, type: "checkbox", onchange: (event) => onchange(event.target.checked)});
    field.checked = checked;
    return make("div", {class: "check"}, field, make("label", { for: id
    }, text));
}

export const button = (text, onclick, attributes = {}) =>
    make("button", {type: "button", ...attributes, onclick}, text);

// The headings of a table.
export const tableHead = (columns, attributes = {}) =>
    make("thead", attributes, make("tr", {}, Object.values(columns).map((text) => make("th", {scope: "col"}, text))));

// What scrolls by itself, with its name for a screen reader.
export const scrolling = (name, ...children) =>
    make("div", {class: "scroll", tabindex: "0", role: "region", ...name}, children);

const ROWS_OF_A_TURN = 20;
const AT_ONCE = 300; // rows and cells that are shown in one turn of the page

// The first rows of a long list, and a button for more, so that thousands of rows never stop the page. With LATER, a
// list of functions for later turns of the page, only a few rows are made at once. The button keeps the focus, or what
// it adds last has it.
export function someRows(body, items, makeRow, moreText, {step = 60, later = null, turn = ROWS_OF_A_TURN} = {}) {
    let shown = 0;
    const place = make("div", {class: "more"});
    const onPaper = make("span", {class: "on-paper"});
    const first = Math.min(step, items.length);
    const add = (count) => {
        const rows = items.slice(shown, shown + count).map(makeRow);
        body.append(...rows);
        shown = Math.min(items.length, shown + count);
        const left = items.length - shown;
        more.textContent = moreText(Math.min(step, left));
        onPaper.textContent = say(WORDS.summary.left, {count: left});
        if (left > 0 && shown >= first && !more.isConnected) {
            place.replaceChildren(more, onPaper);
        }
        return {rows, left};
    };
    const ask = () => {
        const hadFocus = document.activeElement === more;
        const {rows: [row], left} = add(step);
        if (left === 0) {
            place.replaceChildren();
        }
        if (left === 0 && hadFocus) {
            row.tabIndex = -1;
            row.focus();
        }
    };
    const more = button("", ask);
    add(later ? turn : step);
    for (let at = turn; later && at < first; at += turn) {
        later.push(() => add(Math.min(turn, first - at)));
    }
    return place;
}

// Waits until the page was drawn, so that what is added next is laid out in a turn of its own. A page that nobody sees
// is not drawn.
const nextFrame = () => new Promise((resolve) => {
    const timer = setTimeout(resolve, 100);
    requestAnimationFrame(() => {
        clearTimeout(timer);
        setTimeout(resolve);
    });
});

// Does something in a later turn of the page, where there are such.
export const afterwards = (later, act) => (later ? later.push(act) : act());

// Shows parts, functions that make elements, of so many rows and cells. If they are many, each part and some rows at a
// time have a turn of the page of their own, so that typing never waits for all of it; what was shown before goes at
// once. The promise ends when all is shown, or 'isOver' says that there is another answer.
export async function showParts(place, count, parts, isOver) {
    if (count <= AT_ONCE) {
        show(place, parts.map((part) => part(null)));
        return;
    }
    const later = [];
    show(place, parts[0](later));
    later.push(...parts.slice(1).map((part) => () => place.append(part(later))));
    while (later.length) {
        await nextFrame();
        if (isOver()) {
            return;
        }
        later.shift()();
    }
}

// Arrow keys move between the cells of a table, of which one at a time is in the order of the Tab key. CSS says what a
// cell is: a button, or a whole row.
export function moveByArrows(table, css) {
    const cells = () => {
        const rows = new Map();
        for (const cell of table.querySelectorAll(`tbody ${css}`)) {
            const row = cell.closest("tr");
            rows.set(row, rows.get(row) ?? []).get(row).push(cell);
        }
        return [...rows.values()];
    };
    const focus = (cell) => {
        table.querySelectorAll(`${css}:is([tabindex='0'])`).forEach((other) => other.setAttribute("tabindex", "-1"));
        cell.setAttribute("tabindex", "0");
        cell.focus();
    };
    table.addEventListener("keydown", (event) => {
        const rows = cells();
        const row = rows.findIndex((all) => all.includes(document.activeElement));
        if (row < 0 || event.altKey || event.ctrlKey || event.metaKey) {
            return;
        }
        const column = rows[row].indexOf(document.activeElement);
        const last = rows[row].length - 1;
        const isLine = last === 0; // of rows without cells, which have a first and a last one
        const target = valueIn({
            ArrowRight: rows[row][Math.min(last, column + 1)],
            ArrowLeft: rows[row][Math.max(0, column - 1)],
            ArrowDown: rows[Math.min(rows.length - 1, row + 1)][column],
            ArrowUp: rows[Math.max(0, row - 1)][column],
            Home: isLine ? rows[0][0] : rows[row][0],
            End: isLine ? rows.at(-1)[0] : rows[row][last],
        },
            event.key);
        if (target) {
            event.preventDefault();
            focus(target);
        }
    });
}
