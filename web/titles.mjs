// The titles and values that stand around a descriptor, in a list one below the other or in a line of a table: they
// name its object, as sdtool-audit does.
import {endOfJson, endOfQuoted} from "./scanning.mjs";
import {valueIn} from "./tables.mjs";
import {TITLES} from "./windows.mjs";

const TITLED = /^\s*(?:-\s+)?(["']?)([A-Za-z][^"':=|]*)\1[ \t]{0,9}(?:=|[:|](?=\s|$))/;
const TITLE = /^[\w .()/-]{1,60}$/;
const ELEMENT = /^\s*<(?:\w+ N(?:ame)?="([^"<>]*)"[^<>]*|(\w+))>([^<>]*)</;
const BETWEEN = /^[\s[\]{},]*$|^\s*<[^<>]*>\s*$/; // objects, in JSON and XML
const ENTITIES = {
    "&lt;": "<",
    "&gt;": ">",
    "&quot;": "\"",
    "&apos;": "'",
    "&amp;": "&"
};
const DELIMITERS = [",", ";", "\t", "|"];
/** @type {Map<string, string>} */
const NO_VALUES = new Map();
// A line without one of these is no line of titles of a table.
const OF_DESCRIPTOR = new RegExp(TITLES.descriptor.map((title) => [...title].join("[ _-]*")).join("|"), "i");

const plainTitle = (title) => title.trim().replace(/[ _-]/g, "").toLowerCase();

export const isOfDescriptor = (title) => TITLES.descriptor.includes(plainTitle(title));

export const isBetween = (line) => BETWEEN.test(line);

export const isElement = (line) => ELEMENT.test(line);

// A title of a line and its value, or an empty one.
function titled(line) {
    const [, attribute, tag, inside] = (line.includes("<") && ELEMENT.exec(line)) || [];
    if (inside !== undefined) {
        return [
            plainTitle(attribute ?? tag), inside.replace(/&\w+;/g, (entity) => valueIn(ENTITIES, entity) ?? entity)
        ];
    }
    const [front = "", quote, title = ""] = TITLED.exec(line) ?? [];
    return TITLE.test(title.trim()) ? [plainTitle(title), valueOf(line.slice(front.length).trim(), quote === "\"")] :
                                      ["", ""];
}

// A value without its quotation marks. Behind a title of JSON it has escapes.
function valueOf(text, isJson) {
    const value = text.endsWith(",") ? text.slice(0, -1) : text;
    if (value === "") {
        return "";
    }
    if (isJson && value.startsWith("\"")) {
        try {
            return String(JSON.parse(value));
        } catch {
            // It goes on in the next line.
        }
    }
    return value.replace(/^["']/, "").replace(/["']$/, "");
}

/**
 * For each line that isn't blank the values of its object, by their titles. An object ends with a blank line, with
 * marks of JSON, or where one of its titles comes again. A line that is set in goes on in the value before.
 * @param {string[]} lines
 */
export function valuesAround(lines) {
    const found = [];
    let [values, last] = [new Map(), ""];
    for (const line of lines) {
        const [name, value] = titled(line);
        if (isBetween(line) || values.has(name) || /^\s*-\s/.test(line)) {
            [values, last] = [new Map(), ""];
        }
        if (name) {
            values.set(name, value);
            last = name;
        } else if (last && /^\s/.test(line)) {
            values.set(last, values.get(last) + line.trim());
        }
        if (line.trim() !== "") {
            found.push(values);
        }
    }
    return found;
}

/**
 * Whether titles are those of a share.
 * @param {Map<string, string>} [values]
 */
export const isOfShare = (values = NO_VALUES) => values.has("name") && values.has("path") &&
    TITLES.share.some((title) => values.has(title)) && !values.has("sddl") && !values.has("pspath");

/**
 * The name of an object by its values, or nothing.
 * @param {Map<string, string>} values
 */
export function nameAmong(values) {
    const titles = isOfShare(values) ? ["name", ...TITLES.name] : TITLES.name;
    return titles.map((title) => values.get(title)).find(Boolean) ?? "";
}

function cellsOf(line, delimiter) {
    const cells = [];
    for (let at = 0; at <= line.length;) {
        const isQuoted = line[at] === "\"";
        const end = isQuoted ? endOfQuoted(line, at + 1) : at;
        const next = line.indexOf(delimiter, end);
        const stop = next < 0 ? line.length : next;
        cells.push(isQuoted ? line.slice(at + 1, end).replaceAll("\"\"", "\"") : line.slice(at, stop).trim());
        at = stop + 1;
    }
    return cells;
}

/**
 * What reads the values of the lines of a table below the line of its titles; null if a line has none.
 * @param {string} line
 */
export function tableBelow(line) {
    const delimiters = DELIMITERS.filter((delimiter) => line.includes(delimiter));
    for (const delimiter of delimiters.length && OF_DESCRIPTOR.test(line) ? delimiters : []) {
        const titles = cellsOf(line, delimiter).map(plainTitle);
        if (titles.length > 1 && titles.some((title) => TITLES.descriptor.includes(title))) {
            return (row) => {
                const cells = cellsOf(row, delimiter);
                return new Map(titles.map((title, at) => [title, cells[at] ?? ""]));
            };
        }
    }
    return null;
}

function isJson(text) {
    try {
        JSON.parse(text);
        return true;
    } catch {
        return false;
    }
}

/**
 * JSON, or lines of it, with each member in a line of its own; another text as it is.
 * @param {string} text
 */
export function spread(text) {
    const isAny =
        /^\s*[[{]/.test(text) && (isJson(text) || text.split("\n").every((line) => line.trim() === "" || isJson(line)));
    if (!isAny) {
        return text;
    }
    const pieces = [];
    for (let at = 0; at < text.length;) {
        const character = text[at];
        const end = character === "\"" ? endOfJson(text, at + 1) : at + 1;
        pieces.push("{[,".includes(character) ? `${character}\n` :
                "}]".includes(character) ? `\n${character}` :
                character === ":"             ? ": " :
                "\r\n\t ".includes(character) ? "" :
                                                text.slice(at, end));
        at = end;
    }
    return pieces.join("");
}
