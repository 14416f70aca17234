// The kind of object that a pasted text tells of, where it shows: by what stands around the descriptor, or by rights
// and object types that only one kind has.
import {isDirectory, tableOf} from "./meanings.mjs";
import {isOfShare, tableBelow, valuesAround} from "./titles.mjs";
import {SYNCHRONIZE} from "./well_known.mjs";
import {DESCRIPTORS, HINTS, KINDS} from "./windows.mjs";

const SPECIFIC = 0xffff;   // the rights that each kind has its own of
const OF_ALL = 0xf30f0000; // generic and standard ones, and two that a token alone has
const INHERITS = ["OI", "CI", "ID"];

const anyOf = (names) => `(?:${names.join("|")})`;
const word = (names) => `\\b${anyOf(names)}\\b`;
const ofValue = (names) => `"${anyOf(names)}"\\s?=|\\b${anyOf(names)}(?: |\\t){1,40}REG_BINARY\\b`;

/**
 * What a text has to have by a row of the table: for some keys the name of a value too.
 * @param {{property?: string[], key?: string, value?: string[], name?: string, before?: string, text?: string}} hint
 */
function patternsOf({property, key, value, name, before, text}) {
    if (key) {
        return value ? [`\\\\${key}`, ofValue(value)] : [`\\\\${key}\\b`];
    }
    return [text ?? (name ? `${before}(?:${name})` : word(property ?? value))];
}

// The first that fits counts. Attributes with a descriptor of their own come before what tells of the object.
const ATTRIBUTES =
    Object.entries(DESCRIPTORS).filter(([, kind]) => kind).map(([name, kind]) => ({kind, property: [name]}));
export const AROUND = [...ATTRIBUTES, ...HINTS].map(
    ({kind, ...hint}) => ({kind, patterns: patternsOf(hint).map((pattern) => new RegExp(pattern, "im"))}));
const OF_A_KEY = /\([A-Z]+;[A-Z]*;(?:[A-Z]{2})*?K[ARWX](?:[A-Z]{2})*;/;
const OF_A_DIRECTORY =
    /\(O[ADU];|\([A-Z]+;[A-Z]*;\w*;[0-9a-f]{8}-[0-9a-f]{4}-|\([A-Z]+;[A-Z]*;\w*;;[0-9a-f]{8}-[0-9a-f]{4}-/i;
// What sc sdshow prints: an empty line, and then SDDL without an owner whose rights are all pairs of letters of
// services, of which LO is to interrogate one.
const OF_A_SERVICE = /^[ \t]*\r?\n\s*D:(?=[^\n]*\(A;[A-Z]*;(?:[A-Z]{2})*?LO)/;
const OTHER_RIGHTS = /\([AD];[^;]*;(?!(?:CC|DC|LC|SW|RP|WP|DT|LO|CR|SD|RC|WD|WO|GA|GR|GW|GX)*;)/;

// What sc sdshow prints of scmanager: to connect, to list services and to query the lock go together.
const OF_A_MANAGER = /^\s*D:[^\n]*;CCLCRP(?:WP)?RC;/;

// The kind of a text, or null.
export function kindIn(text) {
    if (OF_A_MANAGER.test(text)) {
        return "service-manager";
    }
    if (OF_A_SERVICE.test(text) && !OTHER_RIGHTS.test(text)) {
        return "service";
    }
    const lines = text.split(/\r\n|\r|\n/);
    if (valuesAround(lines).some(isOfShare) || lines.some((line) => isOfShare(tableBelow(line)?.(line)))) {
        return "share";
    }
    const around = AROUND.find(({patterns}) => patterns.every((pattern) => pattern.test(text)));
    if (around) {
        return around.kind;
    }
    if (OF_A_DIRECTORY.test(text)) {
        return "ds";
    }
    return OF_A_KEY.test(text) ? "key" : null;
}

// The ACEs whose masks tell of a kind: those that decide, or else those that audit.
function tellingOf(aces) {
    const masked = aces.filter(({kind, mask}) => kind !== "ML" && mask !== 0);
    const deciding = masked.filter(({kind}) => !/U$/.test(kind));
    return deciding.length ? deciding : masked;
}

const isTyped = ({kind}) => kind[0] === "O";

const some = (aces, bits) => aces.some(({mask}) => (mask & bits) !== 0);

// Every mask that the table has for a kind and for what inherits from it.
const masksOf =
    ({mapping, below, masks}) => [...mapping, ...below.flatMap(([, more]) => more), ...masks.map(([mask]) => mask)];

// Whether a kind has all rights of ACEs. Only those of directory objects, of which an authority has one, have object
// types.
function hasRights(kind, aces) {
    if (aces.some(isTyped)) {
        return isDirectory(kind) || kind === "authority";
    }
    const known = [...masksOf(tableOf(kind)), ...tableOf(kind).rights.map(([bit]) => bit & SPECIFIC)];
    return !some(tellingOf(aces), ~known.reduce((all, mask) => all | mask, OF_ALL));
}

// Whether ACEs can be those of a kind. Windows gives SYNCHRONIZE to everybody who may do anything with a file.
export function fitsKind(kind, aces) {
    const telling = tellingOf(aces);
    const isFile = tableOf(kind).library === "file";
    return hasRights(kind, aces) && !(isFile && some(telling, SPECIFIC) && !some(telling, SYNCHRONIZE));
}

// The kinds that have all rights of the ACEs, the likely ones first: those of which more masks are usual, from which
// something inherits where ACEs do, that have no object types, and whose rights have no SYNCHRONIZE where the ACEs lack
// it.
export function kindsOf(aces) {
    const telling = tellingOf(aces);
    const inherits = telling.some(({flags}) => INHERITS.some((flag) => flags.includes(flag)));
    const lacksSynchronize = some(telling, SPECIFIC) && !some(telling, SYNCHRONIZE);
    const rank = (kind) => {
        const {mapping, inherits: by} = tableOf(kind);
        const isOdd = isDirectory(kind) || (inherits && !by) || (lacksSynchronize && (mapping[3] & SYNCHRONIZE) !== 0);
        const usual = masksOf(tableOf(kind));
        return telling.filter(({mask}) => usual.includes(mask)).length - (isOdd ? telling.length + 1 : 0) -
            (isDirectory(kind) ? 1 / 2 : 0);
    };
    const all = Object.keys(KINDS).filter((kind) => !tableOf(kind).rule);
    const fitting = all.filter((kind) => hasRights(kind, aces)).map((kind) => ({kind, rank: rank(kind)}));
    return fitting.length ? fitting.sort((one, other) => other.rank - one.rank).map(({kind}) => kind) : all;
}

// The kind that the rights of ACEs tell of, or null where several kinds have them. Without rights there is nothing that
// a kind would give another meaning.
export function kindByRights(aces) {
    if (aces.some(isTyped)) {
        return "ds";
    }
    const telling = tellingOf(aces);
    if (!telling.length || (some(telling, SYNCHRONIZE) && fitsKind("folder", aces))) {
        return "folder";
    }
    const kinds = kindsOf(aces);
    return kinds.length === 1 ? kinds[0] : null;
}
