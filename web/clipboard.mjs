// Finds descriptors in what people have in the clipboard, and says what it left out. Nothing inside a descriptor is
// changed but line ends, folds and separators; if in doubt, everything stays, and the library refuses it.

import {listingsIn} from "./icacls.mjs";
import {hexOf} from "./library.mjs";
import {between, decimalBytes, endOfHex, endOfPairs, endOfQuoted, without} from "./scanning.mjs";
import {
    isBetween as isBetweenObjects,
    isElement,
    isOfDescriptor,
    nameAmong,
    spread,
    tableBelow,
    valuesAround
} from "./titles.mjs";
import {DESCRIPTORS} from "./windows.mjs";

// What is in front of a value: hex(3):01,00,.. of a .reg file, and what reg query prints. A name is looked for in front
// of what was found: a search that began at each quotation mark would take minutes for a hostile text of 1 MB.
const REG_VALUE = /hex(?<=(?:(@|"[^"]*")\s*=\s*)?hex)(?:\([0-9a-f]+\))?:/gi;
const REG_BINARY = /REG_BINARY(?<=(\S*)[ \t]+REG_BINARY)[ \t]+(?=[0-9a-f])/gi;
const ATTRIBUTE = /^>?([A-Za-z][\w-]*)(?:;[\w;=*-]*)?(::?) */;
const BEFORE = "(^|[\\s\"',;=:>\\t|`\u201c\u201e\u2018\u00ab])"; // what may come before a descriptor
const SDDL_START = new RegExp(
    BEFORE + "(?=[OG]:\\s*(?:S-1-|[A-Za-z]{2})|[DS]:\\s*(?:P|AR|AI|NO_ACCESS|\\(|[OGDS]:|$|\"))",
    "im",
);
const HEX_SEPARATORS = ",:-\\"; // and blanks
// What ends a text that begins with a mark: quotation marks, or the next element of XML.
const ENDS = new Map([
    ["\"", "\""], ["'", "'"], ["`", "`"], ["\u201c", "\u201d"], ["\u201e", "\u201c"], ["\u2018", "\u2019"],
    ["\u00ab", "\u00bb"], [">", "<"]
]);
const MOST_STRAY = 100; // characters of a line
const MOST_LEFT = 1000; // characters of what was left out, of which the page shows fewer
const ORDER = "OGDS";   // of the parts
const NONE = [];        // classes

// Whatever is left of a text is said, so that nobody takes it for read.
function leftOut(what, text) {
    const left = text.trim();
    return left ? [{what, text: left.slice(0, MOST_LEFT).replace(/[ \t\r\n]+/g, " ")}] : [];
}

const linesOf = (text) => text.split(/\r\n|\r|\n/).filter((line) => line.trim() !== "");

const unfolded = (text) => text.replace(/\r?\n[ \t]/g, "");

// The attribute that a line of an entry tells, with what stands in front of its value; null if it tells none.
function attributeIn(line) {
    const [front, attribute, colons] = ATTRIBUTE.exec(line) ?? NONE;
    return front === undefined ? null : {front, attribute, name: attribute.toLowerCase(), isBase64: colons === "::"};
}

// The text of an attribute of a line.
function textOf({front, isBase64}, line) {
    const value = line.slice(front.length).trim();
    if (!isBase64) {
        return value;
    }
    try {
        return new TextDecoder().decode(Uint8Array.from(atob(value), (character) => character.charCodeAt(0)));
    } catch {
        return value;
    }
}

// The kinds of attributes with a descriptor beside that of the object.
const BESIDE = new Map(Object.entries(DESCRIPTORS).map(([name, kind]) => [name.toLowerCase(), kind]));
const OF_THE_OBJECT = "ntsecuritydescriptor";
const HEAD = 20; // bytes of a descriptor

function nameOfEntry(line) {
    const one = attributeIn(line);
    return one?.name === "dn" ? textOf(one, line) : undefined;
}

// Whether a text is base64 of what begins as a descriptor does: its revision, the bit for one block, and a null.
function looksLikeBytes(text) {
    if (!/^A[Q-Za-f][A-Za-z0-9+/]{26}/.test(text)) {
        return false;
    }
    const head = atob(text.slice(0, 28)).slice(0, HEAD);
    return (head.charCodeAt(3) & 0x80) !== 0 && head.includes("\0");
}

const LOOKS_LIKE_SDDL = /^(?:[OG]:[A-Z0-9-]+)*[DS]:[A-Z_]*\([A-Z]{1,2};/i;

// The descriptor that an attribute has, or null: that of the object, or another one. Where nothing says what its rights
// mean the kind is empty.
function ofAttribute({front, name, isBase64}, line) {
    const kind = name === OF_THE_OBJECT ? "ds" : BESIDE.get(name);
    const value = line.slice(front.length).trim();
    const isOne = kind !== undefined || (isBase64 ? looksLikeBytes(value) : LOOKS_LIKE_SDDL.test(value));
    return isOne ? {kind: kind ?? "", form: isBase64 ? "base64" : "sddl", line: value} : null;
}

// The descriptors of entries of LDIF, each with the classes of its entry and the kind that its attribute tells.
function ofLdif(text) {
    const found = [];
    const folds = /\n[ \t]/.test(text) ? [{what: "folds"}] : [];
    let [name, classes, made, others] = [undefined, [], [], []];
    for (const line of unfolded(text).split(/\r?\n/)) {
        const one = attributeIn(line);
        if (one?.name === "dn") {
            [name, classes, made] = [textOf(one, line), [], []];
        } else if (one?.name === "objectclass") {
            classes.push(textOf(one, line));
        } else if (one?.name === "ldapdisplayname") {
            made.push(textOf(one, line)); // of a class, its objects'
        }
        const has = one && ofAttribute(one, line);
        if (!has) {
            others.push(line);
            continue;
        }
        const {kind, ...own} = has;
        const isOwn = one.name === OF_THE_OBJECT;
        found.push({
            name: isOwn ? name ?? "" : [name, one.attribute].filter(Boolean).join(": "),
            ...own,
            ...(name === undefined ? {} : {kind}),
            classes: isOwn    ? classes :
                kind === "ds" ? made :
                                NONE,
            dropped: [...leftOut("before", [...others, one.front.trim()].join(" ")), ...folds]
        });
        others = [];
    }
    found.at(-1)?.dropped.push(...leftOut("after", others.join(" ")));
    return found;
}

// The values behind the fronts that a pattern finds, of which the first group is the name.
function ofRegistry(text, front, endOfValue) {
    let end = 0;
    const found = [];
    front.lastIndex = 0;
    for (let one = front.exec(text); one; one = front.exec(text)) {
        const start = front.lastIndex;
        const before = text.slice(end, start);
        end = endOfValue(text, start);
        front.lastIndex = end;
        const value = text.slice(start, end);
        const line = without(value, HEX_SEPARATORS);
        const dropped = [...leftOut("before", before), ...(line === value ? [] : [{what: "separators"}])];
        found.push({name: (one[1] ?? "").replace(/^"|"$/g, ""), form: "hex", line, dropped});
    }
    found.at(-1)?.dropped.push(...leftOut("after", text.slice(end)));
    return found;
}

// How many parentheses a text opens beyond those that it closes.
const depthOf = (text) => text.split("(").length - text.split(")").length;

// The front of a part at the beginning of a line, and of a word or inside it. D:\Data is a path.
const FRONT_OF_LINE = /^\s*([OGDS]):(?![\\/])/i;
const FRONT_OF_WORD = new RegExp(BEFORE + "[OGDS]:(?![\\\\/])", "i");

// The number of a part that begins a line, by the order of the parts, or -1.
const partAt = (line) => ORDER.indexOf(FRONT_OF_LINE.exec(line)?.[1].toUpperCase() ?? " ");

// The number of the last part, by the order of the parts, that a text has; -1 if it has none.
const lastPart = (text) => [...text.replace(/\([^()]*\)/g, "").matchAll(/([OGDS]):/gi)].reduce(
    (last, found) => Math.max(last, ORDER.indexOf(found[1].toUpperCase())), -1);

// The lines from a place on that continue a descriptor, which Format-List, LDIF or a mail program has folded. Such a
// line has no start of a descriptor of its own, and begins with an ACE, continues one that is open, or is set in under
// it. Or it begins with a part that comes behind all those before it.
function continuationOf(first, lines, from) {
    if (from === lines.length) {
        return [];
    }
    let depth = depthOf(first);
    let last = lastPart(first);
    let at = from;
    for (; at < lines.length; at += 1) {
        const line = lines[at];
        const part = partAt(line);
        const goesOn = part >= 0 || SDDL_START.test(line) ?
            part > last :
            depth > 0 || /^\s*\([^();]*;/.test(line) || /^\s{2,}\S+$/.test(line);
        if (!goesOn) {
            break;
        }
        depth += depthOf(line);
        last = part < 0 ? last : Math.max(last, lastPart(line));
    }
    return lines.slice(from, at).map((line) => line.trim());
}

// Where a descriptor begins that was found at a place: fronts of parts in the words before it belong to it, so that the
// library refuses what can't be read in them.
function withFronts(line, at) {
    const own = FRONT_OF_LINE.exec(line);
    if (own) {
        return own[0].length - 2;
    }
    for (let [start, end] = [at, at];; end = start) {
        while (end > 0 && isBlank(line[end - 1])) {
            end -= 1;
        }
        let from = end;
        while (from > 0 && !isBlank(line[from - 1])) {
            from -= 1;
        }
        const front = FRONT_OF_WORD.exec(line.slice(from, end));
        if (!front) {
            return start;
        }
        start = from + front.index + front[1].length;
    }
}

// Whether a line that reads as no descriptor is one all the same: it begins with a part, and has an ACE or a later part
// behind it.
const isUnread = (lines, at) => FRONT_OF_LINE.test(lines[at]) &&
    (/\([A-Za-z]*(?:;|$)/.test(lines[at]) || partAt(lines[at + 1] ?? "") > partAt(lines[at]));

function ofSddlLine(lines, number) {
    const line = lines[number];
    const found = SDDL_START.exec(line);
    if (!found && !isUnread(lines, number)) {
        return null;
    }
    const at = withFronts(line, found ? found.index + found[1].length : 0);
    const before = line.slice(0, at);
    /** @type {Array<{what: string, text?: string}>} */
    const dropped = /[^\s"']/.test(before) ? [{what: "before", text: before.trim()}] : [];
    let rest = line.slice(at);
    const mark = before.at(-1);
    const end = ENDS.get(mark);
    const isClosed = end && rest.includes(end);
    if (end) {
        const value = mark === "\"" ? rest.slice(0, endOfQuoted(rest, 0)) : rest.split(end, 1)[0];
        const after = rest.slice(value.length);
        dropped.push(...leftOut("after", mark === ">" ? after : after.slice(1)));
        if (mark !== ">") {
            dropped.push({what: "quotes"});
        }
        rest = mark === "\"" ? value.replace(/""/g, "\"") : value;
    }
    return {name: nameIn(before), form: "sddl", line: rest.trim(), dropped, isClosed};
}

// What comes before a descriptor, without the marks around it: the name of a file or of a property. In a line of CSV
// the name is the first field.
const MARKS = "\"'`<>{\u201c\u201e\u2018\u00ab";
const isBlank = (character) => character.trim() === "";
const isMark = (character) => isBlank(character) || MARKS.includes(character);
const isBetween = (character) => isMark(character) || ",;=:|".includes(character);
const nameIn = (before) => between(/^\s*"[^"]*"(?=,)/.exec(before)?.[0] ?? before, isMark, isBetween);

// What an object is called: by the titles around its descriptor, by its entry of LDIF, by what stands before the
// descriptor, or by the line above, where icacls /save writes it. An attribute has that of its object before its own.
function nameOf(line, own, values, others) {
    const named = nameAmong(values) || (others.map(nameOfEntry).filter(Boolean).at(-1) ?? "");
    if (BESIDE.has(own.toLowerCase())) {
        return [named, own].filter(Boolean).join(": ");
    }
    const above = others.at(-1) ?? "";
    return named || (isOfDescriptor(own) || isElement(line) ? "" : own) ||
        (values.size || isBetweenObjects(above) ? "" : above);
}

function ofSddl(text) {
    const all = spread(text).split(/\r\n|\r|\n/);
    const lines = all.filter((line) => line.trim() !== "");
    const found = [];
    let [others, table, values] = [[], null, null];
    for (let at = 0; at < lines.length; at += 1) {
        const one = ofSddlLine(lines, at);
        if (!one) {
            table = tableBelow(lines[at]) ?? table;
            others.push(lines[at].trim());
            continue;
        }
        values ??= valuesAround(all);
        one.name = nameOf(lines[at], one.name, table?.(lines[at]) ?? values[at], others);
        const folded = one.isClosed ? [] : continuationOf(one.line, lines, at + 1);
        if (folded.length) {
            one.line = [one.line, ...folded].join("");
            one.dropped.push({what: "folds"});
            at += folded.length;
        }
        one.dropped.unshift(...leftOut("before", others.join(" ")));
        const {name} = one;
        found.push(Object.assign(one, {strays: found.length ? others.filter((line) => line !== name) : []}));
        others = [];
    }
    found.at(-1)?.dropped.push(...leftOut("after", others.join(" ")));
    found.at(-1)?.strays.push(...others);
    return found;
}

// A line that goes with what prints a list, and is none of its rows.
const OF_PRINTING = /^(?:#|Successfully processed |[^\p{L}\d]*$|"?[\w ]{1,20}"?\s?:(?![\\/]))/u;

/**
 * The lines of a list of descriptors that are none, where most are. What comes before the first one is a heading.
 * @param {Array<{strays?: string[]}>} found
 */
export function straysIn(found) {
    const all = found.flatMap(({strays = []}) => strays).filter((line) => !OF_PRINTING.test(line));
    return 2 * all.length <= found.length ? all.map((line) => line.slice(0, MOST_STRAY)) : [];
}

const LEAST_BYTES = 20; // of a list of numbers that is taken for a descriptor

function ofNumbers(text) {
    const bytes = /^1[\s,]/.test(text) ? decimalBytes(text) : null;
    return bytes !== null && bytes.length >= LEAST_BYTES ?
        [{name: "", form: "hex", line: hexOf(bytes), dropped: [{what: "decimal"}]}] :
        [];
}

function ofHex(text) {
    const bare = text.trim().replace(/^(?:0x|\\x|x')/i, "");
    const dropped = bare === text.trim() ? [] : [{what: "before", text: text.trim().slice(0, -bare.length)}];
    const line = without(bare.replace(/0x/gi, ""), HEX_SEPARATORS).replace(/'$/, "");
    if (!/^[0-9a-f]+$/i.test(line)) {
        return [];
    }
    return [{name: "", form: "hex", line, dropped: line === bare ? dropped : [...dropped, {what: "separators"}]}];
}

function ofBase64(text) {
    const line = without(text, "");
    return [{name: "", form: "base64", line, dropped: line === text.trim() ? [] : [{what: "folds"}]}];
}

const looksLikeBase64 = (text) => /^A\s*Q/.test(text) && /^AQ[A-Za-z0-9+/]{2,}={0,2}$/.test(without(text, ""));

// What icacls lists without /save: names and letters, no SIDs.
const ICACLS = /[^\n:()]:\((?:DENY|[A-Z]{1,3}(?:,[A-Z]{1,3}){0,40})\)/;

/**
 * What a text is that has no descriptor, by the first pattern that fits.
 * @type {[string, RegExp][]}
 */
const OTHER_TEXTS = [
    ["listing", ICACLS],
    ["table", /^[ \t]*Path[ \t]+Owner[ \t]+Access\b/m],
    ["access", /^[ \t]*(?:\w{1,20}Rights|IdentityReference|AccessControlType)[ \t]*:/m],
    ["dsacls", /^(?:Access list:|Effective Permissions on)/m],
    ["token", /^(?:USER|GROUP|PRIVILEGES) INFORMATION/m],
    ["service", /^SERVICE_NAME: /m],
    ["share", /^Share name\b/m],
    ["posix", /^(?:[-dl](?:[r-][w-][-xsStT]){3}|# file: )/m],
    ["key", /^\s*"?(?:Registry::|HK(?:LM|CU|CR|U|CC):?\\|HKEY_\w)[^\n()]*$/],
    ["path", /^\s*"?(?:[A-Za-z]:\\|\\\\)[^\n()]*$/],
    ["name", /^\s*"?(?:CN|OU|DC)=[^\n()]*$/i],
];
const kindOfText = (text) => OTHER_TEXTS.find(([, pattern]) => pattern.test(text))?.[0] ?? "nothing";

// Text as it is, when a form was chosen: only the ends of the line are dropped.
function asChosen(text, form) {
    const line = form === "sddl" ? text.replace(/\r?\n$/, "").replace(/\r?\n/g, " ") : without(text, "");
    return [{name: "", form, line, dropped: line === text ? [] : [{what: "folds"}]}];
}

function guessed(text) {
    const plain = text.trim();
    const entries = /^(?:dn:|[A-Za-z][\w;-]*:: )/im.test(plain) ? ofLdif(plain) : [];
    if (entries.length) {
        return entries;
    }
    for (const [front, endOfValue] of [[REG_VALUE, endOfPairs], [REG_BINARY, endOfHex]]) {
        const values = ofRegistry(plain, front, endOfValue);
        if (values.length) {
            return values;
        }
    }
    const bytes = ofNumbers(plain);
    if (bytes.length) {
        return bytes;
    }
    const digits = /^(?:0x|\\x|x')?0x?1[\s,:-]?/i.test(plain) ? ofHex(plain) : [];
    if (digits.length) {
        return digits;
    }
    if (looksLikeBase64(plain)) {
        return ofBase64(plain);
    }
    const found = ofSddl(/^dn:/im.test(plain) ? unfolded(plain) : plain);
    return found.length ? found :
                          listingsIn(plain).map((one) => ({...one, form: "sddl", dropped: [{what: "listing"}]}));
}

// The descriptors in a text, at least one: {name, classes, kind, form, line, dropped}. Of a text in which none is found
// the whole is taken as SDDL, so that the library says what is wrong with it.
export function descriptorsIn(text, form) {
    const bare = text.replace(/^\uFEFF/, "").replace(/\0/g, "");
    // A text of null characters is no empty descriptor: it stays, and the library refuses it.
    const isNothing = bare.trim() === "";
    const given = isNothing ? text : bare;
    const lost = isNothing ?
        [] :
        [...(text.startsWith("\uFEFF") ? [{what: "mark"}] : []), ...(text.includes("\0") ? [{what: "nulls"}] : [])];
    const found = form === "auto" ? guessed(given) : asChosen(given, form);
    const all = found.length ? found : [{name: "", form: "sddl", line: linesOf(given).join(" "), dropped: []}];
    const other = found.length ? null : kindOfText(given);
    return all.map((one) => {
        one.dropped.unshift(...lost);
        return {classes: NONE, ...one, other};
    });
}
