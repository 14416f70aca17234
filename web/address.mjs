// The state of the page as a link, behind '#', which no browser sends.
import {bitsOf} from "./access.mjs";
import {rightsOf, visible} from "./naming.mjs";
import {MOST_LIST, MOST_TEXT, MOST_WORD} from "./state.mjs";
import {KINDS as TABLE_OF_KINDS} from "./windows.mjs";
import {commaed, formatted, say, WORDS} from "./words.mjs";

const MOST_ADDRESS = 30_000;  // characters; some browsers and most programs take no longer link
const MOST_UNREAD = 8;        // words of an address that are named
const MOST_UNREAD_TEXT = 100; // characters of each
const VIEWS = ["look", "ask", "inherit", "compare", "edit", "lines"]; // a report is in no address
const KINDS = Object.keys(TABLE_OF_KINDS);
const FORMS = ["auto", "sddl", "hex", "base64"];
const MOST_LEVEL = 0xffffffff;

/** @typedef {(state: import("./state.mjs").State) => object} Holder */

/**
 * The name of each field, whose it is, and how many characters it takes.
 * @type {[string, Holder, string, number?][]}
 */
const FIELDS = [
    ["d", (state) => state, "text", MOST_TEXT],
    ["domain", (state) => state, "domain"],
    ["object", (state) => state, "object"],
    ["class", (state) => state, "classes"],
    ["token", (state) => state.ask, "token", MOST_LIST],
    ["want", (state) => state.ask, "want"],
    ["self", (state) => state.ask, "self"],
    ["owner", (state) => state.made, "owner"],
    ["group", (state) => state.made, "group"],
    ["creator", (state) => state.made, "creator", MOST_TEXT],
    ["other", (state) => state.other, "text", MOST_TEXT],
];
/** @type {[string, Holder, string][]} */
const FLAGS = [
    ["common", (state) => state, "common"],
    ["maximum", (state) => state.ask, "maximum"],
    ["exact", (state) => state.ask, "exact"],
    ["security", (state) => state.ask, "security"],
    ["take-ownership", (state) => state.ask, "takeOwnership"],
];
/** @type {[string, Holder, string, string[]][]} */
const CHOICES = [
    ["view", (state) => state, "view", VIEWS],
    ["kind", (state) => state, "kind", KINDS],
    ["form", (state) => state, "form", FORMS],
    ["new", (state) => state.made, "kind", ["container", "file"]],
    ["other-form", (state) => state.other, "form", FORMS],
];
/**
 * The number of a descriptor in a text.
 * @type {[string, (state: import("./state.mjs").State) => {chosen: number}][]}
 */
const CHOSEN = [["chosen", (state) => state], ["other-chosen", (state) => state.other]];

// What differs from a new page, as what follows '#', or null if that is too long.
export function addressOf(state, fresh) {
    if (FIELDS.reduce((length, [, holder, key]) => length + holder(state)[key].length, 0) > MOST_ADDRESS) {
        return null;
    }
    const words = new URLSearchParams();
    for (const [name, holder, key] of FIELDS) {
        if (holder(state)[key] !== holder(fresh)[key]) {
            words.set(name, holder(state)[key]);
        }
    }
    for (const [name, holder, key] of FLAGS) {
        if (holder(state)[key] !== holder(fresh)[key]) {
            words.set(name, holder(state)[key] ? "1" : "0");
        }
    }
    for (const [name, holder, key, known] of CHOICES) {
        const value = holder(state)[key];
        // A kind that somebody chose stands against what the text tells of.
        if (known.includes(value) && (value !== holder(fresh)[key] || (name === "kind" && state.isKindChosen))) {
            words.set(name, value);
        }
    }
    if (state.ask.level !== fresh.ask.level) {
        words.set("level", state.ask.level.trim());
    }
    if (state.ask.rights.length) {
        words.set("rights", state.ask.rights.reduce((mask, bit) => (mask | bit) >>> 0, 0).toString(16));
    }
    for (const [name, holder] of CHOSEN) {
        if (holder(state).chosen) {
            words.set(name, String(holder(state).chosen));
        }
    }
    const text = words.toString();
    return text.length > MOST_ADDRESS ? null : text;
}

// How each name of an address is taken into a state: whether it could be read. What can't stays as it was.
const READERS = new Map([["level", takeLevel], ["rights", takeRights]]);
for (const [name, holder, key, most = MOST_WORD] of FIELDS) {
    READERS.set(name, (state, value) => {
        const isShort = value.length <= most;
        holder(state)[key] = isShort ? value : holder(state)[key];
        return isShort;
    });
}
for (const [name, holder, key] of FLAGS) {
    READERS.set(name, (state, value) => {
        holder(state)[key] = value === "1";
        return value === "0" || value === "1";
    });
}
for (const [name, holder, key, known] of CHOICES) {
    READERS.set(name, (state, value) => {
        const isKnown = known.includes(value);
        holder(state)[key] = isKnown ? value : holder(state)[key];
        state.isKindChosen ||= isKnown && name === "kind";
        return isKnown;
    });
}

for (const [name, holder] of CHOSEN) {
    READERS.set(name, (state, value) => {
        const isNumber = /^\d{1,6}$/.test(value);
        holder(state).chosen = isNumber ? Number(value) : holder(state).chosen;
        return isNumber;
    });
}

// A level is one of the list of the view, or another number, which gets a line of its own in it.
function takeLevel(state, value) {
    const isNumber = /^\d{1,10}$/.test(value) && Number(value) <= MOST_LEVEL;
    if (isNumber || value === "" || value === "listed") {
        state.ask.level = isNumber ? ` ${Number(value)}` : value;
        return true;
    }
    return false;
}

// Rights that the kind of object doesn't have are in no box of the view.
function takeRights(state, value) {
    const bits = /^[0-9a-f]{1,8}$/.test(value) ? bitsOf(parseInt(value, 16)) : [];
    const known = rightsOf(state.kind).map(({bit}) => bit);
    state.ask.rights = bits.filter((bit) => known.includes(bit));
    return bits.length > 0 && bits.length === state.ask.rights.length;
}

// Takes an address into a state, and gives what of it can't be read, of which a name that comes twice is a part. An
// address is written by strangers.
export function takeAddress(state, text) {
    const words = [...new URLSearchParams(text)];
    const seen = new Set();
    // The kind comes first, since rights depend on it.
    const inOrder = [...words.filter(([name]) => name === "kind"), ...words.filter(([name]) => name !== "kind")];
    return inOrder
        .filter(([name, value]) => {
            const isRead = !seen.has(name) && READERS.get(name)?.(state, value);
            seen.add(name);
            return !isRead;
        })
        .map(([name, value]) => `${name}=${value}`);
}

// What of an address can't be read, in words.
export function unreadInWords(unread) {
    const shown = unread.slice(0, MOST_UNREAD)
                      .map((one) => (one.length > MOST_UNREAD_TEXT ?
                                   say(WORDS.addressLong,
                                       {text: visible(one.slice(0, MOST_UNREAD_TEXT)), count: formatted(one.length)}) :
                                   visible(one)));
    const left = unread.length - shown.length;
    return say(WORDS.address, {what: commaed(left > 0 ? [...shown, say(WORDS.summary.left, {count: left})] : shown)});
}
