// What this page asks of the library, and what descriptors say as the views have it. No rule about descriptors is here:
// what the library refuses is a fault.
import {Fault} from "../javascript/sdtool.mjs";

const FORMS = ["hex", "base64", "sddl"];
const ENCODER = new TextEncoder();
const DECODER = new TextDecoder();
// The names of SDDL for types and flags of ACEs, and the codes of control bits, each by its place.
const KINDS = ["A", "D", "AU", , , "OA", "OD", "OU"];
KINDS[0x11] = "ML";
const FLAGS = ["OI", "CI", "NP", "IO", "ID", , "SA", "FA"];
const CODES = ["OD", "GD", "DP", "DD", "SP", "SD", , , "DC", "SC", "DI", "SI", "PD", "PS", "RM", "SR"];
const OF_GUID = [3, 2, 1, 0, 5, 4, 7, 6, 8, 9, 10, 11, 12, 13, 14, 15]; // a GUID's text begins with three numbers

// Whether an error is a fault of what was given. Any other one is of the page itself.
export const isFault = (error) => typeof error.line === "string";

// The value of each hex digit, by its number as a character.
const DIGITS = Uint8Array.from({length: 128}, (_, code) => parseInt(String.fromCharCode(code), 16) || 0);
const PAIRS = Array.from({length: 256}, (_, byte) => byte.toString(16).padStart(2, "0"));

export function bytesOfHex(hex) {
    const bytes = new Uint8Array(hex.length / 2);
    for (let at = 0; at < bytes.length; at += 1) {
        bytes[at] = (DIGITS[hex.charCodeAt(2 * at)] << 4) | DIGITS[hex.charCodeAt(2 * at + 1)];
    }
    return bytes;
}

export function hexOf(bytes) {
    let hex = "";
    for (const byte of bytes) {
        hex += PAIRS[byte];
    }
    return hex;
}

export const maskText = (mask) => "0x" + (mask >>> 0).toString(16).padStart(8, "0");

// The answers of the program to lines, each with its LF.
function answersTo(library, words, lines) {
    const {status, output, message} = library.run(words, ENCODER.encode(lines));
    if (status > 1) {
        throw new RangeError(message.trim());
    }
    return DECODER.decode(output);
}

// The answer of the program to one line. A line that holds an LF would be two, so it is refused here.
export function answerTo(library, words, line) {
    if (line.includes("\n")) {
        throw new RangeError("one line is asked for");
    }
    return answersTo(library, words, line + "\n").replace(/\n$/, "");
}

// The descriptor of a line, in its canonical layout. An empty line of SDDL is the descriptor without parts, and one of
// another form is too short: the program passes over it.
export function descriptorOf(library, form, line, options = {}) {
    if (form === "sddl") {
        return library.fromSddl(line, options);
    }
    if (!FORMS.includes(form)) {
        throw new RangeError("no such form");
    }
    const answer = answerTo(library, ["convert", "--from", form, "--to", "hex"], line) || "error 5 short";
    if (answer.startsWith("error ")) {
        const [, number, name, part, otherPart] = answer.split(" ");
        throw new Fault(Number(number), name, part, otherPart);
    }
    return bytesOfHex(answer);
}

// Where the fault of a descriptor in binary is, or null.
export function placeOfBytes(library, bytes) {
    try {
        library.normalize(bytes);
    } catch (fault) {
        if (isFault(fault)) {
            return fault.place;
        }
        throw fault;
    }
    return null;
}

const sids = new WeakMap();

// The SID of a text in binary. The same few SIDs are asked for again and again.
export function sidBytes(library, text, domain = "") {
    if (!sids.has(library)) {
        sids.set(library, new Map());
    }
    const known = sids.get(library);
    const key = domain + " " + text;
    if (!known.has(key)) {
        known.set(key, library.sidFromText(text, domain ? {domain} : {}));
    }
    return known.get(key);
}

export const sidText = (library, text, domain = "") =>
    library.sidToText(sidBytes(library, text, domain), {numeric: true});

// The only ACE of a list in SDDL.
const aceIn = (library, text) => library.parts(library.fromSddl(`D:(${text})`)).dacl.aces[0];

// The mask of names of rights, or of a number, as an ACE has them.
export function maskOfText(library, text) {
    if (!/^[A-Za-z0-9]*$/.test(text)) {
        throw new Fault(27, "rights");
    }
    return aceIn(library, `A;;${text};;;WD`).mask;
}

const guids = new Map();

// The 16 bytes of a GUID. An empty text is no GUID, and has undefined.
export function guidBytes(library, text) {
    if (!guids.has(text)) {
        if (!/^[0-9A-Fa-f-]*$/.test(text)) {
            throw new Fault(28, "guid");
        }
        guids.set(text, aceIn(library, `OA;;CC;${text};;WD`).objectType ?? undefined);
    }
    return guids.get(text);
}

const guidText = (bytes) =>
    bytes && hexOf(OF_GUID.map((at) => bytes[at])).replace(/^(.{8})(.{4})(.{4})(.{4})/, "$1-$2-$3-$4-");

const named = (names, bits) => names.filter((name, place) => name && (bits >> place) & 1);

// What a descriptor says: each SID by its text and its alias, and each ACE by its number, from 1. Options are those of
// a text.
export function modelOf(library, descriptor, options = {}) {
    const parts = library.parts(descriptor);
    const known = new Map();
    const sidOf = (bytes) => {
        const key = hexOf(bytes);
        if (!known.has(key)) {
            const text = library.sidToText(bytes, options);
            const sid = text.startsWith("S-1-") ? text : library.sidToText(bytes, {numeric: true});
            known.set(key, {sid, alias: sid === text ? null : text});
        }
        return known.get(key);
    };
    const aceOf = (list) => ({kind, flags, mask, sid, objectType, inheritedObjectType}, at) => ({
        list,
        number: at + 1,
        kind: KINDS[kind],
        flags: named(FLAGS, flags),
        mask,
        object: guidText(objectType),
        inherited: guidText(inheritedObjectType),
        ...sidOf(sid),
    });
    const listOf = (list) => ({state: parts[list].state, aces: (parts[list].aces ?? []).map(aceOf(list))});
    return {
        control: parts.control,
        codes: named(CODES, parts.control),
        manager: `0x${PAIRS[parts.resourceManager]}`,
        owner: parts.owner && sidOf(parts.owner),
        group: parts.group && sidOf(parts.group),
        dacl: listOf("dacl"),
        sacl: listOf("sacl"),
    };
}

const bitsOf = (names, some) => some.reduce((bits, name) => bits | (1 << names.indexOf(name)), 0);

// An ACE as the library builds it, of one as the views have it, whose SID, GUIDs and rights may be as somebody typed
// them. A fault tells the field.
export function newAceOf(library, {kind, flags, mask, rights, sid, object, inherited}, domain) {
    const read = (field, act) => {
        try {
            return act();
        } catch (fault) {
            fault.field = field;
            throw fault;
        }
    };
    return {
        kind: KINDS.indexOf(kind),
        flags: bitsOf(FLAGS, flags),
        mask: read("rights", () => (rights === undefined ? mask : maskOfText(library, rights.trim()))),
        sid: read("sid", () => sidBytes(library, sid, domain)),
        objectType: read("object", () => guidBytes(library, object ?? "") ?? null),
        inheritedObjectType: read("inherited", () => guidBytes(library, inherited ?? "") ?? null),
    };
}

// An ACE in SDDL, without any name.
export const aceText = ({kind, flags, mask, object, inherited, sid}) =>
    `(${kind};${flags.join("")};0x${mask.toString(16)};${object ?? ""};${inherited ?? ""};${sid})`;

// ACEs as the library prints them under a domain.
export function aceTexts(library, aces, domain) {
    const words = ["convert", "--from", "sddl", "--to", "sddl", ...(domain ? ["--domain", domain] : [])];
    const lines = answersTo(library, words, aces.map((ace) => `D:${aceText(ace)}\n`).join(""));
    return lines.split("\n").slice(0, -1).map((line) => line.slice("D:".length));
}

// The flags of an ACL of a model, as SDDL has them.
export function aclFlags(library, list, model) {
    const {state} = model[list];
    const empty = {control: model.control, [list]: state === "list" ? [] : {state}};
    return state === "absent" ? state : library.toSddl(library.build(empty)).slice("D:".length);
}
