// Words for what the library answers: names of SIDs, rights of a mask, where an ACE applies.
import {bitsOf, has} from "./access.mjs";
import {maskText} from "./library.mjs";
import {isForNothing, relativeOf} from "./meanings.mjs";
import {guidNames} from "./schema.mjs";
import {valueIn} from "./tables.mjs";
import {SYNCHRONIZE, SYSTEM_SECURITY, MAXIMUM_ALLOWED} from "./well_known.mjs";
import {KINDS} from "./windows.mjs";
import {say, WORDS} from "./words.mjs";

const GROUPS = ["read", "change", "control", "other"];
// Characters that don't show, or that turn the direction of a text round, and halves of characters: they are spelled
// out, so that no name passes for another.
export const HIDDEN = /[\p{Cc}\p{Cf}\p{Cs}\p{Co}\p{Zl}\p{Zp}\p{Default_Ignorable_Code_Point}\u2800]/gu;

export const visible = (text) =>
    String(text).replace(HIDDEN, (character) => `\\u{${character.codePointAt(0).toString(16)}}`);

export const shortened = (text, most) => (text.length > most ? `${text.slice(0, most)} ..` : text);

const MOST_NAME = 500; // characters: Windows has no longer ones of accounts

// A name as the page shows it again and again.
export const shownName = (name) => visible(shortened(name, MOST_NAME));

function familyName(sid) {
    for (const [pattern, text] of WORDS.families) {
        const found = pattern.exec(sid);
        if (found) {
            return say(text, {number: found[1] ?? ""});
        }
    }
    return sid;
}

function nameOfWindows(sid) {
    const relative = relativeOf(sid);
    return valueIn(WORDS.names, sid) ?? (relative && valueIn(WORDS.relativeNames, relative.number));
}

// Whether Windows itself names a SID, for which no other name is taken.
export const isOfWindows = (sid) => Boolean(nameOfWindows(sid));

// The names that a report has of SIDs, each told as the report's.
export const namesOfReport = (names) => new Map(names.filter(([sid]) => !isOfWindows(sid)).map(([sid,
    name]) => [sid, say(WORDS.report.named, {name: shownName(name)})]));

// The name of a SID: the user's own or a report's, a well-known one, or what kind of SID it is.
export const nameOf = (sid, names) => names.get(sid) ?? nameOfWindows(sid) ?? familyName(sid);

const OF_SID = /^(?:S-1-|[A-Z]{2}$)/i; // what a SID or an alias begins with

// The SID that a text names, if it is the name of one SID alone, or the text.
export function sidNamed(text, names) {
    const typed = text.trim();
    const wanted = typed.toLowerCase();
    const all = OF_SID.test(typed) ? [] : [...names, ...Object.entries(WORDS.names)];
    const sids = new Set(all.filter(([, name]) => name.toLowerCase() === wanted).map(([sid]) => sid));
    return sids.size === 1 ? [...sids][0] : typed;
}

function rightsInOrder(words, rights) {
    const named = rights.filter(([bit]) => Object.hasOwn(words, bit));
    const all = named.map(([bit, , , group]) => {
        const [name, short] = valueIn(words, bit);
        return {bit, name, short, group};
    });
    return all.sort((one, other) => GROUPS.indexOf(one.group) - GROUPS.indexOf(other.group) || one.bit - other.bit);
}

const RIGHTS = Object.fromEntries(
    Object.entries(KINDS).map(([kind, {rights}]) => [kind, rightsInOrder(valueIn(WORDS.rights, kind), rights)]));

// The named rights of a kind of object, in the order of the grid: {bit, name, short, group}.
export const rightsOf = (kind) => valueIn(RIGHTS, kind);

export function rightName(kind, bit) {
    if (bit === SYSTEM_SECURITY) {
        return WORDS.systemSecurity;
    }
    if (bit === MAXIMUM_ALLOWED) {
        return WORDS.maximumAllowed;
    }
    return valueIn(valueIn(WORDS.rights, kind), bit)?.[0] ?? valueIn(WORDS.generic, bit) ??
        say(WORDS.unnamed, {mask: maskText(bit)});
}

// A mask in words: the largest set of rights with a name of its own, then what is left, right by right, and at the
// end bits without a name. No bit is left out.
export function rightsInWords(kind, mask) {
    if (mask === 0) {
        return [WORDS.noRight];
    }
    const compounds = valueIn(WORDS.masks, kind);
    const compound = compounds.find(([bits]) => has(mask, bits));
    const rest = compound ? (mask & ~compound[0]) >>> 0 : mask;
    const named = rightsOf(
        kind).filter((right) => has(rest, right.bit))
                      .sort((one, other) => Number(one.bit === SYNCHRONIZE) - Number(other.bit === SYNCHRONIZE));
    const special = bitsOf(rest).filter((bit) => !named.some((right) => right.bit === bit));
    const known =
        special.filter((bit) => valueIn(WORDS.generic, bit) || bit === SYSTEM_SECURITY || bit === MAXIMUM_ALLOWED);
    const unknown = special.filter((bit) => !known.includes(bit)).reduce((all, bit) => (all | bit) >>> 0, 0);
    return [
        ...(compound ? [compound[1]] : []),
        ...named.map((right) => right.name),
        ...known.map((bit) => rightName(kind, bit)),
        ...(unknown ? [say(WORDS.unnamed, {mask: maskText(unknown)})] : []),
    ];
}

export const POLICIES = [[1, "NW"], [2, "NR"], [4, "NX"]]; // of a label

export function labelInWords(mask) {
    const policies = POLICIES.filter(([bit]) => has(mask, bit)).map(([, name]) => valueIn(WORDS.label, name));
    const rest = (mask & ~7) >>> 0;
    return [
        ...policies, ...(rest ? [say(WORDS.unnamed, {mask: maskText(rest)})] : []),
        ...(mask === 0 ? [WORDS.label.none] : [])
    ];
}

// What a GUID stands for in an ACE with a mask, or in any.
export function guidInWords(guid, mask) {
    const known = guidNames(guid, mask);
    return known.length ? known.map(({name, typeName}) => `${name} (${typeName})`).join(", ") :
                          say(WORDS.unknownGuid, {guid});
}

// Where an ACE applies, by its flags.
export function whereOf(kind, ace) {
    const words = valueIn(WORDS.where, kind) ?? WORDS.where.other;
    const flags = ["OI", "CI", "IO"].filter((flag) => ace.flags.includes(flag)).join("");
    const place = flags === "" ? words.here : isForNothing(ace, kind) ? WORDS.where.nothing : valueIn(words, flags);
    const more = [
        ace.flags.includes("NP") && /OI|CI/.test(flags) ? WORDS.where.oneLevel : null,
        ace.inherited ? say(WORDS.where.ofClass, {name: guidInWords(ace.inherited)}) : null,
    ].filter(Boolean);
    return [place, ...more].join(", ");
}

export function faultInWords(fault) {
    const [meaning] = valueIn(WORDS.faults, fault.number) ?? [""];
    const line = ["error", fault.number, fault.faultName ?? "", fault.part, fault.otherPart].filter(
        (word) => word || word === "");
    return `${meaning} (${line.join(" ")})`;
}

// A place in a text or in bytes.
export function placeInWords(place) {
    const {error} = WORDS;
    const part = place.part ? valueIn(error.where, place.part) : null;
    const where = place.ace ? say(error.ace, {number: place.ace, part}) : part;
    const field = place.field ? valueIn(error.fields, place.field) : null;
    return field && where ? say(error.field, {field, place: where}) : field ?? where;
}

// What a refused type of ACE is called, if the place is one.
export function refusedKind(fault, place) {
    const name = place.type === undefined ? valueIn(WORDS.refusedKinds, place.kind) :
                                            valueIn(WORDS.refusedTypes, place.type) ?? WORDS.unknownKind;
    const kind = place.type === undefined ? place.kind : say(WORDS.error.type, {type: place.type});
    return name && [12, 20, 29].includes(fault.number) ? {kind: visible(kind), name} : null;
}
