// What the tables of windows.mjs say of a SID and of the rights of a kind: names, who has a SID, what is a risk.
import {valueIn} from "./tables.mjs";
import {DELETE, SYNCHRONIZE, GENERIC} from "./well_known.mjs";
import {FAMILIES, KINDS, OF_A_DOMAIN, PLURAL, RULE_OF, SIDS, USUAL} from "./windows.mjs";

const RELATIVE = /^(S-1-5-21-\d+-\d+-\d+)-(\d+)$/;
const BUILT_IN_BELOW = 1000; // numbers from here on are those of accounts that somebody made
const GENERIC_BITS = [0x80000000, 0x40000000, 0x20000000, 0x10000000]; // read, write, execute, all

// The domain and the last number of a SID, or null.
export function relativeOf(sid) {
    const found = RELATIVE.exec(sid);
    return found ? {domain: found[1], number: Number(found[2])} : null;
}

// What is known of a SID: {name, who, also, family}. also is what a token of it has besides; family is what all SIDs
// that begin so are.
export function meaningOfSid(sid) {
    const known = valueIn(SIDS, sid);
    if (known) {
        return {name: known[1], who: known[2], also: (known[3] ?? USUAL).filter((one) => one !== sid), family: null};
    }
    const relative = relativeOf(sid);
    if (relative) {
        const row = relative.number < BUILT_IN_BELOW ? valueIn(OF_A_DOMAIN, String(relative.number)) : undefined;
        return row ? {name: row[1], who: row[2], also: row[3] ?? USUAL, family: null} :
                     {name: null, who: "other", also: USUAL, family: null};
    }
    const family = FAMILIES.find(([begins]) => sid.startsWith(begins));
    return family ? {name: null, who: family[2], also: family[3] ?? USUAL, family: family[1]} :
                    {name: null, who: "other", also: USUAL, family: null};
}

// Whether the name of a SID is plural.
export function isPluralName(sid) {
    const relative = relativeOf(sid);
    return PLURAL.includes(relative && !Object.hasOwn(SIDS, sid) ? String(relative.number) : sid);
}

// Which class of everybody has a SID, or null.
export function everybodyClass(sid) {
    const {who} = meaningOfSid(sid);
    return Object.hasOwn(RULE_OF, who) ? who : null;
}

// Whether somebody is trusted. Without a domain the administrators of every domain are.
export function isTrusted(sid, domain) {
    const relative = relativeOf(sid);
    return meaningOfSid(sid).who === "trusted" && (!relative || !domain || relative.domain === domain);
}

// What the table says of a kind of object.
export const tableOf = (kind) => valueIn(KINDS, kind);

// The mapping that the library is asked with. It has none for some kinds: their generic rights are replaced before.
export const mappingOf = (kind) => tableOf(kind).library || "file";

export const hasOwnMapping = (kind) => tableOf(kind).library === "";

// A mask whose generic rights are replaced by those of the table, and so is a right that means others where it is
// alone.
export function withoutGeneric(mask, kind) {
    const {mapping, alone: [right, meant]} = tableOf(kind);
    const plain = replaced(mask, mapping);
    return ((plain & meant) === right ? plain | meant : plain) >>> 0;
}

const replaced = (mask, mapping) =>
    GENERIC_BITS.reduce((all, bit, at) => ((mask & bit) === 0 ? all : all | mapping[at]), mask & ~GENERIC) >>> 0;

// The same of the mask of an ACE in what inherits it.
export function maskBelow({mask, flags}, kind) {
    const others = tableOf(kind).below.filter(([flag]) => flags.includes(flag));
    return others.length ? others.reduce((all, [, mapping]) => (all | replaced(mask, mapping)) >>> 0, 0) :
                           withoutGeneric(mask, kind);
}

const maskOf = (rights) => rights.reduce((mask, [bit]) => (mask | bit) >>> 0, 0);

// All rights of a kind: those of the library's mapping, or those that the table names where the library has none.
export const rightsOfKind = (kind) => hasOwnMapping(kind) ?
    (maskOf(tableOf(kind).rights.filter(([bit]) => bit < SYNCHRONIZE)) | tableOf(kind).mapping[3]) >>> 0 :
    tableOf(kind).mapping[3];

// The rights that do something, and those whose having is a risk of one of some words.

export const doing = (kind, word) => maskOf(tableOf(kind).rights.filter((right) => right[4].includes(word)));

export const atRisk = (kind, risks) => maskOf(tableOf(kind).rights.filter((right) => risks.includes(right[5])));

const bitCount = (mask) => mask.toString(2).replaceAll("0", "").length;

// What Windows' dialogs call masks, the widest first.
const LEVELS = Object.fromEntries(Object.entries(KINDS).map(
    ([kind, {masks}]) => [kind, masks.map(([mask]) => mask).sort((one, other) => bitCount(other) - bitCount(one))]));

// The rights that were found of those asked about: or a level of Windows' dialogs that somebody had as a whole, if of
// what it has the found rights alone were asked about.
export const levelOf = (kind, had, asked) =>
    valueIn(LEVELS, kind).find((mask) => (mask & ~had) === 0 && (mask & asked) === (had & asked)) ??
    (had & asked) >>> 0;

// Whether a right of a kind, beside the standard ones, runs code as another account.
export const runsCode = (kind) => (atRisk(kind, ["takeover"]) & (DELETE - 1)) !== 0;

export const isDirectory = (kind) => mappingOf(kind) === "ds";

// The flags by which children inherit an ACE.
export const inheritedBy = (kind) => tableOf(kind).inherits.match(/../g) ?? [];

// What inherits from an object of a kind.
export const heirsOf = (kind) => inheritedBy(kind).map((flag) => (flag === "CI" ? "container" : "file")).sort();

// Whether an ACE applies to nothing: it is for children alone, and none inherits it.
export const isForNothing = ({flags}, kind) =>
    flags.includes("IO") && !inheritedBy(kind).some((flag) => flags.includes(flag));
