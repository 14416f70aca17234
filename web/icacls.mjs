// Reads what icacls lists: names of accounts and letters for rights. A listing has no owner, no group and no SIDs,
// so the page says that it was translated; a line with a name or a letter that is not in the tables here stays as it
// is, and then nothing of the listing is taken.

import {valueIn} from "./tables.mjs";
import {GENERIC} from "./well_known.mjs";
import {SIDS} from "./windows.mjs";

// What Windows puts before the names of SIDs that begin so, and what it calls those whose names here are others.
const AUTHORITIES = [
    ["S-1-5-32-", "builtin\\"], ["S-1-5-80-", "nt service\\"], ["S-1-5-", "nt authority\\"],
    ["S-1-15-2-", "application package authority\\"], ["S-1-1-", ""], ["S-1-3-", ""]
];
const OTHERS = {
    "S-1-5-7": "anonymous logon",
    "S-1-5-10": "self",
    "S-1-5-12": "restricted",
    "S-1-5-18": "system",
    "S-1-5-32-568": "iis_iusrs",
};
const MOST_WORDS = 8; // of a name
const ACCOUNTS = new Map(Object.entries(SIDS).flatMap(([sid, [alias, name]]) => {
    const [, authority] = AUTHORITIES.find(([begins]) => sid.startsWith(begins)) ?? [];
    return authority === undefined ? [] : [[`${authority}${valueIn(OTHERS, sid) ?? name}`.toLowerCase(), alias || sid]];
}));
// Masks of the simple rights and of the special ones.
const RIGHTS = new Map(Object.entries({
    F: 0x1f01ff,
    M: 0x1301bf,
    RX: 0x1200a9,
    R: 0x120089,
    W: 0x100116,
    D: 0x110000,
    N: 0x1f01ff,
    DE: 0x10000,
    RC: 0x20000,
    WDAC: 0x40000,
    WO: 0x80000,
    S: 0x100000,
    GR: 0x80000000,
    GW: 0x40000000,
    GE: 0x20000000,
    GA: 0x10000000,
    RD: 0x1,
    WD: 0x2,
    AD: 0x4,
    REA: 0x8,
    WEA: 0x10,
    X: 0x20,
    DC: 0x40,
    RA: 0x80,
    WA: 0x100,
}));
// Flags, in the order of SDDL.
const FLAGS = new Map([["OI", "OI"], ["CI", "CI"], ["NP", "NP"], ["IO", "IO"], ["I", "ID"]]);
const GROUPS = /:((?:\([A-Z,]+\)){1,20})$/;
const LAST = /^(?:Successfully processed \d+ files?.*)?$/;

// The account at the end of a text, by its longest name: what is before it is the path, which only the first line has.
function accountIn(text) {
    const lower = text.toLowerCase();
    let found = null;
    for (let [at, words] = [lower.length, 0]; at > 0 && words < MOST_WORDS; words += 1) {
        at = lower.lastIndexOf(" ", at - 1);
        const name = lower.slice(at + 1);
        const path = text.slice(0, text.length - name.length).trim();
        found = ACCOUNTS.has(name) ? {sid: ACCOUNTS.get(name), path} : found;
    }
    return found;
}

function aceOf(account, groups) {
    const isDeny = groups.includes("DENY") || groups.includes("N");
    const flags = [...FLAGS].filter(([letters]) => groups.includes(letters)).map(([, flag]) => flag).join("");
    const rest = groups.filter((group) => !FLAGS.has(group) && group !== "DENY");
    const names = rest.length === 1 ? rest[0].split(",") : [];
    if (names.length === 0 || names.some((name) => !RIGHTS.has(name))) {
        return null;
    }
    const mask = names.reduce((all, name) => (all | RIGHTS.get(name)) >>> 0, 0);
    return `(${isDeny ? "D" : "A"};${flags};0x${mask.toString(16)};;;${account})`;
}

// The SDDL of each object of a listing, {name, line}, or nothing if any part of it is unknown.
export function listingsIn(text) {
    const objects = [];
    for (const whole of text.split("\n")) {
        const line = whole.trim();
        if (LAST.test(line)) {
            continue;
        }
        const found = GROUPS.exec(line);
        const account = found && accountIn(line.slice(0, found.index));
        const ace = account && aceOf(account.sid, found[1].slice(1, -1).split(")("));
        // The line of an object's path isn't set in.
        const isFirst = !objects.length || (account?.path && !/^\s/.test(whole));
        if (!ace || (account.path && !isFirst)) {
            return [];
        }
        if (isFirst) {
            objects.push({name: account.path, line: "D:"});
        }
        objects.at(-1).line += ace;
    }
    return objects;
}

// What icacls does to a list of ACEs, one operation a line, where that gives exactly another list.

const SIMPLE = ["F", "M", "RX", "R"]; // of which a listing and a grant have the same mask
const LEVELS = new Map([["S-1-16-4096", "L"], ["S-1-16-8192", "M"], ["S-1-16-12288", "H"]]);
const keyOf = ({flags}) => flags.join("");
const textOf =
    ({kind, flags, mask, object, inherited, sid}) => [kind, flags.join(""), mask, object, inherited, sid].join(";");
const isInherited = ({flags}) => flags.includes("ID");
const isAlike = (one, other) =>
    one.length === other.length && one.map(textOf).sort().join("\n") === other.map(textOf).sort().join("\n");

// The order that icacls keeps: denied, allowed, inherited. What it does to another one nobody says.
const rankOf = (ace) => (isInherited(ace) ? 2 : ace.kind.endsWith("A") ? 1 : 0);
const isInOrder = (aces) => aces.every((ace, at) => at === 0 || rankOf(aces[at - 1]) <= rankOf(ace));

// Rights in letters, or null if some bit has none.
function lettersOf(mask) {
    const simple = SIMPLE.find((name) => RIGHTS.get(name) === mask);
    if (simple) {
        return simple;
    }
    const single = [...RIGHTS].filter(([name, bits]) => name !== "N" && (bits & (bits - 1)) === 0);
    const names = single.filter(([, bit]) => (mask & bit) !== 0);
    const all = names.reduce((bits, [, bit]) => (bits | bit) >>> 0, 0);
    return all === mask && mask !== 0 ? names.map(([name]) => name).join(",") : null;
}

// A trustee with flags and rights, as icacls reads them.
const entryOf = ({sid, flags, mask}) => `*${sid}:${flags.map((flag) => `(${flag})`).join("")}(${lettersOf(mask)})`;

// Why icacls can't make an ACE, or null. Only folders have flags, and those that hand on nothing are refused.
function whyNotAce({kind, flags, mask}, isFolder) {
    const isOdd = flags.some((flag) => !["OI", "CI", "NP", "IO"].includes(flag)) ||
        (flags.length > 0 && (!isFolder || !flags.some((flag) => flag === "OI" || flag === "CI")));
    return kind !== "A" && kind !== "D" ? "kind" : isOdd ? "flags" : lettersOf(mask) === null ? "rights" : null;
}

const isBoth = (one, other) => (one & other) !== 0 || ((one | other) & GENERIC) !== 0;

// The operations that make the explicit ACEs of a trustee others. A denial takes the same rights out of what is
// granted, and two ACEs with the same flags become one.
function stepsOf(sid, before, after, isFolder) {
    const why = after.map((ace) => whyNotAce(ace, isFolder)).find(Boolean) ??
        (before.some(({kind}) => kind !== "A" && kind !== "D") ? "kind" : null);
    if (why) {
        return {why};
    }
    const [[denied, denies], [allowed, allows]] =
        ["D", "A"].map((one) => [before, after].map((aces) => aces.filter(({kind}) => kind === one)));
    if (new Set(after.map((ace) => ace.kind + keyOf(ace))).size < after.length) {
        return {why: "twice"};
    }
    if (denies.some((one) => allows.some((other) => isBoth(one.mask, other.mask)))) {
        return {why: "both"};
    }
    const steps = [];
    const add = (step, ace) => steps.push([step, ace ? entryOf(ace) : `*${sid}`]);
    const isDenied = isAlike(denied, denies);
    if (!isDenied) {
        if (denied.length) {
            add("/remove:d");
        }
        denies.forEach((ace) => add("/deny", ace));
    }
    const isCut = !isDenied && denies.some((one) => allowed.some((other) => isBoth(one.mask, other.mask)));
    if (isAlike(allowed, allows) && !isCut) {
        return {steps};
    }
    const has = (ace) => allows.find((one) => keyOf(one) === keyOf(ace));
    const isMore = !isCut && new Set(allowed.map(keyOf)).size === allowed.length &&
        allowed.every((ace) => has(ace) && (ace.mask & ~has(ace).mask) === 0);
    const [only] = allowed;
    if (!isMore && allowed.length === 1 && has(only) && !denied.length && !denies.length) {
        add("/grant:r", has(only));
        allows.filter((ace) => ace !== has(only)).forEach((ace) => add("/grant", ace));
        return {steps};
    }
    if (!isMore) {
        add("/remove:g");
    }
    const isSame = (ace) => isMore && allowed.some((one) => textOf(one) === textOf(ace));
    allows.filter((ace) => !isSame(ace)).forEach((ace) => add("/grant", ace));
    return {steps};
}

function stepsOfLists(before, after, isFolder) {
    if (!isInOrder(before)) {
        return {why: "order"};
    }
    const bySid = new Map();
    for (const [at, aces] of [after, before].entries()) {
        for (const ace of aces) {
            bySid.set(ace.sid, bySid.get(ace.sid) ?? [[], []]);
            bySid.get(ace.sid)[at].push(ace);
        }
    }
    const all = [...bySid].filter(([, [one, other]]) => !isAlike(one, other)).map(([sid,
        [one, other]]) => stepsOf(sid, other, one, isFolder));
    const refused = all.find(({why}) => why);
    return refused ?? {steps: all.flatMap(({steps}) => steps)};
}

/**
 * The operations, each as its words, that make one list another: {steps}, or {why} there are none.
 * @param {{aces: any[], isProtected: boolean}} before
 */
export function stepsBetween(before, after, isFolder) {
    const [inherited, others] = [before, after].map(({aces}) => aces.filter(isInherited));
    const own = before.aces.filter((ace) => !isInherited(ace));
    const wanted = after.aces.filter((ace) => !isInherited(ace));
    if (!isInOrder(after.aces)) {
        return {why: "order"};
    }
    if (before.isProtected && !after.isProtected) {
        return {why: "inherits"};
    }
    if (before.isProtected === after.isProtected) {
        return isAlike(inherited, others) ? stepsOfLists(own, wanted, isFolder) : {why: "inherited"};
    }
    if (others.length) {
        return {why: "inherited"};
    }
    const copies = inherited.map((ace) => ({...ace, flags: ace.flags.filter((flag) => flag !== "ID")}));
    const [kept, dropped] =
        [["d", [...own, ...copies]], ["r", own]].map(([how, aces]) => ({how, ...stepsOfLists(aces, wanted, isFolder)}));
    const best = !kept.why && (dropped.why || kept.steps.length <= dropped.steps.length) ? kept : dropped;
    return best.why ? best : {steps: [[`/inheritance:${best.how}`], ...best.steps]};
}

// The operation that sets a label, or null.
export function stepOfLabel([label, ...more], isFolder) {
    const level = more.length ? null : LEVELS.get(label?.sid);
    const isPlain = label?.mask === 1 && label.flags.every((flag) => isFolder && (flag === "OI" || flag === "CI"));
    return level && isPlain ? ["/setintegritylevel", label.flags.map((flag) => `(${flag})`).join("") + level] : null;
}
