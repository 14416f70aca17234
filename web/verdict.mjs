// The one verdict that the page gives first: how grave is it, who can change the object, and how. It is plain data, of
// which sentences.mjs makes the words. Whether somebody gets a right is always an answer of the library.
//
// VERDICT is 'act', 'look', 'named', 'fine' or 'unknown', and KEY says by which case: 'noDacl', 'nullDacl', 'nobody',
// 'finding', 'changers', 'class', 'kind', 'condition', 'conditions', 'manyPairs' or 'manyClasses'.
import {isHarmless} from "./abilities.mjs";
import {grantedOf, reasonsOf, tokenOf} from "./access.mjs";
import {aceText, guidBytes} from "./library.mjs";
import {
    atRisk,
    doing,
    everybodyClass,
    inheritedBy,
    isDirectory,
    isTrusted,
    mappingOf,
    maskBelow,
    meaningOfSid,
    rightsOfKind,
    tableOf
} from "./meanings.mjs";
import {caseOf} from "./risks.mjs";
import {EVERYONE, OWNER_RIGHTS, DELETE, WRITE_DAC, WRITE_OWNER, TAKE_OVER, ALLOWS, DENIES} from "./well_known.mjs";

const GENERIC_ALL = 0x10000000;
const GRAVE = ["high", "medium"];
const CLASSES = ["anyone", "logged-on", "application"]; // those of everybody, the widest first
const MOST_ASKED = 1000;                                // ACEs times kinds
const MOST_DENIED = 50;                                 // ACEs

const isHere = (ace) => !ace.flags.includes("IO");
const isAllowing = (ace) => ALLOWS.includes(ace.kind);

// Whose token an ACE is about, or null if nobody has its SID.
function trusteeOf(ace, model) {
    if (ace.sid === OWNER_RIGHTS) {
        return model.owner?.sid ?? null;
    }
    return meaningOfSid(ace.sid).who === "stand-in" ? null : ace.sid;
}

const tokenFor = (library, sid) => tokenOf(library, [sid, ...meaningOfSid(sid).also]);

const requestFor = (library, kind, object) =>
    ({mapping: mappingOf(kind), objectType: guidBytes(library, object ?? "")});

// What a trustee gets of a descriptor, as a whole or for an object type.
const granted = (library, descriptor, sid, kind, object = "") =>
    grantedOf(library, descriptor, tokenFor(library, sid), requestFor(library, kind, object), rightsOfKind(kind));

// Compares lists of numbers, the first of which counts most.
function byRanks(one, other) {
    const at = one.ranks.findIndex((rank, place) => rank !== other.ranks[place]);
    return at < 0 ? 0 : one.ranks[at] - other.ranks[at];
}

const rankOf = (sid) => (CLASSES.indexOf(everybodyClass(sid)) + CLASSES.length + 1) % (CLASSES.length + 1);

// How much one can do: all, permissions or owner, something with a name, change or delete what is there, or add.
function rankOfRights({mask, says = ""}, kind) {
    const isOfPermissions = (mask & TAKE_OVER) !== 0;
    if (isOfPermissions) {
        return (mask & TAKE_OVER) >>> 0 === TAKE_OVER && (mask & ~TAKE_OVER) !== 0 ? 0 : 1;
    }
    return says ? 2 : (mask & ~atRisk(kind, ["adding"])) !== 0 ? 3 : 4;
}

// Permissions of a share are not all: its files have their own.
const gravityOf = ({severity, who}, {kind, isKindOpen}) =>
    (severity === "high" && !(kind === "share" && !isKindOpen && everybodyClass(who ?? "")) ? "act" : "look");

function ranked(findings, about) {
    const {kind} = about;
    const all = findings.map((finding) => {
        const {who, isBelow, numbers} = finding;
        const isAct = gravityOf(finding, about) === "act";
        const ranks =
            [isAct ? 0 : 1, isBelow ? 1 : 0, rankOf(who), rankOfRights(finding, finding.kind ?? kind), numbers[0] ?? 0];
        return {finding, ranks};
    });
    return all.sort(byRanks).map(({finding}) => finding);
}

// How far an answer reaches: what is made in the object too, or alone.
function reachOf(aces, isBelow, kind) {
    const goesOn = aces.some((ace) => inheritedBy(kind).some((flag) => ace.flags.includes(flag)));
    return isBelow ? "below" : goesOn ? "all" : "here";
}

// Whether Windows gives this right of a directory object to everybody, and it does nothing that counts.
const isIdle = ({meaning, object}, kind) => isDirectory(kind) && Boolean(object) && isHarmless(meaning, object);

const acesOf = (model, numbers) => numbers.map((number) => model.dacl.aces[number - 1]).filter(Boolean);

const isInherited = (aces) => aces.length > 0 && aces.every((ace) => ace.flags.includes("ID"));

// Whom earlier ACEs deny some of what a wider group gets, and nothing else gives it.
function deniedOf(library, descriptor, model, {who, granted: mask, numbers, kind}) {
    const last = Math.max(0, ...numbers);
    return model.dacl.aces
        .filter((ace) => DENIES.includes(ace.kind) && isHere(ace) && !ace.object && ace.sid !== who &&
                ace.number < last && trusteeOf(ace, model) && (ace.meaning & mask) !== 0)
        .slice(0, MOST_DENIED)
        .map((ace) => {
            const has = granted(library, descriptor, trusteeOf(ace, model), kind);
            return {who: ace.sid, mask: (ace.meaning & mask & ~has) >>> 0, number: ace.number};
        })
        .filter((one) => one.mask !== 0);
}

// The worst of what the rules find, or why it isn't known; null if nothing grave is found.
function ofFindings(library, about) {
    const {descriptor, model, findings, kind} = about;
    const grave = findings.filter(({severity}) => GRAVE.includes(severity));
    const isSure = ({who, onlyOf, exceptOf}) => who && !onlyOf && !exceptOf;
    const [worst] = ranked(grave.filter(isSure), about);
    const open = grave.filter((one) => !isSure(one));
    const [doubt] = [...open.filter(({who}) => !who), ...ranked(open.filter(({who}) => who), about)];
    const isAct = worst && gravityOf(worst, about) === "act";
    if (doubt && !isAct && (!worst || !doubt.who || gravityOf(doubt, about) === "act")) {
        return doubt.who ? {...told(library, descriptor, model, doubt, kind), verdict: "unknown", key: "class"} :
                           {verdict: "unknown", key: doubt.rule};
    }
    if (!worst) {
        return null;
    }
    return {
        ...told(library, descriptor, model, worst, kind),
        verdict: gravityOf(worst, about),
        key: "finding",
        more: grave.length - 1
    };
}

function told(library, descriptor, model, finding, kindOfObject) {
    const {rule, who, mask = 0, object = "", says, isBelow = false, numbers, onlyOf, exceptOf} = finding;
    const kind = finding.kind ?? kindOfObject;
    const aces = acesOf(model, numbers);
    const whole = isBelow ? aces.reduce((all, ace) => all | maskBelow(ace, kind), 0) :
                            granted(library, descriptor, who, kind, object);
    const about = {
        rule,
        kind,
        who: [who],
        mask,
        granted: (whole | mask) >>> 0,
        numbers,
        reach: reachOf(aces, isBelow, kind),
        isInherited: isInherited(aces),
        ...(says ? {says} : {}),
        ...(object ? {object} : {}),
        ...(onlyOf       ? {onlyOf} :
                exceptOf ? {exceptOf} :
                           {})
    };
    const isOfGroup = everybodyClass(who) && !isBelow;
    return {...about, denied: isOfGroup ? deniedOf(library, descriptor, model, {...about, who}) : []};
}

// Nobody gets anything: the list is empty, has no ACE that allows something here, or everyone is denied first. Of an
// owner who isn't trusted the rules tell more.
function ofNobody(library, {descriptor, model, findings, kind, domain}) {
    const {aces} = model.dacl;
    const owner = model.owner?.sid ?? null;
    if (tableOf(kind).rule || (owner && !isTrusted(owner, domain))) {
        return null;
    }
    const isSome = aces.some((ace) => {
        const sid = isAllowing(ace) && isHere(ace) && ace.meaning !== 0 ? trusteeOf(ace, model) : null;
        return sid &&
            reasonsOf(library, descriptor, tokenFor(library, sid), requestFor(library, kind, ace.object))
                .some((reason) => reason.kind === "granted");
    });
    if (isSome) {
        return null;
    }
    const [first] = aces;
    const isDenied = first && DENIES.includes(first.kind) && first.sid === EVERYONE && isHere(first);
    const why = !first ? "empty" : isDenied ? "denied" : "none";
    const more = findings.filter(({severity}) => GRAVE.includes(severity)).length;
    return {verdict: "look", key: "nobody", why, numbers: isDenied ? [1] : [], owner, more};
}

// What children inherit of ACEs, as a descriptor for each flag by which they do. An ACE that denies only some of them
// denies nothing here.
function belowOf(library, kept, kind) {
    const isForAll = ({ace}) => isAllowing(ace) || (!ace.inherited && !ace.flags.includes("NP"));
    return inheritedBy(kind).map((flag) => library.fromSddl(`D:${
                                     kept.filter((one) => one.ace.flags.includes(flag) && isForAll(one))
                                         .map(({ace}) => aceText({...ace, flags: [], mask: maskBelow(ace, kind)}))
                                         .join("")}`));
}

// Who gets rights that change an object, by the ACEs that allow them and as its owner: {who, granted, isPart, numbers,
// reach, isOwner}. What Windows itself gives isn't asked about.
function changersOf(library, {descriptor, model, kind, domain, place}) {
    const change = doing(kind, "change");
    const {kept} = caseOf(model, {kind, domain, ...place});
    const found = new Map();
    const add = (who, more, number) => {
        const one = found.get(who) ?? {who, granted: 0, isPart: true, isBelow: true, numbers: []};
        found.set(who, {
            ...one,
            granted: (one.granted | more.granted) >>> 0,
            isPart: one.isPart && more.isPart,
            isBelow: one.isBelow && more.isBelow,
            isOwner: one.isOwner || more.isOwner,
            numbers: number ? [...one.numbers, number] : one.numbers
        });
    };
    const owner = model.owner?.sid;
    if (owner && !tableOf(kind).rule) {
        const reasons = reasonsOf(library, descriptor, tokenFor(library, owner), requestFor(library, kind, ""));
        if (reasons.some((reason) => reason.bit === WRITE_DAC && reason.kind === "owner")) {
            add(owner, {granted: WRITE_DAC, isPart: false, isBelow: false, isOwner: true});
        }
    }
    const known = new Map();
    const gets = (one, sid, object) => {
        const key = `${one === descriptor ? "" : below.indexOf(one)} ${sid} ${object}`;
        known.set(key, known.get(key) ?? granted(library, one, sid, kind, object));
        return known.get(key);
    };
    let below = null;
    for (const {ace} of kept) {
        const sid = isAllowing(ace) ? trusteeOf(ace, model) : null;
        const mask = isHere(ace) ? ace.meaning : maskBelow(ace, kind);
        if (!sid || (mask & change) === 0 || isIdle(ace, kind)) {
            continue;
        }
        below ??= isHere(ace) ? null : belowOf(library, kept, kind);
        const descriptors = isHere(ace) ? [descriptor] : below;
        const got = descriptors.reduce((all, one) => all | gets(one, sid, ace.object ?? ""), 0) & mask;
        if ((got & change) !== 0) {
            add(sid, {granted: got, isPart: Boolean(ace.object), isBelow: !isHere(ace), isOwner: false}, ace.number);
        }
    }
    return [...found.values()];
}

function ofChangers(library, about) {
    const {model, kind, domain} = about;
    const all = changersOf(library, about).map((one) => {
        const rank = rankOfRights({mask: one.granted}, kind);
        return {...one, ranks: [one.isBelow ? 1 : 0, rankOf(one.who), rank, one.numbers[0] ?? 0]};
    });
    const trusted = all.filter(({who}) => isTrusted(who, domain)).map(({who}) => who);
    const others = all.filter(({who}) => !isTrusted(who, domain)).sort(byRanks);
    if (!others.length) {
        return {verdict: "fine", key: "changers", kind, who: [], trusted};
    }
    const [first] = others;
    const aces = acesOf(model, first.numbers);
    return {
        verdict: "named",
        key: "changers",
        kind,
        who: others.map(({who}) => who),
        trusted,
        granted: first.granted,
        mask: (first.granted & doing(kind, "change")) >>> 0,
        numbers: first.numbers,
        isPart: others.every(({isPart}) => isPart),
        isOwner: first.isOwner && !first.numbers.length,
        reach: reachOf(aces, first.isBelow, kind),
        isInherited: isInherited(aces),
        denied: []
    };
}

// The widest group of everybody that may read the object, or null.
function readerOf(library, {descriptor, model, kind}) {
    const read = doing(kind, "read");
    const groups = new Set(model.dacl.aces.filter((ace) => isAllowing(ace) && isHere(ace) && (ace.meaning & read) !== 0)
                               .map(({sid}) => sid)
                               .filter((sid) => everybodyClass(sid)));
    return [...groups]
               .sort((one, other) => rankOf(one) - rankOf(other))
               .find((sid) => (granted(library, descriptor, sid, kind) & read) !== 0) ??
        null;
}

// Who gets rights that Windows itself gives.
function excusedOf(library, {descriptor, model, kind, domain, place}) {
    const kept = new Set(caseOf(model, {kind, domain, ...place}).kept.map(({ace}) => ace));
    const excused =
        model.dacl.aces.filter((ace) => isAllowing(ace) && isHere(ace) && (!kept.has(ace) || isIdle(ace, kind)))
            .map((ace) => ({ace, sid: trusteeOf(ace, model)}))
            .filter(({ace, sid}) => sid && !isTrusted(sid, domain) &&
                    (granted(library, descriptor, sid, kind, ace.object ?? "") & ace.meaning) !== 0);
    return [...new Set(excused.map(({sid}) => sid))];
}

// The numbers of ACEs that no reader looks for: of those who are trusted, of nobody, and that Windows itself gives.
export function usualOf(model, options) {
    const {kind, domain} = options;
    const kept = new Set(caseOf(model, options).kept.map(({ace}) => ace));
    const isUsual = (ace) => ALLOWS.includes(ace.kind) &&
        (!kept.has(ace) || isIdle(ace, kind) || isTrusted(ace.sid, domain) || meaningOfSid(ace.sid).who === "stand-in");
    return new Set(model.dacl.aces.filter(isUsual).map(({number}) => number));
}

/**
 * The verdict about a descriptor of one kind, or of one of those that it may be. MODEL has the meanings of its masks
 * for the kind, DESCRIPTOR is what the library is asked about, and FINDINGS are those of the rules. PLACE is that of a
 * directory object.
 */
export function verdictOf(library, about) {
    const {model, kind} = about;
    const {state} = model.dacl;
    if (state !== "list") {
        return {verdict: "act", key: state === "absent" ? "noDacl" : "nullDacl", kind, who: [EVERYONE], numbers: []};
    }
    const found = ofNobody(library, about) ?? ofFindings(library, about) ?? ofChangers(library, about);
    return {kind, ...found, reader: readerOf(library, about), excused: excusedOf(library, about)};
}

const sameAs = (one, other) => one.verdict === other.verdict && one.key === other.key &&
    (one.verdict === "fine" || String(one.who ?? []) === String(other.who ?? []));

// What else is said of the first of some verdicts: what holds for each of them, and nothing of what stands below one.
function ofEach(verdicts) {
    const [{reader, denied = [], excused = []}] = verdicts;
    const isOfAll = (isIn) => verdicts.every(isIn);
    return {
        reader: isOfAll((one) => one.reader === reader) ? reader : null,
        denied: denied.filter(({number}) => isOfAll((one) => one.denied?.some((other) => other.number === number))),
        excused: excused.filter((sid) => isOfAll((one) => one.excused?.includes(sid))),
        more: 0
    };
}

// What holds of a mask for every kind (MS-DTYP 2.4.3), in the order of what counts most.
function neutral({numbers = []}, model, isFull) {
    const mask = acesOf(model, numbers).reduce((all, ace) => all | ace.mask, 0);
    const words = [
        ["full", isFull || (mask & GENERIC_ALL) !== 0], ["permissions", (mask & WRITE_DAC) !== 0],
        ["owner", (mask & WRITE_OWNER) !== 0], ["delete", (mask & DELETE) !== 0]
    ];
    return words.find(([, isSo]) => isSo)?.[0] ?? "change";
}

const isFullOf = ({granted: mask = 0, kind}) => {
    const [, , , all] = tableOf(kind).mapping;
    return (mask & all) >>> 0 === all;
};

// That it depends on the kind, and on whom.
const ofOpenKind = (verdicts) => ({
    verdict: "unknown",
    key: "kind",
    kind: "",
    who: [...new Set(
        verdicts.filter(({verdict, key}) => verdict !== "fine" && key !== "nobody").flatMap(({who = []}) => who))]
});

/**
 * The verdict where nothing tells the kind: the same for all that fit, or that it depends, and on whom. ASK gives the
 * verdict about a kind.
 */
export function verdictOfKinds(model, kinds, ask) {
    if (kinds.length * model.dacl.aces.length > MOST_ASKED) {
        return ofOpenKind([]);
    }
    const verdicts = kinds.map(ask);
    const [first] = verdicts;
    if (!verdicts.every((one) => sameAs(one, first) && one.verdict !== "unknown")) {
        return ofOpenKind(verdicts);
    }
    return {
        ...first,
        kind: "",
        does: neutral(first, model, first.numbers && verdicts.every(isFullOf)),
        trusted: [...new Set(verdicts.flatMap(({trusted = []}) => trusted))],
        numbers: verdicts.every(({numbers}) => String(numbers) === String(first.numbers)) ? first.numbers : [],
        ...ofEach(verdicts)
    };
}

/**
 * The verdict about ACEs with conditions: that of both, if they hold and if they don't. MOST and LEAST are the verdicts
 * as if each allowing one held and no denying one did, and the other way round. ACE is the first one. If both agree,
 * what is surely granted is told.
 */
export function verdictOfConditions(most, least, numbers, ace) {
    if (sameAs(most, least)) {
        const both = most.verdict === "fine" ? [most, least] : [least, most];
        return {...both[0], conditions: numbers, ...ofEach(both)};
    }
    const open = {verdict: "unknown", numbers};
    const isOfOne = most.who?.length === 1 && most.granted !== undefined;
    const {kind} = most;
    if (kind === "" && !isOfOne) {
        return ofOpenKind([most, least]);
    }
    if (numbers.length > 1) {
        return {...open, key: "conditions", worst: most};
    }
    const isDeny = DENIES.includes(ace.kind);
    const ofAce = {kind, who: [ace.sid], granted: ace.meaning, mask: ace.meaning, reach: "here"};
    const isOfMost = isOfOne && (isDeny || kind === "" || most.numbers?.includes(ace.number));
    return {...(isOfMost ? {...most, ...ofEach([most, least])} : ofAce), ...open, key: "condition", isDeny};
}
