// Who gets what, and why. Every verdict is an answer of check, and what decided is an answer of reasons, so there is no
// second access check here.
import {guidBytes, sidBytes} from "./library.mjs";
import {everybodyClass, meaningOfSid, tableOf} from "./meanings.mjs";
import {ALLOWS, OWNER_RIGHTS, SYSTEM_SECURITY, MAXIMUM_ALLOWED, GENERIC, DECIDING} from "./well_known.mjs";

const GRANTING = ["no-dacl", "owner", "privilege", "granted"];
const OF_ACES = ["granted", "denied"];
const EVERY_BIT = 0xfeffffff;        // but that of the right that no ACE grants
const OF_AN_OWNER = 0xe0000;         // to read and change the permissions, and the owner
const RESERVED = 0xc000000;          // bits that nobody may ask for
export const MEDIUM = "S-1-16-8192"; // the level of an object without a label
const FIRST_TRUSTEES = 100;
const MOST_TYPES = 200; // of objects that the page asks about in turn

// Groups that nearly everybody is in.
export const isBroad = (sid) => everybodyClass(sid) !== null;

const bitsOf = (mask) => Array.from({length: 32}, (_, place) => (1 << place) >>> 0).filter((bit) => (mask & bit) !== 0);

// Numbers, each once.
export const inOrder = (numbers) => [...new Set(numbers)].sort((one, other) => one - other);

const has = (mask, bit) => (mask & bit) >>> 0 === bit;

// The SIDs of a token that count for each ACE, and those that count only for ACEs that deny.
const splitToken = (token) => [false, true].map(
    (isDenyOnly) => token.filter((entry) => Boolean(entry.denyOnly) === isDenyOnly).map((entry) => entry.bytes));

function granted(library, descriptor, token, request) {
    const [sids, denyOnly] = splitToken(token);
    return library.check(descriptor, sids, {denyOnly, ...request});
}

// The rights of the mapping that a token gets.
function maximumOf(library, descriptor, token, request) {
    const verdict = granted(library, descriptor, token, {...request, wanted: 0, maximum: true});
    return verdict.granted ? verdict.mask : 0;
}

// What of the asked rights, one by one, is granted. The maximum has the rights of the mapping alone, so others are
// asked for by themselves.
function grantedOf(library, descriptor, token, request, rights) {
    const mask = maximumOf(library, descriptor, token, request);
    const others = (rights & ~(tableOf(request.mapping).mapping[3] | GENERIC | RESERVED | MAXIMUM_ALLOWED)) >>> 0;
    const alone = bitsOf(others).filter(
        (bit) => granted(library, descriptor, token, {...request, wanted: bit, maximum: false}).granted);
    return (alone.reduce((all, bit) => all | bit, mask) & rights) >>> 0;
}

function wordOf(kind, bit) {
    if (kind === "nothing" && bit === SYSTEM_SECURITY) {
        return "no-privilege";
    }
    return kind === "label" ? "level" : OF_ACES.includes(kind) ? "ace" : kind;
}

// What decided about each right, by its place in a mask: {bit, isGranted, kind, by, number}. BY is 'privilege',
// 'no-privilege', 'level', 'no-dacl', 'owner', 'ace' or 'nothing', and NUMBER that of the ACE, from 1, or null.
export function reasonsOf(library, descriptor, token, request) {
    const [sids, denyOnly] = splitToken(token);
    return library.reasons(descriptor, sids, {denyOnly, ...request}).map(({kind, place}, right) => {
        const bit = 2 ** right;
        const number = OF_ACES.includes(kind) ? place + 1 : null;
        return {bit, isGranted: GRANTING.includes(kind), kind, by: wordOf(kind, bit), number};
    });
}

const maskOf = (reasons, isMeant) => reasons.filter(isMeant).reduce((mask, {bit}) => mask | bit, 0);

// Which of some rights are granted, which of these by a rule whatever the ACEs say, and which an ACE denies.
const decided = (reasons, rights) => ({
    granted: maskOf(reasons, ({isGranted}) => isGranted) & rights,
    byRule: maskOf(reasons, ({isGranted, number}) => isGranted && number === null) & rights,
    denied: maskOf(reasons, ({kind}) => kind === "denied") & rights,
});

// A browser copies one text from the worker faster than many objects.
const packed = (reasons) => reasons.map(({by, number}) => (number === null ? by : `${by} ${number}`)).join(",");

// What decided about each right of a row of the grid.
export const decidedOf = (row) => row.reasons.split(",").map((reason, place) => {
    const [by, number] = reason.split(" ");
    return {bit: 2 ** place, by, number: number === undefined ? null : Number(number)};
});

// What decided about one.
export const reasonIn = (row, bit) => ({...decidedOf(row)[Math.log2(bit)], isGranted: has(row.granted, bit)});

// What a trustee has by ACEs of its own, also behind those of wider groups, or by a rule. What only wider groups have
// is told of these, unless an ACE denies some of it.
export function ownOf(row) {
    const byRule = decidedOf(row).filter(({by}) => by !== "ace");
    return row.denied ? row.granted : ((row.given | byRule.reduce((mask, {bit}) => mask | bit, 0)) & row.granted) >>> 0;
}

// The trustees of a DACL, in the order in which they first occur, and the owner before them. GIVEN is what ACEs of its
// own allow a trustee here, of the object type that is asked for, and GIVING are their numbers.
function trusteesOf(model, object) {
    const rows = new Map();
    const add = (who, isOwner) => {
        if (!rows.has(who.sid)) {
            rows.set(who.sid, {sid: who.sid, alias: who.alias, isOwner, numbers: [], given: 0, giving: []});
        }
    };
    if (model.owner) {
        add(model.owner, true);
    }
    for (const ace of model.dacl.aces) {
        if (DECIDING.includes(ace.kind)) {
            add(ace, false);
            const row = rows.get(ace.sid);
            row.numbers.push(ace.number);
            if (ALLOWS.includes(ace.kind) && !ace.flags.includes("IO") && (!ace.object || ace.object === object)) {
                row.given = (row.given | ace.meaning) >>> 0;
                row.giving.push(ace.number);
            }
        }
    }
    return [...rows.values()];
}

// The SIDs of a row's token: the trustee, and with COMMON the groups that whoever has that SID is in as well.
// An ACE for OWNER RIGHTS is about the owner.
export function tokenSids(sid, model, common) {
    const meant = sid === OWNER_RIGHTS && model.owner ? model.owner.sid : sid;
    return [...new Set([meant, ...(common ? meaningOfSid(meant).also : [])])];
}

// The rights that the ACEs of a list name, and those of an owner: no others are granted by them.
export function namedRights(model) {
    const named = model.dacl.aces.reduce((mask, ace) => (mask | ace.meaning) >>> 0, OF_AN_OWNER);
    return model.dacl.state === "list" ? (named & EVERY_BIT) >>> 0 : EVERY_BIT;
}

export const tokenOf = (library, sids) => sids.map((sid) => ({sid, bytes: sidBytes(library, sid), denyOnly: false}));

// The rights that the kind of object has, by what check answers to a descriptor that grants everything.
const rightsOfMapping = (library, mapping) =>
    maximumOf(library, library.fromSddl("D:NO_ACCESS_CONTROL"), tokenOf(library, ["WD"]), {mapping});

// Trustees down, rights across. A cell is 'granted', 'rule' (granted whatever the ACEs say: the owner's, or there is
// no list), 'denied' (by an ACE) or 'none'. Of a list for very many trustees only the first ones and broad groups are
// asked about, unless ALL of them are wanted.
export function gridOf(
    library, descriptor, model, {mapping, object, common, all, rights = rightsOfMapping(library, mapping)}) {
    const objectType = guidBytes(library, object);
    const types = typesOf(model, mapping);
    const trustees = trusteesOf(model, object);
    const asked = trustees.filter((row, index) => all || index < FIRST_TRUSTEES || isBroad(row.sid));
    const rows = asked.map((row) => {
        const sids = tokenSids(row.sid, model, common);
        const token = tokenOf(library, sids);
        const reasons = reasonsOf(library, descriptor, token, {mapping, objectType});
        const answers = {...decided(reasons, rights), reasons: packed(reasons)};
        const typed = object ? [] :
                               typedRights(library, descriptor, typesFor(types, sids), token, mapping, answers.granted,
                                   namedRights(model));
        return {...row, token: sids, ...answers, typed};
    });
    return {
        rights,
        rows,
        left: trustees.length - asked.length,
        isList: model.dacl.state === "list",
        areTypesLeft: types.isCut,
    };
}

// What of some rights a token gets of each object type for which ACEs are, and of the object as a whole.
export const grantedByType = (library, descriptor, types, token, mapping, rights) => types.map(
    (object) => grantedOf(library, descriptor, token, {mapping, objectType: guidBytes(library, object)}, rights));

// The object types that ACEs are for, and those for each SID. Without one of them asked for, such an ACE does not
// apply.
export function typesOf(model, mapping) {
    const aces =
        model.dacl.aces.filter((ace) => DECIDING.includes(ace.kind) && ace.object && !ace.flags.includes("IO"));
    const all = mapping === "ds" ? [...new Set(aces.map((ace) => ace.object))] : [];
    const asked = new Set(all.slice(0, MOST_TYPES));
    return {...typesBySid(aces.filter((ace) => asked.has(ace.object))), isCut: all.length > MOST_TYPES};
}

// The object types that ACEs are for, and those for each SID.
export function typesBySid(aces) {
    const bySid = new Map();
    for (const {sid, object} of aces) {
        bySid.set(sid, (bySid.get(sid) ?? new Set()).add(object));
    }
    return {all: [...new Set(aces.map((ace) => ace.object))], bySid};
}

// The types to ask about for a token: those of ACEs for one of its SIDs, or for whoever owns the object. About any
// other type the answer is that about the object as a whole, since no ACE that applies is for it.
export function typesFor(types, sids) {
    const found = new Set([...sids, OWNER_RIGHTS].flatMap((sid) => [...(types.bySid.get(sid) ?? [])]));
    return types.all.filter((object) => found.has(object));
}

// What a token is granted for an object type beyond what it is granted for the object as a whole.
function typedRights(library, descriptor, types, token, mapping, whole, rights) {
    return types
        .map((object) => ({
            object,
            mask: (grantedOf(library, descriptor, token, {mapping, objectType: guidBytes(library, object)}, rights) &
                      ~whole) >>>
                0
        }))
        .filter(({mask}) => mask !== 0);
}

export function cellOf(row, bit) {
    if (has(row.byRule, bit)) {
        return "rule";
    }
    if (has(row.granted, bit)) {
        return "granted";
    }
    return has(row.denied, bit) ? "denied" : "none";
}

// What of the two numbers that a request may not have the program would refuse.
export const isRefusedRequest = (wanted, maximum) => (wanted === 0 && !maximum ? 50 :
        (wanted & RESERVED) !== 0                                              ? 51 :
                                                                                 0);

// The label of an object that counts, if it has one, and its integrity level.
export const labelOf = ({sacl}) =>
    sacl.aces.find((ace) => ace.kind === "ML" && !ace.flags.includes("IO") && /^S-1-16-\d+$/.test(ace.sid));
export const levelOfObject = (model) => Number((labelOf(model)?.sid ?? MEDIUM).slice("S-1-16-".length));

// The verdict of check on a token and what is asked for, and the reason of each right that is asked for or granted.
// RIGHTS are those of the kind of object. Of a kind that has no mapping of its own the reasons say all that is granted.
export function ask(library, descriptor, token, asked) {
    const {wanted, maximum, mapping, rights: named, isOwn, level, object, self, security, takeOwnership} = asked;
    const request = {
        mapping,
        security,
        takeOwnership,
        objectType: guidBytes(library, object),
        ...(level === null ? {} : {level}),
        ...(self ? {principalSelf: sidBytes(library, self)} : {}),
    };
    const verdict = granted(library, descriptor, token, {...request, wanted, maximum});
    const isForAll = maximum || (wanted & MAXIMUM_ALLOWED) !== 0;
    const meant = meantBy(library, wanted, mapping);
    const rights = (meant | (isForAll ? named | (security ? SYSTEM_SECURITY : 0) : 0)) >>> 0;
    const reasons = reasonsOf(library, descriptor, token, request).filter(({bit}) => has(rights, bit));
    if (isOwn && isForAll) {
        const mask = maskOf(reasons, ({isGranted}) => isGranted);
        const missing = (meant & ~mask) >>> 0;
        Object.assign(verdict, {granted: mask !== 0 && missing === 0, mask: missing || mask});
    }
    return {verdict, reasons: reasons.map((reason) => ({...reason, isWanted: has(meant, reason.bit)}))};
}

// The rights that wanted rights mean for a kind of object: what check says is missing where nothing is granted.
function meantBy(library, wanted, mapping) {
    const asked = (wanted & ~MAXIMUM_ALLOWED) >>> 0;
    if (asked === 0) {
        return 0;
    }
    return library.check(library.fromSddl("D:"), [sidBytes(library, "WD")], {wanted: asked, mapping}).mask >>> 0;
}

// What the mask of an ACE means for a kind of object, with generic rights replaced.
export function meaningOf(library, mask, mapping) {
    const plain = (mask & ~(RESERVED | MAXIMUM_ALLOWED)) >>> 0;
    return (mask & GENERIC) !== 0 ? (meantBy(library, plain, mapping) | (mask & (RESERVED | MAXIMUM_ALLOWED))) >>> 0 :
                                    mask;
}

export {bitsOf, grantedOf, has};
