// What a reader should look at, each with its reason: {key, level, numbers, ...}. LEVEL is 'danger', 'caution' or
// 'note'. The words are in words.mjs. What is risky is found by the rules of risks.mjs, which sdtool-audit has too.
// Whether somebody gets a right is always an answer of check.
import {has, labelOf, MEDIUM, reasonsOf, tokenOf} from "./access.mjs";
import {risksOfAny} from "./classes.mjs";
import {guidBytes} from "./library.mjs";
import {doing, isForNothing, relativeOf} from "./meanings.mjs";
import {risksOf} from "./risks.mjs";
import {valueIn} from "./tables.mjs";
import {EVERYONE, OWNER_RIGHTS, SYNCHRONIZE, DECIDING} from "./well_known.mjs";

const PROTECTED = 0x1000;
const NO_WRITE_UP = 1;
const CREATORS = ["S-1-3-0", "S-1-3-1"];
// With this ACE a list has one for OWNER RIGHTS that grants nothing, so all that is granted is granted by ACEs.
const NO_OWNER_RULE = {
    kind: 0,
    flags: 0,
    mask: 0,
    sid: OWNER_RIGHTS
};
const LEVEL_OF = {
    high: "danger",
    medium: "caution",
    low: "caution",
    note: "note"
};

// The rights of a kind that change an object.
export const changing = (kind) => doing(kind, "change");

const numbersOf = (aces) => aces.map((ace) => ace.number);

// What the rules find of an object, whose class may be unknown.
export function findingsOf(library, model, options) {
    const find = options.kind === "ds" && options.classes.length === 0 ? risksOfAny : risksOf;
    return find(library, model, options);
}

// What the rules find, as warnings. A right that is one of an object type is told with it.
function ofRisks(findings, model) {
    const aliases =
        new Map([model.owner, ...model.dacl.aces].filter((one) => one?.alias).map(({sid, alias}) => [sid, alias]));
    return findings.map(
        ({rule, severity, who, numbers, mask, whole, object, says, isBelow, kind, onlyOf, exceptOf}) => ({
            key: object && !says ? `${rule} type` : rule,
            rule,
            level: valueIn(LEVEL_OF, severity),
            numbers,
            ...(who ? {who, alias: aliases.get(who) ?? null} : {}),
            ...(says ? {says} : {}),
            ...(mask === undefined ? {} : {mask}),
            ...(whole ? {whole} : {}),
            ...(object ? {object} : {}),
            ...(isBelow ? {isBelow} : {}),
            ...(kind ? {kind} : {}),
            onlyOf,
            exceptOf,
        }));
}

// What comes first in the order that Windows keeps: ACEs of the object itself before inherited ones, and among the
// former those that deny before those that allow.
function rank(ace) {
    if (ace.flags.includes("ID")) {
        return 2;
    }
    return ace.kind === "D" || ace.kind === "OD" ? 0 : 1;
}

function ofOrder(model) {
    const aces = model.dacl.aces.filter((ace) => DECIDING.includes(ace.kind));
    const at = aces.findIndex((ace, index) => index > 0 && rank(ace) < rank(aces[index - 1]));
    return at < 0 ? [] : [{key: "order", level: "caution", numbers: [aces[at - 1].number, aces[at].number]}];
}

// Why an ACE can't apply to anything, or null.
function whyUseless(ace, model, kindOfObject) {
    const {kind, flags} = ace;
    if (isForNothing(ace, kindOfObject)) {
        return "inheritsNothing";
    }
    if (ace.list === "dacl" && !DECIDING.includes(kind)) {
        return kind === "ML" ? "labelInDacl" : "auditInDacl";
    }
    if (ace.list === "sacl" && DECIDING.includes(kind)) {
        return "accessInSacl";
    }
    if ((kind === "AU" || kind === "OU") && !flags.includes("SA") && !flags.includes("FA")) {
        return "auditsNothing";
    }
    if (kind === "ML" && !/^S-1-16-\d+$/.test(ace.sid)) {
        return "labelWithoutLevel";
    }
    if (ace.sid === OWNER_RIGHTS && !model.owner && !flags.includes("IO")) {
        return "noOwner";
    }
    return null;
}

function ofUseless(model, kind) {
    const useless = [...model.dacl.aces, ...model.sacl.aces].map((ace) => ({ace, why: whyUseless(ace, model, kind)}));
    const warnings = useless.filter(({why}) => why).map(({ace, why}) => ({
        key: "useless",
        why,
        level: "caution",
        list: ace.list,
        numbers: [ace.number],
    }));
    const forCreators = model.dacl.aces.filter((ace) => CREATORS.includes(ace.sid) && !ace.flags.includes("IO"));
    return forCreators.length ? [...warnings, {key: "creatorHere", level: "note", numbers: numbersOf(forCreators)}] :
                                warnings;
}

// Whether an ACE for Owner Rights takes the owner's own rights away: whatever its rights are, they come in their place.
const limitsOwner = (ace) =>
    ace.list === "dacl" && ace.sid === OWNER_RIGHTS && DECIDING.includes(ace.kind) && !ace.flags.includes("IO");

// An ACE without rights does nothing, unless it limits the owner.
function ofMaskZero(model) {
    const useless = [...model.dacl.aces, ...model.sacl.aces].filter((ace) => ace.mask === 0 && !limitsOwner(ace));
    const limits = model.owner ? model.dacl.aces.filter(limitsOwner) : [];
    return [
        ...useless.map((ace) => ({key: "maskZero", level: "note", list: ace.list, numbers: [ace.number]})),
        ...limits.map((ace) => ({key: "ownerLimited", level: "note", list: ace.list, numbers: [ace.number]})),
    ];
}

// A deny whose rights the ACEs before it already grant to whomever it is for, with Everyone, whom each token has.
function ofLateDenies(library, model, descriptor, {mapping, object}) {
    const denies = model.dacl.aces.filter((ace) => (ace.kind === "D" || ace.kind === "OD") &&
            !ace.flags.includes("IO") && ace.mask !== 0 &&
            model.dacl.aces.some((other) => other.number < ace.number && /^O?A$/.test(other.kind)));
    if (!denies.length || denies.length > 200) {
        return denies.length ? [{key: "manyDenies", level: "note", numbers: []}] : [];
    }
    const parts = library.parts(descriptor);
    const before = [...parts.dacl.aces.slice(0, denies.at(-1).number - 1), NO_OWNER_RULE];
    const cut = library.build({...parts, dacl: before});
    return denies
        .filter((ace) => {
            const wanted = (ace.meaning & ~0x0f000000) >>> 0;
            const sid = ace.sid === OWNER_RIGHTS && model.owner ? model.owner.sid : ace.sid;
            const request = {mapping, objectType: guidBytes(library, ace.object ?? object)};
            const reasons = reasonsOf(library, cut, tokenOf(library, [sid, EVERYONE]), request);
            return wanted !== 0 &&
                reasons.every(
                    ({bit, kind, number}) => !has(wanted, bit) || (kind === "granted" && number < ace.number));
        })
        .map((ace) => ({key: "lateDeny", level: "caution", numbers: [ace.number], who: ace.sid, alias: ace.alias}));
}

function ofInheritance(model) { return has(model.control, PROTECTED) ? [{key: "protected", level: "note"}] : []; }

// What an object without a label has is told of none.
function ofLabel(model) {
    const label = labelOf(model);
    return label && !(label.sid === MEDIUM && label.mask === NO_WRITE_UP) ? [{
        key: "label",
        level: "note",
        list: "sacl",
        numbers: [label.number],
        who: label.sid,
        alias: label.alias,
        policy: label.mask
    }] :
                                                                            [];
}

function ofDomains(model, domain) {
    const sids =
        [model.owner?.sid, model.group?.sid, ...[...model.dacl.aces, ...model.sacl.aces].map((ace) => ace.sid)];
    const domains = [...new Set([...new Set(sids)].map((sid) => sid && relativeOf(sid)?.domain).filter(Boolean))];
    const others = domain ? domains.filter((one) => one !== domain) : domains;
    if (domain ? others.length === 0 : others.length < 2) {
        return [];
    }
    return [{key: domain ? "otherDomain" : "severalDomains", level: "note", domains: others}];
}

function ofObjectTypes(model, object, grid) {
    const typed = model.dacl.aces.filter((ace) => DECIDING.includes(ace.kind) && ace.object && ace.object !== object);
    const forClass =
        model.dacl.aces.filter((ace) => DECIDING.includes(ace.kind) && ace.inherited && !ace.flags.includes("IO"));
    return [
        ...(typed.length ? [{key: "objectTypes", level: "note", numbers: numbersOf(typed)}] : []),
        ...(grid.areTypesLeft ? [{key: "manyTypes", level: "caution"}] : []),
        ...(forClass.length ? [{key: "inheritedTypes", level: "note", numbers: numbersOf(forClass)}] : []),
    ];
}

function ofUnnamedRights(model, grid) {
    const unnamed = model.dacl.aces.filter(
        (ace) => DECIDING.includes(ace.kind) && (ace.meaning & ~grid.rights & ~SYNCHRONIZE) !== 0);
    return unnamed.length ? [{key: "unnamedRights", level: "note", numbers: numbersOf(unnamed)}] : [];
}

const LEVELS = ["danger", "caution", "note"];

export function warningsOf(library, descriptor, model, grid, findings, options) {
    const {kind, domain, object} = options;
    const all = [
        ...ofRisks(findings, model),
        ...ofOrder(model),
        ...ofUseless(model, kind),
        ...ofMaskZero(model),
        ...ofLateDenies(library, model, descriptor, options),
        ...ofInheritance(model),
        ...ofLabel(model),
        ...ofDomains(model, domain),
        ...ofObjectTypes(model, object, grid),
        ...ofUnnamedRights(model, grid),
        ...(model.owner ? [] : [{key: "noOwner", level: "note"}]),
        ...(grid.left ? [{key: "manyTrustees", level: "caution", count: grid.left}] : []),
    ];
    return all.sort((one, other) => LEVELS.indexOf(one.level) - LEVELS.indexOf(other.level));
}
