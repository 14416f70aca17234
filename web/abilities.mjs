// What rights of a directory object let somebody do, by name: windows/directory.toml has the list.
import {everybodyClass, isTrusted, meaningOfSid, tableOf} from "./meanings.mjs";
import {guidNames} from "./schema.mjs";
import {ABILITIES, HARMLESS} from "./windows.mjs";

const VALIDATED = 0x8;
const WRITE = 0x20;
const EXTENDED = 0x100;
const TEMPLATE = "pKICertificateTemplate";
const OF_CHILDREN = 0x3;                // rights whose object type is a class
const CHANGING = 0x1 | 0x2 | VALIDATED; // rights of an object type beside the extended ones and those of properties
const OF_TYPES = CHANGING | WRITE | EXTENDED; // what an object type can limit

// Whether it is a finding that a trustee has an ability. isTold says whether a rule for everybody tells of the trustee.
function isFor(ability, sid, domain, isTold) {
    if ((isTrusted(sid, domain) && !ability.also.includes(sid)) || meaningOfSid(sid).who === "stand-in") {
        return false;
    }
    if (ability.only === "somebody" && isTold) {
        return false;
    }
    return ability.only !== "everybody" || everybodyClass(sid) !== null;
}

const means = ({known, on}, {classes, isBelow}) =>
    (classes.length === 0 ? !(known && isBelow) : on.length === 0 || on.some((one) => classes.includes(one)));

// Whether all, or any, object types give an ability, or each that nothing names.
const isOfAll = ({types}) => types.some(([type]) => type === "");
const isOfAny = ({types}) => types.some(([type]) => type === "*");
const isOfUnnamed = ({types}) => types.some(([type]) => type === "?");

const isBy = (ability, object) => ability.types.some((path) => path.includes(object)) ||
    (isOfAny(ability) && !HARMLESS.includes(object)) ||
    (isOfUnnamed(ability) && object !== "" && guidNames(object).length === 0);

// The object types that decide about an ability together, where it comes by one of them, or by one that has all.
function pathsOf(ability, object) {
    const own = ability.types.filter((path) => path.includes(object));
    const others = isOfAll(ability) || isOfAny(ability) || isOfUnnamed(ability) ? [[object]] : ability.types;
    return own.length ? own : others;
}

// Whether an object type is that of an object as a whole: none, or its own class, which is one of some, or isn't known.
export const isOwn = (object, own) => object === "" ||
    guidNames(object, OF_CHILDREN).some(({name, type}) => type === "class" && (own.length === 0 || own.includes(name)));

// Whether an ACE may give a trustee an ability.
export const mayGive = (mask, object, sid, domain) => ABILITIES.some(
    (one) => (mask & one.right) !== 0 && (isOwn(object, []) || isBy(one, object)) && isFor(one, sid, domain, false));

// Whether an ACE gives a right alone that does nothing that counts.
export const isHarmless = (mask, object) => HARMLESS.includes(object) && (mask & CHANGING) === 0;

// What a trustee gets, of the object as a whole first.
export const partsOf = ({mask, typed}) => [{object: "", mask}, ...typed];

const isTemplate = ({classes}) => classes.at(-1) === TEMPLATE;

// The object types by which a trustee has an ability that needs several together, or nothing if it hasn't. One of these
// rights has to be its own.
function typesOfAll({types, right}, got, where, givesAll) {
    const own = partsOf(got).filter(({object, mask}) => (mask & right) !== 0 &&
            (types.some((path) => path.includes(object)) || isOwn(object, where.own)));
    const hasAll = own.length > 0 && where.hasAccounts && types.every((path) => givesAll(right, path));
    return hasAll ? [...new Set([...types.flat(), ...own.map(({object}) => object)])] : [];
}

// The rights by which a trustee has an ability that has object types of its own: all of them, where it has full
// control.
function wholeOf(ability, object, got) {
    const full = tableOf("ds").mapping[3];
    return object === "" && !isOfAll(ability) && (got.mask & full) === full ? full : ability.right;
}

// The rights that may give an ability, with their object types. What is told of all object types isn't told of each,
// and whoever may write all properties needs no validated writes.
function waysOf(ability, got, where) {
    const isEnrolling = ability.right === EXTENDED && isTemplate(where);
    const writing = ability.right === VALIDATED ? WRITE : 0;
    const isWhole = isOfAll(ability) ? !isEnrolling : writing !== 0 || (isEnrolling && ability.on.includes(TEMPLATE));
    return partsOf(got).filter(({object, mask}) => (object !== "" && isBy(ability, object)) ||
            (isWhole && ((got.mask | mask) & writing) === 0 && isOwn(object, where.own)));
}

// The abilities of a trustee, each once: {rule, mask, whole, object, types, severity, says}. TYPES are all object types
// by which it comes. GOT has its rights, and WHERE is the object, {classes, own, hasAccounts}. GIVES is asked about an
// ability that some ACE gives, GIVES_ALL about one of several rights.
export function abilitiesOf(sid, got, where, {gives, givesAll}, isTold, domain) {
    const found = new Map();
    for (const ability of ABILITIES) {
        if (found.has(ability.name) || found.has(ability.unless) || !isFor(ability, sid, domain, isTold) ||
            !means(ability, where)) {
            continue;
        }
        const told = {
            rule: ability.name,
            mask: ability.right,
            object: "",
            severity: ability.severity,
            says: ability.says,
        };
        if (ability.all) {
            const types = typesOfAll(ability, got, where, givesAll);
            if (types.length) {
                const [own] = types.slice(ability.types.flat().length);
                found.set(ability.name, {...told, types, whole: wholeOf(ability, own, got)});
            }
            continue;
        }
        const way = waysOf(ability, got, where)
                        .find(({object, mask}) => (mask & ability.right) !== 0 &&
                                pathsOf(ability, object).some((path) => gives(ability.right, [...path, object])));
        if (way) {
            const whole = wholeOf(ability, way.object, got);
            found.set(ability.name, {...told, object: way.object, types: [way.object], whole});
        }
    }
    return [...found.values()];
}

// What a trustee has beside its abilities and the rights that do nothing that counts.
export function restOf(got, had, where) {
    const told = (object) => had.filter((one) => one.object === object).reduce((mask, one) => mask | one.mask, 0);
    // For an extended right no other right means anything.
    const idle = (object) => (HARMLESS.includes(object) ? OF_TYPES : isTemplate(where) ? EXTENDED : 0);
    return {
        mask: (got.mask & ~told("") & ~idle("")) >>> 0,
        typed: got.typed.map(({object, mask}) => ({object, mask: (mask & ~told(object) & ~idle(object)) >>> 0}))
                   .filter(({mask}) => mask !== 0),
    };
}

// The classes of inherited object types: none if one of them is any class, or one that isn't known.
export function classesOf(guids) {
    const names = guids.map((guid) => guidNames(guid, OF_CHILDREN)[0]?.name);
    return names.includes(undefined) ? [] : names;
}
