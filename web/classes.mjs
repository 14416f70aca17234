// What is known of a directory object by its entry: its classes, and whether Windows knows its place. Where no class is
// known, what would be found of each is told with the classes that it depends on.
import {inOrder} from "./access.mjs";
import {risksOf} from "./risks.mjs";
import {guidNames} from "./schema.mjs";
import {ABILITIES, CONTAINERS, DEFAULTS, PROTECTING} from "./windows.mjs";

const OTHER = "other"; // stands for a class that nothing names
const CHILDREN = 0x3;  // rights whose object type is a class
const MOST = 10_000;   // ACEs times classes
const PLACES = [PROTECTING[0], ...DEFAULTS.flatMap(([, , at]) => at)];
const BELOW_A_HEAD = new RegExp(`^,\\s*(?:DC=|CN=(?:${CONTAINERS.join("|")}),)`, "i");
const WITHOUT_ACCOUNTS = /^DC=(?:Domain|Forest)DnsZones,/i;

// The place of an object with a name, which may be empty. Without classes the name says nothing.
export function placeOf(name, classes) {
    if (!classes.length) {
        return {classes, named: "", hasAccounts: true};
    }
    const first = /^(?:[^,\\]|\\[^])*/.exec(name)[0];
    const isBelowHead = BELOW_A_HEAD.test(name.slice(first.length));
    const named = (isBelowHead && PLACES.find((place) => place.toLowerCase() === first.toLowerCase())) || "";
    const own = named === PROTECTING[0] ? [...PROTECTING[1], ...classes] : classes;
    return {classes: own, named, hasAccounts: !WITHOUT_ACCOUNTS.test(name)};
}

// What tells classes apart: the abilities and the defaults that name them.
const NAMES_OF_CLASSES = [...ABILITIES.map(({on}) => on), ...DEFAULTS.map(([, classes]) => classes)];
const signatureOf = (name) => NAMES_OF_CLASSES.map((all) => Number(all.includes(name))).join("");
const SIGNATURES = new Map([OTHER, ...NAMES_OF_CLASSES.flat()].map((name) => [name, signatureOf(name)]));

// The classes that rules, defaults or object types of ACEs name, those together that nothing tells apart, and others
// first.
function alike(aces) {
    const ofTypes = aces.flatMap(({object}) => (object ? guidNames(object, CHILDREN) : []));
    const typed = new Set(ofTypes.filter(({type}) => type === "class").map(({name}) => name));
    const groups = new Map();
    for (const name of new Set([...SIGNATURES.keys(), ...typed])) {
        const key = typed.has(name) ? name : SIGNATURES.get(name);
        groups.set(key, [...(groups.get(key) ?? []), name]);
    }
    return [...groups.values()];
}

// The numbers of the ACEs of two findings.
const joined = (one, other) => inOrder([...(one?.numbers ?? []), ...other.numbers]);

// What the rules find of an object of any class. What isn't found of each has the classes that it is found of alone, or
// those that it isn't found of.
export function risksOfAny(library, model, options) {
    const groups = alike(model.dacl.aces);
    if (groups.length * model.dacl.aces.length > MOST) {
        return [...risksOf(library, model, options), {rule: "manyClasses", severity: "medium", numbers: []}];
    }
    const found = new Map();
    for (const [one, ...more] of groups) {
        for (const risk of risksOf(library, model, {...options, classes: [one]})) {
            const key = JSON.stringify({...risk, numbers: null, whole: null});
            const {risk: before, of} = found.get(key) ?? {risk: {}, of: []};
            const whole = risk.whole && {...risk.whole, numbers: joined(before.whole, risk.whole)};
            const merged = {...risk, numbers: joined(before, risk), ...(whole ? {whole} : {})};
            found.set(key, {risk: merged, of: [...new Set([...of, one, ...more])]});
        }
    }
    const classes = groups.flat();
    return [...found.values()].map(({risk, of}) => {
        const others = classes.filter((one) => !of.includes(one));
        return of[0] !== OTHER ? {...risk, onlyOf: of} : others.length ? {...risk, exceptOf: others} : risk;
    });
}
