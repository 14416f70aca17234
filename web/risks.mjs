// What is risky about a descriptor: the rules of windows/, which sdtool-audit has too. Whether somebody gets a right is
// always an answer of check, about the descriptor or about one without the ACEs that Windows itself gives.
import {abilitiesOf, classesOf, isHarmless, isOwn, mayGive, partsOf, restOf} from "./abilities.mjs";
import {grantedOf, inOrder, reasonsOf, tokenOf, typesBySid, typesFor} from "./access.mjs";
import {aceText, guidBytes} from "./library.mjs";
import {
    atRisk,
    doing,
    everybodyClass,
    inheritedBy,
    isDirectory,
    isTrusted,
    levelOf,
    mappingOf,
    maskBelow,
    meaningOfSid,
    relativeOf,
    rightsOfKind,
    runsCode,
    tableOf,
    withoutGeneric
} from "./meanings.mjs";
import {valueIn} from "./tables.mjs";
import {EVERYONE, OWNER_RIGHTS, WRITE_DAC, TAKE_OVER, ALLOWS, DENIES, DECIDING} from "./well_known.mjs";
import {DEFAULTS, QUIET, RISKS_OF, RULE_OF, RULES, SEVERITIES, SIDS} from "./windows.mjs";

const ANONYMOUS = "S-1-5-7";
const PRINCIPAL_SELF = "S-1-5-10";
const MOST_TYPED = 20_000; // checks of a descriptor for object types
const USUALLY = Object.fromEntries(RULES.map(([name, severity]) => [name, severity]));
const OF_DIRECTORY = Object.fromEntries(RULES.map(([name, , , severity]) => [name, severity]));
const OF_ADDING = Object.fromEntries(RULES.map(([name, , , , severity]) => [name, severity]));
const ADDING = atRisk("folder", ["adding"]);

// Whether nobody in particular has a SID, or an account of the system that may have any right to this kind.
function isQuiet(sid, kind) {
    const {who} = meaningOfSid(sid);
    if (QUIET.includes(who) || (sid === PRINCIPAL_SELF && !isDirectory(kind))) {
        return true;
    }
    // The accounts that services share aren't trusted where a right runs code as another account.
    return who === "service" && !(runsCode(kind) && Object.hasOwn(SIDS, sid));
}

// Which rights of a trustee are a finding, and by which rule.
function wantedOf(sid, kind, domain) {
    if (isTrusted(sid, domain)) {
        return {rule: "", mask: 0};
    }
    const who = everybodyClass(sid);
    const {rule, mapping} = tableOf(kind);
    if (rule) {
        return {rule, mask: who || !isQuiet(sid, kind) ? mapping[3] : 0};
    }
    if (who) {
        const risks = valueIn(RISKS_OF, who).filter((risk) => risk !== "anonymous" || sid === ANONYMOUS);
        return {rule: valueIn(RULE_OF, who), mask: atRisk(kind, risks)};
    }
    return isQuiet(sid, kind) ? {rule: "", mask: 0} : {rule: "takeover", mask: atRisk(kind, ["takeover"])};
}

// Whether an ACE is one that Windows itself gives.
function isDefault(ace, mask, ofChildren, {kind, domain, classes, named}) {
    const relative = relativeOf(ace.sid);
    const isKnown = relative && (!domain || relative.domain === domain);
    return DEFAULTS.some(([kinds, ofClasses, at, who, allowed, object, inherited, below]) => {
        const isTrustee = who === ace.sid || (isKnown && who === relative.number);
        if (!isTrustee || !kinds.includes(kind) || ((below ? ofChildren : mask) & ~allowed) !== 0) {
            return false;
        }
        if ((object !== "*" && object !== (ace.object ?? "")) || (inherited !== "" && inherited !== ace.inherited)) {
            return false;
        }
        if (!isDirectory(kind)) {
            return below === ace.flags.includes("IO");
        }
        if (ace.flags.includes("ID")) {
            return below;
        }
        return (ofClasses.length === 0 && at.length === 0) || ofClasses.includes(classes.at(-1)) || at.includes(named);
    });
}

// Trustees and object types are too many to be asked together.
class TooMany extends Error {}

// A descriptor that the library is asked about, with the ACEs that decide about it, and the numbers of all its ACEs in
// the object's list. What it answers for a token is kept. About an object type that no ACE names for a token the answer
// is that about the object as a whole, so it isn't asked.
class View {
    constructor(library, descriptor, kind, aces, numbers) {
        this.library = library;
        this.descriptor = descriptor;
        this.kind = kind;
        this.numbers = numbers;
        this.types = typesBySid(isDirectory(kind) ? aces.filter(({object}) => object) : []);
        this.isDenied = aces.some((ace) => DENIES.includes(ace.kind));
        this.known = new Map();
        this.typed = 0;
    }

    typesOf(sid) { return typesFor(this.types, sidsOf(sid)); }

    // What a trustee gets: of the object as a whole, and what object types add.
    got(sid) {
        const whole = this.mask(sid, "");
        const typed = this.typesOf(sid).map((object) => ({object, mask: (this.mask(sid, object) & ~whole) >>> 0}));
        return {mask: whole, typed: typed.filter(({mask}) => mask !== 0)};
    }

    // Whether a trustee has a right where ACEs for any of some object types count, and those for the object's own
    // class, which is one of OWN: the first one that decides does.
    gives(sid, own, right, types) {
        const {library, descriptor, kind} = this;
        const token = tokenOf(library, sidsOf(sid));
        const ofClass = this.typesOf(sid).filter((object) => isOwn(object, own));
        const decided = [...new Set([...types, ...ofClass])].map((object) => {
            const request = {mapping: mappingOf(kind), objectType: guidBytes(library, object)};
            return reasonsOf(library, descriptor, token, request).find(({bit}) => bit === right);
        });
        const first = Math.min(...decided.map(({number}) => number ?? Infinity));
        return decided.some(({isGranted, number}) => isGranted && number === first);
    }

    // The same about a right that an ACE gives: only one that denies takes it.
    keeps(sid, own, right, types) { return !this.isDenied || this.gives(sid, own, right, types); }

    mask(sid, object) {
        const key = `${sid} ${object}`;
        if (!this.known.has(key)) {
            this.typed += object ? 1 : 0;
            if (this.typed > MOST_TYPED) {
                throw new TooMany();
            }
            const {token, request} = this.asked(sid, object);
            this.known.set(key, grantedOf(this.library, this.descriptor, token, request, rightsOfKind(this.kind)));
        }
        return this.known.get(key);
    }

    asked(sid, object) {
        const token = tokenOf(this.library, sidsOf(sid));
        return {token, request: {mapping: mappingOf(this.kind), objectType: guidBytes(this.library, object)}};
    }

    // The numbers of the ACEs that grant a trustee rights.
    granting(sid, mask, object) {
        const {token, request} = this.asked(sid, object);
        const aces = reasonsOf(this.library, this.descriptor, token, request)
                         .filter(({bit, isGranted, number}) => isGranted && number !== null && (mask & bit) !== 0)
                         .map(({number}) => this.numbers[number - 1]);
        return inOrder(aces);
    }
}

const sidsOf = (sid) => [sid, ...meaningOfSid(sid).also];

// A view of ACEs, given as {ace, mask}, with other flags where they are given. Those for children alone don't decide.
function viewOf(library, kind, owner, all, flags) {
    const aces = all.map(({ace, mask}) => aceText({...ace, flags: flags ?? ace.flags, mask}));
    const deciding =
        all.map(({ace}) => ace).filter((ace) => DECIDING.includes(ace.kind) && !(flags ?? ace.flags).includes("IO"));
    const descriptor = library.fromSddl(`${owner ? `O:${owner}` : ""}D:${aces.join("")}`);
    return new View(library, descriptor, kind, deciding, all.map(({ace}) => ace.number));
}

const only = (got, mask) => ({
    mask: (got.mask & mask) >>> 0,
    typed: got.typed.map((one) => ({...one, mask: (one.mask & mask) >>> 0})).filter((one) => one.mask !== 0),
});

function without(got, less) {
    const known = new Map(less.typed.map(({object, mask}) => [object, mask]));
    return {
        mask: (got.mask & ~less.mask) >>> 0,
        typed:
            got.typed.map(({object, mask}) => ({object, mask: (mask & ~less.mask & ~(known.get(object) ?? 0)) >>> 0}))
                .filter(({mask}) => mask !== 0),
    };
}

// Whether an object is a folder: files hand nothing on. Where nobody chose the kind it may be a file.
const isFolder = ({kind, isGuess}, aces) => (kind === "folder" && !isGuess) || (["file",
    "folder"].includes(kind) && aces.some(({flags}) => inheritedBy(kind).some((flag) => flags.includes(flag))));

// What is asked about a descriptor: the trustees here and below, those of a folder who get no right to change its files
// by what counts here, those of Windows' own ACEs, and what is left of the list without these.
export function caseOf(model, options) {
    const {kind, domain} = options;
    const [here, filing, excused, below, kept] = [new Set(), new Set(), new Set(), new Map(), []];
    const inherited = inheritedBy(kind);
    // What an ACE that denies takes here, children may get all the same; and a generic right may mean more for them.
    const isDenied = model.dacl.aces.some((ace) => DENIES.includes(ace.kind));
    for (const ace of model.dacl.aces) {
        const sid = ace.sid === OWNER_RIGHTS ? model.owner?.sid : ace.sid;
        const [mask, ofChildren] = [withoutGeneric(ace.mask, kind), maskBelow(ace, kind)];
        const isBelow = ace.flags.includes("IO");
        const goesOn = ace.flags.some((flag) => inherited.includes(flag));
        const given = (isBelow ? 0 : mask) | (goesOn ? ofChildren : 0);
        if (ALLOWS.includes(ace.kind) && sid && concerns(ace, given, sid, kind, domain)) {
            if (isDefault(ace, mask, ofChildren, options)) {
                if (!isBelow) {
                    excused.add(sid);
                }
                continue;
            }
            if (!isBelow) {
                here.add(sid);
                if (ace.flags.includes("OI") && (mask & wantedOf(sid, kind, domain).mask) !== 0) {
                    filing.add(sid);
                }
            }
            const hasMore = isBelow || isDenied || (ofChildren & ~mask) !== 0;
            if (goesOn && (isDirectory(kind) || (hasMore && everybodyClass(ace.sid)))) {
                below.set(sid, [...(below.get(sid) ?? []), ace]);
            }
        }
        kept.push({ace, mask, ofChildren});
    }
    const adding =
        isFolder(options, model.dacl.aces) ? new Set([...here].filter((sid) => !filing.has(sid))) : new Set();
    return {here, adding, excused, below, kept};
}

function concerns(ace, mask, sid, kind, domain) {
    const object = ace.object ?? "";
    if (isDirectory(kind)) {
        if (mayGive(mask, object, sid, domain)) {
            return true;
        }
        if (isHarmless(mask, object)) {
            return false;
        }
    }
    return (mask & wantedOf(sid, kind, domain).mask) !== 0;
}

// The owner, if it isn't trusted.
function askedOwner(model, kind, domain) {
    const owner = model.owner?.sid;
    if (!owner || tableOf(kind).rule || isTrusted(owner, domain)) {
        return null;
    }
    return everybodyClass(owner) || !(tableOf(kind).owner === "usual" || isQuiet(owner, kind)) ? owner : null;
}

// How grave what a rule finds is. Who owns an object can change permissions, which is as grave as having that right.
function severityOf(rule, kind, who) {
    const found = valueIn(isDirectory(kind) ? OF_DIRECTORY : USUALLY, rule);
    const group = rule === "foreign-owner" && everybodyClass(who);
    const all = group ? [found, severityOf(valueIn(RULE_OF, group), kind, who)] : [found];
    return SEVERITIES.find((one) => all.includes(one));
}

const finding = (rule, kind, who, numbers, more) =>
    ({rule, severity: severityOf(rule, kind, who), who, numbers, ...more});

function ofMask(rule, kind, sid, view, got, more = {}) {
    return partsOf(got).filter(({mask}) => mask !== 0).map(({object, mask}) => {
        const numbers = view.granting(sid, mask, object);
        return finding(rule, kind, sid, numbers, {mask, ...(object ? {object} : {}), ...more});
    });
}

// The same of rights that were asked about, of all that somebody had of an object without object types. WHOLE is the
// level of Windows' dialogs that these are the rights of which count, if there is one, and its ACEs.
function ofLevel(rule, kind, sid, view, had, asked, more = {}) {
    const [found, whole] = [(had & asked) >>> 0, levelOf(kind, had, asked)];
    const level = whole === found ? {} : {whole: {mask: whole, numbers: view.granting(sid, whole, "")}};
    return ofMask(rule, kind, sid, view, {mask: found, typed: []}, {...level, ...more});
}

const isOfEverybody = ({rule}) => rule !== "" && rule !== "takeover";

// What a trustee of a directory object can do, by name, and the rest for everybody. WHERE is the object, and ANSWERS
// are those about the trustee.
function ofDirectory(sid, view, wanted, got, where, answers, {kind, domain}, more) {
    const over =
        partsOf(got).find(({object, mask}) => (mask & wanted.mask & TAKE_OVER) !== 0 && isOwn(object, where.own));
    if (over) {
        // Who can change permissions or the owner has every other right too.
        return ofMask(wanted.rule, kind, sid, view, only({mask: 0, typed: [over]}, doing(kind, "change")), more);
    }
    const had = abilitiesOf(sid, got, where, answers, isOfEverybody(wanted), domain);
    const named = had.map(({rule, mask, whole, object, types, severity, says}) => {
        const numbers = answers.numbersOf(mask, types);
        const all = whole === mask ? {} : {whole: {mask: whole, numbers: answers.numbersOf(whole, types)}};
        return {rule, severity, who: sid, numbers, mask, says, ...all, ...(object ? {object} : {}), ...more};
    });
    const rest = isOfEverybody(wanted) ? only(restOf(got, had, where), wanted.mask) : {mask: 0, typed: []};
    return [...named, ...ofMask(wanted.rule, kind, sid, view, rest, more)];
}

// The findings about a descriptor, with the numbers of their ACEs: {rule, severity, who, mask, whole, object, says,
// isBelow, numbers}, and the kind that the mask is one of, if it is another. CLASSES are those of a directory object,
// if they are known.
export function risksOf(library, model, {kind, domain, classes = [], named = "", hasAccounts = true, isGuess = false}) {
    if (kind === "authority" && model.dacl.aces.some(({object}) => object)) {
        // The object of the authority in the directory.
        const options = {kind: "ds", domain, classes: ["pKIEnrollmentService"], hasAccounts};
        return risksOf(library, model, options).map((one) => ({...one, kind: "ds"}));
    }
    const {state, aces} = model.dacl;
    if (state !== "list") {
        const mask = tableOf(kind).mapping[3];
        return [finding(state === "absent" ? "no-dacl" : "null-dacl", kind, EVERYONE, [], {mask})];
    }
    const ofKind = kind === "template" && classes.length === 0 ? ["pKICertificateTemplate"] : classes;
    return [
        ...(aces.length ? [] : [finding("empty-dacl", kind, null, [], {})]),
        ...asked(() => ofList(library, model, {kind, domain, classes: ofKind, named, hasAccounts, isGuess})),
    ];
}

// What is found, or that it isn't known.
function asked(question) {
    try {
        return question();
    } catch (fault) {
        if (fault instanceof TooMany) {
            return [{rule: "manyPairs", severity: "medium", who: null, numbers: []}];
        }
        throw fault;
    }
}

function ofList(library, model, options) {
    const {kind, domain, classes, hasAccounts} = options;
    const {here, adding, excused, below, kept} = caseOf(model, options);
    const owner = askedOwner(model, kind, domain);
    if (!here.size && !below.size && !excused.size && !owner) {
        return [];
    }
    const ownerSid = model.owner?.sid ?? null;
    const own = viewOf(library, kind, ownerSid, kept);
    const whole =
        viewOf(library, kind, ownerSid, model.dacl.aces.map((ace) => ({ace, mask: withoutGeneric(ace.mask, kind)})));
    const wanted = (sid) => wantedOf(sid, kind, domain);
    // Whether rights of a trustee that are a finding let it add to a folder, and no more. That tells nothing of its
    // files.
    const adds = (sid, mask) => adding.has(sid) && (mask & ~ADDING) === 0;
    const telling =
        adding.size ? new Set([...here].filter((sid) => !adds(sid, own.mask(sid, "") & wanted(sid).mask))) : here;
    // What a trustee gets beyond what is found of wider groups.
    const beyond =
        (view, sid, among) => meaningOfSid(
            sid).also.filter((group) => among.has(group) && wanted(group).rule)
                                  .reduce((got, group) => without(got, only(view.got(group), wanted(group).mask)),
                                      view.got(sid));
    const ofOwner = owner ? (own.mask(owner, "") & WRITE_DAC) >>> 0 : 0;
    const found = ofOwner ? ofMask("foreign-owner", kind, owner, own, {mask: ofOwner, typed: []}) : [];
    const where = {classes, own: classes.slice(-1), hasAccounts};
    const ofSid = (sid, got) => (isDirectory(kind) ?
            ofDirectory(sid, own, wanted(sid), got, where, answersOf(own, whole, sid, where), options, {}) :
            ofLevel(wanted(sid).rule, kind, sid, own, got.mask, wanted(sid).mask,
                adds(sid, got.mask & wanted(sid).mask) ? {severity: valueIn(OF_ADDING, wanted(sid).rule)} : {}));
    for (const sid of here) {
        if (sid === ownerSid && tableOf(kind).owner === "usual" && !everybodyClass(sid)) {
            continue;
        }
        const got = beyond(own, sid, adding.has(sid) ? here : telling);
        found.push(...ofSid(sid, sid === owner ? without(got, {mask: ofOwner, typed: []}) : got));
    }
    const ofWindows = [...(isDirectory(kind) ? [] : excused)].flatMap((sid) => {
        const known = here.has(sid) ? own.mask(sid, "") : 0;
        const mask = (whole.mask(sid, "") & wanted(sid).mask & ~known) >>> 0;
        return ofMask("given-by-windows", kind, sid, whole, {mask, typed: []});
    });
    return [...found, ...ofBelow(library, {below, kept, own, beyond, wanted, ofSid}, options), ...ofWindows];
}

// What answers about a trustee, of an object without what is excused and of all of it.
const answersOf = (view, whole, sid, {own}) => ({
    gives: (right, types) => view.keeps(sid, own, right, types),
    givesAll: (right, types) => whole.gives(sid, own, right, types),
    numbersOf: (mask, types) =>
        inOrder(types.flatMap((object) => (types.length > 1 ? whole : view).granting(sid, mask, object))),
});

const keyOf = ({rule, mask, object = ""}) => `${rule} ${mask} ${object}`;

// What is granted in what is made in an object, and not here.
function ofBelow(library, {below, kept, own, beyond, wanted, ofSid}, options) {
    const {kind} = options;
    if (!below.size) {
        return [];
    }
    const inherited = inheritedBy(kind);
    // An ACE that denies for one class of children, or one level, stops what is for others too only there.
    const listed = [...below.values()].flat();
    const isOfAll = ({flags, inherited: of}) =>
        listed.every((one) => (!of || of === one.inherited) && (!flags.includes("NP") || one.flags.includes("NP")));
    const children =
        inherited.map((flag) => viewOf(library, kind, null,
                          kept.filter(({ace}) => ace.flags.includes(flag) &&
                                      (ALLOWS.includes(ace.kind) || (DENIES.includes(ace.kind) && isOfAll(ace))))
                              .map(({ace, ofChildren}) => ({ace, mask: ofChildren})),
                          []));
    return [...below].flatMap(([sid, aces]) => {
        let had = own.got(sid);
        const told = new Set(ofSid(sid, had).map(keyOf));
        const classes = classesOf(aces.map((ace) => ace.inherited));
        const where = {classes, own: classes, hasAccounts: false, isBelow: true};
        return children.flatMap((child) => {
            const got = beyond(child, sid, below);
            if (!isDirectory(kind)) {
                const more = without(got, had);
                had = {...had, mask: had.mask | more.mask};
                return ofLevel("children-change", kind, sid, child, more.mask, wanted(sid).mask, {isBelow: true});
            }
            const answers = answersOf(child, child, sid, where);
            return ofDirectory(sid, child, wanted(sid), got, where, answers, options, {
                isBelow: true
            }).filter((one) => !told.has(keyOf(one)) && told.add(keyOf(one)));
        });
    });
}
