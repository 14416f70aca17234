// What a question of the page is about: the descriptor in a text, what it says, and the kind of object that it is of.
import {meaningOf} from "./access.mjs";
import {placeOf as placeOfObject} from "./classes.mjs";
import {descriptorsIn, straysIn} from "./clipboard.mjs";
import {placeOf} from "./faults.mjs";
import {fitsKind, kindByRights, kindIn, kindsOf} from "./kinds.mjs";
import {descriptorOf, isFault, modelOf, sidBytes, sidText} from "./library.mjs";
import {hasOwnMapping, mappingOf, withoutGeneric} from "./meanings.mjs";
import {packed} from "./packing.mjs";
import {writtenAces} from "./scanning.mjs";

const MOST_OF_KIND = 10_000;                     // characters of a text that tell of the kind of object
const MOST_TEXTS = 2;                            // that are kept
const MOST_NAMED = 1000;                         // descriptors of a text in a list
const NEEDS_DOMAIN = 23;                         // an error
export const STAND_IN_DOMAIN = "S-1-5-21-0-0-0"; // of relative aliases, where nobody knows the domain

export const plainFault = ({number, name, part, otherPart, place}) =>
    ({number, faultName: name, part, otherPart, place});

// Runs what may be refused: {value} or {fault}. Any other error is one of the page itself and goes on.
export function tried(question) {
    try {
        return {value: question()};
    } catch (fault) {
        if (isFault(fault)) {
            return {fault: plainFault(fault)};
        }
        throw fault;
    }
}

// The domain of the field, as a SID in text and as an option of the library, or why it is none. TRUSTED is the domain
// whose administrators alone are trusted.
function domainOf(library, text) {
    const typed = text.trim();
    if (!typed) {
        return {text: "", trusted: "", option: {}};
    }
    const {value, fault} = tried(() => sidText(library, typed));
    return fault ? {fault} : {text: value, trusted: value, option: {domain: sidBytes(library, value)}};
}

const standIn = (library) => ({...domainOf(library, STAND_IN_DOMAIN), trusted: "", isStandIn: true});

// What the mask of an ACE means for a kind of object: by the library, or by the table where the library has no mapping.
const meaningFor = (library, mask, kind) =>
    hasOwnMapping(kind) ? withoutGeneric(mask, kind) : meaningOf(library, mask, mappingOf(kind));

const acesIn = ({dacl, sacl}) => [...dacl.aces, ...sacl.aces];

export const withMeanings = (library, model, kind) => {
    for (const ace of acesIn(model)) {
        ace.meaning = ace.kind === "ML" ? ace.mask : meaningFor(library, ace.mask, kind);
    }
    return model;
};

export const explained = (library, descriptor, domain, kind) =>
    withMeanings(library, modelOf(library, descriptor, domain.option), kind);

// The descriptor that the library is asked about. Where it has no mapping for a kind, generic rights are replaced.
export function asked(library, descriptor, model, kind) {
    const {aces} = model.dacl;
    if (!hasOwnMapping(kind) || aces.every((ace) => ace.meaning === ace.mask)) {
        return descriptor;
    }
    const parts = library.parts(descriptor);
    return library.build({...parts, dacl: parts.dacl.aces.map((ace, at) => ({...ace, mask: aces[at].meaning}))});
}

const kindTold = (text) => kindIn(text.slice(0, MOST_OF_KIND));

// What was found in the last two texts, of which a comparison has as many: each text is read once.
const texts = [];

export function textOf(text, form) {
    const at = texts.findIndex((one) => one.text === text && one.form === form);
    const found = at < 0 ? descriptorsIn(text, form) : null;
    const [one] = at < 0 ? [{
        text,
        form,
        found,
        names: found.slice(0, MOST_NAMED).map(({name}) => name),
        kind: kindTold(text),
        strays: straysIn(found)
    }] :
                           texts.splice(at, 1);
    texts.unshift(one);
    texts.splice(MOST_TEXTS);
    return one;
}

// A descriptor of a text: what was found in it, and either the descriptor or its fault with the place.
export function read(library, {text, form, chosen}, domain) {
    const {found, names, kind} = textOf(text, form);
    const at = Math.min(chosen ?? 0, found.length - 1);
    const one = found[at];
    const about = {
        found: found.length,
        names,
        told: kind,
        entry: {name: one.name, classes: one.classes, kind: one.kind},
        chosen: at,
        form: one.form,
        line: one.line,
        dropped: one.dropped,
        other: one.other,
        isStandIn: Boolean(domain.isStandIn),
        domain
    };
    const {value, fault} = tried(() => descriptorOf(library, one.form, one.line, domain.option));
    if (fault?.number === NEEDS_DOMAIN && !domain.text) {
        return read(library, {text, form, chosen}, standIn(library));
    }
    const place = fault && placeOf(library, one.form, one.line, fault);
    const written = packed(fault && one.form === "sddl" ? writtenAces(one.line) : []);
    const outcome = fault ? {fault, place, written} : {descriptor: value};
    return {...about, ...outcome};
}

export const isEmpty = (text) => text.trim() === "";

// The place of a directory object: the entry in the text tells it, or a report, a link or the user.
export const placeIn = ({name, classes}, {entry}) => (entry.classes.length ?
        placeOfObject(entry.name, entry.classes) :
        placeOfObject(name || entry.name, classes.split(",").map((one) => one.trim()).filter(Boolean)));

// The kind that the user has chosen, or that an entry of LDIF, the name of one of several, the text or the rights tell
// of, or else a folder; and whether it is certain, or nothing tells it. icacls lists files alone.
export function kindOf({kind, isKindChosen}, {found, dropped, entry, told: ofText}, model) {
    if (isKindChosen || dropped.some(({what}) => what === "listing")) {
        return {kind: isKindChosen ? kind : "folder", isKindSure: true};
    }
    if (entry.kind === "") {
        return {kind: "folder", isKindOpen: true, isKindSure: false};
    }
    const told = entry.kind ?? kindTold(found > 1 ? entry.name : "") ?? ofText;
    const byRights = told ?? kindByRights(acesIn(model));
    return {kind: byRights ?? "folder", isKindOpen: !byRights, isKindSure: (told ?? "folder") !== "folder"};
}

// The question for the kind that each view has to ask, or nothing: nobody chose it, and a second text tells of another
// one, or several kinds have the rights and nothing tells which it is. A path alone may be that of a program.
export function openKind({kind, isKindChosen, isKindOpen, isKindSure}, models, other = "") {
    const otherKind = kindTold(other);
    const isOther = !isKindChosen && (otherKind ?? kind) !== kind;
    if (!isOther && !isKindOpen && (isKindSure || models.every((model) => fitsKind(kind, acesIn(model))))) {
        return null;
    }
    const told =
        [isKindOpen ? null : kind, otherKind, ...models.map((model) => kindByRights(acesIn(model)))].filter(Boolean);
    return {asksKind: isOther ? "texts" : "rights", kinds: [...new Set([...told, ...kindsOf(models.flatMap(acesIn))])]};
}

// A question about a text: about the descriptor in it, what that says, and its kind. A text without one, or that is
// refused, is asked about in its own way.
export function about(library, given, question, ofRefused = (found, _) => found) {
    const typed = domainOf(library, given.domain);
    if (typed.fault) {
        return {domainFault: typed.fault};
    }
    if (isEmpty(given.text)) {
        return {isEmpty: true};
    }
    const {descriptor, domain, ...found} = read(library, given, typed);
    if (found.fault) {
        return {...ofRefused(found, domain), descriptorFault: found.fault};
    }
    const model = modelOf(library, descriptor, domain.option);
    const state = {...given, ...kindOf(given, found, model), place: placeIn(given, found)};
    return {
        kind: state.kind,
        isStandIn: found.isStandIn,
        ...question({state, descriptor, found, model: withMeanings(library, model, state.kind), domain})
    };
}
