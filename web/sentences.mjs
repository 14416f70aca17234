// The words of a verdict: the sentence that comes first, and what is said below it.
import {has} from "./access.mjs";
import {doing as ofWord, everybodyClass, isPluralName, tableOf} from "./meanings.mjs";
import {faultInWords, nameOf, placeInWords, refusedKind, rightsInWords, shortened, visible} from "./naming.mjs";
import {valueIn} from "./tables.mjs";
import {DELETE, WRITE_DAC, WRITE_OWNER} from "./well_known.mjs";
import {say, WORDS} from "./words.mjs";

const words = WORDS.verdict;
const MOST_NUMBERS = 5; // ACEs in a sentence
const MOST_PIECE = 40;  // characters of a text that is refused
const MOST_DENIED = 2;  // ACEs that are told one by one
const ADMINISTRATORS = /^S-1-5-32-544$|^S-1-5-21-[\d-]+-(?:500|512|518|519)$/;
const SYSTEM = "S-1-5-18";
const RUN = ["file", "task"]; // kinds of objects that are run
const NO_SHAPE = 20;          // the error of a text that is no SDDL as a whole

// The numbers of ACEs in words for one and for many.
export const acesIn = (numbers, one, many) => say(numbers.length === 1 ? one : many,
    {numbers: [...numbers.slice(0, MOST_NUMBERS), ...(numbers.length > MOST_NUMBERS ? [".."] : [])].join(", ")});

// Several names: the first ones, and how many more.
function together(names) {
    const [first, second] = names;
    return names.length > 2 ? say(words.andOthers, {first, count: names.length - 1}) :
        names.length === 2  ? say(words.and, {first, second}) :
                              first;
}

// Those who are trusted: administrators of any sort are called so, and others by name.
function trustedInWords(trusted, names) {
    const {administrators, system} = words.trusted;
    const others =
        trusted.filter((sid) => sid !== SYSTEM && !ADMINISTRATORS.test(sid)).map((sid) => nameOf(sid, names));
    return together([
        ...(trusted.some((sid) => ADMINISTRATORS.test(sid)) ? [administrators] : []),
        ...(trusted.includes(SYSTEM) ? [system] : []), ...others
    ]);
}

// The forms of verbs for whoever does something.
export const verbsOf = (sids) => (sids.length > 1 || isPluralName(sids[0]) ? words.many : words.one);

const theseOf = (kind) => valueIn(words.these, kind) ?? words.these[""];

// What one can do to an object by the rights that one has: the name of many together, or the widest one.
function doing({kind, granted = 0, mask = 0, says, does, rule, isOwner, isPart, key}) {
    if (does) {
        return [does === "full" && kind === "" ? "all" : does];
    }
    if (says) {
        return ["says", valueIn(WORDS.lets, says)];
    }
    if (rule === "foreign-owner" || isOwner) {
        return ["owns"];
    }
    if (key !== "condition" && tableOf(kind).rule) {
        return ["says", rightsInWords(kind, mask).join(", ")];
    }
    const [, , , all] = tableOf(kind).mapping;
    if (has(granted, all)) {
        return ["full"];
    }
    if (isPart) {
        return ["parts"];
    }
    const single = [[WRITE_DAC, "permissions"], [WRITE_OWNER, "owner"]].find(([bit]) => has(mask, bit));
    if (single) {
        return [single[1]];
    }
    const change = ofWord(kind, "change");
    const set = valueIn(WORDS.masks, kind).find(([bits]) => has(granted, bits) && (bits & mask & change) !== 0);
    if (set) {
        return ["rights", set[1]];
    }
    if ((mask & change) === 0) {
        return doingWithout(kind, mask);
    }
    return mask === DELETE ? ["delete"] : ["here", someRights(kind, mask)];
}

// The same of rights that change nothing.
function doingWithout(kind, mask) {
    const [read, run] = [ofWord(kind, "read"), ofWord(kind, "execute")];
    const known = (mask & (read | run)) >>> 0;
    return (mask & read) !== 0                   ? ["read"] :
        (mask & run) !== 0 && RUN.includes(kind) ? ["run"] :
                                                   ["here", someRights(kind, known || mask)];
}

// At most two rights, or the first one and that there are more.
function someRights(kind, mask) {
    const rights = rightsInWords(kind, mask);
    const [first, second] = rights;
    return rights.length > 2 ? say(words.more, {rights: first}) :
        rights.length === 2  ? say(words.and, {first, second}) :
                               first;
}

function doesInWords(judged) {
    const {who, kind, reach} = judged;
    const [does, rights] = doing(judged);
    const own = theseOf(kind);
    const these = reach === "below" ? say(words.made, {these: own}) : own;
    return say(valueIn(words.does, does), {...verbsOf(who), these, rights, reach: reachInWords(judged)});
}

// The words for what is in an object too, where they aren't the usual ones.
const REACHES = {
    here: "allHere",
    says: "allSays"
};

function reachInWords(judged) {
    const {reach = "here", does} = judged;
    const ofAll = reach === "all" ? valueIn(REACHES, doing(judged)[0]) : undefined;
    return does ? "" : valueIn(words.reach, ofAll ?? reach);
}

const whoInWords = (sids, names) => together(sids.map((sid) => nameOf(sid, names)));

const changeInWords = (kind) => say(valueIn(words.change, kind) ?? words.change[""], {these: theseOf(kind)});

function ofChangers(judged, names) {
    const {who, trusted, kind} = judged;
    const others = trusted.length ? trustedInWords(trusted, names) : "";
    if (!who.length) {
        return say(others ? words.only : words.none, {trusted: others, change: changeInWords(kind)});
    }
    const does = who.length === 1 ? doesInWords(judged) :
        judged.isPart             ? doesInWords({...judged, reach: "here"}) :
                                    say(words.does.change, {...verbsOf(who), these: theseOf(kind), reach: ""});
    return say(others ? words.named : words.onlyNamed, {who: whoInWords(who, names), does, trusted: others});
}

const ofFinding = (judged, names) =>
    say(words.finding, {who: whoInWords(judged.who, names), does: doesInWords(judged)});

function ofClass(judged, names) {
    const {onlyOf, exceptOf} = judged;
    const [first, ...others] = onlyOf ?? exceptOf;
    const classes =
        others.length > 1 ? say(words.oneOfClasses, {first, count: others.length}) : [first, ...others].join(WORDS.or);
    return say(onlyOf ? words.onlyOf : words.exceptOf, {classes, sentence: ofFinding(judged, names)});
}

// Who may be able to change an object of an open kind.
function ofKind({who}, names) {
    const some = who.length > 2 ? say(words.accounts, {count: who.length}) : whoInWords(who, names);
    return who.length ? say(words.kind, {who: some}) : words.kindOpen;
}

const ofCondition = (judged, names) => say(judged.isDeny ? words.conditionOfDeny : words.condition,
    {number: judged.numbers[0], sentence: ofFinding(judged, names)});

const ofSeveralConditions = ({numbers, worst}, names, result) => say(words.severalConditions,
    {aces: acesIn(numbers, words.ace, words.aces), sentence: sentenceOf(worst, names, result)});

// What is wrong with a text that is refused, in few words, with its place.
function ofRefused({fault, place}) {
    const meaning = valueIn(WORDS.faults, fault.number)?.[0] ?? faultInWords(fault);
    if (!place) {
        return meaning;
    }
    const list = place.part === "sacl" ? words.ofSacl : "";
    const where = place.ace ? `${say(words.ace, {numbers: place.ace})}${list}` : placeInWords(place);
    const text = shortened(place.text.slice(place.start, place.end), MOST_PIECE);
    if (text === "" && place.field === "sid" && fault.number !== NO_SHAPE) {
        return place.ace ? say(words.noTrustee, {where}) : say(words.empty, {where});
    }
    const kind = refusedKind(fault, place);
    const wrong = fault.number === NO_SHAPE ? undefined : valueIn(words.wrongFields, place.field ?? "");
    const what = kind ? say(words.ofKind, kind) : (wrong ? say(wrong, {text: visible(text)}) : meaning);
    return where ? say(words.wrong, {where, what}) : what;
}

const SENTENCES = {
    noDacl: (judged, names) => say(words.noDacl, {who: whoInWords(judged.who, names)}),
    nullDacl: (judged, names) => say(words.nullDacl, {who: whoInWords(judged.who, names)}),
    nobody: ({why}) => valueIn(words.nobody, why),
    finding: ofFinding,
    changers: ofChangers,
    class: ofClass,
    kind: ofKind,
    condition: ofCondition,
    conditions: ofSeveralConditions,
    manyPairs: () => words.manyPairs,
    manyClasses: () => words.manyClasses,
    domain: () => words.domain,
    none: (judged, names, result) => valueIn(words.texts, result.other)[0],
    refused: (judged, names, result) => say(words.refused, {what: ofRefused(result)}),
};

/** The sentence of a verdict. RESULT is the answer that has it, and NAMES those of SIDs. */
export const sentenceOf = (judged, names, result) => valueIn(SENTENCES, judged.key)(judged, names, result);

function ofGroup(judged) {
    const who = judged.who?.length === 1 ? everybodyClass(judged.who[0]) : null;
    return who && judged.key === "finding" ? valueIn(words.classes, who) : "";
}

function ofAces({key, numbers = [], isInherited, rule, isOwner, who = []}) {
    if (rule === "foreign-owner" || isOwner || key === "nobody" || key.startsWith("condition") || who.length > 1 ||
        !numbers.length) {
        return "";
    }
    return say(isInherited ? words.byInherited : words.by, {aces: acesIn(numbers, words.ace, words.aces)});
}

function ofOwner({key, owner}, names) {
    return key !== "nobody" ? "" : owner ? say(words.nobodyWhy, {who: nameOf(owner, names)}) : words.nobodyEver;
}

const ofConditions = ({conditions = []}) =>
    (conditions.length ? say(words.conditions, {aces: acesIn(conditions, words.conditionsOne, words.conditionsMany)}) :
                         "");

function ofDenied({denied = [], kind}, names) {
    const numbers = denied.slice(MOST_DENIED).map(({number}) => number);
    return [
        ...denied.slice(0, MOST_DENIED)
            .map(({who, mask, number}) => say(kind ? words.except : words.exceptSome,
                     {who: nameOf(who, names), rights: kind && someRights(kind, mask), number})),
        numbers.length ? say(words.exceptMore, {aces: acesIn(numbers, words.ace, words.aces)}) : ""
    ];
}

function ofReader({reader, who = [], verdict}, names) {
    const isSaid = !reader || who.includes(reader) || verdict === "unknown";
    return isSaid ? "" : say(words.reader, {who: nameOf(reader, names)});
}

function ofExcused({excused = []}, names) {
    return excused.length ? say(words.excused, {...verbsOf(excused), who: whoInWords(excused, names)}) : "";
}

function ofMore({more = 0}) {
    return more > 1 ? say(words.moreFindings, {count: more}) : more ? words.oneMoreFinding : "";
}

/** What is said below the sentence: a list of sentences. */
export function reasonsOf(judged, names, result) {
    const {key, kind} = judged;
    return [
        key === "noDacl" ? words.noDaclWhy : "",
        key === "nullDacl" ? words.nullDaclWhy : "",
        ofOwner(judged, names),
        ofGroup(judged),
        ofAces(judged),
        ...ofDenied(judged, names),
        ofConditions(judged),
        kind === "share" && ["act", "look"].includes(judged.verdict) ? words.share : "",
        ofReader(judged, names),
        ofExcused(judged, names),
        ofMore(judged),
        result?.isStandIn ? words.standIn : "",
        key === "refused" ? words.unknownWhy : "",
        key === "none" ? say(result.other === "posix" ? words.useSamba : words.use,
                             {command: valueIn(words.texts, result.other)[1]}) :
                         "",
    ].filter(Boolean);
}
