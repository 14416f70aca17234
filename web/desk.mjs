// The questions of the page, each answered as plain data, so that a worker can send it. Nothing here knows the
// document.
import {ask, gridOf, isRefusedRequest, levelOfObject, typesOf} from "./access.mjs";
import {compare, compareRights} from "./comparing.mjs";
import {asIf} from "./conditions.mjs";
import {aboveOf, edited} from "./editing.mjs";
import {bytesOf, placeOf} from "./faults.mjs";
import {inherit} from "./inheriting.mjs";
import {aceTexts, descriptorOf, guidBytes, hexOf, maskOfText, modelOf, sidBytes, sidText} from "./library.mjs";
import {
    hasOwnMapping,
    heirsOf,
    inheritedBy,
    isDirectory,
    mappingOf,
    rightsOfKind,
    withoutGeneric
} from "./meanings.mjs";
import {packed} from "./packing.mjs";
import {commandsFor, forCommand} from "./set_command.mjs";
import {
    about,
    asked,
    explained,
    isEmpty,
    kindOf,
    openKind,
    placeIn,
    plainFault,
    read,
    textOf,
    tried,
    withMeanings
} from "./subject.mjs";
import {valueIn} from "./tables.mjs";
import {MOST_SIDS, readToken} from "./tokens.mjs";
import {usualOf, verdictOf, verdictOfConditions, verdictOfKinds} from "./verdict.mjs";
import {findingsOf, warningsOf} from "./warnings.mjs";
import {GENERIC} from "./well_known.mjs";

const MOST_SHOWN = 20_000;        // characters of a descriptor as a whole
const MOST_PIECE = 60;            // characters of a text that is refused, for a sentence
const MOST_DESCRIPTORS = 10_000;  // of a text, whose verdicts are told together
const MILLISECONDS_OF_MANY = 150; // of one question about many
const LAST_OF_SPELLING = 4;       // the numbers of errors up to it are about how bytes are spelled

// A list of a descriptor, with the text of each ACE.
const packedList = ({state, aces}, texts) =>
    ({state, count: aces.length, aces: packed(aces.map((ace, at) => ({...ace, text: texts[at]})))});

// The list of ACEs, with those that are usual.
const marked = (model, options) => {
    const usual = usualOf(model, {...options, ...options.place});
    return {...model.dacl, aces: model.dacl.aces.map((ace) => ({...ace, usual: usual.has(ace.number)}))};
};

function optionsOf(library, state, domain) {
    const object = isDirectory(state.kind) ? state.object.trim().toLowerCase() : "";
    const {fault} = tried(() => guidBytes(library, object));
    return {
        kind: state.kind,
        mapping: mappingOf(state.kind),
        rights: rightsOfKind(state.kind),
        object: fault ? "" : object,
        objectFault: fault ?? null,
        common: state.common,
        all: state.all,
        place: state.place,
        domain: domain.trusted
    };
}

// What is asked for a verdict about a descriptor of a kind. The meanings of its masks depend on it.
function verdictAs(
    library, descriptor, model, {kind, place, isKindOpen = false, isGuess = false}, domain, known = null) {
    const meant = known ? model : withMeanings(library, structuredClone(model), kind);
    const options = {kind, domain: domain.trusted, place, isKindOpen};
    const findings = known ?? findingsOf(library, meant, {kind, domain: domain.trusted, isGuess, ...place});
    return verdictOf(
        library, {descriptor: asked(library, descriptor, meant, kind), model: meant, findings, ...options});
}

// The same where nothing may tell the kind, of which KINDS are those that fit.
const verdictOfAny = (library, descriptor, model, state, domain, kinds) => (kinds ?
        verdictOfKinds(model, kinds,
            (kind) => verdictAs(library, descriptor, model, {kind, place: state.place, isKindOpen: true}, domain)) :
        verdictAs(
            library, descriptor, model, {kind: state.kind, place: state.place, isGuess: !state.isKindChosen}, domain));

// The verdict about a text that is refused: of one with conditions that of both, if they hold and if they don't.
function verdictOfRefused(library, given, found, domain) {
    if (found.other) {
        return {judged: {verdict: "unknown", key: "none"}};
    }
    const {form, line, fault} = found;
    const bytes = form === "sddl" || fault.number <= LAST_OF_SPELLING ? null : bytesOf(form, line);
    const parts = [true, false].map((isMost) => {
        const {value} = tried(() => asIf(library, {form, line, bytes}, isMost,
                                  (text) => descriptorOf(library, "sddl", text, domain.option)));
        return value && {...value, model: modelOf(library, value.descriptor, domain.option)};
    });
    const [most, least] = parts;
    if (!most || !least) {
        return {judged: {verdict: "unknown", key: "refused"}};
    }
    const state = {...given, ...kindOf(given, found, most.model), place: placeIn(given, found)};
    const open = openKind(state, [most.model, least.model]);
    const verdicts =
        parts.map(({descriptor, model}) => verdictOfAny(library, descriptor, model, state, domain, open?.kinds));
    const ace = withMeanings(library, most.model, state.kind).dacl.aces[most.numbers[0] - 1];
    return {kind: open ? undefined : state.kind, judged: verdictOfConditions(...verdicts, most.numbers, ace)};
}

// Everything that the first view shows of a text.
const look = (library, given) => about(library, given, ({state, descriptor, found, model, domain}) => {
    const open = openKind(state, [model]);
    if (open) {
        const judged = verdictOfAny(library, descriptor, model, state, domain, open.kinds);
        return {...found, ...open, judged, ...packedTexts(library, model, domain)};
    }
    const options = optionsOf(library, state, domain);
    const question = asked(library, descriptor, model, state.kind);
    const grid = gridOf(library, question, model, options);
    const sddl = library.toSddl(descriptor, domain.option);
    const {kind, isKindChosen, place} = state;
    const findings = findingsOf(library, model, {kind, domain: domain.trusted, isGuess: !isKindChosen, ...place});
    const warnings = warningsOf(library, question, model, grid, findings, options);
    const {dacl, sacl} = writtenIn(library, model, domain);
    return {
        ...found,
        judged: verdictAs(library, descriptor, model, {kind, place}, domain, findings),
        model: {...model, dacl: packedList(marked(model, options), dacl), sacl: packedList(model.sacl, sacl)},
        grid,
        sddl,
        hex: hexOf(descriptor.subarray(0, MOST_SHOWN / 2 + 1)),
        texts: dacl.join("\n"),
        objectFault: options.objectFault,
        warnings: packed(warnings),
        dangers: warnings.filter(({level}) => level !== "note").length,
    };
}, (found, domain) => ({...found, ...verdictOfRefused(library, given, found, domain)}));

// Who gets what of properties, rights and classes of a directory object, by their GUIDs: the rows of a grid for each.
const find = (library, {state: given, objects}) => about(library, given, ({state, descriptor, model, domain}) => {
    const options = optionsOf(library, state, domain);
    const question = asked(library, descriptor, model, state.kind);
    return {found: packed(objects.map((object) => gridOf(library, question, model, {...options, object}).rows))};
});

// The texts of the ACEs where nothing tells what their masks mean.
function packedTexts(library, model, domain) {
    const {dacl, sacl} = writtenIn(library, model, domain);
    return {
        written: packed([
            ...model.dacl.aces.map((ace, at) => ({part: "dacl", number: ace.number, kind: ace.kind, text: dacl[at]})),
            ...model.sacl.aces.map((ace, at) => ({part: "sacl", number: ace.number, kind: ace.kind, text: sacl[at]}))
        ])
    };
}

// The texts of the ACEs of each list.
const writtenIn = (library, {dacl, sacl}, domain) =>
    ({dacl: aceTexts(library, dacl.aces, domain.text), sacl: aceTexts(library, sacl.aces, domain.text)});

// What is wrong with a text, with no more of it than a sentence has.
const shortFault = ({fault, place, other}) => ({
    fault,
    other,
    place: place &&
        {
            ...place, text: place.text.slice(place.start, place.end).slice(0, MOST_PIECE), start: 0,
                end: Math.min(MOST_PIECE, place.end - place.start)
        }
});

// Answers about the descriptors of a text from one on, as many as there is time for, with the number of the next one
// and the lines that are none.
function ofEach({state, from}, answer) {
    const end = performance.now() + MILLISECONDS_OF_MANY;
    const {found, strays} = textOf(state.text, state.form);
    const rows = [];
    const most = Math.min(found.length, MOST_DESCRIPTORS);
    for (let chosen = from; chosen < most && (chosen === from || performance.now() < end); chosen += 1) {
        rows.push({at: chosen, name: found[chosen].name, ...answer({...state, chosen})});
    }
    return {rows: packed(rows), next: from + rows.length, most, all: found.length, ...(from ? {} : {strays})};
}

// The verdicts.
const many = (library, asked) => ofEach(asked, (one) => {
    const {kind, asksKind, judged, isStandIn, ...found} = about(library, one, ({state, descriptor, model, domain}) => {
        const open = openKind(state, [model]);
        return {asksKind: open?.asksKind, judged: verdictOfAny(library, descriptor, model, state, domain, open?.kinds)};
    }, (refused, domain) => ({...refused, ...verdictOfRefused(library, one, refused, domain)}));
    return {kind: asksKind ? "" : kind, judged, isStandIn, ...(found.fault ? shortFault(found) : {})};
});

// What a token gets of each, without what decided.
const askMany = (library, {state: given, from, asked: question}) => ofEach({state: given, from}, (state) => {
    const {reasons, entries, notes, line, ...answer} = askAbout(library, {state, asked: question});
    return answer;
});

// What is asked for, read by the library: names of rights, or a number.
function wantedOf(library, asked, kind) {
    const named = asked.rights.reduce((mask, bit) => (mask | bit) >>> 0, 0);
    const mask = isEmpty(asked.want) ? named : (named | maskOfText(library, asked.want.trim())) >>> 0;
    return hasOwnMapping(kind) && (mask & GENERIC) !== 0 ? withoutGeneric(mask, kind) : mask;
}

function levelOf(text, listed) {
    if (text === "listed") {
        return listed;
    }
    return text === "" ? null : Number(text);
}

function askAbout(library, {state: given, asked: question}) {
    return about(library, given, ({state, descriptor, model, domain}) => {
        const options = optionsOf(library, state, domain);
        const token = readToken(library, question.token, domain.text, question.exact);
        const wanted = tried(() => wantedOf(library, question, state.kind));
        const self = tried(() => (isEmpty(question.self) ? "" : sidText(library, question.self.trim(), domain.text)));
        const told = {
            entries: token.entries.map(({bytes, ...entry}) => entry),
            tokenFaults: token.faults,
            listing: token.refused,
            lacksUser: token.lacksUser,
            notes: token.notes,
            takeOwnership: question.takeOwnership || token.privileges.includes("take-ownership"),
            security: question.security || token.privileges.includes("security")
        };
        if (wanted.fault || self.fault || token.faults.length || token.refused || options.objectFault) {
            return {...told, wantedFault: wanted.fault, selfFault: self.fault, objectFault: options.objectFault};
        }
        const refused = isRefusedRequest(wanted.value, question.maximum);
        const limit = token.entries.length > MOST_SIDS;
        if (refused || limit || token.entries.length === 0) {
            return {...told, refused, isTooMany: limit, isNobody: token.entries.length === 0};
        }
        const open = openKind(state, [model]);
        if (open) {
            return open;
        }
        const level = levelOf(question.level, token.level);
        const isOwn = hasOwnMapping(state.kind);
        if (isOwn && level !== null && level < levelOfObject(model)) {
            return {...told, isLevelUnknown: true};
        }
        const meant = asked(library, descriptor, model, state.kind);
        return {
            ...told,
            wanted: wanted.value,
            line: meant === descriptor ? null : library.toSddl(meant, {numeric: true}),
            level,
            isForWhole: !options.object && typesOf(model, options.mapping).all.length > 0,
            ...ask(library, meant, token.entries, {
                wanted: wanted.value,
                maximum: question.maximum,
                mapping: options.mapping,
                rights: options.rights,
                isOwn,
                level,
                object: options.object,
                self: self.value,
                security: told.security,
                takeOwnership: told.takeOwnership
            })
        };
    });
}

// Whether a new object would get a generic right of an ACE, which then means the rights of its kind.
const hasGeneric = (from, mustGoOn) => Boolean(from) &&
    [from.model.dacl, from.model.sacl].some(({aces}) => aces.some(({mask, flags}) => (mask & GENERIC) !== 0 &&
                                                    (!mustGoOn || flags.includes("OI") || flags.includes("CI"))));

function inheritFrom(library, {state: given, made}) {
    return about(library, given, ({state, descriptor: parent, model, domain}) => {
        const sid = (text) => tried(() => sidBytes(library, text.trim(), domain.text));
        const [owner, group] = [sid(made.owner), sid(made.group)];
        const creator =
            isEmpty(made.creator) ? {} : tried(() => descriptorOf(library, "sddl", made.creator.trim(), domain.option));
        if (owner.fault || group.fault || creator.fault) {
            const creatorPlace = creator.fault && placeOf(library, "sddl", made.creator.trim(), creator.fault);
            return {ownerFault: owner.fault, groupFault: group.fault, creatorFault: creator.fault, creatorPlace};
        }
        const above = (descriptor, model = explained(library, descriptor, domain, state.kind)) =>
            ({model, written: writtenIn(library, model, domain)});
        const from = {parent: above(parent, model), ...(creator.value ? {creator: above(creator.value)} : {})};
        const open = openKind(state, Object.values(from).map((one) => one.model), made.creator);
        if (open) {
            return open;
        }
        const heirs = heirsOf(state.kind);
        if (!heirs.includes(made.kind)) {
            return {hasNoHeirs: true};
        }
        const mapping = mappingOf(state.kind);
        const object = tried(() => inherit(library, {
            parent,
            creator: creator.value ?? null,
            owner: owner.value,
            group: group.value,
            kind: made.kind,
            heirs,
            mapping,
            printing: domain.option
        }));
        if (object.fault) {
            return object;
        }
        if (hasOwnMapping(state.kind) && (hasGeneric(from.parent, true) || hasGeneric(from.creator, false))) {
            return {isMappingUnknown: true};
        }
        const passed = (who) => from[who] && passedOn(from[who], object.value.sources, who);
        return {
            object: madeNode(library, object.value, from, state.kind, domain),
            parent: passed("parent"),
            creator: passed("creator")
        };
    });
}

// Both lists, packed, and how many ACEs they have.
function inLists(itemsOf) {
    const [dacl, sacl] = ["dacl", "sacl"].map(itemsOf);
    return {dacl: packed(dacl), sacl: packed(sacl), count: dacl.length + sacl.length};
}

// What the page shows of a new object: its ACEs, each with the one that it came from, and the objects below.
function madeNode(library, node, from, kind, domain) {
    const model = withMeanings(library, node.model, kind);
    const written = writtenIn(library, model, domain);
    const sourceOf = (list, at) => {
        const source = node.sources[list][at];
        return {...source, text: from[source.who].written[list][source.number - 1]};
    };
    const lists = inLists(
        (list) => model[list].aces.map((ace, at) => ({ace, text: written[list][at], source: sourceOf(list, at)})));
    const children = node.children.map((child) => madeNode(library, child, {parent: {written}}, kind, domain));
    return {
        ...lists,
        kind: node.kind,
        sddl: node.sddl.slice(0, MOST_SHOWN),
        isEmpty: model.dacl.state === "list" && model.dacl.aces.length === 0,
        children,
        count: children.reduce((count, child) => count + child.count, lists.count)
    };
}

// The ACEs of the folder or of the creator, each with whether it goes on.
const passedOn = ({model, written}, sources, who) => inLists((list) => {
    const numbers = new Set(sources[list].filter((source) => source.who === who).map(({number}) => number));
    return model[list].aces.map((ace, at) => ({ace, text: written[list][at], isPassed: numbers.has(ace.number)}));
});

function compareWith(library, {state: given, other}) {
    return about(library, given, ({state, descriptor, model, domain}) => {
        if (isEmpty(other.text)) {
            return {isOtherEmpty: true};
        }
        const second = read(library, other, domain);
        if (second.fault) {
            return {otherFault: second};
        }
        const otherModel = explained(library, second.descriptor, domain, state.kind);
        const sides = sidesOf(library, [[descriptor, model], [second.descriptor, otherModel]], state.kind);
        const found = compare(library, sides);
        const shown = {
            ...found,
            ...openKind(state, [model, otherModel], other.text),
            other: {
                line: second.line,
                dropped: second.dropped,
                found: second.found,
                form: second.form,
                chosen: second.chosen,
                isStandIn: second.isStandIn
            },
            ...belowOf(found, state.kind),
            ...inLists((list) => found[list]),
        };
        return shown.asksKind ? shown : {...shown, ...rightsOf(library, sides, state, domain)};
    });
}

// What is compared: two descriptors, each with what the library is asked about, and what it says.
const sidesOf = (library, both, kind) =>
    both.map(([descriptor, model]) => ({descriptor, asked: asked(library, descriptor, model, kind), model}));

// Whose rights differ.
function rightsOf(library, sides, state, domain) {
    const found = compareRights(library, sides, optionsOf(library, state, domain));
    const changed = found.rights.filter((row) => row.gained || row.lost || row.typed.length);
    return {...found, rights: packed(changed), changed: changed.length};
}

const belowOf = ({dacl}, kind) => ({areBelowSame: !dacl.some((row) => isBelow(row, inheritedBy(kind)))});

// Whether a row of a comparison has an ACE that differs and that children inherit.
const isBelow = ({state, one, other}, inherited) =>
    state !== "same" && [one, other].some((ace) => ace && inherited.some((flag) => ace.flags.includes(flag)));

// An edit: NOW is the descriptor so far, or null, ORIGINS says where its ACEs come from, and STEPS are those to come.
// The answer has what each makes, and tells the last descriptor beside that of the text.
function edit(library, {state: given, now, origins, steps}) {
    return about(library, given, ({state, descriptor, found, model, domain}) => {
        const open = openKind(state, [model]);
        if (open) {
            return open;
        }
        const {made, last: {descriptor: last, origins: from}, refused} =
            edited(library, {descriptor: now ?? descriptor, origins}, steps, domain.text);
        const after = explained(library, last, domain, state.kind);
        const sides = sidesOf(library, [[descriptor, model], [last, after]], state.kind);
        const differing = compare(library, sides, from);
        const written = writtenIn(library, after, domain);
        const texts = sides.map((side) => library.toSddl(side.descriptor, domain.option));
        const name = state.name || found.entry.name;
        const commands = sides.map((side) => forCommand(library, side.descriptor, domain));
        const {codes, dacl, sacl} = after;
        const stoppedIn = (list, code) =>
            (model.codes.includes(code) || !codes.includes(code) ? [] : inheritedOf(model[list].aces));
        return {
            made,
            refused: refused && {...plainFault(refused.fault), field: refused.fault.field ?? null, step: refused.step},
            ...inLists((list) => differing[list].map(
                           (row) => ({...row, text: row.other && written[list][row.other.number - 1]}))),
            ...rightsOf(library, sides, state, domain),
            ...belowOf(differing, state.kind),
            isSame: differing.isSame,
            owner: after.owner,
            group: after.group,
            codes,
            states: {dacl: dacl.state, sacl: sacl.state},
            order: library.order(last),
            judged: verdictOfAny(library, last, after, state, domain),
            before: texts[0],
            sddl: texts[1],
            stopped: {dacl: stoppedIn("dacl", "PD"), sacl: stoppedIn("sacl", "PS")},
            above: aboveOf(name, state.kind),
            commands: commandsFor(state.kind, name, ...commands),
        };
    });
}

const inheritedOf = (aces) => aces.filter(({flags}) => flags.includes("ID")).map(({number}) => number);

const QUESTIONS = {
    look,
    find,
    many,
    ask: askAbout,
    askMany,
    inherit: inheritFrom,
    compare: compareWith,
    edit,
    version: (library) => library.version(),
};

export const questionOf = (library, name, about) => valueIn(QUESTIONS, name)(library, about);
