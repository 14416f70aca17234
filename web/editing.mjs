// An edit of a descriptor, step by step: what was done, what was undone, and what a step asks of the library, which
// makes the changes. Nothing here knows the document.
import {isFault, newAceOf, sidBytes} from "./library.mjs";
import {isDirectory} from "./meanings.mjs";
import {valueIn} from "./tables.mjs";

const INHERITED = 0x10;
const PROTECTED = {
    dacl: 0x1000,
    sacl: 0x2000
};

/**
 * The steps that were done, each with the descriptor after it, those that were undone, and those that wait for an
 * answer. ABOUT is what the descriptor before all steps comes from.
 */
export class Editing {
    constructor() {
        this.about = [];
        this.done = [];
        this.undone = [];
        this.waiting = [];
    }

    // Begins anew with another descriptor.
    begin(about) {
        if (!this.about.length || about.some((one, at) => one !== this.about[at])) {
            Object.assign(this, {about, done: [], undone: [], waiting: []});
        }
    }

    // The descriptor so far, or null before the first step, and where its ACEs come from.
    get now() { return this.done.at(-1)?.descriptor ?? null; }

    get origins() { return this.done.at(-1)?.origins ?? null; }

    get last() { return this.done.at(-1)?.step ?? null; }

    // Whether a step that waits gives ACEs other numbers than those that are shown.
    get isRenumbering() { return this.waiting.some(({does}) => valueIn(ORIGINS, does)); }

    add(step) { this.waiting.push(step); }

    // Takes an answer: what the steps that waited made, as far as they could be done.
    take({made = []}) {
        const steps = this.waiting.splice(0);
        this.done.push(...made.map((one, at) => ({step: steps[at], ...one})));
        if (made.length) {
            this.undone = [];
        }
    }

    // Whether there was a step to undo.
    undo() {
        const one = this.waiting.pop() ?? this.done.pop();
        if (one?.descriptor) {
            this.undone.push(one);
        }
        return Boolean(one);
    }

    redo() {
        const one = this.undone.pop();
        if (one) {
            this.done.push(one);
        }
        return Boolean(one);
    }
}

// What a descriptor stops to inherit it keeps as its own, or loses.
const stopping = (list, keeps) => {
    const match = {flags: INHERITED, flagsMask: INHERITED};
    return [
        {change: "control", setControl: valueIn(PROTECTED, list)},
        keeps ? {change: "setEach", acl: list, match, setting: {clearFlags: INHERITED}} :
                {change: "takeEach", acl: list, match}
    ];
};

// Windows writes inherited ACEs again, so an object with another one has to stop inheriting.
function stoppingFor(library, descriptor, list, numbers) {
    const parts = library.parts(descriptor);
    const isProtected = (parts.control & valueIn(PROTECTED, list)) !== 0;
    const isInherited = numbers.some((number) => (parts[list].aces?.[number - 1]?.flags & INHERITED) !== 0);
    return isInherited && !isProtected ? stopping(list, true) : [];
}

// An ACE as it is where an object stops inheriting.
const owned = (ace, stops) => (stops.length ? {...ace, flags: ace.flags & ~INHERITED} : ace);

// A list that isn't there has nobody's rights in it. An absent SACL audits nothing, as an empty one does.
const listFor = (library, descriptor, list) => (list === "sacl" && library.parts(descriptor).sacl.state !== "list" ?
        [{change: "state", acl: list, state: "list"}] :
        []);

const STEPS = {
    take: (library, descriptor, {list, numbers}) => [...stoppingFor(library, descriptor, list, numbers),
        ...[...numbers]
            .sort((one, other) => other - one)
            .map((number) => ({change: "take", acl: list, place: number - 1}))],
    replace: (library, descriptor, {list, number, ace}, domain) => {
        const stops = stoppingFor(library, descriptor, list, [number]);
        const own = owned(newAceOf(library, ace, domain), stops);
        return [...stops, {change: "replace", acl: list, place: number - 1, ace: own}];
    },
    // Where the list has no order, no place in it is the right one.
    put: (library, descriptor, {list, ace}, domain) => [...listFor(library, descriptor, list), {
        change: "put",
        acl: list,
        place: library.order(descriptor)[list] === null ? "order" : "end",
        ace: newAceOf(library, ace, domain)
    }],
    move: (library, descriptor, {list, number, by}) => {
        const stops = stoppingFor(library, descriptor, list, [number]);
        const ace = owned(library.parts(descriptor)[list].aces[number - 1], stops);
        return [
            ...stops, {change: "take", acl: list, place: number - 1},
            {change: "put", acl: list, place: number - 1 + by, ace}
        ];
    },
    sort: (library, descriptor, {list}) => [{change: "order", acl: list}],
    stop: (library, descriptor, {list, keeps}) => stopping(list, keeps),
    inherit: (library, descriptor, {list}) => [{change: "control", clearControl: valueIn(PROTECTED, list)}],
    list: (library, descriptor, {list}) => [{change: "state", acl: list, state: "list"}],
    owner: (library, descriptor, {sid}, domain) => [{change: "owner", sid: sidOrNone(library, sid, domain)}],
    group: (library, descriptor, {sid}, domain) => [{change: "group", sid: sidOrNone(library, sid, domain)}],
};

const sidOrNone = (library, sid, domain) => (sid === "" ? null : sidBytes(library, sid, domain));

const keyOf = (ace) => Object.values(ace ?? {}).join(";");

const without = (items, at) => [...items.slice(0, at), ...items.slice(at + 1)];

const withItem = (items, at, item) => [...items.slice(0, at), item, ...items.slice(at)];

// Where the ACEs of a list come from after a step: their places before all steps, or -1. BEFORE and AFTER are the lists
// around the step. Those that a step changes stay the same ones.
const ORIGINS = {
    take: (origins, {numbers}) => origins.filter((_, at) => !numbers.includes(at + 1)),
    put: (origins, step, before, after) =>
        withItem(origins, after.findIndex((ace, at) => keyOf(ace) !== keyOf(before[at])), -1),
    move: (origins, {number, by}) => withItem(without(origins, number - 1), number - 1 + by, origins[number - 1]),
    sort: (origins, step, before, after) => {
        const places = new Map(before.map((ace) => [keyOf(ace), []]));
        before.forEach((ace, at) => places.get(keyOf(ace)).push(at));
        return after.map((ace) => origins[places.get(keyOf(ace)).shift()]);
    },
    stop: (origins, {keeps}, before) => origins.filter((_, at) => keeps || (before[at].flags & INHERITED) === 0),
};

function originsAfter(library, step, before, after, origins) {
    const change = valueIn(ORIGINS, step.does);
    const acesOf = (descriptor) => library.parts(descriptor)[step.list].aces ?? [];
    return change ? {...origins, [step.list]: change(origins[step.list], step, acesOf(before), acesOf(after))} :
                    origins;
}

// Each ACE comes from its own place.
function ownOrigins(library, descriptor) {
    const {dacl, sacl} = library.parts(descriptor);
    return {dacl: [...(dacl.aces ?? []).keys()], sacl: [...(sacl.aces ?? []).keys()]};
}

/**
 * What each of some steps makes, {descriptor, origins}, as far as they can be done, and why the next one can't:
 * {made, last, refused}. DOMAIN is that of aliases.
 */
export function edited(library, first, steps, domain) {
    const made = [];
    let last = {descriptor: first.descriptor, origins: first.origins ?? ownOrigins(library, first.descriptor)};
    for (const step of steps) {
        try {
            const changes = valueIn(STEPS, step.does)(library, last.descriptor, step, domain);
            const {descriptor} = library.edit(last.descriptor, changes);
            last = {descriptor, origins: originsAfter(library, step, last.descriptor, descriptor, last.origins)};
        } catch (fault) {
            if (!isFault(fault)) {
                throw fault;
            }
            return {made, last, refused: {fault, step}};
        }
        made.push(last);
    }
    return {made, last, refused: null};
}

// The name of what an object inherits from, by its own name, or "".
export function aboveOf(name, kind) {
    if (isDirectory(kind)) {
        return /^(?:[^,\\]|\\[^])*,\s*(?<above>[^]+)$/.exec(name)?.groups.above ?? "";
    }
    const parts = name.replace(/(?<![\\/])[\\/]+$/, "").split(/(?<=[\\/])/);
    const above = parts.slice(0, -1).join("");
    return /^[a-z]:[\\/]$/i.test(above) ? above : above.replace(/(?<![\\/])[\\/]+$/, "");
}
