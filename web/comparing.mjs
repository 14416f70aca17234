// What differs between two descriptors. Same content means the same canonical layout; rights are answers of check.
import {grantedByType, isBroad, namedRights, tokenOf, tokenSids, typesFor, typesOf} from "./access.mjs";
import {aceText, aclFlags, hexOf} from "./library.mjs";
import {EVERYONE, OWNER_RIGHTS, DECIDING} from "./well_known.mjs";

const MOST_CELLS = 4_000_000; // of the table that finds what two lists have in common
const MOST_WORK = 4_000_000;  // ACEs that all questions together go through

// The pairs of places of a longest common subsequence of two lists, which often begin and end alike.
function commonOf(one, other) {
    const most = Math.min(one.length, other.length);
    let from = 0;
    while (from < most && one[from] === other[from]) {
        from += 1;
    }
    let same = 0;
    while (same < most - from && one.at(-1 - same) === other.at(-1 - same)) {
        same += 1;
    }
    const [rows, columns] = [one.length - from - same, other.length - from - same];
    const ends = Array.from({length: same}, (_, at) => [from + rows + at, from + columns + at]);
    const pairs = Array.from({length: from}, (_, at) => [at, at]);
    if (rows * columns > MOST_CELLS) {
        return [...pairs, ...ends]; // the rest counts as moved, which is true of any order
    }
    const width = columns + 1;
    const lengths = new Uint32Array((rows + 1) * width);
    for (let row = rows - 1; row >= 0; row -= 1) {
        for (let column = columns - 1; column >= 0; column -= 1) {
            lengths[row * width + column] = one[from + row] === other[from + column] ?
                lengths[(row + 1) * width + column + 1] + 1 :
                Math.max(lengths[(row + 1) * width + column], lengths[row * width + column + 1]);
        }
    }
    let [row, column] = [0, 0];
    while (row < rows && column < columns) {
        if (one[from + row] === other[from + column]) {
            pairs.push([from + row, from + column]);
            row += 1;
            column += 1;
        } else if (lengths[(row + 1) * width + column] >= lengths[row * width + column + 1]) {
            row += 1;
        } else {
            column += 1;
        }
    }
    return [...pairs, ...ends];
}

// Takes pairs of places out of two sets of places, each with the first that has the same key.
function takePairs(ones, others, keyOfOne, keyOfOther) {
    const waiting = new Map();
    for (const other of [...others].reverse()) {
        const key = keyOfOther(other);
        if (!waiting.has(key)) {
            waiting.set(key, []);
        }
        waiting.get(key).push(other);
    }
    const pairs = [];
    for (const one of [...ones]) {
        const other = waiting.get(keyOfOne(one))?.pop();
        if (other !== undefined) {
            pairs.push([one, other]);
            ones.delete(one);
            others.delete(other);
        }
    }
    return pairs;
}

const trusteeOf = (ace) => `${ace.kind} ${ace.sid}`;

// ORIGINS are the places of ACEs of the first list that are known to have become those of the other one.
function compareAces(ones, others, origins) {
    const same = commonOf(ones.texts, others.texts);
    const left = new Set(ones.texts.keys());
    const right = new Set(others.texts.keys());
    for (const [one, other] of same) {
        left.delete(one);
        right.delete(other);
    }
    const moved = takePairs(left, right, (one) => ones.texts[one], (other) => others.texts[other]);
    const changed = [
        ...takePairs(left, right, (one) => one, (other) => origins[other]),
        ...takePairs(left, right, (one) => trusteeOf(ones.aces[one]), (other) => trusteeOf(others.aces[other]))
    ];
    const row = (state) => ([one, other]) => ({state, one: ones.aces[one] ?? null, other: others.aces[other] ?? null});
    return [
        ...same.map(row("same")),
        ...moved.map(row("moved")),
        ...changed.map(row("changed")),
        ...[...left].map((one) => row("removed")([one, -1])),
        ...[...right].map((other) => row("added")([-1, other])),
    ].sort((one, other) => placeOf(one) - placeOf(other));
}

const placeOf = ({one, other}) => (other ?? one).number + (other ? 0 : -0.5);

const listOf = ({model}, list) => ({texts: model[list].aces.map(aceText), aces: model[list].aces});

// No token has the SID of owner rights, also where it is the owner.
function trusteesOf(sides) {
    const trustees = new Map();
    for (const {model} of sides) {
        const aces = model.dacl.aces.filter((ace) => DECIDING.includes(ace.kind));
        const anyone = model.dacl.state === "list" ? null : {sid: EVERYONE, alias: "WD"}; // has all rights
        for (const who of [model.owner, anyone, ...aces].filter((one) => one && one.sid !== OWNER_RIGHTS)) {
            trustees.set(who.sid, {sid: who.sid, alias: who.alias ?? trustees.get(who.sid)?.alias ?? null});
        }
    }
    return [...trustees.values()];
}

// For a trustee the rights that check grants to the token of its row in the grid: of the object as a whole or the type
// that is asked for, and if none is, what differs beyond that for each type that an ACE of either is for.
function compareTrustee(library, sides, who, types, {mapping, object, rights}) {
    const [ones, others] = sides.map(({asked}, at) => grantedByType(library, asked, [object, ...types],
                                         tokenOf(library, who.tokens[at]), mapping, rights));
    const [whole, ...rest] =
        ones.map((one, at) => ({gained: (others[at] & ~one) >>> 0, lost: (one & ~others[at]) >>> 0}));
    const typed = rest.map(({gained, lost}, at) => ({
        object: types[at],
        gained: (gained & ~whole.gained) >>> 0,
        lost: (lost & ~whole.lost) >>> 0,
    }));
    const {sid, alias} = who;
    return {sid, alias, ...whole, typed: typed.filter(({gained, lost}) => gained || lost)};
}

// What decides about a trustee: the ACEs for a SID of its token, or for whoever owns the object.
function decidingOf({model: {owner, dacl}}, token) {
    const sids = new Set([...token, OWNER_RIGHTS]);
    return [dacl.state, token.includes(owner?.sid), ...dacl.aces.filter(({sid}) => sids.has(sid)).map(aceText)].join();
}

// Groups that nearly everybody is in come first. The others are asked about in their order, as long as the questions
// are not too many for two descriptors of this length. About whom the same ACEs decide nobody has to be asked.
export function compareRights(library, sides, {mapping, object, common, rights: ofKind}) {
    // Without a list there are all rights, also those that have no meaning.
    const rights =
        sides.reduce((all, {model}) => (all | (model.dacl.state === "list" ? namedRights(model) : ofKind)) >>> 0, 0);
    const types = sides.map(({model}) => typesOf(model, mapping));
    const trustees =
        trusteesOf(sides).map((who) => ({...who, tokens: sides.map(({model}) => tokenSids(who.sid, model, common))}));
    const inOrder = [...trustees.filter(({sid}) => isBroad(sid)), ...trustees.filter(({sid}) => !isBroad(sid))];
    const cost = sides.reduce((sum, {model}) => sum + model.dacl.aces.length + 1, 0);
    const rows = new Map();
    let work = 0;
    for (const who of inOrder) {
        const [one, other] = sides.map((side, at) => decidingOf(side, who.tokens[at]));
        if (one === other) {
            rows.set(who.sid, {sid: who.sid, alias: who.alias, gained: 0, lost: 0, typed: []});
            continue;
        }
        const asked = object ? [] : [...new Set(types.flatMap((one) => typesFor(one, who.tokens.flat())))];
        work += cost * (1 + asked.length);
        if (work > MOST_WORK) {
            break;
        }
        rows.set(who.sid, compareTrustee(library, sides, who, asked, {mapping, object, rights}));
    }
    return {
        rights: trustees.map(({sid}) => rows.get(sid)).filter(Boolean),
        compared: rows.size,
        trustees: trustees.length,
        areTypesLeft: !object && types.some(({isCut}) => isCut)
    };
}

// SIDES are two of {descriptor, asked, model}: what is compared, and what the library is asked about. ORIGINS are of an
// edit, which knows what became of an ACE.
export function compare(library, sides, origins = {
    dacl: [],
    sacl: []
}) {
    const [one, other] = sides;
    const parts = ["owner", "group"].map((part) => ({
        part,
        one: one.model[part],
        other: other.model[part],
        isSame: one.model[part]?.sid === other.model[part]?.sid
    }));
    const flags = ["dacl", "sacl"].map((part) => {
        const [ones, others] = sides.map(({model}) => aclFlags(library, part, model));
        return {part, one: ones, other: others, isSame: ones === others};
    });
    return {
        isSame: hexOf(library.normalize(one.descriptor)) === hexOf(library.normalize(other.descriptor)),
        control: {
            one: one.model.codes,
            other: other.model.codes,
            oneWord: one.model.control,
            otherWord: other.model.control
        },
        manager: {one: one.model.manager, other: other.model.manager},
        parts,
        flags,
        dacl: compareAces(listOf(one, "dacl"), listOf(other, "dacl"), origins.dacl),
        sacl: compareAces(listOf(one, "sacl"), listOf(other, "sacl"), origins.sacl),
    };
}
