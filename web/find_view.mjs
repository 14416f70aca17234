// One property, right or class of a directory object, which a field finds by its name: who gets what of it.
import {bitsOf, inOrder, ownOf, reasonIn} from "./access.mjs";
import {input, labelled, make, show, tableHead} from "./dom.mjs";
import {isTrusted} from "./meanings.mjs";
import {rightsInWords} from "./naming.mjs";
import {itemsOf} from "./packing.mjs";
import {who} from "./parts_view.mjs";
import {knownGuids} from "./schema.mjs";
import {ABILITIES} from "./windows.mjs";
import {commaed, say, WORDS} from "./words.mjs";
import {errorInWords} from "./worker.mjs";

const MOST_FOUND = 8;
const MOST_NAMES = 6; // of those who get the same
const words = WORDS.find;

// What the abilities say that a property, right or class gives.
const given = new Map();
for (const {name, says, types} of ABILITIES) {
    for (const [guid] of types) {
        given.set(guid, `${given.get(guid) ?? ""} ${name} ${says}`);
    }
}

// Those that have each word in the name, or in what it lets somebody do, the ones first that ACEs name.
function matching(text, named) {
    const wanted = text.toLowerCase().split(/[\s-]+/).filter(Boolean);
    const all = knownGuids().filter(({guid, name}) => {
        const told = `${name} ${guid} ${given.get(guid) ?? ""}`.toLowerCase();
        return wanted.every((word) => told.includes(word));
    });
    const isNamed = ({guid}) => named.has(guid);
    return wanted.length ? all.sort((one, other) => Number(isNamed(other)) - Number(isNamed(one))) : [];
}

// Who gets which rights of one: [mask, rows], those who aren't trusted first.
function groupsOf(rows, bits) {
    const groups = new Map();
    const isUsual = ({sid}) => isTrusted(sid, "");
    for (const row of [...rows].sort((one, other) => Number(isUsual(one)) - Number(isUsual(other)))) {
        const mask = (ownOf(row) & bits) >>> 0;
        groups.set(mask, groups.get(mask) ?? []);
        groups.get(mask).push(row);
    }
    groups.delete(0);
    return [...groups];
}

// The numbers of the ACEs that give some rights to trustees.
const numbersOf = (rows, mask) =>
    rows.flatMap((row) => bitsOf(mask).map((bit) => reasonIn(row, bit).number)).filter((number) => number !== null);

function foundRow({name, typeName, bits}, rows, names) {
    const groups = groupsOf(rows, bits);
    const numbers = inOrder(groups.flatMap(([mask, some]) => numbersOf(some, mask)));
    const left = (some) =>
        (some.length > MOST_NAMES ? ` ${say(WORDS.summary.left, {count: some.length - MOST_NAMES})}` : "");
    const columns = words.columns;
    return make("tr", {"data-aces": numbers.join(" "), "data-name": name},
        make("th", {scope: "row", "data-label": columns.name}, `${name} (${typeName})`),
        make("td", {"data-label": columns.who},
            groups.length ?
                groups.map(
                    ([mask, some]) => make("div", {},
                        some.slice(0, MOST_NAMES).map((row, at) => [at ? ", " : "", who(row.sid, row.alias, names)]),
                        left(some), ": ", commaed(rightsInWords("ds", mask)))) :
                words.nobody),
        make("td", {"data-label": columns.because}, commaed(numbers)));
}

// The section, whose field keeps what FOUND has of it. NAMED are the GUIDs of ACEs, and ONFIND asks about some.
export function findSection({names, found, onFind}, named) {
    const place = make("div", {id: "found-rows"});
    const status = make("p", {id: "find-status", class: "hint", role: "status"});
    const search = async (text) => {
        found.text = text;
        const all = matching(text, named);
        const some = all.slice(0, MOST_FOUND);
        const answer = some.length ? await onFind(some.map(({guid}) => guid)) : null;
        if (found.text !== text) {
            return;
        }
        const isAsked = text.trim() !== "";
        status.textContent = !isAsked ? "" :
            answer?.error             ? errorInWords(answer.error) :
            !all.length               ? words.none :
            all.length > some.length  ? say(words.count, {count: some.length, all: all.length}) :
                                        say(all.length === 1 ? words.one : words.found, {count: all.length});
        const rows = answer?.found ? itemsOf(answer.found) : [];
        show(place,
            rows.length > 0 &&
                make("table", {class: "trustees", "aria-labelledby": "find-heading"}, tableHead(words.columns),
                    make("tbody", {}, rows.map((one, at) => foundRow(some[at], one, names)))));
    };
    const field = input("find", found.text, search, {"aria-describedby": "find-hint"});
    if (found.text) {
        search(found.text);
    }
    return make("section", {"aria-labelledby": "find-heading"}, make("h2", {id: "find-heading"}, words.heading),
        labelled(words.label, field, words.hint), status, place);
}
