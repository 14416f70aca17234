// Pieces that several views share: a SID, an ACE, a list of ACEs, a fault.
import {area, box, button, make, show, someRows, tooLong} from "./dom.mjs";
import {maskText} from "./library.mjs";
import {
    faultInWords,
    guidInWords,
    labelInWords,
    nameOf,
    placeInWords,
    refusedKind,
    rightsInWords,
    visible
} from "./naming.mjs";
import {linesOf} from "./packing.mjs";
import {MOST_TEXT} from "./state.mjs";
import {valueIn} from "./tables.mjs";
import {ALLOWS, DENIES} from "./well_known.mjs";
import {commaed, formatted, say, WORDS} from "./words.mjs";

const LARGE = 20_000; // characters; a longer text is kept beside its field

// A field for a text that may be long, with what to show beside it, and a function that puts a text into it. TAKE gets
// what is typed or pasted. A long text stays out of the field: no browser lays out a line of a megabyte at each key.
// One that is too long is not taken.
export function longField(id, text, take, {most = MOST_TEXT, clear = null, ...attributes}) {
    const note = make("div", {id: `${id}-large`, class: "large", role: "status", hidden: true});
    const put = (value) => {
        const said = tooLong(value, most);
        field.value = isLarge(value) ? "" : value;
        field.disabled = isLarge(value) && !said;
        show(note, said || isLarge(value) && [
            say(WORDS.large, {count: value.length}), " ", button(WORDS.clear, empty, {id: `${id}-clear`})
        ]);
    };
    const empty = () => {
        (clear ?? set)("");
        field.focus();
    };
    const set = (value) => {
        put(value);
        take(value.length > most ? "" : value);
    };
    const paste = (event) => {
        const pasted = event.clipboardData?.getData("text") ?? "";
        if (isLarge(pasted)) {
            event.preventDefault();
            set(pasted);
        }
    };
    const type = (value) => (isLarge(value) || !note.hidden ? set(value) : take(value));
    const field = area(id, "", type, {class: "descriptor", ...attributes, onpaste: paste});
    put(text);
    return {field, note, put};
}

export const isLarge = (text) => text.length > LARGE;

// Which rows of a long table are shown, and buttons to others. GO gets a page and the id of its button.
export function pagesBar(name, {page, rows, count}, go) {
    const {lines: words} = WORDS;
    const last = Math.max(0, Math.ceil(count / rows) - 1);
    const move = (text, to, id) => button(text, () => go(to, id), {id, disabled: to < 0 || to > last || to === page});
    return make("p", {class: "pages"}, say(words.page, {
        from: formatted(Math.min(count, page * rows + 1)),
        to: formatted(Math.min(count, (page + 1) * rows)),
        count: formatted(count)
    }),
        " ", move(words.first, 0, `${name}-first`), move(words.previous, page - 1, `${name}-previous`),
        move(words.next, page + 1, `${name}-next`), move(words.last, last, `${name}-last`));
}

export const kindClass = (kind) => (ALLOWS.includes(kind) ? "allow" :
        DENIES.includes(kind)                             ? "deny" :
        kind === "ML"                                     ? "label" :
                                                            "audit");

// A SID: its name, and the exact text beside it.
export function who(sid, alias, names) {
    const name = nameOf(sid, names);
    return make("span", {class: "who", title: sid}, make("bdi", {class: "name"}, name),
        name === sid ? null : make("code", {class: "sid"}, alias ? `${alias} ${sid}` : sid));
}

export const plainName = (sid, names) => nameOf(sid, names);

// What an ACE does, and whether it audits success or failure.
export function wordOfKind(ace) {
    const audits = ace.flags.map((flag) => valueIn(WORDS.audits, flag)).filter(Boolean);
    const isAudit = ace.kind === "AU" || ace.kind === "OU";
    return valueIn(WORDS.aceKinds, ace.kind) + (isAudit && audits.length ? ` ${commaed(audits)}` : "");
}

export const rightsOfAce = (ace, kind) =>
    (ace.kind === "ML" ? labelInWords(ace.mask) : rightsInWords(kind, ace.meaning));

export function aceRights(ace, kind) {
    const words = rightsOfAce(ace, kind);
    const generic = ace.meaning === ace.mask ? null : make("small", {}, ` (${commaed(rightsInWords(kind, ace.mask))})`);
    const object = ace.object ?
        make("div", {class: "object"}, say(WORDS.object, {name: guidInWords(ace.object, ace.meaning)})) :
        null;
    return [make("span", {}, commaed(words)), generic, " ", make("code", {class: "mask"}, maskText(ace.mask)), object];
}

// A text with the place that is marked, and no more of it than one can look at.
const AROUND = 60;
const MOST_MARKED = 400;

function markedText({text, start, end}) {
    const from = Math.max(0, start - AROUND);
    const marked = text.slice(start, Math.min(end, start + MOST_MARKED));
    const after = text.slice(end, end + AROUND);
    return make("pre", {class: "place"}, from > 0 ? ".. " : "", visible(text.slice(from, start)),
        make("mark", {}, visible(marked) || "\u00a0", end > start + MOST_MARKED ? " .." : ""), visible(after),
        end + AROUND < text.length ? " .." : "");
}

const NO_SUCH_KIND = 29;

export function faultBox(fault, place, ...more) {
    const [kind, where] = [refusedKind(fault, place), placeInWords(place)];
    const suggestion = valueIn(WORDS.faults, kind ? NO_SUCH_KIND : fault.number)?.[1];
    return make("div", {class: "fault"}, make("p", {class: "fault-name"}, make("strong", {}, faultInWords(fault))),
        kind && make("p", {}, say(WORDS.error.unsupported, kind)),
        make("p", {}, where ? say(WORDS.error.place, {place: where}) : WORDS.error.unplaced), markedText(place),
        suggestion ? make("p", {}, say(WORDS.error.suggestion, {text: suggestion})) : null, ...more);
}

const differing = ({gained, lost}) => ({"data-gained": gained, "data-lost": lost});

function difference({gained, lost}, kind) {
    const words = (name, mask) =>
        (mask === 0 ? null :
                      make("span", {class: name},
                          say(valueIn(WORDS.compare, name), {rights: commaed(rightsInWords(kind, mask))}), " "));
    return [words("gained", gained), words("lost", lost)];
}

// What differs for one property, right or class.
const typedLine = (typed, kind) => make("li", {"data-object": typed.object, ...differing(typed)},
    difference(typed, kind), say(WORDS.object, {name: guidInWords(typed.object, typed.gained | typed.lost)}));

const rightsItem = (row, kind, names) =>
    make("li", {"data-sid": row.sid, ...differing(row)}, who(row.sid, row.alias, names), " ", difference(row, kind),
        row.typed.length ? make("ul", {}, row.typed.map((typed) => typedLine(typed, kind))) : null);

// Whether rights of some trustees were not compared, which is no sign that they are the same.
const areLeft = ({compared, trustees}) => compared < trustees;

const rightsLeft = ({compared, trustees}) =>
    say(WORDS.compare.rightsLeft, {count: formatted(compared), all: formatted(trustees)});

// Whose rights a comparison found to differ, and what it did not ask about.
export function rightsSection(id, heading, result, {kind, names}, later = null) {
    const list = make("ul", {class: "differences"});
    const more = someRows(list, linesOf(result.rights), (line) => rightsItem(JSON.parse(line), kind, names),
        (count) => say(WORDS.grid.more, {count}), {later});
    return make("section", {"aria-labelledby": `${id}-rights`}, make("h3", {id: `${id}-rights`}, heading),
        result.changed > 0  ? [list, more] :
            areLeft(result) ? null :
                              make("p", {}, WORDS.compare.rightsNone),
        result.areBelowSame ? null : make("p", {class: "hint"}, WORDS.compare.below),
        result.areTypesLeft ? make("p", {class: "fault-name"}, WORDS.warnings.manyTypes) : null,
        areLeft(result) ? make("p", {class: "fault-name"}, rightsLeft(result)) : null);
}

// The same in a sentence.
export const rightsDiffering = (result) => (areLeft(result) ? rightsLeft(result) :
        result.changed > 0                                  ? say(WORDS.compare.rightsCount, {count: result.changed}) :
                                                              WORDS.compare.rightsNone);

// A box for each right, of which some are chosen.
export const rightBoxes = (id, rights, isChosen, choose) =>
    rights.map(({bit, name}) => box(`${id}-${bit}`, name, isChosen(bit), (checked) => choose(bit, checked)));
