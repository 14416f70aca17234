// The fourth view: what differs between two descriptors, and whose rights.
import {byId, labelled, make, scrolling, show, showParts, someRows} from "./dom.mjs";
import {kindQuestion} from "./kind_view.mjs";
import {maskText} from "./library.mjs";
import {foundText} from "./look_view.mjs";
import {faultInWords, whereOf} from "./naming.mjs";
import {linesOf} from "./packing.mjs";
import {aceRights, faultBox, kindClass, longField, rightsDiffering, rightsSection, who} from "./parts_view.mjs";
import {valueIn} from "./tables.mjs";
import {commaed, say, WORDS} from "./words.mjs";

// The parts of the view, and what puts a text into its field.
export function makeCompare(other, refresh) {
    const set = (value) => {
        Object.assign(other, {text: value, form: "auto", chosen: 0});
        refresh();
    };
    const {field, note, put} = longField("other-text", other.text, set, {rows: 4});
    const parts = [
        make("h2", {id: "compare-heading"}, WORDS.compare.heading),
        make("div", {class: "form"}, labelled(WORDS.compare.other, field), note),
        make("div", {id: "compare-result"}),
    ];
    return {parts, put};
}

// Without a kind there are no words for rights and flags.
const rightsAndPlace = (ace, kind) =>
    (kind ? [aceRights(ace, kind), make("span", {class: "where"}, ` ${whereOf(kind, ace)}`)] :
            make("code", {}, [maskText(ace.mask), ace.object, ace.inherited, ...ace.flags].filter(Boolean).join(" ")));

const side = (ace, kind, names) => (ace ?
        [
            make("span", {class: "badge"}, valueIn(WORDS.aceKinds, ace.kind)), " ", who(ace.sid, ace.alias, names), " ",
            rightsAndPlace(ace, kind), ` #${ace.number}`
        ] :
        "");

function aceRow(row, kind, names) {
    const ace = row.one ?? row.other;
    return make("tr", {class: `compared ${row.state} ${kindClass(ace.kind)}`, "data-state": row.state},
        make("th", {scope: "row"},
            make("span", {class: "sign", "aria-hidden": "true"}, valueIn(WORDS.compare.signs, row.state)), " ",
            valueIn(WORDS.compare.states, row.state)),
        make("td", {"data-label": WORDS.compare.columns.one}, side(row.one, kind, names)),
        make("td", {"data-label": WORDS.compare.columns.other}, side(row.other, kind, names)));
}

function aceTable(list, rows, kind, names, later) {
    const title = valueIn(WORDS.parts, list);
    if (!rows) {
        return null;
    }
    const body = make("tbody");
    const {state, one, other} = WORDS.compare.columns;
    const table = make("table", {class: "comparison"}, make("caption", {}, title),
        make("thead", {},
            make("tr", {}, make("td", {}, state), make("th", {scope: "col"}, one), make("th", {scope: "col"}, other))),
        body);
    const more = someRows(body, linesOf(rows), (line) => aceRow(JSON.parse(line), kind, names),
        (count) => say(WORDS.parts.more, {count}), {later});
    return [scrolling({"aria-label": title}, table), more];
}

const flagsInWords = (flags) => (flags === "absent" ? WORDS.parts.absent : flags || WORDS.compare.noFlags);

function partLines(result, names) {
    const text = (found) => (found ? who(found.sid, found.alias, names) : WORDS.parts.none);
    const parts = result.parts.filter((part) => !part.isSame)
                      .map(({part, one, other}) => make("li", {class: "changed"}, valueIn(WORDS.parts, part), ": ",
                               text(one), " \u2192 ", text(other)));
    const flags =
        result.flags.filter((part) => !part.isSame)
            .map(({part, one, other}) => make("li", {class: "changed"},
                     say(WORDS.compare.part,
                         {part: valueIn(WORDS.parts, part), one: flagsInWords(one), other: flagsInWords(other)})));
    const control = result.control.oneWord === result.control.otherWord ?
        null :
        make("li", {class: "changed"},
            say(WORDS.compare.part,
                {part: WORDS.compare.control, one: commaed(result.control.one), other: commaed(result.control.other)}));
    const manager = result.manager.one === result.manager.other ?
        null :
        make("li", {class: "changed"},
            say(WORDS.compare.part, {part: WORDS.parts.manager, one: result.manager.one, other: result.manager.other}));
    const lines = [...parts, ...flags, control, manager].filter(Boolean);
    return lines.length ? make("ul", {class: "differences"}, lines) : null;
}

// Shows it. Returns what a screen reader says of it, and a promise that ends when all is shown.
export function showCompare(result, {kind, names, onKind}, isOver) {
    const place = byId("compare-result");
    if (result.isOtherEmpty) {
        show(place, make("p", {class: "hint"}, WORDS.compare.waiting));
        return [WORDS.compare.waiting];
    }
    if (result.otherFault) {
        show(place,
            make("p", {class: "fault-name"}, say(WORDS.compare.fault, {fault: faultInWords(result.otherFault.fault)})),
            faultBox(result.otherFault.fault, result.otherFault.place));
        return [say(WORDS.compare.fault, {fault: faultInWords(result.otherFault.fault)})];
    }
    const verdict = result.isSame ? WORDS.compare.same : WORDS.compare.different;
    const {asksKind, changed = 0} = result;
    const parts = [
        () => make("div", {},
            make("p", {class: `verdict ${result.isSame ? "same" : "differs"}`}, make("strong", {}, verdict)),
            make("p", {class: "hint"}, foundText(result.other)), partLines(result, names)),
        (later) => (asksKind ? kindQuestion("compare", result, onKind) :
                               rightsSection("compare", WORDS.compare.rights, result, {kind, names}, later)),
        (later) => make("div", {}, aceTable("dacl", result.dacl, kind, names, later)),
        (later) => make("div", {}, aceTable("sacl", result.sacl, kind, names, later))
    ];
    const shown = showParts(place, result.count + changed, parts, isOver);
    return [`${verdict} ${asksKind ? valueIn(WORDS.kindAsked, asksKind) : rightsDiffering(result)}`, shown];
}
