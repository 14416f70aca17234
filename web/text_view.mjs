// The descriptor as it is written, one ACE a line, with its number and a sign. What Windows gives, and what is alike,
// is folded. A line that is chosen is told in words.
import {button, byId, make, moveByArrows, scrolling, show, someRows, tableHead} from "./dom.mjs";
import {rightsInWords, shortened, whereOf} from "./naming.mjs";
import {itemsOf, linesOf} from "./packing.mjs";
import {aceRights, kindClass, who, wordOfKind} from "./parts_view.mjs";
import {valueIn} from "./tables.mjs";
import {commaed, say, WORDS} from "./words.mjs";

const FEW = 12;  // ACEs that are shown one by one
const ALIKE = 4; // ACEs that are folded
const USUAL = 3;
const STEP = 60;        // lines that are shown at once
const MOST_SDDL = 4000; // characters of the whole text
const MOST_HEX = 20_000;
const words = WORDS.text;

const keyOf = ({kind, flags, mask, object, inherited}) => [kind, flags.join(""), mask, object, inherited].join(";");

// ACEs in groups, those in each of which are folded together: {aces, fold}. FOLD is 'usual', 'alike' or null.
function groupsOf(aces) {
    const groups = [];
    for (const ace of aces) {
        const last = groups.at(-1);
        const before = last?.aces[0];
        const isSame = before && (ace.usual ? before.usual : !before.usual && keyOf(before) === keyOf(ace));
        if (isSame) {
            last.aces.push(ace);
        } else {
            groups.push({aces: [ace]});
        }
    }
    const isMany = aces.length > FEW;
    return groups.flatMap(({aces: some}) => {
        const fold = !isMany                      ? null :
            some[0].usual && some.length >= USUAL ? "usual" :
            some.length >= ALIKE                  ? "alike" :
                                                    null;
        return fold ? [{aces: some, fold}] : some.map((ace) => ({aces: [ace], fold: null}));
    });
}

const line = ({text, list, count}) => make("tr", {class: "part"}, make("td"), make("td"),
    make("td", {}, make("code", {}, text), " ", list ? make("small", {id: `${list}-count`}, count) : null));

const aceLine = (ace, context) => make("tr", {
    class: `ace ${kindClass(ace.kind)}`,
    id: `${ace.list}-${ace.number}`,
    tabindex: "-1",
    ...(ace.list === "dacl" ? {"data-ace": ace.number} : {}),
    "aria-label": say(WORDS.error.ace, {number: ace.number, part: valueIn(WORDS.parts, ace.list)}),
    onfocus: () => context.onAce(ace)
},
    make("th", {scope: "row"}, ace.number),
    make("td", {class: "sign"}, make("span", {"aria-hidden": "true"}, valueIn(words.signs, kindClass(ace.kind))),
        make("span", {class: "unseen"}, valueIn(WORDS.aceKinds, ace.kind))),
    make("td", {}, make("code", {}, ace.text)));

// What opens a folded line up to an ACE.
const OPENERS = new WeakMap();

function foldLine(group, context) {
    const {aces, fold} = group;
    const [first, last] = [aces[0], aces.at(-1)];
    const rights = fold === "alike" && context.kind ? commaed(rightsInWords(context.kind, first.meaning)) : "";
    const openTo = (number) => {
        const count = Math.max(STEP, number - first.number + 1);
        row.replaceWith(...aces.slice(0, count).map((ace) => aceLine(ace, context)),
            ...(aces.length > count ? [foldLine({aces: aces.slice(count), fold}, context)] : []));
    };
    const open = () => {
        openTo(first.number);
        byId(`${first.list}-${first.number}`).focus();
    };
    const row = make("tr", {class: "fold", "data-list": first.list, "data-from": first.number, "data-to": last.number},
        make("th", {scope: "row"}, `${first.number}\u2013${last.number}`), make("td"),
        make("td", {},
            button(say(valueIn(words, fold), {count: aces.length, rights}), open, {"aria-expanded": "false"})));
    OPENERS.set(row, openTo);
    return row;
}

// Opens a folded line, and leaves the focus where it is.
export const openFold = (row) => OPENERS.get(row)(Number(row.dataset.from));

const groupLine = (group, context) => (group.fold ? foldLine(group, context) : aceLine(group.aces[0], context));

const FLAGS = {
    dacl: [["PD", "P"], ["DC", "AR"], ["DI", "AI"]],
    sacl: [["PS", "P"], ["SC", "AR"], ["SI", "AI"]]
};

// The front of a list in SDDL, with its flags.
function frontOf(list, model) {
    const {codes} = model;
    const {state} = valueIn(model, list);
    const flags = valueIn(FLAGS, list).filter(([code]) => codes.includes(code)).map(([, flag]) => flag).join("");
    const front = `${list === "dacl" ? "D" : "S"}:${flags}`;
    return state === "absent" ? null : state === "null" ? `${front}NO_ACCESS_CONTROL` : front;
}

function lines(model, context, later) {
    const body = make("tbody");
    const owners = [["O", model.owner], ["G", model.group]]
                       .filter(([, sid]) => sid)
                       .map(([letter, {sid, alias}]) => `${letter}:${alias ?? sid}`)
                       .join(" ");
    const listed = ["dacl", "sacl"].flatMap((list) => {
        const front = frontOf(list, model);
        const groups = groupsOf(itemsOf(model[list].aces));
        const {count} = model[list];
        const counted = count === 1 ? WORDS.parts.one : say(WORDS.parts.list, {count});
        return front ? [{text: front, list, count: counted}, ...groups] : [];
    });
    const all = [...(owners ? [{text: owners}] : []), ...listed];
    const more = someRows(body, all, (one) => (one.text === undefined ? groupLine(one, context) : line(one)),
        (count) => say(WORDS.parts.more, {count}), {step: STEP, later});
    const table =
        make("table", {class: "aces", "aria-label": words.heading}, tableHead(words.columns, {class: "unseen"}), body);
    body.querySelector("tr.ace")?.setAttribute("tabindex", "0");
    moveByArrows(table, "tr.ace");
    return [table, more];
}

// An ACE in words.
export function showAce(ace, {kind, names}) {
    document.querySelectorAll("tr.ace.chosen").forEach((other) => other.classList.remove("chosen"));
    byId(`${ace.list}-${ace.number}`)?.classList.add("chosen");
    const inherited = ace.flags.includes("ID") ? WORDS.origin.inherited : WORDS.origin.own;
    show(byId("ace-words"),
        make("h3", {}, say(WORDS.verdict.ace, {numbers: ace.number}), " ",
            make("small", {}, valueIn(WORDS.parts, ace.list))),
        make("p", {class: kindClass(ace.kind)}, make("strong", {}, wordOfKind(ace)), " ",
            who(ace.sid, ace.alias, names), ": ", aceRights(ace, kind)),
        make("p", {class: "where"}, `${whereOf(kind, ace)}; ${inherited}`));
}

const controlWord = (control) => `0x${control.toString(16).padStart(4, "0")}`;

function ownerLine(part, found, names) {
    return [
        make("dt", {}, valueIn(WORDS.parts, part)),
        make("dd", {}, found ? who(found.sid, found.alias, names) : WORDS.parts.none)
    ];
}

// Owner, group, flags and bytes, which few look for.
function details(result, names) {
    const {model} = result;
    return make("details", {class: "words", id: "text-details"}, make("summary", {}, words.details),
        make("dl", {}, ownerLine("owner", model.owner, names), ownerLine("group", model.group, names),
            make("dt", {}, WORDS.parts.control),
            make("dd", {}, make("code", {}, controlWord(model.control)), " ",
                model.codes.map(
                    (code) => [make("span", {class: "tag", title: code}, valueIn(WORDS.codes, code) ?? code), " "])),
            model.manager === "0x00" ?
                null :
                [make("dt", {}, WORDS.parts.manager), make("dd", {}, make("code", {}, model.manager))]),
        make("p", {}, make("code", {class: "whole"}, shortened(result.sddl, MOST_SDDL))),
        make("p", {}, make("code", {class: "hex"}, shortened(result.hex, MOST_HEX))));
}

// Shows a descriptor that was read.
export function showText(result, context, later = null) {
    const {model} = result;
    const shown = lines(model, context, later);
    show(byId("lines"), scrolling({"aria-label": words.heading}, shown), details(result, context.names));
}

// Shows the ACEs of one whose kind is open: as they are written.
export function showWritten(written) {
    const body = make("tbody");
    const more = someRows(body, linesOf(written), (text) => {
        const {part, number, kind, text: ace} = JSON.parse(text);
        return make("tr", {class: `ace ${kindClass(kind)}`}, make("th", {scope: "row"}, number),
            make("td", {class: "sign"}, make("span", {}, valueIn(words.signs, kindClass(kind)))),
            make("td", {"data-part": part}, make("code", {}, ace)));
    }, (count) => say(WORDS.parts.more, {count}), {step: STEP});
    show(byId("lines"),
        scrolling({"aria-label": words.heading},
            make("table", {class: "aces", "aria-label": words.heading}, tableHead(words.columns, {class: "unseen"}),
                body),
            more));
}

// Leads to an ACE, which may be folded or not yet shown.
export function markAce(list, number) {
    if (byId("lines").hidden) {
        byId("done").click();
    }
    document.querySelectorAll("tr.ace.found").forEach((row) => row.classList.remove("found"));
    const isIn = (fold) =>
        fold.dataset.list === list && Number(fold.dataset.from) <= number && number <= Number(fold.dataset.to);
    const fold = () => [...document.querySelectorAll("tr.fold")].find(isIn);
    /** @returns {HTMLElement | null} */
    const more = () => document.querySelector("#lines .more button");
    while (!byId(`${list}-${number}`) && !fold() && more()) {
        more().click();
    }
    OPENERS.get(fold())?.(number);
    const row = byId(`${list}-${number}`);
    if (row) {
        row.classList.add("found");
        row.scrollIntoView({block: "center"});
        row.focus({preventScroll: true});
    }
}
