// The first view: who can do what, warnings, and a grid of rights.
import {bitsOf, cellOf, decidedOf, has, inOrder, ownOf, reasonIn} from "./access.mjs";
import {button, byId, make, moveByArrows, scrolling, show, showParts, someRows, tableHead} from "./dom.mjs";
import {findSection} from "./find_view.mjs";
import {doing as maskDoing, isDirectory, isTrusted} from "./meanings.mjs";
import {guidInWords, labelInWords, rightName, rightsInWords, rightsOf, shortened, visible} from "./naming.mjs";
import {itemsOf, linesOf} from "./packing.mjs";
import {faultBox, plainName, who} from "./parts_view.mjs";
import {verbsOf} from "./sentences.mjs";
import {valueIn} from "./tables.mjs";
import {markAce} from "./text_view.mjs";
import {commaed, say, WORDS} from "./words.mjs";

const EXTENDED = 0x100; // a right that says nothing without its object type
const MOST_ROWS = 40;   // of the grid, until more are asked for
const ROWS_OF_A_TURN = 10;
const MOST_GROUPS = 15; // of trustees
const MOST_NAMES = 3;   // of a group
const MOST_RIGHTS = 3;  // in a sentence
const MOST_TYPED = 2;
const MOST_REASONS = 20;  // of a cell
const MOST_SHOWN = 4;     // numbers of ACEs behind a trustee
const MOST_NUMBERS = 30;  // of ACEs in a sentence
const MOST_DROPPED = 160; // characters of what was left out
const MOST_ACE = 300;

const heading = (text, id, note) => make("h2", {id}, text, note ? [" ", make("small", {}, note)] : null);

function firstOf(items, most, inWords) {
    const left = items.length > most ? [say(WORDS.summary.left, {count: items.length - most})] : [];
    return commaed([...items.slice(0, most).map(inWords), ...left]);
}

const shortOf = (rights) => firstOf(rights, MOST_RIGHTS, String);

// What a trustee can do: many rights together by their name, and those that an ACE denies of them.
function canInWords(row, granted, kind, rights) {
    const {summary: words} = WORDS;
    const {denied, typed} = row;
    if (has(granted, rights)) {
        return words.full;
    }
    const without = (denied & rights) >>> 0;
    const [bits, name] = valueIn(WORDS.masks, kind).find(([mask]) => has((granted | without) >>> 0, mask)) ?? [0, ""];
    const lost = (bits & without) >>> 0;
    const own = granted === 0 ? [] : [shortOf(rightsInWords(kind, granted))];
    if (granted !== 0 && lost !== 0 && lost !== bits) {
        const more = (granted & ~bits) >>> 0;
        const some = shortOf([name, ...(more ? rightsInWords(kind, more) : [])]);
        own.splice(0, 1, say(words.but, {rights: some, lost: shortOf(rightsInWords(kind, lost))}));
    }
    const ofTypes = typed.map(
        ({object, mask}) => (mask === EXTENDED ?
                guidInWords(object, mask) :
                say(words.typed, {rights: shortOf(rightsInWords(kind, mask)), name: guidInWords(object, mask)})));
    const all = [...own, ...(ofTypes.length ? [firstOf(ofTypes, MOST_TYPED, String)] : [])];
    return all.join("; ") || (row.granted ? words.noMore : words.nothing);
}

// The ACEs that decide about what a trustee can do, and whether it has rights as the owner.
function becauseOf(row, granted, inherited) {
    const decided = decidedOf(row).filter(({by}) => by === "ace");
    const numbersOf = (mask) => decided.filter(({bit}) => has(mask, bit)).map(({number}) => number);
    const own = (granted & row.given) === 0 ? [] : row.giving;
    const granting = [...own, ...numbersOf((granted & ~row.given) >>> 0), ...(row.typed.length ? row.numbers : [])];
    const numbers = inOrder(granting);
    return {
        numbers,
        denying: inOrder(numbersOf(row.denied)),
        isInherited: numbers.length > 0 && numbers.every((number) => inherited.has(number))
    };
}

// The same of several trustees in words. Of many it is only told how many ACEs these are.
function becauseInWords(all, rows) {
    const {summary: words} = WORDS;
    const numbers = inOrder(all.flatMap((one) => one.numbers));
    const denying = inOrder(all.flatMap((one) => one.denying));
    const inWords = (some) => (some.length > MOST_SHOWN ?
            say(WORDS.parts.list, {count: some.length}) :
            say(some.length === 1 ? WORDS.verdict.ace : WORDS.verdict.aces, {numbers: commaed(some)}));
    const isInherited = all.every((one) => one.isInherited);
    return [
        ...(numbers.length ? [isInherited ? say(words.inherited, {aces: inWords(numbers)}) : inWords(numbers)] : []),
        ...(rows.some((row) => row.byRule !== 0) ? [words.byOwner] : []),
        ...(denying.length ? [say(denying.length === 1 ? words.denies : words.deny, {aces: inWords(denying)})] : [])
    ].join("; ");
}

// How unusual it is what a trustee can do: others that change something, those who are trusted or whom Windows itself
// lets, those that read.
function orderOf({granted, typed, sid}, {change, read}, isUsual) {
    const all = typed.reduce((mask, one) => mask | one.mask, granted);
    return (all & change) !== 0 ? (isUsual || isTrusted(sid, "") ? 1 : 0) : (all & read) !== 0 ? 2 : all !== 0 ? 3 : 4;
}

// The rows of the grid, each with how unusual it is, and with what is granted for an object type to the trustee whose
// ACE names it.
function rankedRows(result, kind) {
    const masks = {change: maskDoing(kind, "change"), read: maskDoing(kind, "read")};
    const aces = new Map(itemsOf(result.model.dacl.aces).map((ace) => [ace.number, ace]));
    const inherited = new Set([...aces.values()].filter(({flags}) => flags.includes("ID")).map(({number}) => number));
    return result.grid.rows.map((row) => {
        const granted = ownOf(row);
        const own = row.numbers.map((number) => aces.get(number));
        const typed = row.typed.filter(({object}) => own.some((ace) => ace.object === object));
        const order = orderOf({granted, typed, sid: row.sid}, masks, own.length > 0 && own.every(({usual}) => usual));
        return {row, granted, order, because: becauseOf({...row, typed}, granted, inherited), typed};
    });
}

// Those that are alike together, unusual ones first, and before these whom the verdict is about: {rows, order, all}.
function groupsOf(ranked, result, keyOf) {
    const groups = new Map();
    for (const one of [...ranked].sort((other, another) => other.order - another.order)) {
        const key = keyOf(one);
        const group = groups.get(key) ?? {rows: [], order: one.order, all: [], first: one};
        group.rows.push(one.row);
        group.all.push(one.because);
        groups.set(key, group);
    }
    const isFirst = ({rows}) => rows.some(({sid}) => sid === result.judged.who?.[0]);
    return [...groups.values()].sort((one, other) => isFirst(other) - isFirst(one) || one.order - other.order);
}

// The names of trustees that are alike, of which a few are seen at once. ATTRIBUTES are those of each.
function namesShown(rows, names, attributesOf = (_) => ({})) {
    const shown = (some) =>
        some.map((row, at) => [at ? ", " : "", make("span", attributesOf(row), who(row.sid, row.alias, names)),
                     row.isOwner ? make("span", {class: "tag"}, WORDS.grid.owner) : null]);
    const left = rows.slice(MOST_NAMES);
    return [
        shown(rows.slice(0, MOST_NAMES)),
        left.length ? make("details", {class: "others"},
                          make("summary", {}, say(WORDS.summary.left, {count: left.length})), shown(left)) :
                      null
    ];
}

function trusteeRow({rows, first, order, all}, kind, rights, names) {
    const {columns} = WORDS.summary;
    const can = canInWords({...first.row, typed: first.typed}, first.granted, kind, rights);
    const numbers = new Set(all.flatMap((one) => [...one.numbers, ...one.denying]));
    return make("tr", {class: `trustee order-${order}`, "data-aces": [...numbers].join(" ")},
        make("th", {scope: "row", "data-label": columns.who}, namesShown(rows, names)),
        make("td", {"data-label": columns.can}, can),
        make("td", {"data-label": columns.because}, becauseInWords(all, rows)));
}

function trustees(result, kind, names, ranked) {
    const {summary: words} = WORDS;
    const {grid} = result;
    if (!grid.isList) {
        return make("section", {class: "summary", "aria-labelledby": "summary-heading"},
            heading(words.heading, "summary-heading"), make("p", {class: "everyone"}, words.everyone),
            make("p", {}, words.everyoneWhy));
    }
    const body = make("tbody");
    const canOf = ({row, granted, typed}) => canInWords({...row, typed}, granted, kind, grid.rights);
    const groups = groupsOf(ranked, result, (one) => `${one.order} ${canOf(one)}`);
    const more = someRows(body, groups, (group) => trusteeRow(group, kind, grid.rights, names),
        (count) => say(WORDS.grid.more, {count}), {step: MOST_GROUPS});
    return make("section", {class: "summary", "aria-labelledby": "summary-heading"},
        heading(words.heading, "summary-heading", words.note),
        groups.length ?
            make("table", {class: "trustees", "aria-labelledby": "summary-heading"}, tableHead(words.columns), body) :
            make("p", {}, words.nobody),
        more);
}

const acesInWords = (numbers) =>
    say(numbers.length === 1 ? WORDS.acesOne : WORDS.acesMany, {numbers: firstOf(numbers, MOST_NUMBERS, String)});

// What a warning says, with the classes that it depends on.
export function warningText(warning, kind, names) {
    const {onlyOf, exceptOf} = warning;
    const text = plainText(warning, kind, names);
    const classes = (onlyOf ?? exceptOf ?? []).join(WORDS.or);
    return classes ? say(onlyOf ? WORDS.onlyOf : WORDS.exceptOf, {classes, text}) : text;
}

function plainText(warning, kind, names) {
    const {key, numbers = []} = warning;
    return say(valueIn(WORDS.warnings, key), {
        ...(warning.who ? verbsOf([warning.who]) : {}),
        who: warning.who ? plainName(warning.who, names) : "",
        rights: warning.mask ? commaed(rightsInWords(warning.kind ?? kind, warning.mask)) : "",
        says: warning.says ? valueIn(WORDS.lets, warning.says) : "",
        number: numbers[0],
        first: numbers[0],
        second: numbers[1],
        aces: acesInWords(numbers),
        why: warning.why ? valueIn(WORDS.useless, warning.why) : "",
        count: warning.count ?? warning.domains?.length,
        domains: warning.domains ? commaed(warning.domains) : "",
        object: warning.object ? guidInWords(warning.object, warning.mask) : "",
        policy: warning.policy === undefined ? "" : commaed(labelInWords(warning.policy)),
    });
}

function warningItem(warning, kind, names) {
    const {level, numbers = [], list = "dacl"} = warning;
    return make("li", {class: `warning ${level}`, "data-aces": list === "dacl" ? numbers.join(" ") : null},
        make("span", {class: "badge"}, valueIn(WORDS.warningLevels, level)), " ", warningText(warning, kind, names),
        numbers.slice(0, 8).map((number) => [" ", jumpTo(list, number)]));
}

function warnings(result, kind, names) {
    const list = make("ul", {class: "warnings"});
    const more = someRows(list, linesOf(result.warnings), (line) => warningItem(JSON.parse(line), kind, names),
        (count) => say(WORDS.grid.more, {count}), {step: 20});
    return make("section", {"aria-labelledby": "warnings-heading"}, heading(WORDS.warningsHeading, "warnings-heading"),
        result.warnings ? [list, more] : make("p", {}, WORDS.noWarnings));
}

function jumpTo(list, number) {
    return button(`${list === "sacl" ? "SACL " : ""}${number}`, () => markAce(list, number),
        {class: "jump", "aria-label": say(WORDS.error.ace, {number, part: valueIn(WORDS.parts, list)})});
}

export const stateWord = (state, grid) =>
    (state === "rule" ? (grid.isList ? WORDS.grid.ruleOwner : WORDS.grid.ruleNoDacl) :
                        valueIn(WORDS.grid.states, state));

function gridCell(rows, right, name, context, isFirst) {
    const {grid} = context;
    const state = cellOf(rows[0], right.bit);
    const text = say(WORDS.grid.cell, {who: name, right: right.name, state: stateWord(state, grid)});
    return make("td", {class: `state ${state} group-${right.group}`},
        button(valueIn(WORDS.grid.signs, state), (event) => context.onCell(rows, right, event.currentTarget), {
            class: "cell",
            "aria-label": text,
            title: text,
            tabindex: isFirst ? "0" : "-1",
            "data-sid": rows[0].sid,
            "data-bit": right.bit,
            "data-state": state
        }));
}

// The names of some trustees in a sentence.
const plainNames = (rows, names) => firstOf(rows, MOST_NAMES, ({sid}) => plainName(sid, names));

function gridRow(rows, rights, context, isFirst) {
    const name = plainNames(rows, context.names);
    return make("tr", {},
        make("th", {scope: "row"},
            namesShown(rows, context.names, ({sid, token}) => ({"data-sid": sid, "data-token": token.join(" ")}))),
        rights.map((right, column) => gridCell(rows, right, name, context, isFirst && column === 0)));
}

function groupHeadings(rights) {
    const groups = [...new Set(rights.map((right) => right.group))];
    return make("tr", {}, make("td"),
        groups.map((group) => make("th", {
            scope: "colgroup",
            class: `group-${group}`,
            colspan: rights.filter((right) => right.group === group).length
        },
                       valueIn(WORDS.grid.groups, group))));
}

// The rows of the grid: trustees with the same cells have one.
export function alikeRows(result, kind, ranked = rankedRows(result, kind)) {
    const rights = rightsOf(kind).filter((right) => has(result.grid.rights, right.bit));
    return groupsOf(ranked, result, ({row}) => rights.map(({bit}) => cellOf(row, bit)).join());
}

function gridSection(result, context, ranked, later) {
    const {grid} = result;
    const {kind, isCommon} = context;
    const rights = rightsOf(kind).filter((right) => has(grid.rights, right.bit));
    const body = make("tbody");
    const caption = `${WORDS.grid.caption} ${isCommon ? WORDS.grid.tokenCommon : WORDS.grid.tokenAlone}`;
    const table = make("table", {class: "grid", "aria-labelledby": "grid-heading", "aria-describedby": "grid-hint"},
        make("thead", {}, groupHeadings(rights),
            make("tr", {}, make("th", {scope: "col"}, WORDS.grid.trustee),
                rights.map((right) => make("th", {scope: "col", class: `group-${right.group}`, title: right.name},
                               make("span", {}, right.short))))),
        body);
    const groups = alikeRows(result, kind, ranked);
    const more = someRows(body, groups, (group) => gridRow(group.rows, rights, {...context, grid}, group === groups[0]),
        (count) => say(WORDS.grid.more, {count}), {step: MOST_ROWS, later, turn: ROWS_OF_A_TURN});
    moveByArrows(table, "button.cell");
    return make("section", {"aria-labelledby": "grid-heading"}, heading(WORDS.grid.heading, "grid-heading"),
        legend(grid), make("p", {class: "hint", id: "grid-hint"}, caption),
        scrolling({"aria-labelledby": "grid-heading"}, table), more,
        grid.left ? make("p", {}, button(WORDS.grid.all, context.onAll, {id: "grid-all"})) : null,
        make("div", {id: "why", class: "why", role: "status", "aria-live": "polite"}));
}

// Gives the focus to the grid, where the button that asked for more of it is gone.
export function focusGrid() {
    if (document.activeElement === document.body) {
        /** @type {HTMLElement} */ (document.querySelector(".scroll[aria-labelledby='grid-heading']"))?.focus();
    }
}

const legend = (grid) => make("p", {class: "legend", "aria-hidden": "true"},
    ["granted", "rule", "denied", "none"].map(
        (state) => make("span", {class: `key ${state}`}, make("b", {}, valueIn(WORDS.grid.signs, state)),
            ` ${stateWord(state, grid)}`)));

const REASON_KEYS = {
    "no-dacl": "noDacl",
    "no-privilege": "noPrivilege"
};
export const reasonKey = (by) => valueIn(REASON_KEYS, by) ?? by;

// In a sentence what decided about a right.
function reasonInWords(reason, name, kind, texts) {
    const {reasons} = WORDS;
    return say(valueIn(reasons, reasonKey(reason.by)), {
        who: name,
        verb: reason.isGranted ? reasons.may : reasons.mayNot,
        right: rightName(kind, reason.bit),
        number: reason.number,
        text: reason.number ? texts[reason.number - 1] : "",
    });
}

// What decided about a cell of the grid, in a row below the cell's: a sentence for those with one reason.
export function showReason(rows, bit, {names, kind, texts}, cell) {
    const place = byId("why");
    const own = cell.closest("tr");
    place.closest("tr")?.remove();
    const columns = own.childElementCount;
    own.after(make("tr", {class: "reason-row"}, make("td", {colspan: columns}, place)));
    const byReason = new Map();
    for (const row of rows) {
        const reason = reasonIn(row, bit);
        const key = `${reason.by} ${reason.number}`;
        byReason.set(key, {reason, rows: [...(byReason.get(key)?.rows ?? []), row]});
    }
    const all = [...byReason.values()];
    const sentences = all.slice(0, MOST_REASONS)
                          .map(({reason, rows: some}) => make("p", {"data-sids": some.map(({sid}) => sid).join(" ")},
                                   reasonInWords(reason, plainNames(some, names), kind, texts),
                                   reason.by === "ace" ? [" ", jumpTo("dacl", reason.number)] : null));
    place.replaceChildren(...sentences,
        ...(all.length > MOST_REASONS ? [say(WORDS.summary.left, {count: all.length - MOST_REASONS})] : []));
    document.querySelectorAll("tr.ace.found").forEach((other) => other.classList.remove("found"));
    for (const {reason} of all.filter((one) => one.reason.by === "ace")) {
        byId(`dacl-${reason.number}`)?.classList.add("found");
    }
}

// What was left out of the text, so that nobody takes it for read.
export function foundText(result) {
    const form = valueIn(WORDS.forms, result.form);
    const [one, several] = result.fault ? [WORDS.taken, WORDS.takenSeveral] : [WORDS.found, WORDS.foundSeveral];
    const found =
        result.found > 1 ? say(several, {form, count: result.found, number: result.chosen + 1}) : say(one, {form});
    const dropped = result.dropped.map(
        ({what, text}) => say(valueIn(WORDS.droppedWhat, what), {text: visible(shortened(text ?? "", MOST_DROPPED))}));
    return dropped.length ? `${found} ${say(WORDS.dropped, {what: commaed(dropped)})}` : found;
}

function writtenAce({part, number, kind, text}, place) {
    const isWrong = number === place.ace && part === place.part;
    const name = valueIn(WORDS.refusedKinds, kind);
    return make("li", {class: isWrong ? "wrong" : ""}, make("code", {}, visible(shortened(text, MOST_ACE))),
        name ? ` ${say(WORDS.error.unsupported, {kind: visible(kind), name})}` : "",
        isWrong ? make("strong", {}, ` ${WORDS.error.reason}`) : null);
}

function writtenAces({written, place}) {
    if (!written) {
        return null;
    }
    const list = make("ol", {class: "written"});
    const more = someRows(list, linesOf(written), (line) => writtenAce(JSON.parse(line), place),
        (count) => say(WORDS.parts.more, {count}));
    return make("details", {open: true}, make("summary", {}, WORDS.error.written),
        make("p", {class: "hint"}, WORDS.error.writtenHint), list, more);
}

export function showFault(place, result, {onSelect}) {
    const isTold = !["refused", "none"].includes(result.judged.key);
    show(place,
        make("section", {class: "refused", "aria-labelledby": "refused-heading"},
            heading(isTold ? WORDS.error.headingOfConditions : WORDS.error.heading, "refused-heading"),
            make("p", {}, isTold ? WORDS.text.depends : WORDS.error.intro),
            faultBox(result.fault, result.place,
                result.form === "sddl" && onSelect ? button(WORDS.error.go, () => onSelect(result.place)) : null),
            result.other ? null : writtenAces(result)));
}

// The object types that ACEs name.
const objectsOf = ({model}) => new Set(itemsOf(model.dacl.aces).map(({object}) => object));

// The promise ends when all is shown.
export function showLook(place, result, context, isOver) {
    const {kind, names} = context;
    const {rows, rights} = result.grid;
    const count = rows.length * bitsOf(rights).length;
    const ranked = rankedRows(result, kind);
    const parts = [
        () => trustees(result, kind, names, ranked), () => warnings(result, kind, names),
        ...(isDirectory(kind) ? [() => findSection(context, objectsOf(result))] : []),
        (later) => gridSection(result, context, ranked, later)
    ];
    return showParts(place, count, parts, isOver);
}
