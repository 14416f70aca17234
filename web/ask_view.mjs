// The second view: what a token gets, and what decided about each right.
import {bitsOf} from "./access.mjs";
import {box, button, byId, input, labelled, make, scrolling, select, show, tableHead} from "./dom.mjs";
import {maskText} from "./library.mjs";
import {reasonKey} from "./look_view.mjs";
import {faultInWords, rightsInWords, rightsOf, shownName, visible} from "./naming.mjs";
import {longField, plainName, rightBoxes} from "./parts_view.mjs";
import {MOST_LIST} from "./state.mjs";
import {valueIn} from "./tables.mjs";
import {PRIVILEGES} from "./windows.mjs";
import {commaed, say, WORDS} from "./words.mjs";

const MOST_FAULTS = 8; // of a token

function tokenButtons(asked, put, refresh) {
    const add = (text) => () => {
        const given = asked.token.trim();
        // A listing has lines of its own.
        asked.token = given ? `${given.replace(/,$/, "")}${given.includes("\n") ? "\n" : ","}${text}` : text;
        put(asked.token);
        refresh();
    };
    return make("p", {class: "adds"}, WORDS.ask.add, " ",
        Object.entries(WORDS.ask.groups).map(([alias, name]) => [button(name, add(alias), {class: "add"}), " "]));
}

// The rights to choose from are those of the kind of object, so they change with it. Without a kind there are none.
export function showAskRights(asked, kind, refresh) {
    if (kind) {
        const known = rightsOf(kind).map((right) => right.bit);
        asked.rights = asked.rights.filter((bit) => known.includes(bit));
    }
    const choose = (bit, checked) => {
        asked.rights = checked ? [...asked.rights, bit] : asked.rights.filter((one) => one !== bit);
        refresh();
    };
    show(byId("ask-rights"),
        kind && rightBoxes("ask-right", rightsOf(kind), (bit) => asked.rights.includes(bit), choose));
}

export function makeAsk(asked, refresh) {
    const set = (name) => (value) => {
        asked[name] = value;
        refresh();
    };
    const token =
        longField("ask-token", asked.token, set("token"), {most: MOST_LIST, "aria-describedby": "ask-token-hint"});
    return [
        make("h2", {id: "ask-heading"}, WORDS.ask.heading),
        make("div", {class: "split"},
            make("div", {}, make("div", {id: "ask-result"}), make("div", {id: "ask-all", hidden: true})),
            make("div", {class: "form"}, labelled(WORDS.ask.token, token.field, WORDS.ask.tokenHint), token.note,
                tokenButtons(asked, token.put, refresh), box("ask-exact", WORDS.ask.exact, asked.exact, set("exact")),
                box("ask-maximum", WORDS.ask.maximum, asked.maximum, set("maximum")),
                make("fieldset", {}, make("legend", {}, WORDS.ask.rights),
                    make("div", {id: "ask-rights", class: "boxes"}),
                    labelled(WORDS.ask.want,
                        input("ask-want", asked.want, set("want"), {"aria-describedby": "ask-want-hint"}),
                        WORDS.ask.wantHint)),
                make("div", {class: "row"},
                    labelled(WORDS.ask.level, select("ask-level", levelsFor(asked.level), asked.level, set("level"))),
                    labelled(WORDS.ask.self, input("ask-self", asked.self, set("self")))),
                make("fieldset", {}, make("legend", {}, WORDS.ask.privileges),
                    make("div", {class: "boxes"},
                        box("ask-take", WORDS.ask.takeOwnership, asked.takeOwnership, set("takeOwnership")),
                        box("ask-security", WORDS.ask.security, asked.security, set("security")))))),
    ];
}

// The two words come before the numbers, and a level that has no name behind them: what applies is shown.
function levelsFor(chosen) {
    const {"": none, listed, ...levels} = WORDS.ask.levels;
    const all = [["", none], ["listed", listed], ...Object.entries(levels).map(([level, text]) => [` ${level}`, text])];
    return all.some(([level]) => level === chosen) ?
        all :
        [...all, [chosen, say(WORDS.ask.levelOther, {level: chosen.trim()})]];
}

export const faultsOf = (result) => [result.tokenFaults?.length ? say(WORDS.ask.tokenFault, {
    what: commaed(result.tokenFaults.slice(0, MOST_FAULTS).map(({text,
        number,
        faultName}) => `${visible(text.slice(0, 60))} (error ${number} ${faultName})`))
}) :
                                                                  null,
    result.listing ?
        say(valueIn(WORDS.ask.listing, result.listing.why), {what: visible(result.listing.text.slice(0, 200))}) :
        null,
    result.wantedFault ? WORDS.ask.wantFault : null,
    result.selfFault ? WORDS.ask.selfFault : null,
    result.objectFault ? WORDS.objectFault : null,
    result.isNobody ? WORDS.ask.nobody : null,
    result.isTooMany ? WORDS.ask.tooMany : null,
    result.isLevelUnknown ? WORDS.ask.levelUnknown : null,
    result.refused ? faultInWords({number: result.refused}) : null,
].filter(Boolean);

export function answerInWords({verdict}, kind) {
    const words = commaed(rightsInWords(kind, verdict.mask));
    if (verdict.granted) {
        return say(WORDS.ask.all, {rights: words});
    }
    return verdict.mask === 0 ? WORDS.ask.nothing : say(WORDS.ask.missing, {rights: words});
}

// The rights that the same ACE, or the same rule, decided alike: {reason, mask}.
function decidedBy(reasons) {
    const groups = new Map();
    for (const reason of reasons) {
        const {by, number, isGranted, isWanted, bit} = reason;
        const key = [by, number, isGranted, isWanted].join(" ");
        groups.set(key, {reason, mask: ((groups.get(key)?.mask ?? 0) | bit) >>> 0});
    }
    return [...groups.values()];
}

function reasonRow({reason, mask}, kind, texts, isSome) {
    const {columns} = WORDS.ask;
    const {by, number, isGranted, isWanted} = reason;
    const short = say(valueIn(WORDS.reasons.short, reasonKey(by)), {number});
    return make("tr", {
        class: `reason ${isGranted ? "allow" : "deny"}`,
        "data-bits": bitsOf(mask).join(" "),
        "data-by": by,
        "data-number": number,
        ...(number ? {"data-aces": number} : {})
    },
        make("th", {scope: "row", "data-label": columns.reason}, short),
        make("td", {"data-label": columns.state},
            make("span", {class: "badge"}, valueIn(WORDS.ask, isGranted ? "granted" : "denied"))),
        make("td", {"data-label": columns.rights}, commaed(rightsInWords(kind, mask)), " ",
            make("code", {class: "mask"}, maskText(mask)),
            isSome && isWanted ? make("span", {class: "tag"}, WORDS.ask.wanted) : null),
        make("td", {"data-label": columns.text}, number ? make("code", {}, texts[number - 1] ?? "") : ""));
}

function tokenLine(result, names) {
    const entries = result.entries.slice(0, 40).map((entry) => {
        const name = entry.name ? shownName(entry.name) : plainName(entry.sid, names);
        return entry.denyOnly ? say(WORDS.ask.denyOnly, {who: name}) : name;
    });
    const more = [
        ...(result.level === null ? [] : [say(WORDS.ask.levelOther, {level: result.level})]),
        ...(result.takeOwnership ? [WORDS.ask.takeOwnership] : []),
        ...(result.security ? [WORDS.ask.security] : []),
    ];
    return make("p", {}, say(WORDS.ask.tokenIs, {who: commaed(entries)}), result.entries.length > 40 ? " .." : "",
        more.length ? `; ${commaed(more)}` : "");
}

// What the answer doesn't say of the real token.
const beside = ({lacksUser, notes}) => [...(lacksUser ? [make("p", {class: "fault-name"}, WORDS.ask.lacksUser)] : []),
    ...notes.map((name) => make("p", {class: "hint"},
                     say(WORDS.ask.beside, {name, lets: valueIn(WORDS.lets, valueIn(PRIVILEGES, name)[1])}))),
];

// Shows it. Returns what a screen reader says of it.
export function showAsk(result, {kind, names, texts}) {
    const place = byId("ask-result");
    const faults = faultsOf(result);
    if (faults.length) {
        show(place, faults.map((fault) => make("p", {class: "fault-name"}, fault)));
        return [faults.join(" ")];
    }
    const {columns} = WORDS.ask;
    const isGranted = result.verdict.granted;
    const isSome = result.reasons.some(({isWanted}) => !isWanted);
    const answer = answerInWords(result, kind);
    const said = isGranted ? answer : `${WORDS.ask.denied}. ${answer}`;
    show(place,
        make("p", {class: `verdict ${isGranted ? "allow" : "deny"}`}, make("strong", {}, said), " ",
            make("code", {}, `${isGranted ? "granted" : "denied"} ${maskText(result.verdict.mask)}`)),
        tokenLine(result, names), beside(result),
        result.isForWhole ? make("p", {class: "hint"}, WORDS.ask.whole) : null,
        scrolling({"aria-label": columns.reason},
            make("table", {class: "reasons"}, tableHead(columns),
                make("tbody", {}, decidedBy(result.reasons).map((one) => reasonRow(one, kind, texts, isSome))))));
    return [said];
}
