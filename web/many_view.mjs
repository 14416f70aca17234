// Several descriptors of a text: the verdict on all, a table with that on each, those alike together, and what a token
// gets of each.
import {answerInWords, faultsOf} from "./ask_view.mjs";
import {button, byId, make, scrolling, show, someRows, tableHead} from "./dom.mjs";
import {everybodyClass, hasOwnMapping, mappingOf} from "./meanings.mjs";
import {faultInWords, shownName} from "./naming.mjs";
import {itemsOf} from "./packing.mjs";
import {reasonsOf, sentenceOf} from "./sentences.mjs";
import {speak} from "./speech.mjs";
import {valueIn} from "./tables.mjs";
import {showSentence} from "./verdict_view.mjs";
import {formatted, say, WORDS} from "./words.mjs";
import {errorInWords} from "./worker.mjs";

const MOST_ROWS = 20;
const words = WORDS.many;
// What comes first of verdicts and of answers, with their signs and words.
const VERDICTS = {
    order: ["act", "unknown", "look", "named", "fine"],
    ...WORDS.verdict
};
const ANSWERS = {
    order: ["granted", "unknown", "denied"],
    ...words.answers
};

// All rows of a question about some at a time, which ASK gives from a number on, with how many descriptors there are;
// {error} if one has no answer; null if it is over.
async function gathered(ask, isOver) {
    const all = {rows: [], next: 0, most: 1, all: 0, strays: []};
    while (all.next < all.most) {
        const got = await ask(all.next).catch((error) => ({error}));
        if (!got || isOver()) {
            return null;
        }
        if (got.error) {
            return got;
        }
        all.rows.push(...itemsOf(got.rows));
        Object.assign(all, {...got, rows: all.rows});
    }
    return all;
}

// A table of rows {at, name, kind, verdict, sentence}, of which those alike are one, with filters by their verdicts.
// AT is the number of a descriptor, or null of a line that is none. ACTS are to open one, and to compare two.
class TableOfMany {
    constructor(id, told, heading, acts) {
        this.id = id;
        this.told = told;
        this.heading = heading;
        this.acts = acts;
        this.forget();
    }

    forget() {
        this.rows = [];
        this.filter = "";
        this.chosen = [];
        show(byId(this.id));
    }

    setFilter(verdict) {
        this.filter = verdict;
        this.show(this.rows);
        byId(`${this.id}-${verdict || "all"}`).focus();
    }

    // Chooses one of two to compare, in the place of the older one. The rows stay as they are, open and with the focus.
    choose(at, isChosen) {
        const chosen = [...this.chosen.filter((one) => one !== at), ...(isChosen ? [at] : [])];
        this.chosen = chosen.slice(-2);
        for (const older of chosen.slice(0, -2)) {
            /** @type {HTMLInputElement | null} */
            const box = document.querySelector(`#${this.id}-choose-${older}`);
            if (box) {
                box.checked = false;
            }
        }
        this.showCompare();
    }

    // Rows with the same verdict, sentence and kind together.
    groups() {
        const groups = new Map();
        for (const row of this.rows.filter(({verdict}) => !this.filter || verdict === this.filter)) {
            const key = `${row.verdict} ${row.kind} ${row.sentence}`;
            groups.set(key, groups.get(key) ?? []);
            groups.get(key).push(row);
        }
        const {order} = this.told;
        return [...groups.values()].sort(([one], [other]) => order.indexOf(one.verdict) - order.indexOf(other.verdict));
    }

    filters() {
        const {told, rows, filter, id} = this;
        const count = (verdict) => rows.filter((row) => row.verdict === verdict).length;
        const all = [
            ["", say(words.all, {count: formatted(rows.length)})],
            ...told.order.filter(count).map(
                (verdict) => [verdict, `${valueIn(told.signs, verdict)} ${formatted(count(verdict))}`])
        ];
        return all.map(([verdict, text]) => [button(text, () => this.setFilter(verdict), {
            class: "add",
            "aria-pressed": String(verdict === filter),
            id: `${id}-${verdict || "all"}`,
            "aria-label": verdict ? `${valueIn(told.words, verdict)} ${count(verdict)}` : text
        }),
                           " "]);
    }

    // The button that compares two, of which more than two have to be chosen.
    showCompare() {
        const descriptors = this.rows.filter(({at}) => at !== null);
        const two = descriptors.length === 2 ? descriptors.map(({at}) => at) :
                                               [...this.chosen].sort((one, other) => one - other);
        show(this.comparePlace,
            two.length === 2 && this.acts.onCompare &&
                button(words.compare, () => this.acts.onCompare(...two), {class: "add", id: `${this.id}-compare`}));
    }

    nameOf({at, name}) {
        const shown = shownName(name) || say(words.noName, {number: at + 1});
        if (at === null) {
            return make("bdi", {}, shown);
        }
        const box = this.acts.onCompare && make("input", {
            type: "checkbox",
            id: `${this.id}-choose-${at}`,
            checked: this.chosen.includes(at),
            "aria-label": say(words.choose, {name: shown}),
            title: words.chooseTwo,
            onchange: (event) => this.choose(at, event.target.checked)
        });
        return [make("bdi", {}, button(shown, () => this.acts.onOpen(at), {class: "open"})), box];
    }

    listOf(rows) {
        const list = make("ul", {class: "names"});
        const more = someRows(list, rows, (row) => make("li", {}, this.nameOf(row)),
            (count) => say(WORDS.grid.more, {count}), {step: MOST_ROWS});
        return [list, more];
    }

    groupRow([first, ...others]) {
        const {verdict, kind, sentence} = first;
        return make("tr", {"data-verdict": verdict},
            make("td", {}, make("span", {class: "sign", "aria-hidden": "true"}, valueIn(this.told.signs, verdict)),
                make("span", {class: "unseen"}, valueIn(this.told.words, verdict))),
            make("th", {scope: "row"}, this.nameOf(first),
                others.length ? make("details", {class: "others"},
                                    make("summary", {}, say(WORDS.summary.left, {count: formatted(others.length)})),
                                    this.listOf(others)) :
                                null),
            make("td", {}, kind ? valueIn(WORDS.kinds, kind) : ""), make("td", {}, sentence));
    }

    show(rows) {
        this.rows = rows;
        const {id, heading} = this;
        const body = make("tbody");
        const more = someRows(body, this.groups(), (group) => this.groupRow(group),
            (some) => say(WORDS.grid.more, {count: some}), {step: MOST_ROWS});
        const about = {"aria-labelledby": `${id}-heading`};
        this.comparePlace = make("span");
        this.showCompare();
        show(byId(id),
            make("section", about, make("h2", {id: `${id}-heading`}, heading),
                make("p", {class: "adds"}, this.filters(), this.comparePlace),
                scrolling(about, make("table", {class: "many", ...about}, tableHead(words.columns), body)), more));
    }
}

const isBroad = ({judged}) => judged.who?.some((sid) => everybodyClass(sid));

// Shows the verdict on all in the first line, and gives it in words.
function showVerdictOfMany({rows, all, most, strays}) {
    const of = (verdict) => rows.filter(({judged}) => judged.verdict === verdict);
    const counts = VERDICTS.order.map((verdict) => [verdict, of(verdict).length]).filter(([, count]) => count > 0);
    const [[worst, count]] = counts;
    const key = worst === "act" && of("act").every(isBroad) ? "broad" : worst;
    const sentence = say(valueIn(words, key), {count: formatted(count), all: formatted(all)});
    const others =
        counts.slice(1).map(([verdict, some]) => say(valueIn(words.counts, verdict), {count: formatted(some)}));
    const reasons = [
        others.length ? `${others.join(", ")}.` : "", most < all ? say(words.cut, {count: formatted(most)}) : "",
        strays.length > 1 ? say(words.strays, {count: strays.length}) :
            strays.length ? words.oneStray :
                            ""
    ].filter(Boolean);
    return showSentence(worst, sentence, reasons);
}

// Asks for the verdicts on all descriptors of a text, some at a time, and shows them when all have come.
export class ManyView {
    // ASK gives those from a number on. ACTS are to open one by its number, and to compare two.
    constructor(ask, acts) {
        this.askFrom = ask;
        this.about = "";
        this.told = null;
        this.shown = [];
        this.table = new TableOfMany("many", VERDICTS, words.heading, acts);
    }

    // Forgets what was told of other texts. Gives whether these are others.
    begin(store) {
        this.store = store;
        const about = JSON.stringify(store.aboutMany);
        const isOther = this.about !== about;
        if (isOther) {
            Object.assign(this, {about, told: null, isAsked: false});
            this.table.forget();
            show(byId("one"));
        }
        return isOther;
    }

    // Until the verdicts have come the first line tells of none.
    async ask(found) {
        const {about} = this;
        if (found < 2) {
            return;
        }
        if (!this.told) {
            showSentence("unknown", WORDS.busy);
        }
        if (!this.isAsked) {
            this.isAsked = true;
            const told = await gathered(this.askFrom, () => this.about !== about);
            if (this.about !== about) {
                return;
            }
            this.told = told;
        }
        if (this.told) {
            this.show();
        }
    }

    show() {
        const {names, state} = this.store;
        if (this.told.error) {
            speak(showSentence("unknown", errorInWords(this.told.error)));
            return;
        }
        speak(showVerdictOfMany(this.told));
        const rows = this.told.rows.map(
            (row) => ({...row, verdict: row.judged.verdict, sentence: sentenceOf(row.judged, names, row)}));
        const strays =
            this.told.strays.map((name) => ({at: null, name, kind: "", verdict: "unknown", sentence: words.stray}));
        const one = rows[state.chosen];
        show(byId("one"), one && [
            say(words.one,
                {name: shownName(one.name) || say(words.noName, {number: one.at + 1}), sentence: one.sentence}),
            make("small", {}, reasonsOf(one.judged, names, one).join(" "))
        ]);
        // A table that says the same stays, and keeps the focus.
        if (this.shown[0] !== this.told || this.shown[1] !== names) {
            this.shown = [this.told, names];
            this.table.show([...rows, ...strays]);
        }
    }
}

// Whether a right has the same bit for both kinds.
const haveSameRights = (kind, other) =>
    kind === other || ![kind, other].some((one) => !one || hasOwnMapping(one)) && mappingOf(kind) === mappingOf(other);

/**
 * What a token gets of a descriptor, as a row. Rights that were chosen by their boxes are those of one kind.
 * @param {any} told
 */
function rowOfAnswer(told, kindOfRights) {
    const {at, name, kind, asksKind, descriptorFault, ...answer} = told;
    const [fault] = descriptorFault                                  ? [faultInWords(descriptorFault)] :
        asksKind                                                     ? [WORDS.verdict.kindOpen] :
        kindOfRights !== null && !haveSameRights(kind, kindOfRights) ? [words.otherRights] :
                                                                       faultsOf(answer);
    const verdict = fault ? "unknown" : answer.verdict.granted ? "granted" : "denied";
    return {at, name, kind: kind ?? "", verdict, sentence: fault ?? answerInWords(answer, kind)};
}

// Asks what a token gets of each descriptor of a text, and shows it. Wanted rights are of a kind, or null if there are
// none.
export async function askAll(ask, isOver, onOpen, kindOfRights) {
    const told = await gathered(ask, isOver);
    if (told?.error) {
        show(byId("ask-all"), make("p", {class: "fault-name"}, errorInWords(told.error)));
    } else if (told) {
        new TableOfMany("ask-all", ANSWERS, words.askHeading, {onOpen})
            .show(told.rows.map((row) => rowOfAnswer(row, kindOfRights)));
    }
}
