// The view of a report: its objects as a table with filters, each with the page's own view of its descriptor.
import {button, byId, input, labelled, make, scrolling, select, show, tableHead} from "./dom.mjs";
import {tableOf} from "./meanings.mjs";
import {shortened, visible} from "./naming.mjs";
import {pagesBar} from "./parts_view.mjs";
import {Report} from "./report.mjs";
import {formatted, say, WORDS} from "./words.mjs";

const ROWS = 100;         // of a page of the table
const MOST_FINDINGS = 20; // of an object in the table
const MOST_GROUPS = 50;   // places above it
const MOST_TEXT = 2000;   // characters of a name or a text
const FORMS = ["sddl", "hex", "base64"];

// The kind of object that the page has words for, or null.
const kindOf = ({kind}) => (tableOf(kind) ? kind : null);

const cut = (text) => visible(shortened(text, MOST_TEXT));

export const nameOfObject = ({name}) => cut(name) || WORDS.report.noName;

export const placeOfObject = ({source, line}) => cut(line ? say(WORDS.report.place, {source, line}) : source);

const GRAVE = ["high", "medium"];

const severityBadge = (severity) =>
    (severity ? [make("span", {class: GRAVE.includes(severity) ? `badge ${severity}` : "badge"}, cut(severity)), " "] :
                null);

function acesWords(numbers, isInherited) {
    const {ace, aces, inherited} = WORDS.report;
    const said = say(numbers.length === 1 ? ace : aces, {numbers: numbers.join(", ")});
    return numbers.length ? ` (${said}${isInherited ? `, ${inherited}` : ""})` : "";
}

// What grants or denies the rights.
const becauseWords = (because) =>
    because.slice(0, MOST_FINDINGS)
        .map(({number, text, rights, grants}) =>
                 make("div", {class: grants ? "allow" : "deny"}, number ? say(WORDS.report.because, {number}) : "",
                     make("code", {}, cut(text)), " ", cut(grants ? rights : say(WORDS.report.not, {rights}))));

function findingWords({rule, trustee, rights, text, accepted, severity, numbers, isInherited, because}) {
    const about = [trustee, rights].filter(Boolean).join(": ");
    return [
        severityBadge(severity), rule ? [make("span", {class: "badge"}, cut(rule)), " "] : null,
        cut([about, text].filter(Boolean).join(about ? ". " : "")), acesWords(numbers, isInherited),
        accepted ? ` ${say(WORDS.report.accepted, {reason: cut(accepted)})}` : null, becauseWords(because)
    ];
}

const QUIET = ["nothing", "same", "accepted"];

const answerClass = (answer) => (answer === "unknown" ? "unknown" : QUIET.includes(answer) ? "quiet" : "deny");

// What a report says of an object.
export function objectWords(object) {
    const {reason, help, findings} = object;
    return [
        reason ? make("p", {}, cut(reason)) : null,
        help ? make("p", {class: "hint"}, say(WORDS.report.help, {help: cut(help)})) : null,
        findings.length ?
            make("ul", {class: "findings"},
                findings.slice(0, MOST_FINDINGS).map((finding) => make("li", {}, findingWords(finding)))) :
            null,
        findings.length > MOST_FINDINGS ?
            make("p", {}, say(WORDS.report.more, {count: findings.length - MOST_FINDINGS})) :
            null
    ];
}

export class ReportView {
    constructor(text, {onOpen, onHead}) {
        this.report = new Report(text);
        this.onOpen = onOpen;
        this.onHead = onHead;
        this.filter = {answer: "", rule: "", text: ""};
        this.page = 0;
        this.asked = 0;
    }

    make() {
        return [
            make("h2", {id: "report-heading"}, WORDS.report.heading), make("div", {id: "report-summary"}),
            make("div", {id: "report-groups"}), make("div", {id: "report-filters", class: "row"}),
            make("p", {id: "report-status", role: "status", "aria-live": "polite"}), make("div", {id: "report-table"})
        ];
    }

    async begin() {
        try {
            await this.read();
        } catch (error) {
            this.tell(say(WORDS.broke, {reason: visible(error.message)}));
        }
    }

    async read() {
        const {report} = this;
        await report.read((part) => this.tell(say(WORDS.report.reading, {percent: Math.round(100 * part)})));
        byId("report-heading").textContent = cut(report.head?.title ?? WORDS.report.heading);
        this.onHead(report.head ?? {});
        this.showSummary();
        this.showGroups();
        this.showFilters();
        await this.refresh();
    }

    tell(text) { byId("report-status").textContent = text; }

    showSummary() {
        const {report} = this;
        const words = WORDS.report;
        const listed = report.last && !report.last.listsAll ? ` ${words.listed}` : "";
        show(byId("report-summary"),
            report.isWhole ? null :
                             make("p", {class: "everyone"},
                                 report.damaged ? say(words.damaged, {count: formatted(report.damaged)}) : words.cut),
            ...(report.last?.notes ?? []).map((text) => make("p", {class: "hint"}, cut(text) + ".")),
            report.last?.severities ? make("p", {}, cut(report.last.severities) + ".") : null,
            report.last ? make("p", {}, cut(report.last.summary) + "." + listed) : null,
            report.last ? make("ul", {},
                              report.last.rules.map(
                                  ({name, count, reason}) => make("li", {}, make("span", {class: "badge"}, cut(name)),
                                      " ", `${formatted(count)}. ${cut(reason)}`))) :
                          null);
    }

    // Where permissions are set, with how many objects have them. A button filters the table by the place.
    showGroups() {
        const {groups, placeColumns, places, morePlaces} = WORDS.report;
        const all = (this.report.last?.groups ?? []).filter(({objects}) => objects > 1);
        const shown = all.slice(0, MOST_GROUPS);
        show(byId("report-groups"), shown.length ? this.groupTable(shown, groups, placeColumns) : null,
            all.length > shown.length ? make("p", {}, say(morePlaces, {count: formatted(all.length - shown.length)})) :
                                        null,
            shown.length ? make("p", {class: "hint"}, places) : null);
    }

    groupTable(rows, heading, columns) {
        const row = ({severity, rule, text, name, place, objects}) =>
            make("tr", {class: severity === "high" ? "deny" : "quiet"},
                make("th", {scope: "row", "data-label": columns.name},
                    button(make("bdi", {}, cut(name) || WORDS.report.noName), () => this.only(name), {class: "open"})),
                make("td", {"data-label": columns.count}, formatted(objects)),
                make("td", {"data-label": columns.what}, severityBadge(severity),
                    make("span", {class: "badge"}, cut(rule)), " ", cut([text, place].filter(Boolean).join(". "))));
        return scrolling({"aria-label": heading},
            make("table", {class: "report groups"}, make("caption", {}, heading), tableHead(columns),
                make("tbody", {}, rows.map(row))));
    }

    only(name) {
        this.filter.text = name;
        byId("report-text").value = name;
        this.page = 0;
        this.refresh();
        byId("report-text").focus();
    }

    showFilters() {
        const words = WORDS.report;
        // A list keeps the order, and an option may be called anything.
        const options = (all,
            counts) => [["", all], ...[...counts].map(([name, count]) => [name, `${cut(name)} (${formatted(count)})`])];
        const set = (name) => (value) => {
            this.filter[name] = value;
            this.page = 0;
            this.refresh();
        };
        const {answers, rules} = this.report;
        show(byId("report-filters"),
            labelled(words.answer, select("report-answer", options(words.allAnswers, answers), "", set("answer"))),
            rules.size ? labelled(words.rule, select("report-rule", options(words.allRules, rules), "", set("rule"))) :
                         null,
            labelled(words.text, input("report-text", "", set("text"))));
    }

    async refresh() {
        this.asked += 1;
        const {asked} = this;
        const chosen = await this.report.chosen(this.filter, () => asked !== this.asked);
        if (chosen && asked === this.asked) {
            this.chosen = chosen;
            this.showTable();
        }
    }

    showTable() {
        const {chosen, page} = this;
        this.tell(
            say(WORDS.report.shown, {count: formatted(chosen.length), all: formatted(this.report.objects.length)}));
        const rows = chosen.slice(page * ROWS, (page + 1) * ROWS).map((one) => this.report.object(one));
        const go = (to, id) => {
            this.page = to;
            this.showTable();
            byId(id).focus();
        };
        show(byId("report-table"), pagesBar("report", {page, rows: ROWS, count: chosen.length}, go), this.table(rows));
    }

    table(rows) {
        const {columns, heading, none} = WORDS.report;
        if (!rows.length) {
            return make("p", {}, none);
        }
        return scrolling({"aria-label": heading},
            make("table", {class: "report"}, make("caption", {class: "unseen"}, heading), tableHead(columns),
                make("tbody", {}, rows.map((object) => this.row(object)))));
    }

    row(object) {
        const {columns} = WORDS.report;
        const name = make("bdi", {}, nameOfObject(object));
        return make("tr", {class: answerClass(object.answer)},
            make("th", {scope: "row", "data-label": columns.name},
                this.canShow(object) ? button(name, () => this.open(object), {class: "open"}) : name,
                make("div", {class: "where"}, placeOfObject(object))),
            make("td", {"data-label": columns.answer}, make("span", {class: "badge"}, cut(object.answer))),
            make("td", {"data-label": columns.what}, objectWords(object), this.noView(object)));
    }

    canShow(object) { return FORMS.includes(object.form) && kindOf(object) !== null; }

    // Why there is no view of a descriptor: without one there is nothing to show, and the page has no words for the
    // rights of a kind that it doesn't know.
    noView(object) {
        return object.form === "" || this.canShow(object) ?
            null :
            make("details", {}, make("summary", {}, say(WORDS.report.noWords, {kind: cut(object.kind)})),
                make("pre", {class: "exact"}, cut(object.descriptor)));
    }

    open(object) { this.onOpen({...object, kind: kindOf(object)}); }
}
