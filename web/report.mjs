// A report of sdtool-audit inside the page, in lines of JSON: the table REPORT has the columns of their rows. It is
// read in several turns, so that a long one never stops the page, and only what is shown is kept as more than text.
import {valueIn} from "./tables.mjs";
import {REPORT, SEVERITIES} from "./windows.mjs";

const TURN = 12; // milliseconds

const nextTurn = () => new Promise((resolve) => setTimeout(resolve));

function valueOf(text) {
    try {
        return JSON.parse(text);
    } catch {
        return null;
    }
}

const isText = (value) => typeof value === "string";

const isFlag = (value) => typeof value === "boolean";

const isCount = (value) => Number.isSafeInteger(value) && value >= 0;

const isListOf = (value, test) => Array.isArray(value) && value.every(test);

// Whether a value is one of a type of a column.
const TESTS = {
    text: isText,
    count: isCount,
    flag: isFlag,
    texts: (value) => isListOf(value, isText),
    counts: (value) => isListOf(value, isCount),
};

const ROWS = Object.fromEntries(Object.entries(REPORT.rows).map(([row, columns]) => [row, Object.entries(columns)]));

const areRows = (row) => (value) => isListOf(value, (one) => isRow(row, one));

function isRow(row, value) {
    const columns = valueIn(ROWS, row);
    return Array.isArray(value) && value.length === columns.length &&
        columns.every(([, type], at) => (valueIn(TESTS, type) ?? areRows(type))(value[at]));
}

/**
 * The values of a row by the names of its columns.
 * @returns {any} as the table REPORT has it
 */
const named = (row, value) => Object.fromEntries(valueIn(ROWS, row).map(
    ([name, type], at) => [name, Object.hasOwn(ROWS, type) ? allNamed(type, value[at]) : value[at]]));

const allNamed = (row, values) => values.map((value) => named(row, value));

// What the first line and the last one have; each may have less.
const isHead = (value) => value?.report === REPORT.version && isText(value.title ?? "") && isText(value.domain ?? "") &&
    areRows("account")(value.names ?? []);
const isLast = (value) => isText(value?.summary) && isText(value.severities ?? "") && areRows("rule")(value.rules) &&
    areRows("group")(value.groups ?? []) && isListOf(value.notes ?? [], isText);

const rankOf = (severity) => (SEVERITIES.includes(severity) ? SEVERITIES.indexOf(severity) : SEVERITIES.length);

// What comes first in the table: what is unknown, then what is most severe.
const placeOf = ({answer, findings}) =>
    (answer === "unknown" ? 0 : 1 + Math.min(SEVERITIES.length, ...findings.map(({severity}) => rankOf(severity))));

const textOf = ({name, source, reason, help, findings}) => [name, source, reason, help,
    ...findings.flatMap(({rule, trustee, rights, text, accepted, severity}) => [rule, trustee, rights, text, accepted,
                            severity])].join("\n").toLowerCase();

export class Report {
    constructor(text) {
        this.text = text;
        this.objects = [];
        this.damaged = 0;
        this.head = null;
        this.last = null;
        this.answers = new Map();
        this.rules = new Map();
    }

    // Finds the lines, and counts answers and rules; 'tell' hears how far it is.
    async read(tell) {
        const {text} = this;
        let turn = performance.now();
        for (let at = 0, end; at < text.length; at = end + 1) {
            end = text.indexOf("\n", at);
            end = end < 0 ? text.length : end;
            if (end > at) {
                this.take(at, end);
            }
            if (performance.now() - turn > TURN) {
                tell(end / text.length);
                await nextTurn();
                turn = performance.now();
            }
        }
    }

    take(start, end) {
        const value = valueOf(this.text.slice(start, end));
        if (isRow("object", value)) {
            const object = named("object", value);
            this.count(object);
            this.objects.push({start, end, place: placeOf(object)});
        } else if (isHead(value) && !this.head) {
            this.head = value;
        } else if (isLast(value) && !this.last) {
            this.last = {...value, rules: allNamed("rule", value.rules), groups: allNamed("group", value.groups ?? [])};
        } else {
            this.damaged += 1;
        }
    }

    count({answer, findings}) {
        const add = (counts, key) => counts.set(key, (counts.get(key) ?? 0) + 1);
        add(this.answers, answer);
        new Set(findings.map(({rule}) => rule)).forEach((rule) => add(this.rules, rule));
    }

    object({start, end}) { return named("object", valueOf(this.text.slice(start, end))); }

    // The objects that a filter keeps, unknown ones first and then by severity; null if 'isOver' says that nobody wants
    // them any more.
    async chosen({answer, rule, text}, isOver) {
        const wanted = text.trim().toLowerCase();
        const kept = Array.from({length: SEVERITIES.length + 2}, () => []);
        let turn = performance.now();
        for (const one of this.objects) {
            if (!answer && !rule && !wanted) {
                kept[one.place].push(one);
                continue;
            }
            const object = this.object(one);
            if ((!answer || object.answer === answer) &&
                (!rule || object.findings.some((found) => found.rule === rule)) &&
                (!wanted || textOf(object).includes(wanted))) {
                kept[one.place].push(one);
            }
            if (performance.now() - turn > TURN) {
                await nextTurn();
                if (isOver()) {
                    return null;
                }
                turn = performance.now();
            }
        }
        return kept.flat();
    }

    // Whether the program that made it came to its end, and each line of it can be read.
    get isWhole() { return Boolean(this.head && this.last) && this.damaged === 0; }
}
