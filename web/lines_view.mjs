// The fifth view: a file of descriptors, answered in a worker, as a table with filters and as a file of answers.
import {box, button, byId, input, labelled, make, scrolling, select, show, tableHead} from "./dom.mjs";
import {FLAGS} from "./lines.mjs";
import {shownName, visible} from "./naming.mjs";
import {pagesBar} from "./parts_view.mjs";
import {valueIn} from "./tables.mjs";
import {changing} from "./warnings.mjs";
import {formatted, say, WORDS} from "./words.mjs";

const FORMS = ["hex", "base64", "sddl"];
const TYPES = ["file", "key", "ds"];
const TYPED = ["check", "derive"];
const ROWS = 100;         // of a page of the table
const MOST_SHOWN = 300;   // characters of a cell
const MOST_WORD = 60_000; // characters of an option: as many SIDs as a token may have
// The options of each command: a list of values, 'flag', or 'text'. Where a command has no type, a filter asks by it.
const OPTIONS = {
    convert: {from: FORMS, to: ["sddl", "hex", "base64"], domain: "text", numeric: "flag", type: TYPES},
    explain: {from: FORMS, domain: "text", numeric: "flag", type: TYPES},
    check: {
        from: FORMS,
        token: "text",
        want: "text",
        maximum: "flag",
        type: TYPES,
        object: "text",
        self: "text",
        security: "flag",
        "take-ownership": "flag",
        level: "text",
        domain: "text"
    },
    derive: {
        from: FORMS,
        to: ["sddl", "hex", "base64"],
        kind: ["file", "container"],
        owner: "text",
        group: "text",
        creator: "text",
        type: TYPES,
        domain: "text",
        numeric: "flag"
    },
};

// The words of the command line.
export function wordsOf({command, options}) {
    return [
        command, ...Object.entries(valueIn(OPTIONS, command)).flatMap(([name, type]) => {
            const value = name !== "type" || TYPED.includes(command) ? options[name] : "";
            if (type === "flag") {
                return value ? [`--${name}`] : [];
            }
            // The first form is what the program takes without the option.
            const isDefault = Array.isArray(type) && name !== "kind" && (value === type[0] || value === undefined);
            return isDefault || value === undefined || value === "" ? [] : [`--${name}`, value];
        })
    ];
}

function optionField(name, type, options) {
    const id = `lines-${name}`;
    const set = (value) => { options[name] = value; };
    if (type === "flag") {
        return box(id, valueIn(WORDS.lines.options, name), Boolean(options[name]), set);
    }
    if (Array.isArray(type)) {
        options[name] ??= type[0];
        return labelled(valueIn(WORDS.lines.options, name),
            select(id, Object.fromEntries(type.map((value) => [value, value])), options[name], set));
    }
    return labelled(valueIn(WORDS.lines.options, name), input(id, options[name] ?? "", set, {most: MOST_WORD}));
}

function filtersOf({options, filterToken}) {
    const from = options.from && options.from !== "hex" ? ["--from", options.from] : [];
    const domain = options.domain ? ["--domain", options.domain] : [];
    return {
        change: filterToken.trim() ?
            ["check", ...from, ...domain, "--type", options.type, "--token", filterToken.trim(), "--maximum"] :
            null,
        changeMask: changing(options.type),
        explain: ["explain", ...from, ...domain],
    };
}

// One run over a file, and what is kept of it. Its lines are of this file and in this form, whatever is chosen
// meanwhile.
class Run {
    constructor(file, {from, type}) {
        this.file = file;
        this.from = from;
        this.type = type;
        this.pieces = [];
        this.kept = 0;
        this.began = performance.now();
        this.progress = {bytes: 0, lines: 0, errors: 0};
        this.isDone = false;
    }

    add(piece) {
        this.pieces.push({...piece, first: this.kept});
        this.kept += piece.starts.length;
        this.progress = {bytes: piece.bytes, lines: piece.lines, errors: piece.errors};
    }

    // The numbers, from 0, of the lines that a filter keeps.
    chosen(filter) {
        if (filter === "all") {
            return null;
        }
        if (this.known?.filter !== filter || this.known.kept !== this.kept) {
            this.known = {filter, kept: this.kept, found: this.numbersWith(valueIn(FLAGS, filter))};
        }
        return this.known.found;
    }

    numbersWith(bit) {
        const found = new Uint32Array(this.kept);
        let count = 0;
        for (const {first, flags} of this.pieces) {
            for (let index = 0; index < flags.length; index += 1) {
                if ((flags[index] & bit) !== 0) {
                    found[count] = first + index;
                    count += 1;
                }
            }
        }
        return found.slice(0, count);
    }

    pieceOf(line) {
        let [low, high] = [0, this.pieces.length];
        while (low + 1 < high) {
            const middle = (low + high) >>> 1;
            [low, high] = this.pieces[middle].first <= line ? [middle, high] : [low, middle];
        }
        return this.pieces[low];
    }

    answer(line) {
        const {first, starts, output, shownEnd} = this.pieceOf(line);
        const start = starts[line - first];
        const end = (starts[line - first + 1] ?? shownEnd) - 1;
        return new TextDecoder().decode(output.subarray(start, Math.min(end, start + MOST_SHOWN + 1)));
    }

    async input(line) {
        const {first, places} = this.pieceOf(line);
        const text = await this.file.slice(places[line - first], places[line - first] + MOST_SHOWN + 2).text();
        return text.split("\n", 1)[0].replace(/\r$/, "");
    }

    blob() { return new Blob(this.pieces.map(({output}) => output), {type: "text/plain"}); }
}

export class LinesView {
    constructor(lines, {files, onOpen}) {
        this.lines = lines;
        this.files = files;
        this.onOpen = onOpen;
        this.filter = "all";
        this.page = 0;
        this.file = null;
        this.run = null;
    }

    make() {
        const {lines: words} = WORDS;
        const choose = make("input", {
            id: "lines-file",
            type: "file",
            class: "unseen-field",
            onchange: (event) => this.take(event.target.files[0]),
        });
        return [
            make("h2", {id: "lines-heading"}, words.heading),
            make("div", {id: "lines-drop", class: "drop"}, make("span", {}, words.drop), " ",
                make("label", {"for": "lines-file", class: "button"}, words.choose), choose,
                make("p", {id: "lines-name", "aria-live": "polite"}, words.noFile)),
            this.makeForm(),
            make("p", {class: "actions"},
                button(words.start, () => this.start(), {id: "lines-start", class: "primary"}), " ",
                button(words.stop, () => this.stop(), {id: "lines-stop", disabled: true}), " ",
                button(words.save, () => this.save(), {id: "lines-save", disabled: true})),
            make("progress", {id: "lines-bar", max: "1", value: "0", "aria-label": words.heading}),
            make("p", {id: "lines-status", role: "status", "aria-live": "polite"}),
            make("div", {id: "lines-table"}),
        ];
    }

    makeForm() {
        const {lines: words} = WORDS;
        const setCommand = (command) => {
            this.lines.command = command;
            this.showOptions();
        };
        const setToken = (token) => { this.lines.filterToken = token; };
        return make("div", {class: "form"},
            labelled(words.command, select("lines-command", words.commands, this.lines.command, setCommand)),
            make("div", {id: "lines-options", class: "boxes wide"}),
            labelled(
                words.filterToken, input("lines-filter-token", this.lines.filterToken, setToken, {most: MOST_WORD})));
    }

    showOptions() {
        const options = Object.entries(valueIn(OPTIONS, this.lines.command)).map(([name,
            type]) => optionField(name, type, this.lines.options));
        show(byId("lines-options"), options);
    }

    async take(file) {
        if (file) {
            this.file = file;
            const name = say(WORDS.lines.file, {name: shownName(file.name), size: formatted(file.size)});
            byId("lines-name").textContent = name;
            const [one, other] = new Uint8Array(await file.slice(0, 2).arrayBuffer());
            if (file === this.file && ((one === 0xff && other === 0xfe) || (one === 0xfe && other === 0xff))) {
                byId("lines-name").textContent = `${name} ${WORDS.lines.utf16}`;
            }
        }
    }

    start() {
        if (!this.file) {
            this.tell(WORDS.lines.noFile);
            return;
        }
        this.stop();
        this.run = new Run(this.file, this.lines.options);
        this.page = 0;
        this.filter = "all";
        show(byId("lines-table"));
        byId("lines-stop").disabled = false;
        byId("lines-save").disabled = true;
        const {run} = this;
        this.files.answerFile({file: this.file, words: wordsOf(this.lines), filters: filtersOf(this.lines)},
            (message) => run === this.run && this.hear(message));
    }

    stop() { this.files.stop(); }

    hear(message) {
        if (message.kind === "piece") {
            this.run.add(message);
            this.showProgress();
            if (this.run.pieces.length === 1) {
                this.showTable();
            }
            return;
        }
        this.end(message);
    }

    end(message) {
        byId("lines-stop").disabled = true;
        this.run.isDone = true;
        if (message.kind === "usage") {
            this.tell(say(WORDS.lines.usage, {message: message.message}));
            return;
        }
        if (message.kind === "failed") {
            this.tell(say(WORDS.lines.failed, {message: message.message}));
            return;
        }
        const seconds = ((performance.now() - this.run.began) / 1000).toFixed(1);
        const {lines, errors} = message;
        byId("lines-save").disabled = false;
        byId("lines-bar").value = message.isStopped ? byId("lines-bar").value : 1;
        this.tell(message.isStopped ?
                say(WORDS.lines.stopped, {lines: formatted(lines)}) :
                say(WORDS.lines.done, {lines: formatted(lines), errors: formatted(errors), seconds}));
        this.showTable();
    }

    tell(text) { byId("lines-status").textContent = text; }

    showProgress() {
        const {bytes, lines, errors} = this.run.progress;
        const seconds = (performance.now() - this.run.began) / 1000;
        const part = bytes / this.run.file.size;
        byId("lines-bar").value = part;
        // A live region that changes with each piece would never let a reader finish.
        if (!this.told || performance.now() - this.told > 2000) {
            this.told = performance.now();
            this.tell(say(WORDS.lines.progress, {
                lines: formatted(lines),
                errors: formatted(errors),
                rate: formatted(Math.round(lines / seconds)),
                percent: Math.round(100 * part)
            }));
        }
    }

    save() {
        const url = URL.createObjectURL(this.run.blob());
        const link = document.createElement("a");
        link.href = url;
        link.download = `${this.run.file.name}.answers.txt`;
        link.click();
        setTimeout(() => URL.revokeObjectURL(url), 60_000);
    }

    // Shows what was asked for last, and moves the focus to the field of this id, if any.
    async showTable(id) {
        const {run} = this;
        const chosen = run.chosen(this.filter);
        const count = chosen ? chosen.length : run.kept;
        const pages = Math.max(1, Math.ceil(count / ROWS));
        this.page = Math.min(Math.max(0, this.page), pages - 1);
        const numbers = Array.from({length: Math.min(ROWS, count - this.page * ROWS)},
            (_, at) => (chosen ? chosen[this.page * ROWS + at] : this.page * ROWS + at));
        this.numbers = numbers;
        const rows = await Promise.all(
            numbers.map(async (line) => ({line, input: await run.input(line), answer: run.answer(line)})));
        if (run === this.run && numbers === this.numbers) {
            const go = (page, field) => {
                this.page = page;
                this.showTable(field);
            };
            show(byId("lines-table"), this.filterBar(), pagesBar("page", {page: this.page, rows: ROWS, count}, go),
                this.table(rows),
                run.progress.lines > run.kept ?
                    make("p", {class: "hint"}, say(WORDS.lines.tooMany, {count: formatted(run.kept)})) :
                    null);
            byId(id)?.focus();
        }
    }

    filterBar() {
        return labelled(WORDS.lines.filterLabel, select("lines-filter", WORDS.lines.filters, this.filter, (value) => {
            this.filter = value;
            this.page = 0;
            this.showTable("lines-filter");
        }));
    }

    table(rows) {
        const {columns} = WORDS.lines;
        if (!rows.length) {
            return make("p", {}, WORDS.lines.none);
        }
        const cut = (text) =>
            visibleLines(text.length > MOST_SHOWN ? say(WORDS.lines.tooLong, {text: text.slice(0, MOST_SHOWN)}) : text);
        return scrolling({"aria-label": WORDS.lines.heading},
            make("table", {class: "lines"}, tableHead(columns),
                make("tbody", {},
                    rows.map(
                        ({line, input: given, answer}) => make("tr", {class: answer.startsWith("error ") ? "deny" : ""},
                            make("th", {scope: "row"}, formatted(line + 1)),
                            make("td", {}, make("code", {}, cut(given)), " ",
                                button(WORDS.lines.open, () => this.open(line), {class: "jump"})),
                            make("td", {}, make("code", {class: "answer"}, cut(answer))))))));
    }

    async open(line) {
        const {run} = this;
        const {first, places} = run.pieceOf(line);
        const text = await run.file.slice(places[line - first], places[line - first] + 1_100_000).text();
        const {from = FORMS[0], type} = run;
        // The first type is what the program takes without the option, so it says nothing of a line.
        this.onOpen(text.split("\n", 1)[0].replace(/\r$/, ""), from, type === TYPES[0] ? null : type);
    }
}

// An explanation has several lines, which stay lines.
const visibleLines = (text) => text.split("\n").map(visible).join("\n");
