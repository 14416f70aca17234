// The page: which view is shown, and what each shows of the desk's answers.
import {makeAsk, showAsk, showAskRights} from "./ask_view.mjs";
import {makeCompare, showCompare} from "./compare_view.mjs";
import {button, byId, isTyped, make, show} from "./dom.mjs";
import {EditView} from "./edit_view.mjs";
import {Editing} from "./editing.mjs";
import {makeInherit, showInherit} from "./inherit_view.mjs";
import {InputView} from "./input_view.mjs";
import {tabBehind, tie} from "./keyboard.mjs";
import {kindQuestion} from "./kind_view.mjs";
import {LinesView} from "./lines_view.mjs";
import {focusGrid, foundText, showFault, showLook, showReason} from "./look_view.mjs";
import {askAll, ManyView} from "./many_view.mjs";
import {faultInWords, shownName} from "./naming.mjs";
import {linesOf} from "./packing.mjs";
import {showPrintHead, unfold} from "./paper.mjs";
import {isLarge} from "./parts_view.mjs";
import {nameOfObject, objectWords, placeOfObject, ReportView} from "./report_view.mjs";
import {copy, copyCommand, copyLink, copyMarkdown, copyText} from "./share_view.mjs";
import {speak} from "./speech.mjs";
import {Store} from "./store.mjs";
import {valueIn} from "./tables.mjs";
import {showAce} from "./text_view.mjs";
import {turnTheme} from "./theme.mjs";
import {ANSWERED, Turns} from "./turns.mjs";
import {showUnknown, showVerdict} from "./verdict_view.mjs";
import {say, WORDS} from "./words.mjs";
import {errorInWords, FileDesk} from "./worker.mjs";

const MILLISECONDS_TO_TELL = 300;

export class Page {
    constructor({desk, isWorker, version}, source, bytes, report) {
        this.desk = desk;
        this.version = version;
        this.result = null;
        this.asked = null;
        this.found = {text: ""};
        this.turns = new Turns();
        // A report has a view of its own, before all others.
        this.views = Object.keys(WORDS.tabs).filter((view) => view !== "report" || report);
        this.store = new Store(this.views[0]);
        this.state = this.store.state;
        this.reportView = report ?
            new ReportView(
                report, {onOpen: (object) => this.openObject(object), onHead: (head) => this.takeHead(head)}) :
            null;
        if (!report) {
            byId("view-report").remove();
        }
        this.linesView = new LinesView(this.state.lines, {
            files: new FileDesk(source, bytes, isWorker),
            onOpen: (text, form, kind) => this.open(text, form, kind),
        });
        this.many = new ManyView((from) => this.desk.ask("many", {state: this.store.shared, from}), {
            onOpen: (at) => this.set("chosen", at),
            onCompare: (one, other) => this.compareTwo(one, other),
        });
        this.editing = new Editing();
        this.editView = new EditView(this.editing, {
            step: (step) => this.step(step),
            undo: () => this.turn("undo"),
            redo: () => this.turn("redo"),
            copy,
        });
        this.input = new InputView(this.store, {
            type: (text) => this.type(text),
            open: (text, form, kind) => this.open(text, form, kind),
            set: (name, value) => this.set(name, value),
            share: {
                another: () => this.input.another(),
                text: () => copyText(this.state, this.result),
                link: () => copyLink(this.state),
                command: () => copyCommand(
                    this.state, {result: this.result, asked: this.asked, isKindShown: Boolean(this.shownKind)}),
                markdown: () => copyMarkdown(this.result, this.context),
                print: () => window.print(),
            },
        });
        this.listen();
        this.begin();
        this.counted(async () => this.reportView?.begin());
    }

    begin() {
        const unread = this.store.begin(location.hash.slice(1));
        this.input.make(unread);
        this.makeViews();
        this.showView();
        this.refresh();
    }

    get context() {
        return {
            kind: this.state.kind,
            names: this.store.names,
            isCommon: this.state.common,
            texts: linesOf(this.result?.texts),
            made: this.state.made,
            onCell: (rows, right, cell) => showReason(rows, right.bit, this.context, cell),
            onAce: (ace) => showAce(ace, this.context),
            onKind: (kind) => this.answerKind(kind),
            onTake: (numbers) => this.take(numbers),
            judged: this.result?.judged,
            onAll: () => this.set("all", true).then(focusGrid),
            found: this.found,
            onFind: (objects) => this.desk.ask("find", {state: this.store.shared, objects}).catch((error) => ({error})),
        };
    }

    set(name, value) {
        this.store.set(name, value);
        if (name === "kind") {
            this.showKind(this.state.kind, !value);
        }
        return this.refresh();
    }

    makeViews() {
        const refresh = () => this.refreshView();
        show(byId("view-ask"), makeAsk(this.state.ask, refresh));
        this.shownKind = this.state.kind;
        showAskRights(this.state.ask, this.shownKind, refresh);
        byId("ask-result").hidden = true;
        show(byId("view-inherit"), makeInherit(this.state.made, refresh));
        const compared = makeCompare(this.state.other, refresh);
        show(byId("view-compare"), compared.parts);
        this.putOther = compared.put;
        show(byId("view-lines"), this.linesView.make());
        this.linesView.showOptions();
        if (this.reportView && !byId("view-report").firstChild) {
            show(byId("view-report"), this.reportView.make());
        }
        show(byId("tabs"),
            this.views.map((view) => button(valueIn(WORDS.tabs, view), () => this.choose(view),
                               {role: "tab", id: `tab-${view}`, "aria-controls": `view-${view}`})));
    }

    listen() {
        byId("tabs").addEventListener("keydown", (event) => this.moveTab(event));
        window.addEventListener("keydown", (event) => this.key(event));
        window.addEventListener("beforeprint", unfold);
        window.addEventListener("dragover", (event) => event.preventDefault());
        window.addEventListener("drop", (event) => this.drop(event));
        window.addEventListener("paste", (event) => this.input.paste(event));
        ["pointerover", "focusin"].forEach((name) => byId("page").addEventListener(name, ({target}) => tie(target)));
        // An address that somebody typed or followed.
        window.addEventListener("hashchange", () => this.begin());
        // By its address it would set the page anew.
        document.querySelector(".skip").addEventListener("click", (event) => {
            event.preventDefault();
            // A view without the field gives way to the first one.
            if (["lines", "report"].includes(this.state.view)) {
                this.choose("look");
            }
            this.input.another();
        });
        byId("theme").addEventListener("click", turnTheme);
    }

    moveTab(event) {
        const view = tabBehind(event.key, this.views, this.state.view);
        if (view) {
            event.preventDefault();
            this.choose(view);
            byId(`tab-${view}`).focus();
        }
    }

    // Undoes a step of an edit, or does it again. A field of a text has an undo of its own.
    key(event) {
        const isMeant = (event.ctrlKey || event.metaKey) && !event.altKey && this.state.view === "edit";
        const name = event.key.toLowerCase();
        const way = name === "y" || (name === "z" && event.shiftKey) ? "redo" : name === "z" ? "undo" : "";
        if (isMeant && way && !isTyped(event.target)) {
            event.preventDefault();
            this.turn(way);
        }
    }

    beginEdit() {
        const {text, form, chosen, domain} = this.state;
        this.editing.begin([text, form, chosen, domain]);
    }

    step(step) {
        this.beginEdit();
        this.editing.add(step);
        this.refreshView();
    }

    turn(way) {
        if (this.editing[way]()) {
            this.editView.said = valueIn(WORDS.edit.did, way);
            this.refreshView();
        }
    }

    // Takes the ACEs of a verdict away, as the first step of an edit. One that has steps already is shown as it is.
    take(numbers) {
        this.beginEdit();
        this.state.view = "edit";
        this.showView();
        if (this.editing.done.length) {
            this.refreshView();
        } else {
            this.editView.takeOfVerdict(numbers);
        }
    }

    choose(view) {
        this.state.view = view;
        this.showView();
        this.refreshView();
    }

    showView() {
        for (const view of this.views) {
            const isShown = view === this.state.view;
            const tab = byId(`tab-${view}`);
            tab.setAttribute("aria-selected", String(isShown));
            tab.setAttribute("tabindex", isShown ? "0" : "-1");
            byId(`view-${view}`).hidden = !isShown;
        }
        document.body.dataset.view = this.state.view;
    }

    type(text) {
        this.store.type(text);
        this.input.showTaken();
        this.refresh();
    }

    // A field takes a text itself, and a control for a file takes a file.
    drop(event) {
        const file = event.dataTransfer?.files?.[0];
        const text = event.dataTransfer?.getData("text") ?? "";
        if (file ? event.target.matches?.("input[type='file']") : isTyped(event.target)) {
            return;
        }
        event.preventDefault();
        if (file) {
            this.choose("lines");
            this.linesView.take(file);
        } else if (text) {
            this.open(text);
        }
    }

    // Shows a text as if it had been pasted, under the first view.
    open(text, form = "auto", kind = null, entry = {}) {
        this.store.open(text, form, kind, entry);
        this.input.put(text);
        if (kind) {
            this.showKind(kind);
        }
        this.choose("look");
        this.refresh();
    }

    // Shows the kind of object, or none while the page asks for it.
    showKind(kind, isOpen = false) {
        this.state.kind = kind;
        const shown = isOpen ? "" : kind;
        if (shown !== this.shownKind) {
            this.shownKind = shown;
            this.input.showKind(kind, shown);
            showAskRights(this.state.ask, shown, () => this.refreshView());
        }
    }

    // Takes the answer to the question which kind it is.
    answerKind(kind) {
        this.store.takeKind(kind, true);
        this.showKind(kind);
        byId(`tab-${this.state.view}`).focus();
        this.refresh();
    }

    // What a report says of all its objects: the domain of aliases, and names of SIDs.
    takeHead({domain, names, title}) {
        document.title = title ? `${shownName(title)} - ${WORDS.title}` : WORDS.title;
        this.store.takeNamesOfReport(names ?? []);
        if (!location.hash) {
            this.input.setDomain(domain ?? "");
        }
    }

    // An object of the report, in the first view, below what the report says of it.
    openObject(object) {
        this.input.setDomain(this.reportView.report.head?.domain ?? "");
        this.open(object.descriptor, object.form, object.kind, {classes: object.classes.join(","), name: object.name});
        const back = () => {
            this.choose("report");
            byId("tab-report").focus();
        };
        show(byId("opened"),
            make("p", {}, `${WORDS.report.open}: `, make("strong", {}, make("bdi", {}, nameOfObject(object))), " ",
                make("small", {}, placeOfObject(object)), " ",
                button(WORDS.report.back, back, {class: "add", id: "opened-back"})),
            objectWords(object));
        byId("opened-back").focus();
    }

    // Counts the questions that are open, for whoever drives the page, such as its tests.
    async counted(question) {
        this.questions = (this.questions ?? 0) + 1;
        document.body.dataset.open = this.questions;
        try {
            return await question();
        } finally {
            this.questions -= 1;
            document.body.dataset.open = this.questions;
        }
    }

    // Asks about the text anew, and then the question of the view that is open. Whatever older answers the page shows
    // are hidden until there is a new one, and those that are still to come are not shown.
    refresh() {
        show(byId("copied")); // of an older state
        const turn = this.turns.begin(["look", ...ANSWERED]);
        this.result = null;
        this.asked = null;
        this.store.forgetKind();
        if (this.many.begin(this.store)) {
            this.input.showChosen({});
        }
        clearTimeout(this.slow);
        this.slow = setTimeout(() => this.turns.tellBusy(WORDS.busy), MILLISECONDS_TO_TELL);
        return this.counted(async () => {
            const result = await this.desk.ask("look", this.store.shared).catch((error) => ({error}));
            if (!result || turn.isOver("look")) {
                return;
            }
            clearTimeout(this.slow);
            await this.showLookOr(result, turn).catch((error) => this.broke(error));
        });
    }

    async showLookOr(result, turn) {
        if (result.error) {
            throw result.error;
        }
        this.result = result;
        await Promise.all([this.showResult(result, turn), this.refreshView()]);
    }

    // A question that got no answer: each place that would have one says so.
    broke(error) {
        this.result = {error};
        this.showKind(this.state.kind, !this.state.isKindChosen);
        byId("page").classList.remove("has-edit");
        clearTimeout(this.slow);
        for (const view of ["look", ...ANSWERED]) {
            this.turns.show(view, make("p", {class: "fault-name"}, errorInWords(error)));
        }
        showUnknown(errorInWords(error));
        show(byId("print-head"));
        byId("text-name").textContent = "";
        this.input.showLines(null, this.context);
        this.turns.tell(errorInWords(error));
    }

    async showResult(result, turn) {
        const isKnown = result.kind || result.isEmpty || this.state.isKindChosen;
        this.showKind(result.kind ?? this.state.kind, result.asksKind || !isKnown);
        this.input.showChosen(result);
        showPrintHead(result, this.state, this.shownKind, this.version);
        document.body.classList.toggle("has-result", Boolean(result.model));
        const {found = 0} = result;
        const said = result.judged ? showVerdict(result, this.context) : "";
        this.many.ask(found);
        byId("text-name").textContent = shownName(result.entry?.name ?? "");
        this.input.showLines(result, this.context);
        await this.showPermissions(result, found > 1 && !this.many.told ? "" : said, () => turn.isOver("look"));
    }

    // What the first view shows of an answer. SAID is what a screen reader says of its verdict.
    async showPermissions(result, said, isOver) {
        const {turns} = this;
        if (result.domainFault) {
            turns.show("look");
            showUnknown(WORDS.verdict.domain);
            this.input.showFolded();
            turns.tell(say(WORDS.domainFault, {fault: faultInWords(result.domainFault)}));
        } else if (result.isEmpty) {
            turns.show("look");
            byId("first").hidden = true;
            this.input.showFolded();
            turns.tell(WORDS.waiting);
        } else if (result.fault) {
            const onSelect = isLarge(this.state.text) ? null : (place) => this.input.select(place);
            showFault(byId("view-look"), result, {onSelect});
            turns.isNew("look");
            turns.tell(`${faultInWords(result.fault)} ${foundText(result)}`, said);
        } else if (result.asksKind) {
            turns.show("look", make("p", {class: "hint"}, WORDS.text.choose));
            turns.tell(foundText(result), said);
        } else {
            const shown = showLook(byId("view-look"), result, this.context, isOver);
            turns.isNew("look");
            turns.tell(`${foundText(result)}${result.objectFault ? " " + WORDS.objectFault : ""}`, said);
            await shown;
        }
    }

    // Compares two descriptors of a text.
    compareTwo(one, other) {
        const {text, form} = this.state;
        this.state.chosen = one;
        Object.assign(this.state.other, {text, form, chosen: other});
        this.putOther(text);
        this.choose("compare");
        this.refresh();
    }

    // The question of the view that is open. The first view was answered already.
    refreshView() {
        show(byId("copied"));
        this.asked = null;
        const {view} = this.state;
        if (!ANSWERED.includes(view)) {
            return Promise.resolve();
        }
        return this.counted(() => this.askView(view, this.turns.begin([view])));
    }

    async askView(view, turn) {
        const {shared: state} = this.store;
        this.beginEdit();
        const {ask, made, other} = this.state;
        /** @type {Record<string, [any, (...given: any[]) => any[]]>} */
        const questions = {
            ask: [{state, asked: ask}, showAsk],
            inherit: [{state, made}, showInherit],
            compare: [{state, other}, showCompare],
            edit: [
                {state, now: this.editing.now, origins: this.editing.origins, steps: [...this.editing.waiting]},
                (...given) => this.editView.show(...given)
            ],
        };
        const [about, showAnswer] = valueIn(questions, view);
        const result = await this.desk.ask(view, about).catch((error) => ({error}));
        await (view === "edit" && this.editView.released());
        if (result && !turn.isOver(view)) {
            await this.showAnswer(view, result, showAnswer, () => turn.isOver(view));
        }
        if (view === "ask" && this.result?.found > 1 && !turn.isOver(view)) {
            const onOpen = (at) => {
                this.set("chosen", at);
                byId("tab-ask").focus();
            };
            const askFrom = (from) => this.desk.ask("askMany", {...about, from});
            await askAll(
                askFrom, () => turn.isOver(view), onOpen, this.state.ask.rights.length > 0 ? this.shownKind : null);
        }
    }

    async showAnswer(view, result, showAnswer, isOver) {
        const {turns} = this;
        let shown = null;
        if (view === "edit") {
            this.editing.take(result);
            byId("page").classList.toggle("has-edit", Boolean(result.made));
        }
        if (result.error) {
            turns.show(view, make("p", {class: "fault-name"}, errorInWords(result.error)));
            speak(errorInWords(result.error));
        } else if (result.isEmpty || result.domainFault) {
            turns.show(view, make("p", {class: "hint"}, WORDS.waiting));
        } else if (result.descriptorFault) {
            turns.show(view, make("p", {class: "fault-name"}, faultInWords(result.descriptorFault)),
                make("p", {}, WORDS.error.intro));
        } else if (result.asksKind && view !== "compare") {
            turns.show(view, kindQuestion(view, result, this.context.onKind));
            speak(valueIn(WORDS.kindAsked, result.asksKind));
        } else {
            turns.isNew(view); // what is hidden takes no focus
            const answer = showAnswer(result, {...this.context, kind: result.asksKind ? "" : result.kind}, isOver);
            speak(answer[0]);
            shown = answer[1];
        }
        this.asked = result;
        await shown;
    }
}
