// The pane of the text: the field, or in its place the text line by line, what can be done with it, and the options.
import {unreadInWords} from "./address.mjs";
import {box, button, byId, input, isTyped, labelled, make, select, show} from "./dom.mjs";
import {EXAMPLES} from "./examples.mjs";
import {rangeIn} from "./faults.mjs";
import {isDirectory} from "./meanings.mjs";
import {visible} from "./naming.mjs";
import {linesOf} from "./packing.mjs";
import {longField} from "./parts_view.mjs";
import {knownGuids} from "./schema.mjs";
import {MOST_LIST} from "./state.mjs";
import {valueIn} from "./tables.mjs";
import {showAce, showText, showWritten} from "./text_view.mjs";
import {makeVerdict} from "./verdict_view.mjs";
import {formatted, say, WORDS} from "./words.mjs";

const MOST_NAME = 60;         // characters in the list of several descriptors
const MOST_FILE = 10_000_000; // bytes of a file of names

// The text of a file: UTF-16 with a mark, as PowerShell writes it, or UTF-8.
function textOf(bytes) {
    const form = bytes[0] === 0xff && bytes[1] === 0xfe ? "utf-16le" :
        bytes[0] === 0xfe && bytes[1] === 0xff          ? "utf-16be" :
                                                          "utf-8";
    return new TextDecoder(form).decode(bytes);
}

export class InputView {
    // ACTS are what the page does: 'type' and 'open' a text, 'set' an option, and what leaves it by the name of a
    // button.
    constructor(store, acts) {
        this.store = store;
        this.acts = acts;
    }

    // Makes the controls. UNREAD is what of an address can't be read.
    make(unread) {
        const {state} = this.store;
        const {open, type} = this.acts;
        const setter = (name) => (value) => this.acts.set(name, value);
        this.chosenKey = null;
        this.text =
            longField("text", state.text, type, {"aria-describedby": "text-hint found", clear: () => open("", "auto")});
        const names = longField("names", state.names, (text) => this.takeNames(() => this.acts.set("names", text)),
            {most: MOST_LIST, "aria-describedby": "names-hint"});
        const openExample = (name) => {
            const [kind, text] = valueIn(EXAMPLES, name);
            open(text, "auto", kind);
        };
        show(byId("first"), makeVerdict(state.kind, setter("kind")));
        byId("first").hidden = true;
        show(byId("input"), make("h2", {id: "text-heading"}, WORDS.text.heading, " ", make("small", {id: "text-name"})),
            make("div", {id: "chosen-field", hidden: true}),
            make("div", {id: "field"}, labelled(WORDS.inputLabel, this.text.field, WORDS.inputHint), this.text.note,
                make("p", {class: "adds"}, WORDS.examples, ": ", Object.entries(WORDS.examplesPlain).map(([
                    name, label
                ]) => [button(label, () => openExample(name), {class: "add", id: `example-${name}`}), " "]),
                    button(WORDS.clear, () => open("", "auto"), {class: "add", id: "clear"}), " ",
                    button(WORDS.text.done, () => this.fold(true), {class: "add", id: "done"}))),
            make("div", {id: "lines", hidden: true}), make("div", {id: "ace-words", class: "ace-words", hidden: true}),
            make("p", {id: "found", class: "found"}, WORDS.waiting),
            make("div", {id: "share", class: "share"}, Object.entries(WORDS.share).map(([name,
                label]) => [button(label, valueIn(this.acts.share, name), {id: `share-${name}`}), " "])),
            make("div", {id: "copied", class: "copied", hidden: true}),
            unread.length ? make("p", {id: "unread", class: "warning caution", role: "status"}, unreadInWords(unread)) :
                            null,
            make("details", {id: "more-options", open: this.store.hasOptions}, make("summary", {}, WORDS.moreOptions),
                this.options(setter), box("common", WORDS.commonLabel, state.common, setter("common")),
                labelled(WORDS.namesLabel, names.field, WORDS.namesHint), names.note, this.makeNamesFile(),
                make("p", {id: "names-told", role: "status"})));
        this.fold(state.text !== "");
    }

    // The control for a file of names.
    makeNamesFile() {
        const take = async ({target}) => {
            const [file] = target.files;
            const isLong = file?.size > MOST_FILE;
            const text = !file || isLong ? null : textOf(new Uint8Array(await file.arrayBuffer()));
            this.takeNames(() => {
                this.store.takeNamesOfFile(text);
                this.acts.set("names", this.store.state.names);
            });
            byId("names-told").append(isLong ? say(WORDS.nameList.tooLong, {most: formatted(MOST_FILE)}) : "");
        };
        return labelled(WORDS.nameList.file, make("input", {id: "names-file", type: "file", onchange: take}));
    }

    // Takes names, and says what was read.
    takeNames(take) {
        take();
        const {names, typedNames, ofFile} = this.store;
        const all = [typedNames, ofFile].filter(Boolean);
        const told = [
            ["read", all.reduce((count, one) => count + one.names.size, 0)],
            ...["known", "unread", "left"].map((key) => [key, all.reduce((count, one) => count + one[key], 0)])
        ];
        byId("names-told").textContent = !names.size && told.every(([, count]) => count === 0) ?
            "" :
            told.filter(([key, count]) => key === "read" || count > 0)
                .map(([key, count]) => say(valueIn(WORDS.nameList, key), {count: formatted(count)}))
                .join(" ");
    }

    options(setter) {
        const {state} = this.store;
        const field = (name, label, hint, more = {}) => labelled(label,
            input(name, valueIn(state, name), setter(name), {"aria-describedby": `${name}-hint`, ...more}), hint);
        return make("div", {class: "row"},
            labelled(WORDS.formLabel, select("form", WORDS.forms, state.form, setter("form"))),
            field("domain", WORDS.domainLabel, WORDS.domainHint),
            make("div", {id: "object-field", hidden: !isDirectory(state.kind)},
                field("object", WORDS.objectLabel, WORDS.objectHint, {list: "guids"}),
                make("datalist", {id: "guids"},
                    knownGuids().map(
                        ({guid, name, typeName}) => make("option", {value: guid}, `${name} (${typeName})`))),
                field("classes", WORDS.classesLabel, WORDS.classesHint)));
    }

    // Shows what came with a text.
    showTaken() {
        const {form, classes} = this.store.state;
        show(byId("opened"));
        byId("form").value = form;
        byId("classes").value = classes;
    }

    // Shows a text as if it had been pasted.
    put(text) {
        this.showTaken();
        this.text.put(text);
        this.isFolded = text !== "";
    }

    // Takes the domain of a report.
    setDomain(domain) {
        this.store.state.domain = byId("domain").value = domain;
        this.openOptions();
    }

    showKind(kind, shown) {
        byId("kind").value = shown;
        byId("object-field").hidden = !isDirectory(kind);
        this.openOptions();
    }

    openOptions() { byId("more-options").open ||= this.store.hasOptions; }

    // Shows the field, or in its place the text line by line, once there is an answer.
    fold(isFolded) {
        this.isFolded = isFolded;
        this.showFolded();
    }

    showFolded() {
        const hasLines = byId("lines").childElementCount > 0;
        const isText = this.isFolded && hasLines;
        byId("page").classList.toggle("is-folded", isText);
        byId("page").classList.toggle("has-answer", !byId("first").hidden);
        byId("field").hidden = isText;
        byId("lines").hidden = !isText;
        byId("ace-words").hidden = !isText || !byId("ace-words").childElementCount;
        byId("done").hidden = !hasLines;
    }

    // Opens the field, so that what is pasted next takes the place of what is in it.
    another() {
        this.fold(false);
        byId("text").focus();
        byId("text").select();
    }

    // A paste anywhere but into a field is a new text. One that takes the place of all in the field is one too.
    paste(event) {
        const text = event.clipboardData?.getData("text") ?? "";
        const field = byId("text");
        const isAll = event.target === field && field.selectionEnd - field.selectionStart === field.value.length;
        if (isAll) {
            this.isFolded = true;
        } else if (text && !isTyped(event.target)) {
            event.preventDefault();
            this.acts.open(text, "auto");
        }
    }

    // The place of a fault, in the field.
    select(place) {
        this.fold(false);
        const field = byId("text");
        const range = rangeIn(field.value, place);
        field.focus();
        if (range) {
            field.setSelectionRange(range[0], range[1]);
        }
    }

    // Shows the text of a descriptor line by line, and the ACE that its verdict is about in words.
    showLines(result, context) {
        show(byId("lines"));
        show(byId("ace-words"));
        if (result?.model) {
            showText(result, context);
            const [number] = result.judged.numbers ?? [];
            const ace = linesOf(result.model.dacl.aces)[(number ?? 1) - 1];
            if (ace) {
                showAce(JSON.parse(ace), context);
            }
        } else if (result?.asksKind) {
            showWritten(result.written);
        }
        this.showFolded();
    }

    // Which of several descriptors is shown, by a list, or by its number if there are too many. The control stays the
    // same as long as the descriptors do, so that it keeps the focus.
    showChosen({found = 0, names = [], chosen = 0}) {
        const key = JSON.stringify([found, names]);
        if (key !== this.chosenKey) {
            this.chosenKey = key;
            show(byId("chosen-field"), found > 1 && this.makeChosen(found, names));
        }
        const field = byId("chosen");
        if (field && found <= names.length) {
            field.value = String(chosen);
        } else if (field && field !== document.activeElement) {
            field.value = String(chosen + 1);
        }
    }

    makeChosen(found, names) {
        const {set} = this.acts;
        if (found > names.length) {
            const take = (value) => set("chosen", Math.min(found, Math.max(1, Math.trunc(value) || 1)) - 1);
            return labelled(WORDS.chosenLabel, input("chosen", "", take, {inputmode: "numeric"}));
        }
        const options = Object.fromEntries(names.map(
            (name, index) => [index,
                say(WORDS.chosenOption, {number: index + 1, count: found, name: visible(name.slice(0, MOST_NAME))})]));
        return labelled(WORDS.chosenLabel, select("chosen", options, "0", (value) => set("chosen", Number(value))));
    }
}
