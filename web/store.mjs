// The state of the page, and how a text, a choice, an address or a report changes it. Nothing here knows the document.
import {takeAddress} from "./address.mjs";
import {isDirectory} from "./meanings.mjs";
import {namesIn} from "./name_lists.mjs";
import {namesOfReport} from "./naming.mjs";
import {freshState} from "./state.mjs";

export class Store {
    constructor(view) {
        this.first = view;
        this.state = {...freshState(), view};
        this.ofReport = new Map();
        this.ofFile = null;
        this.namesText = null;
    }

    // Begins with an address, and gives what of it can't be read. The names of SIDs and what many lines are asked are
    // in none. The form and the kind of an address are those of its text.
    begin(address) {
        const {names, lines} = this.state;
        Object.assign(this.state, freshState(), {names, lines, view: this.first});
        const unread = takeAddress(this.state, address);
        this.hasFormOfText = this.hasKindOfText = this.state.text !== "";
        return unread;
    }

    set(name, value) {
        this.state[name] = value;
        this.hasFormOfText &&= name !== "form";
        if (name === "kind") {
            this.takeKind(value, false);
        }
    }

    // A text that somebody types.
    type(text) {
        this.takeText(text, this.hasFormOfText ? "auto" : this.state.form);
        this.hasFormOfText = false;
    }

    // A whole text, which may come with a form, a kind, and what a report says of it. Without a text nothing is chosen.
    open(text, form = "auto", kind = null, entry = {}) {
        this.hasKindOfText ||= text === "";
        this.takeText(text, form, entry);
        this.hasFormOfText = form !== "auto";
        if (kind) {
            this.takeKind(kind, true);
        }
    }

    // A form, a kind or a class that came with another text, or was chosen for it, is none of this one.
    takeText(text, form, {classes = "", name = ""} = {}) {
        Object.assign(this.state, {text, form, classes, name, chosen: 0, all: false});
        this.state.isKindChosen &&= !this.hasKindOfText;
    }

    // Takes a kind that is known for this text, or for all to come, or none.
    takeKind(kind, isOfText) {
        Object.assign(this.state, {kind: kind || freshState().kind, isKindChosen: kind !== ""});
        this.hasKindOfText = isOfText;
    }

    // What an older text told is no kind of the next one.
    forgetKind() {
        if (!this.state.isKindChosen) {
            this.state.kind = freshState().kind;
        }
    }

    takeNamesOfReport(names) {
        this.ofReport = namesOfReport(names);
        this.namesText = null;
    }

    // Takes the names of a file, or none.
    takeNamesOfFile(text) {
        this.ofFile = text === null ? null : namesIn(text);
        this.namesText = null;
    }

    // The user's names of SIDs, typed or of a file, and those of a report, which may have very many.
    get names() {
        if (this.namesText !== this.state.names) {
            this.namesText = this.state.names;
            this.typedNames = namesIn(this.state.names);
            this.known = new Map([...this.ofReport, ...this.ofFile?.names ?? [], ...this.typedNames.names]);
        }
        return this.known;
    }

    // Whether an option applies that is among the ones that can be folded away.
    get hasOptions() {
        const {domain, object, classes, common, kind} = this.state;
        return domain !== "" || !common || (isDirectory(kind) && (object + classes) !== "");
    }

    // The part of the state that the desk needs.
    get shared() {
        const {text, form, kind, isKindChosen, domain, object, classes, name, common, chosen, all} = this.state;
        return {text, form, kind, isKindChosen, domain, object, classes, name, common, chosen, all};
    }

    // What the verdicts on all descriptors of a text depend on.
    get aboutMany() {
        const {text, form, kind, isKindChosen, domain, classes} = this.state;
        return {text, form, kind: isKindChosen ? kind : "", domain, classes};
    }
}
