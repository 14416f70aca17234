// The view that changes a descriptor: its ACEs, owner and inheritance, with the verdict, and who gains and who loses.
import {button, byId, make, moveByArrows, scrolling, show, someRows, tableHead} from "./dom.mjs";
import {aceFields, listOf, sidField} from "./edit_fields.mjs";
import {inheritedBy, tableOf} from "./meanings.mjs";
import {faultInWords, guidInWords, nameOf, placeInWords, shortened, whereOf} from "./naming.mjs";
import {itemsOf} from "./packing.mjs";
import {aceRights, kindClass, rightsDiffering, rightsOfAce, rightsSection, who, wordOfKind} from "./parts_view.mjs";
import {acesIn, sentenceOf} from "./sentences.mjs";
import {commandsSection, textSection} from "./set_view.mjs";
import {valueIn} from "./tables.mjs";
import {showSentence, takeButton, verdictLine} from "./verdict_view.mjs";
import {commaed, formatted, say, WORDS} from "./words.mjs";

const words = WORDS.edit;
const LISTS = ["dacl", "sacl"];
const PROTECTED = {
    dacl: "PD",
    sacl: "PS"
};                               // from what is above
const MOST_NAME = 4000;          // characters of the object above
const MOST_NAMES = 200;          // that are offered
const MILLISECONDS_TO_WAIT = 20; // for a pointer
const MOST_WAITS = 50;
const NEW = "edit-new"; // the row of an ACE that a step adds
const OF_ROW = /^edit-([ds]acl)-(\d+)$/;

const isSelect = (target) => Boolean(target.closest?.("select"));

export class EditView {
    // ACTS are what the page does: 'step' does one, 'undo' and 'redo', and 'copy' copies a text with what it is.
    constructor(editing, acts) {
        this.editing = editing;
        this.acts = acts;
        this.about = this.result = this.context = null;
        this.chosen = this.draft = null;
        this.said = this.focus = "";
        this.shown = {dacl: [], sacl: []};
        this.isHeld = this.isStill = false;
        // The list that a select opens keeps what comes after a pointer is down.
        window.addEventListener("pointerdown", ({target}) => { this.isHeld = !isSelect(target); }, true);
        ["pointerup", "pointercancel"].forEach(
            (name) => window.addEventListener(name, () => { this.isHeld = false; }, true));
    }

    // Waits until no button of a pointer is down: what it is over has to stay until then.
    async released() {
        for (let tries = 0; tries === 0 || (this.isHeld && tries < MOST_WAITS); tries += 1) {
            await new Promise((resolve) => setTimeout(resolve, this.isHeld ? MILLISECONDS_TO_WAIT : 0));
        }
    }

    step(step, said, focus = "") {
        Object.assign(this, {said, focus});
        this.acts.step(step);
    }

    // Whether the numbers that are shown are those of before a step that waits: what is pressed now means other ACEs.
    get isBehind() { return this.editing.isRenumbering; }

    take(list, numbers) {
        if (this.isBehind) {
            return;
        }
        this.chosen = null;
        const aces = acesIn(numbers, WORDS.verdict.ace, WORDS.verdict.aces);
        this.step({does: "take", list, numbers}, say(words.did.take, {aces}), idOf(list, numbers[0]));
    }

    // Takes those of the verdict, which stays in view.
    takeOfVerdict(numbers) {
        this.isStill = true;
        this.take("dacl", numbers);
    }

    move({list, number}, by) {
        const isThere = number + by >= 1 && number + by <= this.rows(list).length;
        if (!isThere || this.isBehind) {
            return;
        }
        this.chosen = this.isChosen({list, number}) ? {list, number: number + by} : null;
        this.step({does: "move", list, number, by}, say(words.did.move, {from: number, to: number + by}),
            idOf(list, number + by));
    }

    // Changes an ACE, or what a step makes of it that still waits.
    replace(ace, changeOf) {
        if (this.isBehind) {
            return;
        }
        const {list, number} = ace;
        const last = this.editing.waiting.at(-1);
        const isWaiting = last?.does === "replace" && last.list === list && last.number === number;
        const now = isWaiting ? last.ace : ace;
        this.step({does: "replace", list, number, ace: {...now, ...changeOf(now)}}, say(words.did.replace, {number}));
    }

    isChosen({list, number}) { return this.chosen?.list === list && this.chosen.number === number; }

    // The ACEs that a list has, of the rows that are shown of it.
    rows(list) { return this.shown[list].filter(({other}) => other); }

    /**
     * Shows an answer. BEFORE is the verdict on the descriptor before all steps. Gives what a screen reader says of it.
     */
    show(result, context) {
        const {about} = this.editing;
        const isSame = this.about === about;
        const before = isSame ? LISTS.flatMap((list) => this.rows(list)) : [];
        const [dacl, sacl] = LISTS.map((list) => itemsOf(result[list]));
        Object.assign(
            this, {result, context, about, shown: {dacl, sacl}, ...(isSame ? {} : {chosen: null, draft: null})});
        const {refused} = result;
        if (isSame && refused && !result.made.length && byId("edit-list")) {
            return [this.refuse(refused)];
        }
        const kept = keptField();
        show(byId("edit-result"),
            make("section", {id: "edit-first", class: "first", "aria-labelledby": "edit-sentence"},
                verdictLine("edit-", this.undoButtons())),
            make("div", {class: "split"}, make("div", {}, this.acesSection()),
                make("div", {class: "told"}, rightsSection("edit-gains", words.rights, result, context),
                    commandsSection(result, this.acts.copy), textSection(result, this.acts.copy))));
        const sentence = this.showSentence();
        this.restore(kept, before);
        const said = [
            this.said, refused ? this.refuse(refused) : "", sentence,
            this.editing.done.length ? rightsDiffering(result) : ""
        ];
        this.said = "";
        return [said.filter(Boolean).join(" ")];
    }

    undoButtons() {
        const {editing} = this;
        return [
            button(words.undo, this.acts.undo,
                {id: "edit-undo", disabled: !editing.done.length, "aria-keyshortcuts": "Control+Z"}),
            button(words.redo, this.acts.redo,
                {id: "edit-redo", disabled: !editing.undone.length, "aria-keyshortcuts": "Control+Y"}),
            takeButton(this.result.judged, (numbers) => this.takeOfVerdict(numbers), "edit-take")
        ];
    }

    // The verdict after the steps, and the one before.
    showSentence() {
        const {names, judged} = this.context;
        const {length} = this.editing.done;
        const after = sentenceOf(this.result.judged, names, this.result);
        if (!length) {
            return showSentence(this.result.judged.verdict, after, [words.nothing], "edit-");
        }
        const before = judged ? say(words.before, {sentence: sentenceOf(judged, names, this.result)}) : "";
        const steps = length === 1 ? words.oneStep : say(words.steps, {count: formatted(length)});
        return showSentence(this.result.judged.verdict, say(words.after, {sentence: after}), [before, steps], "edit-");
    }

    acesSection() {
        const {order, states, stopped, above} = this.result;
        const wrong = LISTS.filter((list) => order[list] !== null);
        const told = wrong.length ?
            wrong.map((list) => say(words.disorder, {number: order[list] + 1, part: valueIn(WORDS.parts, list)})) :
            [words.inOrder];
        const isDropped = (list) =>
            this.editing.done.some(({step}) => step.does === "stop" && step.list === list && !step.keeps);
        const inherited = LISTS.filter((list) => stopped[list].length && !isDropped(list))
                              .map((list) => make("p", {class: "warning caution"}, say(words.stopped, {
                                  aces: acesIn(stopped[list], WORDS.verdict.ace, WORDS.verdict.aces),
                                  part: valueIn(WORDS.parts, list)
                              }),
                                       " ",
                                       above ? [words.above, " ", make("bdi", {}, shortened(above, MOST_NAME))] :
                                               words.aboveUnknown));
        const none = ["absent", "null"].includes(states.dacl) &&
            make("p", {class: "warning danger"}, words.noList, " ",
                button(words.makeList, () => this.step({does: "list", list: "dacl"}, words.did.list),
                    {class: "add", id: "edit-list-make"}));
        const sort = button(words.sort, () => wrong.forEach((list) => this.step({does: "sort", list}, words.did.sort)),
            {id: "edit-sort", disabled: !wrong.length});
        const add = button(words.add, () => this.begin(), {id: "edit-add"});
        return make("section", {id: "edit-list", "aria-labelledby": "edit-aces"},
            make("h3", {id: "edit-aces"}, words.aces, " ", make("small", {}, told.join(" "))),
            make("p", {class: "hint", id: "edit-hint"}, words.hint), inherited, none, this.table(),
            make("div", {id: "edit-draft"}, this.draftPanel()), make("div", {class: "adds"}, add, sort),
            this.ownerFields(), LISTS.map((list) => this.inheritance(list)));
    }

    table() {
        const body = make("tbody");
        const all = LISTS.flatMap((list) => (this.shown[list].length ? [{list}, ...this.shown[list]] : []));
        const more = someRows(body, all, (row) => (row.list ? partRow(row.list) : this.row(row)),
            (count) => say(WORDS.parts.more, {count}));
        const table = make("table", {
            class: "reasons edit",
            "aria-labelledby": "edit-aces",
            "aria-describedby": "edit-hint",
            onkeydown: (event) => this.key(event)
        },
            tableHead(words.columns), body);
        body.querySelector("tr.ace")?.setAttribute("tabindex", "0");
        moveByArrows(table, "tr.ace");
        return scrolling({"aria-labelledby": "edit-aces"}, table, more);
    }

    // An ACE in a row, with what it was before the steps, or one that is gone. Below the chosen one are its fields.
    row({state, one, other}) {
        const {kind, names} = this.context;
        const ace = other ?? one;
        const {columns} = words;
        const {list, number} = ace;
        const changed = state === "same" ? null : [
            make("span", {class: "sign", "aria-hidden": "true"}, valueIn(WORDS.compare.signs, state)),
            valueIn(WORDS.compare.states, state), wasInWords(state, one, other, kind, names)
        ];
        const cells = [
            make("th", {scope: "row"}, number),
            make("td", {"data-label": columns.type}, make("span", {class: "badge"}, wordOfKind(ace))),
            make("td", {"data-label": columns.who}, who(ace.sid, ace.alias, names),
                changed && make("div", {class: "change"}, changed)),
            make("td", {"data-label": columns.can}, aceRights(ace, kind)),
            make("td", {"data-label": columns.where}, whereOf(kind, ace),
                ace.flags.includes("ID") ? make("span", {class: "tag"}, WORDS.origin.inherited) : null)
        ];
        if (!other) {
            return make("tr", {class: `removed compared ${kindClass(ace.kind)}`}, cells, make("td"));
        }
        return make("tr", {
            class: `ace compared ${state} ${kindClass(ace.kind)}`,
            id: idOf(list, number),
            tabindex: "-1",
            "data-list": list,
            "data-number": number,
            "data-state": state,
            "aria-label": aceInWords(ace, kind, names, state),
            onclick: () => this.choose(ace)
        },
            cells, make("td", {}, button("\u2715", (event) => {
                event.stopPropagation();
                this.take(list, [number]);
            }, {class: "jump", tabindex: "-1", "aria-label": say(words.remove, {number})})));
    }

    // Opens the fields of an ACE below its row, or closes them.
    choose({list, number}) {
        const isOpen = this.isChosen({list, number});
        this.chosen = isOpen ? null : {list, number};
        if (this.draft) {
            this.draft = null;
            show(byId("edit-draft"));
        }
        this.openChosen();
        putFocus(byId(isOpen ? idOf(list, number) : "edit-sid"), keptField());
    }

    openChosen() {
        document.querySelector("tr.panel")?.remove();
        document.querySelectorAll("tr.ace.chosen").forEach((row) => row.classList.remove("chosen"));
        const {list, number} = this.chosen ?? {};
        const row = list && rowOf(list, number);
        if (row) {
            row.classList.add("chosen");
            row.after(this.panel(this.rows(list)[number - 1].other));
        } else {
            this.chosen = null;
        }
    }

    key(event) {
        const {target, key, altKey} = event;
        if (key === "Escape" && target.closest("tr.panel")) {
            this.choose(this.chosen);
            return;
        }
        if (!target.matches("tr.ace") || event.ctrlKey || event.metaKey) {
            return;
        }
        const {list, number} = target.dataset;
        const act = valueIn({
            Delete: () => this.take(list, [Number(number)]),
            Enter: () => target.click(),
            ...(altKey ? {
                ArrowUp: () => this.move({list, number: Number(number)}, -1),
                ArrowDown: () => this.move({list, number: Number(number)}, 1)
            } :
                         {})
        },
            key);
        if (act) {
            event.preventDefault();
            act();
        }
    }

    // The fields of an ACE, in a row of the table. Each change of one is a step.
    panel(ace) {
        const {list, number} = ace;
        const act = (text, does, id) => button(text, does, {class: "add", id});
        return make("tr", {class: "panel"},
            make("td", {colspan: Object.keys(words.columns).length},
                make("div", {role: "group", "aria-label": say(WORDS.verdict.ace, {numbers: number})},
                    aceFields(ace, [list], this.context, (changeOf) => this.replace(ace, changeOf)),
                    make("div", {class: "adds"}, act(words.removeThis, () => this.take(list, [number]), "edit-remove"),
                        act(words.up, () => this.move(ace, -1), "edit-up"),
                        act(words.down, () => this.move(ace, 1), "edit-down"),
                        act(words.close, () => this.choose(ace), "edit-close")))));
    }

    // Begins with an ACE that is not there yet.
    begin() {
        const {kind} = this.context;
        const [mask] = tableOf(kind).mapping; // to read
        this.draft = {kind: "A", flags: inheritedBy(kind), mask, meaning: mask, sid: "", object: null, inherited: null};
        this.showDraft("edit-sid");
    }

    showDraft(focus = null) {
        this.chosen = null;
        this.openChosen();
        const kept = keptField();
        show(byId("edit-draft"), this.draftPanel());
        putFocus(byId(focus ?? kept.id), kept);
    }

    draftPanel() {
        if (!this.draft) {
            return null;
        }
        const {draft} = this;
        const change = async (changeOf) => {
            Object.assign(draft, changeOf(draft));
            await this.released();
            if (this.draft === draft) {
                this.showDraft();
            }
        };
        const end = () => {
            this.draft = null;
            show(byId("edit-draft"));
            byId("edit-add").focus();
        };
        const add = () => { this.step({does: "put", list: listOf(draft), ace: {...draft}}, words.did.put, NEW); };
        return make("div", {class: "form", role: "group", "aria-label": words.newAce}, make("h4", {}, words.newAce),
            aceFields(draft, LISTS, this.context, change),
            make("div", {class: "adds"}, button(words.put, add, {class: "primary", id: "edit-put"}),
                button(words.cancel, end, {id: "edit-cancel"})));
    }

    ownerFields() {
        const {names} = this.context;
        const field = (part) => sidField(`edit-${part}`, valueIn(WORDS.parts, part), this.result[part]?.sid ?? "",
            names, (sid) => this.step({does: part, sid}, valueIn(words.did, part)));
        const shown = LISTS.flatMap((list) => this.rows(list)).map(({other}) => nameOf(other.sid, names));
        const offered = [...new Set([...shown, ...names.values(), ...Object.values(WORDS.names)])];
        return make("div", {class: "row"}, field("owner"), field("group"),
            make("datalist", {id: "edit-names"},
                offered.slice(0, MOST_NAMES).map((name) => make("option", {value: name}))));
    }

    // Whether the object inherits from above, and what changes that.
    inheritance(list) {
        const isProtected = this.result.codes.includes(valueIn(PROTECTED, list));
        const hasInherited = this.rows(list).some(({other}) => other.flags.includes("ID"));
        const isMeant = list === "dacl" && inheritedBy(this.context.kind).length > 0;
        if (!isProtected && !hasInherited && !isMeant) {
            return null;
        }
        const act = (name, step) =>
            button(valueIn(words, name), () => this.step({...step, list}, valueIn(words.did, step.does)),
                {id: list === "dacl" ? `edit-${name}` : `edit-sacl-${name}`, class: "add"});
        return make("p", {class: "adds"}, `${valueIn(WORDS.parts, list)}: `,
            isProtected ? words.protected : words.inherits, " ",
            isProtected      ? act("again", {does: "inherit"}) :
                hasInherited ? [act("keep", {does: "stop", keeps: true}), act("drop", {does: "stop", keeps: false})] :
                               act("stop", {does: "stop", keeps: true}));
    }

    // Why a step can't be done, with its place. What was typed stays.
    refuse({field, step, ...fault}) {
        const part = ["owner", "group"].includes(step.does) ? step.does : step.list;
        const id = `edit-${field ?? part}`;
        const place = placeInWords({part, ace: step.number, field: field ?? (part === step.does ? "sid" : null)});
        const todo = valueIn(WORDS.faults, fault.number)?.[1];
        const text = `${place}: ${faultInWords(fault)} ${todo ? say(WORDS.error.suggestion, {text: todo}) : ""}`;
        byId("edit-fault")?.remove();
        const said = make("p", {class: "fault-name", id: "edit-fault"}, text);
        const target = byId(id) ?? byId("edit-aces");
        target.after(said);
        target.setAttribute("aria-invalid", "true");
        this.focus = "";
        return text;
    }

    // Puts the focus where it was, or where the step leads to. BEFORE are the rows before it.
    restore(kept, before) {
        if (this.draft && this.focus === NEW) {
            this.draft = null;
            show(byId("edit-draft"));
            const known = before.map(({text}) => text);
            const added = LISTS.flatMap((list) => this.rows(list)).find(({text}, at) => text !== known[at])?.other;
            this.focus = added ? idOf(added.list, added.number) : "edit-add";
        }
        this.openChosen();
        const [id, list, number] = OF_ROW.exec(this.focus || kept.id) ?? [this.focus || kept.id];
        this.focus = "";
        const row = list && rowOf(list, Math.min(Number(number), this.rows(list).length));
        putFocus(id.startsWith("edit-") ? row || byId(id) || byId("edit-add") : null, kept, this.isStill);
        if (this.isStill) {
            byId("edit-first").scrollIntoView({block: "nearest"});
        }
        this.isStill = false;
    }
}

const idOf = (list, number) => `edit-${list}-${number}`;

// The row of an ACE, which may not be shown yet, or null.
function rowOf(list, number) {
    /** @returns {HTMLElement | null} */
    const more = () => document.querySelector("#edit-list .more button");
    while (number > 0 && !byId(idOf(list, number)) && more()) {
        more().click();
    }
    return byId(idOf(list, number));
}

const partRow = (list) => make("tr", {class: "part"},
    make("th", {scope: "rowgroup", colspan: Object.keys(words.columns).length}, valueIn(WORDS.parts, list)));

const aceInWords = (ace, kind, names, state) => [say(WORDS.verdict.ace, {numbers: ace.number}), wordOfKind(ace),
    nameOf(ace.sid, names), commaed(rightsOfAce(ace, kind)), whereOf(kind, ace),
    ...(state === "same" ? [] : [valueIn(WORDS.compare.states, state)])]
                                                    .join(", ");

// What differs of an ACE from what it was.
function wasInWords(state, one, other, kind, names) {
    if (state === "moved") {
        return `, ${say(words.was, {what: one.number})}`;
    }
    if (state !== "changed") {
        return "";
    }
    const told = (ace) => [wordOfKind(ace), nameOf(ace.sid, names),
        commaed([...rightsOfAce(ace, kind), ...(ace.object ? [guidInWords(ace.object, ace.mask)] : [])]),
        whereOf(kind, ace), ace.flags.includes("ID") ? WORDS.origin.inherited : WORDS.origin.own];
    const now = told(other);
    const was = told(one).filter((text, at) => text !== now[at]);
    return was.length ? `, ${say(words.was, {what: was.join("; ")})}` : "";
}

// The field that has the focus, with what is typed into it and is no step yet.
function keptField() {
    const one = /** @type {HTMLInputElement} */ (document.activeElement);
    const isTyped = one?.matches('input[type="text"]') && one.value !== one.defaultValue;
    return {id: one?.id ?? "", typed: isTyped ? one.value : null};
}

// Puts the focus on a control, or if it is of no use on one that always is, and what was typed into it. ISSTILL says
// that nothing scrolls for it.
function putFocus(target, {id, typed}, isStill = false) {
    if (!target) {
        return;
    }
    const isUsable = target && !target.disabled;
    if (target.matches("tr.ace")) {
        document.querySelectorAll("table.edit tr.ace").forEach((row) => row.setAttribute("tabindex", "-1"));
        target.setAttribute("tabindex", "0");
    }
    (isUsable ? target : byId("edit-add")).focus({preventScroll: isStill});
    if (typed !== null && target.id === id) {
        target.value = typed;
    }
}
