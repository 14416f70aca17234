// The third view: what a new file or folder gets, with an arrow from each ACE to the one that it came from.
import {afterwards, byId, input, labelled, make, select, show, showParts, someRows} from "./dom.mjs";
import {faultInWords, shortened, whereOf} from "./naming.mjs";
import {linesOf} from "./packing.mjs";
import {aceRights, faultBox, kindClass, longField, who} from "./parts_view.mjs";
import {valueIn} from "./tables.mjs";
import {say, WORDS} from "./words.mjs";

const LISTS = ["dacl", "sacl"];
const MOST_SDDL = 2000; // characters of the text of an object

export function makeInherit(made, refresh) {
    const set = (name) => (value) => {
        made[name] = value;
        refresh();
    };
    const {inherit} = WORDS;
    const {field, note} = longField("made-creator", made.creator, set("creator"), {rows: 2});
    return [
        make("h2", {id: "inherit-heading"}, inherit.heading),
        make("div", {class: "form"},
            make("div", {class: "row"},
                labelled(inherit.kind, select("made-kind", inherit.kinds, made.kind, set("kind"))),
                labelled(inherit.owner, input("made-owner", made.owner, set("owner"))),
                labelled(inherit.group, input("made-group", made.group, set("group")))),
            labelled(inherit.creator, field), note),
        make("div", {id: "inherit-result"}),
    ];
}

function aceText(ace, text, kind, names) {
    return [
        make("span", {class: "badge"}, valueIn(WORDS.aceKinds, ace.kind)), " ", who(ace.sid, ace.alias, names), " ",
        aceRights(ace, kind), make("span", {class: "where"}, ` ${whereOf(kind, ace)} `), make("code", {}, text)
    ];
}

// The ACEs of each list of a folder or file, which the desk sends in lines.
const aceLists = (side, item, later) => LISTS.filter((list) => side[list].length).map((list) => {
    const body = make("ol", {class: "made"});
    const more = someRows(body, linesOf(side[list]), (line) => item(JSON.parse(line)),
        (count) => say(WORDS.parts.more, {count}), {step: 50, later});
    return [make("h4", {}, valueIn(WORDS.parts, list)), body, more];
});

// What a container, and what is in it, is called: only files are in folders.
const calledOf = (kind) => (["folder", "file"].includes(kind) ? WORDS.inherit.files : WORDS.inherit.others);

// An ACE with its arrow, and a number to follow it by.
function madeItem({ace, text, source}, kind, names) {
    const words = say(source.who === "parent" ? WORDS.inherit.fromParent : WORDS.inherit.fromCreator,
        {number: source.number, parent: calledOf(kind).container});
    return make("li", {class: kindClass(ace.kind), "data-from": `${source.who} ${source.number}`},
        aceText(ace, text, kind, names),
        make("div", {class: "arrow"}, `${WORDS.inherit.arrow} ${words} `, make("code", {}, source.text)));
}

function nodeView(node, title, kind, names, level, later) {
    const childKind = node.kind === "container" ? (kind === "file" ? "folder" : kind) :
        kind === "folder"                       ? "file" :
                                                  kind;
    const section = make("section", {class: `node level-${level}`}, make(level === 0 ? "h3" : "h4", {}, title),
        make("p", {}, make("code", {class: "whole"}, shortened(node.sddl, MOST_SDDL))),
        node.isEmpty ? make("p", {class: "warning caution"}, WORDS.inherit.nothing) : null,
        aceLists(node, (item) => madeItem(item, childKind, names), later));
    for (const child of node.children) {
        const title = say(WORDS.inherit.below, {kind: valueIn(calledOf(kind), child.kind)});
        afterwards(later,
            () => section.append(make("details", {open: level < 1}, make("summary", {}, title),
                nodeView(child, title, kind, names, level + 1, later))));
    }
    return section;
}

// The ACEs of the folder, each with whether it goes on.
const parentView = (title, side, kind, names, later) =>
    make("section", {class: "node parent"}, make("h3", {}, title), aceLists(side, ({ace, text, isPassed}) => {
        const note = isPassed ? null : make("div", {class: "arrow"}, WORDS.inherit.notPassed);
        return make("li", {class: kindClass(ace.kind)}, aceText(ace, text, kind, names), note);
    }, later));

// Shows it. Returns what a screen reader says of it, and a promise that ends when all is shown.
export function showInherit(result, {kind, names, made}, isOver) {
    const place = byId("inherit-result");
    const {inherit} = WORDS;
    const faults = [["ownerFault", inherit.owner], ["groupFault", inherit.group]].filter(([key]) => result[key]).map(([
        key, field
    ]) => make("p", {class: "fault-name"}, say(inherit.fault, {field, fault: faultInWords(result[key])})));
    if (result.creatorFault) {
        faults.push(
            make("p", {class: "fault-name"}, inherit.creator), faultBox(result.creatorFault, result.creatorPlace));
    }
    const why = result.fault    ? faultInWords(result.fault) :
        result.isMappingUnknown ? inherit.mappingUnknown :
                                  result.hasNoHeirs && inherit.noHeirs;
    if (why) {
        faults.push(make("p", {class: "fault-name"}, why));
    }
    if (faults.length) {
        show(place, faults);
        return [place.textContent];
    }
    const {object, parent, creator} = result;
    const called = calledOf(kind);
    const title = say(inherit.object, {kind: valueIn(called, made.kind)});
    const flow = make("div", {class: "flow"});
    show(place, flow);
    const count = object.count + parent.count + (creator?.count ?? 0);
    const shown = showParts(flow, count,
        [
            (later) =>
                make("div", {}, parentView(say(inherit.parent, {parent: called.container}), parent, kind, names, later),
                    creator && parentView(inherit.theCreator, creator, kind, names, later)),
            (later) => nodeView(object, title, kind, names, 0, later)
        ],
        isOver);
    const {length} = linesOf(object.dacl);
    return [`${title}: ${length === 1 ? WORDS.parts.one : say(WORDS.parts.list, {count: length})}`, shown];
}
