// The text of an edited descriptor, and the commands that set it, one at a time, with what each leaves out.
import {button, byId, make, show} from "./dom.mjs";
import {shortened} from "./naming.mjs";
import {commaed, say, WORDS} from "./words.mjs";

const words = WORDS.edit;
const MOST_SDDL = 4000; // characters
let chosen = "";        // the tool

const copier = (copy) => (text, what) => copy(text, what, byId("edit-copied"));

// COPY copies a text with what it is, and shows that in a place.
export const textSection = ({sddl, before}, copy) =>
    make("section", {"aria-labelledby": "edit-text"}, make("h3", {id: "edit-text"}, words.text),
        make("p", {}, make("code", {class: "whole", id: "edit-sddl"}, shortened(sddl, MOST_SDDL))),
        make("p", {class: "adds"},
            button(words.copyNew, () => copier(copy)(sddl, words.copyNew), {class: "primary", id: "edit-copy"}),
            button(words.copyOld, () => copier(copy)(before, words.copyOld), {id: "edit-copy-old"})),
        make("div", {id: "edit-copied", hidden: true}));

export function commandsSection({isSame, commands}, copy) {
    if (isSame) {
        return null;
    }
    const section = make("section", {id: "edit-commands", "aria-labelledby": "edit-set-it"});
    showCommands(section, commands, copy);
    return section;
}

function showCommands(section, commands, copy) {
    const at = Math.max(0, commands.findIndex(({tool}) => tool === chosen));
    const {tool, text, leavesOut, notes, why} = commands[at] ?? {why: WORDS.setCommands.none};
    const choose = (number) => {
        chosen = commands[number].tool;
        showCommands(section, commands, copy);
        byId(`edit-tool-${number}`).focus();
    };
    const tools = commands.map((one, number) => button(one.tool, () => choose(number),
                                   {class: "add", id: `edit-tool-${number}`, "aria-pressed": String(number === at)}));
    show(section, make("h3", {id: "edit-set-it"}, words.setIt), tool && make("div", {class: "adds"}, tools),
        why && make("p", {}, why), text && [
            make("pre", {class: "place"}, text),
            make("p", {class: "adds"},
                button(words.copyCommand, () => copier(copy)(text, words.copyCommand),
                    {class: "primary", id: "edit-copy-command"})),
            make("p", {class: "hint"},
                leavesOut.length ? say(WORDS.setCommands.leavesOut, {what: commaed(leavesOut)}) : words.setsAll, " ",
                notes.join(" "))
        ]);
}
