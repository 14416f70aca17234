// Asks the page's desk questions, a list of {name, text, kind, more}, and prints its answers,
// each with what the program answers to the command that the page copies. Without a kind none is chosen, and an older
// text told another one. Its argument is the library, sdtool.mjs beside its sdtool.wasm.
import {descriptorsIn} from "../../web/clipboard.mjs";
import {commandOf} from "../../web/command.mjs";
import {questionOf} from "../../web/desk.mjs";
import {answerTo} from "../../web/library.mjs";
import {freshState} from "../../web/state.mjs";
import {asked, library, print} from "../shared/page.mjs";

const OLDER = "process";

function answer({name, text, kind, more}) {
    const fresh = freshState();
    const state = {
        ...fresh,
        view: name,
        text,
        chosen: more.chosen ?? 0,
        kind: kind ?? OLDER,
        isKindChosen: kind !== null,
        ask: {...fresh.ask, ...more},
        made: {...fresh.made, ...more}
    };
    const about = {state, asked: state.ask, made: state.made, other: {...fresh.other, text: more.other ?? ""}};
    const got = questionOf(library, name, name === "look" ? state : about);
    if (got.object) {
        got.heirs = got.object.children.map((one) => one.kind);
    }
    if (!got.verdict) {
        return got;
    }
    const {words, line} = commandOf(state, descriptorsIn(text, "auto")[state.chosen], got);
    return {...got, command: answerTo(library, words, line)};
}

print(asked.map(answer));
