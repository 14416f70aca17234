// Asks the page for the first line that it shows of texts, a list of states, and prints for each
// {verdict, key, who, sentence, asksKind}. Its argument is the library, sdtool.mjs beside its sdtool.wasm.
import {questionOf} from "../../web/desk.mjs";
import {sentenceOf, reasonsOf} from "../../web/sentences.mjs";
import {freshState} from "../../web/state.mjs";
import {asked, library, print} from "../shared/page.mjs";

function told(state) {
    const result = questionOf(library, "look", {...freshState(), ...state});
    const {judged, asksKind = null} = result;
    const {verdict, key, who = []} = judged;
    const names = new Map();
    return {
        verdict,
        key,
        who,
        asksKind,
        sentence: sentenceOf(judged, names, result),
        reasons: reasonsOf(judged, names, result).join(" ")
    };
}

print(asked.map(told));
