// Asks the page's desk for the first view of texts, which come as a JSON list, and prints for each its warnings, with
// who, rule, level, mask and classes, the name of the object, whether its kind is asked for, and the microseconds of a
// processor that it took. In place of a text may come what else is chosen on the page. Its argument is the library,
// sdtool.mjs beside its sdtool.wasm.
import {questionOf} from "../../web/desk.mjs";
import {linesOf} from "../../web/packing.mjs";
import {freshState} from "../../web/state.mjs";
import {asked, library, print} from "../shared/page.mjs";

function look(given) {
    const start = process.cpuUsage();
    const chosen = typeof given === "string" ? {text: given} : given;
    const {warnings, entry, asksKind} = questionOf(library, "look", {...freshState(), ...chosen});
    const time = process.cpuUsage(start).user;
    return {time, warnings: linesOf(warnings).map((line) => JSON.parse(line)), name: entry?.name, isAsked: !!asksKind};
}

print(asked.map(look));
