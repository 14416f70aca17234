// Makes the page's commands that set a descriptor, by the library that is the argument, sdtool.mjs beside its
// sdtool.wasm. It reads JSON from standard input: of each list {kind, name, before, after} the commands are printed,
// and of each pair of texts under 'pairs' whether they are the same descriptor.
import fs from "node:fs";
import {pathToFileURL} from "node:url";

const TOP = new URL("../..", import.meta.url);
const [place] = process.argv.slice(2);
const library = await (await import(pathToFileURL(place).href)).load();
const {commandsFor, forCommand} = await import(new URL("web/set_command.mjs", TOP).href);
const {hexOf, sidBytes} = await import(new URL("web/library.mjs", TOP).href);
const {edits = [], pairs = [], domain = ""} = JSON.parse(fs.readFileSync(0, "utf8"));

const option = domain ? {domain: sidBytes(library, domain)} : {};
const readOf = (text) => library.fromSddl(text, option);
const partsOf = (text, isStandIn) => forCommand(library, readOf(text), {isStandIn, option});

process.stdout.write(JSON.stringify({
    commands: edits.map(({kind, name, before, after, isStandIn = false}) =>
                            commandsFor(kind, name, partsOf(before, isStandIn), partsOf(after, isStandIn))),
    same: pairs.map(([one, other]) => hexOf(readOf(one)) === hexOf(readOf(other)))
}));
