// What a script brings to the page's modules: the library, sdtool.mjs beside its sdtool.wasm, which is its argument,
// and what it is asked, JSON of standard input. It prints JSON too.
import fs from "node:fs";
import {pathToFileURL} from "node:url";

const module = await import(pathToFileURL(process.argv[2]).href);
export const library = module.library ?? await module.load();
export const asked = JSON.parse(fs.readFileSync(0, "utf8"));

export function print(answers) {
    process.stdout.write(JSON.stringify(answers));
    module.end?.();
}
