// translating.mjs FOLDER
//
// Makes a copy of the sources of the page with German words.
import {cpSync, renameSync, writeFileSync} from "node:fs";
import {join} from "node:path";

const TOP = new URL("../../../", import.meta.url);
const WORDS = `import {commaed, formatted, say, WORDS as ENGLISH} from "./english.mjs";
import {translated} from "./german.mjs";
export {commaed, formatted, say};
export const WORDS = translated(ENGLISH);
`;

export function copyTo(folder) {
    for (const part of ["web", "javascript"]) {
        cpSync(new URL(part, TOP), join(folder, part), {recursive: true});
    }
    renameSync(join(folder, "web/words.mjs"), join(folder, "web/english.mjs"));
    cpSync(new URL("german.mjs", import.meta.url), join(folder, "web/german.mjs"));
    writeFileSync(join(folder, "web/words.mjs"), WORDS);
}

if (process.argv[2]) {
    copyTo(process.argv[2]);
}
