// Reads a list of texts from standard input, and prints what the page finds in each: names, forms, descriptors, and the
// kind.
import {readFileSync} from "node:fs";
import {descriptorsIn} from "../../web/clipboard.mjs";
import {kindIn} from "../../web/kinds.mjs";

const texts = JSON.parse(readFileSync(0, "utf8"));
const found = texts.map((text) => ({
    kind: kindIn(text),
    descriptors: descriptorsIn(text, "auto").map(({name, form, line}) => ({name, form, line})),
}));
process.stdout.write(JSON.stringify(found));
