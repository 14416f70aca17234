// Asks the page which kind of object texts tell of, and which kinds have the rights of ACEs, and prints the answers.
// It reads lists of texts and of lists of ACEs as JSON.
import fs from "node:fs";

const {kindByRights, kindIn, kindsOf} = await import(new URL("../../web/kinds.mjs", import.meta.url).href);
const {texts, lists} = JSON.parse(fs.readFileSync(0, "utf8"));
process.stdout.write(JSON.stringify({
    kinds: texts.map(kindIn),
    rights: lists.map((aces) => [kindByRights(aces), kindsOf(aces)]),
}));
