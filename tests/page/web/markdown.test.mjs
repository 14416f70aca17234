// A view as Markdown: nothing of a name is markup, a link, the end of a cell or another line.
import assert from "node:assert/strict";
import {test} from "node:test";

import {markdownOf} from "../../../web/markdown.mjs";
import {randomOf} from "./hostile.mjs";

const NAMES = 2000;
const SIDS = ["S-1-5-21-1-2-3-1101", "S-1-5-21-1-2-3-1102"];
const PIECES = [
    ..."|`<>*_~[]()#!\\&@$\"'{}+-=.: \n\r\t\0/", "\n\n", "\n# x", "\n| a | b |", "```", "<b>", "</table>", "<!--",
    "&lt;", "![x](http://x)", "[x]: y", "https://x.example", "www.x.example", "a@b.c", "\u2028", "\u0085", "\u202e",
    "\\|", "\\\\", "x", "7", "é", "    ", "- ", "1. ", "> ", "---"
];

function resultOf(name) {
    const row = (sid, number) => ({
        sid,
        alias: null,
        isOwner: false,
        numbers: [number],
        token: [sid],
        granted: 0x1301bf,
        byRule: 0,
        denied: 0,
        reasons: Array.from({length: 32}, () => `ace ${number}`).join(),
        typed: []
    });
    const ace = (sid, number) => JSON.stringify({
        list: "dacl",
        number,
        kind: "A",
        flags: [],
        mask: 0x1301bf,
        meaning: 0x1301bf,
        object: null,
        inherited: null,
        sid,
        alias: null,
        text: `(A;;0x1301bf;;;${sid})`
    });
    return {
        kind: "folder",
        entry: {name},
        judged: {
            verdict: "named",
            key: "changers",
            kind: "folder",
            who: SIDS,
            numbers: [1, 2],
            granted: 0x1301bf,
            mask: 0x10116,
            reach: "here",
            trusted: ["S-1-5-18"]
        },
        model: {dacl: {aces: SIDS.map((sid, at) => ace(sid, at + 1)).join("\n")}, sacl: {aces: ""}},
        grid: {rights: 0x1f01ff, rows: SIDS.map((sid, at) => row(sid, at + 1)), isList: true},
        warnings: JSON.stringify({key: "lateDeny", level: "note", numbers: [1], who: SIDS[0]})
    };
}

// What a reader sees of a text of Markdown without any markup: its characters, of which a backslash hides the next
// one's meaning. Any that has one is an error.
function readOf(text) {
    assert.doesNotMatch(text.replace(/\\[^A-Za-z0-9\s]/g, ""), /[\\`*_{}[\]<>#!|~&@$]|:\/\/|www\./, text);
    return text.replace(/\\([^A-Za-z0-9\s])/g, "$1");
}

// The cells of a row. A backslash hides the next character's meaning.
function cellsOf(line) {
    const cells = [""];
    for (const piece of line.match(/\\.|./gu)) {
        if (piece === "|") {
            cells.push("");
        } else {
            cells[cells.length - 1] += piece;
        }
    }
    return cells.slice(1, -1).map((cell) => cell.trim());
}

// Each name as the page spells it.
const spelled = (name) =>
    name.replace(/[\p{Cc}\p{Cf}\p{Zl}\p{Zp}]/gu, (one) => `\\u{${one.codePointAt(0).toString(16)}}`);

test("no hostile name is markup", () => {
    const random = randomOf(3);
    const plain = markdownOf(resultOf("x"), {kind: "folder", names: new Map(), isCommon: true}).split("\n");
    assert.deepEqual(plain.filter((line) => line.startsWith("## ")),
        ["## Rights at a glance", "## Permissions \\(DACL\\)", "## Look at this"]);
    for (let count = 0; count < NAMES; count += 1) {
        const name = `${Array.from({length: 1 + random(6)}, () => PIECES[random(PIECES.length)]).join("")}.`;
        const names = new Map(SIDS.map((sid) => [sid, spelled(name)]));
        const lines = markdownOf(resultOf(name), {kind: "folder", names, isCommon: true}).split("\n");
        assert.equal(lines.length, plain.length, JSON.stringify(name));
        const tables = lines.filter((line) => line.startsWith("|"));
        assert.deepEqual(tables.map((line) => cellsOf(line).length),
            plain.filter((line) => line.startsWith("|")).map((line) => cellsOf(line).length), JSON.stringify(name));
        const [verdict] = lines;
        const told = readOf(verdict.replace(/^\*\*Named:\*\* /, ""));
        assert.ok(told.startsWith(`${spelled(name)} and ${spelled(name)} can change this folder`), told);
        assert.ok(lines.some((line) => line.startsWith("Name: ") && readOf(line) === `Name: ${spelled(name)}`),
            JSON.stringify(name));
        const ofGrid = cellsOf(tables[2])[0];
        assert.equal(readOf(ofGrid), `${spelled(name)}, ${spelled(name)}`.trim());
        assert.ok(
            lines.some((line) => line.startsWith("- **Note** ") && readOf(line.slice(11)).includes(spelled(name))));
        assert.ok(cellsOf(tables.at(-1))[4] === "`(A;;0x1301bf;;;S-1-5-21-1-2-3-1102)`", tables.at(-1));
    }
});
