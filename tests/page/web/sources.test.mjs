// What the sources of the page must not have: a slow pattern, a look-up that finds what every object inherits, and code
// that goes to another page or connects to another browser.
import assert from "node:assert/strict";
import {readdirSync, readFileSync} from "node:fs";
import {test} from "node:test";

import {AROUND} from "../../../web/kinds.mjs";
import {isTooLong, measured, nameOf, PIECES} from "./hostile.mjs";

const FOLDER = new URL("../../../web/", import.meta.url);
const LENGTH = 20_000; // at which a pattern that looks again from each place needs seconds
const MOST = 150;      // milliseconds
const SOURCES = readdirSync(
    FOLDER).filter((name) => name.endsWith(".mjs"))
                    .map((file) => [file, readFileSync(new URL(file, FOLDER), "utf8").replace(/^\s*\/\/.*$/gm, "")]);
const PATTERN = /(?<=[=(,[:?&|!{};]\s*|return )\/(?![/*])((?:\\.|\[(?:\\.|[^\]\\\n])*\]|[^/\\\n[])+)\/([a-z]*)/g;

// Pieces of what a pattern looks for.
const ofPattern =
    ({source}) => [...new Set(source.replace(/\\[a-zA-Z]|\(\?<?[=!:]|[\^$*+?{}()[\]|\\]/g, " ").split(" "))].filter(
        (piece) => piece !== "" && piece.length < 40);

function slowest(pattern) {
    const own = ofPattern(pattern);
    const pairs = own.slice(0, 6).flatMap((one) => own.slice(0, 6).map((other) => one + other));
    let worst = {time: 0, text: ""};
    for (const unit of [...PIECES, ...own, ...pairs]) {
        const run = unit.repeat(Math.ceil(LENGTH / unit.length));
        for (const text
                 of [run, `${own[0] ?? ""}${run}\u2028`, `${own.join("")} ${run}x`, `${own.join(" ")}${run}\n!`]) {
            const time = measured(() => (pattern.global ? text.replace(pattern, "") : pattern.test(text)), MOST);
            worst = time > worst.time ? {time, text} : worst;
            if (isTooLong(time, MOST)) {
                return worst;
            }
        }
    }
    return worst;
}

test("no pattern is slow", () => {
    // windows.mjs has texts alone, of which the hints are patterns.
    const written = SOURCES.filter(([file]) => file !== "windows.mjs");
    const all = written.flatMap(([file, source]) => [...source.matchAll(PATTERN)].map(
                                    ([whole, text, flags]) => ({file, whole, pattern: new RegExp(text, flags)})));
    const hints = AROUND.flatMap(({patterns}) => patterns)
                      .map((pattern) => ({file: "hints.toml", whole: String(pattern), pattern}));
    assert.ok(all.length > 50 && hints.length > 25, `only ${all.length} patterns are found, and ${hints.length} hints`);
    const slow = [...all, ...hints]
                     .map(({file, whole, pattern}) => ({file, whole, ...slowest(pattern)}))
                     .filter(({time}) => isTooLong(time, MOST));
    assert.deepEqual(
        slow.map(({file, whole, time, text}) => `${file} ${whole}: ${time.toFixed(0)} ms for ${nameOf(text)}`), []);
    // The measure itself finds a slow one.
    assert.ok(slowest(/[\s,]+$/).time > MOST && slowest(/^a \S.*?\s*$/).time > MOST);
});

// Tables are objects with names, and are written in capitals or inside WORDS. What is looked up there by something that
// is no number of a list goes through valueIn. A list may be indexed.
const LIST = /const ([A-Z][A-Z_]+) =\s*(?:\[|Uint8Array\.from|Array\.from)/g;
const LOOKUP = /\b((?:WORDS|[A-Z][A-Z_]{2,})(?:\.\w+)*)\[(?!\d|")([^\]]*)\]|\}\[([^\]]*)\]/g;

function lookups(source) {
    const lists = [...source.matchAll(LIST)].map(([, name]) => name);
    return [...source.matchAll(LOOKUP)].filter(([, name]) => !lists.includes(name)).map(([whole]) => whole);
}

test("no table is looked up by a text without valueIn", () => {
    assert.deepEqual(
        lookups("const LIST = [1]; LIST[at]; KINDS[kind]; WORDS.names[sid]; const y = {a: 1}[z]; WORDS.a[0];"),
        ["KINDS[kind]", "WORDS.names[sid]", "}[z]"]);
    assert.deepEqual(SOURCES.flatMap(([file, source]) => lookups(source).map((one) => `${file}: ${one}`)), []);
});

const GOING = new RegExp(
    String.raw`\b(?:${
            [String.raw`window\.open|location\.(?:assign|replace|reload)|location\s*=|location\.href\s*=`,
                String
                    .raw`history\.(?:go|back|forward)|fetch|XMLHttpRequest|WebSocket|EventSource|sendBeacon|importScripts`,
                String.raw`innerHTML|outerHTML|insertAdjacentHTML|document\.write|eval|createContextualFragment`]
                .join("|")})\b`,
    "g");

test("no source goes anywhere, asks for anything or makes markup of a text", () => {
    assert.deepEqual(
        SOURCES.flatMap(([file, source]) => [...source.matchAll(GOING)].map(([one]) => `${file}: ${one}`)), []);
    const page = readFileSync(new URL("page.html", FOLDER), "utf8");
    assert.deepEqual([...page.matchAll(/\b(?:href|src|action)="([^"]*)"|<(form|iframe|object|embed|link|base)\b/g)].map(
                         ([one]) => one),
        ['href="#text"']);
    // The links of the sources: the answers that are saved.
    const links = SOURCES.flatMap(
        ([file, source]) => [...source.matchAll(/createElement\("a"\)|make\("(?:a|form|iframe|link|base)"/g)].map(
            ([one]) => `${file}: ${one}`));
    assert.deepEqual(links, ['lines_view.mjs: createElement("a")']);
});
