// The words of the page can be those of another language: sentences in German, and nothing that stays English.
import assert from "node:assert/strict";
import {mkdtempSync, rmSync} from "node:fs";
import {tmpdir} from "node:os";
import {join} from "node:path";
import {after, test} from "node:test";
import {pathToFileURL} from "node:url";

import {WORDS} from "../../../web/words.mjs";
import {GERMAN, translated} from "./german.mjs";
import {copyTo} from "./translating.mjs";

const folder = mkdtempSync(join(tmpdir(), "german-"));
after(() => rmSync(folder, {recursive: true}));
copyTo(folder);
const {reasonsOf, sentenceOf} = await import(pathToFileURL(join(folder, "web/sentences.mjs")).href);

const [USERS, EVERYONE, ANN] = ["S-1-5-32-545", "S-1-1-0", "S-1-5-21-1-2-3-1105"];
const finding = {
    verdict: "act",
    key: "finding",
    kind: "folder",
    granted: 0x1301bf,
    mask: 0x2,
    numbers: [3],
    reach: "all"
};
const changers = {
    verdict: "named",
    key: "changers",
    kind: "folder",
    numbers: [1],
    reach: "here",
    granted: 0x1f01ff,
    mask: 0xc0000,
    trusted: ["S-1-5-32-544", "S-1-5-18"]
};
const SENTENCES = [
    [{...finding, who: [USERS]}, "Users dürfen diesen Ordner und alles darin ändern"],
    [{...finding, who: [EVERYONE]}, "Everyone darf diesen Ordner und alles darin ändern"],
    [{...finding, who: [EVERYONE], granted: 0x1f01ff}, "Everyone hat Vollzugriff auf diesen Ordner und alles darin"],
    [
        {...finding, who: [USERS], mask: 0x2, granted: 0x2, reach: "all"},
        "Users dürfen hier und in allem darin Dateien anlegen"
    ],
    [
        {...finding, who: [ANN], rule: "foreign-owner", reach: "here"},
        "Konto 1105 besitzt diesen Ordner und darf darum die Berechtigungen dafür ändern"
    ],
    [{...changers, who: []}, "Nur Administratoren und das System können diesen Ordner ändern"],
    [{...changers, who: [ANN]}, "Konto 1105 hat Vollzugriff auf diesen Ordner, ebenso Administratoren und das System"],
    [{...changers, who: [], trusted: []}, "Niemand kann diesen Ordner ändern"],
    [
        {verdict: "unknown", key: "kind", who: [ANN]},
        "Kommt darauf an, was das ist: Konto 1105 kann es vielleicht ändern"
    ],
    [
        {
            ...finding,
            verdict: "unknown",
            key: "condition",
            who: [EVERYONE],
            reach: "here",
            granted: 0x1200a9,
            mask: 0x1200a9,
            numbers: [2]
        },
        "Kommt auf die Bedingung von ACE 2 an. Trifft sie zu: Everyone darf diesen Ordner lesen"
    ],
];

test("the first line is German", () => {
    for (const [judged, sentence] of SENTENCES) {
        assert.equal(sentenceOf(judged, new Map(), {}), sentence);
    }
    assert.deepEqual(reasonsOf({...finding, who: [EVERYONE], more: 2, denied: []}, new Map(), {}),
        ["Das ist jeder, auch ohne Anmeldung.", "Durch ACE 3.", "2 weitere Befunde unten."]);
});

test("each text of a language has the places of the English one", () => {
    const VERBS = ["{can}", "{has}", "{owns}"];
    const placesOf = (text) => (text.match(/\{\w+\}/g) ?? []).filter((place) => !VERBS.includes(place)).sort();
    const compare = (one, other, place) =>
        (typeof one === "string" ? assert.deepEqual(placesOf(other), placesOf(one), `${place}: ${other}`) :
                                   typeof one === "object" &&
                    Object.keys(one).forEach((key) => compare(one[key], other[key], `${place}.${key}`)));
    compare(WORDS, translated(WORDS), "");
    const known = new Set();
    JSON.stringify(WORDS, (_, value) => (typeof value === "string" ? known.add(value) && value : value));
    const stale = Object.keys(GERMAN).filter((text) => !known.has(text) && !/^verdict\.[a-z.]+$/.test(text));
    assert.deepEqual(stale, []);
});
