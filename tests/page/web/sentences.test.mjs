// The first line: what a verdict says, and the verdict where the kind or a condition is open.
import assert from "node:assert/strict";
import {test} from "node:test";

import {reasonsOf, sentenceOf} from "../../../web/sentences.mjs";
import {verdictOfConditions, verdictOfKinds} from "../../../web/verdict.mjs";
import {KINDS, OF_A_DOMAIN, PLURAL, SIDS} from "../../../web/windows.mjs";
import {WORDS} from "../../../web/words.mjs";

const FULL = 0x1f01ff;
const EVERYONE = "S-1-1-0";
const ANN = "S-1-5-21-1-2-3-1105";
const finding = (who, more = {}) => ({
    verdict: "act",
    key: "finding",
    kind: "folder",
    who: [].concat(who),
    granted: FULL,
    mask: FULL,
    numbers: [1],
    reach: "here",
    ...more
});
const said = (judged, result = {}) => sentenceOf(judged, new Map(), result);

test("verbs follow the name: Everyone has, Users have", () => {
    const has = (sid) => said(finding(sid)).replace(/ full control.*/, "");
    assert.deepEqual([EVERYONE, "S-1-5-32-545", "S-1-5-7", "S-1-5-32-554", "S-1-5-21-1-2-3-513", ANN].map(has), [
        "Everyone has", "Users have", "Anonymous has", "Pre-Windows 2000 Compatible Access has", "Domain Users have",
        "Account 1105 has"
    ]);
    assert.equal(has([EVERYONE, ANN]), "Everyone and Account 1105 have");
    // A SID below a domain of its own is not that of each domain with this number.
    assert.equal(has("S-1-5-21-0-0-0-497"), "Claims Valid has");
    assert.equal(said(finding("S-1-5-32-547", {isOwner: true})).split(" this")[0], "Power Users own");
    const known = PLURAL.map((key) => SIDS[key] ?? OF_A_DOMAIN[key]);
    assert.ok(known.every((row) => row && /s$/.test(row[1])), "no name that is plural");
});

test("each kind of object has a sentence for each verdict", () => {
    for (const kind of Object.keys(KINDS)) {
        const all = KINDS[kind].mapping[3];
        for (const reach of ["here", "all", "below"]) {
            const one = said(finding(EVERYONE, {kind, granted: all, mask: all, reach}));
            assert.match(one, /^Everyone (?:has|can) [^{}]*$/, kind);
        }
        for (const who of [[], [ANN], [ANN, EVERYONE]]) {
            for (const trusted of [[], ["S-1-5-32-544", "S-1-5-18", "S-1-5-9"]]) {
                const judged = {verdict: "named", key: "changers", kind, who, trusted, granted: all, mask: all};
                assert.doesNotMatch(said({...judged, numbers: [1], reach: "here"}), /[{}]|undefined/, kind);
            }
        }
    }
});

test("of each text that is no descriptor the page says what prints one", () => {
    for (const other of Object.keys(WORDS.verdict.texts)) {
        const judged = {verdict: "unknown", key: "none"};
        assert.doesNotMatch(said(judged, {other}), /[{}]|undefined/);
        const where = other === "posix" ? /Samba: samba-tool / : /PowerShell: (?!samba-tool )\S/;
        assert.match(reasonsOf(judged, new Map(), {other}).join(" "), where);
    }
});

test("kinds that agree have a verdict, and others say whom it depends on", () => {
    const model = {dacl: {aces: [{sid: EVERYONE, kind: "A", mask: FULL, flags: []}]}};
    const same = verdictOfKinds(model, ["folder", "share"], (kind) => finding(EVERYONE, {kind}));
    assert.deepEqual([same.verdict, said(same)], ["act", "Everyone has full control"]);
    const differ = verdictOfKinds(model, ["folder", "key"],
        (kind) =>
            (kind === "key" ? {verdict: "fine", key: "changers", kind, who: [], trusted: []} : finding(ANN, {kind})));
    assert.deepEqual(
        [differ.verdict, said(differ)], ["unknown", "Depends on what this is: Account 1105 may be able to change it"]);
});

test("what is said below the sentence of an open kind holds for each kind that fits", () => {
    const model = {dacl: {aces: [{sid: EVERYONE, kind: "A", mask: FULL, flags: []}]}};
    const denied = (number) => ({who: "S-1-5-32-545", mask: 1, number});
    const told = {
        folder: finding(EVERYONE, {denied: [denied(1), denied(2)], excused: ["S-1-5-4", ANN], reader: ANN, more: 2}),
        key: finding(EVERYONE, {denied: [denied(2)], excused: ["S-1-5-4"], reader: null, numbers: [3]})
    };
    const words = (kinds) =>
        reasonsOf(verdictOfKinds(model, kinds, (kind) => ({...told[kind], kind})), new Map(), {}).join(" ");
    const group = "That is everybody, also without logging on.";
    assert.equal(words(["folder", "key"]),
        `${group} Except that ACE 2 denies Users some of it. Interactive has what Windows itself gives.`);
    assert.equal(words(["folder"]),
        `${group} By ACE 1. Except that ACE 1 denies Users some of it. Except that ACE 2 denies Users some of it. ` +
            "Account 1105 can read it. Interactive and Account 1105 have what Windows itself gives.");
});

test("a condition counts where the verdict hangs on it", () => {
    const ace = {kind: "A", sid: EVERYONE, meaning: 0x1200a9};
    const [run, none] = [finding(EVERYONE), {verdict: "fine", key: "changers", kind: "folder", who: [], trusted: []}];
    assert.deepEqual(verdictOfConditions(run, run, [1], ace).verdict, "act");
    const open = verdictOfConditions(run, none, [2], ace);
    assert.equal(open.verdict, "unknown");
    assert.match(said(open), /^Depends on the condition of ACE 2: if it holds, Everyone can /);
});

test("what is said of conditions holds in either case", () => {
    const ace = {kind: "A", sid: EVERYONE, meaning: FULL, number: 1};
    const [most, least] = [
        finding(EVERYONE, {reader: ANN, excused: [ANN, "S-1-5-4"], denied: [{who: ANN, mask: 1, number: 1}], more: 2}),
        finding(EVERYONE, {granted: 0x1301bf, mask: 0x10116, numbers: [2], reader: null, excused: ["S-1-5-4"]})
    ];
    const judged = verdictOfConditions(most, least, [1], ace);
    assert.deepEqual([judged.verdict, said(judged)], ["act", "Everyone can modify this folder"]);
    assert.equal(reasonsOf(judged, new Map(), {}).join(" "),
        "That is everybody, also without logging on. By ACE 2. " +
            "ACE 1 has a condition: this is so whether it holds or not. Interactive has what Windows itself gives.");
    const none = {verdict: "fine", key: "changers", kind: "folder", who: [], trusted: []};
    const open = verdictOfConditions(most, none, [1], ace);
    assert.deepEqual([said(open), reasonsOf(open, new Map(), {})],
        ["Depends on the condition of ACE 1: if it holds, Everyone has full control of this folder", []]);
    const several = verdictOfConditions(most, none, [1, 4], ace);
    assert.deepEqual([said(several), reasonsOf(several, new Map(), {})],
        ["Depends on the conditions of ACEs 1, 4. At worst: Everyone has full control of this folder", []]);
});

test("conditions of an object whose kind is open", () => {
    const ace = {kind: "A", sid: EVERYONE, meaning: 2, number: 1};
    const fine = {verdict: "fine", key: "changers", kind: "", who: [], trusted: [], does: "change"};
    const open = {verdict: "unknown", key: "kind", kind: "", who: [ANN]};
    assert.equal(said(verdictOfConditions(open, fine, [1], ace)),
        "Depends on what this is: Account 1105 may be able to change it");
    const all = finding(EVERYONE, {kind: "", does: "full", numbers: []});
    assert.equal(said(verdictOfConditions(all, open, [1], ace)),
        "Depends on the condition of ACE 1: if it holds, Everyone has full control");
});
