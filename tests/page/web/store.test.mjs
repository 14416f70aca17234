// The state of the page: what a text brings with it and what it leaves, and what an address sets.
import assert from "node:assert/strict";
import {test} from "node:test";

import {addressOf} from "../../../web/address.mjs";
import {whyNoCommand} from "../../../web/command.mjs";
import {tabBehind} from "../../../web/keyboard.mjs";
import {freshState} from "../../../web/state.mjs";
import {Store} from "../../../web/store.mjs";
import {WORDS} from "../../../web/words.mjs";

const opened = (...given) => {
    const store = new Store("look");
    store.begin("");
    store.open(...given);
    return store;
};

test("a form that came with a text is none of the next one", () => {
    const store = opened("0100", "hex", null, {classes: "user", name: "CN=x"});
    assert.deepEqual([store.state.form, store.state.classes, store.state.name], ["hex", "user", "CN=x"]);
    store.type("D:");
    assert.deepEqual([store.state.form, store.state.classes, store.state.name], ["auto", "", ""]);
    store.set("form", "sddl");
    store.type("D:P");
    assert.equal(store.state.form, "sddl");
});

test("a kind that came with a text is forgotten, and one from the list stays until all is cleared", () => {
    const store = opened("D:", "auto", "key");
    assert.deepEqual([store.state.kind, store.state.isKindChosen], ["key", true]);
    store.type("D:P");
    store.forgetKind();
    assert.deepEqual([store.state.kind, store.state.isKindChosen], ["folder", false]);
    store.set("kind", "service");
    store.type("D:AI");
    store.open("D:PAI");
    store.forgetKind();
    assert.deepEqual([store.state.kind, store.state.isKindChosen], ["service", true]);
    store.open("");
    assert.equal(store.state.isKindChosen, false);
    store.set("kind", "service");
    store.set("kind", "");
    assert.deepEqual([store.state.kind, store.state.isKindChosen], ["folder", false]);
});

test("another text is read from its first descriptor on", () => {
    const store = opened("D:\nD:P");
    Object.assign(store.state, {chosen: 1, all: true});
    store.type("D:\nD:P\n");
    assert.deepEqual([store.state.chosen, store.state.all], [0, false]);
});

test("an address sets all that it can, and keeps what is in none", () => {
    const store = new Store("report");
    store.begin("");
    Object.assign(store.state, {text: "D:", names: "S-1-1-0 All", view: "ask"});
    store.state.lines.command = "check";
    assert.deepEqual(store.begin("d=D:P&kind=key&x=1&d=twice"), ["x=1", "d=twice"]);
    const {text, kind, isKindChosen, names, lines, view} = store.state;
    assert.deepEqual(
        [text, kind, isKindChosen, names, lines.command, view], ["D:P", "key", true, "S-1-1-0 All", "check", "report"]);
    assert.equal(store.hasFormOfText && store.hasKindOfText, true);
    assert.deepEqual(store.begin(addressOf({...freshState(), text: "D:AI"}, freshState())), []);
    assert.deepEqual([store.state.text, store.state.isKindChosen], ["D:AI", false]);
    const other = {text: "RDo=\nRDpQ", form: "base64", chosen: 1};
    assert.deepEqual(store.begin(addressOf({...freshState(), chosen: 2, other}, freshState())), []);
    assert.deepEqual([store.state.chosen, store.state.other], [2, other]);
});

test("names are the user's own before those of a report", () => {
    const store = opened("D:");
    store.takeNamesOfReport([["S-1-5-21-1-2-3-1001", "Ann"], ["S-1-5-21-1-2-3-1002", "Bob"]]);
    store.set("names", "S-1-5-21-1-2-3-1002 Robert");
    assert.deepEqual(
        [...store.names], [["S-1-5-21-1-2-3-1001", "Ann (a name of the report)"], ["S-1-5-21-1-2-3-1002", "Robert"]]);
    assert.equal(store.names, store.names);
});

test("options are open where one applies", () => {
    const store = opened("D:");
    assert.equal(store.hasOptions, false);
    store.set("classes", "user");
    assert.equal(store.hasOptions, false);
    store.set("kind", "ds");
    assert.equal(store.hasOptions, true);
    store.set("classes", "");
    store.set("common", false);
    assert.equal(store.hasOptions, true);
});

test("keys lead from tab to tab", () => {
    const views = ["look", "ask", "lines"];
    const led =
        ["ArrowRight", "ArrowLeft", "Home", "End", "x", "constructor"].map((key) => tabBehind(key, views, "look"));
    assert.deepEqual(led, ["ask", "lines", "look", "lines", undefined, undefined]);
});

test("there is no command for what the page doesn't know", () => {
    assert.equal(whyNoCommand("look", false, {}), null);
    assert.equal(whyNoCommand("ask", false, {}), WORDS.kindAsked.rights);
    assert.equal(whyNoCommand("ask", true, {isLevelUnknown: true}), WORDS.ask.levelUnknown);
    assert.equal(whyNoCommand("inherit", true, {hasNoHeirs: true}), WORDS.inherit.noHeirs);
    // A token of which something was left out is another one.
    const listing = {why: "noGroups", text: ""};
    assert.equal(whyNoCommand("ask", true, {entries: [{text: "WD"}], listing}), WORDS.ask.listing.noGroups);
    const tokenFaults = [{text: "Ann", number: 25, faultName: "sid-form"}];
    assert.match(whyNoCommand("ask", true, {entries: [{text: "WD"}], tokenFaults}), /Ann \(error 25 sid-form\)/);
    for (const view of ["ask", "inherit", "compare", "edit"]) {
        const refused = {descriptorFault: {number: 25, faultName: "sid-form"}, other: "table", line: "00"};
        assert.match(whyNoCommand(view, false, refused), /\(error 25 sid-form\)$/, view);
    }
});
