// The state of an edit: steps that are done, undone and done again, those that wait, and where an object inherits from.
import assert from "node:assert/strict";
import {test} from "node:test";

import {aboveOf, Editing} from "../../../web/editing.mjs";
import {sidNamed} from "../../../web/naming.mjs";

const bytes = (...all) => Uint8Array.from(all);
const edited = (...steps) => {
    const editing = new Editing();
    editing.begin(["D:", "auto", 0, ""]);
    steps.forEach((step, at) => {
        editing.add(step);
        editing.take({made: [{descriptor: bytes(at)}]});
    });
    return editing;
};

test("undo and redo give the same bytes, and a new step forgets what was undone", () => {
    const editing = edited("one", "two");
    const {now} = editing;
    assert.equal(editing.undo(), true);
    assert.deepEqual([editing.now, editing.last], [bytes(0), "one"]);
    assert.equal(editing.redo(), true);
    assert.equal(editing.now, now);
    assert.deepEqual([editing.undo(), editing.undo(), editing.undo()], [true, true, false]);
    assert.deepEqual([editing.now, editing.last], [null, null]);
    assert.equal(editing.undone.length, 2);
    editing.add("three");
    editing.take({made: [{descriptor: bytes(3)}]});
    assert.deepEqual([editing.now, editing.undone, editing.redo()], [bytes(3), [], false]);
});

test("steps wait for one answer, which may refuse the last of them", () => {
    const editing = edited("one");
    ["two", "three", "four"].forEach((step) => editing.add(step));
    assert.equal(editing.undo(), true);
    assert.deepEqual([editing.waiting, editing.undone], [["two", "three"], []]);
    editing.take({made: [{descriptor: bytes(2)}], refused: {}});
    assert.deepEqual([editing.now, editing.last, editing.waiting], [bytes(2), "two", []]);
    editing.add("five");
    editing.take({error: new Error("too slow")});
    assert.deepEqual([editing.now, editing.waiting], [bytes(2), []]);
});

test("what gives ACEs other numbers is known while it waits", () => {
    const all = ["take", "put", "move", "sort", "stop", "replace", "owner", "group", "inherit", "list"];
    const isRenumbering = all.filter((does) => {
        const editing = edited("one");
        editing.add({does});
        return editing.isRenumbering;
    });
    assert.deepEqual(isRenumbering, ["take", "put", "move", "sort", "stop"]);
    assert.equal(edited({does: "take"}).isRenumbering, false);
});

test("another text, form, number or domain begins anew, and the same ones go on", () => {
    const editing = edited("one");
    editing.begin(["D:", "auto", 0, ""]);
    assert.equal(editing.done.length, 1);
    for (const about of [["D:P", "auto", 0, ""], ["D:P", "sddl", 0, ""], ["D:P", "sddl", 1, ""],
             ["D:P", "sddl", 1, "S-1-5-21-1-2-3"]]) {
        editing.begin(about);
        assert.equal(editing.done.length, 0);
        editing.add("step");
        editing.take({made: [{descriptor: bytes(0)}]});
    }
});

test("the name of what an object inherits from", () => {
    const names = [
        ["D:\\Data\\Projects", "folder", "D:\\Data"], ["D:\\Data", "folder", "D:\\"], ["D:\\", "folder", ""],
        ["D:\\Data\\Projects\\", "folder", "D:\\Data"], ["\\\\srv\\share\\a", "folder", "\\\\srv\\share"],
        ["/srv/data/a b", "file", "/srv/data"], ["HKLM:\\SOFTWARE\\X", "key", "HKLM:\\SOFTWARE"], ["", "folder", ""],
        ["X", "key", ""], ["CN=Ann,OU=Staff,DC=x", "ds", "OU=Staff,DC=x"],
        ["CN=Doe\\, Ann, OU=Staff,DC=x", "ds", "OU=Staff,DC=x"], ["DC=x", "ds", ""], ["", "ds", ""]
    ];
    assert.deepEqual(names.map(([name, kind]) => aboveOf(name, kind)), names.map(([, , above]) => above));
});

test("a name stands for its SID if it is that of one alone", () => {
    const names = new Map([
        ["S-1-5-21-1-2-3-1105", "Ann"], ["S-1-5-21-1-2-3-1106", "Twice"], ["S-1-5-21-1-2-3-1107", "twice"],
        ["S-1-5-21-1-2-3-1108", "BA"], ["S-1-5-21-1-2-3-1109", "Everyone"], ["S-1-5-32-545", "Our people"],
        ["S-1-5-21-1-2-3-1110", "\u05d0\u05d1"]
    ]);
    const texts = [
        "ann", " Ann ", "Twice", "BA", "Everyone", "Users", "our People", "S-1-1-0", "Somebody", "", "Local System",
        "\u05d0\u05d1"
    ];
    assert.deepEqual(texts.map((text) => sidNamed(text, names)), [
        "S-1-5-21-1-2-3-1105", "S-1-5-21-1-2-3-1105", "Twice", "BA", "Everyone", "S-1-5-32-545", "S-1-5-32-545",
        "S-1-1-0", "Somebody", "", "S-1-5-18", "S-1-5-21-1-2-3-1110"
    ]);
});
