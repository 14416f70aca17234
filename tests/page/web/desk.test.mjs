// The desk: one question at a time, a limit of time, and a new worker for one that is too slow or breaks.
import assert from "node:assert/strict";
import {test} from "node:test";

import {Desk, FileDesk, SECONDS_TO_ANSWER, TooSlow} from "../../../web/worker.mjs";

const SECONDS = 0.05;
const pause = (milliseconds) => new Promise((resolve) => setTimeout(resolve, milliseconds));

// A desk over ends that this test plays: each notes what it is asked, and answers as ACT says.
function deskOf(act, start = null) {
    const ends = [];
    const desk = new Desk(async () => {
        await start?.(ends.length);
        const end = {asked: [], isOver: false, terminate: () => { end.isOver = true; }};
        end.postMessage = (message) => {
            end.asked.push(message.about);
            act(end, message, (data) => end.onmessage({data: {id: message.id, ...data}}));
        };
        ends.push(end);
        return end;
    }, SECONDS);
    return {desk, ends};
}

test("the limit of a question is two seconds", () => assert.equal(SECONDS_TO_ANSWER, 2));

test("answers come in order, and of each kind only the newest waits", async () => {
    const {desk, ends} = deskOf((_, {about}, tell) => setTimeout(() => tell({value: `to ${about}`})));
    const all = [desk.ask("look", 1), desk.ask("look", 2), desk.ask("look", 3), desk.ask("why", 4)];
    assert.deepEqual(await Promise.all(all), ["to 1", null, "to 3", "to 4"]);
    assert.deepEqual(ends.map(({asked, isOver}) => [asked, isOver]), [[[1, 3, 4], false]]);
});

test("a question without an end is stopped, and a new worker answers the next ones", async () => {
    const {desk, ends} = deskOf((_, {about}, tell) => about !== "endless" && setTimeout(() => tell({value: about})));
    const slow = desk.ask("look", "endless").catch((error) => error);
    const next = desk.ask("compare", "short");
    assert.ok(await slow instanceof TooSlow);
    assert.equal(await next, "short");
    assert.equal(await desk.ask("look", "shorter"), "shorter");
    assert.deepEqual(
        ends.map(({asked, isOver}) => [asked, isOver]), [[["endless"], true], [["short", "shorter"], false]]);
});

test("a newer text is answered as soon as the older one is stopped", async () => {
    const {desk} = deskOf((_, {about}, tell) => about !== "endless" && tell({value: about}));
    const told = [];
    const note = (answer) => told.push(answer instanceof Error ? answer.constructor.name : answer);
    await Promise.all(
        ["endless", "D:(", "D:"].map((about) => desk.ask("look", about).catch((error) => error).then(note)));
    assert.deepEqual(told, [null, "TooSlow", "D:"]);
});

test("what a worker says that was ended is not heard", async () => {
    const {desk, ends} =
        deskOf((end, {about}, tell) => about === "late" ? setTimeout(() => tell({value: "late"}), 3000 * SECONDS) :
                                                          setTimeout(() => tell({value: about}), 400 * SECONDS));
    await assert.rejects(desk.ask("look", "late"), TooSlow);
    const answers = [];
    for (let round = 0; round < 8; round += 1) {
        answers.push(await desk.ask("look", round));
    }
    assert.deepEqual(answers, [0, 1, 2, 3, 4, 5, 6, 7]);
    assert.equal(ends.length, 2);
});

test("a worker that breaks is ended, with its question or without one", async () => {
    const {desk, ends} = deskOf((end, {about}, tell) => about === "break" ? end.onerror({message: "out of memory"}) :
            about === "garble"                                            ? end.onmessageerror({}) :
                                                                            tell({value: about}));
    await assert.rejects(desk.ask("look", "break"), /out of memory/);
    await assert.rejects(desk.ask("look", "garble"), /can't be understood/);
    assert.equal(await desk.ask("look", "well"), "well");
    ends.at(-1).onerror({message: "later"});
    assert.equal(await desk.ask("look", "again"), "again");
    assert.deepEqual(ends.map(({isOver}) => isOver), [true, true, true, false]);
});

test("a worker that does not start refuses the question, and the next one tries again", async () => {
    const {desk} = deskOf((_, {about}, tell) => tell({value: about}), async (number) => {
        starts += 1;
        if (starts === 1) {
            throw new Error("refused");
        }
    });
    let starts = 0;
    await assert.rejects(desk.ask("look", 1), /refused/);
    assert.equal(await desk.ask("look", 2), 2);
});

test("an error of a question is its own", async () => {
    const {desk, ends} = deskOf((_, __, tell) => tell({error: "RangeError: x"}));
    await assert.rejects(desk.ask("look", 1), /RangeError: x/);
    await pause(2000 * SECONDS);
    assert.equal(ends[0].isOver, false);
});

test("a file whose worker breaks is told to have failed, also after it was to stop", async () => {
    const workers = [];
    globalThis.Worker = class {
        constructor() {
            workers.push(this);
            this.isOver = false;
        }
        addEventListener() {}
        terminate() { this.isOver = true; }
        postMessage({bytes}) { bytes && queueMicrotask(() => this.onmessage({data: {kind: "ready"}})); }
    };
    const files = new FileDesk("", new Uint8Array(1), true);
    const heard = [];
    for (const isStopped of [false, true]) {
        await files.answerFile({file: {}}, ({kind}) => heard.push(kind));
        isStopped && files.stop();
        workers.at(-1).onerror({message: "broke"});
    }
    assert.deepEqual([heard, workers.map(({isOver}) => isOver)], [["failed", "failed"], [true, true]]);
    delete globalThis.Worker;
});
