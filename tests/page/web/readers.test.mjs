// How long each reader of the page takes for hostile texts.
import assert from "node:assert/strict";
import {test} from "node:test";

import {Report} from "../../../web/report.mjs";
import {hostileTexts, isTooLong, measured, nameOf} from "./hostile.mjs";
import {READERS} from "./readers.mjs";

const TEXTS = 100;

test("each reader takes less than half a second for any text", async (context) => {
    for (const [name, read] of Object.entries(READERS)) {
        await context.test(name, () => {
            const slow =
                [...hostileTexts(TEXTS, name.length)].map((text) => [measured(() => read(text)), text]).filter(([
                    time
                ]) => isTooLong(time));
            assert.deepEqual(slow.map(([time, text]) => `${time.toFixed(0)} ms for ${nameOf(text)}`), []);
        });
    }
});

test("a report of hostile lines is read to its end", async () => {
    for (const text of hostileTexts(TEXTS, 1, 20_000)) {
        const report = new Report(`${JSON.stringify([text])}\n${text}\n{"summary":`);
        await report.read(() => {});
        assert.ok(!report.isWhole && report.damaged >= 2, nameOf(text));
    }
});
