// ACEs that the library refuses, in a text or in bytes, as if they were others: those with a condition as if it held or
// didn't, and those that give and take no right as if they did nothing. So what holds either way can be told.
import {placeOfBytes} from "./library.mjs";
import {writtenAces} from "./scanning.mjs";
import {valueIn} from "./tables.mjs";

const FIELDS = 6; // of an ACE, before its condition
const MOST = 100; // ACEs
const [INHERIT_ONLY, FLAGS_AT, MASK_AT, MASK_END] = [0x8, 1, 4, 8];
// The types of ACEs with a condition: what each is without it. And those that decide about no access.
const CONDITIONAL = {
    XA: "A",
    XD: "D",
    ZA: "OA"
};
const IDLE = ["XU", "RA"];
const CONDITIONAL_BYTES = {
    9: 0,
    10: 1,
    11: 5,
    12: 6
};
const IDLE_BYTES = {
    13: 2,
    15: 7
};
const DENYING = ["D", 1, 6];

// Whether an ACE with a condition counts: one that allows does in the most that there may be, one that denies in the
// least.
const counts = (meant, isMost) => DENYING.includes(meant) !== isMost;

function inText(line, isMost) {
    const numbers = [];
    let [changed, from] = ["", 0];
    for (const {part, number, kind, text} of writtenAces(line)) {
        const meant = valueIn(CONDITIONAL, kind);
        if (meant === undefined && !IDLE.includes(kind)) {
            continue;
        }
        const at = line.indexOf(text, from);
        const fields = text.slice(1).split(";", FIELDS);
        const rest = text.slice(fields.join(";").length + 2).trim();
        if (fields.length < FIELDS || !rest.startsWith("(") || !rest.endsWith("))")) {
            return null;
        }
        const isKept = meant !== undefined && counts(meant, isMost);
        const front = isKept ? [meant, ...fields.slice(1, FIELDS - 1)] : [meant ?? "AU", "IO", "0x0", "", ""];
        changed += `${line.slice(from, at)}(${front.join(";")};${fields[FIELDS - 1]})`;
        from = at + text.length;
        numbers.push(...(meant !== undefined && part === "dacl" ? [number] : []));
    }
    return from === 0 ? null : {line: changed + line.slice(from), numbers};
}

function inBytes(library, given, isMost) {
    const bytes = given.slice();
    const numbers = [];
    for (let count = 0; count < MOST; count += 1) {
        const place = placeOfBytes(library, bytes);
        if (!place) {
            return {bytes, numbers};
        }
        const type = place.field === "kind" ? bytes[place.offset] : -1;
        const meant = valueIn(CONDITIONAL_BYTES, type);
        const plain = meant ?? valueIn(IDLE_BYTES, type);
        if (plain === undefined) {
            return null;
        }
        bytes[place.offset] = plain;
        if (meant === undefined || !counts(meant, isMost)) {
            bytes[place.offset + FLAGS_AT] = INHERIT_ONLY;
            bytes.fill(0, place.offset + MASK_AT, place.offset + MASK_END);
        }
        numbers.push(...(meant !== undefined && place.part === "dacl" ? [place.ace + 1] : []));
    }
    return null;
}

/**
 * A descriptor with the most, or the least, that its conditions may let through, and the numbers of the ACEs that have
 * one: {descriptor, numbers}, or null if something else is refused too. OF_LINE reads a line.
 */
export function asIf(library, {form, line, bytes}, isMost, ofLine) {
    if (form === "sddl") {
        const changed = inText(line, isMost);
        return changed && {descriptor: ofLine(changed.line), numbers: changed.numbers};
    }
    const changed = bytes && inBytes(library, bytes, isMost);
    return changed && {descriptor: library.normalize(changed.bytes), numbers: changed.numbers};
}
