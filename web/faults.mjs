// Where a fault is in the text that was given, as the page says and marks it: the library says the place. What spells
// no bytes has none, so there the first character that no such text has is marked, or the whole text.
import {bytesOfHex, hexOf, placeOfBytes} from "./library.mjs";
import {typeAt} from "./scanning.mjs";
import {valueIn} from "./tables.mjs";

// The page's words for fields of a text and of bytes, by the library's names.
const IN_TEXT = {
    kind: "kind",
    flags: "flags",
    rights: "rights",
    sid: "sid",
    "object type": "object",
    "inherited object type": "inherited"
};
const IN_BYTES = {
    kind: "type",
    flags: "aclFlags",
    size: "size",
    sid: "sid"
};
const OTHERS = {
    hex: /[^0-9a-f]/iu,
    base64: /[^A-Za-z0-9+/=]/u
};
const LAST_OF_SPELLING = 4; // the numbers of faults up to it are about how bytes are spelled
const [NO_SHAPE, TWICE, NO_KIND] = [20, 21, 29];

// What a place of a text without a field is.
function withoutField(number, part) {
    const outside = part === null ? "before" : "between";
    return number === NO_SHAPE ? outside : number === TWICE ? "letter" : null;
}

function inText(text, {number, place: {part, ace, field, offset, size}}) {
    const named = ace === null && field === "flags" ? "aclFlags" : valueIn(IN_TEXT, field ?? "");
    const hasKind = ace !== null && [NO_SHAPE, NO_KIND].includes(number);
    return {
        start: offset,
        end: offset + size,
        part,
        ...(ace === null ? {} : {ace: ace + 1}),
        ...(hasKind ? {kind: typeAt(text, text.lastIndexOf("(", offset - 1))} : {}),
        field: named ?? withoutField(number, part),
    };
}

// The same in bytes, in digits of their text in hex.
const inDigits = (bytes, {part, ace, field, offset, size}) => ({
    start: 2 * offset,
    end: 2 * (offset + size),
    part,
    ...(ace === null ? {} : {ace: ace + 1}),
    ...(field === "kind" ? {type: bytes[offset]} : {}),
    field: valueIn(IN_BYTES, field ?? "") ?? "bytes",
});

export const bytesOf = (form, text) =>
    (form === "hex" ? bytesOfHex(text) : Uint8Array.from(atob(text), (character) => character.charCodeAt(0)));

// The place of a fault: {text, start, end, part, field, ace}. TEXT is the line, or its bytes in hex.
export function placeOf(library, form, text, fault) {
    const whole = {text, start: 0, end: text.length, part: fault.part, field: null};
    if (form === "sddl") {
        return fault.place ? {...whole, ...inText(text, fault)} : whole;
    }
    if (fault.number <= LAST_OF_SPELLING) {
        const other = valueIn(OTHERS, form).exec(text);
        return other ? {...whole, start: other.index, end: other.index + other[0].length, field: "digits"} : whole;
    }
    const bytes = bytesOf(form, text), place = placeOfBytes(library, bytes);
    return {...whole, text: hexOf(bytes), end: 2 * bytes.length, ...(place && inDigits(bytes, place))};
}

// Where a range of a line is in the text that it was taken from, in which blanks and quotation marks may be between its
// characters; null if it isn't there.
export function rangeIn(text, {text: line, start, end}) {
    const at = text.indexOf(line);
    if (at >= 0) {
        return [at + start, at + end];
    }
    const kept = [...text.matchAll(/[^\s"\0]/g)].map(({index}) => index);
    const bare = (part) => part.replace(/[\s"\0]/g, "");
    const front = bare(text).indexOf(bare(line));
    if (front < 0) {
        return null;
    }
    const [first, last] = [start, end].map((place) => front + bare(line.slice(0, place)).length);
    const behind = (count) => (count > 0 ? kept[count - 1] + 1 : kept[0] ?? 0);
    return [last > first ? kept[first] : behind(first), behind(last)];
}
