// Reads texts of any length, character by character. What a pattern would look at again and again, or would need more
// memory for than a browser has for one search, is read here once.
import {valueIn} from "./tables.mjs";

const [TAB, CR, SPACE, QUOTE, COMMA, BACKSLASH, ZERO, NINE, LOWER] =
    [..."\t\r \",\\09 "].map((character) => character.charCodeAt(0));
const LAST_ASCII = 0x7f;
const MOST_DIGITS = 3; // of a byte in decimal

const isBlankCode = (code) =>
    code === SPACE || (code >= TAB && code <= CR) || (code > LAST_ASCII && String.fromCharCode(code).trim() === "");

const isDigit = (code) => code >= ZERO && code <= NINE;

const isHex = (code) => isDigit(code) || ((code | LOWER) >= 0x61 && (code | LOWER) <= 0x66);

// A text without the characters at its ends that two tests take.
export function between(text, isAtStart, isAtEnd) {
    let [start, end] = [0, text.length];
    while (start < end && isAtStart(text[start])) {
        start += 1;
    }
    while (end > start && isAtEnd(text[end - 1])) {
        end -= 1;
    }
    return text.slice(start, end);
}

// Where the first character behind a place is that is no blank.
export function afterBlanks(text, from) {
    let at = from;
    while (at < text.length && isBlankCode(text.charCodeAt(at))) {
        at += 1;
    }
    return at;
}

// Where the digits of a value of a .reg file end: pairs of hex digits, commas, blanks, and line ends behind a
// backslash.
export function endOfPairs(text, from) {
    for (let at = from;;) {
        const code = text.charCodeAt(at); // NaN behind the end
        if (isHex(code) && isHex(text.charCodeAt(at + 1))) {
            at += 2;
        } else if (code === COMMA || isBlankCode(code)) {
            at += 1;
        } else if (code === BACKSLASH) {
            const end = text.slice(at + 1, afterBlanks(text, at + 1)).lastIndexOf("\n");
            if (end < 0) {
                return at;
            }
            at += end + 2;
        } else {
            return at;
        }
    }
}

// Where hex digits end.
export function endOfHex(text, from) {
    let at = from;
    while (isHex(text.charCodeAt(at))) {
        at += 1;
    }
    return at;
}

// Where a quoted field ends: in it a quotation mark is doubled, and the first single one ends it.
export function endOfQuoted(text, from) {
    let at = text.indexOf("\"", from);
    while (at >= 0 && text.charCodeAt(at + 1) === QUOTE) {
        at = text.indexOf("\"", at + 2);
    }
    return at < 0 ? text.length : at;
}

// Where a text of JSON ends, behind its quotation mark.
export function endOfJson(text, from) {
    let at = from;
    while (at < text.length && text.charCodeAt(at) !== QUOTE) {
        at += text.charCodeAt(at) === BACKSLASH ? 2 : 1;
    }
    return at + 1;
}

// A text of ASCII without blanks and some other characters; one that has other characters is given back.
export function without(text, others) {
    if (text === "") {
        return text;
    }
    const left = new Uint8Array(text.length);
    let length = 0;
    for (let at = 0; at < text.length; at += 1) {
        const code = text.charCodeAt(at);
        if (isBlankCode(code) || (code <= LAST_ASCII && others.includes(text[at]))) {
            continue;
        }
        if (code > LAST_ASCII) {
            return text;
        }
        left[length] = code;
        length += 1;
    }
    return length === text.length ? text : new TextDecoder().decode(left.subarray(0, length));
}

// The bytes that a text has as decimal numbers between blanks and commas, or null if it has anything else.
export function decimalBytes(text) {
    const bytes = new Uint8Array((text.length >>> 1) + 1);
    let [length, digits, number] = [0, 0, 0];
    for (let at = 0; at <= text.length; at += 1) {
        const code = at < text.length ? text.charCodeAt(at) : SPACE;
        if (isDigit(code)) {
            number = 10 * number + code - ZERO;
            digits += 1;
        } else if (code !== COMMA && !isBlankCode(code)) {
            return null;
        } else if (digits > 0) {
            bytes[length] = number;
            length += 1;
        }
        if (digits > MOST_DIGITS || number > 0xff) {
            return null;
        }
        [digits, number] = isDigit(code) ? [digits, number] : [0, 0];
    }
    return bytes.subarray(0, length);
}

const PARTS = {
    O: "owner",
    G: "group",
    D: "dacl",
    S: "sacl"
};
const MOST_TYPE = 20; // characters in which the type of an ACE ends

// The type of the ACE that begins at a place, as it is written.
export const typeAt = (text, start) =>
    text.slice(start + 1, start + MOST_TYPE).split(")", 1)[0].split(";", 1)[0].trim().toUpperCase();

// The ACEs of a text that is refused, as they are written, so that a reader sees what the refusal is about. Nothing is
// said of what they grant. An ACE has the parentheses inside it, and ends with the text where one of its own is
// missing.
export function writtenAces(text) {
    const aces = [];
    let [part, number, depth, start, isQuoted] = [null, 0, 0, 0, false];
    const add = (end) => {
        number += 1;
        aces.push({part, number, text: text.slice(start, end), kind: typeAt(text, start)});
    };
    for (let at = 0; at < text.length; at += 1) {
        const character = text[at];
        if (character === ":" && depth === 0 && at > 0) {
            [part, number] = [valueIn(PARTS, text[at - 1].toUpperCase()), 0];
        } else if (character === "\"" && depth > 1) {
            isQuoted = !isQuoted;
        } else if (character === "(" && !isQuoted) {
            depth += 1;
            start = depth === 1 ? at : start;
        } else if (character === ")" && !isQuoted && depth > 0) {
            depth -= 1;
            if (depth === 0) {
                add(at + 1);
            }
        }
    }
    if (depth > 0) {
        add(text.length);
    }
    return aces.filter((ace) => ace.part === "dacl" || ace.part === "sacl");
}
