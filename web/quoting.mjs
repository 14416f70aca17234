// Words as a shell reads them. A character that doesn't show never gets into a command.
import {HIDDEN} from "./naming.mjs";
import {between} from "./scanning.mjs";

const octal =
    (text) => [...new TextEncoder().encode(text)].map((byte) => `\\0${byte.toString(8).padStart(3, "0")}`).join("");

const plainQuoted = (text) => `'${text.replace(/'/g, "'\\''")}'`;

// A text with characters that don't show, such as the escape that ends a bracketed paste: printf makes it of numbers.
function spelledQuoted(text) {
    const known = new Map();
    const spell = (character) => {
        if (!known.has(character)) {
            known.set(character, octal(character));
        }
        return known.get(character);
    };
    return `"$(printf '%b' ${plainQuoted(text.replace(/\\/g, "\\\\").replace(HIDDEN, spell))})"`;
}

// A word as a POSIX shell reads it. Line ends at its end, which printf would lose, stay as they are inside the
// quotation marks.
export function posixQuoted(word) {
    if (/^[A-Za-z0-9_,.:=@%+-]+$/.test(word)) {
        return word;
    }
    const text = between(word, () => false, (character) => character === "\n");
    const ends = word.slice(text.length);
    return text.search(HIDDEN) < 0 ? plainQuoted(word) : spelledQuoted(text) + (ends && plainQuoted(ends));
}

// A text as PowerShell reads it, which takes five characters for the quotation mark. PowerShell 5 puts quotation marks
// around what it gives a program, before which a backslash is doubled.
export function powershellQuoted(text, isNative = false) {
    const backslashes = text.slice(between(text, () => false, (one) => one === "\\").length);
    const whole = isNative ? text + backslashes : text;
    return `'${whole.replace(/['\u2018-\u201b]/g, "$&$&")}'`;
}

// Whether a text has a character that doesn't show.
export const hasHidden = (text) => text.search(HIDDEN) >= 0;

// Whether a text lost bytes that are no text, or has half a character, which no clipboard keeps.
export const isBroken = (text) => /[\ufffd\p{Cs}]/u.test(text);
