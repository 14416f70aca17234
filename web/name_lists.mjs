// Names of SIDs as people have them: lines of a SID and a name, CSV, LDIF, and what Get-ADUser prints as a list or a
// table. No name stands for one of Windows' own.
import {isOfWindows, shownName} from "./naming.mjs";
import {afterBlanks, endOfQuoted} from "./scanning.mjs";

export const MOST_NAMES = 100_000;
const SID = /^S-1-\d{1,20}(?:-\d{1,20}){0,15}$/i;
const OF_SID = ["sid", "objectsid"];
const OF_NAME = ["name", "cn", "displayname", "samaccountname", "userprincipalname", "dn", "distinguishedname"];
// An attribute of LDIF, or of what Format-List prints, where blanks are before the colon.
const ATTRIBUTE = /^(?!S-1-)([A-Za-z][\w-]{0,60})(?:;[\w;-]{0,60})?( {0,60})(::?)/i;
const OF_ENTRY = /^(?:dn|sid|objectsid) {0,60}:/i;
const RULE = /^\s*-{2,}(?:\s+-{2,})*\s*$/;
const [HEAD, SIZE] = [8, 4]; // bytes of a SID before its numbers, and of each
const MOST_SUBS = 15;
const MOST_HEAD = 10_000; // characters of the titles of CSV

// The SID of its bytes, or "".
function sidOfBytes(bytes) {
    const [revision, count] = bytes;
    if (revision !== 1 || count > MOST_SUBS || bytes.length !== HEAD + SIZE * count) {
        return "";
    }
    const view = new DataView(bytes.buffer);
    const authority = 2 ** 32 * view.getUint16(2) + view.getUint32(SIZE);
    const subs = Array.from({length: count}, (_, at) => view.getUint32(HEAD + SIZE * at, true));
    return ["S-1", authority < 2 ** 32 ? authority : `0x${authority.toString(16)}`, ...subs].join("-");
}

function ofBase64(text) {
    try {
        return Uint8Array.from(atob(text), (character) => character.charCodeAt(0));
    } catch {
        return new Uint8Array(0);
    }
}

// The rows of CSV from a place on. A field in quotation marks may have line ends.
function* rowsOfCsv(text, from, separator) {
    let fields = [];
    for (let at = from; at < text.length;) {
        const isQuoted = text[at] === "\"";
        const closing = isQuoted ? endOfQuoted(text, at + 1) : at;
        let end = closing;
        while (end < text.length && text[end] !== separator && text[end] !== "\n") {
            end += 1;
        }
        const field = isQuoted ? text.slice(at + 1, closing).replace(/""/g, "\"") : text.slice(at, end);
        fields.push(field.trim());
        if (text[end] !== separator) {
            yield fields;
            fields = [];
        }
        at = end + 1;
    }
    if (fields.length) {
        yield fields;
    }
}

// The fields of a line of a table, which begin where the rules under its titles do.
const startsOf = (rule) => [...rule.matchAll(/-+/g)].map(({index}) => index);
const cellsOf = (line, starts) => starts.map((start, at) => line.slice(start, starts[at + 1]).trim());

// The places of columns by their titles, or null if none is that of SIDs.
function columnsOf(titles) {
    const columns = new Map(titles.map((title, at) => [title.toLowerCase(), at]));
    return titles.length > 1 && OF_SID.some((title) => columns.has(title)) ? columns : null;
}

class Reader {
    constructor() {
        this.names = new Map();
        this.known = 0; // names of Windows' own SIDs
        this.unread = 0;
        this.left = 0;
    }

    add(sid, name) {
        const own = sid.toUpperCase();
        if (isOfWindows(own)) {
            this.known += 1;
        } else if (this.names.size >= MOST_NAMES && !this.names.has(own)) {
            this.left += 1;
        } else {
            this.names.set(own, shownName(name));
        }
    }

    // A row of values by their titles.
    addRow(valueOf) {
        const sid = OF_SID.map(valueOf).find((one) => SID.test(one ?? ""));
        const name = OF_NAME.map(valueOf).find(Boolean);
        if (sid && name) {
            this.add(sid, name);
        } else {
            this.unread += 1;
        }
    }

    addCells(cells, columns) {
        if (cells.some(Boolean)) {
            this.addRow((title) => cells[columns.get(title)]);
        }
    }

    // Entries of LDIF or of Format-List. A line that begins with a blank continues the one before.
    readEntries(lines) {
        let entry = new Map();
        const end = () => {
            if (OF_SID.some((title) => entry.has(title))) {
                this.addRow((title) => entry.get(title));
            }
            entry = new Map();
        };
        for (let at = 0; at < lines.length; at += 1) {
            const [front, attribute, blanks, colons] = ATTRIBUTE.exec(lines[at]) ?? [];
            const title = attribute?.toLowerCase();
            const parts = front === undefined ? [] : [lines[at].slice(front.length).trim()];
            for (; /^[ \t]+\S/.test(lines[at + 1] ?? ""); at += 1) {
                parts.push(blanks ? lines[at + 1].trim() : lines[at + 1].slice(1));
            }
            if (lines[at].trim() === "") {
                end();
            } else if ((OF_SID.includes(title) || OF_NAME.includes(title)) && !entry.has(title)) {
                const value = parts.join("");
                entry.set(title,
                    colons === ":"             ? value :
                        OF_SID.includes(title) ? sidOfBytes(ofBase64(value)) :
                                                 new TextDecoder().decode(ofBase64(value)));
            }
        }
        end();
    }

    // A line of a SID and a name.
    addLine(line) {
        const [front, sid] = /^\s*"?(S-1-[0-9-]+)(?=["\s=,;:])"?/i.exec(line) ?? [];
        let at = front === undefined ? line.length : afterBlanks(line, front.length);
        while (at < line.length && "=,;:".includes(line[at])) {
            at = afterBlanks(line, at + 1);
        }
        const rest = line.slice(at).trim();
        const end = rest.startsWith("\"") ? endOfQuoted(rest, 1) : rest.length;
        const name = end < rest.length ? rest.slice(1, end).replace(/""/g, "\"") : rest;
        if (name) {
            this.add(sid, name);
        } else if (line.trim()) {
            this.unread += 1;
        }
    }
}

/**
 * The names in a text; how many lines or entries have none; how many are for SIDs of Windows' own; and how many are
 * more than the page takes.
 */
export function namesIn(text) {
    const reader = new Reader();
    const plain = text.replace(/^\uFEFF/, "").replace(/\r\n?/g, "\n").replace(/^#TYPE .*\n/, "");
    const lines = plain.split("\n");
    const rule =
        lines.findIndex((line, at) => at > 0 && RULE.test(line) && columnsOf(cellsOf(lines[at - 1], startsOf(line))));
    const head = lines[0].slice(0, MOST_HEAD);
    const separator = [",", ";", "\t"].find((one) => columnsOf(rowsOfCsv(head, 0, one).next().value ?? []));
    if (separator) {
        const columns = columnsOf(rowsOfCsv(head, 0, separator).next().value);
        for (const cells of rowsOfCsv(plain, lines[0].length + 1, separator)) {
            reader.addCells(cells, columns);
        }
    } else if (rule > 0) {
        const starts = startsOf(lines[rule]);
        const columns = columnsOf(cellsOf(lines[rule - 1], starts));
        lines.slice(rule + 1).forEach((line) => reader.addCells(cellsOf(line, starts), columns));
    } else if (lines.some((line) => OF_ENTRY.test(line))) {
        reader.readEntries(lines);
    } else {
        lines.forEach((line) => reader.addLine(line));
    }
    const {names, known, unread, left} = reader;
    return {names, known, unread, left};
}
