// The token that a text tells of: SIDs and aliases, or what whoami prints. sdtool-audit reads listings by the same
// table.
import {sidBytes, sidText} from "./library.mjs";
import {meaningOfSid} from "./meanings.mjs";
import {endOfQuoted} from "./scanning.mjs";
import {valueIn} from "./tables.mjs";
import {ATTRIBUTES, PRIVILEGES} from "./windows.mjs";

export const MOST_SIDS = 1024;
const MOST_FAULTS = 20; // of which fewer are shown
const MOST_LEVEL = 0xffffffff;
const SID = /\bS-1-\d+(?:-\d+)+(?![\w-])/i;
const LEVEL = /^S-1-16-(\d+)$/i;
const PRIVILEGE = /^(?:"|[^":]*:\s+)?(Se[A-Z]\w*Privilege)\b/;
const OF_A_LIST = /^\s*SID:\s+S-1-/i;
const SECOND_COLUMN = /\S(?=\s\s)/; // columns are two blanks apart or more
// SIDs and aliases, among lines of a listing.
const WORDS_ALONE = /^\s*!?(?:[A-Z]{2}|S-1-[\d-]+)(?:[\s,;]+!?(?:[A-Z]{2}|S-1-[\d-]+))*[\s,;]*$/;

const isRule = (line) => line.includes("====") && /^[=\s]+$/.test(line);

const says = (attributes, word) => valueIn(ATTRIBUTES, word).some((one) => attributes.toLowerCase().includes(one));

const privilegeIn = (line) => PRIVILEGE.exec(line.trim())?.[1] ?? null;

// What is behind the title of a line of a list, or null.
function titled(line) {
    const at = line?.indexOf(":") ?? -1;
    return at < 0 ? null : line.slice(at + 1).trim();
}

// The fields of a line of CSV, each in quotation marks, and whether there is nothing else.
function quotedFields(line) {
    const fields = [];
    let isWhole = true;
    let at = 0;
    for (let start = line.indexOf("\""); start >= 0; start = line.indexOf("\"", at)) {
        const end = endOfQuoted(line, start + 1);
        const between = line.slice(at, start).trim();
        isWhole &&= end < line.length && (between === "" || between === ",");
        if (end < line.length) {
            fields.push(line.slice(start + 1, end).replace(/""/g, "\""));
        }
        at = end + 1;
    }
    return {fields, isWhole: isWhole && line.slice(at).trim() === ""};
}

// Whether whoami has printed a line of a table or of a list.
function isListed(line) {
    const at = line.search(SID);
    return isRule(line) || privilegeIn(line) || OF_A_LIST.test(line) ||
        (at > 0 &&
            (line.slice(0, at).includes("\\") || says(line.slice(at), "deny-only") || says(line.slice(at), "enabled")));
}

class Reader {
    constructor(library, domain) {
        this.library = library;
        this.domain = domain;
        this.token = {entries: [], level: null, privileges: [], notes: [], faults: [], refused: null, lacksUser: false};
        this.users = 0;
        this.groups = 0;
        this.typed = 0;
        this.hasPrivileges = false;
    }

    // Behind one SID more than a token can have, or as many texts that are none as are shown, the rest is not read.
    get isOver() {
        return this.token.entries.length > MOST_SIDS || this.token.faults.length >= MOST_FAULTS ||
            this.token.refused !== null;
    }

    add(sid, denyOnly, name) {
        if (this.isOver) {
            return;
        }
        try {
            const plain = sidText(this.library, sid, this.domain);
            const bytes = sidBytes(this.library, plain);
            this.token.entries.push({sid: plain, bytes, denyOnly, name, text: (denyOnly ? "!" : "") + sid});
        } catch (fault) {
            this.fail(sid, fault);
        }
    }

    fail(text, {number = 25, name = "sid-form"} = {}) { this.token.faults.push({text, number, faultName: name}); }

    readWords(line) {
        for (const item of line.split(/[\s,;]+/).filter(Boolean)) {
            this.typed += 1;
            this.add(item.replace(/^!/, ""), item.startsWith("!"), null);
        }
    }

    // A SID that whoami lists. The user's alone has nothing behind it.
    addListed(sid, name, attributes) {
        const level = LEVEL.exec(sid);
        if (level && Number(level[1]) <= MOST_LEVEL) {
            this.token.level = Number(level[1]);
            return;
        }
        this.users += attributes === null ? 1 : 0;
        this.groups += attributes === null ? 0 : 1;
        const denyOnly = attributes !== null && says(attributes, "deny-only");
        if (this.users > 1) {
            this.token.refused = {why: "cut", text: sid};
        } else if (attributes !== null && !denyOnly && !says(attributes, "enabled")) {
            this.token.refused = {why: "attributes", text: `${name} ${attributes}`};
        } else {
            this.add(sid, denyOnly, name);
        }
    }

    addPrivilege(name) {
        const [check, lets] = valueIn(PRIVILEGES, name) ?? ["", ""];
        const [list, one] = check ? [this.token.privileges, check] : [this.token.notes, name];
        if ((check || lets) && !list.includes(one)) {
            list.push(one);
        }
        this.hasPrivileges = true;
    }

    readCsv(line) {
        const {fields, isWhole} = quotedFields(line);
        const sid = fields.find((field) => /^S-1-[0-9-]+$/i.test(field));
        const privilege = privilegeIn(line);
        if (!isWhole || (!sid && /S-1-/i.test(line))) {
            this.fail(line.trim());
        } else if (sid) {
            this.addListed(sid, fields[0], fields.length > 2 ? fields.at(-1) : null);
        } else if (privilege) {
            this.addPrivilege(privilege);
        }
    }

    // A line of a table or of a list. A line without a SID has titles.
    readListed(line, lines, at) {
        const [sid] = SID.exec(line) ?? [];
        const privilege = privilegeIn(line);
        if (WORDS_ALONE.test(line)) {
            this.readWords(line);
        } else if (sid && OF_A_LIST.test(line)) {
            // A group has its type between name and SID.
            this.addListed(sid, titled(lines[at - 2]) ?? titled(lines[at - 1]) ?? sid, titled(lines[at + 1]));
        } else if (sid) {
            const front = line.slice(0, line.search(SID)).trim();
            const behind = line.slice(line.search(SID) + sid.length).trim();
            const end = front.search(SECOND_COLUMN);
            this.addListed(sid, end < 0 ? front : front.slice(0, end + 1), behind || null);
        } else if (privilege) {
            this.addPrivilege(privilege);
        } else if (/S-1-/i.test(line)) {
            this.fail(line.trim());
        }
    }

    end() {
        const {token} = this;
        if (!token.refused && !this.groups && !this.typed && (token.level !== null || this.hasPrivileges)) {
            token.refused = {why: "noGroups", text: ""};
        }
        token.lacksUser = this.groups > 0 && !this.users && !this.typed;
    }

    // What those who have the SIDs have besides, but for what the token has for deny only.
    complete() {
        const {entries} = this.token;
        const known = new Set(entries.map(({sid}) => sid));
        for (const sid of entries.filter(({denyOnly}) => !denyOnly).flatMap((entry) => meaningOfSid(entry.sid).also)) {
            if (!known.has(sid)) {
                known.add(sid);
                this.add(sid, false, null);
            }
        }
    }
}

// A token that was typed or pasted: SIDs and aliases between commas or blanks, '!' for deny-only, or what whoami
// prints, as a table, a list or CSV. Unless it is exact, SIDs get what whoever has them has besides. The answer
// is {entries, level, privileges, notes, faults, refused, lacksUser}; notes are privileges that no check knows.
export function readToken(library, text, domain, isExact = false) {
    const reader = new Reader(library, domain);
    const lines = text.split(/\r?\n/);
    const isListing = lines.some(isListed);
    for (let at = 0; at < lines.length && !reader.isOver; at += 1) {
        const line = lines[at];
        if (/^\s*"/.test(line)) {
            reader.readCsv(line);
        } else if (isListing) {
            reader.readListed(line, lines, at);
        } else {
            reader.readWords(line);
        }
    }
    reader.end();
    if (!isExact && !reader.isOver) {
        reader.complete();
    }
    return reader.token;
}
