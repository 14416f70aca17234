// The tokens that the page reads: what is typed, and what whoami prints in each of its forms.
import assert from "node:assert/strict";
import {test} from "node:test";

import {readToken} from "../../../web/tokens.mjs";

const ALIASES = new Map([
    ["WD", "S-1-1-0"], ["AU", "S-1-5-11"], ["BA", "S-1-5-32-544"], ["BU", "S-1-5-32-545"], ["AN", "S-1-5-7"],
    ["BG", "S-1-5-32-546"], ["SY", "S-1-5-18"], ["AC", "S-1-15-2-1"]
]);
const [EVERYONE, SIGNED_IN, ADMINISTRATORS, USERS] = ["WD", "AU", "BA", "BU"].map((alias) => ALIASES.get(alias));
const ANN = "S-1-5-21-1-2-3-1001";

// A library that knows a few aliases, and for which a SID's bytes are its text.
const library = {
    sidFromText: (text) => {
        const sid = ALIASES.get(text) ?? text;
        if (!/^S-1(-\d+)+$/i.test(sid)) {
            throw Object.assign(new Error("error 25 sid-form"), {number: 25, part: null, otherPart: null});
        }
        return new TextEncoder().encode(sid);
    },
    sidToText: (bytes) => new TextDecoder().decode(bytes),
};

const read = (text, isExact) => readToken(library, text, "", isExact);
const sidsOf = ({entries}) => entries.map(({sid, denyOnly}) => (denyOnly ? "!" : "") + sid);

const PRIVILEGES = [
    ["SeTakeOwnershipPrivilege", "Take ownership of files or other objects", "Disabled"],
    ["SeSecurityPrivilege", "Manage auditing and security log", "Enabled"],
    ["SeBackupPrivilege", "Back up files and directories", "Disabled"],
    ["SeShutdownPrivilege", "Shut down the system", "Disabled"]
];
const ENABLED = "Mandatory group, Enabled by default, Enabled group";
const GROUPS = [
    ["Everyone", "Well-known group", EVERYONE, ENABLED],
    ["BUILTIN\\Administrators", "Alias", ADMINISTRATORS, "Group used for deny only"],
    ["BUILTIN\\Users", "Alias", USERS, ENABLED],
    ["NT AUTHORITY\\Authenticated Users", "Well-known group", SIGNED_IN, ENABLED],
    ["Mandatory Label\\Medium Mandatory Level", "Label", "S-1-16-8192", ""]
];
const USER = ["example\\ann", ANN];

const rowOfCsv = (fields) => `${fields.map((field) => `"${field}"`).join(",")}\r\n`;
const csv = (titles, rows) => `\r\n${[titles, ...rows].map(rowOfCsv).join("")}`;
const PARTS = {
    user: ["USER INFORMATION", ["User Name", "SID"], [USER]],
    groups: ["GROUP INFORMATION", ["Group Name", "Type", "SID", "Attributes"], GROUPS],
    priv: ["PRIVILEGES INFORMATION", ["Privilege Name", "Description", "State"], PRIVILEGES],
};

function table(heading, titles, rows) {
    const widths = titles.map((title, at) => Math.max(title.length, ...rows.map((row) => row[at].length)));
    const line = (fields) => `${fields.map((field, at) => field.padEnd(widths[at])).join(" ")}\r\n`;
    return `\r\n${heading}\r\n${"-".repeat(heading.length)}\r\n\r\n${line(titles)}${
               line(widths.map((width) => "=".repeat(width)))}` +
        rows.map(line).join("");
}

function list(heading, titles, rows) {
    const width = Math.max(...titles.map((title) => title.length)) + 1;
    const block = (row) => `${row.map((field, at) => `${`${titles[at]}:`.padEnd(width)} ${field}\r\n`).join("")}\r\n`;
    return `\r\n${heading}\r\n${"-".repeat(heading.length)}\r\n\r\n${rows.map(block).join("")}`;
}

const FORMS = {
    csv: (heading, titles, rows) => csv(titles, rows),
    table,
    list
};
const listing = (form, ...parts) => parts.map((part) => FORMS[form](...PARTS[part])).join("");

test("whoami in each form: SIDs, deny-only groups, the level and privileges", () => {
    for (const form of ["csv", "table", "list"]) {
        const token = read(listing(form, "user", "groups", "priv"));
        assert.deepEqual(sidsOf(token), [ANN, EVERYONE, `!${ADMINISTRATORS}`, USERS, SIGNED_IN], form);
        assert.equal(token.level, 8192, form);
        assert.deepEqual(
            [token.privileges, token.notes], [["take-ownership", "security"], ["SeBackupPrivilege"]], form);
        assert.deepEqual([token.faults, token.refused, token.lacksUser], [[], null, false], form);
        assert.deepEqual(token.entries.slice(0, 3).map(({name}) => name),
            ["example\\ann", "Everyone", "BUILTIN\\Administrators"], form);
    }
});

test("a user alone has Everyone and Authenticated Users, unless the token is exact", () => {
    for (const form of ["csv", "table", "list"]) {
        assert.deepEqual(sidsOf(read(listing(form, "user"))), [ANN, EVERYONE, SIGNED_IN], form);
        assert.deepEqual(sidsOf(read(listing(form, "user"), true)), [ANN], form);
    }
    assert.deepEqual(sidsOf(read(ANN)), [ANN, EVERYONE, SIGNED_IN]);
    assert.deepEqual(sidsOf(read(ANN, true)), [ANN]);
    assert.deepEqual(sidsOf(read("BU, !BA")), [USERS, `!${ADMINISTRATORS}`, EVERYONE, SIGNED_IN]);
    assert.deepEqual(sidsOf(read("AN")), [ALIASES.get("AN")]);
    assert.deepEqual(sidsOf(read("AC")), [ALIASES.get("AC")]);
    assert.deepEqual(sidsOf(read("BG")), [ALIASES.get("BG"), EVERYONE]);
    assert.deepEqual(new Set(sidsOf(read("SY"))), new Set([ALIASES.get("SY"), ADMINISTRATORS, EVERYONE, SIGNED_IN]));
    // Nobody has enabled what the token has for deny only.
    assert.deepEqual(sidsOf(read("BU,!WD")), [USERS, `!${EVERYONE}`, SIGNED_IN]);
});

test("a whoami without its groups is refused, and one without its user is said", () => {
    for (const form of ["csv", "table", "list"]) {
        for (const parts of [["priv"], ["user", "priv"]]) {
            assert.equal(read(listing(form, ...parts)).refused?.why, "noGroups", `${form} ${parts}`);
        }
        const groups = read(listing(form, "groups"));
        assert.deepEqual([groups.refused, groups.lacksUser, groups.level], [null, true, 8192], form);
        const both = read(listing(form, "user", "groups"));
        assert.deepEqual([both.refused, both.lacksUser, both.privileges], [null, false, []], form);
    }
    assert.equal(
        read(`"example\\ann","${ANN}"\n"Mandatory Label\\High","Label","S-1-16-12288",""`).refused?.why, "noGroups");
    assert.equal(read("example\\ann").faults.length, 1);
});

test("a group of which nobody can say whether it counts is refused", () => {
    const odd = (words) => read(`"example\\ann","${ANN}"\n"BUILTIN\\Users","Alias","${USERS}","${words}"`);
    assert.equal(odd("Irgendwas").refused?.why, "attributes");
    assert.equal(odd("").refused?.why, "attributes");
    assert.deepEqual(
        sidsOf(odd("Gruppe, die nur zum Verweigern verwendet wird")), [ANN, `!${USERS}`, EVERYONE, SIGNED_IN]);
    assert.deepEqual(sidsOf(odd("Verbindliche Gruppe, Standardmäßig aktiviert, Aktivierte Gruppe")),
        [ANN, USERS, EVERYONE, SIGNED_IN]);
    // The attributes of a table were broken off: the second line without them is no user.
    const broken =
        read(`example\\ann ${ANN}\nBUILTIN\\Administrators Alias ${ADMINISTRATORS}\nGroup used for deny only\n`);
    assert.equal(broken.refused?.why, "cut");
});

test("SIDs and aliases behind a listing count, and a line that has a broken SID is a fault", () => {
    for (const form of ["csv", "table"]) {
        assert.deepEqual(
            sidsOf(read(`${listing(form, "user", "groups")}BU,S-1-5-4`, true)).slice(-2), [USERS, "S-1-5-4"], form);
        assert.equal(read(`${listing(form, "user", "groups")}x\\y S-1-5-21-x`).faults.length, 1, form);
    }
    assert.equal(read(`"BUILTIN\\Users","Alias","${USERS}","${ENABLED}",BA`).faults.length, 1);
    assert.equal(read(`${listing("table", "user")}S-1-1-0G:BA`).faults.length, 1);
});

test("a level that no token has is none", () => {
    for (const level of ["4294967296", "9".repeat(400)]) {
        const {level: found, entries} = read(`"a\\b","S-1-5-7"\r\n"x","Label","S-1-16-${level}","${ENABLED}"\r\n`);
        assert.deepEqual([found, entries.some(({sid}) => sid === `S-1-16-${level}`)], [null, true]);
    }
});
