// What the page reads of reports, addresses, names and tokens, and what it writes for a shell.
import assert from "node:assert/strict";
import {execFileSync} from "node:child_process";
import {test} from "node:test";

import {readToken} from "../../../web/tokens.mjs";
import {descriptorsIn, straysIn} from "../../../web/clipboard.mjs";
import {placeOf} from "../../../web/faults.mjs";
import {descriptorOf} from "../../../web/library.mjs";
import {MOST_NAMES, namesIn} from "../../../web/name_lists.mjs";
import {nameOf, namesOfReport, whereOf} from "../../../web/naming.mjs";
import {Report} from "../../../web/report.mjs";
import {addressOf, takeAddress} from "../../../web/address.mjs";
import {commandLine} from "../../../web/command.mjs";
import {freshState} from "../../../web/state.mjs";
import {KINDS, REPORT} from "../../../web/windows.mjs";
import {WORDS} from "../../../web/words.mjs";

const OBJECT = [
    "C:\\Data", "list.csv", 7, "found", "sddl", "D:(A;;FA;;;WD)", "file", "", "", ["top"],
    [["everyone", "WD", "FA", "", "", "high", [1], false, [[1, "(A;;FA;;;WD)", "FA", true]]]]
];
const HEAD = {
    report: REPORT.version,
    title: "Risks",
    domain: "",
    names: [["S-1-5-21-1-2-3-1001", "Ann"]]
};
const LAST = {
    summary: "1 object",
    severities: "high: 1 place with 1 object",
    rules: [["everyone", 1, "why"]],
    listsAll: true,
    groups: [["high", "everyone", "WD: FA", "C:\\Data", "ACE 1, set here", 2]]
};

test("icacls lists several objects, each with its ACEs", () => {
    const users = "BUILTIN\\Users:(RX)";
    const listed = (text) => descriptorsIn(text, "auto").map(({name, line, other}) => [name, line, other]);
    const [first, second] = ["D:(A;OICI;0x1f01ff;;;WD)(A;;0x1200a9;;;BU)", "D:(D;;0x6;;;WD)"];
    const one = `C:\\a b Everyone:(OI)(CI)(F)\n        ${users}\n\n`;
    assert.deepEqual(listed(`${one}C:\\c Everyone:(DENY)(WD,AD)\n\nSuccessfully processed 2 files; Failed 0`),
        [["C:\\a b", first, null], ["C:\\c", second, null]]);
    // An account that nobody knows is no path.
    for (const text of [`${one}C:\\c CORP\\Sales:(F)\n`, `C:\\a ${users}\n     Not Everyone:(F)\n`,
             `${one}     C:\\c ${users}`]) {
        assert.deepEqual(listed(text).map(([, , other]) => other), ["listing"], text);
    }
});

async function read(...lines) {
    const report = new Report(lines.map((line) => (typeof line === "string" ? line : JSON.stringify(line))).join("\n"));
    await report.read(() => {});
    return report;
}

test("a report is read, and a damaged line of any kind is counted", async () => {
    const whole = await read(HEAD, OBJECT, LAST);
    assert.deepEqual([whole.isWhole, whole.damaged, whole.objects.length], [true, 0, 1]);
    const other = (at, value) => OBJECT.map((one, index) => (index === at ? value : one));
    const values = [null, 5, true, {}, [], [[]], [[1, 2, 3, 4, 5]], [["a"]], [{}], "x", -1, 1.5];
    const isRight = (at, value) => at >= 9 ? JSON.stringify(value) === "[]" || (at === 9 && value?.[0] === "a") :
        at === 2                           ? value === 5 :
                                             typeof value === "string";
    for (let at = 0; at < OBJECT.length; at += 1) {
        for (const value of values.filter((one) => !isRight(at, one))) {
            const report = await read(HEAD, other(at, value), OBJECT, LAST);
            assert.deepEqual([report.damaged, report.objects.length, report.isWhole], [1, 1, false],
                `${at} ${JSON.stringify(value)}`);
        }
    }
    for (const because of [null, 5, "x", [1], [[]], [[1, "x", "y"]], [["1", "x", "y", true]], [[1, "x", "y", 1]],
             [[-1, "x", "y", true]]]) {
        const report =
            await read(HEAD, other(10, [["everyone", "WD", "FA", "", "", "high", [1], false, because]]), OBJECT, LAST);
        assert.deepEqual([report.damaged, report.objects.length], [1, 1], JSON.stringify(because));
    }
    const damaged = [
        {...LAST, rules: [1]}, {...LAST, rules: null}, {...LAST, groups: [1]}, {...LAST, severities: 5},
        {summary: 5, rules: []}, {...HEAD, names: [5]}, {...HEAD, names: "x"}, {...HEAD, title: 5},
        {...HEAD, domain: {}}, "[", "null", "5", "{}", "x", OBJECT.slice(1)
    ];
    for (const line of damaged) {
        const report = await read(line, HEAD, OBJECT, LAST);
        assert.deepEqual([report.damaged, report.objects.length, report.head?.title, report.last?.summary],
            [1, 1, "Risks", "1 object"]);
    }
});

test("names, rules and answers that every object inherits are like any other", async () => {
    const names = ["constructor", "__proto__", "toString", "hasOwnProperty"];
    const report = await read(HEAD,
        ...names.map((name) => [name, name, 1, name, name, name, name, name, name, [name],
                         [[name, name, name, name, name, name, [1], true, []]]]),
        LAST);
    assert.deepEqual([...report.answers], names.map((name) => [name, 1]));
    assert.deepEqual([...report.rules], names.map((name) => [name, 1]));
    assert.equal((await report.chosen({answer: "constructor", rule: "", text: ""}, () => false)).length, 1);
    for (const name of names) {
        assert.equal(nameOf(name, new Map()), name);
    }
});

const taken = (address) => {
    const state = freshState();
    return [takeAddress(state, address), state];
};

test("an address is taken, and what of it can't be read is said", () => {
    const [unread, state] =
        taken("d=D:&kind=ds&level=4096&rights=30&security=1&common=0&view=ask&domain=S-1-5-21-1-2-3");
    assert.deepEqual(unread, []);
    assert.deepEqual(
        [state.text, state.kind, state.ask.level, state.ask.rights, state.ask.security, state.common, state.view],
        ["D:", "ds", " 4096", [0x10, 0x20], true, false, "ask"]);
    assert.equal(taken("level=12345")[1].ask.level, " 12345");
    assert.equal(taken("level=")[1].ask.level, "");
    assert.equal(taken("exact=1")[1].ask.exact, true);
    const refused = [
        "level=foo", "level=-1", "level=4294967296", "level=1e3", "level= 5", "kind=constructor",
        "kind=", "view=report", "form=__proto__", "security=yes", "exact=yes", "maximum=", "rights=zz",
        "rights=8000000", "rights=0", "chosen=-1", "chosen=x", "new=key", "x=1", "constructor=1", "__proto__=1",
        "toString="
    ];
    for (const address of refused) {
        const [said, found] = taken(address.replaceAll(" ", "%20"));
        assert.deepEqual(said, [address]);
        assert.deepEqual([found.ask.level, found.kind, found.view, found.form, found.chosen],
            ["listed", "folder", "look", "auto", 0]);
    }
    assert.deepEqual(taken("level=4096&level=12288"),
        [["level=12288"], {...freshState(), ask: {...freshState().ask, level: " 4096"}}]);
});

test("an address brings back the state that it was made of", () => {
    const state = {
        ...freshState(),
        text: "D:(A;;FA;;;WD)",
        kind: "ds",
        isKindChosen: true,
        object: "x",
        chosen: 3,
        common: false
    };
    state.ask = {...state.ask, level: " 777", rights: [0x1, 0x100], takeOwnership: true, self: "WD", want: "FR"};
    state.made = {...state.made, kind: "file", creator: "D:"};
    const [unread, found] = taken(addressOf(state, freshState()));
    assert.deepEqual([unread, found], [[], state]);
    assert.equal(addressOf({...freshState(), view: "report", classes: "top,user"}, freshState()), "class=top%2Cuser");
    assert.equal(addressOf({...freshState(), domain: "x".repeat(40_000)}, freshState()), null);
});

test("each field of an address takes so many characters, and what is longer is left out whole and said", () => {
    const most = {token: 400_000, ...Object.fromEntries(["d", "creator", "other"].map((name) => [name, 50_000_000]))};
    for (const name of ["d", "domain", "object", "token", "want", "self", "owner", "group", "creator", "other"]) {
        const length = most[name] ?? 1000;
        const [whole, cut] = [`${name}=${"x".repeat(length)}`, `${name}=${"x".repeat(length + 1)}`];
        const [unread, state] = taken(whole);
        assert.ok(unread.length === 0 && JSON.stringify(state).includes("x".repeat(length)), name);
        const [said, found] = taken(cut);
        assert.ok(said.length === 1 && said[0] === cut, name);
        assert.deepEqual(found, freshState(), name);
    }
});

test("a name that would fill the page is cut, and this is shown", () => {
    const name = "x".repeat(500);
    assert.deepEqual(
        [...namesIn(`S-1-5-21-1-2-3-1 ${name}\nS-1-5-21-1-2-3-2 ${name}y`).names.values()], [name, `${name} ..`]);
    const [told] = namesOfReport([["S-1-5-21-1-2-3-1001", `${name}y`]]).values();
    assert.ok(told.startsWith(`${name} .. (`), told);
});

// Lines with characters that a terminal or a shell would take for more than a character.
const LINES = [
    "O:BA", "a'b\\c%d", "\u001b[201~; touch /tmp/x\r", "%s\\033", "-n", "\u009b31m", "x\u202ey\u200b", "$(id)`id`\"\"",
    "\t", "\\0033\u007f", "!!", "a\u0001'\u0002\\", "\u2028", "\ufeff"
];

test("a command line has no character that does not show, and a shell reads it as the line", () => {
    for (const line of LINES) {
        const command = commandLine(freshState(), {form: "sddl", line}, null);
        assert.doesNotMatch(command, /[\p{Cc}\p{Cf}\p{Zl}\p{Zp}]/u);
        const script = `sdtool() { cat; }; ${command}`;
        assert.equal(execFileSync("sh", ["-c", script]).toString(), `${line}\n`, command);
    }
    // Each of two has the form and the domain that it was read in.
    const compared = commandLine({...freshState(), view: "compare"}, {form: "sddl", line: "D:"},
        {other: {form: "hex", line: "0100", isStandIn: true}});
    assert.equal(execFileSync("sh", ["-c", `sdtool() { cat; echo "$@"; }; ${compared}`]).toString(),
        "D:\nconvert --to hex --from sddl\n0100\nconvert --to hex --domain S-1-5-21-0-0-0\n");
    const state = {...freshState(), view: "ask", domain: "\u001b]0;x\u0007"};
    assert.doesNotMatch(commandLine(state, {form: "sddl", line: "D:"}, null), /\p{Cc}/u);
});

// Names as people have them. Get-ADUser prints a list, a table or CSV, ldifde and ldapsearch print SIDs in base64.
const DOMAIN = "S-1-5-21-1-2-3";
const OBJECT_SID = "AQUAAAAAAAUVAAAAAQAAAAIAAAADAAAA6QMAAA=="; // of account 1001
const LIST = `
DistinguishedName : CN=Ann Lee,OU=People,DC=example,DC=com
Enabled           : True
Name              : Ann Lee
ObjectClass       : user
SamAccountName    : ann
SID               : ${DOMAIN}-1001

Description       : x
                    SID               : ${DOMAIN}-1009
SID               : ${DOMAIN}-1002
SamAccountName    : bob
`;
const TABLE = `
Name       SamAccountName SID
----       -------------- ---
Ann Lee    ann            ${DOMAIN}-1001
\u738b \u5c0f\u660e       wang           ${DOMAIN}-1003
Gone       gone           S-1-5-21-1-2...
`;
const CSV = `#TYPE Microsoft.ActiveDirectory.Management.ADUser
"DistinguishedName","Description","Name","SID"
"CN=Ann","first
x,""y"",${DOMAIN}-1009
z","Ann ""A"" Lee","${DOMAIN}-1001"
"CN=No","","","${DOMAIN}-1002"
"CN=Bob","","","S-1-5-21-1-2..."
`;
const LDIF = `dn: CN=Ann Lee,DC=example,DC=com
objectClass: user
cn:: QW5uIEzDqWU=
objectSid:: ${OBJECT_SID.slice(0, 20)}
 ${OBJECT_SID.slice(20)}

dn: CN=Bob,DC=exam
 ple,DC=com
objectSid: ${DOMAIN}-1002

dn: OU=People,DC=example,DC=com

dn: CN=No,DC=example,DC=com
objectSid:: AQIAAA==
`;
const NAME_LISTS = [
    [
        `${DOMAIN}-1001 Ann Lee \r\ns-1-5-21-9-9-9-7 = ,: All\n${DOMAIN}-1\n${DOMAIN}-2 \n${DOMAIN}-3,\u202ex\n  ${
            DOMAIN}-4;b = c`,
        {"1001": "Ann Lee", "S-1-5-21-9-9-9-7": "All", "3": "\\u{202e}x", "4": "b = c"}, [0, 2]
    ],
    [`"${DOMAIN}-1001","Ann ""A"", Lee"\n${DOMAIN}-1002\tBob`, {"1001": "Ann \"A\", Lee", "1002": "Bob"}, [0, 0]],
    [LIST, {"1001": "Ann Lee", "1002": "bob"}, [0, 0]],
    [LIST.replaceAll("\n", "\r\n"), {"1001": "Ann Lee", "1002": "bob"}, [0, 0]],
    [TABLE, {"1001": "Ann Lee", "1003": "\u738b \u5c0f\u660e"}, [0, 1]],
    [CSV, {"1001": "Ann \"A\" Lee", "1002": "CN=No"}, [0, 1]],
    [`\uFEFFsid;name\n${DOMAIN}-1001;Ann\n`, {"1001": "Ann"}, [0, 0]],
    [`SamAccountName\tSID\nann\t${DOMAIN}-1001\n`, {"1001": "ann"}, [0, 0]],
    [LDIF, {"1001": "Ann L\u00e9e", "1002": "CN=Bob,DC=example,DC=com"}, [0, 1]],
    // Windows' own are never replaced, not even those of a domain.
    [`S-1-1-0 Nobody\nS-1-5-32-545,x\n${DOMAIN}-512 y\n${DOMAIN}-1001 Ann`, {"1001": "Ann"}, [3, 0]],
    [`SID,Name\nS-1-5-18,Guest\n${DOMAIN}-500,x`, {}, [2, 0]],
    ["S-1-12-1-5-6-7-8 Ann", {"S-1-12-1-5-6-7-8": "Ann"}, [0, 0]], ["", {}, [0, 0]],
    [`dn:cn=x\nobjectSid::${OBJECT_SID}\ncn:Ann`, {"1001": "Ann"}, [0, 0]], ["dn: x", {}, [0, 0]],
    ["SID,Name", {}, [0, 0]]
];

test("names of the user, from lists of people's programs", () => {
    const column = (text) => text.padEnd(30);
    NAME_LISTS.push([`dn: CN=x\ncn: Ann\n  Lee\nobjectSid: ${DOMAIN}-1001\n`, {1001: "Ann Lee"}, [0, 0]],
        [
            `${column("SID")}Name\n${column("---")}----\n${
                column(`${DOMAIN}-1001`)}Ann of a department\u2019s long name\n`,
            {1001: "Ann of a department\u2019s long name"}, [0, 0]
        ],
        // An authority that is written in hex.
        ["dn: CN=x\ncn: x\nobjectSid:: AQEQAAAAAAABAAAA\n", {}, [0, 1]]);
    for (const [text, expected, counts] of NAME_LISTS) {
        const {names, known, unread, left} = namesIn(text);
        const wanted =
            Object.entries(expected).map(([sid, name]) => [sid.startsWith("S") ? sid : `${DOMAIN}-${sid}`, name]);
        assert.deepEqual([[...names].sort(), known, unread, left], [wanted.sort(), ...counts, 0], text);
    }
    const many = Array.from({length: MOST_NAMES + 7}, (_, at) => `${DOMAIN}-${1000 + at} a${at}`).join("\n");
    const {names, left} = namesIn(`${many}\n${DOMAIN}-1000 again`);
    assert.deepEqual([names.size, left, names.get(`${DOMAIN}-1000`)], [MOST_NAMES, 7, "again"]);
    for (const name of ["__proto__", "constructor", "toString"]) {
        assert.deepEqual(
            [...namesIn(`${name}: x\nSID: ${DOMAIN}-1001\nname: ${name}`).names], [[`${DOMAIN}-1001`, name]]);
        assert.deepEqual([...namesIn(`SID,${name},name\n${DOMAIN}-1001,x,y`).names], [[`${DOMAIN}-1001`, "y"]]);
    }
});

test("names of a report are told as its own, and never in the place of those of Windows", () => {
    const account = "S-1-5-21-1-2-3-1001";
    const windows = ["S-1-1-0", "S-1-5-11", "S-1-5-32-545", "S-1-5-21-1-2-3-512", "S-1-5-21-1-2-3-513", "S-1-5-18"];
    const names =
        namesOfReport([...windows, account, "__proto__"].map((sid) => [sid, "BUILTIN\\Administrators\u202e"]));
    for (const sid of windows) {
        assert.equal(nameOf(sid, names), nameOf(sid, new Map()));
    }
    assert.equal(nameOf(account, names), "BUILTIN\\Administrators\\u{202e} (a name of the report)");
    assert.equal(nameOf(account, new Map([...names, ...namesIn(`${account} Ann`).names])), "Ann");
    assert.equal(nameOf("S-1-1-0", namesOfReport([[account, "x\nS-1-1-0 BUILTIN\\Administrators"]])), "Everyone");
});

// A library that knows no SID.
const refusing = {
    run: () => { throw new Error("not asked"); },
    sidFromText:
        () => { throw Object.assign(new Error("error 25 sid-form"), {number: 25, part: null, otherPart: null}); }
};

test("a token: a SID with another part behind it is none, and no line that has a SID is a heading", () => {
    for (const text of ["S-1-1-0G:BA", "\"Everyone\",\"S-1-1-0G:BA\"", "\"Everyone\",\"S-1-1-0", "\"a\"\"S-1-1-0"]) {
        assert.ok(readToken(refusing, text, "").faults.length > 0, text);
    }
    const {entries, level, faults} = readToken(refusing, "\"Group Name\",\"Type\",\"SID\"", "");
    assert.deepEqual([entries, level, faults], [[], null, []]);
    assert.equal(readToken(refusing, "1,".repeat(200_000), "").faults.length, 20);
});

test("a text of null characters is no descriptor, whatever it is taken for, and neither is an empty value", () => {
    for (const text of ["\0", "\0\0\0\0", " \0\r\n\0 ", "\uFEFF\0", "\0\uFEFF", "\n\0"]) {
        for (const form of ["auto", "sddl", "hex", "base64"]) {
            const [{line, dropped}, ...more] = descriptorsIn(text, form);
            assert.deepEqual([line.includes("\0"), more, dropped.filter(({what}) => what === "nulls")], [true, [], []],
                `${form} ${escape(text)}`);
        }
    }
    const [{line, dropped}] = descriptorsIn("\uFEFFO\0:\0B\0A\0", "auto");
    assert.deepEqual([line, dropped.map(({what}) => what)], ["O:BA", ["mark", "nulls"]]);
    // The program passes over an empty line.
    const passing = {run: () => ({status: 0, output: new Uint8Array(0), message: ""})};
    for (const text of ["cn: x\nnTSecurityDescriptor:: \ncn: y", "\"Security\"=hex:"]) {
        const [one] = descriptorsIn(text, "auto");
        assert.throws(() => descriptorOf(passing, one.form, one.line), {number: 5, name: "short"}, text);
    }
});

test("what the clipboard has", () => {
    const one = (text) => {
        const [{name, form, line, dropped}, ...more] = descriptorsIn(text, "auto");
        assert.equal(more.length, 0);
        return [name, form, line, dropped.map(({what}) => what)];
    };
    assert.deepEqual(one(",,,,O:BA"), ["", "sddl", "O:BA", ["before"]]);
    assert.deepEqual(one("D:(A;;FA\n;;;WD)"), ["", "sddl", "D:(A;;FA;;;WD)", ["folds"]]);
    assert.deepEqual(one("1 0 4 128, 20" +
                         " 0".repeat(15)),
        [
            "", "hex",
            "0100048014" +
                "00".repeat(15),
            ["decimal"]
        ]);
    assert.deepEqual(
        one("\"Public\"=hex(3):01,00,\\\r\n  04,80\r\n"), ["Public", "hex", "01000480", ["before", "separators"]]);
    assert.deepEqual(one("  Key\n    Security    REG_BINARY    0100\n"), ["Security", "hex", "0100", ["before"]]);
    assert.deepEqual(
        one("dn: CN=x \u2028 y\nnTSecurityDescriptor::  AQ==\n"), ["CN=x \u2028 y", "base64", "AQ==", ["before"]]);
    assert.deepEqual(one("Path : \"C:\\a\",\nSddl : O:BA"), ["C:\\a", "sddl", "O:BA", ["before", "before"]]);
});

// A front that the library refuses, and what is found behind a text around it. A drive and a label are no front.
const FRONTS = [
    "O:D:(A;;FA;;;WD)", "O:G:SYD:(A;;FA;;;WD)", "O:S-15 D:(A;;FA;;;WD)", "o:s-15\td:(A;;FA;;;WD)",
    "O:G: D:(A;;FA;;;WD)", "G:1 D:P(A;;FA;;;BA)", "O:S-15 G:S-15 D:(A;;FA;;;WD)", "O:\"S-1-5-18\"D:(A;;FA;;;WD)",
    "D:X S:(AU;SA;FA;;;WD)", "D:P X O:BA"
];
const AROUND = [
    ["", ""], ["Sddl : ", ""], ["C:\\Data\n", "\nC:\\Temp"], ["D:\\Data ", ""], ["G:/x ", ""], ["Drive D: has ", ""],
    ["INFO:", ""]
];

test("a front that can't be read stays with its descriptor, so that it is refused", () => {
    for (const front of FRONTS) {
        for (const [before, after] of AROUND) {
            const all = descriptorsIn(`${before}${front}${after}`, "auto").map(({line}) => line);
            assert.deepEqual(all, [front], before);
        }
    }
    for (const lines of [["O:S-15", "D:(A;;FA;;;WD)"], ["O:", "G:SYD:(A;;FA;;;WD)"], ["O:BAG:SY", "D:X(A;;FA;;;WD)"],
             ["O:BA", "G:", "D:(A;;FA;;;WD)"], ["D:X", "S:(AU;SA;FA;;;WD)"],
             ["D:(A;;FA;;;BA)", "S:XX(AU;SA;FA;;;WD)"]]) {
        for (const end of ["\n", "\r\n", "\n\n"]) {
            assert.deepEqual(descriptorsIn(`x\n${lines.join(end)}\n`, "auto").map(({line}) => line), [lines.join("")]);
        }
    }
    assert.deepEqual(descriptorsIn("D:(A;;FA;;;BA)\nD:X(A;;FA;;;WD)", "auto").map(({line}) => line),
        ["D:(A;;FA;;;BA)", "D:X(A;;FA;;;WD)"]);
    for (const before of ["D:\\Data ", "G:/x ", "Drive D: has ", "INFO:", "D:\\Data\n", "\"D:\\Data\",\""]) {
        assert.deepEqual(
            descriptorsIn(`${before}O:BAD:(A;;FA;;;WD)`, "auto").map(({line}) => line), ["O:BAD:(A;;FA;;;WD)"], before);
    }
});

test("what spells no bytes is marked as a whole character", () => {
    for (const [form, text, number] of [["hex", "01\u{1f600}02", 2], ["base64", "AQ\u{1f600}AE", 4]]) {
        const {start, end} = placeOf(refusing, form, text, {number, part: null});
        assert.deepEqual([start, end], [2, 4], form);
    }
});

test("an address says which kind of object somebody chose", () => {
    for (const kind of Object.keys(KINDS)) {
        const state = {...freshState(), kind, isKindChosen: true};
        const taken = freshState();
        assert.deepEqual(takeAddress(taken, addressOf(state, freshState())), [], kind);
        assert.deepEqual([taken.kind, taken.isKindChosen], [kind, true]);
    }
    const taken = freshState();
    assert.deepEqual(takeAddress(taken, "kind=x"), ["kind=x"]);
    assert.deepEqual([taken.kind, taken.isKindChosen], ["folder", false]);
});

test("an ACE for children applies to nothing where none inherits it", () => {
    const where = (kind, ...flags) => whereOf(kind, {flags, inherited: null});
    for (const [kind, ...flags] of [
             ["folder", "IO"], ["key", "OI", "IO"], ["ds", "OI", "IO"], ["service", "CI", "IO"], ["wmi", "OI", "IO"]]) {
        assert.equal(where(kind, ...flags), WORDS.where.nothing, `${kind} ${flags}`);
    }
    for (const [kind, ...flags] of [["folder", "OI", "IO"], ["key", "CI", "IO"], ["ds", "CI", "IO"],
             ["printer", "OI", "IO"], ["service", "CI"]]) {
        assert.notEqual(where(kind, ...flags), WORDS.where.nothing, `${kind} ${flags}`);
        assert.ok(where(kind, ...flags), `${kind} ${flags}`);
    }
});

test("a line of a list that is no descriptor is told, but no heading and nothing that goes with a list", () => {
    const list = ["C:\\A D:(A;;FA;;;BA)", "C:\\B: access is denied", "C:\\C D:(A;;FA;;;BA)", "D:(A;;FA;;;BA)", "x"];
    const strays = (...lines) => straysIn(descriptorsIn(lines.join("\n"), "auto"));
    assert.deepEqual(strays(...list), []);
    assert.deepEqual(strays("D:(A;;FA;;;BA)", ...list), ["C:\\B: access is denied", "x"]);
    assert.deepEqual(strays("Name,Sddl", "C:\\A,D:(A;;FA;;;BA)", "C:\\B,D:(A;;FA;;;BA)"), []);
    assert.deepEqual(
        strays("C:\\A", "D:(A;;FA;;;BA)", "C:\\B", "D:(A;;FA;;;BA)", "Successfully processed 2 files"), []);
    const object = ["Path   : C:\\A", "Owner  : BUILTIN\\Administrators", "Sddl   : O:BAD:(A;;FA;;;BA)"];
    assert.deepEqual(strays(...object, ...object, "PS C:\\>"), ["PS C:\\>"]);
    assert.deepEqual(strays("D:(A;;FA;;;BA)", "x"), []);
});
