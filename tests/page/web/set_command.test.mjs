// The commands that set an edited descriptor: their quoting as PowerShell and a POSIX shell read it, names that hide
// something, and what icacls makes of a list by a model of Windows' documentation.
import assert from "node:assert/strict";
import {execFileSync} from "node:child_process";
import {test} from "node:test";

import {aceText} from "../../../web/library.mjs";
import {commandsFor} from "../../../web/set_command.mjs";
import {COMMANDS, KINDS} from "../../../web/windows.mjs";
import {WORDS} from "../../../web/words.mjs";
import {randomOf} from "./hostile.mjs";

const NAMES = 10_000;
const EDITS = 4000;
const words = WORDS.setCommands;

// An ACE as a model has it, and a descriptor as commands need it.
function aceOf(text) {
    const [kind, flags, mask, object, inherited, sid] = text.split(";");
    return {
        kind,
        flags: flags.match(/../g) ?? [],
        mask: Number(mask),
        object: object || undefined,
        inherited: inherited || undefined,
        sid
    };
}

function descriptorOf({owner = "S-1-5-18", group = "S-1-5-18", flags = "", dacl = [], sacl = [], labels = []}) {
    const [aces, audits, ml] = [dacl, sacl, labels].map((list) => list.map(aceOf));
    return {
        owner: owner && `O:${owner}`,
        group: group && `G:${group}`,
        dacl: `D:${flags}${aces.map(aceText).join("")}`,
        sacl: audits.length ? `S:${audits.map(aceText).join("")}` : "",
        label: ml.map(aceText).join(""),
        hex: "01",
        sids: {owner, group},
        isList: true,
        isProtected: flags.includes("P"),
        aces,
        audits,
        labels: ml
    };
}

const FULL = "A;;0x1f01ff;;;S-1-5-32-544";
const BEFORE = descriptorOf({dacl: [FULL]});
const AFTER = descriptorOf({dacl: [FULL, "A;;0x1200a9;;;S-1-5-32-545"]});
const toolsOf = (kind, name, before = BEFORE, after = AFTER) => commandsFor(kind, name, before, after);
const rowOf = (tool, ...given) => toolsOf(...given).find((row) => row.tool === tool);

// What PowerShell makes of a command: its words, by the grammar of Windows PowerShell Language
// Specification 3.0, 2.3.5.2, in which five characters begin and end a text that is taken as it is, and two of them in
// it are one. Outside such a text a command of this page has only characters that mean nothing else.
const QUOTES = "'\u2018\u2019\u201a\u201b";
const PLAIN = /[A-Za-z0-9$.=@{}(),:/\\_ \n-]/;

function wordsOfPowershell(text) {
    const found = [];
    let word = null;
    for (let at = 0; at < text.length; at += 1) {
        if (QUOTES.includes(text[at])) {
            word ??= "";
            for (at += 1; !(QUOTES.includes(text[at]) && !QUOTES.includes(text[at + 1])); at += 1) {
                assert.ok(at < text.length, `no end: ${text}`);
                at += QUOTES.includes(text[at]) ? 1 : 0;
                word += text[at];
            }
        } else {
            assert.match(text[at], PLAIN, text);
            if (text[at] === " " || text[at] === "\n" || text[at] === "(" || text[at] === ")" || text[at] === ",") {
                found.push(...(word === null ? [] : [word]));
                word = null;
            } else {
                word = (word ?? "") + text[at];
            }
        }
    }
    return word === null ? found : [...found, word];
}

// What a program gets of a word from PowerShell 5, which puts quotation marks around one with blanks and nothing else;
// by the rules of CommandLineToArgvW. Backslashes that end a path are as many as somebody likes.
function ofProgram(word) {
    const line = /\s/.test(word) ? `"${word}"` : word;
    assert.ok(!word.includes("\""), word);
    if (line === word) {
        return word.replace(/\\+$/, "");
    }
    const [, body, backslashes] = /^"([^]*?)(\\*)"$/.exec(line);
    assert.equal(backslashes.length % 2, 0, `the quotation mark is taken for one of the text: ${line}`);
    return body;
}

const PIECES = [
    ..."'\u2018\u2019\u201a\u201b\"\u201c\u201d\u201e`$;|&<>(){}[]@#%!^*?~+=,./\\ \t\n\r\0-", "\u001b", "\u202e",
    "\u200b", "\ud800", "\ufffd", "''", "'; Remove-Item C:\\ ;'", "$(id)", "`id`", "\\'", "\\\\", "%b", "\\0101", "--",
    "-q", "a", "B", "7", "é", "日本", "\u05d0\u05d1", "\u{1f600}", "C:\\Data", "D:\\My Dir\\", "//server/share/",
    "\\\\server\\share\\", "/srv/a b", "'\\''"
];

function* hostileNames(seed) {
    const random = randomOf(seed);
    for (let count = 0; count < NAMES; count += 1) {
        yield Array.from({length: 1 + random(6)}, () => PIECES[random(PIECES.length)]).join("");
    }
}

const isBroken = (name) => /[\ufffd\p{Cs}]/u.test(name);
const isHidden = (name) => /[\p{Cc}\p{Cf}\p{Zl}\p{Zp}]/u.test(name);

// The name that a command should have in its words, by how the name is written.
const KINDS_OF_NAMES = ["folder", "service", "log", "share", "printer", "ds"];
const ofPowershell = COMMANDS.filter(({shell}) => shell === "powershell").map(({tool}) => tool);

test("PowerShell reads of each hostile name the name, or there is no command", () => {
    const counts = {offered: 0, refused: 0};
    for (const name of hostileNames(95)) {
        for (const kind of KINDS_OF_NAMES) {
            for (const {tool, text, why} of toolsOf(kind, name).filter((row) => ofPowershell.includes(row.tool))) {
                const native = COMMANDS.find((one) => one.tool === tool).native;
                if (!text) {
                    counts.refused += 1;
                    assert.ok(why.endsWith("."), why);
                    assert.ok(isBroken(name) || isHidden(name) || (native && /"|^[-/]|^[A-Za-z]:.*"/.test(name)) ||
                            tool === "wevtutil sl",
                        `${tool} ${JSON.stringify(name)}: ${why}`);
                    continue;
                }
                counts.offered += 1;
                assert.ok(!isBroken(text) && !/[\0-\x09\x0b-\x1f\x7f]/.test(text), JSON.stringify(text));
                const all = wordsOfPowershell(text).map((word) => (native ? ofProgram(word) : word));
                // A share on a server, a path with other separators.
                const unc = /^(?:\\\\|\/\/)(?![?.][\\/])[^\\/]+[\\/]([^\\/]+)/.exec(name);
                const meant = kind === "share" && unc ? unc[1] :
                    kind === "folder" && unc          ? name.replaceAll("/", "\\") :
                                                        name;
                const bare = native && !/\s/.test(meant) ? meant.replace(/\\+$/, "") : meant;
                const told = native && /\s/.test(meant) ? meant.replace(/\\+$/, "") : bare;
                assert.ok(name.trim() === "" || all.includes(told),
                    `${JSON.stringify(name)}: ${text}: ${JSON.stringify(all)}`);
            }
        }
    }
    assert.ok(counts.offered > 40_000 && counts.refused > 20_000, JSON.stringify(counts));
});

// What a shell gives a program: each command's words, as a stub in the place of the program prints them.
function wordsOfShell(texts) {
    const script = "stub() { printf '%s\\0' \"$#\" \"$@\"; }\n" +
        texts.map((text) => text.replace(/^(?:samba-tool|smbcacls|sharesec) /, "stub ")).join("\n");
    const printed = execFileSync("sh", ["-s"], {input: script, maxBuffer: 1 << 30}).toString().split("\0").slice(0, -1);
    const all = [];
    for (let at = 0; at < printed.length; at += Number(printed[at]) + 1) {
        all.push(printed.slice(at + 1, at + 1 + Number(printed[at])));
    }
    return all;
}

test("a shell reads of each hostile name the name, or there is no command", () => {
    const rows = [];
    for (const name of hostileNames(96)) {
        for (const kind of ["file", "share"]) {
            for (const {tool, shell, text, why} of toolsOf(kind, name)) {
                if (shell === "posix" && text) {
                    assert.doesNotMatch(text.replace(/\n+'?$/, ""), /[\p{Cc}\p{Cf}\p{Zl}\p{Zp}]/u);
                    rows.push({name, tool, text});
                } else if (shell === "posix") {
                    assert.ok(why && (isBroken(name) || name.includes("\0")), JSON.stringify(name));
                }
            }
        }
    }
    const told = wordsOfShell(rows.map(({text}) => text));
    assert.ok(rows.length > 10_000 && told.length === rows.length, `${rows.length} ${told.length}`);
    for (const [at, {name, tool, text}] of rows.entries()) {
        const unc = /^(?:\\\\|\/\/)(?![?.][\\/])([^\\/]+)[\\/]([^\\/]+)[\\/]*/.exec(name);
        const meant = tool === "samba-tool" ?
            [name.startsWith("-") ? `./${name}` : name] :
            tool === "sharesec" ?
            [unc ? unc[2] : name] :
            [`//${unc?.[1]}/${unc?.[2]}`, name.slice(unc?.[0].length).replaceAll("/", "\\") || "\\"];
        const end = told[at].slice(-meant.length);
        assert.ok(
            name.trim() === "" || JSON.stringify(end) === JSON.stringify(meant), `${JSON.stringify(meant)}: ${text}`);
        // No option comes of a name.
        assert.ok(tool === "samba-tool" ? !end[0].startsWith("-") : told[at].at(-meant.length - 1) === "--", text);
    }
});

test("SDDL, sections and names of each kind's commands", () => {
    const rows = [
        [
            "file", "D:\\Data", "Set-Acl",
            "$a = Get-Acl -LiteralPath 'D:\\Data'\n$a.SetSecurityDescriptorSddlForm(" +
                "'D:(A;;0x1f01ff;;;S-1-5-32-544)(A;;0x1200a9;;;S-1-5-32-545)', 'Access')\nSet-Acl -LiteralPath 'D:\\Data' -AclObject $a"
        ],
        ["folder", "D:\\My Dir\\", "icacls", "icacls 'D:\\My Dir\\\\' /grant '*S-1-5-32-545:(RX)'"],
        ["key", "HKLM:\\SOFTWARE\\X", "Set-Acl", "Registry::HKEY_LOCAL_MACHINE\\SOFTWARE\\X"],
        ["key", "Microsoft.PowerShell.Core\\Registry::HKEY_USERS\\X", "Set-Acl", "'Registry::HKEY_USERS\\X'"],
        [
            "service", "Spooler", "sc.exe",
            "sc.exe sdset 'Spooler' 'D:(A;;0x1f01ff;;;S-1-5-32-544)(A;;0x1200a9;;;S-1-5-32-545)'"
        ],
        ["service", "Security", "sc.exe", "sc.exe sdset '<NAME>' "],
        ["service-manager", "", "sc.exe", "sc.exe sdset scmanager 'D:("],
        ["log", "Windows PowerShell", "wevtutil sl", "wevtutil sl 'Windows PowerShell' '/ca:O:S-1-5-18G:S-1-5-18D:("],
        [
            "share", "\\\\server\\data", "Set-SmbShare",
            "Set-SmbShare -Name 'data' -SecurityDescriptor 'O:S-1-5-18G:S-1-5-18D:("
        ],
        ["printer", "Ann's", "Set-Printer", "Set-Printer -Name 'Ann''s' -PermissionSDDL 'O:S-1-5-18G:S-1-5-18D:("],
        [
            "ds", "CN=Ann,DC=x", "Set-ADObject",
            "$o = Get-ADObject -Identity 'CN=Ann,DC=x' -Properties nTSecurityDescriptor\n$d = $o.nTSecurityDescriptor\n"
        ],
        [
            "com", "LaunchPermission", "reg",
            "reg add 'HKLM\\SOFTWARE\\Classes\\AppID\\<APPID>' /v 'LaunchPermission' /t REG_BINARY /d '01' /f"
        ],
        [
            "com", "MachineLaunchRestriction", "reg",
            "reg add 'HKLM\\SOFTWARE\\Microsoft\\Ole' /v 'MachineLaunchRestriction' "
        ],
        [
            "file", "/srv/a'b", "samba-tool",
            "samba-tool ntacl set 'O:S-1-5-18G:S-1-5-18D:(A;;0x1f01ff;;;S-1-5-32-544)(A;;0x1200a9;;;S-1-5-32-545)' '/srv/a'\\''b'"
        ],
        ["file", "//srv/share/a/b", "smbcacls", "-- '//srv/share' 'a\\b'"],
        ["share", "data", "sharesec", "sharesec --setsddl='O:S-1-5-18G:S-1-5-18D:("],
    ];
    for (const [kind, name, tool, text] of rows) {
        const row = rowOf(tool, kind, name);
        assert.ok(row.text.includes(text), `${tool} ${kind}: ${row.text} ${row.why}, not ${text}`);
    }
    // Samba takes numbers alone, and what is behind an empty list for its flags.
    const audit = "AU;SA;0x1f01ff;;;S-1-1-0";
    const named = {...descriptorOf({dacl: [FULL], sacl: [audit]}), owner: "O:SY", dacl: "D:(A;;FA;;;BA)"};
    const emptied = descriptorOf({dacl: [], sacl: [audit]});
    for (const [tool, after, pattern] of [
             ["samba-tool", named, /'O:S-1-5-18G:S-1-5-18D:\(A;;0x1f01ff;;;S-1-5-32-544\)S:\(AU[^']*'/],
             ["samba-tool", emptied, /'[^']*S:\(AU[^']*D:'/], ["Set-Acl", named, /'O:SYD:\(A;;FA;;;BA\)S:/]]) {
        assert.match(rowOf(tool, "file", "", BEFORE, after).text, pattern);
    }
    const without = Object.keys(KINDS).filter((kind) => !COMMANDS.some(({kinds}) => kinds.includes(kind)));
    assert.deepEqual(
        without, ["print-server", "task", "pipe", "wmi", "process", "authority", "delegation", "managed-password"]);
    for (const kind of without) {
        assert.deepEqual(toolsOf(kind, "x").map(({text, why}) => [text, why]), [["", "No command sets this."]], kind);
    }
    assert.deepEqual(toolsOf("file", "x", AFTER, AFTER), []);
    const tools = (name) => toolsOf("file", name).map(({tool}) => tool);
    assert.deepEqual(["C:\\x", "/srv/x", "\\\\server\\share\\x", ""].map(tools), [
        ["Set-Acl", "icacls"], ["samba-tool"], ["Set-Acl", "icacls", "smbcacls"],
        ["Set-Acl", "icacls", "samba-tool", "smbcacls"]
    ]);
});

test("what a command can't set is said beside it", () => {
    const {parts} = words;
    const audit = "AU;SA;0x1f01ff;;;S-1-1-0";
    const label = "ML;;0x1;;;S-1-16-8192";
    const [own, inherited] = [FULL, "A;ID;0x1200a9;;;S-1-5-32-545"];
    const all = descriptorOf({owner: "S-1-5-32-544", group: "S-1-5-32-545", dacl: [], sacl: [audit], labels: [label]});
    const left = (tool, kind, name, before, after) => rowOf(tool, kind, name, before, after).leavesOut;
    for (const [tool, kind, name, expected] of [["Set-Acl", "file", "x", [parts.label]],
             ["sc.exe", "service", "x", [parts.owner, parts.group, parts.label]],
             ["wevtutil sl", "log", "x", [parts.sacl, parts.label]],
             ["Set-SmbShare", "share", "x", [parts.sacl, parts.label]],
             ["Set-Printer", "printer", "x", [parts.sacl, parts.label]],
             ["Set-ADObject", "ds", "x", [parts.sacl, parts.label]], ["reg", "com", "LaunchPermission", []],
             ["samba-tool", "file", "/x", [parts.label]], ["smbcacls", "file", "//a/b/c", [parts.sacl, parts.label]],
             ["sharesec", "share", "x", [parts.label]], ["icacls", "file", "x", [parts.group, parts.sacl]]]) {
        assert.deepEqual(left(tool, kind, name, BEFORE, all), expected, tool);
    }
    const [first, second] = [[own, inherited], [own]].map((dacl) => descriptorOf({flags: "AI", dacl}));
    for (const [tool, kind] of [
             ["Set-Acl", "file"], ["Set-Acl", "key"], ["Set-ADObject", "ds"], ["Set-ADObject", "template"]]) {
        assert.deepEqual(left(tool, kind, "x", first, second), [parts.inherited], `${tool} ${kind}`);
        assert.deepEqual(left(tool, kind, "x", first, descriptorOf({flags: "AI", dacl: [own, own, inherited]})), []);
        const kept = descriptorOf({flags: "PAI", dacl: [own, inherited.replace("ID", "")]});
        assert.deepEqual(left(tool, kind, "x", first, kept), []);
        assert.deepEqual(
            left(tool, kind, "x", first, descriptorOf({flags: "PAI", dacl: [own, inherited]})), [parts.inherited]);
        assert.deepEqual(rowOf(tool, kind, "x", kept, second).notes, [words.inherits]);
        const other = "A;;0x1;;;S-1-5-18";
        const moved = [[own, other], [other, own]].map((dacl) => descriptorOf({dacl}));
        assert.deepEqual(left(tool, kind, "x", ...moved), [parts.order]);
        assert.deepEqual(left("smbcacls", "file", "", ...moved), [parts.order]);
        assert.deepEqual(left("samba-tool", "file", "", ...moved), []);
    }
    const audited = rowOf("Set-Acl", "file", "x", BEFORE, descriptorOf({dacl: [FULL], sacl: [audit]}));
    assert.ok(audited.text.includes("-Audit\n") && audited.text.includes("'Audit')"), audited.text);
    assert.deepEqual(audited.notes, [words.privilege]);
    const cleared = rowOf("Set-Acl", "file", "x", descriptorOf({dacl: [FULL], sacl: [audit]}), BEFORE);
    assert.ok(cleared.text.includes("('S:', 'Audit')"), cleared.text);
    assert.deepEqual(rowOf("Set-Acl", "file", "x", BEFORE, descriptorOf({owner: "", dacl: [FULL]})), undefined);
    const ownerless = descriptorOf({owner: "", dacl: []});
    assert.deepEqual(left("Set-Acl", "file", "x", BEFORE, ownerless), [parts.owner]);
    for (const [tool, kind, name] of [
             ["wevtutil sl", "log", "x"], ["samba-tool", "file", "/x"], ["reg", "com", "LaunchPermission"]]) {
        assert.equal(rowOf(tool, kind, name, BEFORE, ownerless).why, words.why.owner.replace("{tool}", tool));
    }
    const unlisted = {...AFTER, isList: false, dacl: "D:NO_ACCESS_CONTROL"};
    for (const {kinds, tool, by} of COMMANDS.filter((one) => one.by !== "bytes")) {
        const {text, why} = rowOf(tool, kinds[0], "", BEFORE, unlisted);
        assert.deepEqual([text, why], ["", words.why.list], `${tool} ${by}`);
    }
    const unknown = descriptorOf({dacl: [FULL, "A;;0x1;;;S-1-5-21-0-0-0-512"]});
    for (const [tool, kind] of [["icacls", "file"], ["dsacls", "ds"], ["reg", "com"], ["samba-tool", "file"],
             ["smbcacls", "file"], ["sharesec", "share"]]) {
        assert.equal(rowOf(tool, kind, "", BEFORE, unknown).why, words.why.domain.replace("{tool}", tool));
    }
    const odd = descriptorOf({dacl: [FULL, "A;;0x1;;;S-1-0x100000000-5"]});
    for (const [tool, kind] of [["samba-tool", "file"], ["smbcacls", "file"], ["sharesec", "share"]]) {
        assert.equal(rowOf(tool, kind, "", BEFORE, odd).why, words.why.sid.replace("{tool}", tool));
    }
});

test("dsacls adds one grant, and nothing else", () => {
    const user = "bf967aba-0de6-11d0-a285-00aa003049e2";
    const member = "bf9679c0-0de6-11d0-a285-00aa003049e2";
    const [reset, logon] = ["00299570-246d-11d0-a768-00aa006e0529", "5f202010-79a5-11d0-9020-00c04fc2d4cf"];
    const unknown = "91d67418-0135-4acc-8d79-c08e857cfbec"; // a right that nothing here tells the shown name of
    const step = (...aces) =>
        rowOf("dsacls", "ds", "CN=x", BEFORE, descriptorOf({dacl: [FULL, ...aces]}))?.text ?? null;
    for (const [ace, expected] of [["A;CI;0x10000000;;;S-1-1-0", "dsacls 'CN=x' /I:T /G 'S-1-1-0:GA'"],
             [`OA;;0x30;${member};;S-1-1-0`, "dsacls 'CN=x' /G 'S-1-1-0:RPWP;member'"],
             [`OA;CIIO;0x30;${member};${user};S-1-1-0`, "dsacls 'CN=x' /I:S /G 'S-1-1-0:RPWP;member;user'"],
             [`OA;CIIO;0x30;;${user};S-1-1-0`, "dsacls 'CN=x' /I:S /G 'S-1-1-0:RPWP;;user'"],
             [`OA;CI;0x1;${user};;S-1-1-0`, "dsacls 'CN=x' /I:T /G 'S-1-1-0:CC;user'"],
             [`OA;CIIO;0x100;${reset};${user};S-1-1-0`, "dsacls 'CN=x' /I:S /G 'S-1-1-0:CA;Reset Password;user'"],
             [`OA;;0x30;${logon};;S-1-1-0`, "dsacls 'CN=x' /G 'S-1-1-0:RPWP;Logon Information'"],
             [`OA;;0x8;${member};;S-1-1-0`, "dsacls 'CN=x' /G 'S-1-1-0:WS;Add/Remove self as member'"],
             // A name that isn't known, other flags, a denial, bits without letters.
             [`OA;;0x100;${unknown};;S-1-1-0`, null], ["A;CINP;0x1;;;S-1-1-0", null], ["D;;0x1;;;S-1-1-0", null],
             ["A;;0x200;;;S-1-1-0", null]]) {
        assert.equal(step(ace), expected, ace);
    }
    assert.equal(step("A;;0x1;;;S-1-1-0", "A;;0x2;;;S-1-1-0"), null);
    assert.equal(rowOf("dsacls", "ds", "CN=x", AFTER, BEFORE), undefined);
    // It can't stop an object from inheriting.
    const stopped = descriptorOf({flags: "P", dacl: [FULL, "A;;0x1;;;S-1-1-0"]});
    assert.equal(rowOf("dsacls", "ds", "CN=x", BEFORE, stopped), undefined);
});

// icacls by Windows' documentation: what an operation makes of a list. Letters and masks are those of its help and of
// winnt.h.
const LETTERS = {
    F: 0x1f01ff,
    M: 0x1301bf,
    RX: 0x1200a9,
    R: 0x120089,
    DE: 0x10000,
    RC: 0x20000,
    WDAC: 0x40000,
    WO: 0x80000,
    S: 0x100000,
    GR: 0x80000000,
    GW: 0x40000000,
    GE: 0x20000000,
    GA: 0x10000000,
    RD: 0x1,
    WD: 0x2,
    AD: 0x4,
    REA: 0x8,
    WEA: 0x10,
    X: 0x20,
    DC: 0x40,
    RA: 0x80,
    WA: 0x100
};
const isOwn = ({flags}) => !flags.includes("ID");

function entryIn(text) {
    const [, sid, groups] = /^\*(S-1[0-9-]+):((?:\([A-Z,]+\))+)$/.exec(text);
    const all = groups.slice(1, -1).split(")(");
    const mask = all.at(-1).split(",").reduce((bits, name) => {
        assert.ok(LETTERS[name], name);
        return (bits | LETTERS[name]) >>> 0;
    }, 0);
    return {sid, flags: all.slice(0, -1), mask};
}

function afterStep(aces, line) {
    const [program, path, step, word] = wordsOfPowershell(line);
    assert.deepEqual([program, path], ["icacls", "x"]);
    const isOf = (kind, sid) => (ace) => isOwn(ace) && ace.kind === kind && ace.sid === sid;
    const put = (list, kind, {sid, flags, mask}) => {
        const same = list.find((ace) => isOf(kind, sid)(ace) && ace.flags.join() === flags.join());
        return same ? list.map((ace) => (ace === same ? {...ace, mask: (ace.mask | mask) >>> 0} : ace)) :
                      [...list, {kind, sid, flags, mask}];
    };
    if (step === "/inheritance:d") {
        return aces.map((ace) => ({...ace, flags: ace.flags.filter((flag) => flag !== "ID")}));
    }
    if (step === "/inheritance:r") {
        return aces.filter(isOwn);
    }
    if (step === "/remove:g" || step === "/remove:d") {
        const [, sid] = /^\*(S-1[0-9-]+)$/.exec(word);
        return aces.filter((ace) => !isOf(step === "/remove:g" ? "A" : "D", sid)(ace));
    }
    const entry = entryIn(word);
    if (step === "/deny") {
        const cut =
            aces.map((ace) => (isOf("A", entry.sid)(ace) ? {...ace, mask: (ace.mask & ~entry.mask) >>> 0} : ace));
        return put(cut.filter(({mask}) => mask !== 0), "D", entry);
    }
    assert.ok(step === "/grant" || step === "/grant:r", step);
    return put(step === "/grant" ? aces : aces.filter((ace) => !isOf("A", entry.sid)(ace)), "A", entry);
}

const CLASSES =
    [(ace) => isOwn(ace) && ace.kind === "D", (ace) => isOwn(ace) && ace.kind === "A", (ace) => !isOwn(ace)];
const inClasses = (aces) => CLASSES.map((isIn) => aces.filter(isIn).map(aceText).sort());

const FLAGS = ["", "OICI", "CI", "OICIIO", "OI"];
const MASKS = ["0x1f01ff", "0x1301bf", "0x1200a9", "0x120089", "0x2", "0x116", "0x10000000", "0x3"];

function anyList(random, count) {
    const ace = (kind, more) => {
        const flags = FLAGS[random(FLAGS.length)];
        return `${kind};${flags}${more};${MASKS[random(MASKS.length)]};;;S-1-5-32-${544 + random(4)}`;
    };
    const list = (most, kind, more) => Array.from({length: random(most)}, () => ace(kind, more));
    return [...list(2, "D", ""), ...list(count, "A", ""), ...list(3, "A", "ID")];
}

function edited(random, list) {
    const own = list.filter((ace) => !ace.includes("ID;"));
    const at = random(own.length || 1);
    const other = anyList(random, 3).filter((ace) => !ace.includes("ID;"));
    const kinds = (aces) => [...aces.filter((ace) => ace[0] === "D"), ...aces.filter((ace) => ace[0] === "A")];
    const acts = [
        () => [...kinds([...own, ...other.slice(0, 1)]), ...list.slice(own.length)],
        () => list.filter((_, place) => place !== at), () => other,
        () => [...kinds(
                   own.map((ace, place) => (place === at ? ace.replace(/0x\w+/, MASKS[random(MASKS.length)]) : ace))),
            ...list.slice(own.length)],
        () => [...kinds([...own, ...list.slice(own.length).map((ace) => ace.replace("ID;", ";"))])], () => own,
        () => [...kinds([...own, ...other]), ...list.slice(own.length)], () => list.toReversed()
    ];
    return acts[random(acts.length)]();
}

test("the operations of icacls give exactly the edited list, or are not offered", () => {
    const random = randomOf(7);
    const counts = {};
    let steps = 0;
    for (let count = 0; count < EDITS; count += 1) {
        const dacl = anyList(random, 5);
        const wasProtected = random(4) === 0;
        const isProtected = random(3) === 0 ? !wasProtected : wasProtected;
        const before = descriptorOf({flags: wasProtected ? "P" : "AI", dacl});
        const after = descriptorOf({flags: isProtected ? "P" : "AI", dacl: edited(random, dacl)});
        const row = rowOf("icacls", "folder", "x", before, after);
        if (!row) {
            continue;
        }
        const {text, why} = row;
        counts[why] = (counts[why] ?? 0) + 1;
        if (text) {
            const lines = text.split("\n");
            steps += lines.length;
            const made = lines.reduce(afterStep, before.aces);
            assert.deepEqual(
                inClasses(made), inClasses(after.aces), `${JSON.stringify([before.dacl, after.dacl])}\n${text}`);
            assert.equal(lines.some((line) => line.includes("/inheritance:")), isProtected && !wasProtected, text);
        }
    }
    assert.ok(counts[""] > EDITS / 4 && steps > EDITS / 3, JSON.stringify(counts));
    const {order, inherited, inherits, twice, both} = words.why;
    assert.ok([order, inherited, inherits, twice, both].every((one) => counts[one] > 10), JSON.stringify(counts));
});

test("simple edits are simple operations of icacls", () => {
    const [users, admins] = ["*S-1-5-32-545", "*S-1-5-32-544"];
    const read = "A;OICI;0x1200a9;;;S-1-5-32-545";
    const step = (before, after, more = {}, other = {}) => rowOf(
        "icacls", "folder", "x", descriptorOf({dacl: before, ...more}), descriptorOf({dacl: after, ...more, ...other}));
    const lines = (...given) =>
        step(...given).text.split("\n").map((line) => wordsOfPowershell(line).slice(2).join(" "));
    assert.deepEqual(lines([FULL], [FULL, read]), [`/grant ${users}:(OI)(CI)(RX)`]);
    assert.deepEqual(lines([FULL, read], [FULL]), [`/remove:g ${users}`]);
    assert.deepEqual(lines([FULL, read], [FULL, read.replace("200a9", "301bf")]), [`/grant ${users}:(OI)(CI)(M)`]);
    assert.deepEqual(lines([FULL, read], [FULL, read.replace("0x1200a9", "0x2")]), [`/grant:r ${users}:(OI)(CI)(WD)`]);
    assert.deepEqual(lines([FULL, read], ["D;;0x2;;;S-1-5-32-545", FULL, read]), [`/deny ${users}:(WD)`]);
    assert.deepEqual(lines(["D;;0x2;;;S-1-5-32-545", FULL], [FULL]), [`/remove:d ${users}`]);
    const inherited = [FULL, read.replace("OICI", "OICIID")];
    assert.deepEqual(lines(inherited, [FULL, read], {flags: "AI"}, {flags: "P"}), ["/inheritance:d"]);
    assert.deepEqual(lines(inherited, [FULL], {flags: "AI"}, {flags: "P"}), ["/inheritance:r"]);
    assert.deepEqual(lines([FULL], [FULL], {}, {owner: "S-1-5-32-544"}), [`/setowner ${admins}`]);
    assert.deepEqual(
        lines([FULL], [FULL], {}, {labels: ["ML;OICI;0x1;;;S-1-16-4096"]}), ["/setintegritylevel (OI)(CI)L"]);
    assert.equal(step([FULL], [FULL], {}, {labels: ["ML;;0x3;;;S-1-16-4096"]}), undefined);
    const {flags, rights, kind} = words.why;
    assert.equal(rowOf("icacls", "file", "x", BEFORE, descriptorOf({dacl: [FULL, read]})).why, flags);
    assert.equal(step([FULL], [FULL, "A;;0x200;;;S-1-1-0"]).why, rights);
    assert.equal(step([FULL], [FULL, "A;;0x0;;;S-1-1-0"]).why, rights);
    assert.equal(step([FULL], [FULL, "OA;;0x1;;;S-1-1-0"]).why, kind);
});
