// module.mjs FOLDER
//
// Tests of the JavaScript module in FOLDER that no line asks: errors, arguments of the wrong type, buffers that are
// gone or change, large inputs, sources to load from, answers that stay as they are, and memory that stays as large as
// it is. The last line is 'N passed, M failed'.
import {readFileSync} from "node:fs";
import {pathToFileURL} from "node:url";
import vm from "node:vm";

const [folder] = process.argv.slice(2);
const address = pathToFileURL(`${folder}/`);
const {load, hasVectors, Fault, ArgumentFault} = await import(new URL("sdtool.mjs", address));
// The memory of the first module that is loaded.
const memories = [], {instantiate} = WebAssembly;
WebAssembly.instantiate = async (...given) => {
    const instance = await instantiate(...given);
    memories.push(instance.exports.memory);
    return instance;
};
const sdtool = await load();
WebAssembly.instantiate = instantiate;
let passed = 0, failed = 0;

function add(isRight, what) {
    if (isRight) passed += 1;
    else {
        failed += 1;
        console.log(`FAIL ${what}`);
    }
}

// What a call throws; undefined if it throws nothing.
function thrown(call) {
    try {
        call();
    } catch (error) {
        return error;
    }
    return undefined;
}

// What faults mean, by the tables of docs/FORMAT.md.
const FORMAT = readFileSync(new URL("../../../docs/FORMAT.md", import.meta.url), "utf8");
const MEANINGS = new Map([...FORMAT.matchAll(/^\| `error (\d+) [^`|]*` \| (.*?) \|/gm)].map(
    ([, number, meaning]) => [Number(number), meaning.replace(/\[([^\]]*)\]\([^)]*\)/g, "$1").replaceAll("`", "")]));

// A message has the meaning between the line and the place.
const withMeaning = (fault, message) =>
    message.replace(fault.line, () => `${fault.line}: ${MEANINGS.get(fault.number)}`);

function addFault(call, number, name, part, otherPart, saidWithout) {
    const fault = thrown(call), message = fault instanceof Fault ? withMeaning(fault, saidWithout) : saidWithout;
    add(fault instanceof Fault && fault instanceof Error && fault.number === number && fault.name === name &&
            fault.part === part && fault.otherPart === otherPart && fault.message === message,
        `${message}: ${fault}`);
}

// A call that is refused, and which argument it is about where that is said.
function addRefused(what, call, argument, entry = null) {
    const fault = thrown(call);
    add(fault instanceof ArgumentFault && !(fault instanceof Fault) && fault.name === "ArgumentFault" &&
            fault.number === 70 && (argument === undefined || (fault.argument === argument && fault.entry === entry)),
        `${what}: ${fault}, ${fault?.argument} ${fault?.entry}`);
}

// A text that is no SID, with the argument that it stands for.
function addNoSid(what, call, number, argument, entry = null) {
    const fault = thrown(call);
    add(fault instanceof Fault && fault.number === number && fault.argument === argument && fault.entry === entry &&
            fault.line === `error ${number} ${fault.name}`,
        `${what}: ${fault}`);
}

const bytes = (hex) => Uint8Array.from(Buffer.from(hex, "hex"));
const SYSTEM = bytes("010100000000000512000000"), USERS = bytes("01020000000000052000000021020000");
const EMPTY = bytes("0100008000000000000000000000000000000000");
// MS-DTYP 2.4.6: an owner of which the end is beyond the descriptor, and an owner and a group at the same place.
const SHORT_OWNER = bytes("0100008014000000000000000000000000000000" +
    "0101000000000005");
const SAME_PLACE = bytes("0100008014000000140000000000000000000000" +
    "010100000000000512000000");
const OF_USERS = sdtool.fromSddl("O:BAD:(A;;FR;;;BU)");

addFault(() => sdtool.toSddl(new Uint8Array(0)), 5, "short", null, null, "error 5 short, at byte 0");
addFault(() => sdtool.toSddl(SHORT_OWNER), 9, "sid", "owner", null, "error 9 sid owner, at byte 20, the owner, SID");
addFault(() => sdtool.normalize(SAME_PLACE), 14, "overlap", "owner", "group",
    "error 14 overlap owner group, at byte 20, the group");
add(thrown(() => sdtool.normalize(SHORT_OWNER)).excerpt() ===
        "01000080140000000000000000000000000000000101000000000005\n" +
            " ".repeat(40) + "^".repeat(16),
    "the excerpt of a fault");
add(new Fault(5, "short").place === null && new Fault(5, "short").excerpt() === "", "a fault without a place");
// A text and the part, ACE, field, offset and size of its fault, and how the message ends.
for (const [text, number, name, part, place, said] of [
         ["O:BAx:", 20, "shape", null, ["owner", null, "sid", 5, 1], "at byte 5, the owner, SID"],
         ["D:(A;;FA;;;WD", 20, "shape", null, ["dacl", 0, "sid", 13, 0], "at byte 13, ACE 1 of the DACL, SID"],
         ["D:(A;;FA;;;WD)\u{1f600}", 20, "shape", null, ["dacl", null, null, 14, 2], "at byte 14, the DACL"],
         ["\ud800", 20, "shape", null, [null, null, null, 0, 1], "at byte 0"],
         ["O:SYO:SY", 21, "part-twice", null, ["owner", null, null, 4, 2], "at byte 4, the owner"],
         ["G: ZZ ", 22, "alias", null, ["group", null, "sid", 3, 2], "at byte 3, the group, SID"],
         ["D:(A;;FA;;;LA)", 23, "needs-domain", null, ["dacl", 0, "sid", 11, 2], "at byte 11, ACE 1 of the DACL, SID"],
         ["O:S-1-4294967296", 24, "number", null, ["owner", null, "sid", 2, 14], "at byte 2, the owner, SID"],
         [
             "D:(A;;FA;;;Everyone)", 25, "sid-form", null, ["dacl", 0, "sid", 11, 8],
             "at byte 11, ACE 1 of the DACL, SID"
         ],
         ["O:B\u2126", 25, "sid-form", null, ["owner", null, "sid", 2, 2], "at byte 2, the owner, SID"],
         ["O:\u2126D:\u00e9(", 20, "shape", null, ["dacl", 0, "kind", 7, 0], "at byte 10, ACE 1 of the DACL, kind"],
         ["D:PX", 26, "flags", null, ["dacl", null, "flags", 2, 2], "at byte 2, the DACL, flags"],
         ["S:(AU;XX;FA;;;WD)", 26, "flags", null, ["sacl", 0, "flags", 6, 2], "at byte 6, ACE 1 of the SACL, flags"],
         [
             "D:(A;;;;;WD)(A;;\u{1f600};;;WD)", 27, "rights", null, ["dacl", 1, "rights", 16, 2],
             "at byte 16, ACE 2 of the DACL, rights"
         ],
         [
             "D:(OA;;CC;x;;WD)", 28, "guid", null, ["dacl", 0, "object type", 10, 1],
             "at byte 10, ACE 1 of the DACL, object type"
         ],
         [
             "D:(OA;;CC;;x;WD)", 28, "guid", null, ["dacl", 0, "inherited object type", 11, 1],
             "at byte 11, ACE 1 of the DACL, inherited object type"
         ],
         ["D:(XA;;FA;;;WD)", 29, "kind", null, ["dacl", 0, "kind", 3, 2], "at byte 3, ACE 1 of the DACL, kind"],
         [
             `D:${"(A;;;;;WD)".repeat(3278)}`, 30, "acl-too-large", "dacl", ["dacl", 3276, null, 32762, 10],
             "at byte 32762, ACE 3277 of the DACL"
         ],
]) {
    const line = `error ${number} ${name}${part ? ` ${part}` : ""}`;
    addFault(() => sdtool.fromSddl(text), number, name, part, null, `${line}, ${said}`);
    const found = thrown(() => sdtool.fromSddl(text));
    add(JSON.stringify(Object.values(found.place)) === JSON.stringify(place),
        `${text.slice(0, 99)}: ${JSON.stringify(found.place)}`);
    add(found.excerpt().split("\n").length === 2 && found.line === line, `${text.slice(0, 99)}: ${found.excerpt()}`);
}
add(thrown(() => sdtool.fromSddl("O:\u202e\u{1f600}\ud800Z")).excerpt() === "O:?\u{1f600}?Z\n  ^^^^",
    "an excerpt of characters");
// Of a longer text 72 characters are shown, and as many on either side.
const LONG = `D:${"(A;;FA;;;WD)".repeat(9)}(A;;\u{1f600};;;WD)${"(A;;FA;;;WD)".repeat(9)}`;
add(thrown(() => sdtool.fromSddl(LONG)).excerpt() === `${[...LONG].slice(79, 151).join("")}\n${" ".repeat(35)}^`,
    "the middle of a text");
// The place of a text that is no SID is all of it, whatever it stands for.
for (const [text, number] of [["ZZ", 22], ["LA", 23], ["S-1-5-4294967296", 24], ["", 25], ["\u{1f600}", 25]])
    for (const [call, argument, entry] of [[() => sdtool.sidFromText(text), null, null],
             [() => sdtool.check(OF_USERS, ["WD", text], {wanted: 1}), "sids", 1],
             [() => sdtool.fromSddl("D:", {domain: text}), "domain", null],
             [() => sdtool.build({owner: text}), "owner", null],
             [() => sdtool.derive(OF_USERS, "BA", text), "group", null]]) {
        const fault = thrown(call);
        add(fault instanceof Fault && fault.number === number && fault.argument === argument && fault.entry === entry &&
                JSON.stringify(Object.values(fault.place)) === JSON.stringify([null, null, "sid", 0, text.length]) &&
                fault.message.endsWith(withMeaning(fault, `${fault.line}, at byte 0, SID`)) &&
                fault.meaning === MEANINGS.get(number) &&
                fault.excerpt() === `${text}\n${"^".repeat([...text].length || 1)}`,
            `${text}: ${fault}, ${JSON.stringify(fault?.place)}`);
    }
addFault(() => sdtool.fromSddl(" ".repeat(1049873)), 1, "too-long", null, null, "error 1 too-long");
addFault(() => sdtool.fromSddl("\u2126".repeat(1049873)), 1, "too-long", null, null, "error 1 too-long");
addFault(() => sdtool.explain(new Uint8Array(131227)), 1, "too-long", null, null, "error 1 too-long");
addFault(() => sdtool.check(EMPTY, [SYSTEM], {}), 50, "empty-request", null, null, "error 50 empty-request");
addFault(
    () => sdtool.check(EMPTY, [SYSTEM], {wanted: 1 << 26}), 51, "reserved-bits", null, null, "error 51 reserved-bits");

// Words, numbers and bytes that another language would round, cut or take for something else.
for (const descriptor of [undefined, null, "D:", 5, [], [1], {}, {length: 20}, new ArrayBuffer(20), new Int8Array(20),
         new Uint8ClampedArray(20), new DataView(new ArrayBuffer(20))])
    for (const call of ["toSddl", "explain", "normalize"])
        addRefused(`${call} of ${descriptor}`, () => sdtool[call](descriptor));
for (const text of [undefined, null, 5, [], new Uint8Array(2), new String("D:")])
    addRefused(`fromSddl of ${text}`, () => sdtool.fromSddl(text));
for (const domain of [null, 5, [], bytes("0101"), bytes("01010000000000051200000000"), EMPTY, new Uint8Array(500)]) {
    addRefused(`the domain ${domain}`, () => sdtool.toSddl(EMPTY, {domain}), "domain");
    addRefused(`the domain ${domain}`, () => sdtool.explain(EMPTY, {domain}), "domain");
    addRefused(`the domain ${domain}`, () => sdtool.fromSddl("D:", {domain}), "domain");
    addRefused(`the domain ${domain}`, () => sdtool.sidFromText("BA", {domain}), "domain");
    addRefused(`the domain ${domain}`, () => sdtool.sidToText(SYSTEM, {domain}), "domain");
}
for (const wanted of [-1, 1.5, NaN, Infinity, 2 ** 32, "1", null, true, 1n, [1], {}])
    addRefused(`wanted ${String(wanted)}`, () => sdtool.check(EMPTY, [SYSTEM], {wanted, maximum: true}));
for (const level of [-1, 0.5, NaN, 2 ** 32, "8192", false, 8192n])
    addRefused(`level ${String(level)}`, () => sdtool.check(EMPTY, [SYSTEM], {maximum: true, level}));
for (const flag of ["maximum", "security", "takeOwnership"])
    for (const value of [0, 1, "", "false", null, {}])
        addRefused(`${flag} ${value}`, () => sdtool.check(EMPTY, [SYSTEM], {wanted: 1, [flag]: value}), flag);
for (const value of [0, 1, "true", null]) addRefused(`numeric ${value}`, () => sdtool.toSddl(EMPTY, {numeric: value}));
for (const mapping of ["FILE", "directory", "", 0, null, "toString", ["file"]]) {
    addRefused(`mapping ${mapping}`, () => sdtool.check(EMPTY, [SYSTEM], {wanted: 1, mapping}));
    for (const call of ["derive", "origins"]) {
        addRefused(`mapping ${mapping}`, () => sdtool[call](EMPTY, SYSTEM, SYSTEM, {mapping}));
        addRefused(`kind ${mapping}`,
            () => sdtool[call](EMPTY, SYSTEM, SYSTEM, {kind: mapping === "FILE" ? "FILE" : mapping}));
    }
}
for (const name of ["denyonly", "deny_only", "want", "takeownership", "Level"])
    addRefused(`option ${name}`, () => sdtool.check(EMPTY, [SYSTEM], {wanted: 1, [name]: true}), name);
addRefused("an option of toSddl", () => sdtool.toSddl(EMPTY, {Domain: SYSTEM}));
addRefused("an option of fromSddl", () => sdtool.fromSddl("D:", {numeric: true}));
for (const call of ["derive", "origins"])
    addRefused(`an option of ${call}`, () => sdtool[call](EMPTY, SYSTEM, SYSTEM, {owner: SYSTEM}));
for (const sids of [undefined, null, SYSTEM, "SY", {}, new Set([SYSTEM])]) {
    addRefused(`sids ${sids}`, () => sdtool.check(EMPTY, sids, {wanted: 1}), "sids");
    addRefused(`sids ${sids}`, () => sdtool.checkMany([EMPTY], sids, {wanted: 1}), "sids");
    addRefused(`descriptors ${sids}`, () => sdtool.checkMany(sids, [SYSTEM], {wanted: 1}), "descriptors");
    if (sids !== undefined)
        addRefused(`denyOnly ${sids}`, () => sdtool.check(EMPTY, [SYSTEM], {wanted: 1, denyOnly: sids}), "denyOnly");
}
const twice = bytes("010100000000000512000000" +
    "010100000000000512000000");
for (const sid of [null, 5, [1], new Uint8Array(0), twice, SYSTEM.subarray(1), SYSTEM.subarray(0, 11),
         new Uint8Array(5000)]) {
    for (const list of [[sid, SYSTEM], [SYSTEM, sid], [SYSTEM, "BA", sid, twice]]) {
        const entry = list.indexOf(sid);
        addRefused(`sids ${list}`, () => sdtool.check(EMPTY, list, {wanted: 1}), "sids", entry);
        addRefused(`denyOnly ${list}`, () => sdtool.check(EMPTY, [USERS, "WD"], {wanted: 1, denyOnly: list}),
            "denyOnly", entry);
        addRefused(`sids of many, ${list}`, () => sdtool.checkMany([], list, {wanted: 1}), "sids", entry);
    }
    addRefused(`the SID ${sid}`, () => sdtool.sidToText(sid), "sid");
}
// eslint-disable-next-line no-sparse-arrays
addRefused("a hole", () => sdtool.check(EMPTY, [SYSTEM, , SYSTEM], {wanted: 1}), "sids", 1);
addRefused("a SID in two pieces", () => sdtool.check(EMPTY, [SYSTEM.subarray(0, 8), SYSTEM.subarray(8)], {wanted: 1}),
    "sids", 0);
addNoSid("a text in a token", () => sdtool.check(EMPTY, ["SY", "Everyone"], {wanted: 1}), 25, "sids", 1);
addNoSid("a text that is denied", () => sdtool.check(EMPTY, ["SY"], {wanted: 1, denyOnly: ["ZZ"]}), 22, "denyOnly", 0);
addNoSid("a principal", () => sdtool.check(EMPTY, ["SY"], {wanted: 1, principalSelf: "DA"}), 23, "principalSelf");
addNoSid("a domain", () => sdtool.fromSddl("", {domain: "S-1-5-4294967296"}), 24, "domain");
for (const text of ["", " ", "BA ", "S-1-5-18\0", "\ud800", "S-1-".repeat(5000)])
    addNoSid(`${text.slice(0, 20)}`, () => sdtool.derive(EMPTY, text, SYSTEM), 25, "owner");
for (const call of ["derive", "origins"])
    addNoSid("a group", () => sdtool[call](EMPTY, SYSTEM, "Everyone"), 25, "group");
const most = Array(1024).fill(SYSTEM);
add(sdtool.check(EMPTY, most, {wanted: 1}).granted, "the most SIDs");
addRefused("one SID too many", () => sdtool.check(EMPTY, [...most, SYSTEM], {wanted: 1}), "sids", 1024);
addRefused("one SID too many", () => sdtool.check(EMPTY, most, {wanted: 1, denyOnly: ["BA"]}), "sids", 1024);
addRefused("a token of one SID too many", () => sdtool.readToken([...most, SYSTEM]), "sids", 1024);
addRefused("a token of a text", () => sdtool.readToken("SY"), "sids");
addRefused("a token of a SID that is cut", () => sdtool.readToken(["SY"], {denyOnly: [SYSTEM.subarray(0, 11)]}),
    "denyOnly", 0);
addRefused("a token with a request", () => sdtool.readToken(["SY"], {wanted: 1}), "wanted");
addNoSid("a token of a name", () => sdtool.readToken(["SY", "Everyone"]), 25, "sids", 1);
const ofSystem = sdtool.readToken([SYSTEM]);
add(sdtool.checkWith(EMPTY, sdtool.readToken(most), {wanted: 1}).granted, "a token of the most SIDs");
add(sdtool.checkWith(EMPTY, new Uint8Array([...ofSystem, 1, 2, 3, 4]), {wanted: 1}).granted,
    "a token with more behind it");
for (const token of [undefined, null, "SY", [SYSTEM], SYSTEM, new Uint8Array(0), new Uint8Array(ofSystem.length),
         ofSystem.subarray(0, -1), new Uint32Array(ofSystem.buffer), new Uint8Array(200_000)])
    addRefused(`the token ${token}`.slice(0, 40), () => sdtool.checkWith(EMPTY, token, {wanted: 1}), "token");
addRefused(
    "a token and deny-only SIDs", () => sdtool.checkWith(EMPTY, ofSystem, {wanted: 1, denyOnly: ["BA"]}), "denyOnly");
addRefused("many SIDs too many", () => sdtool.check(EMPTY, Array(200_000).fill(SYSTEM), {wanted: 1}), "sids", 1024);
for (const objectType of [new Uint8Array(15), new Uint8Array(17), new Uint8Array(5000), "",
         "bf967aba-0de6-11d0-a285-00aa003049e2", null])
    addRefused(`objectType ${objectType}`, () => sdtool.check(EMPTY, [SYSTEM], {wanted: 1, objectType}), "objectType");
for (const call of ["derive", "origins"]) {
    for (const sid of [new Uint8Array(0), null, undefined, 5, SYSTEM.subarray(0, 11)]) {
        addRefused(`the owner ${sid}`, () => sdtool[call](EMPTY, sid, SYSTEM), "owner");
        addRefused(`the group ${sid}`, () => sdtool[call](EMPTY, SYSTEM, sid), "group");
    }
    for (const creator of ["D:", SYSTEM, new Uint8Array(200_000)])
        addRefused(`a creator of ${creator.length}`, () => sdtool[call](EMPTY, SYSTEM, SYSTEM, {creator}), "creator");
}
for (const number of [-1, 0, 3.5, 2 ** 32, "25", 200, undefined])
    addRefused(`fault ${number}`, () => sdtool.faultText(number));
addRefused("words", () => sdtool.run("convert", EMPTY));
addRefused("a word", () => sdtool.run(["convert", 5], EMPTY), "words", 1);
addRefused("a NUL", () => sdtool.run(["convert\0--to"], EMPTY), "words", 0);
addRefused("an input", () => sdtool.run(["convert"], "D:"), "input");
for (const data of [undefined, null, "BA", 5, [], new ArrayBuffer(12), new DataView(new ArrayBuffer(12))]) {
    addRefused(`parts of ${data}`, () => sdtool.parts(data), "descriptor");
    addRefused(`aces of ${data}`, () => sdtool.aces(data), "acl");
    addRefused(`size of ${data}`, () => sdtool.sidSize(data), "bytes");
    addRefused(`a descriptor of many, ${data}`, () => sdtool.checkMany([EMPTY, data], [SYSTEM], {wanted: 1}),
        "descriptors", 1);
}
for (const text of [undefined, null, 5, SYSTEM, new String("BA")])
    addRefused(`the SID of ${text}`, () => sdtool.sidFromText(text), "text");
for (const call of [() => sdtool.sidFromText("BA", {numeric: true}), () => sdtool.sidToText(SYSTEM, {Numeric: true}),
                   () => sdtool.checkMany([], [], {wanted: 1, wnated: 1}), () => sdtool.build({DACL: []})])
    addRefused(`an option of ${call}`, call);

// What sdtool_build of sdtool.h refuses, and what no C could be asked.
const ACE = {
    kind: 0,
    flags: 0,
    mask: 0x120089,
    sid: USERS
};
const withAce = (change, part = "dacl", before = [ACE]) => sdtool.build({[part]: [...before, {...ACE, ...change}]});
add(sdtool.toSddl(withAce({})) === "D:(A;;FR;;;BU)(A;;FR;;;BU)" &&
        sdtool.toSddl(withAce({sid: "WD"}, "sacl", [])) === "S:(A;;FR;;;WD)",
    "an ACE that can be");
for (const part of ["sacl", "dacl"]) {
    for (const change of [{kind: 3}, {kind: 9}, {kind: 256}, {kind: -1}, {kind: "A"}, {kind: undefined}, {kind: true},
             {flags: 0x20}, {flags: 256}, {flags: "OI"}, {flags: null}, {flags: 1.5}, {mask: -1}, {mask: 2 ** 32},
             {mask: "FR"}, {mask: undefined}, {mask: NaN}, {sid: new Uint8Array(0)}, {sid: twice}, {sid: undefined},
             {sid: null}, {sid: new Uint8Array(1000)}, {objectType: new Uint8Array(16)},
             {kind: 5, objectType: new Uint8Array(15)}, {kind: 5, inheritedObjectType: new Uint8Array(17)},
             {kind: 6, objectType: ""}, {inherited: true}, {trustee: USERS}])
        addRefused(`${part} with ${JSON.stringify(change)}`, () => withAce(change, part), part, 1);
    addNoSid(`${part} with a text`, () => withAce({sid: "Everyone"}, part), 25, part, 1);
    for (const ace of [undefined, null, 5, "(A;;FR;;;BU)"])
        addRefused(`${part} with ${ace}`, () => sdtool.build({[part]: [ACE, ace]}), part, 1);
    for (const acl of [undefined, null, false, 0, "", "absent", "D:"])
        addRefused(`${part} ${acl}`, () => sdtool.build({[part]: acl}), part);
    for (const acl of [{}, {state: undefined}, {state: 0}, {state: "Null"}, {state: "absent", aces: []},
             {state: "null", aces: [ACE]}, {state: "list"}, {state: "list", aces: {}}])
        addRefused(`${part} ${JSON.stringify(acl)}`, () => sdtool.build({[part]: acl}), part);
    addRefused(`${part} with more`, () => sdtool.build({[part]: {state: "null", ace: [ACE]}}), "ace");
    const large = Array(4095).fill(ACE);
    addFault(() => sdtool.build({[part]: large}), 30, "acl-too-large", part, null, `error 30 acl-too-large ${part}`);
    addRefused(
        "an ACE that can't be, far behind", () => sdtool.build({[part]: [...large, {...ACE, kind: 4}]}), part, 4095);
}
for (const [name, values] of [["control", [-1, 65536, "P", null, true]], ["resourceManager", [-1, 256, "", null]],
         ["owner", [5, twice, SYSTEM.subarray(1), false]], ["group", [5, twice, [SYSTEM]]]])
    for (const value of values) addRefused(`${name} ${value}`, () => sdtool.build({[name]: value}), name);
addNoSid("an owner that is a text", () => sdtool.build({owner: "Everyone"}), 25, "owner");
for (const parts of [undefined, null, 5, "", "D:", true, Symbol("D:"),
         () => ({}), [], [ACE], new Map([["dacl", [ACE]]]), new Set(), Promise.resolve({}), new Date(0), new Error("x"),
         EMPTY, new Number(1), new String(""), Object.prototype])
    addRefused(`building ${typeof parts}`, () => sdtool.build(parts));
for (const dacl of [Object.create({dacl: undefined}), {get dacl() { return undefined; }},
         Object.create({get dacl() { return undefined; }})])
    addRefused("a DACL that is there and undefined", () => sdtool.build(dacl), "dacl");

// Changes one after the other, and what sdtool_edit of sdtool.h refuses.
const PUT = {
    change: "put",
    acl: "dacl",
    place: "order",
    ace: ACE
};
const OWN = sdtool.fromSddl("D:AI(D;;FW;;;WD)(A;ID;FA;;;SY)");
const edited =
    sdtool.edit(OWN, [PUT, {change: "owner", sid: "BA"}, {change: "takeEach", acl: "dacl", match: {sid: "WD"}}]);
add(sdtool.toSddl(edited.descriptor) === "O:BAD:AI(A;;FR;;;BU)(A;ID;FA;;;SY)" && edited.touched.join() === "1,0,1",
    "an edit");
add(JSON.stringify(sdtool.order(sdtool.fromSddl("D:(A;;FR;;;BU)(D;;FR;;;BU)S:"))) === '{"sacl":null,"dacl":1}',
    "the order of ACLs");
add(sdtool.edit(OWN, []).descriptor.length === OWN.length, "an edit without changes");
for (const [change, number, name] of [[{change: "take", acl: "dacl", place: 9}, 73, "change"],
         [{change: "take", acl: "sacl", place: 0}, 73, "change"], [{...PUT, place: 4}, 73, "change"]]) {
    const fault = thrown(() => sdtool.edit(OWN, [PUT, change]));
    add(fault instanceof Fault && fault.number === number && fault.name === name && fault.part === change.acl &&
            fault.argument === "changes" && fault.entry === 1 &&
            fault.message === `changes[1]: error 73 change ${change.acl}: the change can't be made`,
        `${JSON.stringify(change)}: ${fault.message}`);
}
for (const change of [undefined, null, 5, "put", [], {}, {...PUT, change: "Put"}, {...PUT, change: "valueOf"},
         {...PUT, acl: "DACL"}, {...PUT, acl: undefined}, {...PUT, place: undefined}, {...PUT, place: "first"},
         {...PUT, place: -1}, {...PUT, place: 0xfffffffe}, {...PUT, ace: undefined}, {...PUT, ace: {...ACE, kind: 9}},
         {...PUT, ace: {...ACE, flags: 0x20}}, {...PUT, ace: {...ACE, sid: twice}},
         {...PUT, ace: {...ACE, objectType: new Uint8Array(16)}}, {...PUT, ace: {...ACE, sid: USERS.subarray(0, 12)}},
         {...PUT, ace: {...ACE, sid: new Uint8Array(8)}}, {...PUT, match: {sid: "BU"}}, {...PUT, state: "null"},
         {change: "take", acl: "dacl", place: "end"}, {change: "takeEach", acl: "dacl", match: {}},
         {change: "takeEach", acl: "dacl", match: {flags: 1, mask: 1}},
         {change: "takeEach", acl: "dacl", match: {sid: null}}, {change: "takeEach", acl: "dacl", match: {sids: "BU"}},
         {change: "takeEach", acl: "dacl", match: {objectType: new Uint8Array(15)}}, {change: "owner"},
         {change: "owner", sid: "BA", acl: "dacl"}, {change: "state", acl: "dacl", state: "empty"},
         {change: "control", setControl: 4}, {change: "control", setControl: 1, clearControl: 1},
         {change: "control", setControl: 65536}, {change: "setEach", acl: "dacl", match: {sid: "BU"}},
         {change: "setEach", acl: "dacl", match: {sid: "BU"}, setting: {setMask: 1, clearMask: 1}}])
    addRefused(`the change ${JSON.stringify(change)}`, () => sdtool.edit(OWN, [PUT, change]), "changes", 1);
addNoSid("a change with a text", () => sdtool.edit(OWN, [PUT, {change: "owner", sid: "Everyone"}]), 25, "changes", 1);
addRefused("too many changes", () => sdtool.edit(OWN, Array(16385).fill(PUT)), "changes", 16384);

// The same as the header says of the C calls, and MS-DTYP 2.5.3.2: no DACL grants all, an empty one nothing.
add(sdtool.faultText(25) === "sid-form" && sdtool.faultText(14) === "overlap", "the names of faults");
add(/^\d+\.\d+\.\d+$/.test(sdtool.version()), "the version");
const verdicts =
    [[EMPTY, 0x20000, true], [sdtool.fromSddl("D:"), 0x20000, false], [OF_USERS, 0x120089, true], [OF_USERS, 2, false]];
for (const [descriptor, wanted, granted] of verdicts) {
    const verdict = sdtool.check(descriptor, [USERS], {wanted});
    add(verdict.granted === granted && verdict.mask === wanted, `${wanted} of ${sdtool.toSddl(descriptor)}`);
}
const deny = sdtool.fromSddl("D:(D;;FR;;;SY)(A;;FR;;;BU)");
add(sdtool.check(deny, [USERS], {wanted: 1}).granted, "without the SID that is denied");
add(!sdtool.check(deny, [USERS], {wanted: 1, denyOnly: [SYSTEM]}).granted, "with a SID that only denies");
add(!sdtool.check(sdtool.fromSddl("D:(A;;FR;;;SY)"), [USERS], {wanted: 1, denyOnly: [SYSTEM]}).granted,
    "a SID that only denies");
add(sdtool.check(OF_USERS, [USERS], {wanted: 0x80000000}).granted, "a generic right, the highest bit");
add(sdtool.check(OF_USERS, [USERS], {wanted: 1, level: null}).granted, "no level");

// MS-DTYP 2.5.3.2: an absent and a null DACL grant everything, an empty one nothing. Only a list has ACEs.
const dacls = [
    [{state: "absent"}, "", true], [{state: "null"}, "D:NO_ACCESS_CONTROL", true], [[], "D:", false],
    [{state: "list", aces: []}, "D:", false]
];
for (const [dacl, sddl, granted] of dacls) {
    const built = sdtool.build({dacl}), found = sdtool.parts(built);
    add(sdtool.toSddl(built) === sddl && sdtool.check(built, ["WD"], {wanted: 1}).granted === granted,
        `the DACL ${JSON.stringify(dacl)}`);
    add(found.dacl.state === (dacl.state ?? "list") && Array.isArray(found.dacl.aces) === !granted &&
            found.sacl.state === "absent",
        `the parts with the DACL ${JSON.stringify(dacl)}`);
}
add(sdtool.toSddl(sdtool.build({})) === "" &&
        sdtool.toSddl(sdtool.build({owner: "BA", group: null, control: 0x1004, dacl: []})) === "O:BAD:P",
    "a descriptor of few parts");
add(sdtool.build({resourceManager: 7})[1] === 7 &&
        sdtool.parts(sdtool.build({resourceManager: 7, control: 0x4003})).control === 0xc003,
    "the resource manager byte and control bits");
const found = sdtool.parts(sdtool.fromSddl("O:BAD:PAI(OA;CI;CR;00000001-0002-0003-0405-060708090a0b;;AU)"));
const [one] = found.dacl.aces;
add(found.dacl.aces.length === 1 && found.control === 0x9404 && found.resourceManager === 0 && found.group === null &&
        Buffer.from(found.owner).toString("hex") === "01020000000000052000000020020000" && one.kind === 5 &&
        one.flags === 2 && one.mask === 0x100 && one.inheritedObjectType === null &&
        Buffer.from(one.objectType).toString("hex") === "01000000020003000405060708090a0b" &&
        sdtool.sidToText(one.sid) === "AU",
    `the parts of a descriptor: ${JSON.stringify(found)}`);
addFault(() => sdtool.parts(SHORT_OWNER), 9, "sid", "owner", null, "error 9 sid owner, at byte 20, the owner, SID");
addFault(() => sdtool.parts(SAME_PLACE), 14, "overlap", "owner", "group",
    "error 14 overlap owner group, at byte 20, the group");
addFault(() => sdtool.parts(new Uint8Array(131227)), 1, "too-long", null, null, "error 1 too-long");
addFault(() => sdtool.aces(new Uint8Array(0)), 10, "acl", null, null, "error 10 acl");
add(sdtool.sidFromText("BA").length === 16 &&
        sdtool.sidToText(sdtool.sidFromText("DA", {domain: "S-1-5-21-1-2-3"}), {numeric: true}) ===
            "S-1-5-21-1-2-3-512" &&
        sdtool.sidSize(new Uint8Array(0)) === 0 && sdtool.sidSize(twice) === 12,
    "SIDs");

// Texts of parts, and their faults.
const aced = sdtool.aceFromText("(OA;CI;CR;00000001-0002-0003-0405-060708090a0b;;DA)", {domain: "S-1-5-21-1-2-3"});
const {ace: read, size: sizeOfRead} = sdtool.aceRead(Uint8Array.from([...aced, 1, 2]));
add(sizeOfRead === aced.length && read.kind === 5 && read.flags === 2 && read.mask === 0x100 &&
        sdtool.guidToText(read.objectType) === "00000001-0002-0003-0405-060708090a0b" &&
        read.inheritedObjectType === null && sdtool.sidToText(read.sid) === "S-1-5-21-1-2-3-512",
    `the places of an ACE: ${JSON.stringify(read)}`);
add(sdtool.toSddl(sdtool.build({dacl: [read]}), {domain: "S-1-5-21-1-2-3"}) ===
        "D:(OA;CI;CR;00000001-0002-0003-0405-060708090a0b;;DA)",
    "an ACE that was read is built");
add(sdtool.aceToText(aced, {domain: "S-1-5-21-1-2-3"}) === "(OA;CI;CR;00000001-0002-0003-0405-060708090a0b;;DA)" &&
        sdtool.aceToText(sdtool.aceFromText("(A;;;;;WD) "), {numeric: true}) === "(A;;0x0;;;S-1-1-0)",
    "the text of an ACE");
add(sdtool.rightsFromText("frwd") === 0x160089 && sdtool.rightsFromText("") === 0 &&
        sdtool.rightsFromText("010") === 8 && sdtool.rightsToText(0xffffffff) === "0xffffffff" &&
        sdtool.rightsToText(1, {label: true}) === "NW" && sdtool.rightsToText(1) === "CC",
    "rights");
add(sdtool.flagsFromText("OICI") === 3 && sdtool.flagsFromText("") === 0 &&
        sdtool.flagsToText(0xdf) === "OICINPIOIDSAFA",
    "flags");
add(Buffer.from(sdtool.guidFromText("00000001-0002-0003-0405-060708090A0B")).toString("hex") ===
        "01000000020003000405060708090a0b",
    "a GUID");
addFault(() => sdtool.rightsFromText("XX"), 27, "rights", null, null, "error 27 rights, at byte 0, rights");
addFault(() => sdtool.flagsFromText("O"), 26, "flags", null, null, "error 26 flags, at byte 0, flags");
addFault(() => sdtool.guidFromText(""), 28, "guid", null, null, "error 28 guid, at byte 0");
addFault(
    () => sdtool.aceFromText("(A;;FA;;;Everyone)"), 25, "sid-form", null, null, "error 25 sid-form, at byte 9, SID");
addFault(() => sdtool.aceFromText("(A;;FA;;;WD)(A;;FA;;;WD)"), 20, "shape", null, null, "error 20 shape");
addFault(() => sdtool.aceFromText("A"), 20, "shape", null, null, "error 20 shape");
addFault(() => sdtool.aceRead(aced.slice(0, 15)), 11, "ace-size", null, null, "error 11 ace-size");
addRefused("bytes behind an ACE", () => sdtool.aceToText(Uint8Array.from([...aced, 0])), "ace");
addRefused("the flag 0x20", () => sdtool.flagsToText(0x20), "flags");
addRefused("a GUID of 15 bytes", () => sdtool.guidToText(new Uint8Array(15)), "guid");
addRefused("a domain that is none", () => sdtool.aceFromText("(A;;FA;;;WD)", {domain: new Uint8Array(1)}), "domain");

// Many checks: a fault in its place, batches, and no descriptor.
const yes = sdtool.fromSddl("D:(A;;FR;;;BU)"), no = sdtool.fromSddl("D:"), short = new Uint8Array(5);
for (const count of [1, 2, 1023, 1024, 1025, 5000]) {
    const verdicts = sdtool.checkMany(
        Array.from({length: count}, (_, index) => [yes, no, short, SAME_PLACE][index % 4]), ["BU"], {wanted: 1});
    add(verdicts.length === count &&
            verdicts.every((verdict, index) => [verdict.granted === true && verdict.mask === 1,
                               verdict.granted === false && verdict.mask === 1,
                               verdict instanceof Fault && verdict.line === "error 5 short" && !verdict.granted,
                               verdict instanceof Fault && verdict.line === "error 14 overlap owner group"][index % 4]),
        `${count} checks`);
}
add(sdtool.checkMany([], ["BU"], {wanted: 1}).length === 0, "no checks");
addFault(() => sdtool.checkMany([], ["BU"]), 50, "empty-request", null, null, "error 50 empty-request");
addFault(() => sdtool.checkMany([yes], ["BU"], {wanted: 1 << 27}), 51, "reserved-bits", null, null,
    "error 51 reserved-bits");
const longDescriptors = Array(40).fill(new Uint8Array(131227));
add(sdtool.checkMany([yes, ...longDescriptors, no], ["BU"], {wanted: 1})
            .map((verdict) => verdict.number ?? verdict.granted)
            .join() === ["true", ...longDescriptors.map(() => "1"), "false"].join(),
    "large descriptors");

// Answers are copies: later calls don't change them, nor does a change of the input.
const first = sdtool.fromSddl("O:SY"), kept = Buffer.from(first).toString("hex");
for (let round = 0; round < 50; round += 1) sdtool.fromSddl(`O:BAD:${"(A;;FA;;;WD)".repeat(50 * round)}`);
add(Buffer.from(first).toString("hex") === kept && first.length === 32, "an answer stays as it is");
add(first.buffer.byteLength === first.length, "an answer has a buffer of its own");
first.fill(0xff);
add(sdtool.toSddl(sdtool.fromSddl("O:SY")) === "O:SY", "a changed answer changes no later one");

// Bytes from another realm, in the middle of a buffer, and from Node's pool.
const foreign = vm.runInNewContext("Uint8Array").from(OF_USERS);
const inside = new Uint8Array(OF_USERS.length + 20);
inside.set(OF_USERS, 7);
for (const descriptor of [foreign, inside.subarray(7, 7 + OF_USERS.length), Buffer.from(OF_USERS)])
    add(sdtool.toSddl(descriptor) === "O:BAD:(A;;FR;;;BU)", "bytes of another kind");

// A view says of itself what it has, whatever properties it is given. One that has lost its buffer is refused: it looks
// empty.
const lying = Uint8Array.from(OF_USERS);
for (const [name, value] of [["length", 5_000_000], ["byteOffset", 3], ["buffer", new ArrayBuffer(4)]])
    Object.defineProperty(lying, name, {value});
add(sdtool.toSddl(lying) === "O:BAD:(A;;FR;;;BU)", "a view that lies");
addRefused("a view by name alone",
    () => sdtool.toSddl({[Symbol.toStringTag]: "Uint8Array", length: 20, buffer: EMPTY.buffer}), "descriptor");
add(sdtool.toSddl(new (class extends Uint8Array {})(OF_USERS)) === "O:BAD:(A;;FR;;;BU)",
    "a view of a class of its own");
const shared = new Uint8Array(new SharedArrayBuffer(OF_USERS.length + 8), 8);
shared.set(OF_USERS);
add(sdtool.toSddl(shared) === "O:BAD:(A;;FR;;;BU)" && sdtool.checkMany([shared], ["BU"], {wanted: 1})[0].granted,
    "shared memory");
const gone = Uint8Array.from(SYSTEM), cut = new Uint8Array(new ArrayBuffer(40, {maxByteLength: 80}), 8, 16);
structuredClone(gone.buffer, {transfer: [gone.buffer]});
cut.buffer.resize(12);
for (const lost of [gone, cut]) {
    addRefused("lost bytes", () => sdtool.normalize(lost), "descriptor");
    addRefused("lost bytes", () => sdtool.toSddl(EMPTY, {domain: lost}), "domain");
    addRefused("lost bytes", () => sdtool.check(EMPTY, [SYSTEM], {wanted: 1, objectType: lost}), "objectType");
    addRefused("lost bytes", () => sdtool.check(EMPTY, [SYSTEM], {wanted: 1, principalSelf: lost}), "principalSelf");
    addRefused("lost bytes", () => sdtool.derive(EMPTY, SYSTEM, SYSTEM, {creator: lost}), "creator");
    addRefused("lost bytes", () => sdtool.build({owner: lost}), "owner");
    addRefused("lost bytes", () => sdtool.checkMany([lost], [SYSTEM], {wanted: 1}), "descriptors", 0);
    addRefused("lost bytes", () => sdtool.run(["convert"], lost), "input");
}
// Bytes that are lost while the call looks at its arguments.
const late = Uint8Array.from(SYSTEM);
const stealing = {
    get sid() {
        structuredClone(late.buffer, {transfer: [late.buffer]});
        return SYSTEM;
    },
    kind: 0,
    flags: 0,
    mask: 1
};
add(sdtool.toSddl(sdtool.build({owner: late, dacl: [stealing]})) === "O:SYD:(A;;CC;;;SY)",
    "bytes that are lost once they are taken");
// A call in the middle of another one's arguments.
const nested = {
    ...ACE,
    get sid() { return sdtool.parts(OF_USERS).dacl.aces[0].sid; }
};
add(sdtool.toSddl(sdtool.build({owner: "BA", dacl: [nested]})) === "O:BAD:(A;;FR;;;BU)", "a call within a call");

// Each ACE of the largest lists goes on to a file, and in a folder one is for what is made in it.
const handed = sdtool.fromSddl(`D:${"(A;OI;FR;;;S-1-5)".repeat(4095)}S:${"(AU;OISA;FR;;;S-1-5)".repeat(4095)}`);
for (const [kind, inheritOnly] of [["file", false], ["container", true]]) {
    const found = sdtool.origins(handed, "BA", SYSTEM, {kind});
    for (const name of ["sacl", "dacl"])
        add(found[name].length === 4095 &&
                found[name].every((origin, place) => origin.place === place && !origin.fromCreator &&
                        origin.inheritOnly === inheritOnly && origin.ace.flags === (name === "sacl" ? 0x41 : 1)),
            `the most origins of the ${name}`);
}
addFault(() => sdtool.origins(handed, "BA", SYSTEM, {creator: sdtool.fromSddl("D:(A;;FR;;;S-1-5)")}), 40,
    "derived-too-large", "dacl", null, "error 40 derived-too-large dacl");

// The largest descriptor and the largest texts; then a small one.
const ace = "(AU;OICINPIOIDSAFA;CCDCLCSWRPWPDTLOCRSDRCWDWOGAGXGWGR;;;S-1-0xffffffffffff)", aces = ace.repeat(4095);
const largest = `D:${aces.replaceAll("AU;", "A;").replaceAll("SAFA", "")}S:${aces}`;
const packed = sdtool.fromSddl(largest);
add(sdtool.toSddl(packed).length > 500_000 && sdtool.normalize(packed).length === packed.length, "a large descriptor");
add(sdtool.toSddl(sdtool.fromSddl(sdtool.toSddl(packed))) === sdtool.toSddl(packed), "a large descriptor, read again");
add(sdtool.toSddl(EMPTY) === "", "a small one after it");

// Runs.
const lines = Buffer.from("O:BA\n".repeat(200_000)), run = sdtool.run(["convert", "--from", "sddl"], lines);
add(run.status === 0 && Buffer.from(run.output).equals(lines) && run.message === "", "a run of many lines");
const wrong = sdtool.run(["convert", "--to", "xml"], EMPTY);
add(wrong.status === 2 && wrong.output.length === 0 && wrong.message === "sdtool: usage: --to\n", "wrong words");
const noText = sdtool.run(["convert", "--domain", "\ud800"], EMPTY);
add(noText.status === 2 && noText.message === "sdtool: usage\n", "half of a surrogate pair");
const help = sdtool.run(["--help"], EMPTY);
add(help.status === 0 && help.output.length > 500 && help.message === "", "help");

// Large inputs that are too long in any case take no memory, and the memory of many calls stays as it is.
const before = memories[0].buffer.byteLength, huge = new Uint8Array(1_000_000_000);
addFault(() => sdtool.normalize(huge), 1, "too-long", null, null, "error 1 too-long");
addFault(() => sdtool.parts(huge), 1, "too-long", null, null, "error 1 too-long");
addRefused("a huge SID", () => sdtool.check(EMPTY, [huge], {wanted: 1}), "sids", 0);
add(sdtool.sidSize(huge) === 0, "the size of a huge SID that is none");
const calls = [
    () => sdtool.toSddl(OF_USERS), () => sdtool.parts(OF_USERS), () => sdtool.build({owner: "BA", dacl: [ACE]}),
    () => sdtool.check(OF_USERS, ["BU", USERS], {wanted: 1}),
    () => sdtool.checkMany([OF_USERS, short], [USERS], {wanted: 1}),
    () => thrown(() => sdtool.fromSddl("D:(A;;FA;;;Everyone)")), () => sdtool.fromSddl("O:BA"),
    () => sdtool.sidSize(USERS)
];
for (let round = 0; round < 1_000_000; round += 1) calls[round % calls.length]();
add(memories[0].buffer.byteLength === before,
    `${before} bytes of memory are ${memories[0].buffer.byteLength} after a million calls`);
// What the module can't hold is said so, and later calls go on.
add(thrown(() => sdtool.run(["convert"], huge)) instanceof RangeError,
    "an input that the memory does not hold with its answers");
add(sdtool.toSddl(OF_USERS) === "O:BAD:(A;;FR;;;BU)", "a call after that");

// Calls where the stack of JavaScript has ever more room, until one comes back. Those that it ends in the midst of the
// module cost no later one.
function atTheEnd(call) {
    try {
        return atTheEnd(call);
    } catch {
        return call();
    }
}
const atEnds = new Set(), line = new TextEncoder().encode("O:BAD:(A;;FR;;;BU)\n");
for (let round = 0; round < 10; round += 1)
    atEnds.add(atTheEnd(() => String(sdtool.run(["convert", "--from", "sddl", "--to", "hex"], line).output)));
add(atEnds.size === 1, "calls at the end of the stack");
add(sdtool.toSddl(OF_USERS) === "O:BAD:(A;;FR;;;BU)", "a call behind them");

add(hasVectors() === true, "hasVectors");
// Each source that load takes, and some that are none.
const file = new URL("sdtool.wasm", address), data = readFileSync(file);
const copy = new ArrayBuffer(data.length);
new Uint8Array(copy).set(data);
for (const source of [file, file.href, data, copy, new Uint8Array(copy), await WebAssembly.compile(data),
         new URL(`data:application/wasm;base64,${data.toString("base64")}`)])
    add((await load(source)).version() === sdtool.version(), `loading from ${source}`);
for (const source of [null, 5, {}, "sdtool.wasm", new URL("none.wasm", address), new Uint8Array(8)]) {
    let error;
    await load(source).catch((reason) => { error = reason; });
    add(error instanceof Error && !error.message.includes("vectors"), `loading from ${source}: ${error}`);
}
// Other modules: an empty one, and one that has a call of the library and no more.
const NO_CALL = [0, 97, 115, 109, 1, 0, 0, 0],
      OLDER = [7, 18, 1, 14, ...new TextEncoder().encode("sdtool_version"), 0, 0];
for (const bytes of [NO_CALL, [...NO_CALL, 1, 4, 1, 96, 0, 0, 3, 2, 1, 0, ...OLDER, 10, 4, 1, 2, 0, 11]])
    for (const source of [Uint8Array.from(bytes), await WebAssembly.compile(Uint8Array.from(bytes))]) {
        let error;
        await load(source).catch((reason) => { error = reason; });
        add(/^sdtool: .*another one/.test(error?.message), `loading another module: ${error}`);
    }

console.log(`${passed} passed, ${failed} failed`);
process.exitCode = failed === 0 ? 0 : 1;
