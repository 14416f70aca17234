// growth.mjs [--answer | --time READER]
//
// Prints the readers of the page, those of the library where it is built, what the measure has to refuse, and the
// constructs of which texts are made. With --answer it reads texts, as the lines of JSON say that page_growth.py sends:
// the reader, the numbers of constructs, and how often their least length is doubled. What marks the readings for
// valgrind are two calls of the C library. With --time it prints the constructs for which a reader takes more time than
// their lengths give reason for.
import {existsSync, readSync} from "node:fs";
import {getPriority} from "node:os";

import {questionOf} from "../../../web/desk.mjs";
import {freshState} from "../../../web/state.mjs";
import {REPORT} from "../../../web/windows.mjs";
import {PIECES} from "./hostile.mjs";
import {READERS} from "./readers.mjs";

const MODULE = new URL("../../../out/systems/wasm/sdtool.mjs", import.meta.url);
const MASK = 0o22; // of files, of which this makes none
const SLOW = {
    "a slow pattern": (text) => /=+$/.test(text),
    "a slow loop": (text) => text.split("AQAEgBQA").filter((one, at, all) => all.indexOf(`${one}x`) === at).length,
};
const LEAST = 1000;            // characters
const [FEW, FEWEST] = [3, 50]; // repetitions: those that show a process what it has to do, and of the least length
// What a library reads is too much for valgrind, so the processor's time is measured, in microseconds. A reading that
// takes less of a text of the greatest length is no slow one.
const [LEAST_TIME, LONGEST] = [5_000, 1 << 17];
const MOST_FOR_EACH = 2.6;
// Each of these takes too much. Texts that outgrow the processor's caches take more than twice the time once or twice.
const DOUBLINGS = 4;
const TRIES = 5; // of which the shortest time counts
const ENCODER = new TextEncoder();
const itemsOf = (text) => text.split(",");
const stateOf = (text) => ({...freshState(), text, kind: "ds", isKindChosen: true});

// What calls of the library, and questions of the page over it, read. What a call refuses is read too.
function readersOf(library) {
    const empty = library.fromSddl("");
    const calls = {
        "a text of SDDL": (text) => library.fromSddl(text),
        "a text of a SID": (text) => library.sidFromText(text),
        "names of options": (text) => library.fromSddl("", Object.fromEntries(itemsOf(text).map((one) => [one, 1]))),
        "the SIDs of a check": (text) => library.check(empty, itemsOf(text), {wanted: 1}),
        "the ACEs of a list": (text) =>
            library.build({dacl: itemsOf(text).map((sid) => ({kind: 0, flags: 0, mask: 1, sid}))}),
        "many descriptors": (text) => library.checkMany(itemsOf(text).map(() => empty), ["WD"], {wanted: 1}),
        "lines of the program": (text) => library.run(["convert", "--from", "sddl"], ENCODER.encode(text)),
        "the first view": (text) => questionOf(library, "look", stateOf(text)),
        "a comparison": (text) =>
            questionOf(library, "compare", {state: stateOf(text), other: {text: "D:", form: "auto"}}),
        "a new object": (text) => questionOf(library, "inherit", {state: stateOf(text), made: freshState().made}),
    };
    const read = (call) => (text) => {
        try {
            call(text);
        } catch (fault) {
            if (fault.number === undefined) {
                throw fault;
            }
            fault.excerpt?.();
        }
    };
    return Object.fromEntries(Object.entries(calls).map(([name, call]) => [name, read(call)]));
}

const VALUES = {
    text: "x",
    count: 1,
    flag: true,
    texts: ["x"],
    counts: [1]
};
const rowOf = (name) =>
    Object.values(REPORT.rows[name]).map((type) => (Object.hasOwn(VALUES, type) ? VALUES[type] : [rowOf(type)]));

// An object of a report, one of whose lists is repeated.
function ofReport(row, at) {
    const [front, end] = JSON.stringify(row.with(at, [])).split("[]");
    return [`${front}[`, `${JSON.stringify(row[at][0])},`, `${JSON.stringify(row[at][0])}]${end}`];
}

const OBJECT = rowOf("object");
// What a text begins with, what is repeated, where '#' is a number, and what it ends with.
const CONSTRUCTS = [
    ...PIECES.map((piece) => ["", piece, "\u2028x"]),
    ...OBJECT.flatMap((value, at) => (Array.isArray(value) ? [ofReport(OBJECT, at)] : [])),
    [`{"report":${REPORT.version},"names":[`, "[\"S-1-5-21-#\",\"x\"],", "[\"S-1-1-0\",\"x\"]]}"],
    ["{\"summary\":\"x\",\"rules\":[", "[\"x#\",1,\"x\"],", "[\"x\",1,\"x\"]]}"],
    ["", "dn: CN=a#\nobjectClass: user\nnTSecurityDescriptor:: AQAE\n\n", ""],
    ["dn: CN=a\nnTSecurityDescriptor:: AQAE\n", "objectClass: x#\n", ""],
    ["dn: CN=a\nnTSecurityDescriptor:: AQAE", "\n AAAA", "\n"],
    ["C:\\a Everyone:(F)\n", "  BUILTIN\\Users:(I)(RX)\n", "\nSuccessfully processed 1 files\n"],
    ["", "C:\\a#\nD:(A;;FA;;;WD)\n", ""],
    ["O:BAG:BAD:(A;;FA;;;WD)\n", "   (A;;FA;;;S-1-5-21-#)\n", ""],
    ["O:BAG:BAD:(A;;FA;;;WD)", "(A;;FA;;;S-1-5-21-#)", "(A;;FA"],
    ["", "Path : C:\\#\nSddl : O:BAD:(A;;FA;;;WD)\n\n", ""],
    ["Path,Sddl\n", "a#,\"O:BAD:(A;;FA;;;WD)\"\n", ""],
    ["<a>", "<b>D:(A;;FA;;;WD)</b>\n", "</a>"],
    ["", "\"a#\"=hex:01,02,\\\n  03\n", ""],
    ["", "a# REG_BINARY 0102\n", ""],
    ["1", ",0 255", "\n"],
    ["", "S-1-5-21-#: a\n", ""],
    ["SID,Name\n", "S-1-5-21-#,\"a\nb\"\n", ""],
    ["Name SID\n---- ---\n", "a    S-1-5-21-#\n", ""],
    ["SID : S-1-5-21-1\nName : x\n", "  y#\n", "\n"],
    ["", "SID : S-1-5-21-#\nName : x\n\n", ""],
    ["", "dn: CN=a#\ncn:: QW5u\nobjectSid:: AQUAAAAAAAUVAAAAAQAAAAIAAAADAAAA6QMAAA==\n\n", ""],
    ["Name;ObjectSID\n", "\"a#\";S-1-5-21-#\n", ""],
    ["dn: CN=a\ncn: a\nobjectSid:: AQUAAAAAAAUVAAAA\n", " AQAA\n", "\n"],
    ["", "S-1-5-21-1-2-3-# \"a\"\"b\"\n", ""],
    ["", "S-1-5-21-#,", "S-1-1-0"],
    ["", "a\\b# Alias S-1-5-32-# Enabled group\n", ""],
    ["", "\"a\\b\",\"Alias\",\"S-1-5-21-#\",\"Enabled group\"\n", ""],
    ["User Name: x\nSID: S-1-5-21-1\n\n", "Group Name: x\nType: Alias\nSID: S-1-5-21-#\nAttributes: Enabled\n\n", ""],
    ["BA\n", "SeBackupPrivilege x Enabled\nSeA#Privilege x Enabled\n", ""],
    ["kind=key", "&x#=y", ""],
];

// A text in one piece.
function textOf([front, unit, end], count) {
    const units = unit.includes("#") ?
        Array.from({length: count}, (_, at) => unit.replaceAll("#", String(at))).join("") :
        unit.repeat(count);
    const text = front + units + end;
    return Buffer.from(text, "utf16le").toString("utf16le");
}

const lengthOf = ([, unit]) => Math.max(FEWEST, Math.ceil(LEAST / unit.length));

// The next line of standard input, or nothing at its end.
function nextLine() {
    const byte = Buffer.alloc(1);
    let line = "";
    while (readSync(0, byte) && byte[0] !== 10) {
        line += byte.toString("latin1");
    }
    return line;
}

function answer() {
    for (let line = nextLine(); line; line = nextLine()) {
        const [name, places, doublings] = JSON.parse(line);
        const constructs = places.map((at) => CONSTRUCTS[at]);
        const texts = constructs.map((one) => textOf(one, lengthOf(one) << doublings));
        constructs.forEach((one) => readers[name](textOf(one, FEW)));
        process.umask(MASK);
        for (const text of texts) {
            readers[name](text);
        }
        getPriority();
        console.log(texts.reduce((length, text) => length + text.length, 0));
    }
}

// The least time that a reading takes.
function timeOf(reader, text, tries = TRIES) {
    const times = Array.from({length: tries}, () => {
        const before = process.cpuUsage();
        reader(text);
        const {user, system} = process.cpuUsage(before);
        return user + system;
    });
    return Math.min(...times);
}

// The times of lengths of which each is twice the one before, if each is too long.
function slowTimes(reader, construct) {
    let count = lengthOf(construct);
    const readingOf = () => timeOf(reader, textOf(construct, count), 1);
    while (readingOf() < LEAST_TIME && count * construct[1].length < LONGEST) {
        count *= 2;
    }
    const times = [timeOf(reader, textOf(construct, count))];
    while (times.length <= DOUBLINGS) {
        count *= 2;
        times.push(timeOf(reader, textOf(construct, count)));
        if (times.at(-1) < LEAST_TIME || times.at(-1) <= MOST_FOR_EACH * times.at(-2)) {
            return null;
        }
    }
    return times;
}

const ofLibrary = existsSync(MODULE) ? readersOf(await (await import(MODULE)).load()) : {};
const readers = {
    ...READERS,
    ...ofLibrary,
    ...SLOW
};
if (process.argv[2] === "--answer") {
    answer();
} else if (process.argv[2] === "--time") {
    const slow = CONSTRUCTS.map((one) => [one, slowTimes(readers[process.argv[3]], one)]).filter(([, times]) => times);
    console.log(JSON.stringify(slow));
} else {
    console.log(JSON.stringify([Object.keys(READERS), Object.keys(ofLibrary), Object.keys(SLOW), CONSTRUCTS]));
}
