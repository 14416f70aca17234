// calls.mjs FOLDER convert|explain|normalize|from_sddl|check|reasons|derive|origins [DOMAIN] [numeric]
// calls.mjs FOLDER parts|walk|from_text|to_text|size [DOMAIN] [numeric]
// calls.mjs FOLDER place|text_place [DOMAIN]
// calls.mjs FOLDER edit
// calls.mjs FOLDER many|with SIDS ENTRIES OBJECT SELF WANTED MAPPING FLAGS LEVEL
// calls.mjs FOLDER plain WORD ..
//
// Makes a call of the JavaScript module in FOLDER for each line of standard input, and prints its answer, as
// ../../library/c/calls.c and
// ../../library/c/objects.c do with the same words and lines; or one run, as ../../library/c/runs.c does. Of a walk
// that ends with a fault it prints the fault alone. For `place` each answer is what the fault of each call with a
// descriptor says, in JSON, or null; and for `text_place` the same of a text, which is in JSON too. For `edit` a line
// is a descriptor and changes in JSON, whose GUIDs are in hex.
import {readFileSync} from "node:fs";
import {pathToFileURL} from "node:url";

const PARTS = {
    owner: " owner",
    group: " group",
    sacl: " sacl",
    dacl: " dacl"
};
const MAPPINGS = ["file", "key", "ds"], KINDS = ["file", "container"];
const [folder, job, ...more] = process.argv.slice(2);
const {load, Fault, ArgumentFault} = await import(pathToFileURL(`${folder}/sdtool.mjs`));
const sdtool = await load();

const bytes = (text) => (text === "-" ? new Uint8Array(0) : Uint8Array.from(Buffer.from(text, "hex")));
const given = (text) => (text === "-" ? undefined : bytes(text));
const hex = (answer) => Buffer.from(answer).toString("hex");

// A number that no name of the module has becomes a name that is none.
const named = (names, number) => names[Number(number)] ?? `number ${number}`;

// The SIDs of a token, cut where they say that they end, and by the byte that stands for each. What does not fit
// together can't be said to the module, so it gets bytes that are no SID.
function split(sids, entries) {
    const found = {enabled: [], denied: []};
    let at = 0;
    for (const entry of entries) {
        const size = 8 + 4 * (sids[at + 1] ?? 0);
        if (entry > 1) return {enabled: [entries], denied: []};
        (entry === 0 ? found.enabled : found.denied).push(sids.subarray(at, at + size));
        at += size;
    }
    return at < sids.length ? {enabled: [entries], denied: []} : found;
}

const told = (verdict) => `${verdict.granted ? "granted" : "denied"} 0x${verdict.mask.toString(16).padStart(8, "0")}\n`;

// The arguments of a check beside the descriptor.
function question([sids, entries, object, self, wanted, mapping, flags, level]) {
    const {enabled, denied} = split(bytes(sids), bytes(entries));
    return [
        enabled, {
            denyOnly: denied,
            wanted: Number(wanted),
            mapping: named(MAPPINGS, mapping),
            objectType: given(object),
            principalSelf: given(self),
            maximum: (flags & 1) !== 0,
            security: (flags & 2) !== 0,
            takeOwnership: (flags & 4) !== 0,
            level: level === "-" ? undefined : Number(level),
        }
    ];
}

const check = ([descriptor, ...asked]) => told(sdtool.check(bytes(descriptor), ...question(asked)));

// Why, as ../../library/c/calls.c prints it, each with the ACE that parts has at its place.
const KINDS_OF_REASONS = ["nothing", "label", "no-dacl", "owner", "privilege", "granted", "denied"];

function reasons([descriptor, ...asked]) {
    const [sids, {wanted, maximum, denyOnly, ...options}] = question(asked);
    const found = sdtool.reasons(bytes(descriptor), sids, {denyOnly, ...options});
    const again = sdtool.reasonsWith(bytes(descriptor), sdtool.readToken(sids, {denyOnly}), options);
    if (JSON.stringify(found) !== JSON.stringify(again)) throw new Error("other reasons with a token");
    const {sacl, dacl} = sdtool.parts(bytes(descriptor));
    return `${
        found
            .map(({kind, place, ace}) => {
                const listed = place === null ? null : (kind === "label" ? sacl : dacl).aces[place];
                if (JSON.stringify(listed) !== JSON.stringify(ace)) throw new Error("another ACE");
                return KINDS_OF_REASONS.indexOf(kind) + (place === null ? "" : `:${place}`);
            })
            .join(" ")}\n`;
}

// The first three fields of a GUID have their low byte first.
const GUID = [3, 2, 1, 0, 5, 4, 7, 6, 8, 9, 10, 11, 12, 13, 14, 15];
const guid = (label, data) =>
    (data ? ` ${label} ${hex(GUID.map((at) => data[at])).replace(/^(.{8})(.{4})(.{4})(.{4})/, "$1-$2-$3-$4-")}` : "");
const digits = (number, count) => `0x${number.toString(16).padStart(count, "0")}`;
const sid = (data) => (data ? sdtool.sidToText(data, {numeric: true}) : "none");
const aceLines = (name, aces) => aces.map((ace, index) => `${name} ${index + 1} ${ace.kind} flags ${ace.flags} mask ${
                                                              digits(ace.mask, 8)}${guid("object", ace.objectType)}` +
                                             `${guid("inherited", ace.inheritedObjectType)} sid ${sid(ace.sid)}\n`)
                                     .join("");
const aclLines = (name, {state, aces}) =>
    (state === "list" ? `${name} list ${aces.length}\n${aceLines(name, aces)}` : `${name} ${state}\n`);

function parts(line) {
    const found = sdtool.parts(bytes(line));
    const same = sdtool.build({...found, control: found.control ^ 0x8014});
    const built = sdtool.build(found);
    if (hex(built) !== hex(same)) throw new Error("the bits that follow from the parts change what is built");
    return `control ${digits(found.control, 4)}\nrm ${digits(found.resourceManager, 2)}\nowner ${sid(found.owner)}\n` +
        `group ${sid(found.group)}\n${aclLines("dacl", found.dacl)}${aclLines("sacl", found.sacl)}end\n${hex(built)}\n`;
}

function many(lines) {
    const verdicts = sdtool.checkMany(lines.map(bytes), ...question(more));
    return verdicts.map((one) => (one instanceof Error ? spelled(one) : told(one))).join("");
}

// A token that is read once, for all lines.
function withToken(lines) {
    const [sids, {denyOnly, ...options}] = question(more);
    const token = sdtool.readToken(sids, {denyOnly});
    return lines
        .map((line) => {
            try {
                return told(sdtool.checkWith(bytes(line), token, options));
            } catch (fault) {
                return spelled(fault);
            }
        })
        .join("");
}

// What a derivation is asked with.
const derivation = ([parent, creator, owner, group, kind, mapping]) => [bytes(parent), bytes(owner), bytes(group),
    {kind: named(KINDS, kind), creator: given(creator), mapping: named(MAPPINGS, mapping)}];

const derive = (words) => `${hex(sdtool.derive(...derivation(words)))}\n`;

// Where each ACE comes from, as ../../library/c/calls.c prints it, each with the ACE that parts has at its place.
function origins(words) {
    const asked = derivation(words), found = sdtool.origins(...asked), creator = asked[3].creator;
    const parents = sdtool.parts(asked[0]), creators = creator === undefined ? null : sdtool.parts(creator);
    return `${
            ["sacl", "dacl"]
                .map((name) => name +
                        found[name]
                            .map(({fromCreator, place, inheritOnly, ace}) => {
                                const listed = (fromCreator ? creators : parents)[name].aces[place];
                                if (JSON.stringify(listed) !== JSON.stringify(ace)) throw new Error("another ACE");
                                return ` ${fromCreator ? "c" : "p"}${place}${inheritOnly ? "+" : ""}`;
                            })
                            .join(""))
                .join(" ")}\n`;
}

// What the fault of a descriptor says, which is the same in each call.
function place(line) {
    const given = bytes(line);
    const calls = [
        () => sdtool.normalize(given),
        () => sdtool.toSddl(given),
        () => sdtool.explain(given),
        () => sdtool.parts(given),
        () => sdtool.check(given, ["WD"], {wanted: 1}),
        () => sdtool.reasons(given, ["WD"]),
        () => sdtool.derive(given, "BA", "BA"),
        () => sdtool.checkWith(given, sdtool.readToken(["WD"]), {wanted: 1}),
        () => sdtool.reasonsWith(given, sdtool.readToken(["WD"])),
        () => { throw sdtool.checkMany([given], ["WD"], {wanted: 1})[0]; },
    ];
    const told = new Set(calls.map(faultIn));
    return `${told.size === 1 ? [...told][0] : "several"}\n`;
}

// What the fault of a call says, in ASCII.
function faultIn(call) {
    try {
        call();
    } catch (fault) {
        if (fault instanceof Fault)
            return JSON
                .stringify([fault.line, fault.place && Object.values(fault.place), fault.message, fault.excerpt()])
                .replace(/[^ -~]/g, (unit) => `\\u${unit.charCodeAt(0).toString(16).padStart(4, "0")}`);
        if (fault instanceof Error) throw fault;
    }
    return "null";
}

// The descriptor after changes, the counts, and where its ACLs end to be in order; or the fault with what it is about.
function edit(line) {
    const [descriptor, changes] = line.split(" ");
    const read = (name, value) => (/ObjectType$/i.test(name) && value !== null ? bytes(value) : value);
    try {
        const edited = sdtool.edit(bytes(descriptor), JSON.parse(changes, read));
        const {sacl, dacl} = sdtool.order(edited.descriptor);
        return `${hex(edited.descriptor)} ${JSON.stringify([edited.touched, sacl, dacl])}\n`;
    } catch (fault) {
        return `error ${fault.number} ${fault.part ?? null} ${fault.argument} ${fault.entry}\n`;
    }
}

// A call of a text of a part, with what it reads in hex, as ../../library/c/texts.c prints it.
const ARGUMENT_NUMBERS = {
    domain: 1,
    ace: 18,
    flags: 19,
    guid: 20
};
const ascii = (data) => Buffer.from(data).toString("latin1");
const numberIn = (data) => data.reduceRight((found, byte) => found * 256 + byte, 0);
const ofDomain = (data) => (data.length > 0 ? {domain: data} : {});
const TEXTS = {
    ace_from_text: (first, second) => sdtool.aceFromText(ascii(first), ofDomain(second)),
    ace_to_text: (first, second) => sdtool.aceToText(first, ofDomain(second)),
    ace_to_numbers: (first, second) => sdtool.aceToText(first, {...ofDomain(second), numeric: true}),
    ace_read: (first) => sdtool.aceRead(first),
    rights_from_text: (first) => sdtool.rightsFromText(ascii(first)),
    rights_to_text: (first, second) => sdtool.rightsToText(numberIn(second), {label: first.length > 0}),
    flags_from_text: (first) => sdtool.flagsFromText(ascii(first)),
    flags_to_text: (_, second) => sdtool.flagsToText(numberIn(second)),
    guid_from_text: (first) => sdtool.guidFromText(ascii(first)),
    guid_to_text: (first) => sdtool.guidToText(first),
};

function text(line) {
    const [call, ...inputs] = line.split(" ");
    try {
        const found = TEXTS[call](...inputs.map(bytes));
        if (typeof found === "number") return `0 0 ${found} \n`;
        return `0 0 ${found.length} ${hex(typeof found === "string" ? Buffer.from(found, "latin1") : found)}\n`;
    } catch (fault) {
        if (fault instanceof ArgumentFault) return `70 ${ARGUMENT_NUMBERS[fault.argument]} 0 \n`;
        if (!(fault instanceof Fault)) throw fault;
        return `${fault.number} 0 0 \n`;
    }
}

const OF_ALL = {
    many,
    with: withToken
};
const domain = !(job in OF_ALL) && more.length > 0 && more[0] !== "-" ? {domain: bytes(more[0])} : {};
const numeric = more.length > 1 ? {numeric: true} : {};
const JOBS = {
    convert: (line) => `${sdtool.toSddl(bytes(line), {...domain, ...numeric})}\n`,
    explain: (line) => sdtool.explain(bytes(line), {...domain, ...numeric}),
    normalize: (line) => `${hex(sdtool.normalize(bytes(line)))}\n`,
    from_sddl: (line) => `${hex(sdtool.fromSddl(line, domain))}\n`,
    check: (line) => check(line.split(" ")),
    reasons: (line) => reasons(line.split(" ")),
    derive: (line) => derive(line.split(" ")),
    origins: (line) => origins(line.split(" ")),
    parts,
    place,
    edit,
    text_place: (line) => `${faultIn(() => sdtool.fromSddl(JSON.parse(line), domain))}\n`,
    walk: (line) => `${aceLines("dacl", sdtool.aces(bytes(line)))}end\n`,
    from_text: (line) => `${hex(sdtool.sidFromText(line, domain))}\n`,
    to_text: (line) => `${sdtool.sidToText(bytes(line), {...domain, ...numeric})}\n`,
    size: (line) => `${sdtool.sidSize(bytes(line))}\n`,
    text,
};

// A fault as ../../library/c/calls.c prints it. The number of an argument is told by its name, so only a test of one
// asks for it.
function spelled(fault) {
    if (fault instanceof ArgumentFault)
        return job === "to_text" ? `error 70 ${fault.argument} ${fault.entry ?? 0}\n` : "error 70\n";
    if (!(fault instanceof Fault)) throw fault;
    return `error ${fault.number}${PARTS[fault.part] ?? ""}${PARTS[fault.otherPart] ?? ""}\n`;
}

function answer(line) {
    try {
        return JOBS[job](line);
    } catch (fault) {
        return spelled(fault);
    }
}

const input = readFileSync(0);
if (job === "plain") {
    const {status, output, message} = sdtool.run(more, Uint8Array.from(input));
    process.stdout.write(output);
    process.stderr.write(message);
    process.exitCode = status;
} else {
    const lines = input.toString("latin1").split("\n").slice(0, -1);
    process.stdout.write(Buffer.from(OF_ALL[job]?.(lines) ?? lines.map(answer).join(""), "latin1"));
}
