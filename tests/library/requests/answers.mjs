// answers.mjs FOLDER [THREADS | time DESCRIPTOR SID]
//
// Answers requests from standard input by the module in FOLDER, one a line, as language_requests.py describes them; or
// measures checks and calls that do nothing. A text has the place of its fault in code units, which become bytes here.
import {readFileSync} from "node:fs";
import {pathToFileURL} from "node:url";

const MAPPINGS = ["file", "key", "ds"], KINDS = ["file", "container"], STATES = ["absent", "null", "list"];
const PARTS = [null, "owner", "group", "sacl", "dacl"];
const FIELDS = [null, "kind", "flags", "rights", "object type", "inherited object type", "sid", "size"];
const REASONS = ["nothing", "label", "no-dacl", "owner", "privilege", "granted", "denied"];
const GRANTING = ["no-dacl", "owner", "privilege", "granted"];
const PLACES = new Map([[0xffffffff, "end"], [0xfffffffe, "order"]]);
const WITHOUT_PLACE = ["sid-text", "rights", "flags", "guid-text"]; // the text of a field is the place of its fault
const HAS_LEVEL = 1, SECURITY = 2, TAKE_OWNERSHIP = 4, CHANGES = 16;
const CALLS = 2000, ROUNDS = 100;
const ACE_IN_DACL = 28; // where the first ACE is in the layout of a descriptor that has a DACL alone
const HALF = "\ud800";  // no text of a word
const [folder, ...rest] = process.argv.slice(2);
const {load, Fault, ArgumentFault} = await import(pathToFileURL(`${folder}/sdtool.mjs`));
const sdtool = await load();

const shown = (bytes) => (bytes !== null && bytes.length > 0 ? Buffer.from(bytes).toString("hex") : "-");
const shownText = (text) => shown(Buffer.from(text));
const number = (value) => (value === null ? "-" : String(value));
const some = (name, bytes) => (bytes.length > 0 ? {[name]: bytes} : {});
const bytesBefore = (text, units) => Buffer.byteLength(text.slice(0, units));

class Words {
    #words;
    #at = 1;
    given = null;

    constructor(line) { this.#words = line.split(" ").filter((word) => word !== ""); }

    get job() { return this.#words[0]; }

    word() {
        this.#at += 1;
        return this.#words[this.#at - 1];
    }

    number() { return Number(this.word()); }

    flag() { return this.number() === 1; }

    bytes() {
        const word = this.word();
        return Uint8Array.from(Buffer.from(word === "-" ? "" : word, "hex"));
    }

    text() {
        this.given = new TextDecoder().decode(this.bytes());
        return this.given;
    }

    // A SID that has to be one before what follows is looked at.
    sid() {
        const sid = this.bytes();
        if (sid.length === 0 || sdtool.sidSize(sid) !== sid.length) throw new ArgumentFault("this is no SID");
        return sid;
    }

    guids() {
        const object = this.bytes(), inherited = this.bytes();
        return {
            objectType: object.length > 0 ? object : null,
            inheritedObjectType: inherited.length > 0 ? inherited : null
        };
    }

    ace(sid = () => this.bytes()) {
        return {kind: this.number(), flags: this.number(), mask: this.number(), sid: sid(), ...this.guids()};
    }

    acl() {
        const word = this.word();
        return STATES.includes(word) ? {state: word} : Array.from({length: Number(word)}, () => this.ace());
    }

    texts() { return {...some("domain", this.bytes()), numeric: this.flag()}; }

    token() {
        const lists = [0, 1].map(() => Array.from({length: this.number()}, () => this.bytes()));
        const options = this.number(), level = (options & HAS_LEVEL) === 0 ? {} : {level: this.number()};
        const asker = {security: (options & SECURITY) !== 0, takeOwnership: (options & TAKE_OWNERSHIP) !== 0, ...level};
        return {sids: lists[0], denyOnly: lists[1], asker};
    }

    request() {
        const {sids, denyOnly, asker} = this.token(), mapping = MAPPINGS[this.number()], maximum = this.flag();
        const named = {...asker, mapping, ...some("objectType", this.bytes()), ...some("principalSelf", this.bytes())};
        return {sids, denyOnly, asker: named, asked: {...named, wanted: this.number(), maximum}};
    }

    creation() {
        const kind = KINDS[this.number()], mapping = MAPPINGS[this.number()], owner = this.sid(), group = this.sid();
        const creator = this.bytes(), brought = creator.length > 0 ? {creator: sdtool.normalize(creator)} : {};
        return [this.bytes(), owner, group, {kind, mapping, ...brought}];
    }

    match() {
        const match = {flags: this.number(), flagsMask: this.number()}, sid = this.word();
        if (sid !== "-") match.sid = Uint8Array.from(Buffer.from(sid, "hex"));
        for (const name of ["kind", "mask"])
            if (this.flag()) match[name] = this.number();
        for (const name of ["objectType", "inheritedObjectType"]) {
            const word = this.word();
            if (word !== "any") match[name] = word === "given" ? this.bytes() : null;
        }
        return match;
    }

    setting() {
        return {
            ...some("sid", this.bytes()),
            setMask: this.number(),
            clearMask: this.number(),
            setFlags: this.number(),
            clearFlags: this.number()
        };
    }

    change() {
        const change = this.word().replace("-e", "E"), acl = this.word() === "S" ? "sacl" : "dacl",
              ofAcl = {change, acl};
        switch (change) {
        case "put":
        case "replace": {
            const place = this.number();
            return {...ofAcl, place: (change === "put" && PLACES.get(place)) || place, ace: this.ace(() => this.sid())};
        }
        case "take":
            return {...ofAcl, place: this.number()};
        case "takeEach":
            return {...ofAcl, match: this.match()};
        case "setEach":
            return {...ofAcl, match: this.match(), setting: this.setting()};
        case "order":
            return ofAcl;
        case "state":
            return {...ofAcl, state: STATES[this.number()]};
        case "control":
            return {change, setControl: this.number(), clearControl: this.number()};
        default: {
            const sid = this.bytes();
            return {change, sid: sid.length > 0 ? sid : null};
        }
        }
    }
}

// What two ways say has to be the same.
function requireSame(one, other) {
    if (JSON.stringify(one) !== JSON.stringify(other)) throw new Error("two ways say different things");
}

const ofAce = ({kind, flags, mask, sid, objectType, inheritedObjectType}) => [kind, flags, mask, shown(sid),
    shown(objectType), shown(inheritedObjectType)].join(",");
const ofAcl = ({state, aces}) => (state === "list" ? `[${aces.map(ofAce).join(";")}]` : state);
const ofVerdict = ({granted, mask}) => `${granted ? 1 : 0} ${mask}`;
const ofOrigins = (origins) =>
    `[${origins.map((one) => [one.place, one.fromCreator ? 1 : 0, one.inheritOnly ? 1 : 0].join(",")).join(";")}]`;

function ofFault(fault, {given, job}) {
    if (fault instanceof ArgumentFault) return "! 70";
    const {place, argument, entry} = fault;
    let where = "-", sentence = `${argument === "changes" ? "changes: " : ""}${fault.line}: ${fault.meaning}`;
    if (place !== null && !WITHOUT_PLACE.includes(job)) {
        const isText = given !== null, offset = isText ? bytesBefore(given, place.offset) : place.offset;
        const size = isText ? bytesBefore(given, place.offset + place.size) - offset : place.size;
        where = [PARTS.indexOf(place.part), number(place.ace), FIELDS.indexOf(place.field), offset, size].join(",");
        sentence = fault.message;
    }
    const ofChange = argument === "changes" ? [CHANGES, entry] : [0, 0];
    const parts = [PARTS.indexOf(fault.part), PARTS.indexOf(fault.otherPart)];
    return ["!", fault.number, fault.name, ...parts, ...ofChange, where, sentence].join(" ");
}

const ANSWERS = {
    bytes: (words) => shown(sdtool.normalize(words.bytes())),
    sddl: (words) => shown(sdtool.fromSddl(words.text(), some("domain", words.bytes()))),
    "to-sddl": (words) => {
        const options = words.texts();
        return sdtool.toSddl(words.bytes(), options);
    },
    explain: (words) => {
        const options = words.texts();
        return shownText(sdtool.explain(words.bytes(), options));
    },
    sid: (words) => {
        const sid = words.bytes(), text = sdtool.sidToText(sid, {numeric: true});
        const alias = sdtool.sidToText(sid, some("domain", words.bytes()));
        return `${text} ${alias === text ? "-" : alias}`;
    },
    "sid-text": (words) => shown(sdtool.sidFromText(words.text(), some("domain", words.bytes()))),
    guid: (words) => sdtool.guidToText(words.bytes()),
    "guid-text": (words) => shown(sdtool.guidFromText(words.text())),
    rights: (words) => String(sdtool.rightsFromText(words.text())),
    flags: (words) => String(sdtool.flagsFromText(words.text())),
    "rights-text": (words) => shownText(sdtool.rightsToText(words.number(), {label: words.flag()})),
    "flags-text": (words) => shownText(sdtool.flagsToText(words.number())),
    "ace-text": (words) => ofAce(sdtool.aceRead(sdtool.aceFromText(words.text(), some("domain", words.bytes()))).ace),
    ace: (words) => {
        const options = words.texts();
        return sdtool.aceToText(sdtool.build({dacl: [words.ace()]}).subarray(ACE_IN_DACL), options);
    },
    parts: (words) => {
        const {owner, group, sacl, dacl, control, resourceManager} = sdtool.parts(sdtool.normalize(words.bytes()));
        return [shown(owner), shown(group), ofAcl(sacl), ofAcl(dacl), control, resourceManager].join(" ");
    },
    build: (words) => {
        const control = words.number(), resourceManager = words.number(), owner = words.bytes(), group = words.bytes();
        const named = {...some("owner", owner), ...some("group", group), sacl: words.acl(), dacl: words.acl()};
        return shown(sdtool.build({control, resourceManager, ...named}));
    },
    check: (words) => {
        const {sids, denyOnly, asked} = words.request(), descriptor = words.bytes();
        const verdict = sdtool.checkWith(descriptor, sdtool.readToken(sids, {denyOnly}), asked);
        const other = sdtool.check(descriptor, sids, {...asked, denyOnly});
        requireSame(verdict, other);
        return ofVerdict(verdict);
    },
    "check-many": (words) => {
        const {sids, denyOnly, asked} = words.request(),
                               all = Array.from({length: words.number()}, () => words.bytes());
        return sdtool.checkMany(all, sids, {...asked, denyOnly})
            .map((one) => (one instanceof Fault ? ofFault(one, words) : ofVerdict(one)))
            .join(" | ");
    },
    reasons: (words) => {
        const {sids, denyOnly, asker} = words.request(), descriptor = words.bytes();
        const told = sdtool.reasonsWith(descriptor, sdtool.readToken(sids, {denyOnly}), asker);
        const other = sdtool.reasons(descriptor, sids, {...asker, denyOnly});
        requireSame(told, other);
        const parts = sdtool.parts(descriptor);
        for (const {kind, place, ace} of told)
            requireSame(ace, place === null ? null : parts[kind === "label" ? "sacl" : "dacl"].aces[place]);
        return told
            .map(({kind, place}) => [REASONS.indexOf(kind), number(place), GRANTING.includes(kind) ? 1 : 0].join(","))
            .join(" ");
    },
    derive: (words) => shown(sdtool.derive(...words.creation())),
    origins: (words) => {
        const made = words.creation(), {sacl, dacl} = sdtool.origins(...made), {creator = made[0]} = made[3];
        const parents = sdtool.parts(made[0]), creators = sdtool.parts(creator);
        for (const [name, origins] of Object.entries({sacl, dacl}))
            for (const {fromCreator, place, ace} of origins)
                requireSame(ace, (fromCreator ? creators : parents)[name].aces[place]);
        return `${ofOrigins(sacl)} ${ofOrigins(dacl)}`;
    },
    edit: (words) => {
        const changes = Array.from({length: words.number()}, () => words.change());
        const {descriptor, touched} = sdtool.edit(sdtool.normalize(words.bytes()), changes);
        return `${shown(descriptor)} ${touched.join(",")}`;
    },
    order: (words) => {
        const {sacl, dacl} = sdtool.order(words.bytes());
        return `${number(sacl)} ${number(dacl)}`;
    },
    run: (words) => {
        const given = Array.from({length: words.number()}, () => words.text()), input = words.bytes();
        const spelled = given.map((word) => (word.includes("\0") ? HALF : word));
        const {status, output, message} = sdtool.run(spelled, input);
        return `${status} ${shown(output)} ${shownText(message)}`;
    },
};

function answer(line) {
    const words = new Words(line);
    try {
        return ANSWERS[words.job](words);
    } catch (fault) {
        if (!(fault instanceof Fault || fault instanceof ArgumentFault)) throw fault;
        return ofFault(fault, words);
    }
}

// Nanoseconds of one call of many.
function measured(call) {
    let best = Infinity;
    for (let round = 0; round < ROUNDS; round += 1) {
        const began = process.hrtime.bigint();
        for (let index = 0; index < CALLS; index += 1) call();
        best = Math.min(best, Number(process.hrtime.bigint() - began));
    }
    return best / CALLS;
}

if (rest[0] === "time") {
    const words = new Words(`time ${rest.slice(1).join(" ")}`), descriptor = words.bytes();
    const token = sdtool.readToken([words.bytes()]), asked = {wanted: 0x120089}, bytes = new Uint8Array(0);
    if (!sdtool.checkWith(descriptor, token, asked).granted) throw new Error("this is granted");
    console.log(measured(() => sdtool.checkWith(descriptor, token, asked)), measured(() => sdtool.sidSize(bytes)));
} else {
    const lines = readFileSync(0, "utf8").split("\n").slice(0, -1);
    process.stdout.write(lines.map((line) => `${answer(line)}\n`).join(""));
}
