// lies.mjs FOLDER
//
// Arguments of the JavaScript module in FOLDER that lie: for each argument of each call, each way in which an object
// can say one thing and be another, beside the plain argument that means the same. The answer has to be that of the
// plain one, or the argument is refused, by an ArgumentFault. Of a lie that leaves no doubt what is meant the answer
// has to be the same. Then the plain calls again, with prototypes that somebody has changed: no answer may change. The
// last line is 'N passed, M failed'.
import {readFileSync} from "node:fs";
import {pathToFileURL} from "node:url";
import {types} from "node:util";
import vm from "node:vm";

const [folder] = process.argv.slice(2);
const {load, Fault, ArgumentFault} = await import(new URL("sdtool.mjs", pathToFileURL(`${folder}/`)));
const sdtool = await load();
let passed = 0, failed = 0;

function add(isRight, what) {
    if (isRight) passed += 1;
    else {
        failed += 1;
        if (failed <= 50) console.log(`FAIL ${what}`);
    }
}

const toHex = (bytes) => Buffer.from(bytes).toString("hex");

// An answer, or why there is none, as a text to compare.
function spelled(value) {
    if (value instanceof Uint8Array) return `bytes ${toHex(value)}`;
    if (Array.isArray(value)) return `[${value.map(spelled).join()}]`;
    if (value instanceof Fault) return `fault ${value.line} ${value.argument} ${value.entry}`;
    if (typeof value === "object" && value !== null)
        return `{${Object.keys(value).map((name) => `${name}: ${spelled(value[name])}`).join()}}`;
    return JSON.stringify(value) ?? "undefined";
}

function outcomeOf(call, given) {
    try {
        return {answer: spelled(sdtool[call](...given))};
    } catch (fault) {
        return fault instanceof Fault ? {answer: spelled(fault)} : {fault};
    }
}

const bytesOf = (hex) => Uint8Array.from(Buffer.from(hex, "hex"));
const fromSddl = (text) => sdtool.fromSddl(text);
const SYSTEM = bytesOf("010100000000000512000000"), USERS = bytesOf("01020000000000052000000021020000");
const DOMAIN = sdtool.sidFromText("S-1-5-21-1-2-3"), GUID = bytesOf("c07996bfe60dd011a28500aa003049e2");
const DENIES = fromSddl("O:BAD:(D;;FR;;;SY)(A;;FR;;;BU)"), GRANTS = fromSddl("O:BAD:(A;;FA;;;BU)");
const FOLDER = fromSddl("O:BAD:(A;OICI;FR;;;BU)(A;OI;FW;;;SY)(A;CI;GA;;;CO)");
const ACE = () =>
    ({kind: 5, flags: 2, mask: 0x100, sid: "BU", objectType: GUID.slice(), inheritedObjectType: GUID.slice()});
const DENY = () => ({kind: 1, flags: 0, mask: 0x1f01ff, sid: SYSTEM.slice()});
const CHANGES =
    () => [{change: "put", acl: "dacl", place: 0, ace: ACE()}, {change: "control", setControl: 0x1000, clearControl: 0},
        {change: "state", acl: "sacl", state: "null"}, {change: "take", acl: "dacl", place: 1}];
const MATCHING = () => ({sid: USERS.slice(), kind: 0, mask: 0x120089, objectType: null, flags: 0, flagsMask: 0x10});
const SETTING = () => ({sid: "SY", setMask: 2, clearMask: 1, setFlags: 3, clearFlags: 8});
const TOKEN = sdtool.readToken(["BU"], {denyOnly: ["SY"]});

// Each call with arguments of which every piece counts: without it the answer is another. A path names a piece.
const CALLS = [
    ["toSddl", () => [fromSddl("O:S-1-5-21-1-2-3-512D:(A;;FA;;;BA)"), {domain: DOMAIN.slice(), numeric: false}]],
    ["toSddl", () => [GRANTS.slice(), {numeric: true}]],
    ["explain", () => [fromSddl("O:S-1-5-21-1-2-3-512"), {domain: "S-1-5-21-1-2-3"}]],
    ["normalize", () => [GRANTS.slice()]],
    ["fromSddl", () => ["O:DAD:(A;;FA;;;DU)", {domain: DOMAIN.slice()}]],
    ["sidFromText", () => ["DA", {domain: "S-1-5-21-1-2-3"}]],
    ["sidToText", () => [sdtool.sidFromText("S-1-5-21-1-2-3-512"), {domain: DOMAIN.slice(), numeric: false}]],
    ["sidSize", () => [USERS.slice()]],
    ["aceFromText", () => ["(A;;FR;;;DA)", {domain: DOMAIN.slice()}]],
    ["aceToText", () => [sdtool.aceFromText("(A;;FR;;;S-1-5-21-1-2-3-512)"), {domain: DOMAIN.slice(), numeric: false}]],
    ["aceRead", () => [sdtool.aceFromText("(D;OI;FR;;;BU)")]],
    ["rightsFromText", () => ["FR"]],
    ["rightsToText", () => [1, {label: true}]],
    ["flagsFromText", () => ["OICI"]],
    ["flagsToText", () => [3]],
    ["guidFromText", () => ["bf9679c0-0de6-11d0-a285-00aa003049e2"]],
    ["guidToText", () => [GUID.slice()]],
    ["parts", () => [DENIES.slice()]],
    ["aces", () => [bytesOf("02001c000100000001001400ff011f00010100000000000512000000")]],
    ["faultText", () => [25]],
    ["run", () => [["convert", "--from", "sddl"], Uint8Array.from(Buffer.from("O:BA\nO:SY\n"))]],
    ["check", () => [DENIES.slice(), ["BU", USERS.slice()], {wanted: 1, denyOnly: ["SY", SYSTEM.slice()]}]],
    ["check", () => [GRANTS.slice(), [USERS.slice()], {wanted: 2, level: 4096}]],
    ["check", () => [GRANTS.slice(), ["BU"], {wanted: 0x1000000, security: true, maximum: false}]],
    ["check", () => [fromSddl("D:"), ["BU"], {wanted: 0x80000, takeOwnership: true}]],
    ["check", () => [fromSddl("D:(A;;FR;;;BU)"), ["BU"], {wanted: 2, maximum: true}]],
    ["check", () => [fromSddl("D:(A;;0x120116;;;BU)"), ["BU"], {wanted: 0x40000000, mapping: "ds"}]],
    [
        "check",
        () => [fromSddl("D:(OD;;RP;bf9679c0-0de6-11d0-a285-00aa003049e2;;WD)(A;;RP;;;WD)"), ["WD"],
            {wanted: 0x10, mapping: "ds", objectType: GUID.slice()}]
    ],
    ["check", () => [fromSddl("D:(D;;FR;;;PS)(A;;FR;;;BU)"), ["BU"], {wanted: 1, principalSelf: USERS.slice()}]],
    ["check", () => [fromSddl("D:(D;;FR;;;PS)(A;;FR;;;BU)"), ["BU"], {wanted: 1, principalSelf: "BU"}]],
    ["readToken", () => [["BU", USERS.slice()], {denyOnly: [SYSTEM.slice(), "BA"]}]],
    ["checkWith", () => [DENIES.slice(), TOKEN.slice(), {wanted: 1}]],
    ["checkWith", () => [GRANTS.slice(), TOKEN.slice(), {wanted: 2, level: 4096}]],
    ["reasons", () => [DENIES.slice(), ["BU", USERS.slice()], {denyOnly: ["SY", SYSTEM.slice()]}]],
    ["reasons", () => [GRANTS.slice(), ["BU"], {level: 4096, security: true, takeOwnership: true, mapping: "ds"}]],
    ["reasonsWith", () => [DENIES.slice(), TOKEN.slice(), {level: 4096}]],
    ["checkMany", () => [[DENIES.slice(), GRANTS.slice(), SYSTEM.slice()], ["BU"], {wanted: 1, denyOnly: ["SY"]}]],
    [
        "derive",
        () => [FOLDER.slice(), "BA", SYSTEM.slice(), {kind: "container", creator: DENIES.slice(), mapping: "key"}]
    ],
    [
        "origins",
        () => [FOLDER.slice(), "BA", SYSTEM.slice(), {kind: "container", creator: DENIES.slice(), mapping: "key"}]
    ],
    ["build", () => [{owner: "BA", group: SYSTEM.slice(), dacl: [DENY(), ACE()], control: 0x1000, resourceManager: 7}]],
    ["build", () => [{owner: null, dacl: {state: "list", aces: [DENY()]}, sacl: {state: "null"}}]],
    ["edit", () => [DENIES.slice(), CHANGES()]],
    ["edit", () => [DENIES.slice(), [{change: "setEach", acl: "dacl", match: MATCHING(), setting: SETTING()}]]],
    ["order", () => [DENIES.slice()]],
    ["build", () => [{dacl: {state: "absent"}, sacl: [{kind: 2, flags: 0x40, mask: 1, sid: "WD", objectType: null}]}]],
];

// The paths of all pieces of a value, the value itself first.
function pathsOf(value, path = []) {
    const inside =
        typeof value === "object" && value !== null && !(value instanceof Uint8Array) ? Object.keys(value) : [];
    return [path, ...inside.flatMap((name) => pathsOf(value[name], [...path, name]))];
}

const at = (value, path) => path.reduce((found, name) => found[name], value);

// The arguments with a piece changed.
function changed(given, path, change) {
    if (path.length === 1) given[path[0]] = change(given[path[0]], given, path);
    else {
        const holder = at(given, path.slice(0, -1)), name = path.at(-1);
        holder[name] = change(holder[name], given, path);
    }
    return given;
}

// What is of another kind than a piece, or says so.
const OTHERS = (value) => [undefined, null, 0, 1, -1, 5, 1.5, NaN, 4096n, "", "x", "BU", true, false, Symbol("x"), [],
    [value], {}, () => value, new Map([["level", 4096]]), new Set([value]), new WeakMap(), Promise.resolve(value),
    new Date(0), /x/, new Error("x"), new String("BU"), new Number(1), new Boolean(false), Object(1n),
    Object(Symbol("x")), new Uint8Array(3), new ArrayBuffer(16), new DataView(new ArrayBuffer(16)), new Uint16Array(8),
    new URLSearchParams("level=4096"), {length: 0}, {valueOf: () => value}, {toString: () => "BU"},
    {[Symbol.toPrimitive]: () => value}, Object.prototype, Array.prototype, globalThis, Math, JSON, Reflect,
    new Proxy(() => value, {}), Object.create(null), Object.create(Map.prototype), Object.create(Array.prototype),
    new (class {
        get() { return value; }
    })(),
    (function*() { yield value; })(), Object.assign(new Map(), {x: value}), revoked({}), revoked([]),
    revoked(new Uint8Array(12))];
const NULLABLE = ["level", "owner", "group", "objectType", "inheritedObjectType"];
// An object that has no names, and says so.
const isNameless = (other) => !isProxy(other) && other !== Object.prototype && Reflect.ownKeys(other).length === 0 &&
    [Object.prototype, null].includes(
        Object.getPrototypeOf(other) && Object.getPrototypeOf(Object.getPrototypeOf(other)) ?
            0 :
            Object.getPrototypeOf(other));

// Whether what is of another kind may be taken all the same: a name that has nothing, another number, another SID, no
// names.
function isLegal(value, other, path) {
    const name = path.at(-1),
          isOption = path.length > 1 || (path[0] > 0 && typeof value === "object" && !Array.isArray(value));
    if (other === undefined)
        return isOption && !["dacl", "sacl"].includes(name) && !(value instanceof Uint8Array && path.length === 1);
    if (other === null) return NULLABLE.includes(name);
    if (value === null) return true;
    if (isProxy(other)) return false;
    if (value instanceof Uint8Array || typeof value === "string")
        return typeof other === "string" || other instanceof Uint8Array;
    if (Array.isArray(value))
        return Array.isArray(other) || (typeof other === "object" && other !== null && "state" in other);
    if (typeof value === "object") return typeof other === "object" && (isNameless(other) || Array.isArray(other));
    return typeof other === typeof value;
}

function revoked(target) {
    const {proxy, revoke} = Proxy.revocable(target, {});
    revoke();
    return proxy;
}

const {isProxy} = types;
const foreign = vm.createContext({});
const foreignOf = (value) => Object.assign(vm.runInContext(Array.isArray(value) ? "[]" : "({})", foreign), value);
// A getter that says something else each time after the first.
const changing = (first, later) => {
    let times = 0;
    return {get: () => ((times += 1) === 1 ? first : later), enumerable: true, configurable: true};
};
const own = (value, properties) => Object.defineProperties(value, properties);
const hidden = (value) => ({value, enumerable: false, configurable: true, writable: true});

// Objects with names that mean what a plain one means: {lie, isSame}, where the answer has to be the same.
function liesOfNames(value) {
    const names = Object.keys(value), same = (lie) => ({lie, isSame: true}), any = (lie) => ({lie, isSame: false});
    const each = (change) =>
        Object.defineProperties({}, Object.fromEntries(names.map((name) => [name, change(value[name])])));
    const middle = (change) => Object.create(Object.create(change));
    class Names {}
    for (const name of names)
        Object.defineProperty(Names.prototype, name, {get: () => value[name], configurable: true});
    class Below extends Names {}
    const swapping = (other) => each((one) => changing(one, other));
    // Each getter takes all other names away, or the prototype that they are in.
    const dropping = () => {
        const found = {};
        for (const name of names)
            own(found, {
                [name]: {
                    get: () => {
                        names.forEach((other) => other === name || delete found[other]);
                        return value[name];
                    },
                    configurable: true
                }
            });
        return found;
    };
    const cutting = () => {
        const found = Object.create(Object.create(dropping()));
        const name = names[0], get = () => {
            Object.setPrototypeOf(found, null);
            return value[name];
        };
        return names.length > 0 ? own(found, {[name]: {get, configurable: true}}) : found;
    };
    // A proxy that lists names of which it then has nothing: all of them or one alone.
    const denying = (of, denied) => new Proxy(of, {
        ownKeys: () => names,
        has: (_, name) => !denied.includes(name) && name in of ,
        get: (_, name) => (denied.includes(name) ? undefined : of[name]),
        getOwnPropertyDescriptor: (_, name) =>
            (denied.includes(name) ? undefined : Object.getOwnPropertyDescriptor(of, name)),
    });
    const below = Object.create(each((one) => ({get: () => one, configurable: true})));
    return [
        ...[names, ...names.map((name) => [name])].flatMap(
            (denied) => [any(denying(value, denied)), any(denying({}, denied)),
                any(Object.create(denying(value, denied))), any(denying(Object.create(value), denied)),
                any(denying(below, denied))]),
        any(new Proxy({}, {ownKeys: () => names})),
        same(new Proxy(below, {ownKeys: () => names})),
        same(new Proxy(below, {ownKeys: () => names, getOwnPropertyDescriptor: () => undefined})),
        same(Object.create(value)),
        same(middle(value)),
        same(Object.freeze({...value})),
        same(new Names()),
        same(new Below()),
        same(Object.assign(Object.create(null), value)),
        same(Object.create(Object.assign(Object.create(null), value))),
        same(each((one) => hidden(one))),
        same(each((one) => ({get: () => one, configurable: true}))),
        same(swapping(undefined)),
        same(swapping(null)),
        same(swapping(0)),
        same(swapping("WD")),
        same(swapping(true)),
        same(Object.create(swapping(undefined))),
        same(foreignOf(value)),
        same(Object.create(foreignOf(value))),
        same(new Proxy(value, {})),
        same(new Proxy({}, {get: (_, name) => value[name]})),
        same(new Proxy(value, {has: () => false})),
        same(new Proxy(value, {ownKeys: () => []})),
        same(new Proxy(value, {getOwnPropertyDescriptor: () => undefined})),
        same(new Proxy(value, {getPrototypeOf: () => null})),
        same(new Proxy(Object.create(value), {getPrototypeOf: () => null, ownKeys: () => []})),
        same(Object.create(new Proxy(value, {ownKeys: () => [], getOwnPropertyDescriptor: () => undefined}))),
        same(names.reduce((below, name) => Object.assign(Object.create(below), {[name]: value[name]}), {})),
        same(own({...value}, {constructor: undefined && hidden(0)} && {})),
        any(dropping()),
        any(cutting()),
        any(own({...value}, {constructor: hidden(5)})),
        any(own({...value}, {__proto__: null})),
        any({...value, valueOf: () => ({})}),
        any({...value, toJSON: () => ({})}),
        any({...value, [Symbol("x")]: 1}),
        any(own({...value}, {hidden: hidden(1)})),
        any(Object.assign(Object.create({unknown: 1}), value)),
        any(Object.assign(Object.create(own({}, {unknown: hidden(1)})), value)),
        any(Object.assign([], value)),
        any(Object.assign(new Map(), value)),
        any(Object.assign(new Number(5), value)),
        any(Object.assign(new String(""), value)),
        any(Object.assign(() => 0, value)),
        any(Object.assign(new Date(0), value)),
        any(Object.assign(Promise.resolve(value), value)),
        any(Promise.resolve(value)),
        any(new Map(Object.entries(value))),
        any(Object.entries(value)),
        any(JSON.stringify(names)),
        any(new Set(names)),
        any(Object.assign(new Error("x"), value)),
        any(new Proxy(value, {get: () => undefined})),
        any(new Proxy(value, {ownKeys: () => { throw new TypeError("x"); }})),
        any(new Proxy(value, {get: () => { throw new RangeError("x"); }})),
        any(each(() => ({get: () => { throw new Error("x"); }}))),
        any(new Proxy({...value}, {getPrototypeOf: () => new Proxy({}, {getPrototypeOf: endless})})),
    ];
}

const endless = () => new Proxy({}, {getPrototypeOf: endless});

function liesOfLists(value) {
    const same = (lie) => ({lie, isSame: true}), any = (lie) => ({lie, isSame: false});
    class Items extends Array {
        static get[Symbol.species]() { return Array; }
        map() { return []; }
        flatMap() { return []; }
        forEach() {}
        filter() { return []; }
        slice() { return []; }
        entries() { return [][Symbol.iterator](); }
        at() { return "WD"; }
        [Symbol.iterator]() { return ["WD"][Symbol.iterator](); }
    }
    const items = () => value.slice();
    const none = () => [][Symbol.iterator]();
    const getters = (later) =>
        own(items(), Object.fromEntries(value.map((one, index) => [index, changing(one, later)])));
    // An array that lists more than items below its length.
    const shorter = (keys) => {
        const length = {value: Math.max(0, value.length - 1), writable: true, enumerable: false, configurable: false};
        if (keys.length === 1) keys.push(...value.keys());
        return new Proxy(items(), {
            ownKeys: () => keys.map(String),
            get: (of, name) => (name === "length" ? length.value : of[name]),
            getOwnPropertyDescriptor: (of, name) =>
                (name === "length" ? length : Object.getOwnPropertyDescriptor(of, name)),
        });
    };
    return [
        same(Items.from(value)),
        same(Object.freeze(items())),
        same(foreignOf(value)),
        same(Object.setPrototypeOf(items(), null)),
        any(own(items(), {[Symbol.iterator]: hidden(none)})),
        any(own(items(), {map: hidden(none), length: {}})),
        any(own(items(), {toJSON: hidden(() => []), constructor: hidden({[Symbol.species]: none})})),
        any(Object.assign(items(), {x: 1})),
        same(getters("WD")),
        same(getters(undefined)),
        same(new Proxy(value, {})),
        same(new Proxy(value, {ownKeys: () => ["length"], has: () => false})),
        any(new Proxy(value, {get: (of, name) => (name === "length" ? -1 : of[name])})),
        any(shorter(["length"])),
        any(shorter(["length", String(value.length - 1)])),
        any(shorter(["length", "-0"])),
        any(shorter(["length", "0.5"])),
        any(new Proxy(value, {get: (of, name) => (name === "length" ? 1e300 : of[name])})),
        any(new Proxy(value, {get: (of, name) => (name === "length" ? "1" : of[name])})),
        any(new Proxy(value, {get: (of, name) => (name === "length" ? {valueOf: () => 0} : of[name])})),
        any(new Proxy(value, {
            getOwnPropertyDescriptor: (of, name) =>
                (name === "length" ? Object.getOwnPropertyDescriptor(of, name) : undefined)
        })),
        any({...value, length: value.length}),
        any(new Set(value)),
        any(value[Symbol.iterator]()),
        any(value.keys()),
        any({[Symbol.iterator]: () => value[Symbol.iterator]()}),
        any(new Map(value.entries())),
        any(value.join()),
        any(Object.create(value)),
        any(Object.setPrototypeOf(Array(value.length), value)),
        any([...value, undefined]),
        any([, ...value]),
        any(Object.assign(Array(value.length + 1), value)),
        any(Promise.resolve(value)),
        any((function() { return arguments; })(...value)),
    ];
}

function liesOfBytes(value) {
    const same = (lie) => ({lie, isSame: true}), any = (lie) => ({lie, isSame: false});
    const other = new Uint8Array(value.length).fill(7);
    class Lying extends Uint8Array {
        static get[Symbol.species]() { return Uint16Array; }
        get length() { return 0; }
        get byteLength() { return 0; }
        get byteOffset() { return 4; }
        get buffer() { return new ArrayBuffer(0); }
        get[Symbol.toStringTag]() { return "Uint8Array"; }
        [Symbol.iterator]() { return [][Symbol.iterator](); }
        slice() { return other; }
        subarray() { return other; }
        set() {}
        at() { return 0; }
        valueOf() { return other; }
    }
    const resizable = new Uint8Array(new ArrayBuffer(value.length, {maxByteLength: 4 * value.length}));
    resizable.set(value);
    const shared = new Uint8Array(new SharedArrayBuffer(value.length));
    shared.set(value);
    const inside = new Uint8Array(value.length + 9);
    inside.set(value, 5);
    const gone = value.slice();
    structuredClone(gone.buffer, {transfer: [gone.buffer]});
    const cut = new Uint8Array(new ArrayBuffer(value.length + 4, {maxByteLength: 400 + value.length}), 4, value.length);
    cut.buffer.resize(4);
    return [
        same(Lying.from(value)),
        same(Buffer.from(value)),
        same(vm.runInContext("Uint8Array", foreign).from(value)),
        same(resizable),
        same(shared),
        same(inside.subarray(5, 5 + value.length)),
        same(Object.setPrototypeOf(value.slice(), null)),
        same(Object.setPrototypeOf(value.slice(), Array.prototype)),
        same(own(
            value.slice(), {length: hidden(0), byteLength: hidden(0), byteOffset: hidden(9), buffer: hidden(null)})),
        same(own(value.slice(), {[Symbol.iterator]: hidden(() => [][Symbol.iterator]()), constructor: hidden(Array)})),
        same(own(value.slice(), {[Symbol.toStringTag]: hidden("Int8Array"), toString: hidden(() => "BU")})),
        same(own(value.slice(), {slice: hidden(() => other), subarray: hidden(() => other), set: hidden(() => 0)})),
        any(new Proxy(value, {})),
        any(new Proxy(value, {get: (of, name) => of[name]})),
        any(Array.from(value)),
        any(gone),
        any(cut),
        any(value.buffer),
        any(new DataView(value.buffer)),
        any(new Int8Array(value)),
        any(new Uint8ClampedArray(value)),
        any({...value, length: value.length}),
        any(Object.create(value)),
        any(toHex(value)),
        any(String.fromCharCode(...value)),
        any({[Symbol.toStringTag]: "Uint8Array", length: value.length, buffer: value.buffer}),
        any(new Blob([value])),
        any(Object.create(Uint8Array.prototype)),
        any(Promise.resolve(value)),
        any(new Set(value)),
    ];
}

function liesOfPlain(value) {
    const any = (lie) => ({lie, isSame: false});
    const lies = [
        Object(value), [value], {valueOf: () => value, toString: () => String(value)}, () => value,
        {[Symbol.toPrimitive]: () => value}, own(Object(value), {valueOf: hidden(() => 0)}),
        new Proxy(Object(value), {})
    ];
    if (typeof value === "string")
        lies.push(` ${value}`, `${value} `, `${value}\0`, Buffer.from(value), [...value], class extends String {},
                  new (class extends String {})(value), value.toLowerCase());
    if (typeof value === "number")
        lies.push(BigInt(value), String(value), value + 2 ** 32, -value - 1, value + 0.5, new Date(value));
    if (typeof value === "boolean") lies.push(Number(value), String(value), value ? "1" : "", value ? {} : null);
    return lies.map(any);
}

function liesOf(value) {
    if (value instanceof Uint8Array) return liesOfBytes(value);
    if (Array.isArray(value)) return liesOfLists(value);
    return typeof value === "object" && value !== null ? liesOfNames(value) : liesOfPlain(value);
}

const isRefused = ({fault}) => fault instanceof ArgumentFault && fault.name === "ArgumentFault" && fault.number === 70;

// Another text, such as one with a blank in it, is no SID, no descriptor or no word.
const isNoAnswer = ({answer}) =>
    answer !== undefined && (answer.startsWith("fault ") || answer.startsWith("{status: 2,"));

// A lie is answered as the plain argument is, or refused.
function judge(call, plain, given, what, isSame) {
    const got = outcomeOf(call, given);
    add(got.answer === plain.answer && "answer" in got || (!isSame && (isRefused(got) || isNoAnswer(got))),
        `${what}: ${got.answer ?? got.fault}, not ${plain.answer}`);
}

// What is of another kind is refused, unless it is legal, and then it is judged like any other argument.
function judgeOther(call, given, what, isLegal) {
    const got = outcomeOf(call, given);
    add(isRefused(got) || (got.answer !== undefined && (isLegal || isNoAnswer(got))),
        `${what}: ${got.answer ?? got.fault}`);
}

for (const [call, make] of CALLS) {
    const plain = outcomeOf(call, make());
    add("answer" in plain && !plain.answer.startsWith("fault"), `${call} is refused: ${plain.answer ?? plain.fault}`);
    for (const path of pathsOf(make()).slice(1)) {
        const what = `${call} ${path.join(".")}`, value = at(make(), path);
        liesOf(value).forEach(({lie, isSame}, index) => judge(
                                  call, plain, changed(make(), path, () => lie), `${what}, lie ${index}`, isSame));
        OTHERS(value).forEach((other, index) => judgeOther(call, changed(make(), path, () => other),
                                  `${what}, other ${index}`, isLegal(value, other, path)));
    }
}

// Names and texts of a caller's in messages: cut, and without characters that a terminal would take for its own.
const LOUD = `\x1b[31m\u202e${"x".repeat(3_000_000)}`;
const isPlainText = (text) => text.length < 400 && !/[^\P{C}\n]/u.test(text);
function loudOf(value) {
    if (typeof value === "string") return [LOUD];
    if (typeof value !== "object" || value === null || value instanceof Uint8Array) return [];
    const copy = () => (Array.isArray(value) ? value.slice() : {...value});
    return [Object.assign(copy(), {[LOUD]: 1}), Object.assign(copy(), {[Symbol(LOUD)]: 1})];
}
for (const [call, make] of CALLS) {
    for (const path of pathsOf(make()).slice(1)) {
        const value = at(make(), path), isNamed = typeof value === "object" && !Array.isArray(value),
              what = path.join(".");
        for (const loud of loudOf(value)) {
            const {fault, answer} = outcomeOf(call, changed(make(), path, () => loud));
            add(isPlainText(fault ? fault.message : answer), `${call} ${what}: a message with a long text`);
            if (isNamed) add(fault?.message.includes("\\u{1b}[31m"), `${call} ${what}: the name is said`);
        }
    }
}

// Empty bytes where C has none: they are refused, since a caller that has lost a GUID or a SID asks for something else.
for (const [call, make] of CALLS) {
    for (const path of pathsOf(make()).slice(1)) {
        if (!(at(make(), path) instanceof Uint8Array) || call === "run" || (path[0] === "0" && call !== "build"))
            continue;
        for (const empty of [new Uint8Array(0), SYSTEM.subarray(3, 3), Buffer.alloc(0),
                 new Uint8Array(new ArrayBuffer(0, {maxByteLength: 8}))])
            judgeOther(call, changed(make(), path, () => empty), `${call} ${path.join(".")} is empty`, false);
    }
}

// Bytes that an argument behind them changes: they count as they were when they were handed over.
for (const [call, make] of CALLS) {
    const plain = outcomeOf(call, make());
    const paths = pathsOf(make()).slice(1).filter((path) => at(make(), path) instanceof Uint8Array);
    for (const path of paths) {
        const given = make(), bytes = at(given, path), spoil = () => { bytes.fill(0xff); };
        // Each name behind it, and each item of a list, is a getter that spoils the bytes.
        const spoiling = (one) => ({
            get: () => {
                spoil();
                return one;
            },
            enumerable: true,
            configurable: true
        });
        for (const other of pathsOf(given).slice(1).sort((one, another) => another.length - one.length)) {
            const holder = at(given, other.slice(0, -1)), name = other.at(-1);
            const isBehind = String(other) > String(path) && !String(other).startsWith(String(path));
            if (isBehind && other.length > 1) Object.defineProperty(holder, name, spoiling(holder[name]));
        }
        judge(call, plain, given, `${call} ${path.join(".")} is spoiled later`, true);
    }
}

// Prototypes and functions of the language that somebody has changed.
const {apply, defineProperty, getOwnPropertyDescriptor, deleteProperty} = Reflect;
const VIEW = Object.getPrototypeOf(Uint8Array.prototype);
const NAMES = [
    "domain", "numeric", "wanted", "maximum", "mapping", "level", "objectType", "principalSelf", "security",
    "takeOwnership", "denyOnly", "kind", "creator", "owner", "group", "sacl", "dacl", "control", "resourceManager",
    "state", "aces", "mask", "flags", "sid", "inheritedObjectType", "get", "set", "value", "writable", "enumerable",
    "configurable", "cause", "argument", "entry", "length", "inputs", "numbers", "count", "enabled", "names", "doors",
    "isPart", "refuse", "number", "name", "part", "other", "otherPart", "line", "fault", "verdict", "0", "1", "2", "3",
    "done", "next", "written", "read", "granted", "stream", "offset", "size", "message", "file", "container", "absent",
    "list"
];
const HOSTILE = [0, 1, true, "WD", 12288, null];
const poisoned = (owner, name, what) => ({owner, name, descriptor: {__proto__: null, configurable: true, ...what}});
const POISONS = [
    ...NAMES.flatMap((name) => [...HOSTILE.map((value) => poisoned(Object.prototype, name, {value, writable: false})),
                         poisoned(Object.prototype, name, {get: () => "WD", set: () => undefined})]),
    ...["0", "1", "2", "3", "4"].flatMap(
        (name) => [poisoned(Array.prototype, name, {get: () => "WD", set: () => undefined}),
            poisoned(Array.prototype, name, {value: "WD", writable: false})]),
    ...[Array.prototype, VIEW, Uint8Array.prototype, DataView.prototype, String.prototype, RegExp.prototype,
        Function.prototype, TextEncoder.prototype, TextDecoder.prototype, Object, Array, Number, Math, Reflect,
        ArrayBuffer.prototype, Error, Object.getPrototypeOf([][Symbol.iterator]()), WebAssembly.Memory.prototype,
        globalThis.JSON, Map.prototype, Set.prototype]
        .flatMap((owner) => Reflect.ownKeys(owner)
                                .filter((name) => getOwnPropertyDescriptor(owner, name).configurable &&
                                        !["stackTraceLimit", "prepareStackTrace"].includes(name))
                                .flatMap((name) => [poisoned(owner, name, {value: () => false}),
                                             poisoned(owner, name, {get: () => () => []})])),
    ...["Uint8Array", "DataView", "TextEncoder", "TextDecoder", "Object", "Array", "Reflect", "RangeError", "String",
        "Number"]
        .map((name) => poisoned(globalThis, name, {value: class {constructor() { return {}; }}, writable: true})),
];
const REFUSED = [
    ["check", () => [DENIES.slice(), ["BU"], {wanted: 1, wnated: 1}]], ["toSddl", () => [new Uint8Array(5)]],
    ["check", () => [DENIES.slice(), ["BU", , "SY"], {wanted: 1}]],
    ["build", () => [{dacl: [{...DENY(), sid: undefined}]}]],
    ["build", () => [new Proxy({}, {__proto__: null, ownKeys: () => ["dacl"]})]], ["build", () => [{dacl: undefined}]],
    ["fromSddl", () => ["O:Everyone"]], ["check", () => [GRANTS.slice(), ["ZZ"], {wanted: 1}]],
    ["normalize", () => [bytesOf("0100008014000000140000000000000000000000010100000000000512000000")]],
    ["build", () => [5]]
];

// What a call gives or throws, with nothing asked of it yet.
function raw(call, given) {
    try {
        return {value: apply(sdtool[call], sdtool, given)};
    } catch (thrown) {
        return {thrown};
    }
}

// Faults with all that they say.
const told = ({value, thrown}) =>
    (thrown === undefined ? spelled(value) :
                            `${thrown instanceof Fault} ${thrown instanceof ArgumentFault} ${thrown.message} ${
                                thrown.name} ${thrown.number} ${thrown.line} ` +
                `${thrown.argument} ${thrown.entry} ${thrown.part} ${thrown.otherPart}`);

const ALL = [...CALLS, ...REFUSED], PLAIN = ALL.map(([call, make]) => told(raw(call, make())));
for (const {owner, name, descriptor} of POISONS) {
    const given = ALL.map(([, make]) => make()), before = getOwnPropertyDescriptor(owner, name),
          found = Array(ALL.length);
    defineProperty(owner, name, descriptor);
    for (let index = 0; index < ALL.length; index += 1) {
        // Only the calls of the module run while it is changed.
        const got = raw(ALL[index][0], given[index]);
        defineProperty(
            found, index, {__proto__: null, value: got, configurable: true, enumerable: true, writable: true});
    }
    if (before) defineProperty(owner, name, {__proto__: null, ...before});
    else deleteProperty(owner, name);
    found.forEach((one, index) => add(told(one) === PLAIN[index],
                      `${ALL[index][0]} ${index} with another ${String(name)} of ${owner?.constructor?.name}: ${
                          told(one)}, not ${PLAIN[index]}`));
}

// Names that each object has while the module begins, of all that it leaves to a default: no answer may change either.
const file = new URL("sdtool.mjs", pathToFileURL(`${folder}/`));
const names = new Set(Array.from(readFileSync(file, "utf8").matchAll(/[{,]\s*(\w+) = /g), ([, name]) => name));
for (const name of names)
    defineProperty(Object.prototype, name, {value: () => true, configurable: true, writable: true});
const {load: loadAmongThem, ...classes} = await import(`${file}?among-names`);
const among = await loadAmongThem(readFileSync(new URL("sdtool.wasm", file)));
for (const name of names) deleteProperty(Object.prototype, name);
const messageOf = (library, call, given) => {
    try {
        const answer = library[call](...given);
        return call === "checkMany" ? answer.map((one) => one.message ?? spelled(one)).join() : spelled(answer);
    } catch (fault) {
        return `${fault.constructor.name} ${fault.message}`;
    }
};
add(names.size > 20 && classes.ArgumentFault !== ArgumentFault, "the module is read anew, among names");
for (const [call, make] of ALL)
    add(messageOf(among, call, make()) === messageOf(sdtool, call, make()),
        `${call} of a module that was read among names`);

console.log(`${passed} passed, ${failed} failed`);
process.exitCode = failed === 0 ? 0 : 1;
