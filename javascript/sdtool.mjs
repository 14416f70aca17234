/**
 * Windows security descriptors (MS-DTYP 2.4.6) and SDDL (MS-DTYP 2.5.1), for Node and browsers.
 *
 *     import { load } from "sdtool";
 *     const sdtool = await load();
 *     sdtool.toSddl(sdtool.fromSddl("O:BAD:(A;;FR;;;BU)")); // "O:BAD:(A;;FR;;;BU)"
 *
 * Descriptors and SIDs are bytes, in a Uint8Array. Each answer comes from sdtool.wasm: this file moves bytes to it and
 * back, and looks at nothing in them.
 *
 * What a caller hands over is read once, at the door, into a value of this file's own: a number, a text, a copy of
 * bytes, a list or named values. A door calls no method of the object. Behind the doors nothing of the caller's is
 * looked at again.
 */

// The module's bytes in base64, where one file has all; else the file sdtool.wasm is beside this one.
const EMBEDDED = "";

// What is written from sdtool.h: the structs as sdtool.wasm has them, with 32 bits, and the numbers that are used here.
const OUTCOME_FAULT_AT = 0, OUTCOME_PART_AT = 4, OUTCOME_OTHER_PART_AT = 8, OUTCOME_ARGUMENT_AT = 12,
      OUTCOME_ENTRY_AT = 16, OUTCOME_LENGTH_AT = 20, SIZE_OF_OUTCOME = 24, ASKER_MAPPING_AT = 0, ASKER_LEVEL_AT = 4,
      ASKER_OPTIONS_AT = 8, REQUEST_WANTED_AT = 12, REQUEST_OPTIONS_AT = 16, VERDICT_MASK_AT = 24,
      VERDICT_GRANTED_AT = 28, SIZE_OF_VERDICT = 32, ORIGIN_PLACE_AT = 0, ORIGIN_FROM_CREATOR_AT = 2,
      ORIGIN_INHERIT_ONLY_AT = 3, SIZE_OF_ORIGIN = 4, ORIGINS_SACL_COUNT_AT = 24, ORIGINS_DACL_COUNT_AT = 28,
      PLACE_OFFSET_AT = 0, PLACE_SIZE_AT = 4, ACL_PLACE_STATE_AT = 0, ACL_PLACE_PLACE_AT = 8, CONTENTS_CONTROL_AT = 24,
      CONTENTS_RESOURCE_MANAGER_AT = 26, CONTENTS_OWNER_AT = 28, CONTENTS_GROUP_AT = 36, CONTENTS_SACL_AT = 44,
      CONTENTS_DACL_AT = 60, FAULT_PLACE_FAULT_AT = 0, FAULT_PLACE_PART_AT = 4, FAULT_PLACE_ACE_AT = 8,
      FAULT_PLACE_FIELD_AT = 12, FAULT_PLACE_PLACE_AT = 16, SIZE_OF_FAULT_PLACE = 24, ACE_FAULT_AT = 0, ACE_MASK_AT = 4,
      ACE_KIND_AT = 12, ACE_FLAGS_AT = 13, ACE_PLACE_AT = 16, ACE_OBJECT_TYPE_AT = 24,
      ACE_INHERITED_OBJECT_TYPE_AT = 32, ACE_SID_AT = 40, SIZE_OF_ACE = 48, NUMBER_NUMBER_AT = 24, BYTES_BYTES_AT = 0,
      BYTES_SIZE_AT = 4, SIZE_OF_BYTES = 8, REASON_KIND_AT = 0, REASON_PLACE_AT = 2, SIZE_OF_REASON = 4,
      NEW_ACE_SID_AT = 0, NEW_ACE_OBJECT_TYPE_AT = 8, NEW_ACE_INHERITED_OBJECT_TYPE_AT = 16, NEW_ACE_MASK_AT = 24,
      NEW_ACE_KIND_AT = 28, NEW_ACE_FLAGS_AT = 29, SIZE_OF_NEW_ACE = 32, NEW_ACL_ACES_AT = 0, NEW_ACL_ACE_COUNT_AT = 4,
      NEW_ACL_STATE_AT = 8, NEW_DESCRIPTOR_OWNER_AT = 0, NEW_DESCRIPTOR_GROUP_AT = 8, NEW_DESCRIPTOR_SACL_AT = 16,
      NEW_DESCRIPTOR_DACL_AT = 28, NEW_DESCRIPTOR_CONTROL_AT = 40, NEW_DESCRIPTOR_RESOURCE_MANAGER_AT = 42,
      SIZE_OF_NEW_DESCRIPTOR = 44, CHANGE_KIND_AT = 0, CHANGE_PART_AT = 4, CHANGE_PLACE_AT = 8, CHANGE_COMPARE_AT = 12,
      CHANGE_MASK_AT = 16, CHANGE_SET_MASK_AT = 20, CHANGE_CLEAR_MASK_AT = 24, CHANGE_SET_CONTROL_AT = 28,
      CHANGE_CLEAR_CONTROL_AT = 30, CHANGE_ACE_KIND_AT = 32, CHANGE_FLAGS_AT = 33, CHANGE_FLAGS_MASK_AT = 34,
      CHANGE_SET_FLAGS_AT = 35, CHANGE_CLEAR_FLAGS_AT = 36, CHANGE_STATE_AT = 37, CHANGE_OBJECT_TYPE_USE_AT = 38,
      CHANGE_INHERITED_OBJECT_TYPE_USE_AT = 39, CHANGE_OBJECT_TYPE_AT = 40, CHANGE_INHERITED_OBJECT_TYPE_AT = 56,
      CHANGE_SID_AT = 72, CHANGE_SET_SID_AT = 140, SIZE_OF_CHANGE = 208, ACL_ORDER_SACL_AT = 24, ACL_ORDER_DACL_AT = 28,
      ENDING_STATUS_AT = 0, ENDING_LENGTH_AT = 4, ENDING_MESSAGE_LENGTH_AT = 8, OK = 0, FAULT_SHORT = 5,
      FAULT_OVERLAP = 14, FAULT_SHAPE = 20, FAULT_PART_TWICE = 21, FAULT_ACL_TOO_LARGE = 30, ARGUMENT = 70,
      TOO_SMALL = 71, NO_MEMORY = 72, NO_ARGUMENT = 0, ARGUMENT_DOMAIN = 1, ARGUMENT_SIDS = 2, ARGUMENT_ENTRIES = 3,
      ARGUMENT_OBJECT = 4, ARGUMENT_PRINCIPAL_SELF = 5, ARGUMENT_MAPPING = 6, ARGUMENT_CREATOR = 7, ARGUMENT_OWNER = 8,
      ARGUMENT_GROUP = 9, ARGUMENT_KIND = 10, ARGUMENT_FAULT = 11, ARGUMENT_SID = 12, ARGUMENT_SACL = 13,
      ARGUMENT_DACL = 14, ARGUMENT_TOKEN = 15, ARGUMENT_CHANGES = 16, ARGUMENT_OPTIONS = 17, ARGUMENT_ACE = 18,
      ARGUMENT_FLAGS = 19, ARGUMENT_GUID = 20, ARGUMENT_OFFSETS = 21, ARGUMENT_CONVERSION = 22, NO_PART = 0, OWNER = 1,
      GROUP = 2, SACL = 3, DACL = 4, MAPPING_FILE = 0, MAPPING_KEY = 1, MAPPING_DS = 2, KIND_FILE = 0,
      KIND_CONTAINER = 1, DENY_ONLY = 1, MOST_BYTES = 131226, MOST_TEXT = 1049872, MOST_SIDS = 1024, MOST_SID = 68,
      MOST_SID_TEXT = 183, MOST_ACE = 112, MOST_ACE_TEXT = 312, MOST_FAULT_TEXT = 32, MOST_DESCRIPTION = 512,
      MOST_MESSAGE = 64, HAS_LEVEL = 1, SECURITY = 2, TAKE_OWNERSHIP = 4, MAXIMUM = 1, MOST_DERIVED_ACES = 4095,
      ACL_ABSENT = 0, ACL_NULL = 1, ACL_LIST = 2, NO_FIELD = 0, FIELD_KIND = 1, FIELD_FLAGS = 2, FIELD_RIGHTS = 3,
      FIELD_OBJECT_TYPE = 4, FIELD_INHERITED_OBJECT_TYPE = 5, FIELD_SID = 6, FIELD_SIZE = 7, REASON_NOTHING = 0,
      REASON_LABEL = 1, REASON_NO_DACL = 2, REASON_OWNER = 3, REASON_PRIVILEGE = 4, REASON_GRANTED = 5,
      REASON_DENIED = 6, RIGHTS = 25, NO_PLACE = 65535, PUT = 1, TAKE = 2, REPLACE = 3, TAKE_EACH = 4, SET_EACH = 5,
      ORDER = 6, STATE = 7, SET_OWNER = 8, SET_GROUP = 9, CONTROL = 10, COMPARE_KIND = 1, COMPARE_MASK = 2,
      TYPE_UNUSED = 0, TYPE_NONE = 1, TYPE_GIVEN = 2, MOST_CHANGES = 16384, STATUS_STOPPED = 3, STATUS_NO_MEMORY = 4,
      AT_END = 4294967295, BY_ORDER = 4294967294, NO_ACE = 4294967295, TEXT_SIZE_FIRST = 64, TEXT_SIZE_EACH = 8,
      TOKEN_WORDS_FIRST = 2, TOKEN_WORDS_EACH = 20;
// What is written ends here.
const PARTS = {
    __proto__: null,
    [NO_PART]: null,
    [OWNER]: "owner",
    [GROUP]: "group",
    [SACL]: "sacl",
    [DACL]: "dacl"
};
const FIELDS = {
    __proto__: null,
    [NO_FIELD]: null,
    [FIELD_KIND]: "kind",
    [FIELD_FLAGS]: "flags",
    [FIELD_RIGHTS]: "rights",
    [FIELD_OBJECT_TYPE]: "object type",
    [FIELD_INHERITED_OBJECT_TYPE]: "inherited object type",
    [FIELD_SID]: "sid",
    [FIELD_SIZE]: "size"
};
const IN_WORDS = {
    __proto__: null,
    owner: "the owner",
    group: "the group",
    sacl: "the SACL",
    dacl: "the DACL",
    sid: "SID"
};
const ARGUMENTS = {
    __proto__: null,
    [NO_ARGUMENT]: null,
    [ARGUMENT_DOMAIN]: "domain",
    [ARGUMENT_SIDS]: "sids",
    [ARGUMENT_ENTRIES]: "entries",
    [ARGUMENT_OBJECT]: "objectType",
    [ARGUMENT_PRINCIPAL_SELF]: "principalSelf",
    [ARGUMENT_MAPPING]: "mapping",
    [ARGUMENT_CREATOR]: "creator",
    [ARGUMENT_OWNER]: "owner",
    [ARGUMENT_GROUP]: "group",
    [ARGUMENT_KIND]: "kind",
    [ARGUMENT_FAULT]: "number",
    [ARGUMENT_SID]: "sid",
    [ARGUMENT_SACL]: "sacl",
    [ARGUMENT_DACL]: "dacl",
    [ARGUMENT_TOKEN]: "token",
    [ARGUMENT_CHANGES]: "changes",
    [ARGUMENT_OPTIONS]: "options",
    [ARGUMENT_ACE]: "ace",
    [ARGUMENT_FLAGS]: "flags",
    [ARGUMENT_GUID]: "guid",
    [ARGUMENT_OFFSETS]: "offsets",
    [ARGUMENT_CONVERSION]: "conversion"
};
const LISTS = {
    __proto__: null,
    sacl: true,
    dacl: true,
    changes: true
};
const STATES = {
    __proto__: null,
    absent: ACL_ABSENT,
    null: ACL_NULL,
    list: ACL_LIST
};
const STATE_NAMES = {
    __proto__: null,
    [ACL_ABSENT]: "absent",
    [ACL_NULL]: "null",
    [ACL_LIST]: "list"
};
// Where the numbers of an asker are in it, and those of a request.
const OF_ASKER = [ASKER_MAPPING_AT, ASKER_LEVEL_AT, ASKER_OPTIONS_AT];
const OF_REQUEST = [...OF_ASKER, REQUEST_WANTED_AT, REQUEST_OPTIONS_AT];
// The faults that have a place.
const OF_BYTES = {
    first: FAULT_SHORT,
    last: FAULT_OVERLAP
},
      OF_TEXTS = {
          first: FAULT_SHAPE,
          last: FAULT_ACL_TOO_LARGE
      };
const MOST_SHOWN = 72; // characters around a place
const DIGITS = "0123456789abcdef", BYTE_DIGITS = 2;
const HIDDEN = /[\p{C}\p{Z}]/u; // characters that do not show, and the blank
const REASONS = {
    __proto__: null,
    [REASON_NOTHING]: "nothing",
    [REASON_LABEL]: "label",
    [REASON_NO_DACL]: "no-dacl",
    [REASON_OWNER]: "owner",
    [REASON_PRIVILEGE]: "privilege",
    [REASON_GRANTED]: "granted",
    [REASON_DENIED]: "denied"
};
const MAPPINGS = {
    __proto__: null,
    file: MAPPING_FILE,
    key: MAPPING_KEY,
    ds: MAPPING_DS
};
const KINDS = {
    __proto__: null,
    file: KIND_FILE,
    container: KIND_CONTAINER
};
const ACLS = {
    __proto__: null,
    sacl: SACL,
    dacl: DACL
};
const PLACES = {
    __proto__: null,
    end: AT_END,
    order: BY_ORDER
};
const MOST_PLACE = BY_ORDER - 1;
// What a change is, by its name, and whether it has to have each of the names that it may have.
const CHANGES = {
    __proto__: null,
    put: {number: PUT, acl: true, place: true, ace: true},
    take: {number: TAKE, acl: true, place: true},
    replace: {number: REPLACE, acl: true, place: true, ace: true},
    takeEach: {number: TAKE_EACH, acl: true, match: true},
    setEach: {number: SET_EACH, acl: true, match: true, setting: true},
    order: {number: ORDER, acl: true},
    state: {number: STATE, acl: true, state: true},
    owner: {number: SET_OWNER, sid: true},
    group: {number: SET_GROUP, sid: true},
    control: {number: CONTROL, setControl: false, clearControl: false},
};
const MOST_TOKEN = 4 * (TOKEN_WORDS_FIRST + TOKEN_WORDS_EACH * MOST_SIDS);
const HEAD_OF_ACE = "D:";
const MOST_U8 = 0xff, MOST_U16 = 0xffff, MOST_NUMBER = 0xffffffff;
const GUID = 16;
const FIRST_ANSWERS = 4096;                              // of a run; more take a second call
const MOST_OF_CALL = 1024, MOST_BYTES_OF_CALL = 1 << 20; // descriptors that one call checks, if it is not one
const STRUCTS = 80;               // bytes for what a call returns, and for the request of a check
const REQUEST = 48;               // where in them the request is
const MOST_ROOM = 0xffff0000;     // the module's memory has no more
const MOST_INPUT = MOST_ROOM / 5; // of a run, with the least room for its answers
const MOST_ACL = 0xffff;          // bytes
const MOST_LEVELS = 100;          // of prototypes, of which a proxy may have any number
const NONE = new Uint8Array(0);

// What the language has when this module begins. What somebody puts into a prototype later changes no answer.
const {apply, get, getOwnPropertyDescriptor, getPrototypeOf, ownKeys} = Reflect;
const {hasOwn, setPrototypeOf} = Object;
const {isArray, from: arrayFrom} = Array;
const {isInteger} = Number;
const toText = String;
const {max, min} = Math;
const Bytes = Uint8Array, View = DataView, NoRoom = RangeError;
const methodOf = (prototype, name) => Function.prototype.call.bind(prototype[name]);
const getterOf = (prototype, name) =>
    Function.prototype.call.bind(Object.getOwnPropertyDescriptor(prototype, name).get);
// What a Uint8Array of any realm says of itself, whatever properties a caller has given it.
const VIEW = getPrototypeOf(Uint8Array.prototype);
const [typeOf, bufferOf, offsetOf, lengthOf] =
    [Symbol.toStringTag, "buffer", "byteOffset", "length"].map((name) => getterOf(VIEW, name));
const [byteAt, setBytes, fillBytes] = ["at", "set", "fill"].map((name) => methodOf(VIEW, name));
const [getU8, getU16, getU32, setU8, setU16, setU32] =
    ["getUint8", "getUint16", "getUint32", "setUint8", "setUint16", "setUint32"].map(
        (name) => methodOf(View.prototype, name));
const {Instance} = WebAssembly;
const memoryBuffer = getterOf(WebAssembly.Memory.prototype, "buffer");
const [codeAt, cutText, pointAt, indexIn] =
    ["charCodeAt", "slice", "codePointAt", "indexOf"].map((name) => methodOf(String.prototype, name));
const matchIn = methodOf(RegExp.prototype, "exec"), inDigits = methodOf(Number.prototype, "toString");
const encode = methodOf(TextEncoder.prototype, "encode"), encodeInto = methodOf(TextEncoder.prototype, "encodeInto");
const decode = methodOf(TextDecoder.prototype, "decode");
const ENCODER = new TextEncoder(), DECODER = new TextDecoder();
const OBJECT = Object.prototype;
// The names of the Object.prototype of each realm.
const OF_OBJECTS = {
    __proto__: null
};
for (const name of ["constructor", "__defineGetter__", "__defineSetter__", "hasOwnProperty", "__lookupGetter__",
         "__lookupSetter__", "isPrototypeOf", "propertyIsEnumerable", "toString", "valueOf", "__proto__",
         "toLocaleString"])
    OF_OBJECTS[name] = true;

// A list that inherits nothing, so that no method or setter of Array.prototype is asked.
const list = () => setPrototypeOf([], null);

const listOf = (...items) => setPrototypeOf(items, null);

function addAll(items, more, from = 0, to = more.length) {
    for (let index = from; index < to; index += 1) items[items.length] = more[index];
    return items;
}

function mapped(items, change) {
    const found = list();
    for (let index = 0; index < items.length; index += 1) found[index] = change(items[index], index);
    return found;
}

// A text of the caller's as messages have it: no more than fits on a line, and what does not show by its number.
function shownText(text) {
    let shown = "", at = 0;
    for (let count = 0; at < text.length && count < MOST_SHOWN; count += 1) {
        const point = pointAt(text, at), character = cutText(text, at, at + unitsOf(point));
        shown += isHidden(character) ? `\\u{${inDigits(point, 16)}}` : character;
        at += unitsOf(point);
    }
    return at < text.length ? `${shown}..` : shown;
}

const placeOf = (argument, entry) => (argument === null ? "" :
        entry === null                                  ? `${shownText(argument)}: ` :
                                                          `${shownText(argument)}[${entry}]: `);

function lineOf(number, name, part, otherPart) {
    const line = `error ${number} ${name}`;
    return part === null ? line : otherPart === null ? `${line} ${part}` : `${line} ${part} ${otherPart}`;
}

// Where a fault is, in words: bytes count from 0, and ACEs from 1 as in an explanation.
function placeInWords({part, ace, field, offset}, given) {
    const which = ace === null ? "" : `ACE ${ace + 1} of `;
    const holder = part === null ? "" : `, ${which}${IN_WORDS[part]}`;
    const byte = typeof given === "string" ? bytesBefore(given, offset) : offset;
    return `at byte ${byte}${holder}${field === null ? "" : `, ${IN_WORDS[field] ?? field}`}`;
}

// How many code units and how many bytes in UTF-8 a code point has. Half of a surrogate pair becomes U+FFFD.
const unitsOf = (point) => (point > 0xffff ? 2 : 1);
const bytesIn = (point) => (point > 0xffff ? 4 : point > 0x7ff ? 3 : point > 0x7f ? 2 : 1);

// How many bytes the code units of a text before a place have.
function bytesBefore(text, units) {
    let bytes = 0;
    for (let at = 0; at < units && at < text.length; at += unitsOf(pointAt(text, at)))
        bytes += bytesIn(pointAt(text, at));
    return bytes;
}

// How many code units the characters of a text have that begin before a byte.
function unitsBefore(text, bytes) {
    let at = 0;
    for (let before = 0; before < bytes && at < text.length; at += unitsOf(pointAt(text, at)))
        before += bytesIn(pointAt(text, at));
    return at;
}

// Two lines: at most 72 characters around a range, and carets below it. An empty range has one.
function around(characters, offset, size, step) {
    const length = characters.length, before = (MOST_SHOWN - min(size, MOST_SHOWN)) >> 1;
    let first = max(0, min(offset - before, length - MOST_SHOWN)), shown = "", carets = "";
    first -= first % step;
    const end = min(length, first + MOST_SHOWN), last = offset + max(1, min(size, first + MOST_SHOWN - offset));
    for (let at = first; at < end; at += 1) shown += isHidden(characters[at]) ? "?" : characters[at];
    for (let at = first; at < last; at += 1) carets += at < offset ? " " : "^";
    return `${shown}\n${carets}`;
}

const isHidden = (character) => character !== " " && matchIn(HIDDEN, character) !== null;

// The same of a text and a range of its code units.
function aroundText(text, offset, size) {
    const characters = list();
    let first = 0, end = 0;
    for (let at = 0, units = 0; at < text.length; at += units) {
        units = unitsOf(pointAt(text, at));
        first += at < offset ? 1 : 0;
        end += at < offset + size ? 1 : 0;
        characters[characters.length] = cutText(text, at, at + units);
    }
    return around(characters, first, end - first, 1);
}

function digitsOf(bytes) {
    let digits = "";
    for (let at = 0; at < lengthOf(bytes); at += 1)
        digits += DIGITS[byteAt(bytes, at) >> 4] + DIGITS[byteAt(bytes, at) & 15];
    return digits;
}

/** An input that has no answer. `number` and `name` are those of docs/FORMAT.md, such as 25 and "sid-form". */
export class Fault extends Error {
    number;
    name;
    part;
    otherPart;
    argument;
    entry;
    place;
    line;
    meaning;
    #given; // the bytes or the text that the place is in

    /**
     * @param {number} number
     * @param {string} name
     * @param {string | null} part
     * @param {string | null} otherPart
     * @param {string | null} argument
     * @param {number | null} entry
     * @param {{part: string | null, ace: number | null, field: string | null, offset: number, size: number} | null}
     *     place
     * @param {Uint8Array | string | null} given
     * @param {string} meaning
     */
    constructor(number, name, part = null, otherPart = null, argument = null, entry = null, place = null, given = null,
        meaning = "") {
        const line = lineOf(number, name, part, otherPart);
        super(placeOf(argument, entry) + line + (meaning === "" ? "" : `: ${meaning}`) +
            (place === null ? "" : `, ${placeInWords(place, given)}`));
        this.number = number;
        this.name = name;
        this.part = part;
        this.otherPart = otherPart;
        this.argument = argument;
        this.entry = entry;
        this.place = place;
        this.line = line;
        this.meaning = meaning;
        this.#given = given;
    }

    /**
     * At most 72 characters of the text around the place, or digits of the bytes, and carets below it; empty without a
     * place.
     */
    excerpt() {
        if (this.place === null || this.#given === null) return "";
        const {offset, size} = this.place;
        if (typeof this.#given === "string") return aroundText(this.#given, offset, size);
        return around(digitsOf(this.#given), BYTE_DIGITS * offset, BYTE_DIGITS * size, BYTE_DIGITS);
    }
}

/** An argument that the call does not take, such as a domain that is no SID. It says nothing about the descriptor. */
export class ArgumentFault extends Error {
    number = ARGUMENT;
    name = "ArgumentFault";
    argument;
    entry;

    /**
     * @param {string} problem
     * @param {string | null} argument
     * @param {number | null} entry
     * @param {unknown} cause what the caller's own code threw, if that is why
     */
    constructor(problem, argument = null, entry = null, cause = undefined) {
        super(placeOf(argument, entry) + problem,
            cause === undefined ? undefined : /** @type {ErrorOptions} */ ({__proto__: null, cause}));
        this.argument = argument;
        this.entry = entry;
    }
}

// Asks something of an object of the caller's, whose own code may run then and throw what it likes.
function asked(question, argument, entry) {
    try {
        return question();
    } catch (cause) {
        throw new ArgumentFault("this can't be read", argument, entry, cause);
    }
}

// The door of bytes: a copy of the first bytes of a Uint8Array. One whose buffer is gone looks empty, and an empty
// argument asks for something else, so it is refused.
function bytesOf(value, most, argument, entry = null) {
    if (typeOf(value) !== "Uint8Array") throw new ArgumentFault("this is no Uint8Array", argument, entry);
    const length = lengthOf(value);
    if (length === 0) {
        try {
            byteAt(value, 0);
        } catch {
            throw new ArgumentFault("the buffer of this Uint8Array is detached or too short", argument, entry);
        }
    }
    return copyOf(bufferOf(value), offsetOf(value), min(length, most));
}

function copyOf(buffer, offset, size) {
    const copy = new Bytes(size);
    setBytes(copy, new Bytes(buffer, offset, size));
    return copy;
}

// A longer one is too long in any case.
function descriptorOf(value, argument, entry = null) { return bytesOf(value, MOST_BYTES + 1, argument, entry); }

// Bytes that a call would take for none if they were empty, and none asks for something else.
function someBytesOf(value, most, argument, entry) {
    const bytes = bytesOf(value, most, argument, entry);
    if (lengthOf(bytes) === 0) throw new ArgumentFault("this is empty", argument, entry);
    return bytes;
}

function guidOf(value, argument, entry) { return someBytesOf(value, GUID + 1, argument, entry); }

function creatorOf(value, argument, entry) { return someBytesOf(value, MOST_BYTES + 1, argument, entry); }

// A SID is a text or bytes, and the call that gets it judges it.
function sidOf(value, argument, entry = null) {
    return typeof value === "string" ? value : someBytesOf(value, MOST_SID + 1, argument, entry);
}

function flagOf(value, argument) {
    if (typeof value !== "boolean") throw new ArgumentFault("this is neither false nor true", argument);
    return value ? 1 : 0;
}

function textOf(value, argument, entry = null) {
    if (typeof value !== "string") throw new ArgumentFault("this is no string", argument, entry);
    return value;
}

// A number that C would cut or round asks for something else, so it is refused.
function numberOf(value, argument, entry = null, most = MOST_NUMBER) {
    if (!isInteger(value) || value < 0 || value > most)
        throw new ArgumentFault(`this is no integer from 0 to ${most}`, argument, entry);
    return value;
}

const byteOf = (value, argument, entry) => numberOf(value, argument, entry, MOST_U8);
const wordOf = (value, argument, entry) => numberOf(value, argument, entry, MOST_U16);

function mappingOf(value, argument) {
    if (typeof value !== "string" || MAPPINGS[value] === undefined)
        throw new ArgumentFault("this is none of file, key, ds", argument);
    return MAPPINGS[value];
}

function kindOf(value, argument) {
    if (typeof value !== "string" || KINDS[value] === undefined)
        throw new ArgumentFault("this is none of file, container", argument);
    return KINDS[value];
}

const isObject = (value) => (typeof value === "object" && value !== null) || typeof value === "function";

// What an object has for a name that one of its levels has. A proxy can say two things at once, and then neither is
// believed; one that puts another proxy around an object says the same. A getter that was read before can have taken
// the name away.
function readOf(object, level, name) {
    const own = getOwnPropertyDescriptor(level, name);
    if (own === undefined) throw new Error("this is gone");
    if (!hasOwn(own, "value")) return get(level, name, object);
    const value = get(object, name), isSame = own.value === value || (own.value !== own.value && value !== value);
    if (!isSame && !(isObject(own.value) && isObject(value))) throw new Error("this says two things");
    return value;
}

// The door of lists: the items of an array by their numbers, each read once and through its own door before the next.
// What an array does not have itself is a hole.
function itemsOf(value, argument, itemOf, most = MOST_NUMBER) {
    if (!asked(() => isArray(value), argument, null)) throw new ArgumentFault("this is no array", argument);
    const length = numberOf(asked(() => readOf(value, value, "length"), argument, null), argument);
    requireItems(asked(() => ownKeys(value), argument, null), length, argument);
    const items = list();
    for (let index = 0; index < length; index += 1) {
        if (index === most) throw new ArgumentFault(`there are more than ${most}`, argument, index);
        const item = asked(() => (hasOwn(value, index) ? readOf(value, value, index) : undefined), argument, index);
        items[index] = itemOf(item, argument, index);
    }
    return items;
}

// Refuses an array that lists anything but items below its length.
function requireItems(keys, length, argument) {
    for (let at = 0; at < keys.length; at += 1) {
        const key = keys[at], index = typeof key === "string" ? +key : length;
        const isItem = isInteger(index) && index >= 0 && index < length && toText(index) === key;
        if (!isItem && key !== "length") throw new ArgumentFault("this array has names of its own", argument);
    }
}

// The objects that have the names of a value: itself and its prototypes. What is in Object.prototype, or in that of
// another realm, is in each object, and nobody has said it.
function levelsOf(value, argument, entry) {
    const levels = list();
    let level = value;
    while (level !== null && level !== OBJECT) {
        if (levels.length === MOST_LEVELS) throw new ArgumentFault("this has too many prototypes", argument, entry);
        const last = level;
        levels[levels.length] = last;
        level = asked(() => getPrototypeOf(last), argument, entry);
    }
    const last = levels.length - 1;
    if (level === null && last > 0 && areOfObjects(asked(() => ownKeys(levels[last]), argument, entry)))
        levels.length = last;
    return levels;
}

// The names that levels list, each with the first level that does. A name that is not known is refused, also one that
// is inherited or hidden: one that is misspelled would be left out of the question. Only a class has the name of its
// constructor.
function listedIn(levels, {doors, refuse}, argument, entry) {
    const listed = {__proto__: null};
    for (let index = 0; index < levels.length; index += 1) {
        const keys = asked(() => ownKeys(levels[index]), argument, entry);
        for (let at = 0; at < keys.length; at += 1) {
            const key = keys[at], isName = typeof key === "string";
            if (!isName || (doors[key] === undefined && (index === 0 || key !== "constructor")))
                refuse(toText(key), argument, entry);
            listed[key] ??= index;
        }
    }
    return listed;
}

function areOfObjects(keys) {
    for (let at = 0; at < keys.length; at += 1)
        if (typeof keys[at] !== "string" || OF_OBJECTS[keys[at]] !== true) return false;
    return true;
}

// The first of the levels that has a name; null if there is none, or if one before it lists the name and has none.
function levelWith(levels, name, listed) {
    for (let index = 0; index < levels.length; index += 1) {
        if (hasOwn(levels[index], name)) return levels[index];
        if (listed === index) return null;
    }
    return null;
}

// Whether a name has a getter, which is code of the caller's.
function isGetter(level, name) {
    const own = level === null ? undefined : getOwnPropertyDescriptor(level, name);
    return own !== undefined && !hasOwn(own, "value");
}

// The door of names. Each is read once, along the prototypes, and what it has goes through the door of the name before
// the next name is read. Names with getters come last, since these could change the bytes that another name has. A
// proxy that hides a name and still has something for it has that name. One that lists a name and has nothing for it is
// refused: the name may be that of an ACL, and without an ACL everything is granted.
function namedOf(value, known, argument, entry = null) {
    if (typeof value !== "object" || value === null || value === OBJECT)
        throw new ArgumentFault(known.isNone, argument, entry);
    const {doors, names} = known, levels = levelsOf(value, argument, entry), last = list();
    /** @type {{[name: string]: any}} */
    const found = {__proto__: null};
    const listed = listedIn(levels, known, argument, entry);
    const read = (name, level) => {
        const place = known.isPart ? argument : name;
        const given = asked(() => (level === null ? get(value, name) : readOf(value, level, name)), place, entry);
        if (level === null && listed[name] !== undefined && (given === undefined || hasOwn(OBJECT, name)))
            throw new ArgumentFault(`this lists ${name}, and has none`, place, entry);
        if (level !== null || given !== undefined) found[name] = doors[name](given, place, entry);
    };
    for (let index = 0; index < names.length; index += 1) {
        const name = names[index], level = asked(() => levelWith(levels, name, listed[name]), argument, entry);
        if (level === null && listed[name] === undefined && hasOwn(OBJECT, name)) continue;
        if (asked(() => isGetter(level, name), argument, entry)) addAll(last, listOf(name, level));
        else read(name, level);
    }
    for (let index = 0; index < last.length; index += 2) read(last[index], last[index + 1]);
    return found;
}

function refuseOption(name) { throw new ArgumentFault("there is no such option", name); }

function refuseOfAce(name, argument, entry) {
    throw new ArgumentFault(`an ACE has no ${shownText(name)}`, argument, entry);
}

function refuseOfChange(name, argument, entry) {
    throw new ArgumentFault(`a change has no ${shownText(name)}`, argument, entry);
}

// What an object may have: the door of each name. Those of a part of a descriptor are told which part and which ACE it
// is, and those of options their names.
function namesFor(doors, isNone = "this is no object of options", isPart = false, refuse = refuseOption) {
    return {doors: setPrototypeOf(doors, null), names: ownKeys(doors), isPart, isNone, refuse};
}

// A name that may be there and have nothing.
const optional = (door) => (value, argument, entry) => (value === undefined ? undefined : door(value, argument, entry));
const nullable = (door) => optional((value, argument, entry) => (value === null ? null : door(value, argument, entry)));

const sidsOf = (value, argument) => itemsOf(value, argument, sidOf, MOST_SIDS);
const acesOf = (value, argument) => itemsOf(value, argument, aceOf);

function stateOf(value, argument, entry = null) {
    if (typeof value !== "string" || STATES[value] === undefined)
        throw new ArgumentFault("the state is none of absent, null, list", argument, entry);
    return STATES[value];
}

// Absent and null ACLs grant everything, so each has a name, and neither has ACEs: what isn't said is no ACL.
function aclOf(value, argument) {
    if (asked(() => isArray(value), argument, null)) return {state: STATES.list, aces: acesOf(value, argument)};
    const {state, aces} = namedOf(value, ACL, argument);
    if (state === undefined) throw new ArgumentFault("the state is none of absent, null, list", argument);
    if (state !== STATES.list && aces !== undefined) throw new ArgumentFault("only a list has ACEs", argument);
    if (state === STATES.list && aces === undefined)
        throw new ArgumentFault("a list has ACEs, or an empty array", argument);
    return {state, aces: state === STATES.list ? aces : list()};
}

// An ACE that lacks one of its four parts is none.
function aceOf(value, argument, entry) {
    const ace = namedOf(value, ACE, argument, entry);
    if (ace.kind === undefined || ace.flags === undefined || ace.mask === undefined || ace.sid === undefined)
        throw new ArgumentFault("an ACE has kind, flags, mask and sid", argument, entry);
    return ace;
}

function aclNameOf(value, argument, entry) {
    if (typeof value !== "string" || ACLS[value] === undefined)
        throw new ArgumentFault("the acl is none of sacl, dacl", argument, entry);
    return ACLS[value];
}

function placeInAclOf(value, argument, entry) {
    return typeof value === "string" && PLACES[value] !== undefined ? value : numberOf(value, argument, entry);
}

function changeNameOf(value, argument, entry) {
    if (typeof value !== "string" || CHANGES[value] === undefined)
        throw new ArgumentFault("there is no such change", argument, entry);
    return value;
}

// A change with a name too few, or one that it does not use, asks for something else.
function changeOf(value, argument, entry) {
    const given = namedOf(value, CHANGED, argument, entry), uses = CHANGES[given.change];
    if (uses === undefined) throw new ArgumentFault("this names no change", argument, entry);
    for (let index = 0; index < CHANGED.names.length; index += 1) {
        const name = /** @type {string} */ (CHANGED.names[index]), isThere = given[name] !== undefined;
        if (name === "change" || (hasOwn(uses, name) ? isThere || !uses[name] : !isThere)) continue;
        throw new ArgumentFault(`${given.change} ${isThere ? "has no" : "needs"} ${name}`, argument, entry);
    }
    const isWord = typeof given.place === "string";
    if (given.change === "put" ? !isWord && given.place > MOST_PLACE : isWord)
        throw new ArgumentFault("there is no such place", argument, entry);
    return given;
}

// Lists are behind bytes, since an item of a list may have a getter too.
const ofToken = {
    denyOnly: optional(sidsOf)
};
const ofAsker = {
    mapping: optional(mappingOf),
    level: nullable(numberOf),
    objectType: optional(guidOf),
    principalSelf: optional(sidOf),
    security: optional(flagOf),
    takeOwnership: optional(flagOf),
};
const ofRequest = {
    wanted: optional(numberOf),
    maximum: optional(flagOf),
    ...ofAsker
};
const DOMAIN = namesFor({domain: optional(sidOf)});
const PRINTING = namesFor({domain: optional(sidOf), numeric: optional(flagOf)}),
      RIGHTS_TEXT = namesFor({label: optional(flagOf)});
const optionsOf = (level, security, takeOwnership) =>
    (level === null ? 0 : HAS_LEVEL) + security * SECURITY + takeOwnership * TAKE_OWNERSHIP;
const TOKEN = namesFor({...ofToken}), REQUESTED = namesFor({...ofRequest}),
      ASKED = namesFor({...ofRequest, ...ofToken});
const ASKER = namesFor({...ofAsker}), ASKERS = namesFor({...ofAsker, ...ofToken});
const DERIVED = namesFor({kind: optional(kindOf), creator: optional(creatorOf), mapping: optional(mappingOf)});
const ACL = namesFor({state: stateOf, aces: optional(acesOf)},
    'this is neither an array of ACEs nor { state: "absent" }, "null" or "list"', true);
const ACE = namesFor({
    kind: byteOf,
    flags: byteOf,
    mask: numberOf,
    sid: sidOf,
    objectType: nullable(guidOf),
    inheritedObjectType: nullable(guidOf)
},
    "this is no ACE", true, refuseOfAce);
const ofMatch = {
    kind: optional(byteOf),
    flags: optional(byteOf),
    flagsMask: optional(byteOf),
    mask: optional(numberOf),
    sid: optional(sidOf),
    objectType: nullable(guidOf),
    inheritedObjectType: nullable(guidOf)
};
const MATCH = namesFor(ofMatch, "this is no match", true, refuseOfChange);
const SETTING = namesFor({
    sid: optional(sidOf),
    setMask: optional(numberOf),
    clearMask: optional(numberOf),
    setFlags: optional(byteOf),
    clearFlags: optional(byteOf)
},
    "this is no setting", true, refuseOfChange);
const CHANGED = namesFor({
    change: changeNameOf,
    acl: aclNameOf,
    place: placeInAclOf,
    ace: aceOf,
    match: (value, argument, entry) => namedOf(value, MATCH, argument, entry),
    setting: (value, argument, entry) => namedOf(value, SETTING, argument, entry),
    state: stateOf,
    sid: (value, argument, entry) => (value === null ? null : sidOf(value, argument, entry)),
    setControl: wordOf,
    clearControl: wordOf
},
    "this is no change", true, refuseOfChange);
// That an ACL is absent has to be said, or its name left out: what a lost ACL would grant is everything.
const BUILT = namesFor({
    owner: nullable(sidOf),
    group: nullable(sidOf),
    control: optional(wordOf),
    resourceManager: optional(byteOf),
    sacl: aclOf,
    dacl: aclOf
},
    "this is no object of parts");

const EMPTY = {
    __proto__: null
};
const NO_ACL = {
    state: STATES.absent,
    aces: list()
};

// The most bytes that an input has in UTF-8.
const mostBytes = (input) => (typeof input === "string" ? 3 * input.length : lengthOf(input));

/** What load gives. A call holds no state, and its answers are copies. */
class Sdtool {
    #module;
    #calls;
    #memory;
    #isWithin; // it is in the midst of a call
    #buffer;   // all of the memory, as long as it does not grow
    #view;     // the same, to read and write numbers
    #room = 0; // where the structs and the bytes of a call go, and how many bytes fit
    #size = 0;

    /**
     * @param {WebAssembly.Module} module
     * @param {WebAssembly.Instance} instance
     */
    constructor(module, instance) {
        this.#module = module;
        this.#begin(instance);
        this.#reserve(STRUCTS + FIRST_ANSWERS);
    }

    #begin({exports}) {
        this.#calls = exports;
        this.#memory = exports.memory;
        this.#room = this.#size = 0;
        this.#isWithin = false;
    }

    // Makes room for a call. The room of an earlier one is used again, and not cleared. A call that never came back,
    // such as one for which the stack of JavaScript was too short, has left the module in its midst, so another one
    // takes its place.
    #reserve(size) {
        if (this.#isWithin) this.#begin(new Instance(this.#module));
        if (size > this.#size) {
            if (this.#room) this.#enter("release", listOf(this.#room));
            this.#room = this.#size = 0;
            const room = size > MOST_ROOM ? 0 : this.#enter("allocate", listOf(size)) >>> 0;
            if (!room) throw new NoRoom("sdtool: no memory");
            this.#room = room;
            this.#size = size;
        }
        this.#look();
    }

    // Every call of the module goes through here.
    #enter(name, words) {
        this.#isWithin = true;
        const told = apply(this.#calls[name], undefined, words);
        this.#isWithin = false;
        return told;
    }

    // Looks at the memory anew where it has moved.
    #look() {
        const buffer = memoryBuffer(this.#memory);
        if (this.#buffer !== buffer) {
            this.#buffer = buffer;
            this.#view = new View(buffer);
        }
    }

    // The bytes of the memory at a place, which are no copy.
    #at(place, size) { return new Bytes(this.#buffer, place, size); }

    #copyAt(place, size) { return copyOf(this.#buffer, place, size); }

    // Puts inputs, bytes or texts, into the room, one directly after the other, behind so many bytes for more structs.
    // The room suffices for so many bytes of answers too. Gives the place and the size of each input, and then the
    // place of the answers.
    #put(inputs, answers, structs = 0) {
        let all = STRUCTS + structs + answers;
        for (let index = 0; index < inputs.length; index += 1) all += mostBytes(inputs[index]);
        this.#reserve(all);
        const places = list();
        let at = this.#room + STRUCTS + structs;
        for (let index = 0; index < inputs.length; index += 1) {
            const input = inputs[index], size = this.#putOne(input, at);
            places[2 * index] = at;
            places[2 * index + 1] = size;
            at += size;
        }
        places[2 * inputs.length] = at;
        return places;
    }

    #putOne(input, at) {
        const place = this.#at(at, mostBytes(input));
        if (typeof input === "string") return encodeInto(ENCODER, input, place).written;
        setBytes(place, input);
        return lengthOf(input);
    }

    // What a call gives, as bytes that are still in the room. The place of its fault is in the first of what is PLACED.
    #answer(call, inputs, numbers, size, placed = inputs) {
        for (;;) {
            const places = this.#put(inputs, size), output = places[2 * inputs.length];
            const words = addAll(addAll(list(), places, 0, 2 * inputs.length), numbers);
            this.#call(call, words, output, size);
            const fault = this.#number(OUTCOME_FAULT_AT), length = this.#number(OUTCOME_LENGTH_AT);
            if (fault === OK) return this.#at(output, length);
            if (fault !== TOO_SMALL) this.#refuse(fault, placed[0], placed[1]);
            size = length;
        }
    }

    // A call by its name: the place of what it returns, the words, and the place and the size of its output where it
    // has one.
    #call(call, words, ...output) {
        const all = list();
        all[0] = this.#room;
        addAll(addAll(all, words), output);
        this.#enter(call, all);
        this.#look();
    }

    // A number that the last call wrote, so many bytes behind the front of the room.
    #number(at) { return getU32(this.#view, this.#room + at, true); }

    // The bytes at a place that the last call wrote, in bytes that begin at FRONT; null if nothing is there.
    #copy(front, at) {
        const offset = front + this.#number(at + PLACE_OFFSET_AT), size = this.#number(at + PLACE_SIZE_AT);
        return size === 0 ? null : this.#copyAt(offset, size);
    }

    #text(bytes) { return decode(DECODER, bytes); }

    // Throws the fault that the last call told, of a descriptor or of a text and its domain.
    #refuse(fault, given, domain) {
        if (fault === NO_MEMORY) throw new NoRoom("sdtool: no memory");
        const argument = this.#number(OUTCOME_ARGUMENT_AT), entry = this.#number(OUTCOME_ENTRY_AT);
        const name = ARGUMENTS[argument] ?? null;
        if (fault !== ARGUMENT) {
            const told =
                this.#fault(fault, this.#number(OUTCOME_PART_AT), this.#number(OUTCOME_OTHER_PART_AT), given, domain);
            throw name === null ? told :
                                  new Fault(fault, told.name, told.part, null, name, entry, null, null, told.meaning);
        }
        if (name === "entries") throw new ArgumentFault(`there are more than ${MOST_SIDS}`, "sids", entry);
        throw new ArgumentFault(
            "this is none that the call takes", name, name !== null && LISTS[name] === true ? entry : null);
    }

    // Throws the fault that the last call told, if it told one.
    #judge(given) {
        const fault = this.#number(OUTCOME_FAULT_AT);
        if (fault !== OK) this.#refuse(fault, given);
    }

    // The fault of what was given: a descriptor, a text and its domain, or what has no place.
    #fault(fault, part, other, given, domain) {
        const name = this.#faultName(fault), {first, last} = typeof given === "string" ? OF_TEXTS : OF_BYTES;
        const isPlaced = given !== undefined && given !== null && fault >= first && fault <= last;
        const meaning = this.#meaning(fault, part, other), place = isPlaced ? this.#place(given, domain) : null;
        return new Fault(
            fault, name, PARTS[part], PARTS[other], null, null, place, place === null ? null : given, meaning);
    }

    // What a fault means: what its sentence has behind the colon, which comes without a place.
    #meaning(fault, part, other) {
        const outcome = new Bytes(SIZE_OF_OUTCOME);
        outcome[OUTCOME_FAULT_AT] = fault;
        outcome[OUTCOME_PART_AT] = part;
        outcome[OUTCOME_OTHER_PART_AT] = other;
        const places = this.#put(listOf(outcome, new Bytes(SIZE_OF_FAULT_PLACE)), MOST_DESCRIPTION);
        this.#call("sdtool_describe", listOf(places[0], places[2]), places[4], MOST_DESCRIPTION);
        const sentence = this.#text(this.#at(places[4], this.#number(OUTCOME_LENGTH_AT)));
        return cutText(sentence, indexIn(sentence, ": ") + 2);
    }

    // Where the first fault of a descriptor, or of a text under a domain, is; or null.
    #place(given, domain) {
        const isText = typeof given === "string", places = this.#put(isText ? listOf(given, domain) : listOf(given), 0);
        this.#call(isText ? "sdtool_sddl_place" : "sdtool_place", addAll(list(), places, 0, isText ? 4 : 2));
        if (this.#number(FAULT_PLACE_FAULT_AT) === OK) return null;
        const ace = this.#number(FAULT_PLACE_ACE_AT), at = this.#number(FAULT_PLACE_PLACE_AT + PLACE_OFFSET_AT),
              end = at + this.#number(FAULT_PLACE_PLACE_AT + PLACE_SIZE_AT);
        const offset = isText ? unitsBefore(given, at) : at, size = (isText ? unitsBefore(given, end) : end) - offset;
        return {
            part: PARTS[this.#number(FAULT_PLACE_PART_AT)],
            ace: ace === NO_ACE ? null : ace,
            field: FIELDS[this.#number(FAULT_PLACE_FIELD_AT)],
            offset,
            size,
        };
    }

    #faultName(number) {
        return this.#text(this.#answer("sdtool_fault_text", list(), listOf(number), MOST_FAULT_TEXT));
    }

    // A SID in binary, from its text or its bytes, which the call that gets it judges.
    #sid(sid, argument, entry = null) {
        return typeof sid === "string" ? this.#sidOfText(sid, NONE, argument, entry) : sid;
    }

    #sids(sids, argument) { return mapped(sids, (sid, entry) => this.#sid(sid, argument, entry)); }

    #domain({domain = NONE}) { return this.#sid(domain, "domain"); }

    #sidOfText(text, domain, argument = null, entry = null) {
        return this.#field(text, "sid",
            () => this.#bytes("sdtool_sid_from_text", listOf(text, domain), list(), MOST_SID, list()), argument, entry);
    }

    // What the text of a field means, the whole of which is the place of its fault.
    #field(text, field, read, argument = null, entry = null) {
        try {
            return read();
        } catch (fault) {
            if (!(fault instanceof Fault)) throw fault;
            const place = {part: null, ace: null, field, offset: 0, size: text.length};
            throw new Fault(fault.number, fault.name, null, null, argument, entry, place, text, fault.meaning);
        }
    }

    // The number that the text of a field means.
    #numberOf(call, text, field) {
        return this.#field(text, field, () => {
            const places = this.#put(listOf(text), 0);
            this.#call(call, listOf(places[0], places[1]));
            this.#judge();
            return this.#number(NUMBER_NUMBER_AT);
        });
    }

    version() { return this.#text(this.#answer("sdtool_version", list(), list(), MOST_FAULT_TEXT)); }

    toSddl(descriptor, options) { return this.#print("sdtool_to_sddl", descriptor, options); }

    explain(descriptor, options) { return this.#print("sdtool_explain", descriptor, options); }

    #print(call, descriptor, options = {}) {
        const bytes = descriptorOf(descriptor, "descriptor"), asked = namedOf(options, PRINTING, "options");
        const size = min(TEXT_SIZE_FIRST + TEXT_SIZE_EACH * lengthOf(bytes), MOST_TEXT);
        return this.#text(this.#answer(call, listOf(bytes, this.#domain(asked)), listOf(asked.numeric ?? 0), size));
    }

    fromSddl(text, options = {}) {
        // A longer text is too long in any case.
        const first = cutText(textOf(text, "text"), 0, MOST_TEXT + 1),
              domain = this.#domain(namedOf(options, DOMAIN, "options"));
        return this.#bytes("sdtool_from_sddl", listOf(first, domain), list(), MOST_BYTES);
    }

    normalize(descriptor) {
        const bytes = descriptorOf(descriptor, "descriptor");
        return this.#bytes("sdtool_normalize", listOf(bytes), list(), min(lengthOf(bytes), MOST_BYTES));
    }

    // A copy of the bytes that a call gives.
    #bytes(call, inputs, numbers, size, placed = inputs) {
        const bytes = this.#answer(call, inputs, numbers, size, placed);
        return this.#copyAt(offsetOf(bytes), lengthOf(bytes));
    }

    // The SIDs of a token in binary and the bytes beside them, and how many SIDs these are.
    #token(sids, denyOnly = list()) {
        const inputs = addAll(this.#sids(sids, "sids"), this.#sids(denyOnly, "denyOnly")), count = inputs.length;
        inputs[count] = fillBytes(new Bytes(count), DENY_ONLY, sids.length);
        return {inputs, enabled: sids.length, count};
    }

    // What a check asks for: the inputs beside the descriptor and the token, and the fields of the request.
    #asked({
        wanted = 0,
        maximum = 0,
        mapping = MAPPINGS.file,
        level = null,
        objectType = NONE,
        principalSelf = NONE,
        security = 0,
        takeOwnership = 0,
    }) {
        return {
            inputs: listOf(objectType, this.#sid(principalSelf, "principalSelf")),
            numbers: listOf(mapping, level ?? 0, optionsOf(level, security, takeOwnership), wanted, maximum * MAXIMUM),
        };
    }

    // Who asks for reasons: the same of the asker.
    #asker({
        mapping = MAPPINGS.file,
        level = null,
        objectType = NONE,
        principalSelf = NONE,
        security = 0,
        takeOwnership = 0
    }) {
        return {
            inputs: listOf(objectType, this.#sid(principalSelf, "principalSelf")),
            numbers: listOf(mapping, level ?? 0, optionsOf(level, security, takeOwnership)),
        };
    }

    // Both: the inputs beside descriptors, and how many SIDs they begin with.
    #question(sids, options, isWhy = false) {
        const {inputs, enabled, count} = this.#token(sids, options.denyOnly);
        const asked = isWhy ? this.#asker(options) : this.#asked(options);
        return {inputs: addAll(inputs, asked.inputs), enabled, count, numbers: asked.numbers};
    }

    // Writes the request of a question. Gives its place.
    #request({numbers}) {
        const request = this.#room + REQUEST;
        for (let index = 0; index < numbers.length; index += 1)
            setU32(this.#view, request + OF_REQUEST[index], numbers[index], true);
        return request;
    }

    // The SIDs of a token, whose inputs begin at a number, and the bytes beside them, as calls have them.
    #sidsAt({enabled, count}, places, from) {
        // Each SID has to be one by itself, so that none begins in another.
        for (let index = 0; index < count; index += 1) {
            const at = places[from + 2 * index], size = places[from + 2 * index + 1];
            if (size > 0 && this.#enter("sdtool_sid_size", listOf(at, size)) === size) continue;
            const isEnabled = index < enabled;
            throw new ArgumentFault("this is not exactly one SID in binary", isEnabled ? "sids" : "denyOnly",
                isEnabled ? index : index - enabled);
        }
        const first = places[from], entries = places[from + 2 * count];
        return listOf(first, entries - first, entries, places[from + 2 * count + 1]);
    }

    // Writes the request of a question, whose inputs begin at a number. Gives what a check has behind its descriptors.
    #ask(question, places, from) {
        const rest = from + 2 * question.count + 2;
        const words = addAll(this.#sidsAt(question, places, from), places, rest, rest + 4);
        words[words.length] = this.#request(question);
        return words;
    }

    // The verdict that a check wrote, so many bytes behind the front of the room.
    #verdict(at) {
        return {
            granted: getU8(this.#view, this.#room + at + VERDICT_GRANTED_AT) === 1,
            mask: this.#number(at + VERDICT_MASK_AT)
        };
    }

    // The verdict that a call of one descriptor wrote.
    #told(bytes) {
        this.#judge(bytes);
        return this.#verdict(0);
    }

    check(descriptor, sids, options = {}) {
        const bytes = descriptorOf(descriptor, "descriptor"), token = sidsOf(sids, "sids");
        const question = this.#question(token, namedOf(options, ASKED, "options"));
        const places = this.#put(addAll(listOf(bytes), question.inputs), 0);
        this.#call("sdtool_check", addAll(listOf(places[0], places[1]), this.#ask(question, places, 2)));
        return this.#told(bytes);
    }

    readToken(sids, options = {}) {
        const enabled = sidsOf(sids, "sids"), given = this.#token(enabled, namedOf(options, TOKEN, "options").denyOnly);
        const size = TOKEN_WORDS_FIRST + TOKEN_WORDS_EACH * min(given.count, MOST_SIDS);
        const places = this.#put(given.inputs, 0, 4 * size), token = this.#room + STRUCTS;
        this.#call("sdtool_token_read", this.#sidsAt(given, places, 0), token, size);
        this.#judge();
        return this.#copyAt(token, 4 * this.#number(OUTCOME_LENGTH_AT));
    }

    checkWith(descriptor, token, options = {}) {
        const bytes = descriptorOf(descriptor, "descriptor"), numbers = bytesOf(token, MOST_TOKEN, "token");
        const asked = this.#asked(namedOf(options, REQUESTED, "options"));
        // The token is first, since it has to be where 4 divides.
        const places = this.#put(addAll(listOf(numbers, bytes), asked.inputs), 0);
        const words = addAll(listOf(places[2], places[3], places[0], places[1] >>> 2), places, 4, 8);
        this.#call("sdtool_check_with", words, this.#request(asked));
        return this.#told(bytes);
    }

    reasons(descriptor, sids, options = {}) {
        const bytes = descriptorOf(descriptor, "descriptor"), token = sidsOf(sids, "sids");
        const question = this.#question(token, namedOf(options, ASKERS, "options"), true);
        const places = this.#put(addAll(listOf(bytes), question.inputs), 0, SIZE_OF_REASON * RIGHTS);
        const words = addAll(listOf(places[0], places[1]), this.#ask(question, places, 2));
        this.#call("sdtool_reasons", words, this.#room + STRUCTS);
        return this.#reasons(bytes);
    }

    reasonsWith(descriptor, token, options = {}) {
        const bytes = descriptorOf(descriptor, "descriptor"), numbers = bytesOf(token, MOST_TOKEN, "token");
        const asker = this.#asker(namedOf(options, ASKER, "options"));
        const places = this.#put(addAll(listOf(numbers, bytes), asker.inputs), 0, SIZE_OF_REASON * RIGHTS);
        const words = addAll(listOf(places[2], places[3], places[0], places[1] >>> 2), places, 4, 8);
        this.#call("sdtool_reasons_with", words, this.#request(asker), this.#room + STRUCTS);
        return this.#reasons(bytes);
    }

    // The reasons that a call wrote, each with its ACE.
    #reasons(bytes) {
        this.#judge(bytes);
        const told = list(), inSacl = list(), inDacl = list();
        for (let right = 0; right < RIGHTS; right += 1) {
            const at = this.#room + STRUCTS + SIZE_OF_REASON * right;
            const kind = REASONS[getU16(this.#view, at + REASON_KIND_AT, true)],
                  place = getU16(this.#view, at + REASON_PLACE_AT, true);
            told[right] = {kind, place: place === NO_PLACE ? null : place};
            if (place !== NO_PLACE) (kind === "label" ? inSacl : inDacl)[place] = true;
        }
        // The calls that find the ACEs take the room.
        const sacl = this.#acesAt(bytes, CONTENTS_SACL_AT, inSacl),
              dacl = this.#acesAt(bytes, CONTENTS_DACL_AT, inDacl);
        return arrayFrom(mapped(told,
            ({kind, place}) => ({kind, place, ace: place === null ? null : (kind === "label" ? sacl : dacl)[place]})));
    }

    // The ACEs at some places of an ACL of a descriptor.
    #acesAt(bytes, acl, wanted) {
        if (wanted.length === 0) return wanted;
        const places = this.#put(listOf(bytes), 0);
        this.#call("sdtool_parts", listOf(places[0], places[1]));
        const {offset, size} = this.#foundAcl(acl);
        return this.#walk(places[0] + offset, size, wanted);
    }

    checkMany(descriptors, sids, options = {}) {
        const given = itemsOf(descriptors, "descriptors", descriptorOf), token = sidsOf(sids, "sids");
        const question = this.#question(token, namedOf(options, ASKED, "options"));
        const found = list();
        // A wrong question is refused without a descriptor too.
        do {
            const first = found.length;
            let end = first, size = 0;
            for (; end < given.length && end - first < MOST_OF_CALL; end += 1) {
                if (size > 0 && size + lengthOf(given[end]) > MOST_BYTES_OF_CALL) break;
                size += lengthOf(given[end]);
            }
            addAll(found, this.#checkSome(question, addAll(list(), given, first, end)));
        } while (found.length < given.length);
        return arrayFrom(found);
    }

    #checkSome(question, descriptors) {
        const count = descriptors.length, verdicts = STRUCTS + SIZE_OF_BYTES * count;
        const places = this.#put(
            addAll(addAll(list(), descriptors), question.inputs), 0, (SIZE_OF_BYTES + SIZE_OF_VERDICT) * count);
        const asked = this.#ask(question, places, 2 * count);
        for (let index = 0; index < 2 * count; index += 1)
            setU32(this.#view, this.#room + STRUCTS + 4 * index, places[index], true);
        const words = addAll(listOf(this.#room + STRUCTS, count), asked);
        this.#call("sdtool_check_many", words, this.#room + verdicts, count);
        this.#judge();
        const found = mapped(descriptors, (_, index) => {
            const at = verdicts + SIZE_OF_VERDICT * index, fault = this.#number(at + OUTCOME_FAULT_AT);
            return {
                fault,
                part: this.#number(at + OUTCOME_PART_AT),
                other: this.#number(at + OUTCOME_OTHER_PART_AT),
                verdict: this.#verdict(at)
            };
        });
        // The name of a fault is the answer of another call, which takes the room.
        return mapped(found,
            ({fault, part, other, verdict}, index) =>
                (fault === OK ? verdict : this.#fault(fault, part, other, descriptors[index])));
    }

    // What a new object's descriptor is made of: the inputs and the numbers of a call that derives.
    #derivation(parent, owner, group, options) {
        const bytes = descriptorOf(parent, "parent"), sids = listOf(sidOf(owner, "owner"), sidOf(group, "group"));
        const {kind = KINDS.file, creator = NONE, mapping = MAPPINGS.file} = namedOf(options, DERIVED, "options");
        const inputs = listOf(bytes, creator, this.#sid(sids[0], "owner"), this.#sid(sids[1], "group"));
        return {inputs, numbers: listOf(kind, mapping)};
    }

    derive(parent, owner, group, options = {}) {
        const {inputs, numbers} = this.#derivation(parent, owner, group, options);
        return this.#bytes("sdtool_derive", inputs, numbers, MOST_BYTES);
    }

    origins(parent, owner, group, options = {}) {
        const {inputs, numbers} = this.#derivation(parent, owner, group, options);
        const size = SIZE_OF_ORIGIN * MOST_DERIVED_ACES, places = this.#put(inputs, 0, 2 * size);
        const sacl = this.#room + STRUCTS, dacl = sacl + size;
        const words = addAll(addAll(list(), places, 0, 8), numbers);
        this.#call("sdtool_derive_origins", words, sacl, MOST_DERIVED_ACES, dacl, MOST_DERIVED_ACES);
        this.#judge(inputs[0]);
        const told = listOf(this.#origins(sacl, ORIGINS_SACL_COUNT_AT), this.#origins(dacl, ORIGINS_DACL_COUNT_AT));
        // The call that finds the ACEs takes the room.
        const parts = this.#parts(inputs[0]), creators = lengthOf(inputs[1]) > 0 ? this.#parts(inputs[1]) : null;
        const withAces = (origins, name) => arrayFrom(mapped(origins,
            ({fromCreator, place, inheritOnly}) =>
                ({fromCreator, place, inheritOnly, ace: (fromCreator ? creators : parts)[name].aces[place]})));
        return {sacl: withAces(told[0], "sacl"), dacl: withAces(told[1], "dacl")};
    }

    // The origins that a call wrote to a place, as many as it told so many bytes behind the front of the room.
    #origins(place, countAt) {
        const found = list(), count = this.#number(countAt);
        for (let index = 0; index < count; index += 1) {
            const at = place + SIZE_OF_ORIGIN * index;
            found[index] = {
                fromCreator: getU8(this.#view, at + ORIGIN_FROM_CREATOR_AT) === 1,
                place: getU16(this.#view, at + ORIGIN_PLACE_AT, true),
                inheritOnly: getU8(this.#view, at + ORIGIN_INHERIT_ONLY_AT) === 1,
            };
        }
        return found;
    }

    sidFromText(text, options = {}) {
        const given = textOf(text, "text");
        return this.#sidOfText(given, this.#domain(namedOf(options, DOMAIN, "options")));
    }

    sidToText(sid, options = {}) {
        const bytes = bytesOf(sid, MOST_SID + 1, "sid"), asked = namedOf(options, PRINTING, "options");
        const inputs = listOf(bytes, this.#domain(asked));
        return this.#text(this.#answer("sdtool_sid_to_text", inputs, listOf(asked.numeric ?? 0), MOST_SID_TEXT));
    }

    sidSize(bytes) {
        const places = this.#put(listOf(bytesOf(bytes, MOST_SID, "bytes")), 0);
        return this.#enter("sdtool_sid_size", listOf(places[0], places[1]));
    }

    aceFromText(text, options = {}) {
        const given = cutText(textOf(text, "text"), 0, MOST_TEXT + 1);
        const domain = this.#domain(namedOf(options, DOMAIN, "options"));
        try {
            return this.#bytes("sdtool_ace_from_text", listOf(given, domain), list(), MOST_ACE, list());
        } catch (fault) {
            if (!(fault instanceof Fault)) throw fault;
            const place = cutText(given, 0, 1) === "(" ? this.#placeInAce(given, domain, fault.number) : null;
            throw new Fault(
                fault.number, fault.name, fault.part, null, null, null, place, place && given, fault.meaning);
        }
    }

    // Where the fault of an ACE's text is, which is read behind the head of a DACL that was not given. A second head is
    // in the text itself.
    #placeInAce(text, domain, fault) {
        const found = this.#place(HEAD_OF_ACE + text, domain);
        if (found === null) return null;
        const {part, ace, field, size} = found, offset = found.offset - HEAD_OF_ACE.length;
        const isGiven = part !== "dacl" || fault === FAULT_PART_TWICE;
        return {part: isGiven ? part : null, ace: isGiven ? ace : null, field, offset, size};
    }

    aceToText(ace, options = {}) {
        const bytes = bytesOf(ace, MOST_ACL, "ace"), asked = namedOf(options, PRINTING, "options");
        const inputs = listOf(bytes, this.#domain(asked));
        return this.#text(this.#answer("sdtool_ace_to_text", inputs, listOf(asked.numeric ?? 0), MOST_ACE_TEXT));
    }

    aceRead(bytes) {
        const given = bytesOf(bytes, MOST_ACL, "bytes"), places = this.#put(listOf(given), 0);
        this.#call("sdtool_ace_read", listOf(places[0], places[1]));
        const fault = this.#number(ACE_FAULT_AT);
        if (fault !== OK) throw this.#fault(fault, NO_PART, NO_PART, null);
        return {ace: this.#ace(places[0]), size: this.#number(ACE_PLACE_AT + PLACE_SIZE_AT)};
    }

    rightsFromText(text) { return this.#numberOf("sdtool_rights_from_text", textOf(text, "text"), "rights"); }

    rightsToText(mask, options = {}) {
        const number = numberOf(mask, "mask"), {label = 0} = namedOf(options, RIGHTS_TEXT, "options");
        return this.#text(this.#answer("sdtool_rights_to_text", list(), listOf(number, label), MOST_ACE_TEXT));
    }

    flagsFromText(text) { return this.#numberOf("sdtool_flags_from_text", textOf(text, "text"), "flags"); }

    flagsToText(flags) {
        return this.#text(
            this.#answer("sdtool_flags_to_text", list(), listOf(numberOf(flags, "flags")), MOST_ACE_TEXT));
    }

    guidFromText(text) {
        const given = textOf(text, "text");
        return this.#field(
            given, null, () => this.#bytes("sdtool_guid_from_text", listOf(given), list(), GUID, list()));
    }

    guidToText(guid) {
        const bytes = bytesOf(guid, GUID + 1, "guid");
        return this.#text(this.#answer("sdtool_guid_to_text", listOf(bytes), list(), MOST_ACE_TEXT));
    }

    parts(descriptor) { return this.#parts(descriptorOf(descriptor, "descriptor")); }

    #parts(bytes) {
        const places = this.#put(listOf(bytes), 0), at = places[0];
        this.#call("sdtool_parts", listOf(at, places[1]));
        this.#judge(bytes);
        const control = getU16(this.#view, this.#room + CONTENTS_CONTROL_AT, true);
        const resourceManager = getU8(this.#view, this.#room + CONTENTS_RESOURCE_MANAGER_AT);
        const owner = this.#copy(at, CONTENTS_OWNER_AT), group = this.#copy(at, CONTENTS_GROUP_AT);
        const sacl = this.#foundAcl(CONTENTS_SACL_AT), dacl = this.#foundAcl(CONTENTS_DACL_AT);
        return {control, resourceManager, owner, group, sacl: this.#acl(at, sacl), dacl: this.#acl(at, dacl)};
    }

    // What sdtool_parts wrote of an ACL, before the walk through another one takes the room.
    #foundAcl(at) {
        const place = at + ACL_PLACE_PLACE_AT, offset = this.#number(place + PLACE_OFFSET_AT);
        return {
            state: STATE_NAMES[this.#number(at + ACL_PLACE_STATE_AT)],
            offset,
            size: this.#number(place + PLACE_SIZE_AT)
        };
    }

    #acl(front, {state, offset, size}) {
        return state === "list" ? {state, aces: arrayFrom(this.#walk(front + offset, size))} : {state};
    }

    aces(acl) {
        const places = this.#put(listOf(bytesOf(acl, MOST_ACL + 1, "acl")), 0);
        return arrayFrom(this.#walk(places[0], places[1]));
    }

    // The ACEs of an ACL that is in the room; or only those at some places, up to the last of these.
    #walk(at, size, wanted = null) {
        const found = list();
        fillBytes(this.#at(this.#room, SIZE_OF_ACE), 0);
        for (let place = 0; wanted === null || place < wanted.length; place += 1) {
            if (!this.#enter("sdtool_next_ace", listOf(at, size, this.#room))) break;
            if (wanted === null || wanted[place] === true) found[place] = this.#ace(at);
        }
        const fault = this.#number(ACE_FAULT_AT);
        if (fault !== OK) throw this.#fault(fault, NO_PART, NO_PART, null);
        return found;
    }

    // The ACE that a walk through the ACL at a place is at.
    #ace(at) {
        return {
            kind: getU8(this.#view, this.#room + ACE_KIND_AT),
            flags: getU8(this.#view, this.#room + ACE_FLAGS_AT),
            mask: this.#number(ACE_MASK_AT),
            sid: this.#copy(at, ACE_SID_AT),
            objectType: this.#copy(at, ACE_OBJECT_TYPE_AT),
            inheritedObjectType: this.#copy(at, ACE_INHERITED_OBJECT_TYPE_AT),
        };
    }

    build(parts) {
        const {owner = null, group = null, sacl = NO_ACL, dacl = NO_ACL, control = 0, resourceManager = 0} =
            namedOf(parts, BUILT, "parts");
        const inputs = listOf(this.#sid(owner ?? NONE, "owner"), this.#sid(group ?? NONE, "group"));
        this.#addAces(inputs, sacl.aces, "sacl");
        this.#addAces(inputs, dacl.aces, "dacl");
        const aces = addAll(addAll(list(), sacl.aces), dacl.aces);
        for (let size = FIRST_ANSWERS;;) {
            const output = this.#putParts(inputs, listOf(sacl, dacl), aces, {control, resourceManager}, size);
            this.#call("sdtool_build", listOf(this.#room + STRUCTS), output, size);
            const fault = this.#number(OUTCOME_FAULT_AT), length = this.#number(OUTCOME_LENGTH_AT);
            if (fault === OK) return this.#copyAt(output, length);
            if (fault !== TOO_SMALL) this.#refuse(fault);
            size = length;
        }
    }

    // Adds the SID and the GUIDs of each ACE.
    #addAces(inputs, aces, argument) {
        for (let entry = 0; entry < aces.length; entry += 1) {
            const {sid, objectType, inheritedObjectType} = aces[entry];
            addAll(inputs, listOf(this.#sid(sid, argument, entry), objectType ?? NONE, inheritedObjectType ?? NONE));
        }
    }

    // Puts the structs of a descriptor to build into the room, and what they point to. Gives the place of the answer.
    #putParts(inputs, acls, aces, {control, resourceManager}, size) {
        const places = this.#put(inputs, size, SIZE_OF_NEW_DESCRIPTOR + SIZE_OF_NEW_ACE * aces.length);
        const front = this.#room + STRUCTS, view = this.#view;
        this.#putPlace(front + NEW_DESCRIPTOR_OWNER_AT, places, 0);
        this.#putPlace(front + NEW_DESCRIPTOR_GROUP_AT, places, 1);
        const next = this.#putAcl(front + NEW_DESCRIPTOR_SACL_AT, acls[0], front + SIZE_OF_NEW_DESCRIPTOR);
        this.#putAcl(front + NEW_DESCRIPTOR_DACL_AT, acls[1], next);
        setU16(view, front + NEW_DESCRIPTOR_CONTROL_AT, control, true);
        setU8(view, front + NEW_DESCRIPTOR_RESOURCE_MANAGER_AT, resourceManager);
        for (let index = 0; index < aces.length; index += 1) {
            const at = front + SIZE_OF_NEW_DESCRIPTOR + SIZE_OF_NEW_ACE * index, ace = aces[index];
            this.#putPlace(at + NEW_ACE_SID_AT, places, 2 + 3 * index);
            this.#putPlace(at + NEW_ACE_OBJECT_TYPE_AT, places, 3 + 3 * index);
            this.#putPlace(at + NEW_ACE_INHERITED_OBJECT_TYPE_AT, places, 4 + 3 * index);
            setU32(view, at + NEW_ACE_MASK_AT, ace.mask, true);
            setU8(view, at + NEW_ACE_KIND_AT, ace.kind);
            setU8(view, at + NEW_ACE_FLAGS_AT, ace.flags);
        }
        return places[2 * inputs.length];
    }

    // Writes the place and the size of an input.
    #putPlace(at, places, index) {
        setU32(this.#view, at + BYTES_BYTES_AT, places[2 * index], true);
        setU32(this.#view, at + BYTES_SIZE_AT, places[2 * index + 1], true);
    }

    // Writes an ACL, whose ACEs are from a place on. Gives the place behind them.
    #putAcl(at, {state, aces}, first) {
        setU32(this.#view, at + NEW_ACL_ACES_AT, first, true);
        setU32(this.#view, at + NEW_ACL_ACE_COUNT_AT, aces.length, true);
        setU32(this.#view, at + NEW_ACL_STATE_AT, state, true);
        return first + SIZE_OF_NEW_ACE * aces.length;
    }

    edit(descriptor, changes) {
        const bytes = descriptorOf(descriptor, "descriptor"),
              given = itemsOf(changes, "changes", changeOf, MOST_CHANGES);
        const count = given.length, all = new Bytes(SIZE_OF_CHANGE * count), view = new View(bufferOf(all));
        for (let entry = 0; entry < count; entry += 1)
            this.#putChange(all, view, SIZE_OF_CHANGE * entry, given[entry], entry);
        for (let size = lengthOf(bytes) + FIRST_ANSWERS;;) {
            const places = this.#put(listOf(all, bytes), size, 4 * count), output = places[4];
            const words = listOf(places[2], places[3], places[0], count, this.#room + STRUCTS, count);
            this.#call("sdtool_edit", words, output, size);
            const fault = this.#number(OUTCOME_FAULT_AT), length = this.#number(OUTCOME_LENGTH_AT);
            if (fault === OK) {
                const touched = mapped(given, (_, entry) => this.#number(STRUCTS + 4 * entry));
                return {descriptor: this.#copyAt(output, length), touched: arrayFrom(touched)};
            }
            if (fault !== TOO_SMALL) this.#refuse(fault, bytes);
            size = length;
        }
    }

    // Writes a change to bytes that are zeros. One with neither an ACE nor a match has at most a SID.
    #putChange(all, view, at, change, entry) {
        const {ace, match, setting = EMPTY, acl = 0, place = 0, state = 0, setControl = 0, clearControl = 0} = change;
        const {kind, mask, flags = 0, flagsMask = 0, sid, objectType, inheritedObjectType} = ace ?? match ?? change;
        const compare = (kind === undefined ? 0 : COMPARE_KIND) + (mask === undefined ? 0 : COMPARE_MASK);
        setU32(view, at + CHANGE_KIND_AT, CHANGES[change.change].number, true);
        setU32(view, at + CHANGE_PART_AT, acl, true);
        setU32(view, at + CHANGE_PLACE_AT, typeof place === "string" ? PLACES[place] : place, true);
        setU32(view, at + CHANGE_COMPARE_AT, match === undefined ? 0 : compare, true);
        setU32(view, at + CHANGE_MASK_AT, mask ?? 0, true);
        setU32(view, at + CHANGE_SET_MASK_AT, setting.setMask ?? 0, true);
        setU32(view, at + CHANGE_CLEAR_MASK_AT, setting.clearMask ?? 0, true);
        setU16(view, at + CHANGE_SET_CONTROL_AT, setControl, true);
        setU16(view, at + CHANGE_CLEAR_CONTROL_AT, clearControl, true);
        setU8(view, at + CHANGE_ACE_KIND_AT, kind ?? 0);
        setU8(view, at + CHANGE_FLAGS_AT, flags);
        setU8(view, at + CHANGE_FLAGS_MASK_AT, flagsMask);
        setU8(view, at + CHANGE_SET_FLAGS_AT, setting.setFlags ?? 0);
        setU8(view, at + CHANGE_CLEAR_FLAGS_AT, setting.clearFlags ?? 0);
        setU8(view, at + CHANGE_STATE_AT, state);
        const none = match === undefined ? TYPE_UNUSED : TYPE_NONE;
        setU8(view, at + CHANGE_OBJECT_TYPE_USE_AT,
            this.#putType(all, at + CHANGE_OBJECT_TYPE_AT, objectType, none, entry));
        setU8(view, at + CHANGE_INHERITED_OBJECT_TYPE_USE_AT,
            this.#putType(all, at + CHANGE_INHERITED_OBJECT_TYPE_AT, inheritedObjectType, none, entry));
        this.#putSid(all, at + CHANGE_SID_AT, sid, entry);
        this.#putSid(all, at + CHANGE_SET_SID_AT, setting.sid, entry);
    }

    // Writes an object type into a change, and gives its use.
    #putType(all, at, type, none, entry) {
        if (type === undefined) return TYPE_UNUSED;
        if (type === null) return none;
        if (lengthOf(type) !== GUID) throw new ArgumentFault(`this GUID has no ${GUID} bytes`, "changes", entry);
        setBytes(all, type, at);
        return TYPE_GIVEN;
    }

    // Writes a SID into a change. Zeros behind it would lengthen one that is cut, so it has to be whole.
    #putSid(all, at, sid, entry) {
        if (sid === undefined || sid === null) return;
        const bytes = this.#sid(sid, "changes", entry), places = this.#put(listOf(bytes), 0);
        if (this.#enter("sdtool_sid_size", listOf(places[0], places[1])) !== lengthOf(bytes))
            throw new ArgumentFault("this is no SID", "changes", entry);
        setBytes(all, bytes, at);
    }

    order(descriptor) {
        const bytes = descriptorOf(descriptor, "descriptor"), places = this.#put(listOf(bytes), 0);
        this.#call("sdtool_order", listOf(places[0], places[1]));
        this.#judge(bytes);
        const sacl = this.#number(ACL_ORDER_SACL_AT), dacl = this.#number(ACL_ORDER_DACL_AT);
        return {sacl: sacl === NO_ACE ? null : sacl, dacl: dacl === NO_ACE ? null : dacl};
    }

    run(words, input) {
        const spelled = spell(itemsOf(words, "words", textOf));
        // What the memory can't hold is not copied.
        if (typeOf(input) === "Uint8Array" && lengthOf(input) > MOST_INPUT) throw new NoRoom("sdtool: no memory");
        const given = bytesOf(input, MOST_INPUT, "input");
        let size = FIRST_ANSWERS + 4 * lengthOf(given);
        for (;;) {
            const places = this.#put(listOf(spelled, given), size + MOST_MESSAGE), output = places[4],
                  message = output + size;
            this.#call("sdtool_run", addAll(list(), places, 0, 4), output, size, message, MOST_MESSAGE);
            const status = this.#number(ENDING_STATUS_AT), length = this.#number(ENDING_LENGTH_AT);
            if (status === STATUS_NO_MEMORY) throw new NoRoom("sdtool: no memory");
            // Help that was cut ends with 0.
            if (status !== STATUS_STOPPED && length < size)
                return {
                    status,
                    output: this.#copyAt(output, length),
                    message: this.#text(this.#at(message, this.#number(ENDING_MESSAGE_LENGTH_AT)))
                };
            size *= 4;
        }
    }

    faultText(number) { return this.#faultName(numberOf(number, "number")); }
}

// The words of a command line, each with a NUL behind it.
function spell(words) {
    const parts = mapped(words, spellWord);
    let size = 0;
    for (let index = 0; index < parts.length; index += 1) size += lengthOf(parts[index]) + 1;
    const all = new Bytes(size);
    for (let index = 0, at = 0; index < parts.length; at += lengthOf(parts[index]) + 1, index += 1)
        setBytes(all, parts[index], at);
    return all;
}

// Half of a surrogate pair is no text. It stays none, and the run refuses it.
function spellWord(word, entry) {
    for (let at = 0; at < word.length; at += 1) {
        const code = codeAt(word, at);
        if (code === 0) throw new ArgumentFault("the word has a NUL", "words", entry);
        if (code < 0xd800 || code > 0xdfff) continue;
        const next = at + 1 < word.length ? codeAt(word, at + 1) : 0;
        if (code > 0xdbff || next < 0xdc00 || next > 0xdfff) return fillBytes(new Bytes(1), 0xff);
        at += 1;
    }
    return encode(ENCODER, word);
}

async function bytesAt(url) {
    if (url.protocol === "file:" && globalThis.process?.versions?.node) {
        const {readFile} = await import("node:fs/promises");
        return readFile(url);
    }
    const response = await fetch(url);
    if (!response.ok) throw new Error(`sdtool: ${shownText(toText(url))} answers ${response.status}`);
    return response.arrayBuffer();
}

// A module whose one function makes a vector.
const VECTOR =
    Uint8Array.of(0, 97, 115, 109, 1, 0, 0, 0, 1, 4, 1, 96, 0, 0, 3, 2, 1, 0, 10, 9, 1, 7, 0, 65, 0, 253, 15, 26, 11);

/** Whether this engine has WebAssembly's vectors, which sdtool.wasm needs. */
export function hasVectors() { return WebAssembly.validate(VECTOR); }

async function compiled(bytes) {
    try {
        return await WebAssembly.compile(bytes);
    } catch (error) {
        if (hasVectors()) throw error;
        throw new Error(
            "sdtool: this engine has no vectors (SIMD) of WebAssembly, which the module needs", {cause: error});
    }
}

async function moduleOf(source) {
    if (source instanceof WebAssembly.Module) return source;
    if (source instanceof ArrayBuffer || ArrayBuffer.isView(source)) return compiled(source);
    if (source !== undefined) return compiled(await bytesAt(new URL(source)));
    if (EMBEDDED) return compiled(Uint8Array.from(atob(EMBEDDED), (character) => character.charCodeAt(0)));
    return compiled(await bytesAt(new URL("sdtool.wasm", import.meta.url)));
}

// A call of the library that older modules lack.
const NEWEST_CALL = "sdtool_sddl_place";

/**
 * Another module, or that of an older version, is refused before it runs.
 * @param {WebAssembly.Module} module
 */
function own(module) {
    if (WebAssembly.Module.exports(module).some(({name}) => name === NEWEST_CALL)) return module;
    throw new Error("sdtool: this module of WebAssembly is another one than sdtool.wasm of this version");
}

/** Loads the library: from the file beside this module, or from bytes, a URL or a compiled module. */
export async function load(source) {
    const module = own(await moduleOf(source));
    return new Sdtool(module, await WebAssembly.instantiate(module));
}
