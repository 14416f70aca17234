// The fields of an ACE, of one that an edit changes and of one that it adds. CHANGE gets a function of the ACE that
// gives what becomes of it.
import {has} from "./access.mjs";
import {box, input, labelled, make, select} from "./dom.mjs";
import {maskText} from "./library.mjs";
import {inheritedBy, isDirectory, tableOf} from "./meanings.mjs";
import {guidInWords, nameOf, POLICIES, rightsInWords, rightsOf, sidNamed, whereOf} from "./naming.mjs";
import {rightBoxes} from "./parts_view.mjs";
import {knownGuids} from "./schema.mjs";
import {valueIn} from "./tables.mjs";
import {commaed, WORDS} from "./words.mjs";

const words = WORDS.edit;
const KINDS = {
    dacl: ["A", "D"],
    sacl: ["AU", "ML"]
};
const TYPED = {
    A: "OA",
    D: "OD",
    AU: "OU"
}; // with an object type
const AUDITS = ["SA", "FA"];
const NO_WRITE_UP = 1;
const PLACES = ["", "OICI", "CI", "OI", "OICIIO", "CIIO", "OIIO"];
let areBoxesOpen = false;

const plainKind = (kind) => Object.keys(TYPED).find((one) => valueIn(TYPED, one) === kind) ?? kind;

// The type of an ACE, which depends on whether it has object types.
const typedKind = ({kind, object, inherited}) => {
    const plain = plainKind(kind);
    return object || inherited ? valueIn(TYPED, plain) ?? plain : plain;
};

// What becomes of an ACE with another type. Only one that audits says of what, and a label has policies as rights.
function ofType(type, ace, kind) {
    const was = plainKind(ace.kind);
    const flags = ace.flags.filter((flag) => was !== "AU" || !AUDITS.includes(flag));
    const mask = type === "ML" ? NO_WRITE_UP : tableOf(kind).mapping[0];
    return {
        kind: typedKind({...ace, kind: type}),
        flags: type === "AU" ? [...flags, ...AUDITS] : flags,
        ...((type === "ML") === (was === "ML") ? {} : {...maskChange(mask), object: null, inherited: null})
    };
}

// The list that an ACE belongs to.
export const listOf = ({kind}) => (KINDS.sacl.includes(plainKind(kind)) ? "sacl" : "dacl");

const flagsIn = (text) => text.match(/../g) ?? [];

// The GUID that a text names, or the text.
const guidNamed = (text) =>
    knownGuids().find(({name}) => name.toLowerCase() === text.trim().toLowerCase())?.guid ?? text.trim();

// A field whose text is taken as a whole.
const wholeField = (id, value, take, attributes) => input(id, value, () => {}, {
    ...attributes,
    onchange: ({target}) => {
        target.defaultValue = target.value;
        take(target.value);
    }
});

// A field for a SID, or for a name that stands for one.
export function sidField(id, label, sid, names, take) {
    const name = sid ? nameOf(sid, names) : "";
    const value = name && sidNamed(name, names) === sid ? name : sid;
    return labelled(label,
        wholeField(id, value, (text) => take(sidNamed(text, names)), {dir: "auto", list: "edit-names", title: sid}));
}

const maskChange = (mask) => ({mask, rights: undefined});

// What somebody typed: a number, or names, which the library reads.
const rightsChange = (text) => (/^\s*0x[0-9a-f]{1,8}\s*$/i.test(text) ? maskChange(Number(text)) : {rights: text});

// The sets of rights that have a name, and the one of an ACE.
function setField({mask, rights}, kind, change) {
    const sets = valueIn(WORDS.masks, kind).map(([bits, name]) => [String(bits), name]);
    const value = rights ?? String(mask);
    const own = sets.some(([bits]) => bits === value) ? [] : [[value, rights ?? commaed(rightsInWords(kind, mask))]];
    return labelled(words.columns.can,
        select("edit-set", [...sets, ...own], value, (bits) => change(() => maskChange(Number(bits)))));
}

const flagBox = ({flags}, flag, text, change) => box(`edit-${flag}`, text, flags.includes(flag),
    (isSet) => change((ace) => ({flags: [...ace.flags.filter((one) => one !== flag), ...(isSet ? [flag] : [])]})));

function whereField(ace, kind, change) {
    const own = ["OI", "CI", "IO"].filter((flag) => ace.flags.includes(flag)).join("");
    const by = inheritedBy(kind);
    const isFitting = (place) => flagsIn(place).every((flag) => flag === "IO" || by.includes(flag));
    const places = [...new Set([...PLACES.filter(isFitting), own])];
    const take = (place) => change(({flags}) => {
        const others = flags.filter((flag) => !["OI", "CI", "IO", ...(place === "" ? ["NP"] : [])].includes(flag));
        return {flags: [...flagsIn(place), ...others]};
    });
    return places.length < 2 ? null : [
        labelled(words.columns.where,
            select("edit-where", places.map((place) => [place, whereOf(kind, {flags: flagsIn(place)})]), own, take)),
        own === "" ? null : flagBox(ace, "NP", WORDS.where.oneLevel, change)
    ];
}

function objectFields(ace, kind, change) {
    if (ace.kind === "ML" || !(isDirectory(kind) || ace.object || ace.inherited)) {
        return null;
    }
    const take = (name) => (text) => change((one) => {
        const guid = guidNamed(text) || null;
        return {[name]: guid, kind: typedKind({...one, [name]: guid})};
    });
    const field = (name) => labelled(valueIn(words, name),
        wholeField(
            `edit-${name}`, ace[name] ?? "", take(name), {list: "guids", "aria-describedby": `edit-${name}-hint`}),
        ace[name] ? guidInWords(ace[name], name === "object" ? ace.mask : undefined) : words.noType);
    return ["object", "inherited"].map(field);
}

function rightsBoxes({kind: type, mask}, kind, change) {
    const rights =
        type === "ML" ? POLICIES.map(([bit, name]) => ({bit, name: valueIn(WORDS.label, name)})) : rightsOf(kind);
    const set = (bit, isSet) => change((ace) => maskChange((isSet ? ace.mask | bit : ace.mask & ~bit) >>> 0));
    return make("details",
        {id: "edit-boxes", open: areBoxesOpen, ontoggle: ({target}) => { areBoxesOpen = target.open; }},
        make("summary", {}, words.boxes),
        make("div", {class: "boxes"}, rightBoxes("edit-right", rights, (bit) => has(mask, bit), set)));
}

// What an ACE has, each in a field, for a list or for both.
export function aceFields(ace, lists, {kind, names}, change) {
    const own = plainKind(ace.kind);
    const types = [...new Set([...lists.flatMap((list) => valueIn(KINDS, list)), own])];
    return [
        make("div", {class: "row"},
            labelled(words.columns.type,
                select("edit-kind", types.map((one) => [one, valueIn(WORDS.aceKinds, one)]), own,
                    (value) => change((one) => ofType(value, one, kind)))),
            sidField("edit-sid", words.columns.who, ace.sid, names, (sid) => change(() => ({sid}))),
            own === "ML" ? null : setField(ace, kind, change), whereField(ace, kind, change)),
        make("div", {class: "row"},
            labelled(words.mask,
                wholeField("edit-rights", ace.rights ?? maskText(ace.mask), (text) => change(() => rightsChange(text)),
                    {"aria-describedby": "edit-rights-hint"}),
                words.maskHint),
            objectFields(ace, kind, change)),
        own === "AU" ? AUDITS.map((flag) => flagBox(ace, flag, valueIn(WORDS.audits, flag), change)) : null,
        rightsBoxes(ace, kind, change)
    ];
}
