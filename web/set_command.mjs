// The commands that set an edited descriptor, by windows/commands.toml, and what each leaves out. None does less than
// it seems: what it can't set is said beside it, and what would not give the edited descriptor isn't offered.
import {stepOfLabel, stepsBetween} from "./icacls.mjs";
import {aceText, hexOf, modelOf} from "./library.mjs";
import {isDirectory, tableOf} from "./meanings.mjs";
import {hasHidden, isBroken, posixQuoted, powershellQuoted} from "./quoting.mjs";
import {guidNames} from "./schema.mjs";
import {valueIn} from "./tables.mjs";
import {ALLOWS} from "./well_known.mjs";
import {COMMANDS, HINTS, SHOWN} from "./windows.mjs";
import {say, WORDS} from "./words.mjs";

const SECTIONS = {
    owner: "Owner",
    group: "Group",
    dacl: "Access",
    sacl: "Audit"
};
const PARTS = Object.keys(SECTIONS);
const LABEL = 0x11;
const STAND_IN = "S-1-5-21-0-0-0-"; // SIDs of a domain that nobody knows
const PROVIDER = /^(?:Microsoft\.PowerShell\.Core\\)?(?:FileSystem|Registry)::/i;
const OF_DIRECTORY =
    /^(?:Microsoft\.ActiveDirectory\.Management(?:\.dll)?\\ActiveDirectory:{1,3}\/\/RootDSE\/|AD:\\?)/i;
const HIVES = new Map(Object.entries({
    HKLM: "HKEY_LOCAL_MACHINE",
    HKCU: "HKEY_CURRENT_USER",
    HKU: "HKEY_USERS",
    HKCR: "HKEY_CLASSES_ROOT",
    HKCC: "HKEY_CURRENT_CONFIG",
    MACHINE: "HKEY_LOCAL_MACHINE",
    USERS: "HKEY_USERS",
    CLASSES_ROOT: "HKEY_CLASSES_ROOT"
}));
const OLE = "HKLM\\SOFTWARE\\Microsoft\\Ole"; // where the values of a machine are
const UNC = /^(?:\\\\|\/\/)(?![?.][\\/])([^\\/]+)[\\/]([^\\/]+)[\\/]*/;
// What is in front of a descriptor, and names no object. Those of COM are names of values.
const titlesOf = (hints) =>
    new Set(hints.flatMap(({property = [], value = []}) => [...property, ...value]).map((name) => name.toLowerCase()));
const TITLES = titlesOf([...HINTS, {property: ["Sddl"]}]);
const VALUES = titlesOf(HINTS.filter(({kind}) => kind === "com"));
/**
 * The letters of dsacls, by their bits.
 * @type {[number, string][]}
 */
const OF_DSACLS = [
    [0x1, "CC"], [0x2, "DC"], [0x4, "LC"], [0x8, "WS"], [0x10, "RP"], [0x20, "WP"], [0x40, "DT"], [0x80, "LO"],
    [0x100, "CA"], [0x10000, "SD"], [0x20000, "RC"], [0x40000, "WD"], [0x80000, "WO"], [0x10000000, "GA"],
    [0x20000000, "GE"], [0x40000000, "GW"], [0x80000000, "GR"]
];
const HEIRS_OF_DSACLS = new Map([["", ""], ["CI", "/I:T "], ["CIIO", "/I:S "]]);

const whyWords = (key, values = {}) => say(valueIn(WORDS.setCommands.why, key), values);

/**
 * A descriptor as a command needs it, in plain data: each part as the library prints it, which names a SID of a domain
 * only where the domain isn't known; and its ACEs.
 */
export function forCommand(library, descriptor, {isStandIn, option}) {
    const {owner, group, dacl, sacl, control} = library.parts(descriptor);
    const printing = isStandIn ? option : {};
    const text = (part) => library.toSddl(library.build({control, ...part}), printing);
    const audits = (sacl.aces ?? []).filter(({kind}) => kind !== LABEL);
    const model = modelOf(library, descriptor, printing);
    const labels = model.sacl.aces.filter(({kind}) => kind === "ML");
    return {
        owner: owner ? text({owner}) : "",
        group: group ? text({group}) : "",
        dacl: dacl.state === "absent" ? "" : text({dacl}),
        sacl: audits.length ? text({sacl: audits}) : "",
        label: labels.map(aceText).join(""),
        hex: hexOf(descriptor),
        sids: {owner: model.owner?.sid, group: model.group?.sid},
        isList: dacl.state === "list",
        isProtected: model.codes.includes("PD"),
        aces: model.dacl.aces,
        audits: model.sacl.aces.filter(({kind}) => kind !== "ML"),
        labels
    };
}

// A list of ACEs with numbers in the place of names, behind the flags that the library printed.
const numbered = (text, aces) => text.split("(", 1)[0] + aces.map(aceText).join("");

// The parts of a descriptor in SDDL.
function sddlOf({sids, aces, audits, ...texts}, parts, isNumbered) {
    const plain = isNumbered ? {
        owner: sids.owner ? `O:${sids.owner}` : "",
        group: sids.group ? `G:${sids.group}` : "",
        dacl: numbered(texts.dacl, aces),
        sacl: numbered(texts.sacl, audits)
    } :
                            texts;
    // Samba takes a part behind a list without ACEs for its flags.
    const isFirst = (part) => isNumbered && part === "sacl" && aces.length === 0;
    return PARTS.filter((part) => parts.includes(part))
        .sort((one, other) => Number(isFirst(other)) - Number(isFirst(one)))
        .map((part) => valueIn(plain, part))
        .join("");
}

const sidsIn =
    ({sids, aces, audits}) => [sids.owner, sids.group, ...aces, ...audits].map((one) => one?.sid ?? one ?? "");

// The name of a key as a provider of PowerShell has it, which needs no drive.
function keyName(name) {
    const [hive, ...rest] = name.split("\\");
    const bare = hive.replace(/:$/, "").toUpperCase();
    const known = HIVES.get(bare) ?? (/^HKEY(?:_[A-Z]+)+$/.test(bare) ? bare : null);
    return known ? `Registry::${[known, ...rest].join("\\")}` : name;
}

// The name that a command takes of an object, with what is before it, or null where nobody knows it.
function namesOf({name: missing, at}, kind, given) {
    const bare = given.trim() === "" || TITLES.has(given.toLowerCase()) ? "" : given.replace(PROVIDER, "");
    if (kind === "com") {
        const isOfMachine = /^(?:Default|Machine)/i.test(given);
        return VALUES.has(given.toLowerCase()) ? {name: given, key: isOfMachine ? OLE : null} : {name: null, key: null};
    }
    if (!missing || bare === "") {
        return {name: null, directory: at === "network" ? "//<SERVER>/<SHARE>" : null};
    }
    const [all, server, share] = UNC.exec(bare) ?? [];
    if (kind === "key") {
        return {name: keyName(bare)};
    }
    if (kind === "ds" || kind === "template") {
        return {name: bare.replace(OF_DIRECTORY, "")};
    }
    if (kind === "share") {
        return {name: all ? share : bare};
    }
    if (at === "network" && all) {
        return {
            directory: ["", "", server, share].join("/"),
            name: bare.slice(all.length).replaceAll("/", "\\") || "\\"
        };
    }
    // What begins so would be an option.
    return {
        name: at === "unix" && bare.startsWith("-") ? `./${bare}` :
            at === "windows" && all ? bare.replaceAll("/", "\\") :
                                      bare
    };
}

// Whether a command is for files of such names.
function isForName({at}, name) {
    if (!at || name === "") {
        return true;
    }
    const isUnc = UNC.test(name);
    const isOfWindows = /^(?:[A-Za-z]:|\\\\[?.]\\)/.test(name.replace(PROVIDER, "")) || PROVIDER.test(name);
    return at === "network" ? isUnc : at === "windows" ? isUnc || !name.startsWith("/") : !isUnc && !isOfWindows;
}

// Why no command of a tool has a name, or null.
function whyNotName({shell, native, tool}, name) {
    if (isBroken(name)) {
        return whyWords("broken");
    }
    if (shell === "posix") {
        return name.includes("\0") ? whyWords("hidden") : null;
    }
    return hasHidden(name)                                    ? whyWords("hidden") :
        native && (name.includes("\"") || /^[-/]/.test(name)) ? whyWords("native", {tool}) :
                                                                null;
}

// Why a tool can't set a descriptor, or null.
function whyNotParts(command, before, after, changed) {
    const {tool, needs = [], numbers, by} = command;
    const hasList = after.isList && (by !== "steps" || before.isList);
    if (!hasList && (changed.includes("dacl") || !["sections", "steps", "bytes"].includes(by))) {
        return whyWords("list");
    }
    if (needs.some((part) => valueIn(after, part) === "")) {
        return whyWords("owner", {tool});
    }
    const all = sidsIn(after);
    if ((numbers || by === "steps" || by === "bytes" || by === "grant") &&
        all.some((sid) => sid.startsWith(STAND_IN))) {
        return whyWords("domain", {tool});
    }
    return numbers && all.some((sid) => /^S-1-0x/i.test(sid)) ? whyWords("sid", {tool}) : null;
}

// What a tool leaves out of what was changed.
function leftOut({sets, by, sorts}, kind, before, after, changed) {
    const inherited = ({aces}) => aces.filter(({flags}) => flags.includes("ID")).map(aceText).join("");
    const own = ({aces}) => aces.filter(({flags}) => !flags.includes("ID")).map(aceText);
    const hasParent = isDirectory(kind) || tableOf(kind).inherits !== "";
    const isWrittenAnew = by === "sections" && hasParent && changed.includes("dacl");
    const isInheritedLost =
        isWrittenAnew && (after.isProtected ? inherited(after) !== "" : inherited(after) !== inherited(before));
    const keptOf = (one, other) => {
        const texts = new Set(own(other));
        return [...new Set(own(one))].filter((text) => texts.has(text)).join();
    };
    const isMoved = sorts && keptOf(before, after) !== keptOf(after, before);
    // An owner or a group that is gone is set by none that leaves the rest as it is.
    const isUnset = (part) =>
        valueIn(after, part) === "" && (!by || (by !== "whole" && by !== "bytes" && part !== "sacl"));
    const parts = [
        ...changed.filter((part) => !sets.includes(part) || isUnset(part)), ...(isInheritedLost ? ["inherited"] : []),
        ...(isMoved ? ["order"] : [])
    ];
    return parts.map((part) => valueIn(WORDS.setCommands.parts, part));
}

// The one ACE that was added, in words of dsacls, or null: it knows attributes and classes by their names, and rights
// by those that Windows shows.
function grantOf(before, after) {
    const known = before.aces.map(aceText);
    const added = before.isProtected === after.isProtected ? [...after.aces] : [];
    for (const text of known) {
        const at = added.findIndex((ace) => aceText(ace) === text);
        if (at < 0) {
            return null;
        }
        added.splice(at, 1);
    }
    if (added.length !== 1 || !ALLOWS.includes(added[0].kind)) {
        return null;
    }
    const [{flags, mask, object, inherited, sid}] = added;
    const letters = OF_DSACLS.filter(([bit]) => (mask & bit) !== 0);
    const heirs = HEIRS_OF_DSACLS.get(flags.join(""));
    const shownOf = ({type, name}) => (["attribute", "class"].includes(type) ? name : valueIn(SHOWN, name));
    const nameOf = (guid, bits) => (guid ? guidNames(guid, bits).map(shownOf).find(Boolean) : "");
    const names = [nameOf(object, mask), nameOf(inherited, undefined)];
    const isWhole = letters.reduce((all, [bit]) => (all | bit) >>> 0, 0) === mask;
    if (heirs === undefined || !isWhole || names.includes(undefined)) {
        return null;
    }
    const words = [letters.map(([, letter]) => letter).join(""), ...names];
    return [heirs + "/G", `${sid}:${words.join(";").replace(/(?<!;);+$/, "")}`];
}

// The steps of a tool that makes one of each change: {steps, leftOut}, or {why}, or null.
function stepsFor({by}, kind, before, after, changed) {
    if (by === "grant") {
        const step = changed.includes("dacl") && grantOf(before, after);
        return step ? {steps: [step], done: []} : null;
    }
    const isFolder = kind === "folder";
    const found = changed.includes("dacl") ? stepsBetween(before, after, isFolder) : {steps: []};
    if (found.why) {
        return {why: whyWords(found.why)};
    }
    const label = changed.includes("label") ? stepOfLabel(after.labels, isFolder) : null;
    const owner = changed.includes("owner") && after.sids.owner ? ["/setowner", `*${after.sids.owner}`] : null;
    const steps = [...found.steps, label, owner].filter(Boolean);
    return steps.length ? {steps, done: label ? ["label"] : []} : null;
}

// The text of a form with its words in quotation marks.
function filled(form, quoted, values) {
    return form.trim().replace(/\{([^{}]*?)(name|sddl|hex|sections|audit|step|directory|key)\}/g, (_, front, place) => {
        const value = valueIn(values, place);
        return place === "audit" || place === "step" ? value : quoted(front + value);
    });
}

function rowOf(command, kind, given, before, after, changed) {
    const {tool, shell, form, sets, by, native} = command;
    const row = (more) => ({tool, shell, text: "", leavesOut: [], notes: [], why: "", ...more});
    const {name, key, directory} = namesOf(command, kind, given);
    const why = whyNotName(command, `${name ?? ""}`) ?? whyNotName({...command, native: false}, directory ?? "") ??
        whyNotParts(command, before, after, changed);
    if (why) {
        return row({why});
    }
    const isBySteps = by === "steps" || by === "grant";
    const found = isBySteps ? stepsFor(command, kind, before, after, changed) : {steps: [[]], done: []};
    if (!found || found.why) {
        return found && row({why: found.why});
    }
    const isPart = by === "sections";
    const isGone = (part) => (part === "owner" || part === "group") && valueIn(after, part) === "";
    const parts = sets.filter((part) => part !== "label" && (!isPart || (changed.includes(part) && !isGone(part))));
    if (isPart && !parts.length) {
        return null;
    }
    const {setCommands: words} = WORDS;
    const shown = name ?? command.name;
    const quoted = shell === "posix" ? posixQuoted : (text) => powershellQuoted(text, native);
    const texts = found.steps.map(([step, word]) => filled(form, quoted, {
        name: shown,
        directory,
        key: key ?? "HKLM\\SOFTWARE\\Classes\\AppID\\<APPID>",
        sddl: sddlOf(after, parts, command.numbers) || "S:",
        hex: after.hex,
        sections: parts.map((part) => valueIn(SECTIONS, part)).join(", "),
        audit: parts.includes("sacl") ? " -Audit" : "",
        step: word === undefined ? step : `${step} ${powershellQuoted(word, true)}`
    }));
    const missing = [
        name === null ? command.name : null, key === null ? "<APPID>" : null,
        name === null && directory ? "//<SERVER>/<SHARE>" : null
    ].filter(Boolean);
    const notes = [
        ...missing.map((one) => say(words.replace, {name: one})),
        ...(isPart && parts.includes("sacl") ? [words.privilege] : []),
        ...(isPart && before.isProtected && !after.isProtected ? [words.inherits] : []),
        ...(by === "whole" && kind !== "share" ? [words.posix] : [])
    ];
    const left = changed.filter((part) => !found.done.includes(part));
    return row({text: texts.join("\n"), leavesOut: leftOut(command, kind, before, after, left), notes});
}

/**
 * The commands that make a descriptor another one: {tool, shell, text, leavesOut, notes, why}. Without a text WHY says
 * in a sentence why there is none. LEAVESOUT are words for what the command leaves out, NOTES sentences.
 */
export function commandsFor(kind, name, before, after) {
    const changed = [...PARTS, "label"].filter((part) => valueIn(before, part) !== valueIn(after, part));
    if (!changed.length) {
        return [];
    }
    const commands = COMMANDS.filter(({kinds}) => kinds.includes(kind));
    if (!commands.length) {
        return [{tool: "", shell: "", text: "", leavesOut: [], notes: [], why: WORDS.setCommands.none}];
    }
    return commands.filter((command) => isForName(command, name))
        .map((command) => rowOf(command, kind, name, before, after, changed))
        .filter(Boolean);
}
