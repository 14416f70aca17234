// The command line with the same answer as a view, as a POSIX shell reads it.
import {faultsOf} from "./ask_view.mjs";
import {wordsOf} from "./lines_view.mjs";
import {hasOwnMapping, mappingOf, rightsOfKind} from "./meanings.mjs";
import {faultInWords} from "./naming.mjs";
import {posixQuoted} from "./quoting.mjs";
import {STAND_IN_DOMAIN} from "./subject.mjs";
import {valueIn} from "./tables.mjs";
import {MAXIMUM_ALLOWED} from "./well_known.mjs";
import {WORDS} from "./words.mjs";

const domainWords = (domain) => (domain.trim() ? ["--domain", domain.trim()] : []);
const formWords = (form) => (form === "hex" ? [] : ["--from", form]);
const typeWords = (state) => (mappingOf(state.kind) === "file" ? [] : ["--type", mappingOf(state.kind)]);

// What is wanted of a kind that the program has no mapping for: what was granted, or what was not.
const ownWanted = ({verdict, wanted}, kind) =>
    (verdict.granted ? verdict.mask : (wanted & ~MAXIMUM_ALLOWED) >>> 0 || rightsOfKind(kind));

function askWords(state, result) {
    const {ask, kind} = state;
    const isOwn = result?.verdict && hasOwnMapping(kind);
    const named = ask.rights.reduce((all, bit) => (all | bit) >>> 0, 0);
    const mask = isOwn ? ownWanted(result, kind) : named && (result?.wanted ?? named);
    const want = mask ? `0x${mask.toString(16)}` : ask.want.trim();
    const token = result?.entries?.length ? result.entries.map((entry) => entry.text).join(",") : ask.token.trim();
    const level = result?.level ?? (/^ \d+$/.test(ask.level) ? Number(ask.level) : null);
    return [
        "check",
        "--token",
        token,
        ...(want ? ["--want", want] : []),
        ...(ask.maximum && !isOwn ? ["--maximum"] : []),
        ...typeWords(state),
        ...(mappingOf(state.kind) === "ds" && state.object.trim() ? ["--object", state.object.trim()] : []),
        ...(ask.self.trim() ? ["--self", ask.self.trim()] : []),
        ...(result?.security ?? ask.security ? ["--security"] : []),
        ...(result?.takeOwnership ?? ask.takeOwnership ? ["--take-ownership"] : []),
        ...(level === null ? [] : ["--level", String(level)]),
    ];
}

const inheritWords = ({made, ...state}) => ["derive", "--kind", made.kind, "--owner", made.owner.trim(), "--group",
    made.group.trim(), ...(made.creator.trim() ? ["--creator", made.creator.trim()] : []), ...typeWords(state)];

// The words after the program's name that answer the question of a view about a descriptor, and the line that they
// read: of a kind that the program has no mapping for, the descriptor that the library was asked about.
export function commandOf(state, one, asked) {
    const words = {
        look: () => ["explain"],
        edit: () => ["explain"],
        report: () => ["explain"],
        ask: () => askWords(state, asked),
        inherit: () => inheritWords(state),
        compare: () => ["convert", "--to", "hex"]
    };
    const {form, line} = asked?.verdict && asked.line ? {form: "sddl", line: asked.line} : one;
    const domain = domainWords(one.isStandIn ? STAND_IN_DOMAIN : state.domain);
    return {words: [...valueIn(words, state.view)(), ...formWords(form), ...domain], line};
}

// Of two descriptors that are compared each has a command of its own.
export function commandLine(state, look, asked) {
    if (state.view === "lines") {
        return ["sdtool", ...wordsOf(state.lines).map(posixQuoted), "< FILE"].join(" ");
    }
    const inShell = (one) => {
        const {words, line} = commandOf(state, one, asked);
        return `printf '%s\\n' ${posixQuoted(line)} | ${["sdtool", ...words.map(posixQuoted)].join(" ")}`;
    };
    return [look, asked?.other ?? asked?.otherFault].filter(Boolean).map(inShell).join("; ");
}

// Why there is no command with the page's answer: the kind is open, or the answer tells what is wrong or unknown.
export function whyNoCommand(view, isKindShown, asked) {
    const {asksKind, descriptorFault, isMappingUnknown, hasNoHeirs} = asked;
    if (descriptorFault) {
        return faultInWords(descriptorFault);
    }
    if ((asksKind || !isKindShown) && ["ask", "inherit"].includes(view)) {
        return valueIn(WORDS.kindAsked, asksKind ?? "rights");
    }
    const {mappingUnknown, noHeirs} = WORDS.inherit;
    const all = [isMappingUnknown && mappingUnknown, hasNoHeirs && noHeirs, ...(view === "ask" ? faultsOf(asked) : [])];
    return all.find(Boolean) ?? null;
}
