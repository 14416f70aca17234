// The readers of the page, each as a function of a text.
import {readToken} from "../../../web/tokens.mjs";
import {descriptorsIn} from "../../../web/clipboard.mjs";
import {placeOf, rangeIn} from "../../../web/faults.mjs";
import {listingsIn} from "../../../web/icacls.mjs";
import {kindIn} from "../../../web/kinds.mjs";
import {namesIn} from "../../../web/name_lists.mjs";
import {namesOfReport, visible} from "../../../web/naming.mjs";
import {Report} from "../../../web/report.mjs";
import {writtenAces} from "../../../web/scanning.mjs";
import {addressOf, takeAddress} from "../../../web/address.mjs";
import {commandLine} from "../../../web/command.mjs";
import {freshState} from "../../../web/state.mjs";

const MOST_OF_FIELD = 20_000; // characters that a field of the page takes
const ENCODER = new TextEncoder();
// A library that refuses everything: it is the page's own part that is measured.
const REFUSING = {
    run: () => ({status: 1, output: ENCODER.encode("error 25 sid-form\n"), message: ""}),
    sidFromText:
        () => { throw Object.assign(new Error("error 25 sid-form"), {number: 25, part: null, otherPart: null}); }
};
// One that takes each text for a SID. The page keeps what it was told by each library.
const accepting = () =>
    ({sidFromText: (text) => ENCODER.encode(text), sidToText: (bytes) => new TextDecoder().decode(bytes)});
const faultIn = (number, {length}) =>
    ({number, part: null, place: {part: "dacl", ace: 0, field: "kind", offset: length - 1, size: 1}});

export const READERS = {
    "descriptors of a text": (text) => descriptorsIn(text, "auto"),
    "a text as SDDL": (text) => descriptorsIn(text, "sddl"),
    "a text as hex": (text) => descriptorsIn(text, "hex"),
    "a listing": (text) => listingsIn(text),
    "the kind of an object": (text) => kindIn(text),
    "names of SIDs": (text) => namesIn(text),
    "characters that don't show": (text) => visible(text),
    "a token": (text) => readToken(REFUSING, text, ""),
    "a token of SIDs": (text) => readToken(accepting(), text, ""),
    "a line of a report": (text) => new Report(text).take(0, text.length),
    // A row of a report takes no fewer characters.
    "names of a report": (text) => namesOfReport((text.match(/[^]{1,16}/g) ?? []).map((name) => [name, name])),
    "the place of a wrong shape": (text) => placeOf(REFUSING, "sddl", text, faultIn(20, text)),
    "what spells no hex": (text) => placeOf(REFUSING, "hex", text, {number: 2, part: null}),
    "what spells no base64": (text) => placeOf(REFUSING, "base64", text, {number: 4, part: null}),
    "a range of a text in lines": (text) => rangeIn(`x ${text.slice(0, MOST_OF_FIELD)}`,
        {text: ` "${text.slice(1, MOST_OF_FIELD)}`, start: 9, end: MOST_OF_FIELD / 2}),
    "ACEs as they are written": (text) => writtenAces(text),
    "an address": (text) => takeAddress(freshState(), text),
    "an address of a state": (text) => addressOf({...freshState(), domain: text}, freshState()),
    "a command line": (text) => commandLine({...freshState(), domain: text}, {form: "sddl", line: text}, null),
};
