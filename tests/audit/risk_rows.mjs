// Asks the page's desk what stands out in rows of windows/examples.toml, which come as JSON, by each door that a user
// has. For each row it prints what the page warns of: {paste, link, report}, lists of {rule, who, level, mask, whole,
// numbers, kind, onlyOf, exceptOf}. A row with an entry of LDIF is pasted as that, and opened by a link that has its
// class. Another row is pasted as SDDL, with its kind chosen. Each is opened in the report of sdtool-audit that is
// given, if it has the object. Its argument is the library, sdtool.mjs beside its sdtool.wasm.
import {addressOf, takeAddress} from "../../web/address.mjs";
import {questionOf} from "../../web/desk.mjs";
import {Report} from "../../web/report.mjs";
import {freshState} from "../../web/state.mjs";
import {asked, library, print} from "../shared/page.mjs";

const {rows, report} = asked;

function told(state) {
    const {warnings, asksKind, fault} = questionOf(library, "look", {...freshState(), ...state});
    return warnings === undefined ?
        [{rule: `unknown: ${asksKind ?? fault?.number}`}] :
        warnings.split("\n").filter(Boolean).map((line) => JSON.parse(line)).filter(({rule}) => rule);
}

function linked(state) {
    const taken = freshState();
    const unread = takeAddress(taken, addressOf({...freshState(), ...state}, freshState()));
    return unread.length ? [{rule: `unread: ${unread}`}] : told(taken);
}

const chosen = ({kind, sddl, domain}) => ({text: sddl, kind, isKindChosen: true, domain});

const ofReport = ({descriptor, form, kind, classes, name}) =>
    told({text: descriptor, form, kind, isKindChosen: true, classes: classes.join(","), name});

const read = new Report(report);
await read.read(() => {});
const objects = new Map(read.objects.map((one) => read.object(one)).map((object) => [object.name, object]));

print(rows.map((row) => ({
    paste: told(row.entry ? {text: row.entry, domain: row.domain} : chosen(row)),
    link: linked({...chosen(row), classes: row.place}),
    ...(objects.has(row.name) ? {report: ofReport(objects.get(row.name))} : {})
})));
