// What sdtool.d.ts lets a program of TypeScript write, and what it refuses: each line below a `@ts-expect-error` has to
// be an error. tests/systems/systems.py compiles it; nothing runs it.
import {load, hasVectors, Acl, Ace, ArgumentFault, Edited, Fault, NewAce, Parts, Token, Verdict} from "sdtool";

async function all(): Promise<void> {
    const canLoad: boolean = hasVectors();
    const sdtool = await load(canLoad ? new URL("sdtool.wasm", "file:///") : undefined);
    const users: Uint8Array = sdtool.sidFromText("BU", {domain: "S-1-5-21-1-2-3"});
    const text: string = sdtool.sidToText(users, {domain: users, numeric: true});
    const size: number = sdtool.sidSize(users) + sdtool.rightsFromText("FA") + sdtool.flagsFromText("OI") +
        sdtool.aceRead(sdtool.aceFromText("(A;;FA;;;WD)", {domain: users})).size;
    console.log(sdtool.aceToText(users, {numeric: true}), sdtool.rightsToText(1, {label: true}), sdtool.flagsToText(1),
        sdtool.guidToText(sdtool.guidFromText("00000001-0002-0003-0405-060708090a0b")));
    const descriptor: Uint8Array = sdtool.fromSddl("D:", {domain: users});
    const verdict: Verdict =
        sdtool.check(descriptor, [users, "WD"], {denyOnly: ["BA"], wanted: 1, level: null, mapping: "ds"});
    const token: Token = sdtool.readToken([users], {denyOnly: ["BA"]});
    console.log(sdtool.checkWith(descriptor, token, {wanted: 1, level: 8192}).granted);
    console.log(sdtool.reasons(descriptor, ["BU"], {denyOnly: ["SY"]})[1].ace?.mask,
        sdtool.reasonsWith(descriptor, token)[0].kind);
    for (const one of sdtool.checkMany([descriptor], ["BU"], {maximum: true})) {
        const granted: boolean = one instanceof Fault ? false : one.granted;
        console.log(granted, verdict.mask, text, size);
    }
    const parts: Parts = sdtool.parts(descriptor);
    const dacl: Acl = parts.dacl;
    if (dacl.state === "list") {
        const first: Ace = dacl.aces[0];
        const added: NewAce = {kind: 0, flags: 0, mask: first.mask, sid: "BU", objectType: null};
        sdtool.build({...parts, dacl: [...dacl.aces, added], owner: null});
        sdtool.build({sacl: {state: "null"}, dacl: {state: "list", aces: dacl.aces}, control: parts.control});
        // @ts-expect-error an ACE of a descriptor has no text in the place of its SID
        const wrong: Ace = added;
        console.log(wrong);
    }
    sdtool.build(parts);
    const aces: Ace[] = sdtool.aces(descriptor);
    const answers = sdtool.run(["convert"], descriptor);
    const status: 0|1|2 = answers.status;
    console.log(
        aces, status, sdtool.faultText(25), sdtool.explain(descriptor, {numeric: true}), sdtool.normalize(descriptor));
    console.log(
        sdtool.derive(descriptor, "BA", users, {kind: "container", creator: descriptor}), sdtool.toSddl(descriptor));
    const edited: Edited = sdtool.edit(descriptor, [
        {change: "state", acl: "dacl", state: "list"},
        {change: "put", acl: "dacl", place: "order", ace: {kind: 0, flags: 0, mask: 1, sid: "BU"}},
        {change: "setEach", acl: "dacl", match: {sid: "BU"}, setting: {clearFlags: 0x10}}, {change: "owner", sid: null}
    ]);
    console.log(edited.descriptor, edited.touched, sdtool.order(descriptor).dacl);
    console.log(sdtool.origins(descriptor, "BA", users, {kind: "container"}).dacl[0].ace.mask);
    try {
        sdtool.version();
    } catch (fault) {
        if (fault instanceof Fault)
            console.log(fault.number, fault.part, fault.otherPart, fault.argument, fault.entry, fault.line,
                fault.place?.ace, fault.excerpt());
        if (fault instanceof ArgumentFault) console.log(fault.argument, fault.entry, fault.number);
    }
    // @ts-expect-error an ACL that may be absent has no ACEs
    parts.dacl.aces;
    // @ts-expect-error an absent ACL has no ACEs
    sdtool.build({dacl: {state: "absent", aces: []}});
    // @ts-expect-error null does not say which ACL
    sdtool.build({dacl: null});
    // @ts-expect-error an ACE without a mask
    sdtool.build({dacl: [{kind: 0, flags: 0, sid: "BU"}]});
    // @ts-expect-error no such option
    sdtool.check(descriptor, [users], {wnated: 1});
    // @ts-expect-error the token has its SIDs
    sdtool.checkWith(descriptor, token, {denyOnly: [users]});
    // @ts-expect-error no such type of objects
    sdtool.check(descriptor, [users], {mapping: "folder"});
    // @ts-expect-error one SID is no list
    sdtool.check(descriptor, users);
    // @ts-expect-error a fault has no verdict
    sdtool.checkMany([descriptor], [users])[0].granted;
    // @ts-expect-error an ACE has a place
    sdtool.edit(descriptor, [{change: "put", acl: "dacl", ace: {kind: 0, flags: 0, mask: 1, sid: "BU"}}]);
    // @ts-expect-error a text is no descriptor
    sdtool.toSddl("D:");
}
all();
