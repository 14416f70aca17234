/**
 * Windows security descriptors and SDDL. Descriptors and SIDs are bytes, as in the binary form of MS-DTYP.
 *
 * A call reads its arguments once, from left to right, and copies bytes when it reads them. Options, parts and ACEs are
 * objects whose names are read along their prototypes, but for Object.prototype; names with getters are read last. An
 * unknown name, inherited and hidden ones too, is refused, and so is an array that has other names than numbers. Empty
 * bytes are no SID, no GUID and no creator's descriptor: undefined says that there is none.
 */

/** The part of a descriptor that a fault is about. */
export type Part = "owner"|"group"|"sacl"|"dacl";

/** The kind of object whose rights the generic rights stand for. */
export type Mapping = "file"|"key"|"ds";

/** A SID in binary, or its text: S-1- and numbers, or an alias such as BA. */
export type SidLike = Uint8Array|string;

/** Where a fault is. */
export interface Place {
    readonly part: Part|null;
    /** The place of the ACE in its part, from 0. */
    readonly ace: number|null;
    readonly field: "kind"|"flags"|"rights"|"object type"|"inherited object type"|"sid"|"size"|null;
    /**
     * In what was given, the fault is in the `size` bytes, or code units of a text, from here on: none where something
     * is missing.
     */
    readonly offset: number;
    readonly size: number;
}

/** An input that has no answer. The message ends with the place, where ACEs count from 1 and bytes of UTF-8 from 0. */
export class Fault extends Error {
    constructor(number: number, name: string, part?: Part|null, otherPart?: Part|null, argument?: string|null,
        entry?: number|null, place?: Place|null, given?: Uint8Array|string|null, meaning?: string);
    /** The error number of docs/FORMAT.md, such as 25. */
    readonly number: number;
    /** Its name, such as "sid-form". */
    readonly name: string;
    readonly part: Part|null;
    /** The second part of fault 14, two parts that overlap. */
    readonly otherPart: Part|null;
    /** The argument whose text is no SID, or "changes", if that is what is wrong. */
    readonly argument: string|null;
    /** Which entry of that argument, if it is a list. */
    readonly entry: number|null;
    /** Where the fault is in the descriptor or the text that was given. */
    readonly place: Place|null;
    /** What the program prints in place of an answer, such as "error 9 sid owner". */
    readonly line: string;
    /** The same in words, such as "any other text that is not a SID". */
    readonly meaning: string;
    /**
     * Two lines: at most 72 characters of the text around the place, or digits of the bytes, and carets below it. It is
     * empty without a place.
     */
    excerpt(): string;
}

/** An argument that the call does not take, such as a domain that is no SID. It says nothing about the descriptor. */
export class ArgumentFault extends Error {
    constructor(problem: string, argument?: string|null, entry?: number|null, cause?: unknown);
    /** What a getter or a proxy of the caller's threw while it was read, if that is why. */
    readonly cause?: unknown;
    readonly number: 70;
    readonly name: "ArgumentFault";
    /** Its name, such as "sids", or the name of an option. */
    readonly argument: string|null;
    /** Which entry of it is wrong, if it is a list. */
    readonly entry: number|null;
}

export interface DomainOptions {
    /** A SID whose aliases, such as DA, are read or printed. */
    domain?: SidLike;
}

export interface TextOptions extends DomainOptions {
    /** Prints no aliases. */
    numeric?: boolean;
}

export interface TokenOptions {
    /** SIDs of the token that count only for ACEs that deny. */
    denyOnly?: readonly SidLike[];
}

/** A token that was read. It may be copied, and is for the same version of this library alone. */
export type Token = Uint8Array;

/** Who asks, beside the SIDs. */
export interface AskerOptions {
    mapping?: Mapping;
    /** The integrity level of the token, such as 8192 for medium. */
    level?: number|null;
    /** The 16 bytes of the GUID of an object type, as in an ACE. */
    objectType?: Uint8Array;
    /** The SID that PRINCIPAL SELF stands for. */
    principalSelf?: SidLike;
    /** The token has SeSecurityPrivilege. */
    security?: boolean;
    /** The token has SeTakeOwnershipPrivilege. */
    takeOwnership?: boolean;
}

/** What a check asks for. */
export interface RequestOptions extends AskerOptions {
    /** The rights that are wanted, an access mask from 0 to 0xffffffff. It may be 0 with `maximum`. */
    wanted?: number;
    /** Asks also for each right that is granted. */
    maximum?: boolean;
}

export interface CheckOptions extends TokenOptions, RequestOptions {}

export interface ReasonsOptions extends TokenOptions, AskerOptions {}

export interface DeriveOptions {
    kind?: "file"|"container";
    /** The descriptor that the creator brings. */
    creator?: Uint8Array;
    mapping?: Mapping;
}

/** The answer of an access check. */
export interface Verdict {
    /** Whether each wanted right is granted. */
    granted: boolean;
    /** The granted rights; without `granted`, the wanted rights that are missing. */
    mask: number;
}

/** Why a right is granted or denied. */
export interface Reason {
    /**
     * "no-dacl", "owner", "privilege" and "granted" grant the right; of the others nothing does, or the label or an
     * ACE denies it.
     */
    kind: "nothing"|"label"|"no-dacl"|"owner"|"privilege"|"granted"|"denied";
    /** The place of the ACE in the DACL, or with "label" in the SACL, from 0; or null. */
    place: number|null;
    ace: Ace|null;
}

/** Where an ACE of a derived descriptor comes from. */
export interface Origin {
    /** The ACE that it was made of is the creator's; else it is the folder's. */
    fromCreator: boolean;
    /** The place of that ACE in its ACL, from 0. */
    place: number;
    /** It is the copy for what is made in the new object. */
    inheritOnly: boolean;
    /** The ACE that it was made of. */
    ace: Ace;
}

/** An ACE to build. */
export interface NewAce {
    /** The type byte: 0 allow, 1 deny, 2 audit, 5 to 7 the same with object types, 0x11 mandatory label. */
    kind: number;
    /** The flags of inheritance and audit. */
    flags: number;
    /** The access mask. */
    mask: number;
    /** The SID of the trustee. */
    sid: SidLike;
    /** The 16 bytes of a GUID, as in an ACE. Only types 5 to 7 may have one. */
    objectType?: Uint8Array|null;
    inheritedObjectType?: Uint8Array|null;
}

/** An ACE of a descriptor. */
export interface Ace extends NewAce {
    sid: Uint8Array;
    objectType: Uint8Array|null;
    inheritedObjectType: Uint8Array|null;
}

/** An ACL. An absent DACL and a null DACL both grant everything, and have no ACEs; an empty list grants nothing. */
export type AclOf<OneAce> = {
    state: "absent"
}|{state: "null"}|{
    state: "list";
    aces: readonly OneAce[]
};
export type Acl = AclOf<Ace>;

/** What is in a descriptor. `build` makes the descriptor of it again. */
export interface Parts {
    /** The control word (MS-DTYP 2.4.6). */
    control: number;
    /** The resource manager byte. */
    resourceManager: number;
    owner: Uint8Array|null;
    group: Uint8Array|null;
    sacl: Acl;
    dacl: Acl;
}

/** A descriptor to build. */
export interface NewParts {
    /** The bits that say which parts there are follow from the parts. */
    control?: number;
    resourceManager?: number;
    owner?: SidLike|null;
    group?: SidLike|null;
    /** Absent unless it is named; an array is a list. One that is named and undefined is refused. */
    sacl?: AclOf<NewAce>|readonly NewAce[];
    dacl?: AclOf<NewAce>|readonly NewAce[];
}

/** What is compared of an ACE, at least one thing. */
export interface Match {
    sid?: SidLike;
    kind?: number;
    mask?: number;
    /** The 16 bytes of a GUID, as in an ACE, or null if it has none. */
    objectType?: Uint8Array|null;
    inheritedObjectType?: Uint8Array|null;
    /** The flags that it has among those of `flagsMask`. */
    flags?: number;
    flagsMask?: number;
}

/** What an ACE gets. No bit is both set and cleared. */
export interface Setting {
    sid?: SidLike;
    setMask?: number;
    clearMask?: number;
    setFlags?: number;
    clearFlags?: number;
}

export type AclName = "sacl"|"dacl";

/** A change, as in `struct sdtool_change` of the header. */
export type Change = {
    change: "put"; acl: AclName;
    /** "order" is behind the last ACE of no higher rank. */
    place: number | "end" | "order";
    ace: NewAce
}|{
    change: "take";
    acl: AclName;
    place: number
}
|{
    change: "replace";
    acl: AclName;
    place: number;
    ace: NewAce
}
|{
    change: "takeEach";
    acl: AclName;
    match: Match
}
|{
    change: "setEach";
    acl: AclName;
    match: Match;
    setting: Setting
}
|{
    change: "order";
    acl: AclName
}
|{
    change: "state";
    acl: AclName;
    state: Acl["state"]
}
|{
    change: "owner"|"group";
    sid: SidLike|null
}
|{
    change: "control";
    setControl?: number;
    clearControl?: number
};

/** A descriptor after changes, and how many ACEs each of them put, took or set. */
export interface Edited {
    descriptor: Uint8Array;
    touched: number[];
}

/** What a run prints. */
export interface Answers {
    /** The exit status of the program: 0, 1 if at least one answer is an error line, or 2 if the words are wrong. */
    status: 0|1|2;
    /** What the program prints to standard output. */
    output: Uint8Array;
    /** What it prints to standard error. */
    message: string;
}

/** The library. Calls throw Fault, ArgumentFault, or RangeError where there is no memory. */
export interface Sdtool {
    /** The version, such as "0.1.0". */
    version(): string;
    /** A descriptor as SDDL. */
    toSddl(descriptor: Uint8Array, options?: TextOptions): string;
    /** The descriptor that SDDL describes, in its canonical layout. */
    fromSddl(text: string, options?: DomainOptions): Uint8Array;
    /** The canonical layout of a descriptor: equal exactly for descriptors of the same content. */
    normalize(descriptor: Uint8Array): Uint8Array;
    /** A descriptor as lines of text. */
    explain(descriptor: Uint8Array, options?: TextOptions): string;
    /**
     * Whether a descriptor grants a token of these SIDs, at most 1,024 with those that only deny, what is asked for.
     */
    check(descriptor: Uint8Array, sids: readonly SidLike[], options?: CheckOptions): Verdict;
    /** A token of these SIDs, as for check, to be read once for any number of checks. */
    readToken(sids: readonly SidLike[], options?: TokenOptions): Token;
    /** The verdict of check, for a token that was read. */
    checkWith(descriptor: Uint8Array, token: Token, options?: RequestOptions): Verdict;
    /** Why the token has each of the rights 0 to 24 or not, by its place in a mask. The options are those of check. */
    reasons(descriptor: Uint8Array, sids: readonly SidLike[], options?: ReasonsOptions): Reason[];
    /** The reasons, for a token that was read. */
    reasonsWith(descriptor: Uint8Array, token: Token, options?: AskerOptions): Reason[];
    /**
     * The verdict on each descriptor, in order, and for one that has none its Fault. The token is read once for many
     * of them.
     */
    checkMany(descriptors: readonly Uint8Array[], sids: readonly SidLike[], options?: CheckOptions): (Verdict|Fault)[];
    /** The descriptor of a new object in a folder that has the descriptor `parent`, in its canonical layout. */
    derive(parent: Uint8Array, owner: SidLike, group: SidLike, options?: DeriveOptions): Uint8Array;
    /** Where each ACE of that descriptor comes from, in their order. An ACL that is null or absent has no ACEs. */
    origins(
        parent: Uint8Array, owner: SidLike, group: SidLike, options?: DeriveOptions): {sacl: Origin[]; dacl: Origin[]};
    /** The SID that a text names: an alias such as BA, or S-1- and numbers. */
    sidFromText(text: string, options?: DomainOptions): Uint8Array;
    /** The text of a SID: its alias if it has one and `numeric` is not set, and else its numbers. */
    sidToText(sid: Uint8Array, options?: TextOptions): string;
    /** How many bytes the SID at the front of some bytes has. It is 0 if they begin with no SID. */
    sidSize(bytes: Uint8Array): number;
    /** The bytes of an ACE from its text in SDDL. A text that is not one ACE alone is fault 20. */
    aceFromText(text: string, options?: DomainOptions): Uint8Array;
    /** The text in SDDL of the bytes of an ACE. */
    aceToText(ace: Uint8Array, options?: TextOptions): string;
    /** The ACE at the front of some bytes, and how many bytes it has. */
    aceRead(bytes: Uint8Array): {ace: Ace; size: number};
    /** The access mask that the rights of an ACE mean in SDDL. */
    rightsFromText(text: string): number;
    /** The rights of an ACE in SDDL: of a mandatory label, or of any other kind. */
    rightsToText(mask: number, options?: {label?: boolean}): string;
    /** The flags of an ACE that a text means in SDDL. */
    flagsFromText(text: string): number;
    flagsToText(flags: number): string;
    /** The 16 bytes of a GUID, as they stand in an ACE. */
    guidFromText(text: string): Uint8Array;
    guidToText(guid: Uint8Array): string;
    /** What is in a descriptor. */
    parts(descriptor: Uint8Array): Parts;
    /** The ACEs of an ACL in binary. */
    aces(acl: Uint8Array): Ace[];
    /** The descriptor with these parts, in its canonical layout. */
    build(parts: NewParts): Uint8Array;
    /**
     * The descriptor after changes that are made one after the other, in its canonical layout. The Fault of a change
     * that can't be made has its number in `entry`.
     */
    edit(descriptor: Uint8Array, changes: readonly Change[]): Edited;
    /** In each ACL the place of the first ACE whose rank is below that of the one before, or null. */
    order(descriptor: Uint8Array): {sacl: number|null; dacl: number | null};
    /** What the program prints to an input, one descriptor a line. `words` are those of the command line. */
    run(words: readonly string[], input: Uint8Array): Answers;
    /** The name of a fault, such as "sid-form" for 25. */
    faultText(number: number): string;
}

/** Whether this engine has WebAssembly's vectors (SIMD), without which load rejects. */
export function hasVectors(): boolean;

/** Loads the library: from sdtool.wasm beside the module, or from its bytes, a URL or a compiled module. */
export function load(source?: BufferSource|URL|string|WebAssembly.Module): Promise<Sdtool>;
