// How many characters a field takes, from a key, a paste or a link: a descriptor, or a list of them; a token, or names
// of SIDs; and a SID, a GUID or names of rights.
export const MOST_TEXT = 50_000_000;
export const MOST_LIST = 400_000;
export const MOST_WORD = 1000;

/** @typedef {ReturnType<typeof freshState>} State */

// What a new page asks: the state that controls change, and that an address can have.
export const freshState = () => ({
    view: "look",
    text: "",
    form: "auto",
    kind: "folder",
    isKindChosen: false, // else the text may tell of it
    domain: "",
    object: "",
    classes: "", // of the directory object, between commas
    name: "",    // that a report has for it
    common: true,
    all: false,
    chosen: 0,
    names: "",
    ask: {
        token: "WD,AU,BU",
        rights: [],
        want: "",
        maximum: true,
        exact: false,
        level: "listed",
        self: "",
        security: false,
        takeOwnership: false
    },
    made: {kind: "container", owner: "BA", group: "SY", creator: ""},
    other: {text: "", form: "auto", chosen: 0},
    lines: {command: "convert", options: {kind: "file"}, filterToken: "WD,AU,BU"},
});
