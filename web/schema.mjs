// What GUIDs of a directory are, by the tables of windows.mjs. A GUID that is not there is shown as it is.
import {valueIn} from "./tables.mjs";
import {BITS_OF_TYPE, TYPES} from "./windows.mjs";
import {WORDS} from "./words.mjs";

const NAMES = new Map();

for (const [type, words] of Object.entries(TYPES)) {
    const all = words.split(" ");
    let end = "";
    for (let at = 0; at < all.length; at += 2) {
        if (all[at].startsWith("-")) {
            end = all[at];
            at += 1;
        }
        const guid = all[at] + end;
        NAMES.set(guid, [
            ...(NAMES.get(guid) ?? []),
            {guid, type, name: all[at + 1], typeName: valueIn(WORDS.types, type), bits: valueIn(BITS_OF_TYPE, type)}
        ]);
    }
}

// What a GUID is: a list of {name, type, typeName}. A few are a property and a validated write; the mask of an ACE says
// which of them it grants.
export function guidNames(guid, mask) {
    const all = NAMES.get(guid) ?? [];
    const meant = all.filter(({bits}) => mask === undefined || (mask & bits) !== 0);
    return meant.length ? meant : all;
}

export const knownGuids = () => [...NAMES.values()].flat();
