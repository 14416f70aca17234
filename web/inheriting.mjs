// What a new file or folder gets, and where each of its ACEs comes from: the answers of derive and of origins.
import {modelOf} from "./library.mjs";

const LEVELS_BELOW = 2;

// Of whose ACE each one of a list was made, and the number of that.
const sourcesOf = (origins) =>
    origins.map(({fromCreator, place}) => ({who: fromCreator ? "creator" : "parent", number: place + 1}));

function objectOf(library, parent, {owner, group, mapping, printing}, kind, creator) {
    const options = creator ? {kind, mapping, creator} : {kind, mapping};
    const descriptor = library.derive(parent, owner, group, options);
    const {dacl, sacl} = library.origins(parent, owner, group, options);
    return {
        kind,
        descriptor,
        sources: {dacl: sourcesOf(dacl), sacl: sourcesOf(sacl)},
        sddl: library.toSddl(descriptor, printing),
        model: modelOf(library, descriptor, printing),
    };
}

function below(library, parent, asked, levels) {
    if (levels === 0) {
        return [];
    }
    return asked.heirs.map((kind) => {
        const object = objectOf(library, parent, asked, kind, null);
        return {...object, children: kind === "file" ? [] : below(library, object.descriptor, asked, levels - 1)};
    });
}

// The new object, and for a folder the two levels below it, which their own folders alone make.
export function inherit(library, {parent, creator, kind, owner, group, mapping, printing, heirs}) {
    const asked = {owner, group, mapping, printing, heirs};
    const object = objectOf(library, parent, asked, kind, creator);
    return {...object, children: kind === "file" ? [] : below(library, object.descriptor, asked, LEVELS_BELOW)};
}
