// The question which kind of object a descriptor is of, which each view asks where nothing tells it.
import {button, make} from "./dom.mjs";
import {valueIn} from "./tables.mjs";
import {WORDS} from "./words.mjs";

export function kindQuestion(view, {asksKind, kinds}, onKind) {
    const buttons = kinds.map(
        (kind) => make("li", {}, button(valueIn(WORDS.kinds, kind), () => onKind(kind), {"data-kind": kind})));
    return make("section", {"aria-labelledby": `${view}-kind`},
        make("h2", {id: `${view}-kind`}, WORDS.kindAskedHeading), make("p", {}, valueIn(WORDS.kindAsked, asksKind)),
        make("ul", {class: "kinds"}, buttons));
}
