// A page on paper: what stands above the answers there, and what is folded on a screen.
import {byId, make, show} from "./dom.mjs";
import {shownName, visible} from "./naming.mjs";
import {valueIn} from "./tables.mjs";
import {openFold} from "./text_view.mjs";
import {formatted, say, WORDS} from "./words.mjs";

const MOST_TEXT = 3000; // characters of a descriptor
const MOST_ROWS = 2000; // of all tables

// Of what the answers are: the name, the kind, and options that differ from those of a new page, each in a line of its
// own, so that no name passes for an option.
function optionLines(result, {domain, object, classes, common}, kind) {
    const {kinds, kindLabel, domainLabel, objectLabel, classesLabel, print} = WORDS;
    const options = [
        [print.name, shownName(result.entry?.name ?? "")], [kindLabel, valueIn(kinds, kind) ?? ""],
        [domainLabel, domain], [objectLabel, object], [classesLabel, classes]
    ];
    const told = options.filter(([, value]) => value).map(([name,
        value]) => make("p", {}, `${name}: `, make("bdi", {}, visible(value))));
    return [...told, ...(common ? [] : [make("p", {}, print.alone)])];
}

export function showPrintHead(result, state, kind, version) {
    const {line = ""} = result;
    const text = visible(line.slice(0, MOST_TEXT));
    const date = new Date().toLocaleDateString(WORDS.language);
    show(byId("print-head"), make("h1", {}, WORDS.print.heading), make("p", {}, say(WORDS.print.made, {version, date})),
        optionLines(result, state, kind),
        make("p", {}, `${WORDS.print.text}: `,
            make("code", {},
                line.length > MOST_TEXT ? say(WORDS.addressLong, {text, count: formatted(line.length)}) : text)));
}

// Opens what is folded or not yet shown, as far as there is paper for it. How much is left stands at each list.
export function unfold() {
    const focused = document.activeElement;
    /** @type {(css: string) => any[]} */
    const shown =
        (css) => [...document.querySelectorAll(css)].filter((element) => !element.closest("[hidden]:not(#lines)"));
    const next = () => shown("#page .more button, #page tr.fold button")[0];
    while (next() && document.querySelectorAll("#page tr, #page li").length < MOST_ROWS) {
        const fold = next().closest("tr.fold");
        if (fold) {
            openFold(fold);
        } else {
            next().click();
        }
    }
    const closed = shown("#page details:not([open], #more-options)");
    closed.forEach((one) => { one.open = true; });
    window.addEventListener("afterprint", () => closed.forEach((one) => { one.open = false; }), {once: true});
    /** @type {HTMLElement} */ (focused)?.focus();
}
