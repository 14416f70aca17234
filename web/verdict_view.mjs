// The first line of the page: a sign, a sentence about who can change the object, what is behind it, and the kind of
// object, which can be chosen there.
import {button, byId, make, select, show} from "./dom.mjs";
import {acesIn, reasonsOf, sentenceOf} from "./sentences.mjs";
import {valueIn} from "./tables.mjs";
import {say, WORDS} from "./words.mjs";

const GRAVE = ["act", "look", "named"];
const MOST_CHIPS = 5; // kinds that are likely; the list has all

// A line for a verdict, whose ids begin so, and controls behind it.
export const verdictLine =
    (front, ...chips) => [make("span", {id: `${front}sign`, class: "sign", "aria-hidden": "true"}),
        make("div", {class: "said"}, make("h2", {id: `${front}sentence`}), make("p", {id: `${front}sentence-why`})),
        make("div", {class: "chips"}, chips)];

export const makeVerdict = (kind, setKind) => verdictLine("", make("span", {id: "chips"}),
    select("kind", {"": WORDS.kindOpen, ...WORDS.kinds}, kind, setKind,
        {"aria-label": WORDS.kindLabel, title: WORDS.kindHint}));

// The button that takes the ACEs of a verdict away, or nothing: each of them would have to be one that can go.
export const takeButton = ({verdict, numbers = []}, onTake, id) => GRAVE.includes(verdict) && numbers.length > 0 &&
    button(say(WORDS.edit.take, {aces: acesIn(numbers, WORDS.verdict.ace, WORDS.verdict.aces)}), () => onTake(numbers),
        {class: "chip", id});

// Shows a verdict, and gives what a screen reader says of it.
export function showSentence(verdict, sentence, reasons = [], front = "") {
    const {verdict: words} = WORDS;
    const word = valueIn(words.words, verdict);
    byId(`${front}first`).dataset.verdict = verdict;
    byId(`${front}sign`).textContent = valueIn(words.signs, verdict);
    byId(`${front}sentence`).replaceChildren(make("span", {class: "unseen"}, `${word} `), make("span", {}, sentence));
    byId(`${front}sentence-why`).textContent = reasons.join(" ");
    byId(`${front}first`).hidden = false;
    return `${word} ${[sentence.replace(/\.$/, ""), ...reasons].join(". ").replace(/\.\. /g, ". ")}`;
}

// Shows why there is no verdict, in the place of an older one.
export function showUnknown(why) {
    show(byId("chips"));
    showSentence("unknown", why);
}

// Shows the verdict of an answer, and gives what a screen reader says of it.
export function showVerdict(result, {names, onKind, onTake}) {
    const {judged, asksKind, kinds = []} = result;
    const chips =
        kinds.slice(0, MOST_CHIPS)
            .map((kind) => [button(valueIn(WORDS.kinds, kind), () => onKind(kind), {class: "chip", "data-kind": kind}),
                     " "]);
    show(byId("chips"), asksKind ? chips : result.model && result.found === 1 && takeButton(judged, onTake, "take"));
    return showSentence(judged.verdict, sentenceOf(judged, names, result), reasonsOf(judged, names, result));
}
