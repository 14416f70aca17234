// What goes to the clipboard: a text, a link or a command.
import {addressOf} from "./address.mjs";
import {commandLine, whyNoCommand} from "./command.mjs";
import {area, button, byId, make, show} from "./dom.mjs";
import {markdownOf} from "./markdown.mjs";
import {faultInWords} from "./naming.mjs";
import {freshState} from "./state.mjs";
import {ANSWERED} from "./turns.mjs";
import {formatted, say, WORDS} from "./words.mjs";
import {errorInWords} from "./worker.mjs";

const MOST_COPIED = 200_000; // characters that are shown at once of what is copied

const status = (text) => make("p", {role: "status"}, text);

// Copies a text, and shows it in a place, unless that has something newer by then.
export async function copy(text, what, place = byId("copied")) {
    const told = status("");
    show(byId("copied"));
    show(place, told);
    let said = say(WORDS.copied, {what});
    try {
        await navigator.clipboard.writeText(text);
    } catch {
        said = WORDS.copyFailed;
    }
    if (!told.isConnected) {
        return;
    }
    told.textContent = said;
    const showText = () => {
        const field =
            area("copied-text", text, () => {}, {class: "descriptor", rows: 2, readonly: true, "aria-label": what});
        more.replaceWith(field);
        field.focus();
        field.select();
    };
    const more = button(say(WORDS.showCopied, {count: formatted(text.length)}), showText, {id: "copied-all"});
    place.append(more);
    if (text.length <= MOST_COPIED) {
        showText();
    }
}

// Why the page has no answer to copy: it is still to come, it was stopped, or there is nothing to answer.
const whyNoAnswer = (result) => (!result ? WORDS.busy :
        result.error                     ? errorInWords(result.error) :
        result.domainFault               ? say(WORDS.domainFault, {fault: faultInWords(result.domainFault)}) :
        result.isEmpty                   ? WORDS.waiting :
                                           null);

// What the page shows of an answer as Markdown.
export function copyMarkdown(result, context) {
    const why = whyNoAnswer(result);
    return why ? show(byId("copied"), status(why)) : copy(markdownOf(result, context), WORDS.share.markdown);
}

export const copyText = (state, result) => copy(result?.sddl ?? state.text, WORDS.share.text);

// Nothing else writes into the address, and so into the history of a browser.
export function copyLink(state) {
    const text = addressOf(state, freshState());
    if (text === null) {
        show(byId("copied"), status(WORDS.linkTooLong));
        return;
    }
    try {
        history.replaceState(null, "", `#${text}`);
    } catch {
        // A browser that allows no address here still copies the link.
    }
    copy(`${location.href.split("#")[0]}#${text}`, WORDS.linkWarning);
}

// ASKED is the answer of the view that is open, if it asks a question of its own.
export function copyCommand(state, {result, asked, isKindShown}) {
    const isAsking = ANSWERED.includes(state.view);
    const why = whyNoAnswer(result) ?? (isAsking ? whyNoAnswer(asked) : null) ??
        whyNoCommand(state.view, isKindShown, asked ?? {});
    if (why) {
        show(byId("copied"), status(why));
        return;
    }
    copy(commandLine(state, result, asked), WORDS.share.command);
}
