// What keys and the pointer lead to: the next tab, and marks that tie ACEs to what they decide.
import {valueIn} from "./tables.mjs";

// The view of the tab that a key leads to, or undefined.
export function tabBehind(key, views, view) {
    const at = views.indexOf(view);
    const to = valueIn({ArrowRight: at + 1, ArrowLeft: at - 1, Home: 0, End: views.length - 1}, key);
    return to === undefined ? undefined : views[(to + views.length) % views.length];
}

// Marks the ACEs that something tells of, and what tells of an ACE.
export function tie(target) {
    /** @type {HTMLElement | null} */
    const about = target.closest?.("[data-aces], [data-ace]");
    document.querySelectorAll(".tied").forEach((one) => one.classList.remove("tied"));
    if (!about) {
        return;
    }
    const {ace, aces} = about.dataset;
    const numbers = (ace ?? aces).split(" ").filter(Boolean).map(Number);
    /** @type {NodeListOf<HTMLElement>} */
    const lines = document.querySelectorAll("[data-ace], tr.fold[data-list='dacl']");
    // A folded line stands for those in it.
    const isAmong = ({dataset}) => numbers.some(
        (number) => Number(dataset.from ?? dataset.ace) <= number && number <= Number(dataset.to ?? dataset.ace));
    const others = ace ? document.querySelectorAll(`[data-aces~="${ace}"]`) : [...lines].filter(isAmong);
    if (numbers.length) {
        [about, ...others].forEach((one) => one.classList.add("tied"));
    }
}
