// What a screen reader says of an answer.
import {byId} from "./dom.mjs";

const MILLISECONDS = 600; // after the last key
let timer = 0;

export function speak(text) {
    clearTimeout(timer);
    timer = setTimeout(() => { byId("spoken").textContent = text; }, MILLISECONDS);
}

// What was said is older than the question.
export function hush() {
    clearTimeout(timer);
    byId("spoken").textContent = "";
}
