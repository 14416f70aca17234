// Whether what a place shows is an answer to the newest question: if not it is hidden, and an answer that is still to
// come isn't shown.
import {byId, show} from "./dom.mjs";
import {hush, speak} from "./speech.mjs";

const OLDER = "older";
const PARTLY = "partly-older"; // an edit, whose controls keep the focus while the next step is asked about

export const ANSWERED = ["ask", "inherit", "compare", "edit"]; // views that ask a question of their own

// What else is shown of a text.
const OF_TEXT = ["found", "print-head", "first", "text-name", "lines", "ace-words"];

// Where the answer of a view is shown.
export const placeOf = (view) => byId(view === "look" ? "view-look" : `${view}-result`);

export class Turns {
    constructor() { this.newest = new Map(); }

    // Begins a turn of these views: what they show is older than the question.
    begin(views) {
        const turn = {isOver: (view) => this.newest.get(view) !== turn};
        for (const view of views) {
            this.newest.set(view, turn);
            placeOf(view).classList.add(view === "edit" && views.length === 1 ? PARTLY : OLDER);
        }
        if (views.includes("ask")) {
            show(byId("ask-all"));
        }
        if (views.includes("look")) {
            OF_TEXT.forEach((id) => byId(id).classList.add(OLDER));
            hush();
        }
        return turn;
    }

    // Shows something in the place of a view, as the newest there is.
    show(view, ...children) {
        show(placeOf(view), ...children);
        this.isNew(view);
    }

    isNew(view) {
        placeOf(view).classList.remove(OLDER, PARTLY);
        byId("view-look").hidden = document.body.dataset.view !== "look";
    }

    // Says what is known of a text.
    tell(text, spoken = text) {
        byId("found").textContent = text;
        OF_TEXT.forEach((id) => byId(id).classList.remove(OLDER));
        speak(spoken);
    }

    // Says something while older answers stay hidden.
    tellBusy(text) {
        byId("found").textContent = text;
        byId("found").classList.remove(OLDER);
        speak(text);
    }
}
