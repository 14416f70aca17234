// Both ends of a worker, so that no question, however long, stops the page. A worker that needs too long for a
// question, or breaks, is ended, and another one is started. Where a browser refuses workers, the page asks the library
// itself, and then there is no limit.
import {load} from "../javascript/sdtool.mjs";

import {questionOf} from "./desk.mjs";
import {answerFile} from "./lines.mjs";
import {shownName} from "./naming.mjs";
import {say, WORDS} from "./words.mjs";

const SECONDS_TO_START = 20;
export const SECONDS_TO_ANSWER = 2;

const errorText = (error) => `${error.name}: ${error.message}`;

// The end in the worker. It has no document and no state but the library, and which file it is to answer.
export function serve(scope) {
    let library = null;
    let current = null;
    const run = (about) => {
        current = about.id;
        // The answers are moved and not copied.
        const tell = (message) => scope.postMessage(
            {...message, id: about.id}, Object.values(message).filter(ArrayBuffer.isView).map((view) => view.buffer));
        answerFile(library, about, tell, () => current !== about.id)
            .catch((error) => tell({kind: "failed", message: errorText(error)}));
    };
    scope.onmessage = async ({data}) => {
        if (data.bytes) {
            library = await load(data.bytes);
            scope.postMessage({kind: "ready"});
        } else if (data.stop) {
            current = null;
        } else if (data.file) {
            run(data);
        } else {
            scope.postMessage({id: data.id, ...answered(() => questionOf(library, data.name, data.about))});
        }
    };
}

function answered(question) {
    try {
        return {value: question()};
    } catch (error) {
        return {error: errorText(error)};
    }
}

// Where a browser knows trusted types, the page lets no text become a script but this one.
const policy = globalThis.trustedTypes?.createPolicy("worker", {createScriptURL: (url) => url});

const startWorker = (source) => {
    const url = URL.createObjectURL(new Blob([source], {type: "text/javascript"}));
    const worker = new Worker(policy ? policy.createScriptURL(url) : url, {name: "sdtool"});
    worker.addEventListener("message", () => URL.revokeObjectURL(url), {once: true});
    return worker;
};

// Waits until the worker has the library; a worker that is refused or silent is none.
const ready = (worker, bytes) => new Promise((resolve, reject) => {
    const refuse = (message) => {
        clearTimeout(timer);
        worker.terminate();
        reject(new Error(message));
    };
    const timer = setTimeout(() => refuse("the worker is silent"), 1000 * SECONDS_TO_START);
    worker.onmessage = () => {
        clearTimeout(timer);
        resolve(worker);
    };
    worker.onerror = (event) => refuse(event.message || "the worker is refused");
    worker.postMessage({bytes});
});

// A question that was stopped.
export class TooSlow extends Error {}

// Why there is no answer.
export const errorInWords = (error) =>
    (error instanceof TooSlow ? say(WORDS.tooSlow, {seconds: SECONDS_TO_ANSWER}) :
                                say(WORDS.broke, {reason: shownName(error.message)}));

// Asks one question at a time, of an end that START gives. Of each kind only the newest waits: an answer to what was
// typed before is of no use.
export class Desk {
    constructor(start, seconds = SECONDS_TO_ANSWER) {
        this.start = start;
        this.seconds = seconds;
        this.waiting = new Map();
        this.current = null;
        this.last = 0;
        this.end = null;
        this.timer = null;
    }

    ask(name, about) {
        return new Promise((resolve, reject) => {
            this.waiting.get(name)?.resolve(null);
            this.waiting.set(name, {name, about, resolve, reject});
            this.next();
        });
    }

    async next() {
        const [first] = this.waiting.values();
        if (this.current || !first) {
            return;
        }
        this.waiting.delete(first.name);
        this.last += 1;
        const current = {...first, id: this.last};
        this.current = current;
        try {
            this.end ??= this.take(await this.start());
        } catch (error) {
            this.settle(() => current.reject(error));
            return;
        }
        this.timer =
            setTimeout(() => this.breakOff(new TooSlow(`no answer in ${this.seconds} seconds`)), 1000 * this.seconds);
        this.end.postMessage({id: current.id, name: current.name, about: current.about});
    }

    // Listens to an end. What one says that was ended is heard by nobody.
    take(end) {
        const ifCurrent = (act) => (event) => end === this.end && act(event);
        end.onmessage = ifCurrent(({data}) => this.hear(data));
        end.onerror = ifCurrent((event) => this.breakOff(new Error(event.message || "the worker broke")));
        end.onmessageerror = ifCurrent(() => this.breakOff(new Error("the worker can't be understood")));
        return end;
    }

    hear({id, value, error}) {
        const {current} = this;
        if (current?.id === id) {
            this.settle(() => (error === undefined ? current.resolve(value) : current.reject(new Error(error))));
        }
    }

    // Ends the worker, which may never come back. The next question starts another one.
    breakOff(error) {
        const {current, end} = this;
        this.end = null;
        end.terminate();
        this.settle(() => current?.reject(error));
    }

    settle(act) {
        clearTimeout(this.timer);
        this.current = null;
        act();
        this.next();
    }
}

// An end in the page itself.
function ownEnd(library) {
    const end = {
        postMessage: ({id, name, about}) =>
            queueMicrotask(() => end.onmessage({data: {id, ...answered(() => questionOf(library, name, about))}})),
        terminate: () => {}
    };
    return end;
}

// The desk, in a worker if there can be one: {desk, isWorker}.
export async function startDesk(source, bytes) {
    try {
        let first = await ready(startWorker(source), bytes);
        const desk = new Desk(async () => {
            const worker = first ?? await ready(startWorker(source), bytes);
            first = null;
            return worker;
        });
        return {desk, isWorker: true};
    } catch {
        const library = await load(bytes);
        return {desk: new Desk(async () => ownEnd(library)), isWorker: false};
    }
}

// Answers files, one at a time, in a worker of its own where there can be one: {answerFile, stop}.
export class FileDesk {
    constructor(source, bytes, isWorker) {
        this.source = source;
        this.bytes = bytes;
        this.isWorker = isWorker;
        this.last = 0;
        this.current = null;
    }

    // What of the library or the worker is needed is started with the first file, and kept.
    async answerFile(about, hear) {
        this.last += 1;
        const id = this.last;
        this.current = id;
        try {
            this.end ??= this.isWorker ? await this.startEnd() : this.ownEnd(await load(this.bytes));
        } catch (error) {
            hear({kind: "failed", message: errorText(error)});
            return;
        }
        this.hear = (message) => message.id === id && hear(message);
        this.end.postMessage({...about, id});
        if (this.current !== id) {
            this.end.postMessage({stop: true});
        }
    }

    stop() {
        this.current = null;
        this.end?.postMessage({stop: true});
    }

    // A worker that breaks is ended. The next file starts another one.
    async startEnd() {
        const worker = await ready(startWorker(this.source), this.bytes);
        const broke = (event) => {
            worker.terminate();
            this.end = null;
            this.hear({kind: "failed", message: event.message || "the worker broke", id: this.last});
        };
        worker.onmessage = ({data}) => this.hear(data);
        Object.assign(worker, {onerror: broke, onmessageerror: broke});
        return worker;
    }

    ownEnd(library) {
        let current = null;
        const answer = (about) => {
            current = about.id;
            answerFile(library, about, (message) => this.hear({...message, id: about.id}), () => current !== about.id)
                .catch((error) => this.hear({kind: "failed", message: errorText(error), id: about.id}));
        };
        return {postMessage: (message) => (message.stop ? (current = null) : answer(message))};
    }
}
