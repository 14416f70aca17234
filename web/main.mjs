// Starts the page, or in a worker its other end.
import {hasVectors} from "../javascript/sdtool.mjs";

import {byId} from "./dom.mjs";
import {Page} from "./page.mjs";
import {valueIn} from "./tables.mjs";
import {takeTheme} from "./theme.mjs";
import {say, WORDS} from "./words.mjs";
import {serve, startDesk} from "./worker.mjs";

async function unpacked(base64) {
    const packed = Uint8Array.from(atob(base64.trim()), (character) => character.charCodeAt(0));
    const stream = new Blob([packed]).stream().pipeThrough(new DecompressionStream("gzip"));
    return new Response(stream).arrayBuffer();
}

const fillWords = () =>
    /** @type {NodeListOf<HTMLElement>} */ (document.querySelectorAll("[data-word]"))
        .forEach((element) => { element.textContent = element.dataset.word.split(".").reduce(valueIn, WORDS); });

// A policy says nothing of connections between browsers, so this page has none of what makes them.
function forbidConnections() {
    for (const name of ["RTCPeerConnection", "webkitRTCPeerConnection", "RTCIceTransport", "WebTransport"]) {
        delete globalThis[name];
    }
}

async function begin() {
    forbidConnections();
    takeTheme();
    document.documentElement.lang = WORDS.language;
    document.title = WORDS.title;
    fillWords();
    byId("private").title = WORDS.privateWhy;
    if (typeof DecompressionStream === "undefined" || typeof WebAssembly === "undefined" || !hasVectors()) {
        throw new Error(WORDS.failedOld);
    }
    const bytes = await unpacked(byId("module").textContent);
    const source = byId("script").textContent;
    const started = await startDesk(source, bytes);
    const version = await started.desk.ask("version", null);
    byId("version").textContent = say(WORDS.version, {version});
    byId("starting").hidden = true;
    byId("page").hidden = false;
    const page = new Page({...started, version}, source, bytes, byId("report").textContent.trim());
    byId(page.state.view === "report" ? "tab-report" : "text").focus();
    document.body.dataset.ready = started.isWorker ? "worker" : "page";
}

if (typeof document === "undefined") {
    serve(globalThis);
} else {
    begin().catch((error) => { byId("starting").textContent = say(WORDS.failed, {reason: error.message}); });
}
