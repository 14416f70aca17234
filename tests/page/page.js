// What tests/page/page.py runs in a page: it chooses, types and reads as a person would. GIVEN are the arguments.
/** @type {(id: string) => any} */
const byId = (id) => document.getElementById(id);
/** @type {(css: string) => any} */
const first = (css) => document.querySelector(css);
/** @type {(css: string, take?: (element: any) => any) => any[]} */
const each = (css, take) => Array.from(document.querySelectorAll(css), take);
const put = (id, value) => {
    const field = byId(id);
    if (field.type === "checkbox") {
        if (field.checked !== value) field.click();
        return;
    }
    field.value = value;
    field.dispatchEvent(new window.Event(field.tagName === "SELECT" ? "change" : "input", {bubbles: true}));
};
const isIdle = () => document.body.dataset.open === "0";
const pause = (time) => new Promise((resolve) => setTimeout(resolve, time));
const until = async (condition, seconds = 300) => {
    const end = Date.now() + 1000 * seconds;
    while (!condition()) {
        if (Date.now() > end) throw new Error("waited too long for " + condition);
        await pause(1);
    }
};
const drawn = () => new Promise((resolve) => requestAnimationFrame(() => setTimeout(resolve)));
// The longest turn of the page, in milliseconds, while something is done and drawn.
const longestTurn = async (act) => {
    let [most, last] = [0, performance.now()];
    const timer = setInterval(() => {
        const now = performance.now();
        [most, last] = [Math.max(most, now - last), now];
    }, 5);
    await act();
    await drawn();
    await pause(20);
    clearInterval(timer);
    return most;
};
const see = async (text) => {
    put("text", text);
    await until(isIdle);
};
// All that is shown of a text in the first view.
const shownOf = () => ["first", "view-look", "lines", "ace-words"].map((id) => byId(id).textContent).join(" ");
const bytesOf = (text) => Uint8Array.from(atob(text), (character) => character.charCodeAt(0));
const textOf = (bytes) => {
    let text = "";
    for (let at = 0; at < bytes.length; at += 30000) text += String.fromCharCode(...bytes.subarray(at, at + 30000));
    return btoa(text);
};

async function rows(...given) {
    const found = [];
    const originalURL = URL.createObjectURL;
    /** @type {Blob} */
    let saved = null;
    URL.createObjectURL = (/** @type {Blob} */ blob) => {
        if (blob.type === "text/plain") {
            saved = blob;
        }
        return originalURL.call(URL, blob);
    };
    window.HTMLAnchorElement.prototype.click = () => {};
    for (const {command, options, data, name} of given[0]) {
        if (byId("lines-command").value !== command) put("lines-command", command);
        for (const field of byId("lines-options").querySelectorAll("input, select")) {
            const value = options[field.id.slice("lines-".length)];
            put(field.id,
                field.type === "checkbox"      ? value === true :
                    value !== undefined        ? value :
                    field.tagName === "SELECT" ? field.options[0].value :
                                                 "");
        }
        const transfer = new window.DataTransfer();
        transfer.items.add(new window.File([bytesOf(data)], name ?? "row.txt"));
        byId("lines-file").files = transfer.files;
        byId("lines-file").dispatchEvent(new window.Event("change"));
        byId("lines-status").textContent = "";
        byId("lines-start").click();
        await until(() => byId("lines-stop").disabled && byId("lines-status").textContent !== "");
        if (byId("lines-save").disabled) {
            found.push({refused: byId("lines-status").textContent});
            continue;
        }
        saved = null;
        byId("lines-save").click();
        found.push({output: textOf(new Uint8Array(await saved.arrayBuffer()))});
    }
    URL.createObjectURL = originalURL;
    return found;
}

async function grid(...given) {
    const found = [];
    for (const text of given[0]) {
        await see(text);
        // Trustees that are alike have one row.
        found.push(each("table.grid tbody tr", (row) => {
            const cells = Array.from(row.querySelectorAll("button.cell"),
                (cell) => [Number(cell.dataset.bit), cell.dataset.state, cell.textContent]);
            return Array.from(row.querySelectorAll("[data-token]"), ({dataset}) => [dataset.token, dataset.sid, cells]);
        }));
    }
    return found;
}

async function reasons(...given) {
    const found = [];
    for (const [text, sid, bit] of given[0]) {
        await see(text);
        const trustee = first(`[data-token][data-sid="${sid}"]`);
        byId("why").textContent = "";
        trustee.closest("tr").querySelector(`button.cell[data-bit="${bit}"]`).click();
        await until(() => byId("why").textContent !== "");
        const sentences = each(`#why [data-sids~="${sid}"]`, (one) => one.textContent);
        found.push([trustee.dataset.token, sentences.join("|"), each("tr.ace.found", (row) => row.id)]);
    }
    return found;
}

async function ask(...given) {
    byId("tab-ask").click();
    put("ask-token", given[0].token);
    put("ask-exact", given[0].exact ?? true);
    put("ask-maximum", given[0].maximum);
    put("ask-want", given[0].want);
    put("ask-level", given[0].level);
    put("ask-take", given[0].take);
    put("ask-security", given[0].security);
    await see(given[0].text);
    return {
        verdict: first("#ask-result .verdict code")?.textContent ?? byId("ask-result").textContent,
        reasons: each("#ask-result tr.reason",
            (row) => row.dataset.bits.split(" ").map(
                (bit) => [Number(bit), row.dataset.by, row.dataset.number ?? "", row.classList.contains("allow")]))
                     .flat()
    };
}

async function inherit(...given) {
    byId("tab-inherit").click();
    put("made-kind", given[0].kind);
    put("made-owner", given[0].owner);
    put("made-group", given[0].group);
    put("made-creator", given[0].creator);
    await see(given[0].text);
    return each("#inherit-result section.node", (node) => ({
        sddl: node.querySelector(":scope > p > code")?.textContent ?? null,
        level: node.className,
        from: Array.from(node.querySelectorAll(":scope > ol > li"), (item) => item.dataset.from)
    }));
}

async function compare(...given) {
    byId("tab-compare").click();
    put("other-text", given[1]);
    await see(given[0]);
    return {
        verdict: first("#compare-result .verdict")?.textContent ?? byId("compare-result").textContent,
        states: each("#compare-result tr.compared", (row) => row.dataset.state),
        rights: each("#compare-result li[data-sid]",
            (item) => [item.dataset.sid, Number(item.dataset.gained), Number(item.dataset.lost)])
    };
}

// A text is put into a field of an edit, whose step begins when the field is left.
const take = (id, value) => {
    put(id, value);
    if (byId(id).type === "text") byId(id).dispatchEvent(new window.Event("change", {bubbles: true}));
};

// One step of an edit, as a person does it: by a key, a field of an ACE, a new ACE, or a button.
async function editStep({act, list, number, fields = []}) {
    const row = byId(`edit-${list}-${number}`);
    const press = (key, altKey) =>
        row.dispatchEvent(new window.KeyboardEvent("keydown", {key, altKey, bubbles: true, cancelable: true}));
    if (act === "Delete") press(act, false);
    else if (act.startsWith("Arrow")) press(act, true);
    else if (act === "change" && !row.classList.contains("chosen")) row.click();
    else if (act !== "change" && act !== "field") byId(`edit-${act}`).click();
    for (const [id, value] of fields) {
        take(`edit-${id}`, value);
        await pause(2);
    }
    if (act === "add") byId("edit-put").click();
    await until(isIdle);
}

// What an edit shows.
const differing = (item) => [Number(item.dataset.gained), Number(item.dataset.lost)];
const editShown = () => ({
    verdict: byId("edit-first").dataset.verdict,
    sentence: byId("edit-sentence").lastChild.textContent,
    why: byId("edit-sentence-why").textContent,
    sddl: byId("edit-sddl").textContent,
    aces: each("table.edit tr.ace", (row) => row.dataset.state),
    rights: each("#view-edit li[data-sid]",
        (item) => [item.dataset.sid, ...differing(item),
            Array.from(item.querySelectorAll("li[data-object]"), (one) => [one.dataset.object, ...differing(one)])]),
    fault: byId("edit-fault")?.textContent ?? "",
    focus: document.activeElement.id
});

async function editSteps(...given) {
    const [text, steps] = given;
    byId("tab-edit").click();
    await see(text);
    const shown = [editShown()];
    for (const step of steps) {
        await editStep(step);
        shown.push(editShown());
    }
    return shown;
}

// Words with letters of English in what is shown or said, beside those that are allowed, in the order of the page.
function foreignWords(allowed) {
    const known = new Set(allowed);
    const walker = document.createTreeWalker(document.body, window.NodeFilter.SHOW_TEXT);
    const texts = [];
    while (walker.nextNode()) {
        if (!walker.currentNode.parentElement.closest("script, noscript, code, pre, textarea")) {
            texts.push(walker.currentNode.textContent);
        }
    }
    for (const name of ["aria-label", "title", "placeholder"]) {
        texts.push(...each(`[${name}]`, (one) => one.getAttribute(name)));
    }
    const words = texts.flatMap((text) => text.match(/[A-Za-z][A-Za-z-]{2,}/g) ?? []);
    return [...new Set(words)].filter((word) => !known.has(word));
}

async function triesToSend(...given) {
    const address = given[0];
    const outcomes = [];
    const attempt = async (name, act) => {
        try {
            await act();
            outcomes.push(name + ": no error");
        } catch (error) {
            outcomes.push(name + ": refused");
        }
    };
    await attempt("fetch", () => window.fetch(address + "/fetch", {mode: "no-cors"}));
    await attempt("request", () => new Promise((resolve, reject) => {
        const request = new window.XMLHttpRequest();
        request.onload = resolve;
        request.onerror = reject;
        request.open("GET", address + "/request");
        request.send();
    }));
    await attempt("image", () => new Promise((resolve, reject) => {
        const image = new window.Image();
        image.onload = resolve;
        image.onerror = reject;
        image.src = address + "/image";
        document.body.append(image);
    }));
    await attempt("socket", () => new Promise((resolve, reject) => {
        const socket = new window.WebSocket(address.replace("http", "ws") + "/socket");
        socket.onopen = resolve;
        socket.onerror = reject;
    }));
    await attempt("beacon", () => { window.navigator.sendBeacon(address + "/beacon", "x"); });
    for (const [name, attribute] of [["script", "src"], ["iframe", "src"], ["link", "href"], ["embed", "src"],
             ["video", "src"], ["object", "data"]]) {
        await attempt(name, async () => {
            const element = document.createElement(name);
            if (name === "link") element.setAttribute("rel", "stylesheet");
            element.setAttribute(attribute, address + "/" + name);
            document.body.append(element);
            await pause(50);
        });
    }
    await pause(300);
    return outcomes;
}

const pasteInto = (id, text) => {
    const transfer = new window.DataTransfer();
    transfer.setData("text/plain", text);
    // Chromium takes clipboardData, Firefox data.
    const given = {clipboardData: transfer, dataType: "text/plain", data: text, bubbles: true, cancelable: true};
    byId(id).dispatchEvent(new window.ClipboardEvent("paste", given));
};

// A paste that is into no field.
const pasteOver = (text) => {
    const transfer = new window.DataTransfer();
    transfer.setData("text/plain", text);
    const given = {clipboardData: transfer, dataType: "text/plain", data: text, bubbles: true, cancelable: true};
    document.body.dispatchEvent(new window.ClipboardEvent("paste", given));
};

// How long a key has to wait for the page until it has answered.
async function whileBusy(act) {
    const gaps = [];
    const channel = new window.MessageChannel();
    let isOver = false;
    channel.port1.onmessage = () => {
        const now = performance.now();
        gaps.push(now - last);
        last = now;
        if (!isOver) setTimeout(() => channel.port2.postMessage(0), 0);
    };
    const began = performance.now();
    let last = began;
    act();
    if (isIdle()) throw new Error("nothing was asked");
    channel.port2.postMessage(0);
    await until(isIdle);
    const seconds = (performance.now() - began) / 1000;
    isOver = true;
    return {seconds, most: Math.max(...gaps)};
}

async function longLine(...given) {
    const times = await whileBusy(() => pasteInto("text", given[0]));
    const shown = byId("dacl-count") ?? byId("first");
    return {...times, aces: shown.textContent.slice(0, 200)};
}

// A long text in another field for a descriptor, which is kept beside it, and what the view says to it.
async function longField(...given) {
    const [view, id, text] = given;
    byId(`tab-${view}`).click();
    await until(isIdle);
    const times = await whileBusy(() => pasteInto(id, text));
    const kept = [byId(id).value, byId(id).disabled, byId(`${id}-large`).textContent];
    const shown = byId(`${view}-result`).textContent.slice(0, 300);
    byId(`${id}-clear`).click();
    await until(isIdle);
    return {...times, kept, shown, cleared: [byId(id).disabled, document.activeElement.id]};
}

async function bigFile(...given) {
    const {data, times, stopAfter, isShort} = given[0];
    const one = bytesOf(data);
    const originalURL = URL.createObjectURL;
    /** @type {Blob} */
    let saved = null;
    URL.createObjectURL = (/** @type {Blob} */ blob) => {
        if (blob.type === "text/plain") saved = blob;
        return originalURL.call(URL, blob);
    };
    window.HTMLAnchorElement.prototype.click = () => {};
    const transfer = new window.DataTransfer();
    transfer.items.add(new window.File(Array(times).fill(one), "big.hex"));
    byId("lines-file").files = transfer.files;
    byId("lines-file").dispatchEvent(new window.Event("change"));
    byId("lines-status").textContent = "";
    const gaps = [];
    let last = performance.now();
    const timer = setInterval(() => {
        const now = performance.now();
        gaps.push(now - last);
        last = now;
    }, 5);
    const began = performance.now();
    byId("lines-start").click();
    if (stopAfter) {
        await until(() => !byId("lines-stop").disabled);
        await pause(stopAfter);
        byId("lines-stop").click();
    }
    await until(() => !byId("lines-save").disabled, 800);
    clearInterval(timer);
    const seconds = (performance.now() - began) / 1000;
    if (isShort) return {seconds, most: Math.max(...gaps)};
    byId("lines-save").click();
    URL.createObjectURL = originalURL;
    const digest = new Uint8Array(await window.crypto.subtle.digest("SHA-256", await saved.arrayBuffer()));
    return {
        seconds,
        most: Math.max(...gaps),
        size: saved.size,
        digest: textOf(digest),
        status: byId("lines-status").textContent
    };
}

// What a filter of the table keeps: its last page. Gives the number of lines, and the one of the last. A run has ended
// before the lines of its table are read.
async function lastOfFilter(name) {
    await until(() => byId("lines-filter"));
    const numbers = () => first("#lines-table .pages").firstChild.data.match(/[\d,]+/g);
    /** @type {HTMLElement} */ (document.activeElement).blur();
    put("lines-filter", name);
    await until(() => document.activeElement.id === "lines-filter" && byId("lines-filter").value === name);
    const [, , count] = numbers();
    if (!byId("page-last").disabled) {
        /** @type {HTMLElement} */ (document.activeElement).blur();
        byId("page-last").click();
        await until(() => numbers()[1] === count);
    }
    return {count, last: numbers()[1]};
}

const linesShown = () => each("table.lines tbody th", (one) => one.textContent);

// A filter whose lines are read only when those of another one, chosen after it, are shown. Gives what is shown in the
// end.
async function overtaken(...given) {
    const [first, second] = given;
    const {text} = window.Blob.prototype;
    const reads = [];
    /** @type {(value?: unknown) => void} */
    let read = null;
    const gate = new Promise((resolve) => { read = resolve; });
    window.Blob.prototype.text = function() {
        reads.push(gate.then(() => text.call(this)));
        return reads[reads.length - 1];
    };
    put("lines-filter", first);
    window.Blob.prototype.text = text;
    await lastOfFilter(second);
    read();
    await Promise.all(reads);
    await pause(1);
    return {late: reads.length, filter: byId("lines-filter").value, shown: linesShown()};
}

// Another file and another form are chosen below a table. Gives the line that its first row opens, and the name of what
// is saved.
async function besideOtherFile(...given) {
    const [data, form] = given;
    const transfer = new window.DataTransfer();
    transfer.items.add(new window.File([data], "other.txt"));
    byId("lines-file").files = transfer.files;
    byId("lines-file").dispatchEvent(new window.Event("change"));
    put("lines-from", form);
    let name = null;
    window.HTMLAnchorElement.prototype.click = function() { name = this.download; };
    byId("lines-save").click();
    first("table.lines .jump").click();
    await until(() => byId("text").value !== "");
    await until(isIdle);
    return {name, text: byId("text").value, form: byId("form").value};
}

// Each filter of the table in turn: how many lines it keeps, what its last page says, and the longest turn.
async function filters(...given) {
    const found = [];
    for (const name of given[0]) {
        let [most, last] = [0, performance.now()];
        const timer = setInterval(() => {
            const now = performance.now();
            [most, last] = [Math.max(most, now - last), now];
        }, 5);
        const kept = await lastOfFilter(name);
        clearInterval(timer);
        found.push({most, ...kept});
    }
    return found;
}

// What the Tab key has to reach, in this order, and where it is.
const all = () => each("*");
const describe = (one) =>
    ({at: all().indexOf(one), text: `${one.tagName} ${one.id} ${one.className} ${one.textContent.slice(0, 30)}`});

function reachable() {
    return each("a[href], button, input, select, textarea, summary, [tabindex]")
        .filter((one) => one.tabIndex >= 0 && !one.disabled && one.getClientRects().length > 0)
        .map(describe);
}

function focused() {
    /** @type {any} */
    const one = document.activeElement;
    const isSeen = (element) => element && getComputedStyle(element).outlineStyle !== "none" &&
        parseFloat(getComputedStyle(element).outlineWidth) >= 2;
    return {...describe(one), isSeen: isSeen(one) || (one.type === "file" && isSeen(one.closest(".drop")))};
}

// The rows of a report, in order.
function reportRows() {
    return each("#report-table tbody tr", (row) => ({
        name: row.querySelector("th bdi").textContent,
        line: Number(/line (\d+)$/.exec(row.querySelector("th .where").textContent)?.[1] ?? 0),
        answer: row.querySelector("td .badge").textContent,
        isOpen: row.querySelector("button.open") !== null
    }));
}

// Waits until the table of a report shows what a filter keeps, which the status then says.
async function afterFilter(act) {
    byId("report-status").textContent = "";
    act();
    await until(() => byId("report-status").textContent !== "");
}

// Opens an object of a report by its line, and goes back.
async function openRow(...given) {
    byId("tab-report").click();
    const row = each("#report-table tbody tr")
                    .find((one) => one.querySelector("th .where").textContent.endsWith(`line ${given[0]}`));
    row.querySelector("button.open").click();
    await until(isIdle);
    const got = {
        opened: byId("opened").textContent,
        look: shownOf(),
        cells: document.querySelectorAll("button.cell").length,
        sddl: first(".words code.whole")?.textContent ?? ""
    };
    byId("opened-back").click();
    return got;
}

// Reads a large report and filters it; the longest turn of the page on the way.
async function manyRows() {
    const [began, status] = [performance.now(), () => byId("report-status").textContent];
    let [most, last] = [0, began];
    const timer = setInterval(() => {
        const now = performance.now();
        [most, last] = [Math.max(most, now - last), now];
    }, 5);
    await until(() => /objects$/.test(status()));
    const all = status();
    put("report-answer", "found");
    await until(() => status() !== all);
    const found = status();
    put("report-text", "folder/99");
    await until(() => status() !== found);
    clearInterval(timer);
    return {seconds: (performance.now() - began) / 1000, most, all, found};
}

async function contrast(...given) {
    const colour = (text) => text.match(/[\d.]+/g).map(Number);
    const light = ([red, green, blue]) => [red, green, blue]
                                              .map((part) => {
                                                  const one = part / 255;
                                                  return one <= 0.03928 ? one / 12.92 : ((one + 0.055) / 1.055) ** 2.4;
                                              })
                                              .reduce((sum, part, at) => sum + part * [0.2126, 0.7152, 0.0722][at], 0);
    const ground = (element) => {
        for (let one = element; one; one = one.parentElement) {
            const found = colour(getComputedStyle(one).backgroundColor);
            if (found.length < 4 || found[3] === 1) return found;
        }
        return [255, 255, 255];
    };
    const found = [];
    for (const element of each("body *")) {
        const text = Array.from(element.childNodes)
                         .filter((node) => node.nodeType === 3)
                         .map((node) => node.data.trim())
                         .join("");
        if (!text || element.offsetParent === null || element.closest(":disabled, script, style, .unseen")) continue;
        const style = getComputedStyle(element);
        const [one, other] = [light(colour(style.color)), light(ground(element))];
        const ratio = (Math.max(one, other) + 0.05) / (Math.min(one, other) + 0.05);
        const isLarge = parseFloat(style.fontSize) >= 24 ||
            (parseFloat(style.fontSize) >= 18.66 && Number(style.fontWeight) >= 700);
        if (ratio < (isLarge ? 3 : 4.5))
            found.push(`${ratio.toFixed(2)} ${element.tagName}.${element.className}: ${text.slice(0, 40)}`);
    }
    return found;
}

// Controls that are lower or narrower than 24 pixels, each with its label.
function smallControls() {
    const sides = (one) => one.getBoundingClientRect();
    return each("a[href], button, input, select, textarea, summary, tr[tabindex]")
        .filter((one) => one.checkVisibility({visibilityProperty: true}) && !one.matches(".skip, .unseen-field"))
        .filter((one) => {
            const all = [one, ...one.labels ?? []].map(sides);
            const size = (from, to) =>
                Math.max(...all.map((box) => box[to])) - Math.min(...all.map((box) => box[from]));
            return Math.min(size("left", "right"), size("top", "bottom")) < 23.9;
        })
        .map((one) => `${one.tagName} ${one.id}.${one.className} ${sides(one).width} x ${sides(one).height}`);
}

// Texts that are cut: what is beyond the place that it stands in, or beyond the window without a way to scroll there.
function cutTexts() {
    // What a screen reader alone sees is cut to nothing.
    const isSeen = (one) => !one || (getComputedStyle(one).clipPath === "none" && isSeen(one.parentElement));
    const isShown = (one) => one.checkVisibility({visibilityProperty: true}) &&
        !one.closest(".skip, select, textarea, script, style, noscript") && isSeen(one);
    const nameOf = (one) => `${one.tagName} ${one.id}.${one.className}: ${one.textContent.slice(0, 40)}`;
    const isBeyond = ({left, right, width}, from, to) => width > 1 && (left < from - 1 || right > to + 1);
    const found = each("body *")
                      .filter((one) => isShown(one) && getComputedStyle(one).overflowX !== "visible" &&
                              !one.matches(".scroll, input") && one.scrollWidth > one.clientWidth + 1)
                      .map((one) => `scrolls: ${nameOf(one)}`);
    for (const element of each("body *")) {
        const texts = Array.from(element.childNodes).filter((node) => node.nodeType === 3 && node.data.trim());
        if (!texts.length || !isShown(element)) continue;
        let block = element;
        while (getComputedStyle(block).display === "inline") block = block.parentElement;
        const box = block.getBoundingClientRect();
        const isScrolled = Boolean(block.closest(".scroll"));
        const range = document.createRange();
        const rects = texts.flatMap((text) => {
            range.selectNodeContents(text);
            return [...range.getClientRects()];
        });
        if (block.clientWidth > 0 && block.scrollWidth > block.clientWidth + 1) found.push(`wide: ${nameOf(block)}`);
        else if (rects.some((rect) => isBeyond(rect, box.left, box.right))) found.push(`overruns: ${nameOf(element)}`);
        else if (!isScrolled && rects.some((rect) => isBeyond(rect, 0, innerWidth))) found.push(nameOf(element));
    }
    return found;
}

async function namesAndLabels(...given) {
    const nameless = each("input, select, textarea")
                         .filter((one) => one.offsetParent !== null && !one.labels?.length && !one.ariaLabel &&
                                 !one.getAttribute("aria-label"));
    const mute = each("button").filter(
        (one) => one.offsetParent !== null && !one.textContent.trim() && !one.getAttribute("aria-label"));
    const ids = each("[id]", (one) => one.id);
    const twice = ids.filter((id, at) => ids.indexOf(id) !== at);
    const lost = each("[aria-labelledby], [aria-describedby], [aria-controls], label[for]")
                     .flatMap((one) => ["aria-labelledby", "aria-describedby", "aria-controls", "for"].flatMap(
                                  (name) => (one.getAttribute(name) ?? "").split(" ").filter(Boolean)))
                     .filter((id) => !byId(id));
    return {nameless: nameless.map((one) => one.id), mute: mute.length, twice, lost};
}

// What a text or a field comes to: how long it took, what is said of it, and whether something older is still seen.
const isOlderSeen = () => each(".older").some(
    (one) => one.offsetParent !== null && one.checkVisibility({visibilityProperty: true}) && one.textContent !== "");
async function ended(began) {
    await until(isIdle);
    await drawn();
    const seconds = (performance.now() - began) / 1000;
    const view = first("[role=tabpanel]:not([hidden])");
    const isOlder = isOlderSeen() || view.matches(".older") || view.querySelector(".older") !== null;
    return {seconds, found: byId("found").textContent.slice(0, 200), isOlder};
}

async function hostileText(...given) {
    const began = performance.now();
    if (byId("text-clear")) byId("text-clear").click();
    pasteInto("text", given[0]);
    // A paste that the page leaves to the browser does nothing here.
    if (isIdle()) put("text", given[0]);
    return ended(began);
}

async function hostileField(...given) {
    const [view, id, text] = given;
    byId(`tab-${view}`).click();
    await until(isIdle);
    const began = performance.now();
    pasteInto(id, text);
    if (isIdle()) put(id, text);
    return ended(began);
}

// Follows a link: the longest turn of the page, and what it says of the link.
async function followed(...given) {
    const go = async (hash) => {
        const changed = new Promise((resolve) => window.addEventListener("hashchange", resolve, {once: true}));
        location.hash = hash;
        await changed;
        await until(isIdle);
    };
    await go("view=look");
    const most = await longestTurn(() => go(given[0]));
    return {most, unread: byId("unread")?.textContent ?? ""};
}

// Copies a link or a command, in a browser that copies or refuses to: what it has copied, what is said and shown, and
// what is shown of a long text when it is asked for; with the longest turns of the page.
async function copied(...given) {
    const [name, isAllowed] = given;
    let text = null;
    const writeText = async (one) => {
        if (!isAllowed) throw new Error("refused");
        text = one;
    };
    Object.defineProperty(navigator.clipboard, "writeText", {configurable: true, value: writeText});
    byId("copied").replaceChildren();
    const most = await longestTurn(async () => {
        byId(`share-${name}`).click();
        await until(() => byId("copied-text") || byId("copied-all"));
    });
    const [said, all] = [byId("copied").textContent, byId("copied-all")];
    const mostOfAll = all ? await longestTurn(async () => all.click()) : 0;
    return {most, mostOfAll, text, said, isAsked: Boolean(all), shown: byId("copied-text").value};
}

// What a view says of a text: whether it asks for the kind, what else it says, and the kind that is shown. Then what a
// copied command has, and what the view says once a kind is chosen there.
const answerOf = (view) => byId(view === "look" ? "view-look" : `${view}-result`);
function said(view) {
    const place = answerOf(view).cloneNode(true);
    const question = place.querySelector("[data-kind]")?.closest("section");
    question?.remove();
    return {
        asks: view === "look" ? Boolean(first("#chips [data-kind]")) : Boolean(question),
        sentence: byId("sentence").textContent,
        text: place.textContent,
        kind: byId("kind").value,
        boxes: byId("ask-rights").textContent,
        isSeen: answerOf(view).checkVisibility({visibilityProperty: true})
    };
}

async function openKind(...given) {
    const [view, text, kind] = given;
    byId("clear").click();
    byId(`tab-${view}`).click();
    await see(text);
    const before = said(view);
    const names = await namesAndLabels();
    const faint = await contrast();
    byId("copied").replaceChildren();
    byId("share-command").click();
    await until(() => byId("copied").textContent !== "");
    const command = byId("copied-text")?.value ?? "";
    const chip = (view === "look" ? byId("chips") : answerOf(view)).querySelector(`[data-kind=${kind}]`);
    if (chip) chip.click();
    else put("kind", kind);
    await until(isIdle);
    return {
        before,
        command,
        after: said(view),
        names,
        faint,
        isChip: Boolean(chip),
        focus: document.activeElement.id,
        copied: byId("copied").textContent
    };
}

// A worker that gets no question: it is silent, as one in an endless loop is.
async function stopWorker(...given) {
    const {postMessage, terminate} = window.Worker.prototype;
    let endedCount = 0;
    window.Worker.prototype.postMessage = function(message) {
        if (!message.name) postMessage.call(this, message);
    };
    window.Worker.prototype.terminate = function() {
        endedCount += 1;
        terminate.call(this);
    };
    const began = performance.now();
    put("text", given[0]);
    const isHidden = getComputedStyle(byId("view-look")).visibility === "hidden" &&
        getComputedStyle(byId("found")).visibility === "hidden";
    const got = await ended(began);
    Object.assign(window.Worker.prototype, {postMessage, terminate});
    return {...got, isHidden, ended: endedCount, look: byId("view-look").textContent.slice(0, 300)};
}

// What the buttons copy of a text while its question of one name is under way, once that was stopped, and once it was
// answered after all: each a list of [what is copied, what is said].
async function copiedMeanwhile(...given) {
    const [view, name, text] = given;
    const {postMessage} = window.Worker.prototype;
    byId(`tab-${view}`).click();
    await see(text.older);
    let isAsked = false;
    window.Worker.prototype.postMessage = function(message) {
        isAsked ||= message.name === name;
        if (message.name !== name) postMessage.call(this, message);
    };
    let copy = null;
    Object.defineProperty(
        navigator.clipboard, "writeText", {configurable: true, value: async (one) => { copy = one; }});
    const all = async () => {
        const found = {};
        const buttons = each("#share button", (one) => one.id.slice("share-".length));
        for (const what of buttons.filter((name) => !["another", "print"].includes(name))) {
            copy = null;
            byId("copied").replaceChildren();
            byId(`share-${what}`).click();
            await until(() => byId("copied").textContent !== "");
            found[what] = [copy, byId("copied").textContent];
        }
        return {copied: found, chips: byId("chips").textContent, kind: byId("kind").value};
    };
    put("text", text.newer);
    await until(() => isAsked);
    const meanwhile = await all();
    const wasIdle = isIdle();
    await until(isIdle);
    const stopped = await all();
    window.Worker.prototype.postMessage = postMessage;
    await see(`${text.newer} `);
    return {meanwhile, wasIdle, stopped, answered: await all()};
}

// What is said of a copy that the browser makes only after the text was replaced.
async function copiedLate(...given) {
    const [older, newer] = given;
    await see(older);
    /** @type {(value?: unknown) => void} */
    let end = null;
    const writeText = () => new Promise((resolve) => { end = resolve; });
    Object.defineProperty(navigator.clipboard, "writeText", {configurable: true, value: writeText});
    byId("share-text").click();
    await see(newer);
    end();
    await pause(20);
    return byId("copied").textContent;
}

// Puts a text whose question of one name is never answered, and gives all that a place shows until it says a word.
async function silentAbout(...given) {
    const [name, text, place, word] = given;
    const {postMessage} = window.Worker.prototype;
    window.Worker.prototype.postMessage = function(message) {
        if (message.name !== name) postMessage.call(this, message);
    };
    const shown = [];
    const watcher = new window.MutationObserver(() => shown.push(byId(place).textContent));
    watcher.observe(byId(place), {childList: true, subtree: true});
    put("text", text);
    await until(() => shown.at(-1)?.includes(word), 60);
    watcher.disconnect();
    window.Worker.prototype.postMessage = postMessage;
    return shown;
}

// A worker that breaks when it gets a question.
async function breakWorker(...given) {
    const {postMessage} = window.Worker.prototype;
    window.Worker.prototype.postMessage = function(message) {
        if (message.name) setTimeout(() => this.onerror(new window.ErrorEvent("error", {message: "out of memory"})));
        else postMessage.call(this, message);
    };
    const began = performance.now();
    put("text", given[0]);
    const got = await ended(began);
    window.Worker.prototype.postMessage = postMessage;
    return {...got, look: byId("view-look").textContent.slice(0, 300)};
}
