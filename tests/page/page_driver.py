"""A page in a browser, and the program beside it: what the tests of the page share."""
import http.server
import pathlib
import subprocess
import threading
import time

TOP = pathlib.Path(__file__).resolve().parents[2]
SECONDS = 1200
MOST_TURN = 200  # milliseconds of one turn of the page with a million lines, on an idle machine
LIMIT = 2  # seconds, after which the page stops a question
BUSY = 10  # times as long on a machine that also does other things, as in the gate
MEASURED = 0.3  # seconds of a processor that show how busy it is
PATIENCE = 100  # times the page's own limit, for tests that are about something else
TRIES = 6  # of what has to be done in a time, on such a machine
TOO_SLOW = f"took longer than {LIMIT} seconds"  # what the page says of a question that it stopped
TOO_SLOW_AT_START = f"no answer in {LIMIT} seconds"
BATCH = 50
KINDS = {"folder": "file", "file": "file", "key": "key", "ds": "ds"}
HOSTILE = '<img src=x onerror="window.wasHit=1"><script>window.wasHit=1</script>&lt;b&gt;"\'</textarea>'
HELPERS = pathlib.Path(__file__).with_name("page.js").read_text(encoding="utf-8")


class Site:
    """A server on 127.0.0.1 that has the page alone, and remembers what it was asked for."""

    def __init__(self, page):
        self.asked = []
        site, data = self, page.read_bytes()

        class Handler(http.server.BaseHTTPRequestHandler):
            def do_GET(self):
                site.asked.append(self.path)
                self.send_response(200 if self.path == "/sdtool.html" else 404)
                self.send_header("Content-Type", "text/html")
                self.end_headers()
                if self.path == "/sdtool.html":
                    self.wfile.write(data)

            do_POST = do_HEAD = do_OPTIONS = do_GET

            def log_message(self, *_):
                pass

        self.server = http.server.ThreadingHTTPServer(("127.0.0.1", 0), Handler)
        self.address = f"http://127.0.0.1:{self.server.server_port}"
        threading.Thread(target=self.server.serve_forever, daemon=True).start()

    def end(self):
        self.server.shutdown()


class Page:
    """A page in a browser."""

    def __init__(self, browser, site, url=None):
        self.browser, self.site = browser, site
        self.url = url or site.address + "/sdtool.html"

    def open(self, after="", is_limited=False):
        """Opens the page. Its limit of two seconds for a question is longer for tests that are about something else,
        since they run on a machine that is busy. Such a machine may also be too slow for the page's limits while it
        starts."""
        ready, said = in_time(lambda: self.started(after), lambda told: told[0] == "worker")
        if ready is None:
            raise RuntimeError(said)
        if not is_limited:
            self.do(
                "const {setTimeout} = window; window.setTimeout = (act, time, ...more) => "
                "setTimeout.call(window, act, time === given[0] ? given[1] * time : time, ...more);",
                1000 * LIMIT,
                PATIENCE,
            )

    def started(self, after=""):
        """Goes to the page and waits until it is ready. Gives from where its answers come, and what it says if it can't
        start because it was too slow. That it can't start for another reason is an error."""
        self.site.asked.clear()
        self.browser.open(self.url + after)
        ready, said = self.do(
            'const said = () => byId("starting").textContent; '
            'await until(() => document.body.dataset.ready || /can.t start/.test(said())); '
            'return [document.body.dataset.ready ?? null, said()];'
        )
        if ready is None and TOO_SLOW_AT_START not in said:
            raise RuntimeError(said)
        return ready, said

    def open_link(self, link):
        """Opens the page at a link. Where a busy machine is too slow for the page's limit, it is opened again."""
        for _ in range(TRIES):
            self.browser.open("about:blank")
            self.browser.open(link)
            self.do("await until(() => document.body.dataset.ready); await until(isIdle);")
            if TOO_SLOW not in self.do("return document.body.textContent;"):
                break

    def see_in_time(self, text):
        """The answer to a text in the page's own limit, which a busy machine may need more than one try for."""
        return in_time(lambda: self.see(text), lambda shown: TOO_SLOW not in shown)

    def do(self, script, *arguments):
        """What an async script returns, or its error."""
        told = self.browser.wait(
            f"const tell = arguments[arguments.length - 1]; const given = Array.from(arguments).slice(0, -1); "
            f"{HELPERS}"
            f"(async () => {{ {script} }})().then((value) => tell({{ value: value === undefined ? null : value }}), "
            "(error) => tell({ error: String(error) }));",
            *arguments,
        )
        if "error" in told:
            raise RuntimeError(told["error"])
        return told["value"]

    def call(self, name, *arguments):
        """What a function of page.js returns."""
        return self.do(f"return {name}(...given);", *arguments)

    def see(self, text):
        """Puts a text into the field and waits for the answer."""
        return self.do("await see(given[0]); return shownOf();", text)

    def view(self, name):
        self.do(f"byId('tab-{name}').click();")

    def texts(self, selector):
        return self.do("return Array.from(document.querySelectorAll(given[0]), (one) => one.textContent);", selector)


def busy(given):
    """How many times as long as on an idle machine something may take: more, the longer a piece of work takes here just
    now."""
    if given.idle:
        return 1
    began, used = time.monotonic(), time.thread_time()
    while time.thread_time() - used < MEASURED:
        pass
    return BUSY * max(1, (time.monotonic() - began) / (time.thread_time() - used))


def in_time(measure, is_right):
    """What comes of something, tried again where a busy machine spoils it."""
    for _ in range(TRIES - 1):
        got = measure()
        if is_right(got):
            return got
    return measure()


def run(program, words, data):
    return subprocess.run([program, *words], input=data, capture_output=True, timeout=SECONDS)


def line_of(program, words, line):
    return run(program, words, line.encode() + b"\n").stdout.decode().rstrip("\n")


def each_view(page):
    page.open()
    page.do("byId('more-options').open = true; byId('example-share').click(); await until(isIdle);")
    for view in ("look", "ask", "inherit", "compare", "edit", "lines"):
        page.view(view)
        if view == "compare":
            page.do("put('other-text', 'O:SYD:(A;;FR;;;WD)(A;;FA;;;BA)');")
        page.do("await until(isIdle); await pause(500);")
        yield view
    page.do("byId('example-error').click(); await until(isIdle);")
    yield "error"
