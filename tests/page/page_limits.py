"""Tests of the page: hostile texts, questions that are stopped, answers that are older than the text, and what a link
sets.
"""
import math
import random
import urllib.parse

from page_driver import LIMIT, MOST_TURN, TOO_SLOW, busy, in_time

SLOWER = 0.5  # seconds more, for a new worker and for what is shown
WORKING = "Working .."
ROWS = 1200  # of a grid
TYPES = 60  # object types of a large descriptor of a directory object
# characters, of which more stay out of a field, and of what is shown at once of a copy
LARGE, MOST_COPIED = 20_000, 200_000
ACCOUNT = "S-1-5-21-1-2-3-1001"
KERNED = "AV"  # letters between which a browser measures again and again where it breaks lines

SIDS = [f"S-1-5-21-1-2-3-{number}" for number in range(1000, 1000 + 700)]
GUIDS = [f"{number:08x}-0de6-11d0-a285-00aa003049e2" for number in range(TYPES)]


def directory_object(seed):
    """A valid DACL of some 52 KB: each ACE is for another type of object, and for another trustee."""
    chance = random.Random(seed)
    aces = "".join(
        f"({chance.choice(['OA', 'OA', 'OD'])};CI;{chance.choice(['RPWP', 'CR', 'CCDC'])};"
        f"{chance.choice(GUIDS)};;{sid})"
        for sid in SIDS
    )
    return f"O:BAG:BAD:(A;;RPLCLORC;;;AU){aces}"


# Texts for which a reader that looks again and again takes seconds or minutes.
TEXTS = [
    "," * 100_000 + "O:BAD:(A;;FA;;;WD)",
    "D:(\n" + "O:1\n" * 50_000,
    "1," + "0, " * 3_300_000 + "5",
    "1, 0, 4, 128, " + "255 " * 2_000_000,
    '"a"=hex:' + "01," * 3_000_000,
    "hex:" + "\\" + " " * 400_000,
    "dn:" + " " * 400_000 + "\u2028",
    "nTSecurityDescriptor:: " + " " * 400_000 + "\u2028\nx",
    'x,"D:' + '""' * 200_000 + "x",
    "\u201e" * 200_000 + "D:P",
    "<" * 200_000 + "O:BA" + ">" * 200_000,
    "D:(A;;FA;;;WD)\n" * 25_000,
    "O:BA\nG:BA\nD:\nS:\n" * 20_000,
    "D:" + "(A;;FA;;;WD)" * 40_000,
    "D:" + "(A;;FA;;;Everyone)" * 20_000,
    "D:" + "()" * 200_000,
    "D:" + "(A;" * 100_000,
    "D:(A;;;;;WD" + ";" * 300_000 + ")",
    "O:S-1-" + "0" * 400_000,
    "Path : " + " " * 400_000 + "\nSddl : D:",
    "C:\\x Everyone:" + "(F)" * 100_000,
    ":(F)" * 100_000,
    "\\" * 400_000,
    "AQ" + "A" * 999_998,
    "01" * 500_000,
    "\n" * 400_000 + "x",
    "\u00a0" * 400_000 + "x",
]


def limit_of(given):
    """The page stops a question after two seconds. All of it may be slow on a machine that does other things."""
    return (LIMIT + SLOWER) * busy(given)


def asked_anew(page, limit, name, *arguments):
    """What a function of page.js says of a text. If that took too long, the page is opened anew, since it asks about
    the same text only once."""
    got = page.call(name, *arguments)
    if got["seconds"] > limit:
        page.open(is_limited=True)
        page.see("O:BAD:(A;;FA;;;WD)")
    return got


def test_hostile_texts(count, page, given):
    """Each is answered or stopped, and at the end nothing says that it goes on."""
    page.open(is_limited=True)
    limit = limit_of(given)
    for text in TEXTS:
        got = in_time(lambda: asked_anew(page, limit, "hostileText", text), lambda got: got["seconds"] <= limit)
        what = f"{text[:20]!r}.. of {len(text)} characters: {got}"
        count.add(got["seconds"] <= limit, what)
        count.add(got["found"] not in ("", WORKING) and "can't start" not in got["found"], what)
        count.add(not got["isOlder"], what)
    shown = page.see_in_time("O:BAD:(A;;FA;;;WD)")
    count.add("Everyone" in shown, f"after hostile texts: {shown[:200]}")


def test_hostile_fields(count, page, given):
    """The other fields: names, the token, the second descriptor of a comparison."""
    page.open(is_limited=True)
    page.see("O:BAD:(A;;FA;;;WD)")
    limit = limit_of(given)
    fields = [
        ("look", "names", f"{ACCOUNT} a" + " " * 200_000 + "b"),
        ("look", "names", ACCOUNT + "=" * 399_000),
        ("look", "names", f"{ACCOUNT} " + KERNED * 195_000),
        ("look", "names", f"{ACCOUNT} " + KERNED * (LARGE // 2 - 20)),
        ("look", "domain", "S-1-" + "9-" * 200_000),
        ("ask", "ask-token", "1," * 200_000),
        ("ask", "ask-token", "S-1-1-0," * 50_000),
        ("ask", "ask-token", '"' * 400_000),
        ("ask", "ask-token", KERNED * (LARGE // 2)),
        ("ask", "ask-token", f'"{KERNED * 190_000}","Alias","S-1-5-32-545","Enabled group"'),
        ("ask", "ask-token", f'"{KERNED * (LARGE // 2 - 40)}","Alias","S-1-5-32-545","Enabled group"'),
        ("ask", "ask-self", KERNED * 100_000),
        ("ask", "ask-want", "FA" * 200_000),
        ("inherit", "made-owner", "x" * 400_000),
        ("inherit", "made-creator", "D:(\n" + "O:1\n" * 50_000),
        ("compare", "other-text", "," * 100_000 + "O:BA"),
    ]
    for view, field, text in fields:
        got = in_time(lambda: asked_anew(page, limit, "hostileField", view, field, text),
                      lambda got: got["seconds"] <= limit)
        what = f"{field} {text[:20]!r}.. of {len(text)} characters: {got}"
        count.add(got["seconds"] <= limit, what)
        count.add(got["found"] != WORKING and not got["isOlder"], what)
        page.do("put(given[0], '');", field)


def test_large_comparison(count, page, given):
    """Two valid DACLs of a directory, of 52 KB: what is compared is said."""
    one, other, limit = directory_object(1), directory_object(2), limit_of(given)

    def compared():
        page.open(is_limited=given.idle)
        page.do("put('kind', 'ds');")
        page.call("hostileText", one)
        got = page.call("hostileField", "compare", "other-text", other)
        return got, page.do("return byId('compare-result').textContent;")

    got, shown = in_time(compared, lambda one: one[0]["seconds"] <= limit and TOO_SLOW not in one[1])
    count.add(got["seconds"] <= limit and not got["isOlder"], f"a large comparison: {got}")
    count.add("The two differ." in shown and ("Whose rights differ" in shown), f"a large comparison: {shown[:300]}")
    print(f"{page.browser.name}: a comparison of two DACLs with {len(SIDS)} ACEs takes {got['seconds']:.2f} s")
    # Of too many trustees some are left, but no broad group, and how many is said.
    left = [f"D:{''.join(f'(A;;{right};;;S-1-5-32-{at})' for at in range(2500))}(A;;{right};;;WD)"
            for right in ("FR", "FA")]
    got = page.do("put('kind', 'folder'); await see(given[0]); put('other-text', given[1]); await until(isIdle); "
                  "return [first('#compare-result li[data-sid]').dataset.sid, byId('compare-result').textContent];",
                  *left)
    count.add(got[0] == "S-1-5-32-0" and "trustees of 2,501" in got[1] and "S-1-1-0" in page.do(
        "const more = () => first('#compare-result .differences ~ .more button'); while (more()) more().click(); "
        "return each('#compare-result li[data-sid]', (one) => one.dataset.sid);"), f"what is left: {got[1][:400]}")


def test_stopped(count, page, given):
    """A worker that never answers is ended, the page says so, and the next text is answered."""
    page.open(is_limited=True)
    page.see("O:BAD:(A;;FA;;;WD)")
    got = page.call("stopWorker", "O:SY")
    count.add(got["isHidden"], f"an answer that is older than the text is shown: {got}")
    count.add(TOO_SLOW in got["found"] and "Nothing is known" in got["look"], f"a stopped question: {got}")
    count.add("Everyone" not in got["look"] and got["ended"] == 1, f"a stopped question: {got}")
    count.add(LIMIT <= got["seconds"] + 0.1 and got["seconds"] <= limit_of(given), f"a stopped question: {got}")
    shown = page.see_in_time("O:BAD:(A;;FR;;;BU)")
    count.add("Users" in shown, f"the text after a stopped one: {shown[:200]}")
    for view in ("ask", "inherit", "compare", "edit"):
        page.do("put('other-text', 'D:');")
        page.view(view)
        got = page.call("stopWorker", "O:SYD:(A;;FA;;;BA)")
        shown = page.do("return byId(`${given[0]}-result`).textContent;", view)
        count.add(TOO_SLOW in shown, f"a stopped question of {view}: {shown[:200]}")


def test_several_stopped(count, page, _):
    """Where not all of several descriptors are told, the first line and the answers of Ask say so, and never what is so
    of one alone."""
    page.open(is_limited=True)
    texts = "C:\\Fine\nO:BAD:(A;;FA;;;BA)\nC:\\Open\nO:BAD:(A;;FA;;;WD)\n"
    shown = page.call("silentAbout", "many", texts, "sentence", TOO_SLOW)
    is_said = all("Working" in one or TOO_SLOW in one for one in shown)
    count.add(is_said, f"several that are not all told: {shown}")
    got = page.do("await until(isIdle); put('chosen', '1'); await until(isIdle); "
                  "return [byId('first').dataset.verdict, byId('sentence').textContent];")
    count.add(got[0] == "unknown" and TOO_SLOW in got[1], f"one of several that are not all told: {got}")
    page.do("byId('tab-ask').click(); put('ask-token', 'BA'); await until(isIdle);")
    shown = page.call("silentAbout", "askMany", texts + "\n", "ask-all", TOO_SLOW)
    count.add(not any("Fine" in one for one in shown), f"answers to several that are not all told: {shown}")


OLDER, NEWER = "O:BAD:(A;;FA;;;WD)", "O:SYG:SYD:(A;;KR;;;BU)S:(AU;SA;KR;;;BU)"
COMMANDS = {"look": "explain", "ask": "check", "inherit": "derive", "compare": "convert", "edit": "explain"}


def test_copies_without_answer(count, page, _):
    """While a text or a question about it has no answer, or where it was stopped, nothing is copied for another one:
    this is said. A link and the text are those of the field. So it is in each view."""
    for view, name in (*((view, "look") for view in COMMANDS), *((view, view) for view in COMMANDS if view != "look")):
        page.open(is_limited=True)
        page.do("put('kind', 'key'); put('other-text', 'D:');")
        got = page.call("copiedMeanwhile", view, name, {"older": OLDER, "newer": NEWER})
        for when in ("meanwhile", "stopped", "answered"):
            one, what = got[when]["copied"], f"{view}, {name} {when}: {got[when]}"
            is_told = when == "answered" or name != "look"
            count.add(one["text"][0].strip() == NEWER, f"the text of {what}")
            copied = urllib.parse.parse_qs(urllib.parse.urlsplit(one["link"][0]).fragment)["d"]
            count.add(copied[0].strip() == NEWER, f"the link of {what}")
            said = [TOO_SLOW] if when == "stopped" else [WORKING, *([TOO_SLOW] if got["wasIdle"] else [])]
            count.add(len(one) == 4, f"what is copied of {what}")
            for button in one.keys() - {"text", "link"}:
                is_copied = when == "answered" if button == "command" else is_told
                copy, words = one[button]
                count.add((copy is not None) == is_copied and (is_copied or any(word in words for word in said)),
                          f"the {button} of {what}")
            count.add(OLDER not in str(one) and "Everyone has" not in str(one), f"an older answer in {what}")
            if when == "answered":
                is_so = f"'{NEWER}'" in one["command"][0] and f"| sdtool {COMMANDS[view]} " in one["command"][0]
                count.add(is_so, f"the command of {what}")
            elif name == "look" and when == "stopped":
                count.add([got[when]["chips"], got[when]["kind"]] == ["", "key"], f"beside no answer: {what}")
    page.open()
    said = page.call("copiedLate", OLDER, NEWER)
    count.add(said == "", f"beside a newer text is said: {said}")


def test_broken(count, page, _):
    """A worker that breaks is ended, and another one answers."""
    page.open(is_limited=True)
    page.see("C:\\Data O:BAD:(A;;FA;;;WD)")
    got = page.call("breakWorker", "O:SY")
    count.add("out of memory" in got["found"] and "out of memory" in got["look"], f"a broken worker: {got}")
    got = page.do("return ['print-head', 'text-name', 'lines'].map((id) => byId(id).textContent);")
    count.add(got == ["", "", ""], f"beside a text without an answer stands {got}")
    shown = page.see_in_time("O:BAD:(A;;FR;;;BU)")
    count.add("Users" in shown, f"the text after a broken worker: {shown[:200]}")


def test_working(count, page, _):
    """A text that is answered does not say that the page works on it, however long it is shown."""
    page.open()
    text = "D:" + "".join(f"(A;;FR;;;S-1-5-21-1-2-3-{number})" for number in range(450))
    page.see(text[:16_000].rpartition("(")[0])
    found = page.do("await pause(700); return byId('found').textContent;")
    count.add(found.startswith("Read as SDDL."), f"a text of 16,000 characters: {found}")
    page.do("put('text', given[0]); await pause(20); put('text', 'D:P'); await until(isIdle); await pause(500);", text)
    found = page.do("return byId('found').textContent;")
    count.add(found.startswith("Read as SDDL."), f"a short text behind a long one: {found}")


def opened_at(page, words):
    page.open_link(f"{page.url}#{urllib.parse.urlencode(words)}")


def test_links(count, page, _):
    """What a link sets is shown where it applies, and what can't be read is said."""
    text = "O:BAD:(A;;FA;;;BU)"
    for level, shown in (("4096", "low (4096)"), ("12345", "level 12345")):
        opened_at(page, {"view": "ask", "d": text, "token": "BU", "level": level})
        got = page.do(
            "const one = byId('ask-level'); return [one.value, one.selectedOptions[0]?.textContent, "
            "byId('unread')?.textContent ?? '', document.querySelector('#ask-result .verdict')?.textContent ?? ''];"
        )
        count.add(got[:3] == [f" {level}", shown, ""] and got[3] != "", f"the level {level} of a link: {got}")
    opened_at(page, {"d": text, "level": "foo", "kind": "x", "y": "\u202e1"})
    got = page.do("return [byId('unread').textContent, byId('unread').checkVisibility(), "
                  "byId('view-look').textContent];")
    is_said = all(one in got[0] for one in ("level=foo", "kind=x", "y=\\u{202e}1"))
    count.add(is_said and got[1] and "Users" in got[2], f"what a link has that can't be read: {got}")
    opened_at(page, {"d": text, "domain": "S-1-5-21-1-2-3G:BA", "view": "look"})
    got = page.do("return [byId('found').textContent, byId('domain').checkVisibility(), byId('domain').value];")
    count.add("no SID" in got[0] and got[1:] == [True, "S-1-5-21-1-2-3G:BA"], f"a domain that is none: {got}")
    shown = page.do("put('domain', ''); await until(isIdle); return byId('view-look').textContent;")
    count.add("Users" in shown, f"after a domain that was none: {shown[:200]}")
    opened_at(page, {"d": text, "kind": "ds", "object": "bf9679c0-0de6-11d0-a285-00aa003049e2", "common": "0"})
    got = page.do("return [byId('object').checkVisibility(), byId('common').checkVisibility(), "
                  "byId('common').checked];")
    count.add(got == [True, True, False], f"an object type of a link is not shown: {got}")
    opened_at(page, {"d": text, "kind": "template", "object": "0e10c968-78fb-11d2-90d4-00c04f79dc55"})
    count.add(page.do("return byId('object').checkVisibility();"),
              "an object type of a link for a template is not shown")
    # A link that is followed while the page is open.
    page.do("location.hash = '#kind=process&d=O:SYD:(A;;0x1fffff;;;BA)(A;;0x2;;;BU)'; await until(() => "
            "byId('kind').value === 'process');")
    page.do("await until(() => isIdle() && document.querySelector('.summary'));")
    got = page.do("return [byId('kind').value, byId('view-look').textContent];")
    count.add(got[0] == "process" and "Users can create threads" in got[1],
              f"the kind of a link that is followed: {got}")
    opened_at(page, {"d": text, "object": "bf9679c0-0de6-11d0-a285-00aa003049e2"})
    got = page.do(
        "const before = byId('more-options').open; put('kind', 'ds'); await until(isIdle); return [before, "
        "byId('object').checkVisibility()];"
    )
    count.add(got == [False, True], f"an object type that begins to apply is not shown: {got}")


# Shows all rows of a grid, and measures a key in it, the pointer over the trustees, and a jump to the last ACE.
MEASURE_ROWS = """
byId("grid-all").click();
await until(isIdle);
const more = () => first("table.grid").closest("section").querySelector(".more button");
while (more()) { more().click(); await pause(1); }
const timed = async (act) => {
    const began = performance.now();
    act();
    const time = performance.now() - began;
    await pause(5);
    return time;
};
const [keys, overs] = [[], []];
for (let at = 0; at < 5; at += 1) {
    first("button.cell").focus();
    keys.push(await timed(() => document.activeElement.dispatchEvent(
        new window.KeyboardEvent("keydown", {key: "ArrowDown", bubbles: true}))));
    overs.push(await timed(() => first("tr.trustee").dispatchEvent(new window.Event("pointerover", {bubbles: true}))));
}
const rows = each("table.grid tbody tr");
const isSecond = rows[1].contains(document.activeElement);
const tied = each(".tied").length;
const last = rows.at(-1).querySelector("[data-sid]").dataset.sid;
rows.at(-1).querySelector("button.cell[data-state=granted]").click();
const jump = await timed(() => first("#why button.jump").click());
return [rows.length, isSecond, tied, last, first("tr.ace.found").id, Math.min(...keys), Math.min(...overs), jump];
"""


def test_many_rows(count, page, _):
    """Of many trustees, a key, the pointer and a jump take time in proportion: for four times as many at most eight
    times as long."""
    page.open()
    least = {ROWS // 4: [math.inf] * 3, ROWS: [math.inf] * 3}
    for _ in range(3):  # what else runs may delay one
        for rows, before in least.items():
            # Each has other rights, or they would be one row.
            masks = [0x100002 | (number & 1) | (number & 0x7e) << 1 | (number >> 7 & 1) << 8 | (number >> 8) << 16
                     for number in range(rows)]
            page.see("D:" + "".join(f"(A;;0x{mask:x};;;S-1-5-21-1-2-3-{1000 + at})" for at, mask in enumerate(masks)))
            shown, is_second, tied, last, found, *times = page.do(MEASURE_ROWS)
            ace = f"dacl-{int(last.rpartition('-')[2]) - 999}"
            count.add((shown, is_second, found) == (rows, True, ace) and tied > 0,
                      f"{rows} rows: {shown}, {is_second}, {last}, {found}, {tied} tied")
            least[rows] = list(map(min, before, times))
        if all(many <= 8 * max(few, 10) for few, many in zip(*least.values())):
            break
    for what, few, many in zip(("a key", "the pointer", "a jump"), *least.values()):
        count.add(many <= 8 * max(few, 10), f"{what} with {ROWS // 4} and {ROWS} rows: {few}, {many} milliseconds")


MOST_WORD, MOST_LIST = 1000, 400_000  # characters of a SID, a GUID or rights, and of a token or names
WORDS = [("look", "domain"), ("look", "object"), ("ask", "want"), ("ask", "self"), ("inherit", "owner"),
         ("inherit", "group")]
FIELDS = [("look", "domain", MOST_WORD), ("look", "object", MOST_WORD), ("look", "names", MOST_LIST),
          ("ask", "ask-token", MOST_LIST),
          ("ask", "ask-want", MOST_WORD), ("ask", "ask-self", MOST_WORD), ("inherit", "made-owner", MOST_WORD),
          ("inherit", "made-group", MOST_WORD)]


def letters(length):
    return (KERNED * length)[:length]


def test_long_links(count, page, given):
    """No field of a link stops the page, however long it is. What is longer than the field takes is left out and
    said."""
    page.open(is_limited=True)
    limit = busy(given) * MOST_TURN
    rows = [(view, name, 500_000, MOST_WORD) for view, name in WORDS] + [(view, name, MOST_WORD, MOST_WORD)
                                                                         for view, name in WORDS]
    rows += [("ask", "token", length, MOST_LIST) for length in (LARGE, 100_000, 500_000)]
    rows += [(view, name, 500_000, 500_000)
             for view, name in (("look", "d"), ("inherit", "creator"), ("compare", "other"))]
    for view, name, length, most in [*rows, ("look", "x", 500_000, 0)]:
        address = f"view={view}&{name}={letters(length)}"
        got = in_time(lambda: page.call("followed", address), lambda got: got["most"] <= limit)
        count.add(got["most"] <= limit, f"a link whose {name} has {length} characters: {got}")
        said = f"{length + len(name) + 1:,} characters"
        is_said = (f"{name}={KERNED}" in got["unread"] and said in got["unread"] if length > most
                   else got["unread"] == "")
        count.add(is_said, f"what is said of a link whose {name} has {length} characters: {got}")


def test_long_fields_are_told(count, page, _):
    """A field says how much it takes, and takes all of a text or nothing."""
    page.open()
    page.see("O:BAD:(A;;FA;;;BU)")
    for view, field, most in FIELDS:
        page.view(view)
        for length in (most, most + 1, 2):
            page.do("put(given[0], given[1]); await until(isIdle);", field, letters(length))
            got = page.do("const one = byId(given[0]); return [one.value.length, one.closest('.form, .row, "
                          "details').textContent];", field)
            is_aside = f"{length} characters are pasted" in got[1]
            is_refused = f"{length} characters are more than this field takes ({most})" in got[1]
            expected = ((0, False, True) if length > most else (0, True, False) if length > LARGE
                        else (length, False, False))
            count.add((got[0], is_aside, is_refused) == expected, f"{length} characters in {field}: {got}")
        page.do("put(given[0], ''); await until(isIdle);", field)


def test_long_copies(count, page, given):
    """A link, a command or a text is copied whole, however long it is, and doesn't stop the page. A long one is shown
    if asked for."""
    limit = busy(given) * MOST_TURN
    for length in (100, LARGE, 100_000, 1_000_000):
        page.open()
        page.do("put('form', 'sddl');")
        page.call("hostileText", letters(length))
        command = f"printf '%s\\n' {letters(length)} | sdtool explain --from sddl"
        for is_allowed in (True, False):
            got = in_time(lambda: page.call("copied", "command", is_allowed), lambda got: got["most"] <= limit)
            what = (f"a command of {len(command)} characters: "
                    f"{[got[name] for name in ('most', 'mostOfAll', 'said', 'isAsked')]}")
            count.add(got["most"] <= limit, what)
            count.add(got["isAsked"] == (len(command) > MOST_COPIED), what)
            count.add(got["text"] == (command if is_allowed else None) and got["shown"] == command,
                      f"not whole: {what}, {len(got['shown'])}: {got['shown'][:40]!r} .. {got['shown'][-40:]!r}")
            count.add(("Copied:" in got["said"]) == is_allowed, what)
    page.open()
    text = "D:" + "(A;;FR;;;BU)" * (LARGE // 10)
    page.call("hostileText", f"{text}\n")
    got = page.call("copied", "text", True)
    count.add([got["text"], got["shown"]] == [text, text], f"a text of {len(text)} characters: {len(got['text'])}")
    page.do("byId('clear').click(); await until(isIdle);")
    page.call("hostileField", "ask", "ask-token", letters(29_000))
    got = in_time(lambda: page.call("copied", "link", True), lambda got: got["most"] <= limit)
    count.add(got["most"] <= limit and letters(29_000) in got["text"] and got["shown"] == got["text"],
              f"a long link: {got['said']}")


def test_long_names(count, page, given):
    """A name of a SID that would fill the page is cut, and this is shown."""
    page.open(is_limited=True)
    name, limit = letters(100_000), busy(given) * MOST_TURN
    page.see("O:BAD:" + "".join(f"(A;;FR;;;S-1-5-21-1-2-3-{number})" for number in range(1000, 1040)))

    def named():
        return page.do("const most = await longestTurn(async () => { put('names', given[0]); await until(isIdle); }); "
                       "return [most, byId('view-look').textContent];", f"S-1-5-21-1-2-3-1001 {name}")

    most, shown = in_time(named, lambda got: got[0] <= limit)
    count.add(f"{name[:500]} .." in shown and name[:501] not in shown, f"a long name: {len(shown)} characters")
    count.add(most <= limit, f"a long name: a turn of the page took {most:.0f} ms")


def test_command_characters(count, page, _):
    """A copied command has no character that a terminal takes for more than a character."""
    page.open()
    page.do("put('form', 'sddl'); await see(given[0]);", "O:BA\u001b[201~; touch x\u0007 \u202e")
    page.do("byId('share-command').click(); await until(() => byId('copied-text'));")
    command = page.do("return byId('copied-text').value;")
    count.add(all(character.isprintable() for character in command) and "\\0033" in command, f"a command: {command!r}")
    page.do("put('form', 'auto');")


def test_going(count, page, _):
    """What no policy forbids: the page has no code for it, and takes away what it can."""
    page.open(is_limited=True)
    got = page.do(
        "return [typeof RTCPeerConnection, typeof WebTransport, document.querySelectorAll('form, iframe, link, base, "
        "area').length, Array.from(document.querySelectorAll('a'), (one) => one.getAttribute('href')), "
        "document.querySelector('meta[http-equiv=x-dns-prefetch-control]')?.content];"
    )
    count.add(got == ["undefined", "undefined", 0, ["#text"], "off"], f"ways out of the page: {got}")
