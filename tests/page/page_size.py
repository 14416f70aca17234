"""Tests of the page: long lines and large files, and that the page stays quick meanwhile."""
import base64
import hashlib
import re
import time

from page_driver import MOST_TURN, TOP, TRIES, busy, in_time, line_of, run

MOST_WAITED = 1.0  # seconds, for a line of a megabyte, on an idle machine
MOST_BLOCKED = 50  # milliseconds, that a key may wait, on an idle machine

PASTES = 1000
OVERTAKEN = 5  # pastes, of which the last one is waited for
MOST_GROWN = 60e6  # bytes: 300 kB for each answer that is shown
MOST_OF_A_LINE = 1_049_872  # bytes of SDDL, by docs/FORMAT.md


def long_line():
    """A line as long as one can be: its ACEs have flags and rights again and again, and its SIDs zeros."""
    ace = "(%s;%s;" + "CCDCLCSWRPWPDTLOCRSDRCWDWO" * 6 + ";;;S-1-5-21-0000000001-0000000002-0000000003-000000%04d)"
    dacl = "".join(ace % ("A", "OICI" * 40, number % 400) for number in range(1800))
    text, number = f"O:BAG:SYD:{dacl}S:", 0
    while MOST_OF_A_LINE - len(text) > 800:
        text += ace % ("AU", "SAFA" * 40, number % 400)
        number += 1
    short = "(AU;SA;%s;;;S-1-5-%s1)"
    left = MOST_OF_A_LINE - len(text)
    while left > 250:
        text += short % ("CC" * 60, "")
        left = MOST_OF_A_LINE - len(text)
    rest = left - len(short % ("", ""))
    return text + short % ("CC" * (rest // 2), "0" * (rest % 2))


def test_long_line(count, page, given):
    text, measured = long_line(), []
    count.add(len(text) == MOST_OF_A_LINE, f"a line of {len(text)} bytes")
    answer = line_of(given.program, ["explain", "--from", "sddl"], text)
    aces = answer.split("dacl list ")[1].split("\n")[0]
    while len(measured) < TRIES and not any(one <= MOST_WAITED and most <= MOST_BLOCKED for one, most in measured):
        page.open()
        page.do("put('kind', 'folder');")  # its rights fit no file, so the page would ask
        got = page.call("longLine", text)
        measured.append((got["seconds"], got["most"]))
        count.add(got["aces"] == f"{aces} ACEs", f"a long line: {got}")
    seconds, blocked = min(one for one, _ in measured), min(one for _, one in measured)
    print(
        f"{page.browser.name}: a line of {len(text):,} bytes takes {seconds:.2f} s and holds up a key for "
        f"{blocked:.0f} ms"
    )
    times = busy(given)
    count.add(seconds <= times * MOST_WAITED, f"a line of {len(text)} bytes took {seconds:.2f} s")
    count.add(blocked <= times * MOST_BLOCKED, f"a key would have waited {blocked:.0f} ms")


# Texts for which a careless search would take hours, and lines as long as one can be with an error at their end.
TANGLES = [
    "a" + '"\\' * 100_000,
    "x" + " " * 200_000 + "REG_BINARY 01",
    "hex:" + "\\\n" * 100_000 + "x",
    "nTSecurityDescriptor:: AQ==\n" * 7000,
    "dn:" + " " * 200_000 + "\nD:P",
    'x,"D:' + '""' * 100_000,
    "D:" + "(" * 200_000,
    "D:" + ":" * 200_000,
]


def test_tangles(count, page, given):
    page.open()
    front = long_line().rpartition("(")[0]
    limit = busy(given) * MOST_WAITED
    for text in [*TANGLES, front + "(A;;FA;;;Everyone)", front + "(A;;FA;;WD)", front + "(XA;;FA;;;WD)"]:

        def pasted():
            got = page.call("longLine", text)
            if got["seconds"] > limit:
                page.open()  # the same text is asked only once
            return got

        got = in_time(pasted, lambda got: got["seconds"] <= limit)
        count.add(got["seconds"] <= limit, f"{text[:20]!r}.. of {len(text)} characters: {got}")


def test_long_fields(count, page, given):
    """A long text stays out of each field for a descriptor, and is answered all the same."""
    text = long_line()
    wrong = "D:" + "(A;;FA;;;Everyone)" * 2000
    limit = busy(given) * MOST_TURN
    page.open()
    page.call("longLine", text)
    for view, field, pasted, said in (
        ("compare", "other-text", text, "The two have the same content."),
        ("inherit", "made-creator", wrong, "error 25"),
    ):
        got = in_time(lambda: page.call("longField", view, field, pasted), lambda got: got["most"] <= limit)
        value, is_disabled, note = got["kept"]
        count.add(value == "" and is_disabled and f"{len(pasted)} characters" in note, f"{field}: {got['kept']}")
        count.add(said in got["shown"], f"a long text in {field}: {got['shown']}")
        count.add(got["cleared"] == [False, field], f"{field} is not cleared: {got['cleared']}")
        count.add(got["most"] <= limit, f"{field}: a turn of the page took {got['most']:.0f} ms")


def test_big_file(count, page, given):
    piece = (TOP / "examples/descriptors.hex").read_bytes() * 200
    times = max(1, given.megabytes * 1_000_000 // len(piece))
    page.open()
    page.view("lines")
    got = page.call("bigFile", {"data": base64.b64encode(piece).decode(), "times": times})
    answers = run(given.program, ["convert"], piece).stdout
    digest = hashlib.sha256()
    for _ in range(times):
        digest.update(answers)
    is_right = got["size"] == len(answers) * times and base64.b64decode(got["digest"]) == digest.digest()
    print(
        f"{page.browser.name}: {len(piece) * times:,} bytes take {got['seconds']:.1f} s, at most "
        f"{got['most']:.0f} ms between two turns of the page"
    )
    count.add(is_right, f"a file of {len(piece) * times} bytes: {got}")
    page.do("await lastOfFilter('error');")
    shown = page.texts("table.lines .answer")
    count.add(shown and all(one.startswith("error ") for one in shown), f"the filter for errors: {shown[:3]}")
    page.do("await lastOfFilter('noDacl');")
    count.add(len(page.texts("table.lines .answer")) > 0, "the filter for no DACL")


CHANGING = 0xD0156  # rights to change a file or folder


def counted_by_program(program, piece):
    """How many lines of a file each filter of the table keeps."""
    answers = run(program, ["convert"], piece).stdout.decode().splitlines()
    checked = run(program, ["check", "--token", "WD,AU,BU", "--maximum"], piece).stdout.decode().splitlines()
    explained = run(program, ["explain"], piece).stdout.decode()
    granted = [int(one.split()[1], 16) for one in checked if one.startswith("granted ")]
    return {
        "all": len(answers),
        "error": sum(one.startswith("error ") for one in answers),
        "change": sum(mask & CHANGING != 0 for mask in granted),
        "noDacl": len(re.findall("^dacl (?:absent|null)$", explained, re.M)),
    }


def test_many_pastes(count, page, _):
    """A thousand pastes, answered or overtaken, leave nothing behind: as many elements as some do, and no more
    memory."""
    page.open()
    paste = ("for (let at = 1; at <= given[0]; at += 1) {"
             "pasteOver(`C:\\\\Data${at} O:BAD:(A;;FA;;;WD)(A;;FR;;;S-1-5-21-1-2-3-${1000 + at})`); "
             "if (at % given[1] === 0) await until(isIdle); }"
             "return document.querySelectorAll('*').length;")
    few = page.do(paste, PASTES // 10, OVERTAKEN)
    before = page.browser.memory()
    many = page.do(paste, PASTES, OVERTAKEN)
    count.add(many == few, f"after {PASTES} pastes the page has {many} elements, not {few}")

    def grown_by():
        time.sleep(2)  # nobody can make every browser give memory back at once
        return page.browser.memory() - before

    grown = in_time(grown_by, lambda got: got < MOST_GROWN)
    print(f"{page.browser.name}: {PASTES:,} pastes take {grown / 1e6:.0f} MB")
    count.add(grown < MOST_GROWN, f"{PASTES} pastes left {grown / 1e6:.0f} MB")


def test_many_lines(count, page, given):
    """A table of very many lines: its filters keep what the program says, and no turn of the page is long."""
    piece = (TOP / "examples/descriptors.hex").read_bytes()
    times = max(1, given.lines // piece.count(b"\n"))
    counts = counted_by_program(given.program, piece)
    count.add(all(counts.values()), f"a filter keeps nothing: {counts}")
    limit = busy(given) * MOST_TURN

    def read():
        page.open()
        before = page.browser.memory()
        page.view("lines")
        page.do("put('lines-filter-token', 'WD,AU,BU');")
        got = page.call("bigFile", {"data": base64.b64encode(piece).decode(), "times": times, "isShort": True})
        shown = page.call("filters", [*counts])
        return before, got, shown, max(got["most"], *(one["most"] for one in shown))

    before, got, shown, most = in_time(read, lambda got: got[-1] <= limit)
    lines = counts["all"] * times
    print(
        f"{page.browser.name}: {lines:,} lines take {got['seconds']:.1f} s, at most {got['most']:.0f} ms between two "
        f"turns of the page, {max(one['most'] for one in shown):.0f} ms with filters; the browser has "
        f"{before / 1e6:.0f} MB before, {page.browser.memory() / 1e6:.0f} MB with the table"
    )
    for one, (name, number) in zip(shown, counts.items()):
        kept = min(number * times, 1_000_000) if name == "all" else number * times
        count.add(one["count"] == f"{kept:,}", f"{name}: {one['count']} lines, not {kept:,}")
        count.add(one["last"] == one["count"], f"{name}: the last page ends with {one['last']}, not {one['count']}")
    count.add(most <= limit, f"a turn of the page took {most:.0f} ms")


def test_stop(count, page, _):
    page.open()
    page.view("lines")
    piece = (TOP / "examples/descriptors.hex").read_bytes() * 1000
    given = {"data": base64.b64encode(piece).decode(), "times": 40, "stopAfter": 300}
    got = page.call("bigFile", given)
    count.add("Stopped after" in got["status"], f"a run that is stopped: {got}")


def test_late_lines(count, page, _):
    """The table is that of the filter chosen last, and of its own file and form, whatever is chosen meanwhile."""
    page.open()
    page.view("lines")
    page.do("put('lines-command', 'convert'); put('lines-from', 'sddl');")
    piece = b"D:(A;;FR;;;WD)\nno descriptor\nO:BA\n"
    page.call("bigFile", {"data": base64.b64encode(piece).decode(), "times": 1, "isShort": True})
    page.do("await until(() => byId('lines-filter'));")
    got = page.call("overtaken", "error", "noDacl")
    count.add(got == {"late": 1, "filter": "noDacl", "shown": ["3"]}, f"a filter whose lines are read late: {got}")
    got = page.call("besideOtherFile",
                    "O:SY and more, so that each line of the table has another text in this file", "hex")
    count.add(
        got == {"name": "big.hex.answers.txt", "text": "O:BA", "form": "sddl"},
        f"a line and the answers of a table, beside another file: {got}",
    )


def test_filter_of_type(count, page, _):
    """Which rights change an object depends on its type: of three directory objects Users may write one."""
    page.open()
    page.view("lines")
    page.do(
        "put('lines-command', 'check'); put('lines-from', 'sddl'); put('lines-type', 'ds'); put('lines-token', 'BU'); "
        "put('lines-maximum', true); put('lines-filter-token', 'BU');"
    )
    piece = b"D:(A;;RP;;;BU)\nD:(A;;WP;;;BU)\nD:(A;;LC;;;BU)\n"
    page.call("bigFile", {"data": base64.b64encode(piece).decode(), "times": 1, "isShort": True})
    kept = page.do("await lastOfFilter('change'); return linesShown();")
    count.add(kept == ["2"], f"lines of a directory that Users may change: {kept}")
    kind = page.do("document.querySelector('table.lines .jump').click(); await until(() => byId('text').value !== ''); "
                   "await until(isIdle); return byId('kind').value;")
    count.add(kind == "ds", f"the kind of a line of a directory is {kind}")
    # Each command shows the type that the filter asks by. The kind of a pasted text is that of this text alone.
    for text in ("\nD:(A;;CCDCLCSWRPWPDTLOCRRC;;;BU)", "channelAccess: O:BAG:SYD:(A;;0x7;;;BU)"):
        page.see(text)
        for command, kind, expected in (("convert", "ds", ["2"]), ("explain", "file", ["1", "3"]),
                                        ("check", "file", ["1", "3"])):
            page.view("lines")
            page.do("put('lines-command', given[0]); put('lines-from', 'sddl'); put('lines-type', given[1]);",
                    command, kind)
            page.call("bigFile", {"data": base64.b64encode(piece).decode(), "times": 1, "isShort": True})
            kept = page.do("await lastOfFilter('change'); return linesShown();")
            is_shown = page.do("return byId('lines-type').checkVisibility();")
            count.add(kept == expected and is_shown,
                      f"lines that Users may change, {command}, {kind}, beside {text!r}: {kept}")
