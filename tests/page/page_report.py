"""The report of sdtool-audit that has the page inside, tried in a browser: page.py calls it.

The command makes reports of a hostile list, so it has to be there: python3-click, python3-rich and the built library. A
report that is not in the page's form, as where the page is not built, would fail here.
"""
import collections
import csv
import importlib.util
import json
import os
import pathlib
import re
import shutil
import subprocess
import tempfile

import audit
import audit_reports
import page_driver
import page_people
import preload

TOP = pathlib.Path(__file__).resolve().parents[2]
LIBRARY = preload.LIBRARY
MANY = 100_000  # objects of a large report


def missing():
    """What of the command is missing, or None."""
    if importlib.util.find_spec("click") is None or importlib.util.find_spec("rich") is None:
        return "python3-click, python3-rich"
    return None if os.path.exists(LIBRARY) else "make library"


class Maker:
    """A folder with lists of objects, and the command in it."""

    def __init__(self, folder, given):
        self.folder, self.given = pathlib.Path(folder), given
        self.environment = {
            **os.environ,
            "SDTOOL_LIBRARY": LIBRARY,
            "SDTOOL_PAGE": str(given.page),
            "PYTHONPATH": str(TOP / "python"),
            "PYTHONDONTWRITEBYTECODE": "1",
        }

    def list(self, name, rows):
        with open(self.folder / name, "w", newline="", encoding="utf-8") as file:
            csv.writer(file, lineterminator="\r\n").writerows([("name", "sddl"), *rows])
        return name

    def ask(self, *words):
        command = [preload.DEBIAN_PYTHON, "-m", "sdtool.audit", *words]
        return subprocess.run(
            command, cwd=self.folder, env=self.environment, capture_output=True, timeout=page_driver.SECONDS
        ).stdout

    def report(self, *words):
        path = self.folder / f"{len(list(self.folder.iterdir()))}.html"
        path.write_bytes(self.ask(*words, "--to", "html"))
        return path


def opened(page, path):
    """The page of a report, once its table is there."""
    local = page_driver.Page(page.browser, page.site, path.as_uri())
    local.open()
    local.do("await until(isIdle); await until(() => document.querySelector('#report-table > *'));")
    return local


def picture(page, given, theme, path):
    with tempfile.TemporaryDirectory() as folder:
        maker = Maker(folder, given)
        shutil.copy(TOP / "examples/audit.tsv", folder)
        local = opened(page, maker.report("risks", "audit.tsv", "--list", "all"))
        local.do("document.documentElement.dataset.theme = given[0]; await pause(200);", theme)
        page.browser.picture(path)


def test_report(count, page, given):
    lacks = missing()
    if lacks:
        print(f"skipped: reports of audits ({lacks})")
        return
    with tempfile.TemporaryDirectory() as folder:
        maker = Maker(folder, given)
        judge_hostile(count, page, maker)
        judge_kinds(count, page, maker)
        judge_classes(count, page, maker)
        judge_cut(count, page, maker)
        judge_groups(count, page, maker)
        judge_many(count, page, maker)


def told(maker, words):
    """What the command answers in JSON lines: it stands for what the report has to show."""
    return [json.loads(line) for line in maker.ask(*words, "--to", "jsonl").splitlines()]


def judge_hostile(count, page, maker):
    """Every object of a hostile list is in the table, unknown ones first, and each has the page's view."""
    rows = [row[:2] for row in audit.hostile_rows()]
    words = ("can", "WD", "change", maker.list("hostile.csv", rows))
    objects = told(maker, words)
    page.browser.requests()
    local = opened(page, maker.report(*words, "--list", "all"))
    shown = local.call("reportRows")
    answers = [one["answer"] for one in shown]
    count.add(answers == sorted(answers, key=lambda one: one != "unknown"), f"unknown objects are not first: {answers}")
    wanted = collections.Counter(one["answer"] for one in objects)
    count.add(
        collections.Counter(answers) == wanted, f"answers of a report: {collections.Counter(answers)}, not {wanted}"
    )
    lines = collections.Counter((one["line"], one["answer"]) for one in shown)
    count.add(lines == collections.Counter((one["line"], one["answer"]) for one in objects), f"objects: {lines}")
    text = local.do("return byId('view-report').textContent;")
    for part in ("<script>alert(1)</script>", "\\u{202e}gpj.exe", "\\u{1b}[2J\\u{1b}]0;owned\\u{7}", "a\\u{a}line end"):
        count.add(part in text, f"a report does not show {part!r}")
    made = local.do("return [window.wasHit ?? 0, document.querySelectorAll('script').length, document.title];")
    is_right = made[:2] == [0, 3] and made[2].startswith("What WD gets of: change")
    count.add(is_right, f"markup came of a report, or another title: {made}")
    for answer, number in wanted.items():
        local.do("await afterFilter(() => put('report-answer', given[0]));", answer)
        got = local.call("reportRows")
        count.add([one["answer"] for one in got] == [answer] * number, f"the filter {answer}: {got}")
    local.do("await afterFilter(() => { put('report-answer', ''); put('report-text', 'GPJ'); });")
    got = local.call("reportRows")
    count.add(len(got) == 1 and "gpj" in got[0]["name"], f"the filter for a text: {got}")
    local.do("await afterFilter(() => put('report-text', ''));")
    judge_views(count, local, maker, dict(rows), {one["line"]: one["name"] for one in objects})
    asked = page.browser.requests()
    others = [url for url in asked or [] if not url.startswith(("file:", "blob:", "about:", "data:"))]
    count.add(not others, f"a report asked for {others}")
    judge_people(count, local)


def judge_views(count, local, maker, texts, names):
    """A click on an object shows the very descriptor, and as unknown what the report calls unknown."""
    for one in local.call("reportRows"):
        if not one["isOpen"]:
            count.add(one["answer"] == "unknown", f"an object without a view: {one}")
            continue
        got = local.call("openRow", one["line"])
        name = names[one["line"]]
        text = texts[name]
        is_hex = text[:2] == "01"
        answer = page_driver.line_of(maker.given.program, ["convert", "--from", "hex" if is_hex else "sddl"], text)
        if answer == "error 23 needs-domain":
            # The page reads such a text under a domain that stands in, and says so.
            is_right = "Aliases of a domain" in got["look"] and one["answer"] == "unknown"
        elif answer.startswith("error "):
            number = answer.split()[1]
            is_right = f"(error {number} " in got["look"] and got["cells"] == 0 and one["answer"] == "unknown"
        else:
            is_right = got["sddl"] == (answer if len(answer) <= 4000 else answer[:4000] + " ..") and got["cells"] >= 0
        count.add(
            bool(is_right), f"the view of {name[:40]!r}: {got['sddl'][:100]} {got['look'][:100]}, not {answer[:200]}"
        )
        count.add(one["name"][:80] in got["opened"], f"whose view it is: {got['opened'][:200]}")
    local.do("byId('example-folder').click(); await until(isIdle);")
    count.add(local.do("return byId('opened').hidden;"), "another text under the name of an object")


def judge_people(count, local):
    """Contrast, names, a phone and keys in the view of a report."""
    local.view("report")
    for theme in ("light", "dark"):
        faint = local.do(
            "document.documentElement.dataset.theme = given[0]; await pause(50); return contrast();", theme
        )
        count.add(not faint, f"a report, {theme}: too little contrast: {faint[:5]}")
    names = local.call("namesAndLabels")
    count.add(not any(names.values()), f"a report: {names}")
    page_people.judge_widths(count, local, "a report")
    local.do("document.querySelector('#report-table button.open').focus();")
    local.browser.press("Enter")
    local.do("await until(() => document.activeElement.id === 'opened-back');")
    local.browser.press("Enter")
    got = local.do("return [document.activeElement.id, byId('view-report').hidden];")
    count.add(got == ["tab-report", False], f"back to a report by keys: {got}")


def judge_kinds(count, page, maker):
    """Kinds of objects, names and a domain reach the page; what it has no words for it does not show."""
    texts = [("CN=Ann", "O:DAG:DUD:(OA;;WP;bf9679c0-0de6-11d0-a285-00aa003049e2;;S-1-5-21-1-2-3-1001)")]
    (maker.folder / "names.csv").write_text("S-1-5-21-1-2-3-1001,Ann <b>Lee</b>\nS-1-5-21-1-2-3-512,Guests\n",
                                            encoding="utf-8")
    words = ("who", "write", maker.list("ds.csv", texts), "--domain", "S-1-5-21-1-2-3", "--sid-names", "names.csv")
    local = opened(page, maker.report(*words, "--type", "ds", "--list", "all"))
    got = local.call("openRow", local.call("reportRows")[0]["line"])
    kind = local.do("return [byId('kind').value, byId('domain').value];")
    count.add(kind == ["ds", "S-1-5-21-1-2-3"], f"the kind and the domain of a report: {kind}")
    wanted = ("Ann <b>Lee</b> (a name of the report)", "Domain Admins", "member (property)")
    is_shown = all(one in got["look"] for one in wanted) and "Guests" not in got["look"]
    count.add(is_shown, f"names of a report: {got['look'][:300]}")
    words = ("who", "change", maker.list("services.csv", [("Spooler", "O:BAD:(A;;CCDC;;;WD)")]), "--type", "service")
    local = opened(page, maker.report(*words))
    got = local.call("openRow", local.call("reportRows")[0]["line"])
    kind = local.do("return byId('kind').value;")
    count.add(kind == "service" and "change configuration" in got["look"],
              f"a service in a report: {kind} {got['look'][:300]}")
    got = local.do("await see('D:(A;;LC;;;BU)'); return said('look');")
    count.add(got["asks"] and got["kind"] == "", f"a text behind a service of a report: {got}")
    words = ("who", "change", maker.list("keys.csv", [("HKLM\\SOFTWARE\\X", "O:BAD:(A;;KA;;;WD)")]))
    shown = opened(page, maker.report(*words)).do("return byId('report-summary').textContent;")
    count.add("keys.csv: read as a registry key, by titles or names" in shown,
              f"a guess that decides what rights mean: {shown}")


SYNC = ("O:S-1-5-21-1-2-3-512D:(OA;;CR;1131f6aa-9c07-11d1-f79f-00c04fc2dcd2;;S-1-5-21-1-2-3-1105)"
        "(OA;;CR;1131f6ad-9c07-11d1-f79f-00c04fc2dcd2;;S-1-5-21-1-2-3-1105)")


def judge_classes(count, page, maker):
    """What only the domain's head lets somebody do is told of that, of no user, and in words where the class isn't
    known: in a report, in a paste and by a link."""
    said, condition = "can replicate the passwords of the domain", "If this is a domainDNS: "
    objects = (("DC=x", ("top", "domain", "domainDNS"), True), ("CN=Ann,DC=x", ("top", "person", "user"), False))
    for name, classes, is_told in objects:
        lines = [f"dn: {name}", *(f"objectClass: {one}" for one in classes), f"nTSecurityDescriptor: {SYNC}"]
        entry = "\n".join(lines) + "\n"
        (maker.folder / "directory.ldif").write_text(entry, encoding="utf-8")
        words = ("risks", "directory.ldif", "--list", "all")
        rules = [one["rule"] for one in told(maker, words)[0]["findings"]]
        count.add(("dcsync" in rules) == is_told, f"rules for {name}: {rules}")
        local = opened(page, maker.report(*words))
        shown = {"report": local.call("openRow", local.call("reportRows")[0]["line"])["look"]}
        link = local.do(
            "byId('share-link').click(); await until(() => byId('copied-text')); return "
            "byId('copied-text').value.split('#')[1];"
        )
        shown["paste"] = local.see(entry)
        local.open_link(f"{page.url}#{link}")
        shown["link"] = local.do("return byId('view-look').textContent;")
        for door, text in shown.items():
            count.add((said in text) == is_told and condition not in text, f"{name} by {door}: {text[:500]}")
    page.open()
    text = page.see(SYNC)
    count.add(condition in text and said in text, f"no class: {text[:500]}")
    text = page.do("put('classes', 'top, domainDNS'); await until(isIdle); return byId('view-look').textContent;")
    count.add(condition not in text and said in text, f"a class that somebody gave: {text[:500]}")


def judge_groups(count, page, maker):
    """Unknown objects are first, then the most severe; places are above them, with how many objects have each."""
    local = opened(page, maker.report("risks", maker.list("tree.csv", audit_reports.TREE)))
    rows = local.do(
        "return Array.from(document.querySelectorAll('#report-groups tbody tr'), (row) => "
        "Array.from(row.children, (one) => one.textContent));"
    )
    # D:\\Data and three objects below it; c.txt and d.txt have the ACE from above; Sub and what is in it belong to Ann.
    wanted = [("D:\\Data", "4"), ("E:\\x\\c.txt", "2"), ("D:\\Data\\Sub", "2")]
    count.add([tuple(row[:2]) for row in rows] == wanted, f"places of a report: {rows}")
    count.add("ACE 2, set here; inherited by 3 objects" in rows[0][2] and "high" in rows[0][2], f"a place: {rows[0]}")
    summary = local.do("return byId('report-summary').textContent;")
    count.add(audit_reports.PLACES in summary and audit_reports.SUM in summary, f"the sums of a report: {summary}")
    shown = [one["name"] for one in local.call("reportRows")]
    count.add(set(shown[:2]) == {"bad", "worse"} and len(shown) == 9, f"objects of a report in order: {shown}")
    local.do("await afterFilter(() => document.querySelector('#report-groups button.open').click());")
    shown = [one["name"] for one in local.call("reportRows")]
    count.add(len(shown) == 5 and all(name.startswith("D:\\Data") for name in shown),
              f"a place chooses what is below it: {shown}")


def judge_cut(count, page, maker):
    """A report that was cut or has a damaged line says so."""
    words = ("risks", maker.list("some.csv", [(f"file {number}", "D:(A;;FA;;;WD)") for number in range(20)]))
    whole = maker.report(*words).read_text(encoding="utf-8")
    count.add(
        "not whole" not in opened(page, maker.report(*words)).do("return byId('report-summary').textContent;"), ""
    )
    last = whole[whole.rindex('{"summary"'):].split("\n", 1)
    for name, text, said in (
        ("cut", whole.replace(last[0] + "\n", ""), "did not come to its end"),
        ("damaged", whole.replace('["file 3"', '["file 3', 1), "1 lines of it can't be read"),
        ("of another shape", re.sub(r'(\["file 3".*?,)\[\[.*\]\]\]', r"\g<1>5]", whole, count=1),
         "1 lines of it can't be read"),
    ):
        path = maker.folder / f"{name}.html"
        path.write_text(text, encoding="utf-8")
        shown = opened(page, path).do("return byId('report-summary').textContent;")
        count.add(said in shown, f"a report that is {name}: {shown}")
    path = maker.folder / "kind.html"
    path.write_text(whole.replace('"D:(A;;FA;;;WD)","file"', '"D:(A;;FA;;;WD)","constructor"', 1), encoding="utf-8")
    local = opened(page, path)
    rows, text = local.call("reportRows"), local.do("return byId('report-table').textContent;")
    is_right = (not rows[0]["isOpen"] and rows[1]["isOpen"]
                and "no words for the rights of this kind of object (constructor)" in text)
    count.add(is_right, f"a kind that every object has a member of: {rows[:2]} {text[:200]}")


def judge_many(count, page, maker):
    """A large report: no turn of the page is long, and the filters keep all."""
    rows = ((f"folder/{number}", f"O:BAD:(A;;F{'AR'[number % 2]};;;WD)") for number in range(MANY))
    words = ("risks", maker.list("many.csv", rows))
    path = maker.report(*words, "--list", "all")
    local = page_driver.Page(page.browser, page.site, path.as_uri())
    limit = page_driver.MOST_TURN * page_driver.busy(maker.given)

    def read():
        local.open()
        return local.call("manyRows")

    got = page_driver.in_time(read, lambda got: got["most"] <= limit)
    print(
        f"{page.browser.name}: a report of {MANY:,} objects, {path.stat().st_size:,} bytes, is read and filtered in "
        f"{got['seconds']:.1f} s, at most {got['most']:.0f} ms between two turns of the page"
    )
    count.add(got["all"] == f"{MANY:,} of {MANY:,} objects", f"a large report: {got}")
    count.add(got["found"] == f"{MANY // 2:,} of {MANY:,} objects", f"a filter of a large report: {got}")
    count.add(got["most"] <= limit, f"a turn of a large report took {got['most']:.0f} ms")
