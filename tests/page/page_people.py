"""Tests of the page: keys alone, screen readers, contrast, narrow windows, buttons and links."""
import base64
import collections
import os
import re
import shutil
import subprocess
import tempfile

from page_driver import HOSTILE, SECONDS, each_view

ACCOUNT = "S-1-5-21-1-2-3-1101"


def test_keyboard(count, page, given):
    """Everything by keys alone, from typing to the answer of each view."""
    page.open()
    text = "O:BAD:(A;;FR;;;BU)(A;;FA;;;BA)"
    page.browser.press(*text)
    page.do("await until(() => byId('text').value === given[0] && isIdle() && document.querySelector('.summary'));",
            text)
    page.do("window.focus(); document.querySelector('.skip').focus();")
    reached = []
    for _ in range(80):
        page.browser.press("Tab")
        one = page.do(
            "const one = document.activeElement; return [one.id, one.className, one.tagName, "
            "getComputedStyle(one).outlineStyle];"
        )
        if one[2] == "BODY":
            break  # behind the last element come the browser's own
        reached.append(one)
    ids = [one[0] for one in reached]
    wanted = page.do(
        "return Array.from(document.querySelectorAll('#input button, #input select, #share button, #theme'), "
        "(one) => one).filter("
        "(one) => one.checkVisibility() && !one.disabled).map((one) => one.id);"
    )
    missed = [name for name in wanted if name and name not in ids and name != "theme"]
    count.add(not missed, f"the Tab key never reaches {missed}")
    count.add("tab-look" in ids, f"the tabs are not reached: {ids}")
    count.add(any("cell" in one[1] for one in reached), "the grid is not reached")
    unseen = [one for one in reached if one[3] == "none" and one[2] in ("BUTTON", "SELECT", "TEXTAREA", "INPUT")]
    count.add(not unseen, f"no outline on {unseen}")
    page.do("window.focus(); document.querySelector('button.cell[tabindex=\"0\"]').focus();")
    page.browser.press("ArrowDown", "ArrowRight", "ArrowRight", "Enter")
    page.do("await until(() => byId('why').textContent !== '');")
    chosen = page.do("const one = document.activeElement; return [one.dataset.sid, byId('why').textContent];")
    count.add(chosen[0] == "S-1-5-32-545" and "Users may" in chosen[1], f"a cell by keys: {chosen}")
    page.do("byId('tab-look').focus();")
    views = []
    for _ in range(6):
        page.browser.press("ArrowRight")
        views.append(
            page.do(
                "return [document.activeElement.id, "
                "Array.from(document.querySelectorAll('[role=tabpanel]')).filter((one) => "
                "!one.hidden).map((one) => one.id).join()];"
            )
        )
    expected = [[f"tab-{name}", f"view-{name}"] for name in ("ask", "inherit", "compare", "edit", "lines", "look")]
    count.add(views == expected, f"the tabs by keys: {views}")


def test_buttons(count, page, given):
    """Every button does what it says."""
    page.open()
    page.do("window.wasPrinted = 0; window.print = () => { window.wasPrinted += 1; };")
    for name, text in (
        ("folder", "Administrators"),
        ("share", "Everyone"),
        ("key", "System"),
        ("ds", "User-Change-Password"),
        ("error", "error 25"),
    ):
        page.do("byId('example-' + given[0]).click(); await until(isIdle);", name)
        shown = page.do("return shownOf();")
        count.add(text in shown, f"example {name}: {shown[:200]}")
    page.do(
        "Array.from(document.querySelectorAll('.fault button')).find((one) => "
        "/Select/.test(one.textContent)).click();"
    )
    selected = page.do(
        "const field = byId('text'); return field.value.slice(field.selectionStart, field.selectionEnd);"
    )
    count.add(selected == "Everyone", f"selected: {selected!r}")
    page.do("byId('clear').click(); await until(isIdle);")
    is_clear = "return byId('text').value + byId('view-look').textContent === '' && byId('first').hidden;"
    count.add(page.do(is_clear), "clear")
    page.do("byId('share-print').click();")
    count.add(page.do("return window.wasPrinted;") == 1, "print")
    before = page.do("return getComputedStyle(document.body).backgroundColor;")
    page.do("byId('theme').click();")
    count.add(page.do("return getComputedStyle(document.body).backgroundColor;") != before, "the theme")
    page.see("O:BAD:(A;;FA;;;WD)(A;IO;FR;;;BU)")
    page.do("document.querySelector('.warnings .jump').click();")
    count.add(page.do("return document.activeElement.id;").startswith("dacl-"), "a warning leads to its ACE")
    page.see("O:BAD:(A;;FA;;;S-1-5-21-1-2-3-1101)(A;;FR;;;BU)")
    sids = page.do(
        "put('names', 'S-1-5-21-1-2-3-1101 Our people\\nS-1-5-32-545 Nobody'); await until(() => "
        "byId('view-look').textContent.includes('Our people')); return byId('view-look').textContent;"
    )
    count.add("Our people" in sids and "Users" in sids and "Nobody" not in sids, f"a name of the user: {sids[:300]}")


# Takes a file of names as somebody who chooses it.
CHOOSE = """
const transfer = new window.DataTransfer();
const data = typeof given[0] === "number" ? new Uint8Array(given[0]) : bytesOf(given[0]);
transfer.items.add(new window.File([data], "names.csv"));
byId("names-file").files = transfer.files;
byId("names-told").textContent = "";
byId("names-file").dispatchEvent(new window.Event("change"));
await until(() => byId("names-told").textContent !== "");
await until(isIdle);
return [byId("names-told").textContent, each(".trustee .name", (one) => one.textContent)];
"""


def test_names(count, page, _):
    """Names come from a file, also in UTF-16, or from a paste of what people have; what was read is said, and no name
    takes the place of one of Windows."""
    page.open()
    page.see(f"O:BAD:(A;;FA;;;{ACCOUNT})(A;;FA;;;BA)")
    text = f'"Name","SID"\r\n"Ann, Lee","{ACCOUNT}"\r\n"Nobody","S-1-5-32-544"\r\n"x","y"\r\n'
    told = "1 names. 1 of Windows' own SIDs are left out. 1 lines or entries have no SID and name."
    for form in ("utf-8", "utf-8-sig", "utf-16", "utf-16-be"):
        data = (b"\xfe\xff" if form == "utf-16-be" else b"") + text.encode(form)
        got = page.do(CHOOSE, base64.b64encode(data).decode())
        count.add(got == [told, ["Ann, Lee", "Administrators"]], f"a file of names in {form}: {got}")
    got = page.do(CHOOSE, 10_000_001)
    is_right = "more than 10,000,000 bytes" in got[0] and got[1] == ["Account 1101", "Administrators"]
    count.add(is_right, f"a large file of names: {got}")
    got = page.do("put('names', given[0]); await until(isIdle); return [byId('names-told').textContent, "
                  "each('.trustee .name', (one) => one.textContent)];",
                  f"dn: CN=Ann,DC=x\nobjectSid: {ACCOUNT}\ncn: Ann <b>\n\ndn: CN=Bob\nobjectSid: {ACCOUNT[:-1]}2\n")
    count.add(got == ["2 names.", ["Ann <b>", "Administrators"]], f"names of LDIF: {got}")
    link = page.call("copied", "link", True)["text"]
    count.add("Ann" not in link, f"a name in a link: {link}")
    page.do("put('names', ''); await until(isIdle);")


def test_as_markdown(count, page, _):
    """A view as Markdown has the verdict, each row of the grid, each ACE and each finding, and no name is markup."""
    page.open()
    sids = [f"S-1-5-21-1-2-3-{number}" for number in range(1101, 1161)]
    page.do("put('names', given[0]); await see(given[1]);", f"{sids[0]} {HOSTILE} | `x` *y*",
            "C:\\a|b_c D:" + "".join(f"(A;;FR;;;{sid})" for sid in sids) + "(A;;FA;;;WD)(A;IO;FR;;;BU)")
    got = page.call("copied", "markdown", True)
    lines = got["text"].splitlines()
    sentence = page.do("return [byId('sentence').textContent, each('.warning', (one) => one.textContent).length];")
    is_told = lines[0] == "**Act:** Everyone has full control of this folder"
    count.add(is_told and sentence[0] == lines[0].replace("*", ""), f"the verdict: {sentence[0]}, {lines[:3]}")
    count.add("Name: C:\\\\a\\|b\\_c" in lines, f"the name: {lines[:8]}")
    rows = [line for line in lines if line.startswith("| ")]
    widths = {len(re.findall(r"(?<!\\)\|", line)) for line in rows}
    aces = [line for line in rows if line.endswith(")` |")]
    count.add(len(aces) == 62 and len(widths) == 2, f"{len(aces)} ACEs, {widths} cells")
    grid = next(line for line in rows if "Account 1102" in line)
    count.add(all(f"Account {number}" in grid for number in range(1102, 1161)), f"a row of the grid: {grid[:300]}")
    findings = [line for line in lines if line.startswith("- **")]
    count.add(len(findings) == sentence[1] > 1, f"the findings: {findings}")
    plain = re.sub(r"\\[^A-Za-z0-9 ]", "", re.sub(r"`\([^`]*\)`", "", got["text"].replace("**", "")))
    count.add(not re.search(r"[<>`*\[\]]|https?:", plain), f"markup: {plain[:500]}")
    for text, told in (("D:(A;;FA;;;Ann)", "**Unknown:** Can't be read: ACE 1: "),
                       (OPEN, "**Unknown:** Depends on what this is")):
        page.see(text)
        got = page.call("copied", "markdown", True)["text"]
        count.add(got.startswith(told) and "## Rights" not in got, f"{text}: {got[:300]}")
    page.do("put('names', '');")


PROJECTS = ("D:\\Data\\Projects O:BAG:SYD:AI(D;;LC;;;BU)(A;OICIID;FA;;;SY)(A;OICIID;0x1301bf;;;AU)(A;OICIID;FA;;;BA)"
            "S:AI(ML;OICI;NW;;;ME)")
OPEN = "O:SYD:(A;;CCDCLCSWRPWPDTLOCRSDRCWDWO;;;BA)(A;;DC;;;S-1-5-21-1-2-3-1105)"
SENTENCES = [(PROJECTS, "act", "Authenticated Users can modify this folder and everything in it"),
             (OPEN, "unknown", "Depends on what this is: Account 1105 may be able to change it")]
PASTE = "pasteOver(given[0]); await until(isIdle);"


def test_first_line(count, page, _):
    """What is pasted anywhere is answered by a sentence that is seen without a scroll, and the text is folded."""
    for width, height in ((1280, 800), (390, 844)):
        page.browser.size(width, height)
        for text, verdict, sentence in SENTENCES:
            page.open()
            got = page.do(
                f"{PASTE} const box = byId('sentence').getBoundingClientRect(); return [byId('first').dataset.verdict, "
                "byId('sentence').lastChild.textContent, box.top >= 0 && box.bottom <= innerHeight, "
                "byId('text').checkVisibility(), byId('first').compareDocumentPosition(byId('view-look')) & 4];", text)
            count.add(got == [verdict, sentence, True, False, 4], f"{width} x {height}, {text}: {got}")
    page.browser.size(1280, 900)
    page.open()
    lines = page.do(f"{PASTE} return each('#lines tbody tr', (row) => row.textContent);", PROJECTS)
    wanted = ["O:BA G:SY", "D:AI", "1", "2", "3", "4", "S:AI", "1"]
    is_so = len(lines) == len(wanted) and all(one.startswith(start) for one, start in zip(lines, wanted))
    count.add(is_so, f"the text line by line: {lines}")
    # What an ACE of its own gives a trustee is told, also behind that of a wider group. Those alike have one row.
    got = page.do("return each('.trustee', (row) => [row.querySelector('.name').textContent, row.cells[1].textContent, "
                  "row.cells[2].textContent]);")
    wanted = [["Authenticated Users", "modify", "ACE 3, inherited"],
              ["Users", "modify, but not add subfolders", "ACE 3, inherited; ACE 1 denies"],
              ["Administrators", "full control", "ACEs 2, 4, inherited; owner"]]
    count.add(got == wanted, f"who can do what: {got}")
    # What somebody points at and its ACEs are marked, and one row at a time is in the order of the Tab key.
    point = "dispatchEvent(new PointerEvent('pointerover', {bubbles: true}));"
    got = page.do(f"byId('dacl-3').{point} return [each('.trustee.tied', (row) => "
                  "row.querySelector('.name').textContent), each('tr.ace[tabindex=\"0\"]').length, "
                  "byId('ace-words').textContent];")
    count.add(got[0] == ["Authenticated Users", "Users"] and got[1] == 1 and "ACE 3" in got[2], f"what is tied: {got}")
    got = page.do(f"document.querySelector('.trustee').{point} return each('tr.ace.tied', (row) => row.id);")
    count.add(got == ["dacl-3"], f"the ACEs of a trustee: {got}")
    got = page.do(f"document.querySelector('.warning').{point} return each('tr.ace.tied', (row) => row.id);")
    count.add(got == ["dacl-3"], f"the ACEs of a warning: {got}")
    got = page.do("byId('share-another').click(); return [byId('text').checkVisibility(), document.activeElement.id];")
    count.add(got == [True, "text"], f"another text: {got}")
    usual = "(A;;FA;;;SY)(A;;FR;;;BA)(A;;FR;;;SY)"
    got = page.do(f"{PASTE} each('.trustee').at(-1).{point} return each('.tied', (one) => one.className);",
                  "D:" + "".join(f"(A;;{right};;;WD)" for right in ("FX", "FR") * 5) + usual)
    count.add(got == ["trustee order-2 tied", "fold tied"], f"the folded ACEs of a trustee: {got}")
    # A long text scrolls in its own box alone.
    got = page.do(f"{PASTE} return ['lines', 'input'].map((id) => byId(id).scrollHeight > byId(id).clientHeight);",
                  "O:BAD:" + "".join(f"(A;;{right};;;S-1-5-21-1-2-3-{number})" for number, right in
                                     zip(range(1100, 1140), ("FX", "FR") * 20)))
    count.add(got == [True, False], f"whether the text and its column scroll: {got}")
    page.do(PASTE, PROJECTS)
    # What is dropped into a field is the field's, and what is dropped elsewhere is a new text.
    got = page.do("const dataTransfer = new DataTransfer(); dataTransfer.setData('text/plain', given[0]); "
                  "const isTaken = (place) => !place.dispatchEvent(new DragEvent('drop', {dataTransfer, bubbles: "
                  "true, cancelable: true})); const before = [isTaken(byId('names')), byId('text').value]; "
                  "const after = isTaken(document.body); await until(isIdle); "
                  "return [...before, after, byId('text').value];", "O:BAD:")
    count.add(got == [False, PROJECTS, True, "O:BAD:"], f"what is dropped: {got}")
    # A list and a box take no text, and a control for a file takes what is dropped on it.
    got = page.do("const told = []; for (const id of ['kind', 'common']) { pasteInto(id, `${given[0]}${id}`); "
                  "await until(isIdle); told.push(byId('text').value); } const dataTransfer = new DataTransfer(); "
                  "dataTransfer.items.add(new File(['x'], 'names.csv')); const isTaken = !byId('names-file')"
                  ".dispatchEvent(new DragEvent('drop', {dataTransfer, bubbles: true, cancelable: true})); "
                  "return [...told, isTaken, document.body.dataset.view];", "O:BAD: ")
    count.add(got == ["O:BAD: kind", "O:BAD: common", False, "look"], f"pasted over a list, dropped on a file: {got}")


def test_several_verdicts(count, page, _):
    """Several descriptors are a table of verdicts, the worst first, with filters."""
    page.open()
    texts = {"C:\\Fine": "O:BAD:(A;;FA;;;BA)", "C:\\Open": "O:BAD:(A;;FA;;;WD)", "C:\\Wrong": "O:BAD:(A;;FA;;;Ann)",
             "C:\\Usual": "O:BAD:(A;;FA;;;BA)", "C:\\Ann": "O:BAD:(A;;0x1301bf;;;S-1-5-21-1-2-3-1105)(A;;FA;;;BA)"}
    pasted = "".join(f"{name}\n{sddl}\n" for name, sddl in texts.items())
    page.do(f"{PASTE} await until(() => byId('many-heading'));", pasted)
    rows = "return each('table.many tbody tr', (row) => [row.dataset.verdict, row.querySelector('.open').textContent]);"
    got = page.do("return [byId('first').dataset.verdict, byId('sentence').lastChild.textContent];")
    count.add(got == ["act", "1 of 5 can be changed by everybody or nearly everybody"], f"the verdict on all: {got}")
    got = page.do(rows)
    wanted = [["act", "C:\\Open"], ["unknown", "C:\\Wrong"], ["named", "C:\\Ann"], ["fine", "C:\\Fine"]]
    count.add(got == wanted, f"the verdicts on several: {got}")
    got = page.do(f"byId('many-fine').click(); {rows}")
    count.add(got == wanted[3:], f"a filter: {got}")
    got = page.do("byId('many-all').click(); for (const at of [3, 0, 1]) byId(`many-choose-${at}`).click(); "
                  "byId('many-compare').click(); await until(isIdle); return [byId('chosen').value, "
                  "document.body.dataset.view, document.querySelector('#compare-result .verdict').textContent];")
    count.add(got == ["0", "compare", "The two differ."], f"two of them: {got}")
    told = page.do("return byId('compare-result').textContent;")
    count.add("5 descriptors, this is number 2" in told, f"the other one of two: {told[:200]}")
    page.do("byId('tab-look').click();")
    got = page.do("const one = document.querySelector('tr[data-verdict=named] .open'); one.focus(); one.click(); "
                  "await until(isIdle); return [byId('one').firstChild.textContent, byId('chosen').value, "
                  "document.activeElement === one];")
    sentence = "C:\\Ann: Account 1105 can modify this folder, beside administrators"
    count.add(got == [sentence, "4", True], f"one of them: {got}")
    got = page.do("const others = document.querySelector('.others'); others.open = true; const boxes = "
                  "['0', '1', '4', '3'].map((at) => byId(`many-choose-${at}`)); boxes.slice(2).forEach((box) => { "
                  "box.focus(); box.click(); }); return [others.isConnected && others.open, boxes.map((box) => "
                  "box.checked), document.activeElement === boxes[3]];")
    count.add(got == [True, [False, False, True, True], True], f"two of them are chosen: {got}")
    answers = ("await until(() => isIdle() && byId('ask-all-heading')); return each('#ask-all tbody tr', (row) => "
               "[row.dataset.verdict, row.querySelectorAll('.open').length, row.querySelector('.open').textContent, "
               "row.cells[3].textContent]);")
    got = page.do(
        f"byId('tab-ask').click(); put('ask-token', 'S-1-5-21-1-2-3-1105'); put('ask-exact', true); {answers}")
    wanted = [["granted", 1, "C:\\Ann", "Granted: modify"],
              ["unknown", 1, "C:\\Wrong", "This is no SID. (error 25 sid-form)"],
              ["denied", 3, "C:\\Fine", "Nothing is granted."]]
    count.add(got == wanted, f"what a token gets of each: {got}")
    got = page.do("document.querySelector('#ask-all .open').click(); await until(isIdle); "
                  "return document.activeElement.id;")
    count.add(got == "tab-ask", f"one of the answers is opened: the focus is on {got}")
    # Wanted rights are those of one kind, which may have the same bits as others of another one.
    page.do(f"{PASTE} byId('tab-ask').click(); put('ask-token', 'BU'); put('ask-maximum', false); "
            "put('ask-right-2', true);",
            "C:\\Data\nO:BAD:(A;;FA;;;BU)\nHKLM\\Software\nO:BAD:(A;;KA;;;BU)\n")
    got = page.do(answers)
    wanted = [["granted", 1, "C:\\Data", "Granted: add files"],
              ["unknown", 1, "HKLM\\Software", "The wanted rights are those of another kind of object"]]
    count.add(got == wanted, f"rights of one kind, wanted of another: {got}")
    page.do("byId('tab-look').click();")
    page.do(f"{PASTE} await until(() => byId('many-heading'));", pasted + "C:\\Gone: access is denied\n")
    got = page.do("return [byId('sentence-why').textContent, each('table.many tbody tr', (row) => "
                  "row.cells[1].textContent)];")
    is_told = "1 line is no descriptor." in got[0] and "C:\\Gone: access is denied" in got[1]
    count.add(is_told, f"a line that is none: {got}")
    # A text that is refused has no kind, nor has one whose conditions leave several.
    got = page.do(f"{PASTE} await until(() => byId('many-heading')); return [byId('kind').value, "
                  "each('table.many tbody tr', (row) => [row.dataset.verdict, row.cells[2].textContent])];",
                  "D:(A;;FA;;;Ann)\nD:(XD;;0x1;;;WD;(Member_of{SID(BA)}))\nO:BAD:(A;;FA;;;BA)\n")
    count.add(got == ["", [["unknown", ""], ["look", ""], ["fine", "Folder"]]], f"kinds of what is refused: {got}")
    got = page.do("put('text', 'D:P'); return ['many', 'one', 'chosen-field'].map((id) => byId(id).textContent);")
    count.add(got == ["", "", ""], f"beside a newer text stands {got}")


def test_many_trustees(count, page, _):
    """A list for more trustees than are asked about at once: none is lost, and no broad group is left for later."""
    page.open()
    sids = [f"S-1-5-21-1-2-3-{number}" for number in range(1000, 1130)]
    page.see("D:" + "".join(f"(A;;FR;;;{sid})" for sid in sids) + "(A;;FA;;;WD)")
    shown = page.do("return byId('view-look').textContent;")
    count.add("30 more trustees are not asked about" in shown, "what is left is said")
    count.add(any("Everyone can" in one for one in page.texts(".warning")), "Everyone behind 130 others")
    rows = page.do(
        "byId('grid-all').focus(); byId('grid-all').click(); await until(isIdle); await pause(50); window.focusIs = "
        "document.activeElement.getAttribute('aria-labelledby'); const more = () => first('.scroll ~ .more button'); "
        "while (more()) more().click(); "
        "return each('table.grid tbody tr', (row) => Array.from(row.querySelectorAll('[data-token]'), (one) => "
        "one.dataset.sid));"
    )
    count.add(rows == [["S-1-1-0", *sids]], f"all trustees: {len(rows)} {rows[:3]}")
    count.add(page.do("return byId('grid-all') === null;"), "nothing is left to ask about")
    focus = page.do("return window.focusIs;")
    count.add(focus == "grid-heading", f"all trustees: the focus is on {focus}")


def test_alike(count, page, _):
    """Trustees with the same cells have one row of the grid that names them all, and a cell says what decided for
    each. Whoever is unusual comes first."""
    page.open()
    page.see("O:SYG:SYD:(A;;FA;;;BA)(A;;FA;;;SY)(A;;FR;;;BU)(A;;FR;;;S-1-5-21-1-2-3-1101)"
             "(A;;FA;;;S-1-5-21-1-2-3-1102)(A;;FR;;;BG)(A;;FR;;;LS)(A;;FR;;;NS)")
    rows = page.do("return each('table.grid tbody tr', (row) => Array.from(row.querySelectorAll('.name'), (one) => "
                   "one.textContent));")
    wanted = [["Account 1102", "Administrators"], ["Local System"],
              ["Users", "Account 1101", "Guests", "Local Service", "Network Service"]]
    count.add(rows == wanted, f"rows of those who are alike: {rows}")
    got = page.do("const row = each('table.grid tbody tr').at(-1); const cell = row.querySelector('[data-bit=\"1\"]'); "
                  "cell.click(); return [row.querySelector('summary').textContent, cell.getAttribute('aria-label'), "
                  "each('#why p', (one) => one.textContent), each('tr.ace.found', (one) => one.id)];")
    names = wanted[-1]
    sentences = [f"{name} may \u201clist folder\u201d. ACE {number} decides: "
                 for name, number in zip(names, (3, 4, 6, 7, 8))]
    is_right = (got[:2] == ["and 2 more", f"{', '.join(names[:3])}, and 2 more: list folder: granted"] and
                [one.partition("(")[0] for one in got[2]] == sentences and
                got[3] == [f"dacl-{number}" for number in (3, 4, 6, 7, 8)])
    count.add(is_right, f"a cell of several: {got}")


def test_more(count, page, _):
    """A button for more rows keeps the focus, or gives it to what it adds last."""
    page.open()
    page.see("D:" + "".join(f"(A;;0x{0x100002 + (number << 2):x};;;S-1-5-21-1-2-3-{number})"
                            for number in range(1, 100)))
    for css in (".scroll ~ .more button", "#lines .more button"):
        got = page.do("const seen = []; for (let more = first(given[0]); more; more = first(given[0])) { more.focus(); "
                      "more.click(); seen.push(document.activeElement.tagName); } return [seen, "
                      "document.activeElement.closest('tr')?.isConnected];", css)
        count.add(got == [["BUTTON"] * (len(got[0]) - 1) + ["TR"], True] and got[0], f"{css}: the focus is on {got}")


RESET, MEMBER = "00299570-246d-11d0-a768-00aa006e0529", "bf9679c0-0de6-11d0-a285-00aa003049e2"


def test_find(count, page, _):
    """A field finds a property, a right or a class by its name, or by what it lets somebody do, and stays as it is."""
    page.open()
    page.do("put('kind', 'ds');")
    text = f"O:BAD:(A;;GA;;;BA)(OA;;CR;{RESET};;S-1-5-21-1-2-3-1130)(OA;;WP;{MEMBER};;S-1-5-21-1-2-3-1131)"
    page.see(text)
    rows = ("await until(() => first('#found-rows tr[data-name]') && isIdle()); return each('#found-rows tbody tr', "
            "(row) => [row.dataset.name, row.dataset.aces, Array.from(row.querySelectorAll('.name'), (one) => "
            "one.textContent)]);")
    field = page.do("const one = byId('find'); return [one.labels[0].textContent, byId(one.getAttribute("
                    "'aria-describedby')).textContent.slice(0, 7), byId('find-status').getAttribute('role')];")
    count.add(field == ["Find by name", "such as", "status"], f"what a screen reader says of the field: {field}")
    for sought, told in (("set NEW password", "1 found"), ("password", "The first 8 of "), ("member", "found"),
                         ("nonesuch", "No property, right or class"), ("", "")):
        said = page.do("const status = byId('find-status'); put('find', given[0]); const isTold = () => given[1] ? "
                       "status.textContent.includes(given[1]) : status.textContent === ''; await until(isTold, 20)"
                       ".catch(() => null); return [status.isConnected, status.textContent];", sought, told)
        count.add(said[0] and told in said[1] and bool(told) == bool(said[1]), f"what is said of {sought!r}: {said}")
    got = page.do(f"put('find', 'set NEW password'); {rows}")
    wanted = ["User-Force-Change-Password", "1 2", ["Account 1130", "Administrators"]]
    count.add(wanted in got, f"what is found of a new password: {got}")
    got = page.do(f"put('find', 'password'); await until(() => each('#found-rows tr').length > 3); {rows}")
    count.add(got[0] == wanted and len(got) == 8, f"what an ACE names comes first: {got}")
    got = page.do(f"byId('find').value = ''; byId('first').click(); put('find', '{MEMBER[:8]}'); "
                  f"await until(() => first('#found-rows tr[data-name]').dataset.name !== '{wanted[0]}'); {rows}")
    is_both = ["member", "1 3", ["Account 1131", "Administrators"]] in got
    count.add(is_both, f"what is found of a GUID: {got}")
    page.see(text + "(A;;FA;;;SY)")
    got = page.do(f"{rows}")
    count.add(page.do("return byId('find').value;") == MEMBER[:8] and got, f"after another text: {got}")


def test_print(count, page, _):
    """On paper is everything that a screen folds, or how much is left out, under the name, the kind, the options and
    the date."""
    page.open()
    sids = [f"S-1-5-21-1-2-3-{number}" for number in range(1000, 1100)]
    text = "C:\\Data; Object: Key D:" + "".join(f"(A;;{right};;;{sid})" for sid in sids for right in ("FR", "DC"))
    page.see(text)
    page.do("put('domain', 'S-1-5-21-1-2-3'); put('common', false); await until(isIdle); byId('share-text').focus();")
    shown = page.do("return [new Date().toLocaleDateString('en'), byId('version').textContent];")
    lines = page.texts("#print-head p")
    count.add("Name: C:\\Data; Object: Key" in lines, f"a name on paper: {lines}")
    paper = on_paper(page.browser)
    if paper is None:
        print("skipped: pdftotext (Debian: poppler-utils) and gs (Debian: ghostscript)")
        return
    wanted = ["C:\\Data", "Folder", "S-1-5-21-1-2-3", "each trustee alone", shown[0], "Descriptor: D:(A;;FR;;;",
              *(f"Account {number}" for number in range(1000, 1100)), *(f"(A;;DC;;;{sid})" for sid in sids)]
    squeezed = re.sub(r"\s", "", paper)
    missing = [one for one in wanted if re.sub(r"\s", "", one) not in squeezed]
    count.add(not missing, f"not on paper: {missing[:5]} of {len(missing)}: {paper[:1500]}")
    count.add("Show" not in paper and "Copy" not in paper and "Nothing leaves" not in paper, "controls on paper")
    # What is unfolded for paper changes neither the focus nor the ACE in words.
    page.see("D:(A;;FA;;;WD)(A;;0x1301bf;;;AU)" + "".join(f"(A;;FR;;;{sid})" for sid in sids))
    state = "return [byId('ace-words').textContent, document.activeElement.id, each('tr.fold').length];"
    page.do("document.querySelector('.skip').focus();")
    page.browser.press("Tab")  # so that the window has the focus
    before = page.do("byId('dacl-2').focus(); byId('dacl-2').dispatchEvent(new window.FocusEvent('focus')); "
                     f"byId('share-text').focus(); {state}")
    on_paper(page.browser)
    after = page.do(state)
    is_same = before[:2] == after[:2] and "ACE 2" in before[0] and before[1] == "share-text"
    count.add(is_same and before[2] == 1 and after[2] == 0, f"after printing: {after}, not {before}")
    page.see("D:" + "(A;;FR;;;BU)" * 2500)
    paper = on_paper(page.browser)
    count.add(re.search(r"and \d,?\d{3} more|\d,?\d{3} ACEs", paper), f"what is left out: {paper[-1500:]}")
    after = page.do("return each('details[open]:not(#more-options)', (one) => one.outerHTML.slice(0, 300));")
    count.add(not after, f"stays open: {after}")


def on_paper(browser):
    """The text of a page on paper, or None where nothing reads it."""
    with tempfile.TemporaryDirectory() as folder:
        path = os.path.join(folder, "page.pdf")
        for words in (["pdftotext", "-layout", path, "-"], ["gs", "-q", "-dNOPAUSE", "-dBATCH", "-sDEVICE=txtwrite",
                                                            "-sOutputFile=-", path]):
            if shutil.which(words[0]):
                with open(path, "wb") as file:
                    file.write(browser.paper())
                return subprocess.run(words, capture_output=True, timeout=SECONDS).stdout.decode()
    return None


def test_share(count, page, given):
    """A link gives the same page, and the command line the same answer."""
    page.open()
    page.do(
        "put('kind', 'key'); await see('O:BAD:(A;;KR;;;BU)(A;;KA;;;BA)'); byId('tab-ask').click(); "
        "put('ask-token', 'BU, WD'); put('ask-maximum', true); "
        "await until(() => document.querySelector('#ask-result .verdict') && isIdle());"
    )
    verdict = page.do("return document.querySelector('#ask-result .verdict code').textContent;")
    page.do("byId('share-command').click(); await until(() => byId('copied-text'));")
    command = page.do("return byId('copied-text').value;")
    with tempfile.TemporaryDirectory() as folder:
        os.symlink(given.program, os.path.join(folder, "sdtool"))
        surroundings = {**os.environ, "PATH": folder + os.pathsep + os.environ["PATH"]}
        told = (
            subprocess.run(["sh", "-c", command], env=surroundings, capture_output=True, timeout=SECONDS)
            .stdout.decode()
            .strip()
        )
    count.add(told == verdict and verdict.startswith("granted"), f"{command}: {told}, not {verdict}")
    page.do(
        "byId('share-link').click(); "
        "await until(() => byId('copied-text')?.value.startsWith(location.href.split('#')[0]));"
    )
    link = page.do("return byId('copied-text').value;")
    address = page.do("await until(() => location.href === given[0]).catch(() => null); return location.href;", link)
    count.add(link == address and "#" in link, f"the link {link} is not the address {address}")
    page.open_link(link)
    page.do("await until(() => document.querySelector('#ask-result .verdict'));")
    again = page.do(
        "return [document.querySelector('#ask-result .verdict code').textContent, byId('kind').value, "
        "byId('ask-token').value];"
    )
    count.add(again == [verdict, "key", "BU, WD"], f"the link leads to {again}")
    page.do("put('names', 'S-1-5-32-545 Secret'); await pause(700);")
    count.add("Secret" not in page.do("return location.href;"), "a name of the user in the address")


def test_address(count, page, _):
    """The address and the history stay as they are, whatever is pasted, asked or chosen, until a link is copied."""
    page.open()
    here = "return [location.href, history.length, history.state];"
    before, text = page.do(here), "O:BAD:(A;;FA;;;BU)(A;;FR;;;WD)"
    acts = [
        "await see(given[0]);",
        "pasteOver(given[0]);",
        "byId('example-ds').click();",
        "put('text', ''); pasteInto('text', given[0].padEnd(30_000)); await until(isIdle); byId('text-clear').click();",
        "put('kind', 'key'); put('domain', 'S-1-5-21-1-2-3'); put('names', 'S-1-1-0 All');",
        *(f"const held = new window.DataTransfer(); {held}; document.body.dispatchEvent(new window.DragEvent('drop', "
          "{dataTransfer: held, bubbles: true, cancelable: true}));" for held in (
              "held.setData('text/plain', given[0])", "held.items.add(new window.File([given[0]], 'list.txt'))")),
        "byId('lines-start').click(); await until(() => byId('lines-stop').disabled);",
        *(f"byId('tab-{view}').click();" for view in ("ask", "inherit", "compare", "edit", "lines", "look")),
        "byId('tab-ask').click(); put('ask-token', 'BU'); put('ask-maximum', true);",
        "byId('tab-compare').click(); put('other-text', given[0]);",
        "byId('share-command').click();",
        "await see(given[0]); document.querySelector('.skip').click();",
    ]
    for act in acts:
        after = page.do(f"{act} await until(isIdle); await pause(600); {here}", text)
        count.add(after == before, f"after {act} the address is {after}, not {before}")
    got = page.do("return [byId('text').value, document.activeElement.id, byId('unread')];")
    count.add(got == [text, "text", None], f"the link to the field leads to {got}")
    got = page.do("byId('tab-lines').click(); document.querySelector('.skip').click(); await until(isIdle); return "
                  "[document.activeElement.id, byId('text').checkVisibility()];")
    count.add(got == ["text", True], f"the link to the field leads from a view without it to {got}")
    page.do("put('domain', ''); put('names', ''); byId('tab-ask').click(); await until(isIdle);")
    link = page.do("byId('share-link').click(); await until(() => byId('copied-text')); return "
                   "byId('copied-text').value;")
    count.add(page.do(here) == [link, before[1], None] and "#" in link,
              f"a link that is copied: {link}, {page.do(here)}")
    told = ("return [byId('text').value, byId('kind').value, byId('ask-token').value, "
            "byId('view-ask').checkVisibility(), byId('ask-result').textContent];")
    asked = page.do(told)
    count.add(asked[:4] == [text, "key", "BU", True] and "Granted" in asked[4], f"what is asked: {asked}")
    # What is typed behind a link is in no address, so whoever goes back or loads again sees what the link says.
    after = page.do(f"await see('D:P'); await pause(600); {here}")
    count.add(after == [link, before[1], None], f"a text behind a link: {after}")
    page.open_link(link)
    count.add(page.do(told) == asked, f"the link leads to {page.do(told)}, not {asked}")
    page.call("followed", link.partition("#")[2])
    page.do("location.hash = 'd=D:P'; await until(() => byId('text').value === 'D:P' && isIdle()); "
            "history.back(); await until(() => byId('text').value === given[0] && isIdle());", text)
    count.add(page.do(told) == asked, f"going back leads to {page.do(told)}, not {asked}")


def test_accessible(count, page, _):
    for theme in ("light", "dark"):
        for view in each_view(page):
            page.do("document.documentElement.dataset.theme = given[0]; await pause(50);", theme)
            faint = page.call("contrast")
            count.add(not faint, f"{view}, {theme}: too little contrast: {faint[:5]}")
            names, small = page.call("namesAndLabels"), page.call("smallControls")
            count.add(not any(names.values()), f"{view}: {names}")
            count.add(not small, f"{view}: {len(small)} controls are too small: {small[:8]}")


# What a screen reader says of an answer, once the keys are still.
SPOKEN = {
    "look": "Act: Everyone has full control of this folder. That is everybody, also without logging on. By ACE 1.",
    "ask": "Granted: full control",
    "inherit": "The new folder: 2 ACEs",
    "compare": "The two differ. Trustees whose rights differ: 4.",
    "edit": "Act: Everyone has full control of this folder. Nothing is changed yet.",
    "error": "Unknown: Can't be read: ACE 2: \u201cEveryone\u201d is no SID. So nothing is known of what it grants.",
}
CONTROLS = {
    "button",
    "textbox",
    "combobox",
    "checkbox",
    "tab",
    "link",
    "searchbox",
    "radio",
    "slider",
    "spinbutton",
    "listbox",
}


def value_of(node, name):
    return node.get(name, {}).get("value", "")


def judge_tree(count, view, tree):
    """What a screen reader is told: names of controls, headers of tables, landmarks."""
    by_id = {node["nodeId"]: node for node in tree}
    role = collections.defaultdict(list)
    for node in tree:
        if not node["ignored"]:
            role[value_of(node, "role")].append(node)
    nameless = [node for kind in CONTROLS for node in role[kind] if not value_of(node, "name").strip()]
    count.add(not nameless, f"{view}: controls without a name: {[value_of(node, 'role') for node in nameless]}")
    for kind in ("main", "banner", "contentinfo", "tablist", "tabpanel"):
        count.add(len(role[kind]) == 1, f"{view}: {len(role[kind])} of {kind}")
    count.add(value_of(role["tabpanel"][0], "name") != "", f"{view}: a panel without a name")
    levels = [
        prop["value"]["value"]
        for node in role["heading"]
        for prop in node.get("properties", [])
        if prop["name"] == "level"
    ]
    count.add(
        levels.count(1) == 1 and all(later <= one + 1 for one, later in zip(levels, levels[1:])),
        f"{view}: headings {levels}",
    )
    for table in role["table"] + role["grid"]:
        below, all_below = [table["nodeId"]], []
        while below:
            node = by_id.get(below.pop())
            if node:
                all_below.append(value_of(node, "role"))
                below += node.get("childIds", [])
        count.add(
            "columnheader" in all_below and "rowheader" in all_below,
            f"{view}: a table without headers: {set(all_below)}",
        )
    regions = [node for node in role["region"] if not value_of(node, "name")]
    count.add(not regions, f"{view}: a region without a name")


def test_screen_reader(count, page, _):
    for view in each_view(page):
        if view in SPOKEN:
            page.do(
                "await until(() => byId('spoken').textContent.includes(given[0])).catch(() => null);", SPOKEN[view]
            )
            spoken = page.do("return byId('spoken').textContent;")
            count.add(SPOKEN[view] in spoken, f"{view}: a screen reader says {spoken!r}")
        tree = page.browser.tree()
        if tree is not None:
            judge_tree(count, view, tree)
            said = [value_of(node, "name") for node in tree if value_of(node, "role") == "StaticText"]
            count.add(
                view not in SPOKEN or any(SPOKEN[view] in one for one in said),
                f"{view}: not in the tree: {SPOKEN.get(view)}",
            )
    live = page.do("return Array.from(document.querySelectorAll('[role=status]'), (one) => one.id);")
    count.add({"spoken", "lines-status"} <= set(live), f"live regions: {live}")


def test_order_of_keys(count, page, _):
    """In each view the Tab key reaches every control, in the order in which they stand, and shows where it is."""
    for view in each_view(page):
        wanted = page.call("reachable")
        # Browsers show where the focus is once a key was used. From the last control that key would leave the page.
        page.do("document.querySelector('.skip').focus();")
        page.browser.press("Tab")
        page.do("window.focus(); document.querySelector('.skip').focus();")
        reached = [page.call("focused")]
        for _ in wanted[1:]:
            page.browser.press("Tab")
            reached.append(page.call("focused"))
        count.add(
            [one["at"] for one in reached] == [one["at"] for one in wanted],
            f"{view}: the order of keys: {reached} {wanted}",
        )
        unseen = [one["text"] for one in reached if not one["isSeen"]]
        count.add(not unseen, f"{view}: no sign of the focus on {unseen}")


WIDTHS = (320, 390, 640, 1280, 1700)
LONG = "\u05e9\u05dc\u05d5\u05dd \u0645\u0631\u062d\u0628\u0627 " * 20 + "x" * 200
LONG_NAMED = f"{LONG} O:{ACCOUNT}D:AI(A;OICIID;FA;;;{ACCOUNT})(D;;LC;;;BU)(A;;FA;;;BA)(A;;FR;;;AU)(A;;FA;;;WD)"
# What the page shows of long names, in each view that has them.
OF_LONG_NAMES = [
    f"put('names', '{ACCOUNT} {LONG}'); put('kind', given[0]); await see(given[1]); byId('text-details').open = true;",
    "byId('share-another').click();", "byId('tab-ask').click();", "byId('tab-inherit').click();",
    "byId('tab-compare').click(); put('other-text', given[1].replace('FA', 'FR'));",
    "byId('tab-edit').click(); await until(isIdle); byId('edit-take').click();",
    "byId('tab-look').click(); await see(`${given[1]}\n${given[1].replace('AI', '')}\n${given[1]}x`);",
]


def judge_widths(count, page, what):
    """Phones, windows at 200 and 400 %, and wide ones: nothing is cut off, and nothing moves sideways."""
    try:
        for width in WIDTHS:
            page.browser.size(width, 800)
            got = page.do("return [document.scrollingElement.scrollWidth, innerWidth];")
            count.add(got[0] <= got[1], f"{what} at {width} pixels is {got[0]} wide in {got[1]}")
            cut = page.call("cutTexts")
            count.add(not cut, f"{what} at {width} pixels: {len(cut)} texts are cut: {cut[:5]}")
    finally:
        page.browser.size(1280, 900)


def test_narrow(count, page, _):
    """Each view, also with long and right-to-left names, in windows of many widths."""
    for view in each_view(page):
        judge_widths(count, page, view)
    page.open()
    for kind in ("folder", "ds"):
        for script in OF_LONG_NAMES:
            page.do(f"{script} await until(isIdle); await pause(200);", kind, LONG_NAMED)
            judge_widths(count, page, f"{kind}: {script[:60]}")
