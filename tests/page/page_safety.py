"""Tests of the page: no request leaves it, no text becomes markup, and no address of a stranger does harm."""
import base64
import random
import urllib.parse

from page_driver import HOSTILE, KINDS


def test_network(count, page, given):
    """Every view is used, and whatever is tried from inside, nothing is asked for but the page."""
    site, browser = page.site, page.browser
    browser.requests()
    site.asked.clear()
    page.open()
    page.do(
        "byId('example-share').click(); await until(isIdle); for (const view of ['ask', 'inherit', "
        "'compare', 'lines', 'look']) "
        "{ byId('tab-' + view).click(); await pause(100); } await pause(600);"
    )
    count.add(site.asked == ["/sdtool.html"], f"the server was asked for {site.asked}")
    asked = browser.requests()
    if asked is not None:
        others = [url for url in asked if not url.startswith((page.url, "blob:", "about:", "data:", "chrome-error:"))]
        count.add(not others, f"the browser asked for {others}")
    page.call("triesToSend", site.address)
    count.add(site.asked == ["/sdtool.html"], f"a request left the page: {site.asked}")
    page.do("location.hash = 'd=D%3A(A%3B%3BFA%3B%3B%3BWD)'; await pause(500);")
    count.add(site.asked == ["/sdtool.html"], f"the address was sent: {site.asked}")


def test_markup(count, page, _):
    """A text that tries to be markup, wherever a text can come from."""
    page.open(
        "#"
        + "d="
        + "%3Cimg%20src%3Dx%20onerror%3D%22window.wasHit%3D1%22%3E"
        + "&domain=%3Cb%3E&view=%3Cb%3E&kind=%3Cb%3E"
    )
    page.do("await pause(300);")
    page.do(
        "const account = 'S-1-5-21-1-2-3-110'; put('names', `${account}1 ${given[0]}\\n${account}2 \\u202Eevil`); "
        "put('domain', ''); await see(`D:(A;;FA;;;${account}1)(A;;FA;;;${account}2)`);",
        HOSTILE,
    )
    shown = page.do("return byId('view-look').textContent;")
    count.add("<img src=x" in shown and "\\u{202e}evil" in shown, f"a name as it is: {shown[:300]}")
    for text in (HOSTILE, f"D:(A;;FA;;;{HOSTILE})", f"{HOSTILE} O:BA", f'"{HOSTILE}","O:BA"'):
        page.see(text)
    page.call(
        "ask",
        {
            "token": f"WD,{HOSTILE}",
            "maximum": True,
            "want": "<b>",
            "level": "",
            "take": False,
            "security": False,
            "text": "D:",
        },
    )
    page.call("inherit", {"kind": "file", "owner": "<b>", "group": HOSTILE, "creator": HOSTILE, "text": "D:"})
    page.call("compare", "D:", HOSTILE)
    page.view("lines")
    page.do("put('lines-filter-token', ''); put('lines-from', 'sddl');")
    data = base64.b64encode(f"{HOSTILE}\nO:BA {HOSTILE}\n".encode()).decode()
    file = {
        "command": "convert",
        "options": {"from": "sddl"},
        "data": data,
        "name": "<img src=x onerror=window.wasHit=1>",
    }
    page.call("rows", [file])
    page.do("await until(() => document.querySelector('table.lines'));")
    count.add("<img src=x" in page.do("return document.querySelector('table.lines').textContent;"), "a line as it is")
    made = page.do(
        "return [window.wasHit ?? 0, document.querySelectorAll('img, iframe, object, embed, video, b b').length, "
        "document.querySelectorAll('script').length, document.querySelectorAll('[onerror]').length];"
    )
    count.add(made == [0, 0, 3, 0], f"markup came of a text: {made}")


def test_addresses(count, page, given):
    """Whatever a stranger writes behind '#', the page starts, and what it does not know stays as it was."""
    chance = random.Random(given.seed)
    names = ["d", "domain", "object", "token", "want", "level", "self", "owner", "group", "creator", "other", "view"]
    names += [
        "kind",
        "form",
        "new",
        "rights",
        "chosen",
        "common",
        "maximum",
        "security",
        "__proto__",
        "constructor",
        "x",
    ]
    values = [
        HOSTILE,
        "",
        "look",
        "report",
        "lines",
        "__proto__",
        "toString",
        "-1",
        "9" * 400,
        "ffffffff",
        "D:(A;;FA;;;WD)",
    ]
    values += ["\x00", "\u202e", "\U0001f600", "%", "%zz", "a" * 40_000]
    addresses = ["%", "&&&===", "d", "#", "d=%ff%fe", "d=%E0%A4%A", HOSTILE]
    for _ in range(40):
        words = [(chance.choice(names), chance.choice(values)) for _ in range(chance.randrange(1, 8))]
        addresses.append("&".join(f"{name}={urllib.parse.quote(value)}" for name, value in words))
    page.open()
    for address in addresses:
        got = page.do(
            "location.hash = given[0]; await pause(30); await until(isIdle); "
            "return [window.wasHit ?? 0, byId('kind').value, byId('form').value, "
            "Array.from(document.querySelectorAll('[role=tabpanel]')).filter((one) => !one.hidden).length, "
            "document.querySelectorAll('[role=tab][aria-selected=true]').length, byId('first').dataset.verdict];",
            address,
        )
        is_kind = got[1] in KINDS or got[1] == "" and got[5] == "unknown"  # what is refused has no kind
        is_right = got[0] == 0 and is_kind and got[2] in ("auto", "sddl", "hex", "base64") and got[3:5] == [1, 1]
        count.add(is_right, f"the address {address[:100]!r}: {got}")
    shown = page.see("O:BAD:(A;;FA;;;WD)")
    count.add("Everyone" in shown, f"after strange addresses: {shown[:200]}")
