"""Runs the rows of windows/examples.toml on sdtool-audit or the page. It runs over the library in out/lib or the one
that SDTOOL_LIBRARY names. With --page it runs them on the page, in Node over the module that `make wasm` builds: as a
paste, by a link, and opened in a report of sdtool-audit, whose own findings have to be the same. The rows were worked
out by hand: each has the findings that there have to be, and no others. Where a row has no class these may depend on
it, in words, which are the same ones in the report and on the page; so are they of each row of a directory once its
class is taken away. Behind them come the descriptors that the classes of Windows' schema give to their objects, if
Debian's samba-ad-provision is there: nothing is to be found in them.
"""
import base64
import csv
import functools
import json
import os
import pathlib
import re
import shutil
import subprocess
import sys
import tempfile
import tomllib

import page_schema
import preload
from abilities import otherwise_on_page
from reference import binary, sddl_reading

TOP = pathlib.Path(__file__).resolve().parents[2]
SECONDS = 1200
FRONT = '<script type="application/json" id="report">'  # of the page, before a report
os.environ["SDTOOL_LIBRARY"] = preload.LIBRARY
sys.path.insert(0, str(TOP / "python"))


DOMAIN = "S-1-5-21-1-2-3"
GIVEN = "given-by-windows"
# The last numbers of the SIDs of a domain's aliases: MS-DTYP 2.5.1.1.
NUMBERS = {"CA": 517, "DA": 512, "DC": 515, "DD": 516, "DU": 513, "EA": 519, "PA": 520, "RO": 498, "RS": 553, "SA": 518}


def classes():
    """The descriptor that each class of a schema gives to its objects, with the classes above it."""
    for path in sorted(page_schema.FOLDER.glob("ad-schema/*[Cc]lass*")):
        given = [one for one in page_schema.entries(page_schema.text_of(path)) if "subclassof" in one
                 and "ldapdisplayname" in one]
        above = {one["ldapdisplayname"][0][1]: one["subclassof"][0][1] for one in given}
        for one in given:
            chain = [one["ldapdisplayname"][0][1]]
            while above.get(chain[0], chain[0]) != chain[0]:
                chain.insert(0, above[chain[0]])
            for _, text in one.get("defaultsecuritydescriptor", ()):
                named = re.sub(r";([A-Z]{2})\)", lambda found: f";{DOMAIN}-{NUMBERS[found[1]]})" if found[1] in NUMBERS
                               else found[0], re.sub(r"S-1-5-21-\d+-\d+-\d+", DOMAIN, re.sub(r"D:\s+", "D:", text)))
                yield ",".join(chain), named if named.startswith("O:") else f"O:{DOMAIN}-512{named}"


@functools.lru_cache(None)
def rows():
    with open(TOP / "windows/examples.toml", "rb") as file:
        return [*tomllib.load(file)["rows"],
                *({"kind": "ds", "place": place, "sddl": text} for place, text in sorted(set(classes())))]


def notes():
    """The rules whose findings are notes, but for what the rows have."""
    with open(TOP / "windows/rules.toml", "rb") as file:
        return {row["name"] for row in tomllib.load(file)["rule"] if row["severity"] == "note"} - {GIVEN}


def wanted(row):
    """The findings of a row: rule, trustee, the rights that have to be among those found, and the severity if it has
    one."""
    return [(rule, sid, set(filter(None, words.split(", "))), severity) for rule, sid, words, *severity in
            (one.split("|") for one in (*row.get("finds", ()), *(f"{GIVEN}|{one}" for one in row.get("given", ()))))]


def difference(found, row):
    """What is wrong with findings, which are rule, trustee, the names of all rights, and what their severity may be."""
    missing = [one for one in wanted(row)
               if not any(one[:2] == other[:2] and one[2] <= other[2] and {*one[3]} <= {*other[3]} for other in found)]
    other = [one for one in found if one[:2] not in [expected[:2] for expected in wanted(row)]]
    said = []
    if missing:
        said.append(f"missing {missing}")
    if other:
        said.append(f"not wanted {other}")
    if said:
        said.append(f"found {found}")
    return "; ".join(said)


def of_audit():
    from sdtool.audit.protocols import Context
    from sdtool.audit.questions import risks
    from sdtool.audit.sources.places import Place
    from sdtool.audit.windows import rights
    from sdtool.audit.windows.names import Names, Trust

    # The names of rights are told by bits, whatever a mask as a whole is called.
    rights.short_text = rights.text
    rights.level_of = lambda found, had, asked, kind: (found, rights.text(found, kind))
    for row in rows():
        trust = Trust((), (row["domain"],) if "domain" in row else ())
        question = risks.Risks(Context("", Names()), risks.RiskOptions(trust))
        place = Place(tuple(row["place"].split(","))).text() if "place" in row else ""
        answer = question.answer("sddl", row["kind"], [row["sddl"]], place)[0]
        found = []
        for one in answer.findings:
            if one.rule not in notes():
                found.append((one.rule, sid_in(one.trustee), set(one.rights.split(", ")), [one.severity]))
        if answer.status == "unknown":
            found.append(("unknown", answer.reason, set(), []))
        yield row, found


# Attributes with a password of the older LAPS and of Windows LAPS, by their documentation.
PASSWORDS = ("ms-Mcs-AdmPwd", "msLAPS-Password", "msLAPS-EncryptedPassword", "msLAPS-EncryptedPasswordHistory",
             "msLAPS-EncryptedDSRMPassword", "msLAPS-EncryptedDSRMPasswordHistory")


def judge_schema(count):
    """An attribute whose GUID a schema alone knows."""
    from sdtool.audit.protocols import Context
    from sdtool.audit.questions import risks
    from sdtool.audit.sources.places import Place
    from sdtool.audit.windows.names import Names

    guid = "12345678-0000-4000-8000-0000000000ab"
    computer = Place(("top", "person", "organizationalPerson", "user", "computer")).text()
    for name, wanted in (*((name, ["laps-read"]) for name in PASSWORDS), ("msLAPS-PasswordExpirationTime", [])):
        question = risks.Risks(Context("", Names()), risks.RiskOptions(named_types={name: guid}))
        text = f"O:{DOMAIN}-512D:(OA;;CR;{guid};;{DOMAIN}-1105)"
        found = [one.rule for one in question.answer("sddl", "ds", [text], computer)[0].findings]
        count.add(found == wanted, f"{name} of a schema: {found}")


def with_door(number, row):
    """A row with the name of its object in a source of sdtool-audit, and its entry in LDIF if a directory has it."""
    row = {"place": "", "domain": "", **row, "name": f"row {number}"}
    classes = row["place"].split(",")
    if not row["place"]:
        return row
    name = f"DC=of{number},DC=test" if classes[-1] == "domainDNS" else f"CN=x,DC=of{number},DC=test"
    data = binary.layout(sddl_reading.from_sddl(row["sddl"].encode(), None))
    lines = [f"dn: {name}", *(f"objectClass: {one}" for one in classes),
             f"nTSecurityDescriptor:: {base64.b64encode(data).decode()}"]
    return {**row, "name": name, "entry": "\n".join(lines) + "\n"}


def sources_of(given, folder):
    """Files with the rows, for each kind one, and the words for each."""
    entries = [row["entry"] for row in given if "entry" in row]
    path = folder / "rows.ldif"
    path.write_text("\n".join(entries), encoding="utf-8")
    yield [path]
    for kind in sorted({row["kind"] for row in given}):
        path = folder / f"{kind}.csv"
        with open(path, "w", newline="", encoding="utf-8") as file:
            listed = [(row["name"], row["sddl"]) for row in given if row["kind"] == kind and "entry" not in row]
            csv.writer(file).writerows([("name", "sddl"), *listed])
        yield [path, "--type", kind]


def reports_of(given):
    """The lines of reports in the page, and what the same runs tell as JSON lines."""
    with tempfile.TemporaryDirectory() as name:
        page = pathlib.Path(name, "page.html")
        page.write_text(FRONT + "</script>", encoding="utf-8")
        environment = {**os.environ, "SDTOOL_PAGE": str(page), "PYTHONPATH": str(TOP / "python")}
        reports, told = "", []
        for source in sources_of(given, pathlib.Path(name)):
            words = [sys.executable, "-m", "sdtool.audit", "risks", *source, "--list", "all", "--to"]
            html, lines = (subprocess.run([*words, form], capture_output=True, text=True, env=environment,
                                          timeout=SECONDS).stdout for form in ("html", "jsonl"))
            reports += html.removeprefix(FRONT).removesuffix("</script>")
            told += map(json.loads, lines.splitlines())
        return reports, {one["name"]: one for one in told}


@functools.lru_cache(None)
def rights_of(kind):
    """The names of a kind's rights, by their bits."""
    with open(TOP / "windows/kinds.toml", "rb") as file:
        tables = tomllib.load(file)
    rows = {row["name"]: row for row in tables["kind"]}
    own = rows[kind].get("rights") or rows[rows[kind]["like"]]["rights"]
    return {right["bit"]: right["name"] for right in [*own, *tables["standard"]]}


SEVERITIES = {"danger": ["high"], "caution": ["medium", "low"]}  # by what the page calls them


def named(found, row):
    """What the page warns of: rule, trustee, the names of all rights and what its severity may be, and whether that
    depends on the class."""
    rights = {name for bit, name in rights_of(found.get("kind") or row["kind"]).items() if bit & found.get("mask", 0)}
    severities = SEVERITIES.get(found.get("level"), [])
    return (found["rule"], found.get("who", ""), rights, severities), "onlyOf" in found or "exceptOf" in found


# Names that say something only where the class is known.
NAMES = ("CN=Policies,CN=System", "DC=DomainDnsZones", "CN=AdminSDHolder,CN=System")


def without_classes():
    """The rows of directory objects without their classes."""
    return [{"kind": "ds", "sddl": text, "place": "", "domain": "", "name": f"{NAMES[at % 3]},DC=bare{at}"} for at, text
            in enumerate(dict.fromkeys(row["sddl"] for row in rows() if row["kind"] == "ds" and "domain" not in row))]


def judge_conditions(count, row, findings, warnings):
    """Whether a report and its page find the same, of the same classes."""
    of_kind = next((one["kind"] for one in warnings if "kind" in one), row["kind"])
    wrong = otherwise_on_page(findings, warnings, of_kind)
    count.add(not wrong, f"{row['kind']} {row['place']} {row['sddl']}, by the report and on its page: {wrong}")


def of_page(count, library):
    given = [with_door(number, row) for number, row in enumerate(rows())]
    bare = without_classes()
    report, told = reports_of([*(row for row in given if not row["domain"]), *bare])
    ended = subprocess.run(["node", str(TOP / "tests/audit/risk_rows.mjs"), library],
                           input=json.dumps({"rows": given + bare, "report": report}), capture_output=True, text=True,
                           timeout=SECONDS)
    if ended.returncode:
        print(ended.stderr)
        return
    answered = json.loads(ended.stdout)
    for row, doors in zip(bare, answered[len(given):]):
        judge_conditions(count, row, told[row["name"]]["findings"], doors["report"])
    for row, doors in zip(given, answered):
        what = f"{row['kind']} {row['place']} {row['sddl']}"
        count.add(("report" in doors) == (not row["domain"]), f"{what} by {sorted(doors)}")
        is_sure = row["kind"] != "ds" or bool(row["place"])
        for door, warned in doors.items():
            found = [named(one, row) for one in warned if one["rule"] not in notes()]
            count.add(not is_sure or not any(depends for _, depends in found), f"{door} of {what}: {found}")
            yield {**row, "door": door}, [one for one, _ in found]
        if "report" in doors:
            judge_conditions(count, row, told[row["name"]]["findings"], doors["report"])


def sid_in(text):
    found = re.search(r"S-1(?:-[0-9]+)+", text)
    return found[0] if found else ""


def add_options(words):
    words.add_argument("--page", action="store_true", help="on the rules of the page")
    words.add_argument("--library", default=str(TOP / "out/systems/wasm/sdtool.mjs"), help="the page's library")


def main(count: preload.Count, chosen: preload.Given) -> None:
    if chosen.page and not (shutil.which("node") and os.path.exists(chosen.library)):
        print(f"skipped: no Node, or no {chosen.library}")
        return
    told = set()
    for row, found in of_page(count, chosen.library) if chosen.page else of_audit():
        told.add((row["kind"], row.get("place", ""), row["sddl"], row.get("domain", "")))
        wrong = difference(found, row)
        count.add(not wrong,
                  f"{row.get('door', 'audit')}: {row['kind']} {row.get('place', '')} {row['sddl']}\n  {wrong}")
    all_rows = {(row["kind"], row.get("place", ""), row["sddl"], row.get("domain", "")) for row in rows()}
    count.add(told == all_rows, f"{len(told)} of {len(all_rows)} rows have run")
    if not chosen.page:
        judge_schema(count)
    if not page_schema.FOLDER.exists():
        print("skipped: the classes of a schema (Debian: samba-ad-provision)")
