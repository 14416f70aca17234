"""Compares windows/schema.toml with the schema of Windows Server, as Debian's samba-ad-provision brings it: each entry,
its name, what it is and the property set of an attribute; that no extended right, property set, validated write or
class of the schema is missing, no GUID that an ACE there names, no attribute with a descriptor in
windows/directory.toml, and no property of a certificate template. Compares each ACE of windows/defaults.toml with the
classes' defaultSecurityDescriptor, and with the descriptors that Samba gives to heads and containers. Without the files
it is skipped in a line.
"""
import ast
import base64
import pathlib
import re
import tomllib
import uuid

import preload

TOP = pathlib.Path(__file__).resolve().parents[2]
FOLDER = pathlib.Path("/usr/share/samba/setup")
KINDS = {"right": "right", "write": "validated write", "set": "property set", "class": "class", "attribute": "property"}
OF_ACCESSES = {"256": "right", "8": "validated write", "48": "property set"}
# MS-ADTS 5.1.3.2.2 names it. The schema's files only have it in ACEs.
NAMED_ELSEWHERE = {("9b026da6-0d3c-465c-8bee-5199d7165cba", "DS-Validated-Write-Computer", "validated write"),
                   # The documentation of Windows LAPS has it.
                   ("f3531ec6-6330-4f8e-8d39-7a671fbac605", "msLAPS-Encrypted-Password-Attributes", "property set"),
                   # That of Windows Server 2025 has it.
                   ("0feb936f-47b3-49f2-9386-1dedc2c23765", "msDS-DelegatedManagedServiceAccount", "class")}
# The syntax String(NT-Sec-Desc): MS-ADTS 3.1.1.2.2.2.
OF_DESCRIPTORS = "2.5.5.15"
GUID = "[0-9a-fA-F]{8}-[0-9a-fA-F]{4}-[0-9a-fA-F]{4}-[0-9a-fA-F]{4}-[0-9a-fA-F]{12}"
# GUIDs that ACEs of the schema name although nothing there has them.
NAMED_NOWHERE = {"736e4812-af31-11d2-b7df-00805f48caeb"}
RIGHTS = {"CC": 0x1, "DC": 0x2, "LC": 0x4, "SW": 0x8, "RP": 0x10, "WP": 0x20, "DT": 0x40, "LO": 0x80, "CR": 0x100,
          "SD": 0x10000, "RC": 0x20000, "WD": 0x40000, "WO": 0x80000, "GA": 0xf01ff, "GX": 0x20004, "GW": 0x20028,
          "GR": 0x20094}
TRUSTEES = {"AO": "S-1-5-32-548", "AU": "S-1-5-11", "DC": 515, "ED": "S-1-5-9", "PA": 520, "PO": "S-1-5-32-550",
            "PS": "S-1-5-10",
            "RO": 498, "DnsAdmins": "DnsAdmins"}
# What Samba gives to heads of naming contexts, by class, and to containers: functions of its descriptor.py.
SAMBA = pathlib.Path("/usr/lib/python3/dist-packages/samba/descriptor.py")
OF_SAMBA = {"domainDNS": "get_domain_descriptor", "samDomain": "get_domain_descriptor",
            "configuration": "get_config_descriptor",
            "sitesContainer": "get_config_sites_descriptor", "CN=Builtin": "get_domain_builtin_descriptor",
            "CN=Users": "get_domain_users_descriptor", "CN=Computers": "get_domain_computers_descriptor",
            "CN=Managed Service Accounts": "get_managed_service_accounts_descriptor",
            "CN=MicrosoftDNS": "get_dns_domain_microsoft_dns_descriptor"}
# Windows' own ACEs that neither has: trustee and object type.
NOT_OF_SAMBA = {
    # Key credentials came with Windows Server 2016: MS-ADTS 6.1.1.2.
    (526, "msDS-KeyCredentialLink"), (527, "msDS-KeyCredentialLink"), ("S-1-5-10", "DS-Validated-Write-Computer"),
    ("S-1-5-10", "msDS-AllowedToActOnBehalfOfOtherIdentity"),
    # A schema's own head: MS-ADTS 6.1.1.1.
    ("S-1-5-9", "DS-Replication-Get-Changes"), (498, "DS-Replication-Get-Changes"),
    (498, "DS-Replication-Get-Changes-All"),
    # Policies, and templates that come with a certification authority.
    (520, ""), (513, "Certificate-Enrollment"), (515, "Certificate-Enrollment"),
}


def text_of(path):
    """A file with its folded lines joined."""
    text = path.read_bytes().decode("latin-1").replace("\r", "")
    return re.sub(r"\n (?! )", "", re.sub(r" +\n", "\n", text))


def entries(text):
    """The entries of a file of LDIF or of its like: the values of each attribute."""
    for block in re.split(r"\n\s*\n", text):
        found = {}
        for line in block.split("\n"):
            one = re.match(r"(?:\$\{INC2012\})?([A-Za-z-]+)(::?) *(.+)$", line)
            if one:
                found.setdefault(one[1].lower(), []).append((one[2], one[3].strip()))
        yield found


def guid_of(mark, value):
    return str(uuid.UUID(bytes_le=base64.b64decode(value)) if mark == "::" else uuid.UUID(value))


def classes_and_attributes(folder):
    for path in sorted(folder.glob("ad-schema/*[Cc]lass*")) + sorted(folder.glob("ad-schema/*[Aa]ttributes*")):
        kind = "class" if "lass" in path.name else "property"
        for entry in entries(text_of(path)):
            if "schemaidguid" in entry and "ldapdisplayname" in entry:
                yield guid_of(*entry["schemaidguid"][0]), entry["ldapdisplayname"][0][1], kind


def rights(folder):
    for name in ("extended-rights.ldif", "adprep/WindowsServerDocs/Schema-Updates.md"):
        for entry in entries(text_of(folder / name)):
            if "rightsguid" in entry and "validaccesses" in entry:
                name = re.match("CN=([^,]*),", entry["dn"][0][1])[1]
                yield entry["rightsguid"][0][1].lower(), name, OF_ACCESSES[entry["validaccesses"][0][1]]


def judge_shown(count, folder):
    """What Windows calls each property set. Of rights and writes these files have other names."""
    names = {entry["rightsguid"][0][1].lower(): entry["displayname"][0][1]
             for entry in entries(text_of(folder / "extended-rights.ldif")) if "rightsguid" in entry}
    for name, row in rows()["set"].items():
        count.add(row.get("shown") == names.get(row["guid"]), f"{name} is shown as {names.get(row['guid'])}")


def named_in_aces(folder):
    for path in sorted(folder.glob("ad-schema/*")):
        for ace in re.findall(r"\(O[ADU];[^()]*\)", text_of(path)):
            yield from (guid.lower() for guid in re.findall(GUID, ace))


def rows():
    with open(TOP / "windows/schema.toml", "rb") as file:
        return tomllib.load(file)


def table():
    """The entries of the table."""
    for kind, entries_of in rows().items():
        for name, row in entries_of.items():
            yield row["guid"], name, KINDS[kind]


def sets_of(folder):
    """The property set of each attribute that is a member of one."""
    found = {}
    for path in sorted(folder.glob("ad-schema/*[Aa]ttributes*")):
        for entry in entries(text_of(path)):
            if "schemaidguid" in entry and "attributesecurityguid" in entry:
                found[guid_of(*entry["schemaidguid"][0])] = guid_of(*entry["attributesecurityguid"][0])
    return found


def judge_sets(count, folder):
    of_schema = sets_of(folder)
    count.add(len(of_schema) > 100, f"the schema has only {len(of_schema)} members of property sets")
    for name, row in rows()["attribute"].items():
        count.add(row.get("set") == of_schema.get(row["guid"]),
                  f"the property set of {name} is {of_schema.get(row['guid'])}")


def judge_descriptors(count, folder):
    """Each attribute whose values are descriptors, but for that of the object itself. That of a class is text."""
    all_entries = (entry for path in folder.glob("ad-schema/*[Aa]ttributes*") for entry in entries(text_of(path)))
    named = {entry["ldapdisplayname"][0][1] for entry in all_entries
             if entry.get("attributesyntax", [("", "")])[0][1] == OF_DESCRIPTORS and "ldapdisplayname" in entry}
    with open(TOP / "windows/directory.toml", "rb") as file:
        ours = set(tomllib.load(file)["descriptor"])
    wanted = named - {"nTSecurityDescriptor"} | {"defaultSecurityDescriptor"}
    count.add("nTSecurityDescriptor" in named and ours == wanted, f"attributes with descriptors: {named ^ ours}")


CONTAINS = ("mustcontain", "maycontain", "systemmustcontain", "systemmaycontain")
ABOVE = ("subclassof", "auxiliaryclass", "systemauxiliaryclass")


def values_of(entry, keys):
    """The names that some attributes of an entry have, several of them perhaps in one value."""
    return {name.strip() for key in keys for _, value in entry.get(key, ()) for name in value.split(",")}


def properties_of(folder, of_class):
    """The attributes that objects of a class may have, with those of the classes above it."""
    found = {}
    for path in sorted(folder.glob("ad-schema/*[Cc]lass*")):
        for entry in entries(text_of(path)):
            if "ldapdisplayname" in entry and "subclassof" in entry:
                found.setdefault(entry["ldapdisplayname"][0][1], []).append(entry)
    waiting, seen, named = [of_class], set(), set()
    while waiting:
        name = waiting.pop()
        seen.add(name)
        for entry in found.get(name, ()):
            named |= values_of(entry, CONTAINS)
            waiting += values_of(entry, ABOVE) - seen
    return named


def judge_templates(count, folder):
    """The properties that change a template are those of its class that can be written, and of which a name is known
    here. Whoever renames an object writes its name."""
    all_entries = [entry for path in folder.glob("ad-schema/*[Aa]ttributes*") for entry in entries(text_of(path))]
    written = {entry["ldapdisplayname"][0][1] for entry in all_entries
               if "ldapdisplayname" in entry and entry.get("systemonly", [("", "FALSE")])[0][1] == "FALSE"}
    wanted = properties_of(folder, "pKICertificateTemplate") & (written | {"name"}) & set(rows()["attribute"])
    with open(TOP / "windows/directory.toml", "rb") as file:
        ours, = (row["types"] for row in tomllib.load(file)["ability"] if row["name"] == "template-edit")
    count.add("cn" in wanted and {"?", *wanted} == set(ours), f"properties of templates: {wanted ^ set(ours)}")


def mask_of(rights):
    return int(rights, 16) if rights.startswith("0x") else sum(RIGHTS[name] for name in re.findall("..", rights))


def allowed_in(sddl):
    """What each ACE of a text allows: trustee, mask, object type and inherited type, and whether children inherit
    it."""
    for kind, flags, rights, object_type, inherited, trustee in re.findall(
            r"\((O?A);(\w*);(\w+);([\w-]*);([\w-]*);([\w-]+)\)", sddl.partition("S:")[0]):
        yield TRUSTEES.get(trustee, trustee), mask_of(rights), object_type.lower(), inherited.lower(), "CI" in flags


def defaults_of(folder):
    """What the ACEs of classes allow by default in any version of the schema, and those that Samba gives to places."""
    found = {}
    for path in sorted(folder.glob("ad-schema/*[Cc]lass*")):
        for entry in entries(text_of(path)):
            if "defaultsecuritydescriptor" in entry and "ldapdisplayname" in entry:
                found.setdefault(entry["ldapdisplayname"][0][1],
                                 set()).update(allowed_in(entry["defaultsecuritydescriptor"][0][1]))
    if SAMBA.exists():
        texts = {one.name: "".join(word.value for word in ast.walk(one) if isinstance(word, ast.Constant)
                                   and isinstance(word.value, str))
                 for one in ast.parse(SAMBA.read_text(encoding="utf-8")).body if isinstance(one, ast.FunctionDef)}
        for place, name in OF_SAMBA.items():
            found.setdefault(place, set()).update(allowed_in(texts[name]))
    return found


def judge_defaults(count, folder):
    """Each row of windows/defaults.toml for directory objects is an ACE of each of its classes and places."""
    found = defaults_of(folder)
    guids = {name: row["guid"] for kind in ("attribute", "set", "class", "right", "write")
             for name, row in rows()[kind].items()}
    judged, elsewhere = 0, set()
    with open(TOP / "windows/defaults.toml", "rb") as file:
        of_directory = [row for row in tomllib.load(file)["default"] if "kinds" not in row]
    for row in of_directory:
        who = row.get("sid") or row.get("account") or row["number"]
        ace = (mask_of(row["rights"]), guids[row["object"]] if row.get("object") else "",
               guids[row["inherited"]] if "inherited" in row else "")
        for place in (*row.get("classes", ()), *row.get("at", ())):
            is_there = any(one[0] == who and one[1:4] == ace and one[4] >= row.get("below", False)
                           for one in found.get(place, ()))
            judged += is_there
            if not is_there and (who, row.get("object")) in NOT_OF_SAMBA:
                elsewhere.add((who, row.get("object")))
            else:
                count.add(is_there or not SAMBA.exists() and place in OF_SAMBA,
                          f"{place} gives no {who} {row['rights']} {row.get('object')}")
    count.add(judged > 50, f"only {judged} defaults are in the schema")
    count.add(elsewhere == NOT_OF_SAMBA, f"the schema has {NOT_OF_SAMBA - elsewhere}")


def judge(count, folder):
    ours = list(table())
    schema, extended = set(classes_and_attributes(folder)), set(rights(folder))
    for entry in ours:
        count.add(entry in schema | extended | NAMED_ELSEWHERE, f"the schema does not have {entry}")
    count.add(len(ours) == len(set(ours)), "an entry twice")
    for entry in sorted(extended) + sorted(one for one in schema if one[2] == "class"):
        count.add(entry in ours, f"the table does not have {entry}")
    known = {guid for guid, _, _ in ours}
    aces = set(named_in_aces(folder))
    count.add(len(aces) > 20, f"ACEs of the schema name only {len(aces)} GUIDs")
    for guid in sorted(aces - NAMED_NOWHERE):
        count.add(guid in known, f"an ACE of the schema names {guid}")


def add_options(parser):
    parser.add_argument("--folder", type=pathlib.Path, default=FOLDER)


def main(count: preload.Count, given: preload.Given) -> None:
    folder = given.folder
    if (folder / "extended-rights.ldif").exists():
        judge(count, folder)
        judge_sets(count, folder)
        judge_shown(count, folder)
        judge_descriptors(count, folder)
        judge_templates(count, folder)
        judge_defaults(count, folder)
    else:
        print(f"skipped: no schema in {folder} (Debian: samba-ad-provision)")
