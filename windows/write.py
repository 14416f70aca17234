#!/usr/bin/env python3
"""write.py [--check]

Writes what the tables of this folder say into python/sdtool/_windows.py, web/windows.mjs, and the BLOCKS of other
files. With --check it writes nothing: a stale file is a failure, and so is a table that contradicts itself. The last
line is then 'N passed, M failed'. It needs Python 3.11; what it writes doesn't.
"""
import argparse
import json
import pathlib
import re
import sys
import textwrap
import tomllib

sys.dont_write_bytecode = True
HERE = pathlib.Path(__file__).resolve().parent
TOP = HERE.parent
WIDTH = 120
# SDDL's names of rights.
RIGHTS = {"CC": 0x1, "DC": 0x2, "LC": 0x4, "SW": 0x8, "RP": 0x10, "WP": 0x20, "DT": 0x40, "LO": 0x80, "CR": 0x100,
          "SD": 0x10000, "RC": 0x20000, "WD": 0x40000, "WO": 0x80000}
DOES = ("change", "write", "delete", "permissions", "owner", "read", "execute", "attributes", "start", "stop",
        "control", "remote")
RISKS = ("takeover", "everybody", "adding", "anyone", "anonymous")
WHO = ("anyone", "logged-on", "application", "package", "service", "trusted", "stand-in", "other")
SEVERITIES = ("high", "medium", "low", "note")
TYPES = ("right", "write", "set", "class", "attribute")
COLUMNS = ("text", "count", "flag", "texts", "counts")
# What an ACE may grant for each type: MS-ADTS 5.1.3.3.
BITS_OF_TYPE = {"right": 0x100, "write": 0x8, "set": 0x30, "class": 0x3, "attribute": 0x30}
# Attributes that --schema alone names: LAPS adds them with GUIDs of the forest, and the last one came with Windows
# Server 2025.
OF_A_SCHEMA = ("ms-Mcs-AdmPwd", "msLAPS-Password", "msLAPS-EncryptedPassword", "msLAPS-EncryptedPasswordHistory",
               "msLAPS-EncryptedDSRMPassword", "msLAPS-EncryptedDSRMPasswordHistory",
               "msDS-ManagedAccountPrecededByLink")
GUID = re.compile(r"[0-9a-f]{8}-[0-9a-f]{4}-[0-9a-f]{4}-[0-9a-f]{4}-[0-9a-f]{12}")
SID = re.compile(r"S-1(-[0-9]+)+")


class TableFault(Exception):
    """A table contradicts itself."""


def expect(is_right, fault):
    if not is_right:
        raise TableFault(fault)


def table(name):
    with open(HERE / f"{name}.toml", "rb") as file:
        return tomllib.load(file)


def distinct(values, what):
    values = list(values)
    double = {value for value in values if values.count(value) > 1}
    expect(not double, f"{what} more than once: {sorted(double)}")


def read_sids():
    given = table("sids")
    usual = tuple(given["usual"]["also"])
    expect(set(given) == {"usual", "sid", "relative", "family"}, "sids.toml has another table")
    for row in given["sid"] + given["relative"] + given["family"]:
        expect(row["who"] in WHO, f"{row}: no such class")
        expect(set(row) <= {"sid", "number", "begins", "alias", "name", "plural", "who", "also", "of"},
               f"{row}: another key")
        expect(all(SID.fullmatch(sid) for sid in row.get("also", ())), f"{row}: no SID")
    expect(all(SID.fullmatch(row["sid"]) for row in given["sid"]), "a row has no SID")
    distinct((row["sid"] for row in given["sid"]), "a SID")
    distinct((row["number"] for row in given["relative"]), "a number")
    distinct((row["alias"] for row in given["sid"] + given["relative"] if "alias" in row), "an alias")

    def told(row):
        return row.get("alias", ""), row["name"], row["who"], tuple(row.get("also", usual))

    sids = {row["sid"]: told(row) for row in given["sid"]}
    relative = {row["number"]: (*told(row), row["of"]) for row in given["relative"]}
    families = tuple((row["begins"], row["name"], row["who"], tuple(row.get("also", usual))) for row in given["family"])
    plural = tuple(str(row.get("sid", row.get("number"))) for row in given["sid"] + given["relative"]
                   if row.get("plural"))
    return {"SIDS": sids, "OF_A_DOMAIN": relative, "FAMILIES": families, "PLURAL": plural, "USUAL": usual}


def mapping_of(row):
    return tuple(row[word] for word in ("read", "write", "execute", "all"))


def read_kinds():
    given = table("kinds")
    kinds = {}
    for row in given["kind"]:
        expect(set(row) <= {"name", "title", "library", "mapping", "alone", "inherits", "child", "below", "owner",
                            "rule", "masks", "rights",
                            "like"},
               f"{row['name']}: another key")
        expect(row["inherits"] in ("", "CI", "OICI"), f"{row['name']}: inherits")
        own = row.get("rights") or next(other["rights"] for other in given["kind"] if other["name"] == row["like"])
        rights = []
        for right in own if row.get("rule") else own + given["standard"]:
            expect(set(right["does"]) <= set(DOES) | {"look"}, f"{row['name']}: {right}")
            expect(right.get("risk", "") in ("", *RISKS), f"{row['name']}: {right}")
            expect(right["bit"].bit_count() == 1, f"{row['name']}: {right}")
            rights.append((right["bit"], right["name"], right["short"], right.get("says", right["name"]),
                           column(right["does"]), tuple(word for word in right["does"] if word != "look"),
                           right.get("risk", "")))
        distinct((right[0] for right in rights), f"{row['name']}: a bit")
        mapping = mapping_of(row["mapping"])
        expect(all(mask & ~mapping[3] == 0 for mask in mapping),
               f"{row['name']}: GENERIC_ALL lacks rights of another one")
        expect(all(flag in row["inherits"] for flag in row.get("below", ())), f"{row['name']}: below")
        kinds[row["name"]] = {
            "title": row["title"], "library": row.get("library", ""), "mapping": mapping,
            "alone": tuple(row.get("alone", ())),
            "below": tuple((flag, mapping_of(of_flag)) for flag, of_flag in row.get("below", {}).items()),
            "inherits": row["inherits"], "child": row.get("child", ""), "owner": row.get("owner", ""),
            "rule": row.get("rule", ""),
            "masks": tuple((mask, name) for name, mask in sorted(row["masks"].items(), key=lambda one: -one[1])),
            "rights": tuple(rights)}
    distinct((row["name"] for row in given["kind"]), "a kind")
    return {"KINDS": kinds}


def column(does):
    """The group of columns that a right belongs to on the page."""
    if {"permissions", "owner"} & set(does):
        return "control"
    if "change" in does or "write" in does:
        return "change"
    return "read" if "look" in does else "other"


class Schema:
    def __init__(self):
        self.rows = table("schema")
        expect(set(self.rows) == set(TYPES), "schema.toml has another table")
        self.guids = {kind: {name: row["guid"] for name, row in rows.items()} for kind, rows in self.rows.items()}
        for kind, rows in self.rows.items():
            expect(all(GUID.fullmatch(row["guid"]) for row in rows.values()), f"schema.toml: a GUID of {kind}")
            distinct((row["guid"] for row in rows.values()), f"schema.toml: a GUID of {kind}")

    def guid(self, name, *kinds):
        found = {self.guids[kind][name] for kind in kinds or TYPES if name in self.guids[kind]}
        expect(len(found) == 1, f"schema.toml has {name} {len(found)} times")
        return found.pop()

    def set_of(self, name):
        return self.rows["attribute"].get(name, {}).get("set", "")


def read_directory(schema, kinds):
    given = table("directory")
    kinds_of_right = {"CR": ("right", "set", "attribute"), "WP": ("attribute", "set"), "RP": ("attribute", "set"),
                      "SW": ("write",),
                      "CC": ("class",)}
    abilities = []
    for row in given["ability"]:
        expect(set(row) <= {"name", "right", "types", "all", "unless", "on", "only", "also", "known", "severity",
                            "says"}, f"{row['name']}: another key")
        expect(row["severity"] in SEVERITIES, f"{row['name']}: severity")
        types, named = [], []
        for name in row["types"]:
            if name in OF_A_SCHEMA:
                named.append(name)
            elif name in ("", "*", "?"):
                types.append((name,))
            else:
                of_set = "" if row.get("all") else schema.set_of(name)
                types.append((schema.guid(name, *kinds_of_right[row["right"]]), *filter(None, (of_set,))))
        for name in row.get("on", ()):
            expect(name in schema.guids["class"], f"{row['name']}: {name} is no class")
        abilities.append({"name": row["name"], "right": RIGHTS[row["right"]], "types": tuple(types),
                          "named": tuple(named),
                          "all": row.get("all", False), "unless": row.get("unless", ""), "on": tuple(row.get("on", ())),
                          "only": row.get("only", ""),
                          "also": tuple(row.get("also", ())), "known": row.get("known", False),
                          "severity": row["severity"], "says": row["says"]})
    harmless = tuple(schema.guid(name, "right") for name in given["harmless"]["rights"])
    protecting = given["protecting"]
    expect(set(given["condition"]) == {"only", "except", "or", "many"}, "directory.toml: another condition")
    expect(all(kind in ("", *kinds) for kind in given["descriptor"].values()),
           "directory.toml: an attribute of another kind")
    return {"ABILITIES": tuple(abilities), "HARMLESS": harmless, "DESCRIPTORS": given["descriptor"],
            "PROTECTING": (protecting["name"], tuple(protecting["classes"])), "CONDITION": given["condition"]}


def mask_of(row):
    return row["mask"] if "mask" in row else sum({RIGHTS[name] for name in re.findall("..", row["rights"])})


def read_defaults(schema, kinds):
    given, defaults = table("defaults"), []
    for row in given["default"]:
        expect(set(row) <= {"kinds", "classes", "at", "sid", "number", "account", "mask", "rights", "object",
                            "inherited", "below"}, f"{row}: another key")
        expect(len({"sid", "number", "account"} & set(row)) == 1, f"{row}: one trustee")
        expect(set(row.get("kinds", ())) <= set(kinds), f"{row}: no such kind")
        expect(set(row.get("classes", ())) <= set(schema.guids["class"]), f"{row}: no such class")
        defaults.append((tuple(row.get("kinds", ("ds", "template"))), tuple(row.get("classes", ())),
                         tuple(row.get("at", ())), row.get("sid") or row.get("account") or row["number"], mask_of(row),
                         schema.guid(row["object"]) if row.get("object") else row.get("object", "*"),
                         schema.guid(row["inherited"], "class") if "inherited" in row else "", row.get("below", False)))
    return {"DEFAULTS": tuple(defaults), "CONTAINERS": tuple(given["containers"])}


def read_rules():
    given, rules = table("rules"), []
    for row in given["rule"]:
        others = tuple(row.get(key, row["severity"]) for key in ("directory", "adding"))
        expect(set(row) <= {"name", "severity", "directory", "adding", "off", "reason", "page"}, f"{row}: another key")
        expect({row["severity"], *others} <= set(SEVERITIES), f"{row}: severity")
        rules.append((row["name"], row["severity"], row.get("off", False), row["reason"], row.get("page", ""),
                      *others))
    everybody = given["everybody"]
    expect(set(everybody) | set(given["quiet"]) <= set(WHO), "rules.toml: no such class")
    named = {row["rule"] for row in everybody.values()}
    expect(named <= {rule[0] for rule in rules}, "rules.toml: no such rule for everybody")
    expect(all(set(row["risks"]) <= set(RISKS) for row in everybody.values()), "rules.toml: no such risk")
    return {"SEVERITIES": SEVERITIES, "RULES": tuple(rules), "QUIET": tuple(given["quiet"]),
            "RULE_OF": {who: row["rule"] for who, row in everybody.items()},
            "RISKS_OF": {who: tuple(row["risks"]) for who, row in everybody.items()}}


def read_hints(kinds):
    found = table("hints")
    given, titles = found["hints"], found["titles"]
    expect(set(titles) == {"descriptor", "name", "share"}, "hints.toml: other titles")
    expect(all(re.fullmatch("[a-z]+", title) for row in titles.values() for title in row), "hints.toml: a title")
    for row in given:
        expect(set(row) <= {"kind", "property", "key", "value", "name", "before", "text"}, f"{row}: another key")
        expect(row["kind"] in kinds, f"{row}: no such kind")
        patterns = [row[key] for key in ("key", "name", "before", "text") if key in row]
        expect(not any(re.compile(pattern).groups for pattern in patterns), f"{row}: a group that captures")
    return {"HINTS": tuple({key: tuple(value) if isinstance(value, list) else value for key, value in row.items()}
                           for row in given), "TITLES": {what: tuple(row) for what, row in titles.items()}}


def read_listings():
    given = table("listings")
    words = {name: tuple(given["attributes"][name]) for name in ("deny-only", "enabled")}
    expect(set(given["attributes"]) == set(words), "listings.toml: another kind of attributes")
    expect(all(word == word.lower() for row in words.values() for word in row),
           "listings.toml: a word isn't in lower case")
    distinct((word for row in words.values() for word in row), "listings.toml: a word")
    for row in given["privilege"]:
        expect(set(row) in ({"name", "check"}, {"name", "lets"}), f"{row}: another key")
        expect(row.get("check", "security") in ("security", "take-ownership"), f"{row}: no check has this privilege")
    distinct((row["name"] for row in given["privilege"]), "a privilege")
    return {"ATTRIBUTES": words, "PRIVILEGES": {row["name"]: (row.get("check", ""), row.get("lets", ""))
                                                for row in given["privilege"]}}


PARTS = ("owner", "group", "dacl", "sacl", "label")
PLACES_OF_FORMS = ("name", "sddl", "hex", "sections", "audit", "step", "directory", "key")


def read_commands(kinds):
    given = table("commands")["command"]
    for row in given:
        expect({"tool", "shell", "kinds", "form", "sets"} <= set(row), f"{row}: a key is missing")
        expect(set(row) <= {"tool", "shell", "kinds", "at", "name", "form", "sets", "needs", "by", "native",
                            "numbers", "sorts"}, f"{row}: another key")
        expect(row["shell"] in ("powershell", "posix"), f"{row}: no such shell")
        expect(set(row["kinds"]) <= set(kinds), f"{row}: no such kind")
        expect(row.get("at", "unix") in ("windows", "unix", "network"), f"{row}: no such place")
        expect(set(row["sets"]) | set(row.get("needs", ())) <= set(PARTS), f"{row}: no such part")
        expect(row.get("by", "steps") in ("sections", "steps", "grant", "bytes", "whole"), f"{row}: by")
        places = re.findall(r"(?<!@)\{[^{}]*?(\w+)\}", row["form"])
        expect(set(places) <= set(PLACES_OF_FORMS) and ("name" in places) == ("name" in row), f"{row}: form")
    missing = {"at": "", "name": "", "needs": (), "by": "", "native": False, "numbers": False, "sorts": False}
    return {"COMMANDS": tuple({**missing, **{key: tuple(value) if isinstance(value, list) else value
                                             for key, value in row.items()}} for row in given)}


def read_errors():
    """The rows of errors by their numbers, each with its name, its parts and what it means without marks and links."""
    errors = {}
    for line, row in table("errors").items():
        number, name, *parts = line.split(" ")
        expect(set(row) <= {"means", "audit", "page", "header"}, f"error {line}: another key")
        expect({2} == {len(pair) for key, pair in row.items() if key != "header"}, f"error {line}: no pair")
        expect(int(number) > max(errors, default=0), f"error {line}: the numbers aren't in order")
        expect(set(parts) <= {"PART"}, f"error {line}: a part")
        expect(("page" in row) == (int(number) < 60), f"error {line}: the page's words")
        errors[int(number)] = {**row, "name": name, "parts": parts, "meaning": without_marks(row["means"][0])}
    return {"ERRORS": errors}


def without_marks(text):
    """A text without links and backticks."""
    return re.sub(r"\[([^]]*)\]\([^)]*\)", r"\1", text).replace("`", "")


def read_report():
    given = table("report")
    rows = given["row"]
    expect(not set(rows) & set(COLUMNS), "report.toml: a row has the name of a type")
    named = {kind for row in rows.values() for kind in row.values()}
    expect(named <= {*rows, *COLUMNS}, "report.toml: a column of another type")
    return {"REPORT": {"version": given["version"], "rows": rows}}


def all_tables():
    schema = Schema()
    kinds = read_kinds()
    tables = {**read_sids(), **kinds, **read_directory(schema, kinds["KINDS"]), **read_defaults(schema, kinds["KINDS"]),
              **read_rules(), **read_listings(), **read_hints(kinds["KINDS"]), **read_commands(kinds["KINDS"]),
              **read_report(), **read_errors()}
    return tables, schema


# How Python and JavaScript spell it.

def in_lines(items, indent, most):
    """The lines of spelled items, (text, value). Texts and numbers share a line while they fit."""
    lines, shares = [], False
    for text, value in items:
        is_plain = not isinstance(value, (dict, list, tuple)) and "\n" not in text
        if is_plain and shares and len(lines[-1]) + len(text) + 1 < most:
            lines[-1] += f" {text},"
        else:
            lines.append(f"{indent}{text},")
        shares = is_plain
    return "\n".join(lines)


def python_value(value, indent, before=0):
    """A value in Python, behind so many columns of a line: what fits in the line stays in it, and rows are lines."""
    line = spelled(value)
    if len(indent) + before + len(line) < WIDTH:
        return line
    if isinstance(value, str):  # over two lines
        at = line.rindex(" ", 0, WIDTH - len(indent) - before - 1) + 1
        return f'{line[:at]}"\n{indent}"{line[at:]}'
    more = indent + "    "
    if isinstance(value, dict):
        rows = [(f"{spelled(key)}: {python_value(item, more, len(spelled(key)) + 2)}", item)
                for key, item in value.items()]
        return "{\n" + in_lines(rows, more, WIDTH) + f"\n{indent}}}"
    if isinstance(value, tuple):
        return "(\n" + in_lines([(python_value(item, more), item) for item in value], more, WIDTH) + f"\n{indent})"
    return line


def spelled(value):
    if isinstance(value, str):
        return json.dumps(value, ensure_ascii=False)
    if isinstance(value, bool) or value is None:
        return repr(value)
    if isinstance(value, int):
        return hex(value) if value > 9999 else str(value)
    if isinstance(value, dict):
        return "{" + ", ".join(f"{spelled(key)}: {spelled(item)}" for key, item in value.items()) + "}"
    inside = ", ".join(map(spelled, value))
    return f"({inside},)" if len(value) == 1 else f"({inside})"


def python_text(tables, schema):
    names = {}
    for kind in ("attribute", "set", "class", "right", "write"):  # the first one names a GUID that is several things
        for name, guid in schema.guids[kind].items():
            names.setdefault(guid, name)
    lines = ['"""What Windows means by SIDs, rights, kinds of objects and types, and what errors mean, by '
             'windows/write.py."""', "from typing import Any, Dict, Tuple", ""]
    comments = {
        "SIDS": ("Dict[str, Tuple[str, str, str, Tuple[str, ...]]]",
                 "By SID: the alias, the name, who has it, what a token has besides."),
        "OF_A_DOMAIN": ("Dict[int, Tuple[str, str, str, Tuple[str, ...], str]]",
                        "The same by the last number of a domain's SID, and whose domain."),
        "FAMILIES": ("Tuple[Tuple[str, str, str, Tuple[str, ...]], ...]",
                     "How SIDs begin, with name, who and what a token has besides."),
        "USUAL": ("Tuple[str, ...]", "What a token has besides its SID, if nothing else is said."),
        "KINDS": ("Dict[str, Dict[str, Any]]",
                  "Kinds of objects. A right is (bit, name, short, says, column, does, risk)."),
        "ABILITIES": ("Tuple[Dict[str, Any], ...]",
                      "What rights of a directory object let somebody do. A type has its property set behind it."),
        "HARMLESS": ("Tuple[str, ...]", "Extended rights that do nothing that counts."),
        "DESCRIPTORS": ("Dict[str, str]", "Attributes whose values are descriptors, with the kind that their ACEs are "
                        "for, if it is known."),
        "PROTECTING": ("Tuple[str, Tuple[str, ...]]",
                       "The first part of an object's name, and the classes that get its DACL."),
        "CONDITION": ("Dict[str, str]",
                      "How a finding begins that depends on the class of an object, which isn't known."),
        "DEFAULTS": ("Tuple[Tuple[Any, ...], ...]", "Windows' own ACEs: kinds, classes, places, trustee, mask, object "
                     "type, inherited type, below."),
        "CONTAINERS": ("Tuple[str, ...]", "What their places are below, beside the heads of naming contexts."),
        "SEVERITIES": ("Tuple[str, ...]", "How grave a finding is, the gravest first."),
        "RULES": ("Tuple[Tuple[str, str, bool, str, str, str, str], ...]",
                  "Rules of risks: name, severity, whether it is off, reason, words of the page, severities in a "
                  "directory and of adding."),
        "ATTRIBUTES": ("Dict[str, Tuple[str, ...]]",
                       "What whoami says of a group that counts against its holder alone, and of one that is enabled."),
        "PRIVILEGES": ("Dict[str, Tuple[str, str]]",
                       "By privilege: its word in a check, and what it lets its holder do beside checks."),
        "RULE_OF": ("Dict[str, str]", "The rule for each class of everybody,"),
        "RISKS_OF": ("Dict[str, Tuple[str, ...]]", "and the risks of rights that count for it."),
        "QUIET": ("Tuple[str, ...]", "Classes whose having a right is no finding."),
        "HINTS": ("Tuple[Dict[str, Any], ...]", "What tells the kind of an object, the first that fits."),
        "TITLES": ("Dict[str, Tuple[str, ...]]",
                   "Titles of columns and members with descriptors, with names, and of shares."),
        "REPORT": ("Dict[str, Any]",
                   "The report in the page: its version, and of each row the columns with their types."),
    }
    for name, (kind, comment) in comments.items():
        lines += [f"# {comment}", f"{name}: {kind} = {python_value(tables[name], '')}"]
    lines += ["# Names of object types.",
              f"OBJECT_TYPES: Dict[str, str] = {python_value(dict(sorted(names.items())), '')}", "# GUIDs of classes.",
              f"CLASSES: Dict[str, str] = {python_value(schema.guids['class'], '')}"]
    errors_of_audit = {number: tuple(row.get("audit", ("", without_marks(row["means"][1]))))
                       for number, row in tables["ERRORS"].items() if number < 60}
    lines += ["# What an error means to somebody with an object, if that isn't what Fault.meaning says, and what "
              "would help.", f"ERRORS: Dict[int, Tuple[str, str]] = {python_value(errors_of_audit, '')}"]
    return "\n".join(lines) + "\n"


def plain(value):
    """A value as JSON has it."""
    if isinstance(value, dict):
        return {str(key): plain(item) for key, item in value.items()}
    return [plain(item) for item in value] if isinstance(value, tuple) else value


def json_value(value, indent):
    line = json.dumps(value, ensure_ascii=False)
    if len(line) + len(indent) <= 116 or not isinstance(value, (dict, list)):
        return line
    more = indent + "    "
    if isinstance(value, dict):
        # The members of a row share lines.
        rows = [(f"{json.dumps(key)}: {json_value(item, more)}", None if indent else item)
                for key, item in value.items()]
        return "{\n" + in_lines(rows, more, 120) + f"\n{indent}}}"
    return "[\n" + in_lines([(json_value(item, more), item) for item in value], more, 120) + f"\n{indent}]"


def folded_types(rows):
    """GUIDs and names of a type: the end of GUIDs, and then for each with that end its first eight digits and its
    name."""
    by_end = {}
    for name, row in rows.items():
        by_end.setdefault(row["guid"][8:], []).append((row["guid"][:8], name))
    words = []
    for end in sorted(by_end):
        words.append(end)
        words += [word for pair in sorted(by_end[end]) for word in pair]
    return " ".join(words)


def of_page(name, tables):
    """A table as the page needs it: without a schema's names and what documents say. What a token has besides is null
    where it is the usual."""
    table_of = tables[name]
    if name == "ABILITIES":
        return tuple({key: value for key, value in row.items() if key != "named"} for row in table_of)
    if name == "KINDS":
        return {kind: {**{key: value for key, value in row.items() if key not in ("title", "child")},
                       "rights": tuple((bit, *more) for bit, _, *more in row["rights"])}
                for kind, row in table_of.items()}
    if name == "ERRORS":
        return {number: tuple(row["page"]) for number, row in table_of.items() if "page" in row}
    if name == "RULES":
        return tuple((rule, severity, *more) for rule, severity, _, _, *more in table_of)
    if name == "HINTS":
        return tuple(hint for hint in table_of if "name" not in hint or "before" in hint)
    if name == "OF_A_DOMAIN":
        return {key: without_usual(row[:4], tables) for key, row in table_of.items()}
    if name == "SIDS":
        return {key: without_usual(row, tables) for key, row in table_of.items()}
    return tuple(without_usual(row, tables) for row in table_of) if name == "FAMILIES" else table_of


def without_usual(row, tables):
    return (*row[:3], None if row[3] == tables["USUAL"] else row[3])


def script_type(*values):
    """The type of values as JSDoc has it. A list with items of several types is a tuple."""
    if not isinstance(values[0], list):
        return " | ".join(sorted({{bool: "boolean", int: "number", str: "string"}[type(value)] for value in values}))
    if len({type(item) for value in values for item in value}) > 1:
        return f"[{', '.join(script_type(*items) for items in zip(*values, strict=True))}]"
    return f"({script_type(*(item for value in values for item in value))})[]"


def script_text(tables, schema):
    lines = ["// What Windows means by SIDs, rights, kinds of objects and types, and what errors mean, by "
             "windows/write.py."]
    for name in ("SIDS", "OF_A_DOMAIN", "FAMILIES", "PLURAL", "USUAL", "KINDS", "ABILITIES", "HARMLESS", "DESCRIPTORS",
                 "PROTECTING", "CONDITION", "DEFAULTS", "CONTAINERS", "SEVERITIES", "RULES", "RULE_OF", "RISKS_OF",
                 "QUIET", "ATTRIBUTES", "PRIVILEGES", "HINTS", "TITLES", "COMMANDS", "REPORT", "ERRORS"):
        value = plain(of_page(name, tables))
        if name in ("PROTECTING", "DEFAULTS"):
            lines.append(f"/** @type {{{script_type(value)}}} */")
        lines.append(f"export const {name} = {json_value(value, '')};")
    shown = {name: row["shown"] for rows in schema.rows.values() for name, row in rows.items() if "shown" in row}
    lines.append(f"export const SHOWN = {json_value(shown, '')};")
    lines.append("// Of each type the end of GUIDs, and then for each GUID with that end its first eight digits and "
                 "its name.")
    lines.append(f"export const TYPES = {json_value({kind: folded_types(schema.rows[kind]) for kind in TYPES}, '')};")
    lines.append("// The rights that an ACE may grant for an object type of a type.")
    lines.append(f"export const BITS_OF_TYPE = {json_value(BITS_OF_TYPE, '')};")
    return "\n".join(lines) + "\n"


# The tables of documents.

def alias_block(tables):
    rows = [(alias, sid, name) for sid, (alias, name, _, _) in tables["SIDS"].items() if alias]
    return ["```", *(f"{alias}  {sid:18}  {name}" for alias, sid, name in rows), "```"]


def relative_block(tables):
    rows = sorted((number, row[:2]) for number, row in tables["OF_A_DOMAIN"].items() if row[0])
    return ["```", *(f"{alias}  {number}  {name}" for number, (alias, name) in rows), "```"]


def kind_list(tables):
    for name, kind in tables["KINDS"].items():
        risky = ", ".join(right[1] for right in kind["rights"] if right[6] and right[0] < 0x10000)
        yield f"- `{name}`, {kind['title']}: {risky}"


def rule_list(tables):
    for name, severity, off, reason, _, *others in tables["RULES"]:
        said = [severity, "off" if off else "", *(f"{where}: {other}" for where, other in
                                                  zip(("directory", "adding"), others) if other != severity)]
        yield f"- `{name}` ({', '.join(filter(None, said))}): {reason}"


def ability_list(tables):
    for name in dict.fromkeys(one["name"] for one in tables["ABILITIES"]):
        first = next(one for one in tables["ABILITIES"] if one["name"] == name)
        said = "" if first["severity"] == "high" else f" ({first['severity']})"
        yield f"- `{name}`{said}: {first['says']}"


# What errors mean: the lines of each.

def sentence(row):
    return f"{row['meaning'][0].upper()}{row['meaning'][1:]}."


def document_rows(number, row):
    return [f"| `error {' '.join([str(number), row['name'], *row['parts']])}` | {' | '.join(row['means'])} |"]


def manual_rows(number, row):
    parts = f" \\fI{' '.join(row['parts']).lower()}\\fP" if row["parts"] else ""
    line = f"\\fB{'sdtool: ' if number >= 50 else ''}error {number} {row['name']}\\fP{parts}"
    return [f'.IP "{line}" 34', *textwrap.wrap(sentence(row), 79)]


def python_rows(number, row):
    if 60 <= number <= 72:  # other exceptions
        return []
    pieces = textwrap.wrap(row["meaning"], 108, drop_whitespace=False)
    return [f"    {number}: " + "\n        ".join(map(json.dumps, pieces)) + ","]


def header_rows(number, row):
    name = ("" if number >= 70 else "FAULT_") + row["name"].upper().replace("-", "_")
    comment = f"/* {row.get('header') or sentence(row)} */"
    comment = textwrap.fill(comment, 118, initial_indent="    ", subsequent_indent="     * ")
    return [f"{comment}\n    SDTOOL_{name} = {number}"]


def arms(key):
    """Arms of a match, each in a line if that has at most 100 characters."""
    def arm(number, row):
        line = f'        {number} => "{row[key]}",'
        pieces = textwrap.wrap(row[key], 104, drop_whitespace=False)
        in_lines = "\\\n             ".join(pieces)
        return [line if len(line) <= 100 else f'        {number} =>\n            "{in_lines}",']
    return arm


def cases(key):
    """Cases of a definition, each in a line if that has at most 120 characters."""
    def case(number, row):
        front = f'    {"else " if number > 1 else ""}if nat_eq number {number} then '
        fits = len(front) + len(row[key]) <= 112
        pieces = [row[key]] if fits else textwrap.wrap(row[key], 76, drop_whitespace=False)
        return [front + "\n    ++ ".join(f'codes "{piece}"' for piece in pieces)]
    return case


def errors(rows, first=1, last=99, heads=()):
    def make(tables):
        within = [(number, row) for number, row in tables["ERRORS"].items() if first <= number <= last]
        return [*heads, *(line for number, row in within for line in rows(number, row))]
    return make


def marked(name):
    return f"<!-- {name}, written by make figures -->\n\n", f"\n<!-- end of {name} -->\n"


def marked_in_manual(name):
    return f'.\\" {name}, written by make figures\n', f'.\\" end of {name}\n'


HEAD = ["| Line | Meaning | What to do |", "|---|---|---|"]
# What stands in a file between a start and an end, and what makes it.
BLOCKS = [
    ("docs/FORMAT.md", marked("aliases"), alias_block),
    ("docs/FORMAT.md", marked("relative aliases"), relative_block),
    ("docs/FORMAT.md", marked("errors of lines"), errors(document_rows, 1, 49, HEAD)),
    ("docs/FORMAT.md", marked("errors of the program"), errors(document_rows, 50, 69, HEAD)),
    ("docs/FORMAT.md", marked("errors of the library"), errors(document_rows, 70, 99, HEAD)),
    ("docs/AUDIT-TABLES.md", marked("kinds"), kind_list),
    ("docs/AUDIT-TABLES.md", marked("rules"), rule_list),
    ("docs/AUDIT-TABLES.md", marked("abilities"), ability_list),
    ("docs/sdtool.1", marked_in_manual("errors of lines"), errors(manual_rows, 1, 49)),
    ("docs/sdtool.1", marked_in_manual("errors of requests"), errors(manual_rows, 50, 59)),
    ("docs/sdtool.1", marked_in_manual("errors of runs"), errors(manual_rows, 60, 69)),
    ("include/sdtool.h", ("    SDTOOL_OK = 0,\n", "};\n"),
     lambda tables: [",\n".join(errors(header_rows)(tables))]),
    ("python/sdtool/_errors.py", ("MEANINGS: Dict[int, str] = {\n", "}\n"), errors(python_rows)),
    ("crates/sd_faults/src/fault_names.rt", ("    match number {\n", '        _ => "",\n'), errors(arms("name"))),
    ("crates/sd_faults/specs/FaultNames.antt", ("\nfault_name number =\n", "    else []\n"), errors(cases("name"))),
    ("crates/sd_faults/src/meanings.rt", ("    match number {\n", '        _ => "",\n'), errors(arms("meaning"))),
    ("crates/sd_faults/specs/Meanings.antt", ("\nmeaning number =\n", "    else []\n"),
     errors(cases("meaning"))),
]


def with_block(text, start, end, lines):
    before, found, rest = text.partition(start)
    _, ended, after = rest.partition(end)
    expect(found and ended, f"no place behind {start!r}")
    return before + start + "".join(f"{line}\n" for line in lines) + end + after


def written():
    tables, schema = all_tables()
    texts = {"python/sdtool/_windows.py": python_text(tables, schema), "web/windows.mjs": script_text(tables, schema)}
    for path, (start, end), make in BLOCKS:
        text = texts.get(path) or (TOP / path).read_text(encoding="utf-8")
        texts[path] = with_block(text, start, end, make(tables))
    return texts


def main():
    words = argparse.ArgumentParser()
    words.add_argument("--check", action="store_true")
    check = words.parse_args().check
    try:
        texts = written()
    except TableFault as fault:
        print(f"windows/: {fault}")
        print("0 passed, 1 failed")
        return 1
    failed = 0
    for path, text in texts.items():
        place = TOP / path
        if place.exists() and place.read_text(encoding="utf-8") == text:
            continue
        if check:
            failed += 1
            print(f"{path} is stale: make figures")
        else:
            place.write_text(text, encoding="utf-8")
    if check:
        print(f"{len(texts) - failed} passed, {failed} failed")
    return 1 if failed else 0


if __name__ == "__main__":
    sys.exit(main())
