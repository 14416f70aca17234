"""Compares windows/kinds.toml and windows/sids.toml with Windows' headers. mingw-w64 brings these. It compares each
right of a kind, the mappings of generic rights, the last numbers of SIDs and of a domain's SIDs, and the families.
Nothing of a header is taken over. Without the headers (Debian: mingw-w64-common) it is skipped in a line.
"""
import pathlib
import re
import tomllib

import preload

TOP = pathlib.Path(__file__).resolve().parents[2]
FOLDER = pathlib.Path("/usr/share/mingw-w64/include")
HEADERS = ("winnt.h", "winsvc.h", "winspool.h", "winevt.h", "wbemcli.h", "combaseapi.h", "certadm.h", "iads.h")
# The constants of each kind's rights, from bit 0 on; None for a bit that the kind doesn't have or the headers don't
# name.
FILE = ("READ_DATA", "WRITE_DATA", "APPEND_DATA", "READ_EA", "WRITE_EA", "EXECUTE", "DELETE_CHILD", "READ_ATTRIBUTES",
        "WRITE_ATTRIBUTES")
FOLDER_RIGHTS = ("LIST_DIRECTORY", "ADD_FILE", "ADD_SUBDIRECTORY", "READ_EA", "WRITE_EA", "TRAVERSE", *FILE[6:])
DS = ("DS_CREATE_CHILD", "DS_DELETE_CHILD", "ACTRL_DS_LIST", "DS_SELF", "DS_READ_PROP", "DS_WRITE_PROP",
      "DS_DELETE_TREE", "DS_LIST_OBJECT", "DS_CONTROL_ACCESS")
PRINTING = ("SERVER_ACCESS_ADMINISTER", "SERVER_ACCESS_ENUMERATE", "PRINTER_ACCESS_ADMINISTER", "PRINTER_ACCESS_USE",
            "JOB_ACCESS_ADMINISTER", "JOB_ACCESS_READ")
RIGHTS = {
    "file": [f"FILE_{name}" for name in FILE], "folder": [f"FILE_{name}" for name in FOLDER_RIGHTS],
    "share": [f"FILE_{name}" for name in FILE], "task": [f"FILE_{name}" for name in FILE],
    "pipe": ["FILE_READ_DATA", "FILE_WRITE_DATA", "FILE_CREATE_PIPE_INSTANCE", *(f"FILE_{name}" for name in FILE[3:])],
    "key": [f"KEY_{name}" for name in ("QUERY_VALUE", "SET_VALUE", "CREATE_SUB_KEY", "ENUMERATE_SUB_KEYS", "NOTIFY",
                                       "CREATE_LINK")],
    "ds": [f"ADS_RIGHT_{name}" for name in DS],
    "service": [f"SERVICE_{name}" for name in ("QUERY_CONFIG", "CHANGE_CONFIG", "QUERY_STATUS", "ENUMERATE_DEPENDENTS",
                                               "START", "STOP", "PAUSE_CONTINUE", "INTERROGATE",
                                               "USER_DEFINED_CONTROL")],
    "service-manager": [f"SC_MANAGER_{name}" for name in ("CONNECT", "CREATE_SERVICE", "ENUMERATE_SERVICE", "LOCK",
                                                          "QUERY_LOCK_STATUS", "MODIFY_BOOT_CONFIG")],
    "log": ["EVT_READ_ACCESS", "EVT_WRITE_ACCESS", "EVT_CLEAR_ACCESS"],
    "printer": [None, None, *PRINTING[2:], None], "print-server": list(PRINTING),
    "wmi": [f"WBEM_{name}" for name in ("ENABLE", "METHOD_EXECUTE", "FULL_WRITE_REP", "PARTIAL_WRITE_REP",
                                        "WRITE_PROVIDER", "REMOTE_ACCESS", "RIGHT_SUBSCRIBE", "RIGHT_PUBLISH")],
    "process": [f"PROCESS_{name}" for name in ("TERMINATE", "CREATE_THREAD", "SET_SESSIONID", "VM_OPERATION",
                                               "VM_READ", "VM_WRITE", "DUP_HANDLE", "CREATE_PROCESS", "SET_QUOTA",
                                               "SET_INFORMATION", "QUERY_INFORMATION", "SUSPEND_RESUME",
                                               "QUERY_LIMITED_INFORMATION")] + [None],
    "com": [f"COM_RIGHTS_{name}" for name in ("EXECUTE", "EXECUTE_LOCAL", "EXECUTE_REMOTE", "ACTIVATE_LOCAL",
                                              "ACTIVATE_REMOTE")],
    "authority": [f"CA_ACCESS_{name}" for name in ("ADMIN", "OFFICER", "AUDITOR", "OPERATOR")]
    + [None] * 4 + ["CA_ACCESS_READ", "CA_ACCESS_ENROLL"],
    "delegation": [None] * 8 + ["ADS_RIGHT_DS_CONTROL_ACCESS"],
    "managed-password": [None] * 4 + ["ADS_RIGHT_DS_READ_PROP"],
}
# The constants of what GENERIC_READ, WRITE, EXECUTE and ALL mean.
OF_FILES = ("FILE_GENERIC_READ", "FILE_GENERIC_WRITE", "FILE_GENERIC_EXECUTE", "FILE_ALL_ACCESS")
MAPPINGS = {
    **dict.fromkeys(("file", "folder", "share", "task", "pipe"), OF_FILES),
    "key": ("KEY_READ", "KEY_WRITE", "KEY_EXECUTE", "KEY_ALL_ACCESS"),
    "service": (None, None, None, "SERVICE_ALL_ACCESS"), "service-manager": (None, None, None, "SC_MANAGER_ALL_ACCESS"),
    "printer": ("PRINTER_READ", "PRINTER_WRITE", "PRINTER_EXECUTE", "PRINTER_ALL_ACCESS"),
    "print-server": ("SERVER_READ", "SERVER_WRITE", "SERVER_EXECUTE", "SERVER_ALL_ACCESS"),
}
JOBS = ("JOB_READ", "JOB_WRITE", "JOB_EXECUTE", "JOB_ALL_ACCESS")
BELOW = {("printer", "OI"): JOBS, ("print-server", "OI"): JOBS, ("print-server", "CI"): MAPPINGS["printer"]}
STANDARD = ("DELETE", "READ_CONTROL", "WRITE_DAC", "WRITE_OWNER", "SYNCHRONIZE")
OF_SIDS = {
    "S-1-0-": ("NULL",), "S-1-1-": ("WORLD",), "S-1-2-": ("LOCAL", "LOCAL_LOGON"),
    "S-1-3-": ("CREATOR_OWNER", "CREATOR_GROUP", "CREATOR_OWNER_SERVER", "CREATOR_GROUP_SERVER",
               "CREATOR_OWNER_RIGHTS"),
    "S-1-5-": ("DIALUP", "NETWORK", "BATCH", "INTERACTIVE", "SERVICE", "ANONYMOUS_LOGON", "PROXY",
               "ENTERPRISE_CONTROLLERS", "PRINCIPAL_SELF", "AUTHENTICATED_USER", "RESTRICTED_CODE", "TERMINAL_SERVER",
               "REMOTE_LOGON", "THIS_ORGANIZATION", "IUSER", "LOCAL_SYSTEM", "LOCAL_SERVICE", "NETWORK_SERVICE",
               "WRITE_RESTRICTED_CODE", "OTHER_ORGANIZATION"),
    "S-1-5-64-": ("PACKAGE_NTLM", "PACKAGE_SCHANNEL", "PACKAGE_DIGEST"), "S-1-5-65-": ("CRED_TYPE_THIS_ORG_CERT",),
    "S-1-16-": ("MANDATORY_UNTRUSTED", "MANDATORY_LOW", "MANDATORY_MEDIUM", "MANDATORY_HIGH", "MANDATORY_SYSTEM",
                "MANDATORY_PROTECTED_PROCESS"),
    "S-1-18-": ("AUTHENTICATION_AUTHORITY_ASSERTED", "AUTHENTICATION_SERVICE_ASSERTED"),
}
# Constants of domains and machines that stand elsewhere in the table, or are no account's.
NOT_LAST = {"DOMAIN_USER_RID_MAX", "DOMAIN_ALIAS_RID_RAS_SERVERS", "DOMAIN_ALIAS_RID_CACHEABLE_PRINCIPALS_GROUP",
            "DOMAIN_ALIAS_RID_NON_CACHEABLE_PRINCIPALS_GROUP", "DOMAIN_GROUP_RID_AUTHORIZATION_DATA_IS_COMPOUNDED",
            "DOMAIN_GROUP_RID_AUTHORIZATION_DATA_CONTAINS_CLAIMS"}
# Families of S-1-5- whose numbers winnt.h has under these names.
FAMILIES = {80: "SERVICE_ID", 82: "APPPOOL_ID", 83: "VIRTUALSERVER_ID", 84: "USERMODEDRIVERHOST_ID",
            85: "CLOUD_INFRASTRUCTURE_SERVICES_ID",
            86: "WMIHOST_ID", 87: "TASK_ID", 88: "NFS_ID", 89: "COM_ID", 90: "WINDOW_MANAGER", 91: "RDV_GFX",
            92: "DASHOST_ID"}


class Constants:
    """What headers define, by name: expressions of numbers and of other names."""

    def __init__(self, folder):
        self.texts = {}
        for header in HEADERS:
            text = (folder / header).read_text(encoding="utf-8", errors="replace")
            for name, value in re.findall(r"^[ \t]*#[ \t]*define[ \t]+(\w+)[ \t]+([^\n]*(?:\\\n[^\n]*)*)", text, re.M):
                self.texts.setdefault(name, value.replace("\\\n", " "))
            # Members of an enum.
            for name, value in re.findall(r"(?:^|,)[ \t]*(\w+)[ \t]*=[ \t]*(0x[0-9a-fA-F]+|\d+)[ \t]*(?=,|$)",
                                          text, re.M):
                self.texts.setdefault(name, value)

    def value(self, name):
        """The number of a constant, or None."""
        text = re.sub(r"__MSABI_LONG|//.*|/\*.*?\*/", " ", self.texts.get(name, ""))
        text = re.sub(r"\b(0x[0-9a-fA-F]+|\d+)L\b", r"\1", text)
        for word in set(re.findall(r"\b[A-Za-z_]\w*", text)):
            text = re.sub(rf"\b{word}\b", str(self.value(word)), text)
        is_number = re.fullmatch(r"[0-9a-fA-Fx|&~() \t]+", text) and re.search(r"\d", text)
        return eval(text, {"__builtins__": {}}) if is_number else None


def table(name):
    with open(TOP / f"windows/{name}.toml", "rb") as file:
        return tomllib.load(file)


def judge_mapping(count, constants, what, mapping, names):
    for word, name in zip(("read", "write", "execute", "all"), names):
        if name is not None:
            count.add(mapping[word] == constants.value(name), f"{what}: {word} is {name}, {constants.value(name)}")


def judge_kinds(count, constants):
    given = table("kinds")
    for right, name in zip(given["standard"], STANDARD):
        count.add(right["bit"] == constants.value(name), f"{right['name']} is {name}")
    for row in given["kind"]:
        kind = row["name"]
        for right in row.get("rights", ()):
            name = RIGHTS[kind][right["bit"].bit_length() - 1]
            if name is not None:
                count.add(right["bit"] == constants.value(name),
                          f"{kind}: {right['name']} is {name}, {constants.value(name)}")
        judge_mapping(count, constants, kind, row["mapping"], MAPPINGS.get(kind, ()))
        for flag, mapping in row.get("below", {}).items():
            judge_mapping(count, constants, f"{kind} {flag}", mapping, BELOW[kind, flag])
        named = {1 << place for place, name in enumerate(RIGHTS.get(kind, ())) if name}
        count.add(named <= {right["bit"] for right in row.get("rights", ())} or not row.get("rights"),
                  f"{kind}: a right is missing")


def judge_sids(count, constants):
    given = table("sids")
    known = {row["sid"] for row in given["sid"]}
    for front, names in OF_SIDS.items():
        for name in names:
            value = constants.value(f"SECURITY_{name}_RID")
            count.add(f"{front}{value}" in known, f"SECURITY_{name}_RID is {front}{value}")
    relative = {row["number"] for row in given["relative"]}
    for name in constants.texts:
        if re.match("DOMAIN_(?:USER|GROUP)_RID_", name) and name not in NOT_LAST:
            count.add(constants.value(name) in relative, f"{name} is {constants.value(name)}")
        if name.startswith("DOMAIN_ALIAS_RID_") and name not in NOT_LAST:
            count.add(f"S-1-5-32-{constants.value(name)}" in known, f"{name} is {constants.value(name)}")
    installer = [constants.value(f"SECURITY_TRUSTED_INSTALLER_RID{number}") for number in range(1, 6)]
    count.add("S-1-5-80-" + "-".join(map(str, installer)) in known, f"TrustedInstaller is {installer}")
    families = {row["begins"] for row in given["family"]}
    for number, name in FAMILIES.items():
        value = constants.value(f"SECURITY_{name}_BASE_RID")
        count.add(value == number and f"S-1-5-{number}-" in families, f"SECURITY_{name}_BASE_RID is {value}")


def main(count: preload.Count) -> None:
    if not all((FOLDER / header).exists() for header in HEADERS):
        print("skipped: the headers of Windows (Debian: mingw-w64-common)")
        return
    constants = Constants(FOLDER)
    judge_kinds(count, constants)
    judge_sids(count, constants)
