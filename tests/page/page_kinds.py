"""Asks the page, in Node, which kind of object a text tells of: what the tools of Windows print, and rights that only
one kind has. The rights of a row of windows/examples.toml never tell of another kind than the row's. Where several
kinds have them, the row's is among those that the page asks about. Without Node it is skipped in a line.
"""
import json
import pathlib
import shutil
import subprocess
import tomllib

import preload
from reference import sddl_reading

TOP = pathlib.Path(__file__).resolve().parents[2]
SCRIPT = pathlib.Path(__file__).resolve().with_suffix(".mjs")
SECONDS = 1200
FLAGS = (("OI", 1), ("CI", 2), ("NP", 4), ("IO", 8), ("ID", 16))
SERVICE = "D:(A;;CCLCSWRPWPDTLOCRRC;;;SY)(A;;CCDCLCSWRPWPDTLOCRSDRCWDWO;;;BA)(A;;CCLCSWLOCRRC;;;IU)"
TEXTS = [
    ("O:BAG:SYD:(A;;FA;;;BA)", None),
    ("O:BAG:SYD:PAI(A;CI;KR;;;BU)(A;CI;KA;;;BA)", "key"),
    ("Path   : Microsoft.PowerShell.Core\\Registry::HKEY_LOCAL_MACHINE\\SOFTWARE\nSddl : O:BAG:SYD:(A;CI;0xf003f;;;BA)",
     "key"),
    ("HKLM:\\SOFTWARE O:BAG:SYD:(A;CI;0x20019;;;BU)", "key"),
    ('"MACHINE\\Software\\Example",2,"D:PAR(A;CI;KA;;;BA)"', "key"),
    ("[HKEY_LOCAL_MACHINE\\SYSTEM\\CurrentControlSet\\Services\\Spooler\\Security]\n\"Security\"=hex:01,00,04,80",
     "service"),
    ("[HKEY_LOCAL_MACHINE\\SYSTEM\\CurrentControlSet\\Services\\LanmanServer\\Shares\\Security]\n\"Public\"=hex:01,00",
     "share"),
    ("[HKEY_LOCAL_MACHINE\\SYSTEM\\CurrentControlSet\\Services\\EventLog\\Application]\n"
     "\"CustomSD\"=\"O:BAG:SYD:(A;;0x7;;;BA)\"", "log"),
    ("name: Application\nchannelAccess: O:BAG:SYD:(A;;0xf0007;;;SY)", "log"),
    ("\r\n" + SERVICE, "service"),
    ("\n" + SERVICE, "service"),
    ("\n" + SERVICE.replace("D:", "D:(D;;DCLCWPDTSD;;;IU)(A;;RPWP;;;WD)"), "service"),
    ("dn: CN=Ann,DC=example,DC=com\nnTSecurityDescriptor:: AQAEgBQA", "ds"),
    ("dn: CN=User,CN=Certificate Templates,CN=Public Key Services,CN=Services\nnTSecurityDescriptor:: AQAEgBQA", "ds"),
    ("dn: CN=SRV,DC=example,DC=com\nmsDS-AllowedToActOnBehalfOfOtherIdentity:: AQAEgBQA", "delegation"),
    ("CN=Web,DC=example,DC=com: msds-groupmsamembership", "managed-password"),
    ("CN=Ann,DC=example,DC=com", "ds"),
    ("CN=User,CN=Certificate Templates,CN=Public Key Services,CN=Services", "template"),
    ("O:BAD:(OA;;CR;ab721a53-1e2f-11d0-9819-00aa0040529b;;WD)", "ds"),
    ("O:BAD:(A;;0x1;;;WD)(OA;CI;WP;;bf967aba-0de6-11d0-a285-00aa003049e2;AU)", "ds"),
    ("C:\\Data\\plan.txt O:BAG:SYD:(A;;FA;;;WD)", "folder"),
    ("\\\\server\\share\\Data O:BAG:SYD:(A;;FA;;;WD)", "folder"),
    ("Path : Microsoft.PowerShell.Core\\FileSystem::D:\\Data\nSddl : O:BAG:SYD:(A;;FA;;;WD)", "folder"),
    ("\\\\.\\pipe\\spoolss D:(A;;0x12019b;;;WD)", "pipe"),
    ("root\\cimv2 O:BAG:BAD:(A;CI;CCDCRP;;;AU)", "wmi"),
    (SERVICE, None),
    ("\r\nD:(A;;CC;;;AU)(A;;CCLCRPRC;;;IU)(A;;CCLCRPRC;;;SU)(A;;CCLCRPWPRC;;;SY)(A;;KA;;;BA)(A;;CC;;;AC)S:(AU;FA;KA;;"
     ";WD)(AU;OIIOFA;GA;;;WD)\r\n", "service-manager"),
    ("Name          : Office\nPermissionSDDL : G:SYD:(A;;LCSWSDRCWDWO;;;BA)(A;OIIO;RPWPSDRCWDWO;;;BA)(A;;SWRC;;;WD)",
     "printer"),
    ("[HKEY_LOCAL_MACHINE\\SYSTEM\\CurrentControlSet\\Control\\Print\\Printers\\Office]\n\"Security\"=hex:01,00,0c,80",
     "printer"),
    ("[HKEY_LOCAL_MACHINE\\SYSTEM\\CurrentControlSet\\Control\\Print]\n\"ServerSecurityDescriptor\"=hex:01,00,04,80",
     "print-server"),
    ("[HKEY_CLASSES_ROOT\\AppID\\{00000000-0000-0000-0000-000000000001}]\n\"LaunchPermission\"=hex:01,00,04,80", "com"),
    ("[HKEY_LOCAL_MACHINE\\SOFTWARE\\Microsoft\\Ole]\n\"MachineAccessRestriction\"=hex:01,00,04,80", "com"),
    ("[HKEY_LOCAL_MACHINE\\SYSTEM\\CurrentControlSet\\Control\\ServiceGroupOrder\\Security]\n\"Security\"=hex:01,00",
     "service-manager"),
    ("[HKEY_LOCAL_MACHINE\\SYSTEM\\CurrentControlSet\\Services\\CertSvc\\Configuration\\Example CA]\n"
     "\"Security\"=hex:01,00", "authority"),
    ("  HKEY_LOCAL_MACHINE\\SOFTWARE\\Microsoft\\Windows NT\\CurrentVersion\\Schedule\\TaskCache\\Tree\\Backup\n"
     "    SD    REG_BINARY    0100048044000000", "task"),
    ("Path : "
     "Microsoft.PowerShell.Core\\Registry::HKEY_LOCAL_MACHINE\\SYSTEM\\CurrentControlSet\\Control\\Print\\Printers\\Off"
     "ice\nSddl : O:BAG:SYD:(A;CI;0xf003f;;;BA)", "key"),
    ("<RegistrationInfo>\n  <SecurityDescriptor>D:(A;;FA;;;BA)(A;;FRFX;;;BU)</SecurityDescriptor>\n</RegistrationInfo>",
     "task"),
    ("D:(A;;0x1;;;WD)", None),
]
# Masks of ACEs, and the kind that they tell of.
MASKS: list = [
    ([0x1f01ff, 0x1200a9], "folder"), ([0x1f01ff, 0x2], "folder"), ([0x10000000, 0x1f01ff], "folder"), ([], "folder"),
    ([0], "folder"), ([0xf01ff, 0x2009d], None), ([0x2], None), ([0x20019], None), ([0x1], None), ([0x10000000], None),
    ([0x10000000, 0x2], None), ([0x10000], None), ([0xf0007, 0x7], None), ([0x4000000], None), ([0x1fffff], "process"),
    ([0x400], "process"),
]
# Windows' own descriptors without what tells of their kind: the kind that the page asks about first, and others that it
# doesn't offer, since they don't have the rights by winspool.h, winsvc.h, wbemcli.h, winnt.h and certsrv.h.
BARE: list = [
    ("G:SYD:(A;;LCSWSDRCWDWO;;;BA)(A;OIIO;RPWPSDRCWDWO;;;BA)(A;OIIO;GA;;;CO)(A;OIIO;GA;;;AC)(A;;SWRC;;;WD)(A;CIIO;GX;;"
     ";WD)(A;;SWRC;;;AC)(A;CIIO;GX;;;AC)", "printer", ["log", "com", "authority"]),
    (SERVICE, "service", ["key", "service-manager", "log", "printer", "com", "wmi", "authority"]),
    (SERVICE.replace("(A;;CCLCSWRPWP", "(A;CI;CCLCSWRPWP"), "service", ["key", "log", "printer", "com", "wmi"]),
    ("O:BAG:BAD:(A;CI;CCDCLCSWRPWPRCWD;;;BA)(A;CI;CCDCRP;;;NS)(A;CI;CCDCRP;;;LS)(A;CI;CCDCRP;;;AU)", "wmi",
     ["log", "printer", "com", "authority"]),
    ("O:BAG:SYD:(A;CI;0xf003f;;;BA)(A;CI;0x20019;;;BU)", "key", ["log", "printer", "com", "authority"]),
    ("O:BAG:BAD:(A;;0x30001;;;BA)(A;;0x200;;;AU)", "authority", ["key", "service", "folder", "ds"]),
]


def aces_of(sddl):
    """What the page's library says of ACEs, by the independent implementation."""
    kinds = {0: "A", 1: "D", 2: "AU", 5: "OA", 6: "OD", 7: "OU", 17: "ML"}
    found = sddl_reading.from_sddl(sddl.encode(), None)
    lists = [acl.aces for acl in (found.dacl, found.sacl) if acl]
    return [{"kind": kinds[ace.type], "mask": ace.mask, "flags": [name for name, bit in FLAGS if ace.flags & bit]}
            for ace in sum(lists, ())]


def judge_rows(count, rows, answers):
    files = {"file", "folder", "share", "task", "pipe"}
    for row, (told, asked) in zip(rows, answers):
        kind = row["kind"]
        same = {"folder": files, "ds": {"ds", "template", "authority"}}.get(told, {told})
        is_right = kind in (same if told else asked)
        count.add(is_right, f"rights of {kind} tell of {told}, and {asked} are asked about: {row['sddl']}")


def main(count: preload.Count) -> None:
    if not shutil.which("node"):
        print("skipped: there is no Node")
        return
    with open(TOP / "windows/examples.toml", "rb") as file:
        # An attribute that is a descriptor is told by its name alone.
        rows = [row for row in tomllib.load(file)["rows"] if row["kind"] not in ("delegation", "managed-password")]
    masks = [[{"kind": "A", "mask": mask, "flags": []} for mask in one] for one, _ in MASKS]
    lists = [*masks, *(aces_of(sddl) for sddl, _, _ in BARE), *(aces_of(row["sddl"]) for row in rows)]
    given = json.dumps({"texts": [text for text, _ in TEXTS], "lists": lists})
    ended = subprocess.run(["node", str(SCRIPT)], input=given, capture_output=True, text=True, timeout=SECONDS)
    got = json.loads(ended.stdout or '{"kinds": [], "rights": []}')
    count.add(len(got["kinds"]) == len(TEXTS) and len(got["rights"]) == len(lists),
              f"the page's answers: {ended.stderr}")
    for (text, wanted), kind in zip(TEXTS, got["kinds"]):
        count.add(kind == wanted, f"{text!r} tells of {kind}, not {wanted}")
    for (one, wanted), (told, _) in zip(MASKS, got["rights"]):
        count.add(told == wanted, f"{[hex(mask) for mask in one]} tell of {told}, not {wanted}")
    for (text, first, others), (told, asked) in zip(BARE, got["rights"][len(MASKS):]):
        is_right = told is None and asked[0] == first and not set(others) & set(asked)
        count.add(is_right,
                  f"{text} tells of {told}, and {asked} are asked about, not {first} first and without {others}")
    judge_rows(count, rows, got["rights"][len(MASKS) + len(BARE):])
