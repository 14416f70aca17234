"""What programs print in the place of a descriptor that they can't read: the name of the object, and why."""
import re
from typing import Optional

from sdtool.audit.sources.items import Item, unreadable

_WHY = (r"(?:NT_STATUS|WERR)_[A-Z0-9_]+|(?:Access|Permission)(?: is)? denied|No such file or directory|Is a directory|"
        r"Operation not (?:permitted|supported)|Input/output error|No such attribute|The "
        r"(?:system|network|process|parameter|data|"
        r"device|file|filename|handle) \w[^:]*|Attempted to perform an unauthorized operation|Zugriff verweigert|Keine "
        r"Berechtigung|"
        r"Das System kann [^:]*|Datei oder Verzeichnis nicht gefunden|Acc\w+s refus\w*|Permission non accord\w*|Acceso "
        r"denegado|"
        r"Permiso denegado|Accesso negato|Acesso negado")
# The name, and then why, perhaps behind the name of the program and what it was about to do.
_NAMED = re.compile(r"(?:Failed to \w+ |[\w.-]+: )?(?:(?:cannot|can't|could not|unable to) \w+ )?(?P<name>\S.*?): "
                    rf"(?:{_WHY})\b.*\Z")
_QUOTED = re.compile(rf"""(?:{_WHY}|\bpath\b|\bPfad\b)\W{{1,3}}['"](?P<name>[^'"]+)['"]""")
# What failed is no object.
_STEP = re.compile(r".*\bfailed\Z")
_NAMELESS = re.compile(r"(?:ERROR|Error|FATAL|error|WARNING|Warning)(?:\([^)]*\))?: |\[SC\] |Traceback \(most recent "
                       r"call last\):|"
                       r"  File \".*\", line [0-9]+|.*(?:: |\(Error "
                       rf"|\()(?:NT_STATUS|WERR)_[A-Z0-9_]+\W*\Z|(?:{_WHY})\.\s*\Z")
_LONGEST = 2_000  # characters
_ADVICE = "let somebody list the object who may read its permissions"


def named_in(line: str) -> Optional[str]:
    """The name of the object of which a line says that it can't be read, or nothing if it names none. None if the line
    says something else."""
    if len(line) > _LONGEST:
        return None
    found = _NAMED.match(line) or _QUOTED.search(line, line.find(": ") + 1 or len(line))
    if found:
        name = found["name"].strip("'\"")
        return "" if _STEP.match(name) else name
    return "" if _NAMELESS.match(line) else None


def strange_item(line: str, label: str, number: int, reason: str, advice: str, kind: str) -> Item:
    """What stands for a line that no rule of a format explains: the object of which it says something, or the line."""
    name = named_in(line)
    if name is not None:
        reason, advice = line.strip()[:1000], _ADVICE
    return unreadable(name or f"{label}:{number}", label, number, reason, advice, kind)
