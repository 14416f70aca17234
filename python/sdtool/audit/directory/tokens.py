"""The token of a user: SIDs in words, or what whoami, a directory or id tells."""
import csv
import os
import re
from typing import Iterator, List, NamedTuple, Optional, Sequence, Tuple

from sdtool._windows import ATTRIBUTES, PRIVILEGES
from sdtool.audit import library
from sdtool.audit.directory.groups import text_lines
from sdtool.audit.library import MOST_SIDS, Token
from sdtool.audit.sources import ldif
from sdtool.audit.sources.opening import OpeningFault
from sdtool.audit.windows.names import Names, meaning_of

_SID = re.compile(r"!?S-1-[0-9]+(?:-[0-9]+)+\Z", re.I)
_LEVEL = re.compile(r"S-1-16-([0-9]{1,10})\Z", re.I)
_FIXED_SID = re.compile(r"\bS-1-[0-9]+(?:-[0-9]+)+\b", re.I)
_ID = re.compile(r"\s*uid=([0-9]+)")
# A line of a privilege: in CSV, in a table, or in a list behind a title.
_PRIVILEGE = re.compile(r'(?:"|[^":]+:\s+)?(Se\w+Privilege)\b')
_OF_A_LIST = re.compile(r"\s*SID:\s+(S-1-[0-9]+(?:-[0-9]+)+)\s*\Z", re.I)
_TITLED = re.compile(r"[^:\\]+:\s+(.*)\Z", re.S)
_MOST_SHOWN = 12


def with_everybody(token: Token) -> Token:
    """A token with what those who have its SIDs have besides, but for what it has for deny only."""
    enabled = [sid for sid in token.sids if sid[:1] != "!"]
    more = [one for sid in enabled for one in meaning_of(sid).also if "!" + one not in token.sids]
    return token._replace(sids=tuple(dict.fromkeys([*token.sids, *more])))


def _privileges(lines: Sequence[str]) -> Tuple[str, ...]:
    """The privileges that whoami lists. One that is disabled can be enabled by its holder."""
    return tuple(one[1] for one in map(_PRIVILEGE.match, map(str.strip, lines)) if one)


class _Listed(NamedTuple):
    """A SID that whoami lists, with the words behind it. The user has none."""

    sid: str
    attributes: Optional[str]
    line: int


_LACKS_USER = "whoami lists no user: run whoami /all, and keep all that it prints"


def _of_whoami(listed: Sequence[_Listed], lines: Sequence[str], path: str) -> Token:
    """The token of the SIDs that whoami lists."""
    level: Optional[int] = None
    sids: List[str] = []
    users = 0
    for one in listed:
        of_label = _LEVEL.match(one.sid)
        if of_label:
            level = int(of_label[1])
            continue
        users += one.attributes is None
        if users > 1:
            raise OpeningFault(f"{path}: line {one.line}: there is nothing behind the group; keep whoami's lines "
                               "as they are")
        sids.append(_marked(one, path))
    privileges = _privileges(lines)
    if len(sids) == users and (level is not None or privileges):
        raise OpeningFault(f"{path}: whoami lists no groups; run whoami /all, and keep all that it prints")
    token = Token(tuple(dict.fromkeys(sids)), level, missing="" if users else _LACKS_USER)
    return with_privileges(token, privileges)


def with_privileges(token: Token, names: Sequence[str]) -> Token:
    """A token with the privileges that count, and what others let its holder do."""
    known = [(name, *PRIVILEGES[name]) for name in dict.fromkeys(names) if name in PRIVILEGES]
    notes = tuple(f"{name}: may {lets}, whatever its permissions say" for name, _, lets in known if lets)
    return token._replace(privileges=tuple(check for _, check, _ in known if check), notes=(*token.notes, *notes))


def _marked(listed: _Listed, path: str) -> str:
    """A SID as its attributes say it: '!' marks one that is deny-only."""
    lower = (listed.attributes or "").lower()
    if any(words in lower for words in ATTRIBUTES["deny-only"]):
        return "!" + listed.sid
    if listed.attributes is not None and not any(words in lower for words in ATTRIBUTES["enabled"]):
        raise OpeningFault(f"{path}: line {listed.line}: {listed.attributes!r} doesn't say whether the group "
                           "is enabled; list the SIDs of the token in words, with '!' before those that are deny-only")
    return listed.sid


def _csv_sids(lines: Sequence[str]) -> Iterator[_Listed]:
    """The SIDs of whoami /all /fo csv, or of /user and /groups."""
    for number, line in enumerate(lines, 1):
        row: List[str] = next(csv.reader([line]), [])
        found = [cell for cell in row if _SID.match(cell.strip())]
        if found:
            yield _Listed(found[0].strip(), row[-1] if len(row) > 2 else None, number)


def _table_sids(lines: Sequence[str]) -> Iterator[_Listed]:
    """The SIDs of the tables of whoami /all: one in each line of the user and of the groups."""
    for number, line in enumerate(lines, 1):
        found = _FIXED_SID.search(line)
        if found:
            yield _Listed(found[0], line[found.end():].strip() or None, number)


def _list_sids(lines: Sequence[str]) -> Iterator[_Listed]:
    """The SIDs of whoami /all /fo list: a line with the attributes follows that of a group."""
    for number, line in enumerate(lines, 1):
        found = _OF_A_LIST.match(line)
        if found:
            behind = _TITLED.match(lines[number].strip()) if number < len(lines) else None
            yield _Listed(found[1], behind[1] if behind else None, number)


def _of_ldif(lines: Sequence[str], path: str) -> Token:
    """The objectSid and tokenGroups of one entry of a directory."""
    entries = [entry for entry in ldif.entries(iter(lines))]
    if len(entries) != 1 or entries[0].reason:
        raise OpeningFault(f"{path}: a token is the entry of one user")
    found = entries[0].attributes
    if not found.get("objectsid") or "tokengroups" not in found:
        raise OpeningFault(f"{path}: the entry has no objectSid or no tokenGroups; ask with ldapsearch -s base -b DN "
                           "objectSid tokenGroups")
    try:
        return Token(tuple(library.sid_of_value(data) for data in found["objectsid"] + found["tokengroups"]))
    except ValueError as error:
        raise OpeningFault(f"{path}: {error}") from error


_LACKS_SAMBA = ("the output of id lacks the SID that Samba gives the user: put what 'wbinfo --user-sids' or 'pdbedit "
                "-L -v' prints behind it")


def _of_id(text: str, lines: Sequence[str], path: str) -> Token:
    """What id prints: Samba's SIDs for users and groups of Unix. Lines behind it have the SIDs that wbinfo or pdbedit
    tells."""
    user = re.search(r"uid=([0-9]+)", text)
    group = re.search(r"gid=([0-9]+)", text)
    groups = re.search(r"groups=(.*)", text)
    if not user or not group:
        raise OpeningFault(f"{path}: this is not what id prints")
    numbers = [group[1], *re.findall(r"(?:^|,)([0-9]+)", groups[1] if groups else "")]
    unix = [f"S-1-22-1-{user[1]}", *(f"S-1-22-2-{number}" for number in dict.fromkeys(numbers))]
    more = [found[0].upper() for line in lines if line != text for found in _FIXED_SID.finditer(line)]
    return Token((*unix, *more), missing="" if more else _LACKS_SAMBA)


def _of_words(text: str, domain: str) -> Token:
    """SIDs or aliases, with commas between them."""
    sids = []
    for piece in text.split(","):
        piece = piece.strip()
        mark = "!" if piece.startswith("!") else ""
        sids.append(mark + library.sid_of_text(piece[len(mark):], domain))
    return Token(tuple(dict.fromkeys(sids)))


def _of_list(lines: Sequence[str], path: str, domain: str) -> Token:
    """A SID or an alias in each line; '#' begins a comment."""
    sids: List[str] = []
    for number, line in enumerate(lines, 1):
        text = line.partition("#")[0].strip().strip(",")
        if text:
            try:
                sids += _of_words(text, domain).sids
            except ValueError as error:
                raise OpeningFault(f"{path}: line {number}: {error}") from error
    return Token(tuple(dict.fromkeys(sids)))


def _of_file(path: str, domain: str) -> Token:
    lines = list(text_lines(path))
    full = [line for line in lines if line.strip() and not line.startswith("#")]
    if not full:
        raise OpeningFault(f"{path}: the file has no SID")
    if re.match(r"(dn:|version:)", full[0], re.I):
        return _of_ldif(lines, path)
    if _ID.match(full[0]):
        return _of_id(full[0], full, path)
    if any(line.startswith('"') and '"S-1-' in line for line in full):
        return _of_whoami(list(_csv_sids(lines)), lines, path)
    if any(map(_OF_A_LIST.match, full)):
        return _of_whoami(list(_list_sids(lines)), lines, path)
    if any(len(line.split()) > 1 and _FIXED_SID.search(line)
           for line in full) and not full[0].startswith(("S-1-", "!S-1-")):
        return _of_whoami(list(_table_sids(lines)), lines, path)
    if not any(map(_FIXED_SID.search, full)) and _privileges(full):
        return _of_whoami((), full, path)
    return _of_list(lines, path, domain)


def read_token(word: str, domain: str, exact: bool = False) -> Token:
    """The token that a word names: a file, or SIDs with commas between them. Unless it is exact, SIDs that are listed
    get what whoever has them has besides."""
    token = _of_file(word, domain) if os.path.isfile(word) else _of_words(word, domain)
    if not token.sids:
        raise OpeningFault(f"{word}: the file has no SID")
    token = token._replace(missing="") if exact else with_everybody(token)
    if len(token.sids) > MOST_SIDS:
        raise OpeningFault(f"the token has {len(token.sids):,} SIDs; a token has at most {MOST_SIDS:,}")
    return token


def is_spelled(word: str, token: Token, domain: str) -> bool:
    """Whether a word spells all of a token."""
    return not os.path.isfile(word) and _of_words(word, domain) == token


def in_words(token: Token, names: Names) -> str:
    """A token in a line."""
    shown = [("deny-only " if sid[:1] == "!" else "") + names.named(sid.lstrip("!"))
             for sid in token.sids[:_MOST_SHOWN]]
    left = len(token.sids) - len(shown)
    return ", ".join([*shown, *([f"and {left:,} more"] if left > 0 else []),
                      *([f"level {token.level}"] if token.level is not None else []),
                      *(f"privilege {name}" for name in token.privileges)])
