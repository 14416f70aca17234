"""The library, opened once: by _native where that is built, else by ctypes."""
import functools
import os
import re
import sys
from typing import TYPE_CHECKING, Any, NoReturn, Optional, Sequence

from ._errors import ARGUMENT, ArgumentFault, Fault
from ._places import PARTS, InBytes, InText

try:
    from . import _native as _transport
except ImportError:
    from . import _foreign as _transport  # type: ignore[no-redef]

_VARIABLE = "SDTOOL_LIBRARY"
_NAMES = {"win32": "sdtool.dll", "cygwin": "sdtool.dll"}
_NO_MEMORY = 72
_OF_BYTES, _OF_TEXTS = range(5, 15), range(20, 31)  # the faults that have a place
# The arguments of enum sdtool_argument, by the names that they have in Python.
_ARGUMENTS = (None, "domain", "sids", "deny_only", "object_type", "principal_self", "mapping", "creator",
              "owner", "group", "kind", "number", "sid", "sacl", "dacl", "token", "changes", "options", "ace", "flags",
              "guid", "offsets", "conversion")
_LISTS = ("sids", "deny_only", "sacl", "dacl", "changes")
_CHANGES = 16


@functools.lru_cache(maxsize=None)
def _name_of(number: int) -> str:
    return _transport.fault_text(number)


def fault_of(fault: int, part: int, other_part: int, argument: int, entry: int, given: Optional[bytes],
             domain: Optional[bytes]) -> Fault:
    """The fault of a call, by its numbers and what was given, if it has its place there: a descriptor in binary, or a
    text of SDDL in UTF-8 and the SID of its domain."""
    if argument == _CHANGES:
        return Fault(fault, _name_of(fault), PARTS[part], argument="changes", index=entry)
    found = Fault(fault, _name_of(fault), PARTS[part], PARTS[other_part])
    if given is not None and fault in _OF_BYTES:
        found._where = InBytes(given, _transport.place)
    elif given is not None and fault in _OF_TEXTS:
        found._where = InText(given, domain, _transport.sddl_place)
    return found


def answer_of_fault(*numbers: Any) -> Fault:
    """The same, in the place of an answer."""
    return fault_of(*numbers).as_answer()


def _raises(fault: int, part: int, other_part: int, argument: int, entry: int, given: Optional[bytes],
            domain: Optional[bytes]) -> NoReturn:
    """Raises the fault of a call."""
    if fault == _NO_MEMORY:
        raise MemoryError
    if fault == ARGUMENT:
        name = _ARGUMENTS[argument] if argument < len(_ARGUMENTS) else None
        raise ArgumentFault("this is none that the call takes", name, entry if name in _LISTS else None)
    raise fault_of(fault, part, other_part, argument, entry, given, domain)


def _places() -> Sequence[str]:
    """Where the library is looked for: in the one file that the variable names, else beside the module, as a wheel with
    the library has it, and where the system finds libraries."""
    named = os.environ.get(_VARIABLE)
    if named:
        return [named]
    name = _NAMES.get(sys.platform, "libsdtool.so.0")
    beside = os.path.join(os.path.dirname(os.path.abspath(__file__)), name)
    return [beside, name] if os.path.exists(beside) else [name]


def _load() -> None:
    problems = []
    for place in _places():
        try:
            return _transport.load(place, _raises)
        except OSError as problem:
            problems.append(f"{place}: {problem}")
    raise ImportError(f"sdtool needs its library for C, and looked for it in {'; '.join(problems)}. Install the "
                      f"library, or let the environment variable {_VARIABLE} name its file", name="sdtool")


def digest() -> str:
    """The digest, BLAKE2b of 256 bits, of the file from which this process has the library, as Linux tells it."""
    import hashlib  # which ends a process of Python 3.12 where interpreters with locks of their own import it
    named = os.path.realpath(os.environ.get(_VARIABLE, ""))
    with open("/proc/self/maps", errors="surrogateescape") as maps:
        path, = {path for path in re.findall("/.*", maps.read()) if path == named or "/libsdtool." in path}
    with open(path, "rb") as file:
        return hashlib.blake2b(file.read(), digest_size=32).hexdigest()


_load()
if TYPE_CHECKING:
    from ._native import *  # noqa: F403
else:
    Layout, Entries, Asking = _transport.Layout, _transport.Entries, _transport.Asking
    adopt = _transport.adopt
    version = _transport.version
    fault_text = _transport.fault_text
    normalize = _transport.normalize
    from_sddl = _transport.from_sddl
    descriptor_of_sddl = _transport.descriptor_of_sddl
    descriptor_of_bytes = _transport.descriptor_of_bytes
    to_sddl = _transport.to_sddl
    explain = _transport.explain
    derive = _transport.derive
    origins = _transport.origins
    run = _transport.run
    token = _transport.token
    question = _transport.question
    check = _transport.check
    check_many = _transport.check_many
    reasons = _transport.reasons
    sid_from_text = _transport.sid_from_text
    sid_to_text = _transport.sid_to_text
    is_one_sid = _transport.is_one_sid
    ace_read = _transport.ace_read
    ace_from_text = _transport.ace_from_text
    ace_to_text = _transport.ace_to_text
    rights_from_text = _transport.rights_from_text
    rights_to_text = _transport.rights_to_text
    flags_from_text = _transport.flags_from_text
    flags_to_text = _transport.flags_to_text
    guid_from_text = _transport.guid_from_text
    guid_to_text = _transport.guid_to_text
    lay = _transport.lay
    layout = _transport.layout
    parts = _transport.parts
    place = _transport.place
    sddl_place = _transport.sddl_place
    fill = _transport.fill
    state = _transport.state
    aces = _transport.aces
    ask = _transport.ask
    asked = _transport.asked
    build = _transport.build
    edit = _transport.edit
    order = _transport.order
    adopt_plain = _transport.adopt_plain
    plain = _transport.plain
    distinct = _transport.distinct
    convert_many = _transport.convert_many
    derive_many = _transport.derive_many
