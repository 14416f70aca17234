"""One object in words."""
from typing import Iterable, Iterator, Optional, TextIO

from sdtool.audit.checks import why_unanswerable
from sdtool.audit.findings import unknown, unknown_of
from sdtool.audit.library import PROTECTED, Ace, Descriptor, Refusal, explained
from sdtool.audit.protocols import Context
from sdtool.audit.reports.accepting import is_called
from sdtool.audit.reports.shown import note_of, tell
from sdtool.audit.sources.items import UNREADABLE, Item
from sdtool.audit.windows.aces import ace_in_words
from sdtool.audit.windows.names import Names


def _acl(title: str, state: str, aces: Iterable[Ace], kind: str, names: Names) -> Iterator[str]:
    if state == "absent":
        yield f"{title}: absent" + (", so everybody gets everything" if title == "DACL" else "")
    elif state == "null":
        yield f"{title}: null" + (", so everybody gets everything" if title == "DACL" else "")
    else:
        listed = list(aces)
        yield (f"{title}:" if listed else f"{title}: empty" + (", so nobody gets anything by it"
                                                               if title == "DACL" else ""))
        for number, ace in enumerate(listed, 1):
            yield f"  {number}. {ace_in_words(ace, kind, names)}"


def lines_of(descriptor: Descriptor, kind: str, names: Names) -> Iterator[str]:
    """A descriptor in words."""
    yield f"owner: {names.named(descriptor.owner) if descriptor.owner else 'none'}"
    yield f"group: {names.named(descriptor.group) if descriptor.group else 'none'}"
    if descriptor.control & PROTECTED:
        yield "protected: ACEs of the folder don't arrive"
    yield from _acl("DACL", descriptor.dacl, descriptor.aces, kind, names)
    if descriptor.sacl != "absent":
        yield from _acl("SACL", descriptor.sacl, descriptor.sacl_aces, kind, names)
    why = why_unanswerable(descriptor, kind)
    if why:
        yield f"unknown: {why.reason}. Help: {why.help}."


def show(items: Iterable[Item], name: Optional[str], context: Context, file: TextIO) -> int:
    """Shows the objects of a name, and gives the exit status."""
    is_unknown = False
    count = 0
    for item in items:
        if name is not None and not is_called(item.name, name):
            continue
        count += 1
        place = f"{item.source}, line {item.line}" if item.line else item.source
        tell(file, f"{item.name} ({place})")
        found = Refusal("") if item.form == UNREADABLE else explained(item.form, [item.text], context.domain)[0]
        if isinstance(found, Refusal):
            why = unknown(item.text, item.help) if item.form == UNREADABLE else unknown_of(found)
            tell(file, f"  unknown: {why.said}. Help: {why.help}.")
            for line in found.excerpt.split("\n") if found.excerpt else ():
                tell(file, f"    {line}")
            is_unknown = True
            continue
        for line in filter(None, (note_of(item), *lines_of(found, item.kind, context.names))):
            is_unknown = is_unknown or line.startswith("unknown:")
            tell(file, f"  {line}")
    if not count:
        tell(file, f"no object has the name {name or ''}")
        return 3
    return 3 if is_unknown else 0
