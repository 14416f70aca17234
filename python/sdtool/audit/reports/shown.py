"""Texts as they are shown to people. What goes to a terminal goes through tell or say."""
import contextlib
import re
from typing import TextIO

import click

from sdtool.audit.findings import Finding
from sdtool.audit.sources.items import Item

# Control characters, and those that reverse or hide text: a name could pretend to be an answer.
_HIDDEN = re.compile(
    "[\0-\x1f\x7f-\x9f\xad\u061c\u200b-\u200f\u2028-\u202e\u2060-\u206f\ufeff\ufff9-\ufffb\ud800-\udfff]")
_UNSAID = frozenset({"", "who", "can", "trusted"})  # rules that the question says already


def shown(text: str) -> str:
    """A text as it is shown to people: hidden characters by their numbers."""
    return _HIDDEN.sub(lambda found: f"\\x{ord(found[0]):02x}" if ord(found[0]) < 256
                       else f"\\u{ord(found[0]):04x}", text)


def tell(file: TextIO, text: str) -> None:
    """Writes a line for people: whatever is in it, it stays one line, and no command for a terminal."""
    file.write(shown(text) + "\n")


def say(*lines: str) -> None:
    """Tells something beside the report. Where nobody hears it, the report goes on."""
    with contextlib.suppress(OSError):
        for line in lines:
            tell(click.get_text_stream("stderr"), line)


def note_of(item: Item) -> str:
    """What is said of how an object was read."""
    return item.help if item.form else ""


def said_of(finding: Finding) -> str:
    """The text of a finding, with the reason why it is accepted."""
    return "; ".join(filter(None, [finding.text, f"accepted: {finding.accepted}" if finding.accepted else ""]))


def because_of(finding: Finding) -> str:
    """What grants or denies the rights of a finding: ACEs with their numbers and texts, and rules."""
    return "; ".join([f"{f'ACE {one.number} ' if one.number else ''}{one.text} "
                      f"{'' if one.grants else 'not '}{one.rights}"
                      for one in finding.because])


def sentence_of(finding: Finding) -> str:
    """A finding in a line."""
    trustee, rights, text = finding.trustee, finding.rights, said_of(finding)
    about = " ".join(filter(None, [trustee + ":" if trustee and rights else trustee, rights]))
    start = "" if finding.rule in _UNSAID else f"{finding.rule}: "
    return (start + (f"{about} ({text})" if about and text else about or text)).rstrip(": ")
