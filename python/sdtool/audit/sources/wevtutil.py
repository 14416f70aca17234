"""What wevtutil gl prints of event logs."""
from typing import Iterator, List, Optional, Tuple

from sdtool.audit.sources.frame import Format, Lines, Look, Piece
from sdtool.audit.sources.items import item_of, looks_like_descriptor, unreadable
from sdtool.audit.sources.messages import strange_item
from sdtool.audit.sources.options import SourceOptions

_SETTINGS = {"enabled", "type", "owningpublisher", "isolation", "logging", "logfilename", "retention",
             "autobackup", "maxsize",
             "publishing", "filemax", "level", "keywords", "controlguid", "buffersize", "minbuffers",
             "maxbuffers", "latency",
             "clocktype", "sidtype"}
_BLANK, _SETTING, _NAME = "a blank line", "another setting of a log", "the name of a log"
_AGAIN = "run wevtutil gl again, as an administrator"


def _word_of(line: str) -> Tuple[str, str]:
    word, colon, rest = line.strip().partition(":")
    return (word.lower(), rest.strip()) if colon else ("", "")


def _recognizes(look: Look) -> bool:
    words = [_word_of(line)[0] for line in look.full()]
    return ("name" in words and 2 * sum(word in _SETTINGS or word in ("name", "channelaccess")
                                        for word in words) > len(words))


def _read(source: Lines, label: str, options: SourceOptions) -> Iterator[Piece]:
    kind = options.kind or "log"
    name: Optional[Tuple[int, str]] = None
    held: List[Piece] = []  # what stands behind a name, until its descriptor comes

    def without_descriptor() -> Iterator[Piece]:
        if name is not None:
            lost = unreadable(name[1], label, name[0], "the log has no channelAccess", _AGAIN, kind)
            yield Piece(name[0], name[0] + 1, lost)
        yield from held
        held.clear()

    for number, line in enumerate(source, 1):
        word, rest = _word_of(line)
        if word == "name":
            yield from without_descriptor()
            name = number, rest
        elif word == "channelaccess":
            if name is None:
                lost = unreadable(f"{label}:{number}", label, number, "no name stands before this channelAccess",
                                  _AGAIN, kind)
                yield Piece(number, number + 1, lost, True)
                continue
            yield Piece(name[0], name[0] + 1, _NAME)
            yield from held
            held.clear()
            yield Piece(number, number + 1, item_of(name[1], label, number, rest, kind))
            name = None
        else:
            piece = _other(line, word, label, number, kind)
            if name is None:
                yield piece
            else:
                held.append(piece)
    yield from without_descriptor()


def _other(line: str, word: str, label: str, number: int, kind: str) -> Piece:
    """A line that has neither a name nor a descriptor of a log."""
    place = f"{label}:{number}"
    if not line.strip():
        return Piece(number, number + 1, _BLANK)
    if word in _SETTINGS:
        return Piece(number, number + 1, _SETTING)
    if looks_like_descriptor(line):
        return Piece(number, number + 1, item_of(place, label, number, line, kind))
    lost = strange_item(line, label, number, f"{line.strip()[:80]!r} is no setting of a log", _AGAIN, kind)
    return Piece(number, number + 1, lost, True)


FORMAT = Format("wevtutil", "wevtutil gl NAME", "a log, also without channelAccess", (_BLANK, _SETTING, _NAME),
                _recognizes, _read)
