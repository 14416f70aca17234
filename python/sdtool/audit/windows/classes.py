"""Directory objects whose class isn't known: what would be found of each class, with the classes that it depends on."""
import itertools
from typing import Collection, Dict, Iterable, List, Sequence, Tuple

from sdtool._windows import ABILITIES, CONDITION
from sdtool.audit.findings import NO_MARK, Finding
from sdtool.audit.library import Descriptor
from sdtool.audit.sources.places import Place
from sdtool.audit.windows.abilities import TEMPLATE, Abilities, Where, class_of

_OTHER = "other"  # stands for a class that nothing names
_MOST = 10_000    # ACEs times classes
_BOUND = frozenset(one["name"] for one in ABILITIES if one["on"])
_NAMES = tuple(dict.fromkeys([_OTHER, *(name for one in ABILITIES for name in one["on"])]))

# Classes that nothing tells apart; none stands for any class.
Group = Tuple[str, ...]


def here(place: Place) -> Where:
    """An object itself, for what is asked about it."""
    return Where(place.classes, place.classes[-1:], place.is_of_accounts)


def as_one_of(group: Group, place: Place) -> Where:
    """An object as one of some classes."""
    return Where(group[:1], group[:1], place.is_of_accounts, False)


def groups_of(descriptor: Descriptor, kind: str, place: Place, abilities: Abilities,
              excused: Sequence[Sequence[str]] = ()) -> List[Group]:
    """The classes that an object may be of, others first, or none if its class is known. excused has for ACEs the
    classes that Windows gives them to."""
    if kind != "ds" or place.classes:
        return []
    told_by: List[Collection[str]] = [*(one.on for one in abilities.bound(descriptor)), *dict.fromkeys(excused)]
    typed = dict.fromkeys(filter(None, (class_of(ace.object_type) for ace in descriptor.aces)))
    groups: Dict[object, List[str]] = {}
    for name in dict.fromkeys([*_NAMES, *itertools.chain(*excused), *typed]):
        is_apart = name in typed or name == TEMPLATE
        groups.setdefault(name if is_apart else tuple(name in names for names in told_by), []).append(name)
    return [tuple(group) for group in groups.values()] if len(groups) * len(descriptor.aces) <= _MOST else [()]


def of_any(found: Iterable[Tuple[Group, Iterable[Finding]]]) -> Iterable[Finding]:
    """What is found of an object of each class, once, with the classes that it depends on, and its ACEs of all
    classes."""
    classes: List[str] = []
    merged: Dict[Finding, Tuple[Finding, Dict[str, None]]] = {}
    for group, findings in found:
        classes += group
        for one in findings:
            key = one._replace(mark=NO_MARK, because=())
            before, of = merged.setdefault(key, (one, {}))
            because = tuple(dict.fromkeys(before.because + one.because))
            merged[key] = before._replace(because=because), {**of, **dict.fromkeys(group)}
    return [_on_condition(one, list(of), classes) for one, of in merged.values()]


def _on_condition(finding: Finding, of: Sequence[str], classes: Sequence[str]) -> Finding:
    if not classes:
        return _with_text(finding, CONDITION["many"]) if _BOUND & {finding.rule, finding.rights} else finding
    others = [name for name in classes if name not in of]
    if not others:
        return finding
    word, names = ("except", others) if _OTHER in of else ("only", of)
    return _with_text(finding, CONDITION[word].format(classes=CONDITION["or"].join(names)))


def _with_text(finding: Finding, words: str) -> Finding:
    return finding._replace(text=f"{words}: {finding.text}" if finding.text else words)
