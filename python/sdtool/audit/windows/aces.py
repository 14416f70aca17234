"""ACEs in words."""
from sdtool.audit.library import INHERITED, Ace
from sdtool.audit.windows import rights
from sdtool.audit.windows.names import Names

_VERBS = {"A": "may", "OA": "may", "D": "may not", "OD": "may not"}
_OBJECTS, _CONTAINERS, _NO_PROPAGATE, _SUCCESS, _FAILURE = 0x1, 0x2, 0x4, 0x40, 0x80
_LEVELS = {4096: "low", 8192: "medium", 8448: "medium plus", 12288: "high", 16384: "system"}


def _where(ace: Ace) -> str:
    """For what an ACE counts."""
    below = {0: "", _OBJECTS: "files below", _CONTAINERS: "folders below",
             _OBJECTS | _CONTAINERS: "files and folders below"}[
        ace.flags & (_OBJECTS | _CONTAINERS)]
    if not below:
        return "" if ace.counts else ", for nothing, since it is for children and none inherits it"
    if ace.flags & _NO_PROPAGATE:
        below += ", one level deep"
    return f", here and for {below}" if ace.counts else f", only for {below}"


def _bound(ace: Ace, names: Names) -> str:
    bound = f", only for object type {names.object_type(ace.object_type)}" if ace.object_type else ""
    if ace.inherited_type:
        bound += f", inherited by objects of class {names.object_type(ace.inherited_type)}"
    return bound


def ace_in_words(ace: Ace, kind: str, names: Names) -> str:
    """A sentence for an ACE."""
    origin = ", inherited" if ace.flags & INHERITED else ""
    if ace.kind == "ML":
        number = ace.sid.rpartition("-")[2]
        level = _LEVELS.get(int(number), number) if ace.sid.startswith("S-1-16-") else ace.sid
        limits = [text for bit, text in ((1, "write"), (2, "read"), (4, "execute")) if ace.mask & bit]
        return f"integrity level {level}: a lower level may not {' or '.join(limits) or 'do less'}{_where(ace)}{origin}"
    what = rights.short_text(ace.mask, kind)
    if ace.kind in _VERBS:
        return f"{names.named(ace.sid)} {_VERBS[ace.kind]}: {what}{_bound(ace, names)}{_where(ace)}{origin}"
    if ace.kind in ("AU", "OU"):
        when = {_SUCCESS: "successful", _FAILURE: "failed", _SUCCESS | _FAILURE: "any"}.get(
            ace.flags & (_SUCCESS | _FAILURE), "no")
        return f"audits {when} access of {names.named(ace.sid)}: {what}{_bound(ace, names)}{_where(ace)}{origin}"
    return f"an ACE of kind {ace.kind}, which isn't known here"
