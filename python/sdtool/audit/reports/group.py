"""A row of a report: a finding and how many objects have it."""
from typing import NamedTuple, Optional, Tuple

from sdtool.audit.findings import Finding

# Whether a group is named by the object that has a finding, by one that sets it for those below it alone, or, where the
# source has no such object, by the first one that has inherited it.
HERE, BELOW, ABOVE = "here", "below", "above"


class Group(NamedTuple):
    """A finding of an object, and of so many objects below it; or what is to be said of objects without a finding."""

    order: int
    name: str
    source: str
    line: int
    status: str
    kind: str
    finding: Optional[Finding]
    reason: str = ""
    help: str = ""
    below: int = 0
    origin: str = HERE
    place: str = ""  # where the descriptor of an unknown object is wrong
    beside: int = 0  # how many further objects in the same folder have the same owner
    owned: int = 0   # how many further objects below belong to the trustee

    @property
    def objects(self) -> int:
        """How many objects it stands for."""
        return self.below + self.beside + self.owned + (self.origin == HERE)

    def plus(self, count: int) -> "Group":
        return self._replace(below=self.below + count)


# The key of a place and of an ACE, and what else findings that belong together have in common: the rule, the trustee,
# and why they are accepted.
Key = Tuple[str, str, str, str, str]


def common_of(finding: Finding) -> Tuple[str, str, str, str]:
    """What findings that belong together have in common beside their place."""
    return finding.mark.key, finding.rule, finding.sid, finding.accepted
