"""The exceptions of the module."""
from typing import Any, Dict, Optional

from ._places import NOWHERE, Located, Place, Where

# What each number means. windows/write.py writes it.
MEANINGS: Dict[int, str] = {
    1: "the line exceeds its limit",
    2: "a character is not a hex digit",
    3: "the number of characters is odd",
    4: "the line is not base64",
    5: "fewer than 20 bytes",
    6: "the revision of the header is not 1",
    7: "control bit 0x8000 is clear",
    8: "the offset is below 20, or fewer than 8 bytes follow it",
    9: "the revision of a SID is not 1, its count exceeds 15, or it passes the end of the bytes or of its ACE",
    10: "the revision of the ACL is not 2 or 4, its size is below 8, or it passes the end of the bytes",
    11: "fewer than 16 bytes of the ACL are left for an ACE; or its size is below 16, not a multiple of 4 or beyond "
        "the ACL; or its object fields and 8 bytes of a SID do not fit in it",
    12: "the type of an ACE is not supported",
    13: "an ACE has flag 0x20",
    14: "two parts share a byte",
    20: "parentheses, colons or the number of fields are wrong",
    21: "two parts have the same letter",
    22: "two letters that are not an alias",
    23: "a relative alias without a domain",
    24: "a decimal number of a SID has more than ten digits, or is 2^32 or more",
    25: "any other text that is not a SID",
    26: "flags of an ACL or an ACE that are not in the tables",
    27: "rights that are not in the tables",
    28: "an object type is not a GUID, or its ACE is of a kind without object types",
    29: "no such kind of ACE, such as XA",
    30: "the ACL would exceed 65,535 bytes; the first from the left",
    40: "a derived ACL exceeds 65,535 bytes; the SACL is checked first",
    50: "no right is asked for",
    51: "bit 26 or 27 is set in the rights that are asked for",
    73: "the change can't be made",
}
ARGUMENT = 70
_MOST_SHOWN = 64  # characters


def shown(text: str) -> str:
    """A text of the caller's as messages have it: cut, and what does not print by its numbers."""
    found = str.__str__(text)
    return f"{found[:_MOST_SHOWN]!r}"[1:-1] + (".." if len(found) > _MOST_SHOWN else "")


class Error(Exception):
    """The base of the module's exceptions."""


class WrongType(Error, TypeError):
    """An argument of a type that the call does not take, or an object whose __init__ did not end. The library was not
    called."""


class Unchangeable(Error, AttributeError):
    """An object that cannot be changed, and not be made again."""


class _Numbered(Error, ValueError):
    """What both kinds of exceptions have."""

    number: int
    name: str
    part: Optional[str]
    other_part: Optional[str]
    argument: Optional[str]
    index: Optional[int]


class Fault(_Numbered):
    """An input that has no answer: bytes that are no descriptor, text that is no SDDL, rights that cannot be asked for.

    number and name are those of docs/FORMAT.md. part is "owner", "group", "sacl", "dacl" or None, and so is other_part,
    the second part of fault 14. argument is the name of the argument that is refused, where that is not the only one
    that could be, and index its place in a list of such. meaning says in words what the number means. place says where
    the fault is in the descriptor or the text that was given, and where says it in words.

    >>> import sdtool
    >>> try:
    ...     sdtool.from_sddl("D:(A;;FA;;;Everyone)")
    ... except sdtool.Fault as fault:
    ...     print(fault.number, fault.name, fault.part)
    ...     print(fault)
    ...     print(fault.excerpt())
    25 sid-form None
    error 25 sid-form: any other text that is not a SID, at byte 11, ACE 1 of the DACL, SID
    D:(A;;FA;;;Everyone)
               ^^^^^^^^
    >>> try:
    ...     sdtool.to_sddl(bytes.fromhex("01000080" "13000000" + "00" * 24))
    ... except sdtool.Fault as fault:
    ...     print(fault)
    ...     print(fault.excerpt())
    error 8 offset owner: the offset is below 20, or fewer than 8 bytes follow it, at byte 4, the owner
    0100008013000000000000000000000000000000000000000000000000000000
            ^^^^^^^^
    """

    _where: Where = NOWHERE
    _is_answer = False

    def __init__(self, number: int, name: str, part: Optional[str] = None, other_part: Optional[str] = None,
                 argument: Optional[str] = None, index: Optional[int] = None) -> None:
        super().__init__(number, name, part, other_part, argument, index)
        self.number = number
        self.name = name
        self.part = part
        self.other_part = other_part
        self.argument = argument
        self.index = index

    def of(self, argument: str, index: Optional[int] = None, where: Optional[Where] = None) -> "Fault":
        """The same fault, of an argument, and where it is in that, if not where it was."""
        fault = Fault(self.number, self.name, self.part, self.other_part, argument, index)
        fault._where = where or self._where
        return fault

    def as_answer(self) -> "Fault":
        """The same fault, in the place of a verdict or a descriptor. That is true if it is granted, so this is neither
        true nor false, unless it is raised: an exception is true."""
        self._is_answer = True
        return self

    def __bool__(self) -> bool:
        if self._is_answer and self.__traceback__ is None:
            raise WrongType(f"a Fault in the place of an answer is neither true nor false; ask isinstance: {self}")
        return True

    @property
    def place(self) -> Optional[Place]:
        """Where the fault is, or None. It is looked up when it is first asked for, in what was given as that was."""
        return self._located().place

    @property
    def where(self) -> str:
        """The place in words, with which the message ends; an empty text without a place.

        ACEs count from 1, as in an explanation, and bytes from 0. Those of a text are in UTF-8, while place counts
        characters.
        """
        return self._located().words

    def excerpt(self) -> str:
        """At most 72 characters of the text around the place, or digits of the bytes, and carets below it, in two
        lines; an empty text without a place."""
        return self._located().excerpt

    def _located(self) -> Located:
        self._where = found = self._where.located()
        return found

    def __reduce__(self) -> Any:
        self._located()  # which is less than what was given
        return super().__reduce__()

    @property
    def line(self) -> str:
        """What the program prints in place of an answer, such as 'error 12 ace-type dacl'."""
        return " ".join(["error", str(self.number), self.name, *filter(None, (self.part, self.other_part))])

    @property
    def meaning(self) -> str:
        """What the number means, in words."""
        return MEANINGS.get(self.number, self.name)

    def __str__(self) -> str:
        where = self.where
        return f"{_argument(self.argument, self.index)}{self.line}: {self.meaning}{where and ', '}{where}"


class ArgumentFault(_Numbered):
    """An argument beside the descriptor or the text that the call does not take, such as a number out of its range.

    It is no Fault, since it says nothing about the descriptor. argument and index say which argument, and which of a
    list; they are None if that is not known. number is 70 and name is "argument".
    """

    number = ARGUMENT
    name = "argument"
    part = None
    other_part = None

    def __init__(self, problem: str, argument: Optional[str] = None, index: Optional[int] = None) -> None:
        super().__init__(problem, argument, index)
        self.problem = problem
        self.argument = argument
        self.index = index

    def __str__(self) -> str:
        return f"{_argument(self.argument, self.index)}{self.problem}"


def _argument(argument: Optional[str], index: Optional[int]) -> str:
    """Which argument it is about, in front of a text."""
    if argument is None:
        return ""
    return f"{argument}: " if index is None else f"{argument}[{index}]: "
