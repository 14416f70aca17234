"""What an object holds and nobody else reaches: slots that are read and set by the module alone."""
import os
import threading
from typing import Any, Callable

from ._errors import WrongType, shown

_name_of_type: Callable[[type], str] = vars(type)["__name__"].__get__
# One __init__ of an object wins, also where threads call two. A finalizer or a handler of a signal may run while its
# own thread has the lock, and make objects too.
_filling = threading.RLock()


def _after_fork() -> None:
    """A thread that the child does not have may have held the lock."""
    global _filling
    _filling = threading.RLock()


if hasattr(os, "register_at_fork"):
    os.register_at_fork(after_in_child=_after_fork)


def type_name(value: object) -> str:
    """The name of an object's type, whatever a metaclass makes of it."""
    return shown(_name_of_type(type(value)))


def not_made(value: object) -> WrongType:
    """What to raise of an object whose __init__ was not called, failed or has not ended: it has no content at all."""
    return WrongType(f"the {type_name(value)} was not made: its __init__ did not end")


def another_type(value: object) -> WrongType:
    """What to raise of an object for which a method is called that its type does not have."""
    return WrongType(f"a method of another type, called for an object of {type_name(value)}")


class Slot:
    """A slot of a class, taken out of the class: so no attribute, no subclass and no object.__setattr__ finds it."""

    def __init__(self, owner: type, name: str) -> None:
        member = owner.__dict__[name]
        type.__delattr__(owner, name)
        self.get, self._set = member.__get__, member.__set__  # get raises AttributeError while an object is not made

    def of(self, value: Any) -> Any:
        """What an object of the class holds, or None while it is not made."""
        try:
            return self.get(value)
        except AttributeError:
            return None
        except TypeError:
            raise another_type(value) from None

    def fill(self, value: Any, content: Any) -> bool:
        """Makes an object, once; says whether this was the time."""
        with _filling:
            if self.of(value) is not None:
                return False
            self._set(value, content)
            return True

    def put(self, value: Any, content: Any) -> None:
        """Makes an object that nobody else has yet, or keeps the same content in another form."""
        self._set(value, content)
