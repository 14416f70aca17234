"""The lines of an input, and the answer to each."""
from .access import verdict
from .command_line import EXPLANATION, VERDICT
from .explaining import explanation
from .forms import LINE_LIMITS, PRINTED, READ
from .inheriting import derived
from .parts import Descriptor, Fault


def shown(line, settings):
    """What a line shows: a descriptor, or the fault that it has, or None where it is empty."""
    if not line:
        return None
    try:
        if len(line) > LINE_LIMITS[settings.source]:
            raise Fault(1, "too-long")
        return READ[settings.source](line, settings.domain)
    except Fault as fault:
        return fault.with_traceback(None)  # (which would keep all that stood in the frames)


def made(found, settings):
    """What is printed of what a line shows: under derive the new object's descriptor, or why there is none."""
    if settings.plan is None or not isinstance(found, Descriptor):
        return found
    try:
        return derived(found, settings.creator, settings.plan)
    except Fault as fault:
        return fault.with_traceback(None)


def answer(found, settings):
    """The answer to what a line shows, without its LF, which is the last one of an explanation."""
    if found is None:
        return b""
    if isinstance(found, Fault):
        return str(found).encode()
    if settings.to == VERDICT:
        return verdict(found, settings.ask).encode()
    if settings.to == EXPLANATION:
        return explanation(found, settings).encode()
    return PRINTED[settings.to](found, settings).encode()


def lines(data):
    """The lines of an input: each ends with LF, and one CR directly before it is dropped; a last line without
    LF counts where it is not empty, and keeps its CR."""
    *ended, last = data.split(b"\n")
    return [line[:-1] if line.endswith(b"\r") else line for line in ended] + ([last] if last else [])


def all_shown(data, settings):
    """What each line of an input shows."""
    return [shown(line, settings) for line in lines(data)]


def answers(found, settings):
    """The answers to what the lines of an input show, and the exit status."""
    found = [made(one, settings) for one in found]
    return [answer(one, settings) for one in found], int(any(isinstance(one, Fault) for one in found))
