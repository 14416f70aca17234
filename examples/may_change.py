#!/usr/bin/env python3
"""Answers a list of names and SDDL, a tab between them: may a member of Users change the object? No line goes
unanswered."""
import sys
import sdtool
from sdtool import FileMask

CHANGES = (FileMask.WRITE_DATA | FileMask.APPEND_DATA | FileMask.WRITE_EA | FileMask.DELETE_CHILD
           | FileMask.WRITE_ATTRIBUTES | FileMask.DELETE | FileMask.WRITE_DAC | FileMask.WRITE_OWNER)
# The token is read once. It has the user's groups, and those that every signed-in user has.
ask = sdtool.Checker(sdtool.Token(["BU", "WD", "AU"]), maximum=True)


def answer(text: str) -> str:
    if not text.strip():
        return "unknown, no descriptor"
    try:
        descriptor = sdtool.SecurityDescriptor.from_sddl(text)
        verdict = ask(descriptor)
    except sdtool.Fault as fault:
        return f"unknown, {fault}"
    if not descriptor.dacl.is_list:
        return "yes, it has no permissions, so everyone may do everything"
    if any(ace.object_type for ace in descriptor.dacl):
        return "unknown, an ACE is for an object type, which ask has to name"
    changes = FileMask(verdict.mask & CHANGES) if verdict else FileMask(0)
    return f"yes, {', '.join(changes.names)}" if changes else "no"


# A name may have a CR in it, and bytes that are not UTF-8.
for line in sys.stdin.buffer:
    name, _, text = line.decode(errors="surrogateescape").rstrip("\r\n").partition("\t")
    sys.stdout.buffer.write(f"{name}: {answer(text)}\n".encode(errors="surrogateescape"))
