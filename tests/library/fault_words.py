"""Compares what the library says of faults with docs/FORMAT.md.

sdtool_describe gives for each fault, part, ACE, field and argument the sentence that the words of its tables make, and
the sentence of Python's exception; nothing of a place of another fault or past all texts; 71 and nothing written for
each size that is too small; 70 for a number of no fault. Without the library it is skipped.
"""
import ctypes
import itertools
import os
import pathlib
import random
import re
import sys

import fault_places
import preload
import sddl_texts
from fault_places import FIELDS, LIBRARY, NO_ACE, PARTS, Told
from reference.places import Place

TOP = pathlib.Path(__file__).resolve().parents[2]
ARGUMENT, FAULT, TOO_SMALL = 70, 11, 71  # what no fault has is the argument FAULT
OF_PYTHON = range(60)  # faults that are exceptions there
TEXTS = 2000  # random ones
MOST_TEXT = fault_places.MOST_TEXT


def read(path):
    return (TOP / path).read_text(encoding="utf-8")


def documented():
    """The name and the meaning of each fault in docs/FORMAT.md, without marks and links."""
    rows = re.findall(r"(?m)^\| `error (\d+) ([a-z0-9-]+)[A-Z ]*` \| (.*?) \|", read("docs/FORMAT.md"))
    plain = [(int(number), name, re.sub(r"\[([^]]*)\]\([^)]*\)", r"\1", meaning).replace("`", ""))
             for number, name, meaning in rows]
    return {number: (name, meaning) for number, name, meaning in plain}


def arguments():
    """The names of arguments in the header, by their numbers."""
    body = re.search(r"enum sdtool_argument \{(.*?)\};", read("include/sdtool.h"), re.S)[1]
    return {int(number): name.lower() for name, number in re.findall(r"SDTOOL_ARGUMENT_(\w+) = (\d+)", body)}


class Outcome(ctypes.Structure):
    _fields_ = [(name, ctypes.c_uint32) for name in ("fault", "part", "other_part", "argument")]
    _fields_ += [("entry", ctypes.c_size_t), ("length", ctypes.c_size_t)]


class Library:
    def __init__(self, count, words):
        self.count, self.words, self.arguments = count, words, arguments()
        self.call = ctypes.CDLL(str(LIBRARY)).sdtool_describe
        self.call.restype = Outcome
        self.call.argtypes = [ctypes.POINTER(Outcome), ctypes.POINTER(Told), ctypes.c_char_p, ctypes.c_size_t]
        header = read("include/sdtool.h")
        self.most = int(re.search(r"SDTOOL_MOST_DESCRIPTION = (\d+)", header)[1])
        self.longest = 0

    def asked(self, outcome, place, size):
        text = ctypes.create_string_buffer(b"\xaa" * size, size)
        told = self.call(outcome, place, text, size)
        return told, text.raw

    def described(self, outcome, place):
        """The text, or the outcome of a call that gives none."""
        told, text = self.asked(outcome, place, self.most)
        if told.fault:
            self.count.add(text == b"\xaa" * self.most, f"fault {outcome.fault}: a text beside a fault")
            return told.fault, told.argument
        self.longest = max(self.longest, told.length)
        return text[:told.length].decode("ascii")

    def compare(self, outcome, place, right):
        found = self.described(outcome, place)
        self.count.add(found == right, f"fault {outcome.fault}: {found!r}, and not {right!r}")

    def line(self, number, first=0, second=0):
        name, meaning = self.words[number]
        parts = "".join(f" {PARTS[part]}" for part in (first, second) if part)
        return f"error {number} {name}{parts}: {meaning}"

    def compare_faults(self):
        for number, first, second in itertools.product(self.words, range(6), range(6)):
            known = [part if part < len(PARTS) else 0 for part in (first, second)]
            self.compare(Outcome(number, first, second), Told(), self.line(number, *known))

    def compare_places(self):
        fields = (*range(len(FIELDS)), len(FIELDS), 1 << 31)
        for number in self.words:
            for part, ace, field, offset in itertools.product(range(len(PARTS)), (NO_ACE, 0, 2, NO_ACE - 1), fields,
                                                              (0, 17, MOST_TEXT)):
                place = Place(PARTS[part], None if ace == NO_ACE or not part else ace,
                              FIELDS[field] if field < len(FIELDS) else None, offset, 4)
                right = f"{self.line(number)}, {fault_places.in_words(place)}"
                self.compare(Outcome(number), Told(number, part, ace, field, offset, 4), right)
            for other in (Told(number + 1, 1, 1, 1, 1, 1), Told(0, 1, 1, 1, 1, 1),
                          Told(number, 1, 1, 1, MOST_TEXT + 1, 1), Told(number, 1, 1, 1, (1 << 32) + 17, 1),
                          Told(number, 1, 1, 1, (1 << 64) - 1, 1)):
                self.compare(Outcome(number), other, self.line(number))

    def compare_arguments(self):
        for number, entry in itertools.product((*range(17), 1 << 31), (0, 3, (1 << 64) - 1)):
            front = f"{self.arguments[number]}: " if number in self.arguments else ""
            self.compare(Outcome(ARGUMENT, 0, 0, number, entry), Told(), front + self.line(ARGUMENT))

    def compare_unknown(self):
        listed = set(self.words)
        for number in {*range(600), 1 << 16, *(number + (1 << 16) for number in listed), (1 << 32) - 1} - listed:
            self.compare(Outcome(number, 1, 1, 1, 1), Told(number, 1, 1, 1, 1, 1), (ARGUMENT, FAULT))

    def compare_sizes(self):
        for number in self.words:
            outcome, place = Outcome(number, 1, 4, 5, 9), Told(number, 3, 70_000, 5, 9, 1)
            right = self.described(outcome, place)
            for size in range(len(right)):
                told, text = self.asked(outcome, place, size)
                is_kept = text == b"\xaa" * size
                self.count.add((told.fault, told.length) == (TOO_SMALL, len(right)) and is_kept,
                               f"fault {number} in {size} bytes: {told.fault}, {told.length}, {text!r}")
            told, text = self.asked(outcome, place, len(right))
            self.count.add((told.fault, told.length, text.decode("ascii")) == (0, len(right), right),
                           f"fault {number} in its size")

    def compare_python(self):
        """Sentences of exceptions, of faults that are made and of bytes and texts that are refused."""
        os.environ["SDTOOL_LIBRARY"] = str(LIBRARY)
        sys.path.insert(0, str(TOP / "python"))
        import sdtool  # noqa: PLC0415
        for number in (number for number in self.words if number in OF_PYTHON):
            for first, second in itertools.product(range(len(PARTS)), repeat=2):
                fault = sdtool.Fault(number, self.words[number][0], PARTS[first], PARTS[second])
                if first or not second:
                    self.compare(Outcome(number, first, second), Told(), str(fault))
        calls = fault_places.Calls(LIBRARY)
        for data, *_ in fault_places.OF_BYTES:
            try:
                sdtool.normalize(data)
            except sdtool.Fault as fault:
                self.compare(outcome_of(fault), calls.told("sdtool_place", data), str(fault))
        for text in sddl_texts.hostile(random.Random(1), TEXTS):
            try:
                sdtool.from_sddl(text)
            except sdtool.Fault as fault:
                place = calls.told("sdtool_sddl_place", text.encode("utf-8", "surrogatepass"), b"")
                self.compare(outcome_of(fault), place, str(fault))


def outcome_of(fault):
    return Outcome(fault.number, PARTS.index(fault.part), PARTS.index(fault.other_part))


def compare_library(count, words):
    if not LIBRARY.exists():
        print(f"sdtool_describe: skipped, there is no {LIBRARY}")
        return
    library = Library(count, words)
    for compare in (library.compare_faults, library.compare_places, library.compare_arguments, library.compare_unknown,
                    library.compare_sizes, library.compare_python):
        compare()
    count.add(library.longest <= library.most, f"a sentence has {library.longest} bytes")


def main(count: preload.Count) -> None:
    compare_library(count, documented())
