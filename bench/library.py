#!/usr/bin/env python3
"""library.py [--descriptors N] [--rounds N] [--sids N] [--write]

Measures one call at a time of libsdtool beside Samba's libraries, from C (library.c) and from Python, all in one run:
SDDL to a descriptor, a descriptor to SDDL, an access check for a token of 20 SIDs (or of as many as --sids says) and,
from Python, a walk of all ACEs that reads their fields. All have the same descriptors, those of a file server that
generate.py makes, and have to give the same answers.

Samba's checks have their token at hand. Ours are measured in both ways: with a token that each check reads anew, and
with one that was read once, by sdtool_token_read or as a Token.

Samba's calls work on a structure of its own. 'At hand' is what a call takes with that structure, or with the object of
our Python module, at hand. 'With bytes' adds reading it from bytes, or writing it to bytes, as files and protocols have
descriptors. From C, libsdtool takes and gives nothing but bytes, so both columns have the same figure.

Python's calls are also measured without the module's extension, by ctypes: `--ctypes`.

It needs Debian's packages samba-dev and python3-samba, and runs in /usr/bin/python3 where that has Samba's modules and
the caller's Python has not. Time is processor time, the median of the rounds, in each of which all calls take turns.
"""
import argparse
import itertools
import os
import pathlib
import statistics
import subprocess
import sys
import tempfile
import time

sys.dont_write_bytecode = True
import generate  # noqa: E402  (which finds the folder of the tests)
import reference  # noqa: E402
import results  # noqa: E402

TOP = pathlib.Path(__file__).resolve().parent.parent
LIBRARY = TOP / "out/lib"
LEAST_SECONDS = 0.2
OTHER_PYTHON = "/usr/bin/python3"
DOMAIN_TEXT = "-".join(["S-1", *map(str, generate.HOME)])
# A user in groups that descriptors name, and in others that they do not.
NAMED = ["S-1-1-0", "S-1-5-11", "S-1-5-4", "S-1-5-32-545", f"{DOMAIN_TEXT}-1105", f"{DOMAIN_TEXT}-513"]


def token_of(count):
    return [*NAMED, *(f"{DOMAIN_TEXT}-{number}" for number in range(40_000, 40_000 + count))][:count]


WANTED = 0x120089  # FILE_GENERIC_READ
GENERIC_RIGHTS = 0xf0000000
JOBS = {"from_sddl": "from SDDL", "to_sddl": "to SDDL", "check": "check, token anew",
        "check_with": "check, token at hand",
        "walk": "walk of the ACEs"}
LIBRARIES = ("sdtool", "sdtool-bytes", "samba", "samba-bytes")


# Samba 4.17 checks no object ACE, reads no label in SDDL, and takes generic rights as mapped.
TYPES = {0, 1, 2}
SAMBA = "/usr/lib/{}/samba"
SAMBA_LIBRARIES = ["-l:libsamba-security-samba4.so.0", "-l:libndr-samba-samba4.so.0", "-lndr", "-ltalloc"]


def is_for_both(descriptor):
    aces = [ace for acl in (descriptor.dacl, descriptor.sacl) if acl is not None for ace in acl.aces]
    return all(ace.type in TYPES and not ace.mask & GENERIC_RIGHTS for ace in aces)


def descriptors(count):
    """So many descriptors, each as bytes and SDDL. Samba 4.17 reads FA as 0x1ff, so the mask is written as a number."""
    generator = generate.Generator(1)
    while count > 0:
        descriptor = reference.read(generator.descriptor())
        if is_for_both(descriptor):
            sddl = reference.sddl(descriptor, generate.PRINTING)
            yield reference.layout(descriptor), sddl.replace(";FA;", ";0x1f01ff;")
            count -= 1


def build(folder):
    """library.c, linked to both libraries as programs are: to shared ones."""
    machine = subprocess.run(["gcc", "-print-multiarch"], stdout=subprocess.PIPE, check=True, text=True).stdout.strip()
    private = SAMBA.format(machine)
    program = folder / "library"
    subprocess.run(["gcc", "-O2", "-I", TOP / "include", "-isystem", "/usr/include/samba-4.0", "-o", program,
                    TOP / "bench/library.c", LIBRARY / "libsdtool.so", f"-L{private}", *SAMBA_LIBRARIES,
                    f"-Wl,-rpath,{private}:{LIBRARY}"], check=True)
    return program


def fields_of_ours(descriptor):
    return [(ace.kind, ace.flags, ace.mask, ace.sid) for acl in (descriptor.dacl, descriptor.sacl) if acl.is_list
            for ace in acl]


def fields_of_samba(descriptor):
    return [(ace.type, ace.flags, ace.access_mask, ace.trustee) for acl in (descriptor.dacl, descriptor.sacl)
            if acl is not None for ace in acl.aces]


class Calls:
    """Each call from Python, as a function of an item."""

    def __init__(self, sdtool, sids):
        from samba import NTSTATUSError, security as samba_security
        from samba.dcerpc import security
        from samba.ndr import ndr_pack, ndr_unpack
        token = security.token()
        token.sids = list(map(security.dom_sid, sids))
        token.num_sids = len(sids)
        domain, domain_of_samba = sdtool.Sid(DOMAIN_TEXT), security.dom_sid(DOMAIN_TEXT)
        binary = [bytes(sdtool.Sid(sid)) for sid in sids]
        of_samba, ours, check = security.descriptor, sdtool.SecurityDescriptor, sdtool.Checker(sdtool.Token(sids),
                                                                                               WANTED)

        def is_granted(descriptor):
            try:
                return samba_security.access_check(descriptor, token, WANTED) == WANTED
            except NTSTATUSError:
                return False

        self.item = lambda data, text: (data, text, ndr_unpack(of_samba, data), ours.from_bytes(data))
        self.calls = {
            ("from_sddl", "sdtool"): lambda item: ours.from_sddl(item[1], domain=domain),
            ("from_sddl", "sdtool-bytes"): lambda item: ours.from_sddl(item[1], domain=domain).bytes,
            ("from_sddl", "samba"): lambda item: of_samba.from_sddl(item[1], domain_of_samba),
            ("from_sddl", "samba-bytes"): lambda item: ndr_pack(of_samba.from_sddl(item[1], domain_of_samba)),
            ("to_sddl", "sdtool"): lambda item: item[3].sddl(domain=domain),
            ("to_sddl", "sdtool-bytes"): lambda item: ours.from_bytes(item[0]).sddl(domain=domain),
            ("to_sddl", "samba"): lambda item: item[2].as_sddl(domain_of_samba),
            ("to_sddl", "samba-bytes"): lambda item: ndr_unpack(of_samba, item[0]).as_sddl(domain_of_samba),
            ("check", "sdtool"): lambda item: sdtool.check(item[3], binary, wanted=WANTED).granted,
            ("check", "sdtool-bytes"): lambda item: sdtool.check(item[0], binary, wanted=WANTED).granted,
            ("check", "samba"): lambda item: is_granted(item[2]),
            ("check", "samba-bytes"): lambda item: is_granted(ndr_unpack(of_samba, item[0])),
            ("check_with", "sdtool"): lambda item: check(item[3]).granted,
            ("check_with", "sdtool-bytes"): lambda item: check(item[0]).granted,
            ("check_with", "samba"): lambda item: is_granted(item[2]),
            ("check_with", "samba-bytes"): lambda item: is_granted(ndr_unpack(of_samba, item[0])),
            ("walk", "sdtool"): lambda item: fields_of_ours(item[3]),
            ("walk", "sdtool-bytes"): lambda item: fields_of_ours(ours.from_bytes(item[0])),
            ("walk", "samba"): lambda item: fields_of_samba(item[2]),
            ("walk", "samba-bytes"): lambda item: fields_of_samba(ndr_unpack(of_samba, item[0])),
        }
        self.many = lambda items: [verdict.granted for verdict in check.many([item[3] for item in items])]

    def compare(self, items):
        """Both have to give the same verdicts and fields; library.c compares the rest."""
        for item in items:
            for job, plain in (("check", bool), ("check_with", bool),
                               ("walk", lambda fields: [(*map(int, one[:3]), str(one[3])) for one in fields])):
                answers = [plain(self.calls[job, library](item)) for library in LIBRARIES]
                if any(answer != answers[0] for answer in answers):
                    sys.exit(f"bench: Python's answers differ on {item[1]}: {job} {answers}")
        if self.many(items) != [self.calls["check_with", "sdtool"](item) for item in items]:
            sys.exit("bench: many checks differ from one after the other")


MANY = ("Python", "check", "many")


def nanoseconds(call, items):
    began, calls = time.process_time(), 0
    while time.process_time() - began < LEAST_SECONDS:
        for item in items:
            call(item)
        calls += len(items)
    return (time.process_time() - began) / calls * 1e9


def measure(program, given, calls, items, rounds):
    """Of each call, from C and from Python, the nanoseconds of each round."""
    taken = {}
    for _ in range(rounds):
        printed = subprocess.run([program, given, "1"], stdout=subprocess.PIPE, check=True, text=True).stdout
        for line in printed.splitlines()[1:]:
            job, library, time_taken = line.split()
            taken.setdefault(("C", job, library), []).append(float(time_taken))
        for (job, library), call in calls.calls.items():
            taken.setdefault(("Python", job, library), []).append(nanoseconds(call, items))
        taken.setdefault(MANY, []).append(nanoseconds(calls.many, [items]) / len(items))
    return {name: statistics.median(times) for name, times in taken.items()}


def show(taken):
    print(f"{'':28}{'at hand':>27}{'ratio':>8}{'with bytes':>29}{'ratio':>8}")
    print(f"{'':28}{'sdtool':>14}{'Samba':>13}{'':8}{'sdtool':>16}{'Samba':>13}")
    for language, job in itertools.product(("C", "Python"), JOBS):
        if (language, job, "sdtool") in taken:
            ours, alone, whole = (taken[language, job, library] for library in ("sdtool", "samba", "samba-bytes"))
            bytes_of_ours = taken.get((language, job, "sdtool-bytes"), ours)
            print(f"{language + ', ' + JOBS[job]:28}{ours:11,.0f} ns{alone:10,.0f} ns{alone / ours:8.1f}"
                  f"{bytes_of_ours:13,.0f} ns{whole:10,.0f} ns{whole / bytes_of_ours:8.1f}")
    print(f"{'Python, check of many':28}{taken[MANY]:11,.0f} ns{taken['Python', 'check_with', 'samba']:10,.0f} ns"
          f"{taken['Python', 'check_with', 'samba'] / taken[MANY]:8.1f}")


def main():
    parser = argparse.ArgumentParser(description="Measures the library beside Samba's, from C and from Python.")
    parser.add_argument("--descriptors", type=int, default=2000, help="(%(default)s)")
    parser.add_argument("--rounds", type=int, default=9, help="(%(default)s)")
    parser.add_argument("--sids", type=int, default=20, help="of the token (%(default)s)")
    parser.add_argument("--ctypes", action="store_true", help="Python's calls without the module's extension")
    results.add_option(parser)
    wanted = parser.parse_args()
    try:
        import samba  # noqa: F401
    except ImportError:
        if sys.executable != OTHER_PYTHON and os.access(OTHER_PYTHON, os.X_OK):
            os.execv(OTHER_PYTHON, [OTHER_PYTHON, *sys.argv])
        sys.exit("bench: no Python here has Samba's modules, of Debian's package python3-samba")
    if not os.access(LIBRARY / "libsdtool.so", os.R_OK):
        sys.exit(f"bench: there is no library in {LIBRARY}; 'make library' builds it")
    os.environ["SDTOOL_LIBRARY"] = str(LIBRARY / "libsdtool.so")
    sys.path.insert(0, str(TOP / "python"))
    extension = TOP / "python/build_wheel.py"
    if wanted.ctypes:
        sys.modules["sdtool._native"] = None
    elif subprocess.run([sys.executable, extension, "--extension"], check=False).returncode != 0:
        sys.exit("bench: the extension cannot be built; --ctypes measures without it")
    import sdtool
    token = token_of(wanted.sids)
    calls = Calls(sdtool, token)
    with tempfile.TemporaryDirectory() as name:
        folder = pathlib.Path(name)
        program, given = build(folder), folder / "descriptors"
        pairs = list(descriptors(wanted.descriptors))
        question = " ".join([DOMAIN_TEXT, hex(WANTED), *token])
        given.write_text("".join(f"{line}\n" for line in [question, *(f"{data.hex()} {text}" for data, text in pairs)]))
        items = [calls.item(data, text) for data, text in pairs]
        calls.compare(items)
        taken = measure(program, given, calls, items, wanted.rounds)
    size = sum(len(data) for data, _ in pairs) / len(pairs)
    print(f"{len(pairs):,} descriptors of {size:.0f} bytes on average, a token of {len(token)} SIDs")
    print(f"beside Samba {samba.version}, processor time of a call, medians of {wanted.rounds} rounds; the answers "
          "are equal")
    show(taken)
    return 0


if __name__ == "__main__":
    sys.exit(results.kept(main))
