"""Asks all languages the same random requests, hostile ones too. Each answer has to be the library's own.

A hundred of each call are asked again from eight threads at once, but in JavaScript, which has none. --only takes words
of names of languages. Python and JavaScript refuse an argument in words of their own, so only that they do is compared;
of a text that does not begin as an ACE they say no place.
"""
import concurrent.futures
import pathlib
import re
import shutil
import sys
import sysconfig
import tempfile

import dotnet_requests
import go
import language_requests
import preload
import rust

PROGRAMS = preload.TOP / "tests/library/requests"
WASM = preload.TOP / "out/systems/wasm/sdtool.wasm"
PYTHON = preload.TOP / "python"
REQUESTS = 4_000  # of each call, so that they are 100,000
AT_ONCE = 2_000   # requests for which descriptors and texts are made anew
# Neither has the version as a number. Tests of columns try Python's, and JavaScript has none.
JOBS = [job for job in language_requests.JOBS
        if job not in ("version", "check_column", "convert_many", "derive_many")]
PLACE = re.compile(r"(! 20 shape 0 0 0 0) \S+ (.*), at byte .*")
ARGUMENT = f"! {language_requests.header.ARGUMENT} "


def form(line, answer):
    if answer.startswith(ARGUMENT):
        return ARGUMENT.strip()
    if re.match("ace-text (?!28)", line):
        return PLACE.sub(r"\1 - \2", answer)
    return answer


def rust_way(count, folder):
    return rust.Cargo(count, folder).way()


def go_way(count, folder):
    return go.Go(count, folder).way("requests")


def dotnet_way(_, folder):
    return dotnet_requests.requests_way(folder)


def python_way(count, folder):
    """The package with its extension."""
    shutil.copytree(preload.TOP / "include", folder, dirs_exist_ok=True)
    way = ctypes_way(count, folder)
    said, status = language_requests.ran([sys.executable, folder / "build_wheel.py", "--extension"], folder, {})
    count.add(status == 0 and list((folder / "sdtool").glob("_native*.so")), f"the extension: {said}")
    return way


def ctypes_way(_, folder):
    shutil.copytree(PYTHON, folder, dirs_exist_ok=True, ignore=shutil.ignore_patterns("__pycache__", "*.so"))
    surroundings = {"PYTHONPATH": str(folder), "SDTOOL_LIBRARY": preload.LIBRARY}
    return language_requests.Way([sys.executable, "-B", PROGRAMS / "answers.py"], True, surroundings, 1, JOBS, form)


def javascript_way(_, folder):
    """A folder with the module of WebAssembly, and this tree's file for it."""
    shutil.copytree(preload.TOP / "javascript", folder, dirs_exist_ok=True)
    shutil.copy(WASM, folder)
    return language_requests.Way(["node", PROGRAMS / "answers.mjs", folder], False, {}, 1, JOBS, form)


# Each language, how its program is made, and what of commands and files that takes.
LANGUAGES = {
    "Rust": (rust_way, rust.TOOLS),
    "Go": (go_way, go.TOOLS),
    ".NET, in Mono": (dotnet_way, (("mcs", "mono-mcs"), ("mono", "mono-runtime"))),
    "Python": (python_way, (("cc", "gcc"), (sysconfig.get_paths()["include"] + "/Python.h", "python3-dev"))),
    "Python, by ctypes": (ctypes_way, ()),
    "JavaScript, in Node": (javascript_way, (("node", "nodejs"), (str(WASM), "make wasm"))),
}


def ways(count, top):
    """The program of each language that is chosen, in a folder."""
    found = {}
    for number, (language, (make, tools)) in enumerate(LANGUAGES.items()):
        if preload.is_chosen(language):
            missing, folder = language_requests.missing(tools), pathlib.Path(top, str(number))
            if missing:
                print(f"{language}: {missing}")
            else:
                folder.mkdir()
                found[language] = make(count, folder)
    return found


def judged(asked, number, seed):
    count = preload.Count()
    language_requests.judge_requests(count, asked, number, seed)
    return count


def add_options(parser):
    parser.add_argument("--count", type=int, default=REQUESTS, help="random requests of each call (%(default)s)")
    parser.add_argument("--jobs", type=int, default=2, help="processes (%(default)s)")
    parser.add_argument("--seed", default="", help="of other requests")


def main(count: preload.Count, given: preload.Given) -> None:
    with tempfile.TemporaryDirectory() as folder, concurrent.futures.ProcessPoolExecutor(given.jobs) as pool:
        asked = list(ways(count, folder).values())
        at_once = [(asked, min(AT_ONCE, given.count - first), f"{given.seed} {first}")
                   for first in range(0, given.count, AT_ONCE)]
        at_once.append(([way._replace(threads=8) for way in asked], 100, f"{given.seed} threads"))
        for one in pool.map(judged, *zip(*at_once)):
            count.passed, count.failed = count.passed + one.passed, count.failed + one.failed
