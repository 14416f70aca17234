"""Tries what may go wrong around `python3 -m sdtool.distributed`: each by itself, on clusters of real processes:
folders that cannot be listed, files that are no inputs, files of others at the places of answers, workers that fail,
hang, die or are others, outputs that vanish, words that are wrong. After each run the test compares what was listed
with what was answered: an input has the answers of the program, or standard error names it and the status is 3.
tests/machines/distributed.py says what it needs.
"""
import bz2
import concurrent.futures
import gzip
import json
import lzma
import os
import pathlib
import shutil
import signal
import subprocess
import tempfile
import time

import dask_cluster
import distributed as runs
import preload
from dask_cluster import end, wait_for
from distributed import has_parts, said_by, wait_until

TOP = pathlib.Path(__file__).resolve().parents[2]
LINE = runs.LINE
SLEEPS, KILLS, FAILS, LARGE = b"SLEEP\n", b"KILL\n", b"FAIL\n", b"0" * 300_000 + b"\n"
SOON = ["--slowest", "500000"]  # a task that hangs is given up after 30 seconds
NOBODY = ["setpriv", "--reuid=65534", "--regid=65534", "--clear-groups"]
# A worker whose library hangs, kills its process, or fails at a line; one that waits for `go` behind its first answer;
# and one that waits until another has failed.
HANGS = "if b'SLEEP' in data: open({folder!r} + '/hung', 'w').close(); time.sleep(1000)"
DIES = "if b'KILL' in data: os.kill(os.getpid(), signal.SIGKILL)"
DIES_OR_SLEEPS = f"{DIES}\n        time.sleep(0.3)"
DIES_ONCE = "if b'KILL' in data: open({folder!r} + '/failed', 'w').close(); os.kill(os.getpid(), signal.SIGKILL)"
REFUSES = "if b'FAIL' in data: open({folder!r} + '/failed', 'w').close(); raise ValueError('this worker fails')"
WAITS = """number = next(numbers)
        while number and not os.path.exists({go!r}): time.sleep(0.02)"""
WAITS_FOR_FAILURE = "while not os.path.exists({folder!r} + '/failed'): time.sleep(0.02)"
# Workers that tell of their answers: at once, before they hold them until `go`, and but for a first read that fails.
TELLS = "open({log!r}, 'a').write(f'{{os.getpid()}}\\n'); time.sleep(0.1)"
HOLDS = f"""{TELLS}
        while not os.path.exists({{go!r}}): time.sleep(0.02)"""
FAILS_ONCE = f"""if not next(numbers): raise OSError('a read that failed')
        {TELLS}"""
# A worker that pauses behind its first answer.
PAUSES = """if not next(numbers):
            from distributed import get_worker
            from distributed.core import Status
            get_worker().loop.add_callback(setattr, get_worker(), 'status', Status.paused)
            time.sleep(0.3)"""
# Behind the stub of a worker: it is stopped before a file gets another name, where the file `stop` says so.
STOPS = """
replace_before = os.replace
def replace_or_stop(old, new, **folders):
    names = 'from ' + os.path.basename(old), 'to ' + os.path.basename(new)
    if os.environ['STOPS'] in names and os.path.exists({folder!r} + '/stop'):
        os.rename({folder!r} + '/stop', {folder!r} + '/stopped')
        os.kill(os.getpid(), signal.SIGSTOP)
    replace_before(old, new, **folders)
os.replace = replace_or_stop
"""
# Behind the stub of a driver: two of them own the output at once, the one that has LATER=0 first.
TOGETHER = """
right_replace = os.replace
def come(step):
    open({folder!r} + '/' + step + os.environ['LATER'], 'w').close()
    while not all(os.path.exists({folder!r} + '/' + step + which) for which in '01'): time.sleep(0.02)
def replace(old, new, **folders):
    if os.path.basename(new) != 'run.json':
        return right_replace(old, new, **folders)
    come('begins')
    while os.environ['LATER'] == '1' and not os.path.exists({folder!r} + '/owns0'): time.sleep(0.02)
    right_replace(old, new, **folders)
    come('owns')
os.replace = replace
"""
# Behind the stub of a driver: it has looked at the output, and does not own it until `go`.
LOOKED = """
right_link = os.link
def link(old, new):
    open({folder!r} + '/looked', 'w').close()
    while not os.path.exists({folder!r} + '/go'): time.sleep(0.02)
    right_link(old, new)
os.link = link
"""
# Behind the stub of a driver: the output is on a file system without hard links.
WITHOUT_LINKS = """
def link(old, new):
    raise PermissionError(1, 'no hard links')
os.link = link
"""
# Behind the stub of a driver: when it begins to look, another one does too.
LOOK_TOGETHER = """
from fsspec.implementations.local import LocalFileSystem
right_pipe = LocalFileSystem.pipe_file
def pipe_file(fs, path, *arguments):
    right_pipe(fs, path, *arguments)
    if os.path.dirname(path).endswith('/_sdtool'):
        open({folder!r} + '/looks' + os.environ['LATER'], 'w').close()
        while not all(os.path.exists({folder!r} + '/looks' + which) for which in '01'): time.sleep(0.02)
LocalFileSystem.pipe_file = pipe_file
"""
# A run during which another one, with other words, begins at the step at which the first one has looked at the output.
LOOKED_IN_MEMORY = """
import fsspec
from sdtool import distributed
memory = fsspec.filesystem("memory")
for name in "xy":
    memory.pipe(f"/in/{name}", open("x", "rb").read())
right, others = type(memory).pipe_file, []
def pipe_file(fs, path, *arguments):
    if path.endswith("/run.json") and not others:
        others.append(None)
        others[0] = distributed.main(["--out", "memory://out", "explain", "--", "memory://in/y"])
    right(fs, path, *arguments)
type(memory).pipe_file = pipe_file
status = distributed.main(["--out", "memory://out", "convert", "--", "memory://in/x"])
print(status, others, [name for name in memory.find("/out") if "_sdtool" not in name])
"""
# A worker of a run that has lost the output, though its folder is there.
LOST = """
import contextlib, os
from sdtool.distributed import work
lost = work.Work("sdtool-1", ["convert"], "", "", "lost", False)
os.makedirs(lost.mine)
open("lost/_sdtool/run.json", "w").write('{"run": "another", "words": ["convert"]}')
with contextlib.suppress(work.Unfit), lost.written(f"{lost.place.root}/x") as file:
    file.write(b"answers")
print(os.listdir("lost"), os.listdir(lost.mine))
"""
# A run that another one takes over while its workers write nothing.
LOST_IN_MEMORY = """
import threading
import fsspec
from sdtool import _library, distributed
right, begins, goes_on, ends = _library.run, threading.Event(), threading.Event(), []
def run(words, data):
    if data:
        begins.set()
        goes_on.wait()
    return right(words, data)
_library.run = run
memory = fsspec.filesystem("memory")
memory.pipe("/in/x", open("x", "rb").read())
words = ["--out", "memory://out", "convert", "--", "memory://in/x"]
first = threading.Thread(target=lambda: ends.append(distributed.main(words)))
first.start()
begins.wait()
memory.pipe("/out/_sdtool/run.json", b'{"run": "another", "words": ["convert"]}')
first.join(300)
goes_on.set()
print(ends)
"""
# Behind the stub of a worker: where its answers are to appear, a link comes at the last step.
LINKS = """
replace_before = os.replace
def replace_behind_link(old, new, **folders):
    if os.path.basename(new) == 'x' and not os.path.lexists({folder!r} + '/linked/kept'):
        os.rename({folder!r} + '/linked/sub', {folder!r} + '/linked/kept')
        os.symlink({folder!r} + '/outside', {folder!r} + '/linked/sub')
    replace_before(old, new, **folders)
os.replace = replace_behind_link
"""
# Behind the stub of a driver: what is named `hangs` cannot be listed.
HANGS_IN_LS = """
right_scandir = os.scandir
def scandir(path="."):
    if "hangs" in str(path): time.sleep(1000)
    return right_scandir(path)
os.scandir = scandir
"""
# A run whose inputs are looked at side by side, some of 1,000 at once, as those of an object store. Most looks hang.
HANGS_IN_MEMORY = """
import time
import fsspec
from sdtool import distributed
memory = fsspec.filesystem("memory")
for name in "a", *(f"hangs{number}" for number in range(1050)):
    memory.pipe(f"/in/{name}", open("d/a", "rb").read())
right = type(memory).info
def info(fs, path, **options):
    if "hangs" in path: time.sleep(1000)
    return right(fs, path, **options)
type(memory).info = info
print(distributed.main(["--out", "memory://out", "--wait", "10", "convert", "--", "memory://in/*"]))
"""
# Behind the stub of a driver: it says that it lists the folder `late`, and then waits for `go`.
LISTS_LATE = """
right_scandir = os.scandir
def scandir(path="."):
    if str(path).endswith("/late"):
        open({folder!r} + "/listing", "w").close()
        while not os.path.exists({folder!r} + "/go"): time.sleep(0.02)
    return right_scandir(path)
os.scandir = scandir
"""
# A run that listed its output before another one, with smaller blocks, began and ended there.
LISTED_BEFORE = """
import sys
import fsspec
from sdtool import distributed
from sdtool.distributed import work
memory = fsspec.filesystem("memory")
memory.pipe("/in/x", open("x", "rb").read())
for block in "500", "1000":
    distributed.main(["--out", "memory://out", "--parts", "--block", block, "convert", "--", "memory://in/x"])
    work.Place.list_all = lambda place: setattr(place, "known", set())
sys.stdout.buffer.write(b"--" + b"".join(memory.cat(path) for path in sorted(memory.glob("/out/x/part-*"))))
"""
# Makes and removes files in the folder d.
COMES_AND_GOES = """
import os
while True:
    for number in range(100): open(f'd/comes and goes {os.getpid()} {number}', 'w').close()
    for number in range(100): os.remove(f'd/comes and goes {os.getpid()} {number}')
"""
# A server of the files in a folder that says nothing of their versions.
WITHOUT_VERSIONS = """
import sys
from aiohttp import web
async def answer(request):
    with open(sys.argv[1] + request.path, 'rb') as file: data = file.read()
    span = request.http_range
    if span.start is None: return web.Response(body=data)
    end = min(span.stop, len(data))
    told = {'Content-Range': f'bytes {span.start}-{end - 1}/{len(data)}'}
    return web.Response(status=206, body=data[span.start:end], headers=told)
served = web.Application()
served.router.add_get('/{name}', answer)
web.run_app(served, host='127.0.0.1', port=int(sys.argv[2]))
"""
# Behind the stub of a worker: it is fit only when another one has failed, and a while has passed.
LATE = """
right_digest = _library.digest
def digest():
    while not os.path.exists({failed!r}): time.sleep(0.02)
    time.sleep(2)
    return right_digest()
_library.digest = digest
"""


class Place(runs.Place):
    def tree(self, files):
        for name, data in files.items():
            self.write(name, data)

    def patched(self, name, body):
        runs.STUBS[name] = body
        return self.stub(name)

    def behind(self, name, text):
        environment = self.patched(name, "pass")
        with open(f"{environment['PYTHONPATH']}/sdtool/__init__.py", "a") as file:
            file.write(text.format(folder=str(self.folder), failed=str(self.folder / "failed")))
        return environment

    def start_nanny(self, address, environment):
        """A worker that starts again when its process has ended."""
        words = ["-m", "distributed.cli.dask_worker", address, "--nthreads", "1", "--no-dashboard", "--host",
                 "127.0.0.1"]
        self.start([self.python, *words], environment, stdout=subprocess.DEVNULL, stderr=subprocess.DEVNULL)

    def cluster(self, *environments):
        _, address = self.start_scheduler()
        workers = [self.start_worker(address, environment) for environment in environments]
        self.wait_for_workers(address, len(workers))
        return address, workers


def judge(count, place, what, got, out, answered, named=(), status=None, answers=None, words=("convert",)):
    """Whether each input that is answered has the program's answers, each other one is named, and the status says so.
    answered has the names of answers and the files that they are of."""
    answers = runs.answers_in(out) if answers is None else answers
    wanted = {name: place.wanted(list(words), file) for name, file in answered.items()}
    if status is None:
        status = 3 if named else max([0, *(each[1] for each in wanted.values())])
    is_right = (answers == {name: each[0] for name, each in wanted.items()} and runs.says_only(got)
                and "Traceback" not in got.stdout)
    problems = [line for line in got.stderr.splitlines() if "has no answers" in line]
    is_named = len(problems) == len(named) and all(any(name in line for line in problems) for name in named)
    is_told = all(f"{place.folder}/{file}" in got.stdout for file in answered.values())
    count.add(is_right and is_named and is_told and got.status == status,
              f"{what}: answers {sorted(answers)}, {sorted(answered)} are wanted, named {list(named)}, status "
              f"{status}: {got}")


# Inputs.

def test_no_inputs(count, place):
    """A folder or a pattern with things that are no inputs: each is named, and the others are answered."""
    place.tree({"d/a": LINE * 3, "d/sub/b": LINE * 2, "d/log": LINE, "other/x": LINE, "other/deep/y": LINE})
    (place.folder / "d/log.gz").write_bytes(gzip.compress(LINE))
    os.mkfifo(place.folder / "d/fifo")
    os.symlink("nowhere", place.folder / "d/dangling")
    os.symlink("../other", place.folder / "d/linked")
    os.symlink("../other/x", place.folder / "d/linked file")
    right = {"a": "d/a", "sub/b": "d/sub/b", "log": "d/log", "linked file": "d/linked file"}
    out = place.out()
    got = place.run(out, ["convert"], ["d"])
    judge(count, place, "a folder", got, out, right, ["d/log.gz", "d/fifo", "d/dangling", "d/linked "])
    out = place.out()
    got = place.run(out, ["convert"], ["d/*"])
    named = ["d/sub has", "d/log.gz", "d/fifo", "d/dangling", "d/linked has"]
    judge(count, place, "a pattern", got, out, {name: file for name, file in right.items() if "/" not in name}, named)
    out = place.out()
    got = place.run(out, ["convert"], ["d/**/b", "other/[x]"])
    judge(count, place, "a pattern with folders", got, out, {"b": "d/sub/b", "x": "other/x"})
    out = place.out()
    got = place.run(out, ["convert"], ["other/**/**/y"])
    judge(count, place, "a pattern that leads to a file in two ways", got, out, {"y": "other/deep/y"})
    got = place.run(place.out(), ["convert"], ["d/dangling"])
    count.add(got.status == 2 and "d/dangling is a link that leads nowhere" in got.stderr, f"a dangling link: {got}")


def test_files_that_go(count, place):
    """A folder in which files come and go while it is listed: what stays has answers."""
    right = {name: f"d/{name}" for name in "abc"}
    place.tree({file: LINE * 3 for file in right.values()})
    others = [place.start([place.python, "-c", COMES_AND_GOES]) for _ in range(2)]
    for given in ["d"], ["d"], ["d/*"]:
        out = place.out()
        got = place.run(out, ["convert"], given)
        answers = {name: data for name, data in runs.answers_in(out).items() if "comes and goes" not in name}
        said = "".join(line for line in got.stderr.splitlines(True) if "comes and goes" not in line)
        judge(count, place, f"files that go, {given}", got._replace(stderr=said), out, right, status=got.status,
              answers=answers)
        count.add(got.status in (0, 3), f"files that go, {given}: {got}")
    for other in others:
        end(other)


def test_without_versions(count, place):
    """An input of which its server tells no version is answered, but not if it is replaced by one of the same size."""
    place.tree({"served/x": LINE * 300, "served/y": LINE * 300, "served/small": LINE, "z": LINE * 300})
    server = runs.Server("http://127.0.0.1:%d", [place.python, "-c", WITHOUT_VERSIONS, place.folder / "served"],
                         *runs.HTTP_NEEDS)
    url = runs.started_server(place, server)
    if url is None:
        print(f"skipped: no HTTP server (Debian: {server.package})")
        return
    waits = place.patched("waits for http", WAITS)
    for options in [], ["--parts"]:
        for is_replaced in False, True:
            address, _ = place.cluster(waits)
            place.hold()
            out = place.out()
            given = [f"{url}/{name}" for name in ("x", "y", "small")]
            child = place.start_run(out, ["convert"], given, ["--scheduler", address, "--block", "3000", *options])
            wait_until(child, lambda: has_parts(out / ("x" if options else "_sdtool/inputs/x")), "a part")
            if is_replaced:
                place.write("served/x", LINE.replace(b"12", b"13", 1) * 300)
            place.go()
            got = runs.ended(child)
            answers = {}
            for name, data in sorted(runs.answers_in(out).items()):
                whole = name.split("/")[0]
                answers[whole] = answers.get(whole, b"") + data
            wanted = {name: place.wanted(["convert"], f"served/{name}")[0] for name in ("x", "y", "small")}
            what = f"without a version, {options}, {'replaced' if is_replaced else 'the same'}"
            if is_replaced:
                is_named = f"{url}/x has no answers: OSError" in got.stderr and "has changed" in got.stderr
                count.add(got.status == 3 and is_named and f" {url}/x" not in got.stdout, f"{what}: {got}")
                wanted.pop("x")
                answers.pop("x", None)
            else:
                count.add(got.status == 0, f"{what}: {got}")
            count.add(answers == wanted, f"{what}: {sorted(answers)}: {got}")
            place.write("served/x", LINE * 300)


def test_closed_folders(count, place):
    place.tree({"d/a": LINE, "d/closed/b": LINE, "d/open/b": LINE, "d/run/b": LINE, "d/run/_sdtool/own": LINE,
                "d/_sdtool/own": LINE})
    closed = [place.folder / name for name in ("d/closed", "d/run/_sdtool", "d/_sdtool")]
    for folder in closed:
        os.chmod(folder, 0)
    for folder in place.folder, *place.folder.parents:
        if os.stat(folder).st_uid == os.getuid() and str(folder).startswith(tempfile.gettempdir() + "/"):
            os.chmod(folder, 0o777)
    for given, right, named in ((["d"], {"a": "d/a", "open/b": "d/open/b"}, ["d/closed", "d/run", "d/_sdtool"]),
                                (["d/[co]*/b"], {"b": "d/open/b"}, ["d/closed"])):
        out = place.out()
        out.mkdir()
        os.chmod(out, 0o777)
        got = place.run(out, ["convert"], given, through=NOBODY if os.getuid() == 0 else ())
        judge(count, place, f"closed folders, {given}", got, out, right, named)
    for folder in closed:
        os.chmod(folder, 0o777)


def test_names_of_runs(count, place):
    """A user's own files with names as runs have them, and the outputs of earlier runs."""
    place.tree({"d/_sdtool.json": LINE, "d/_sdtool-part-000001.json": LINE * 2, "d/_sdtool/own": LINE, "d/a": LINE * 3})
    for options in [], ["--parts"]:
        out = place.out()
        got = place.run(out, ["convert"], ["d"], options)
        named = "d/_sdtool/own has no answers" in got.stderr and got.stdout.count("lines") == 3
        count.add(got.status == 3 and named, f"a user's files, {options}: {got}")
    out = place.out()
    place.run(out, ["convert"], ["d/a"])
    first, second = place.folder / "tree/earlier", place.out()
    place.tree({"tree/b": LINE})
    got = place.run(first, ["convert"], ["d/a"])
    got = place.run(second, ["convert"], ["tree"])
    judge(count, place, "an earlier output below", got, second, {"b": "tree/b"}, ["tree/earlier"])
    place.tree({"tree/deep/a": LINE * 2})
    for pattern, right in ("tree/**", {"b": "tree/b", "a": "tree/deep/a"}), ("tree/*/a", {"a": "tree/deep/a"}):
        out = place.out()
        got = place.run(out, ["convert"], [pattern])
        judge(count, place, f"an earlier output that {pattern} leads to", got, out, right, ["tree/earlier"])
    shutil.rmtree(place.folder / "tree/deep")
    got = place.run(place.out(), ["convert", "--to", "hex"], [first])
    count.add(got.status == 1 and got.stdout.count("lines") == 1, f"an earlier output as input: {got}")
    (first / "_sdtool/mine").write_bytes(LINE)
    got = place.run(place.out(), ["convert", "--to", "hex"], [first])
    count.add(got.status == 3 and got.stdout.count("lines") == 1 and "_sdtool/mine has no answers" in got.stderr,
              f"a user's file beside the records of a run: {got}")
    for pattern in "*", "**":
        got = place.run(place.out(), ["convert", "--to", "hex"], [f"{first}/{pattern}"])
        count.add(got.status == 1 and got.stdout.count("lines") == 1,
                  f"what is in an earlier output, by the pattern {pattern}: {got}")
    os.symlink("tree/sub", place.folder / "outer")
    (place.folder / "tree/sub").mkdir()
    got = place.run(place.folder / "outer", ["convert"], ["tree"])
    count.add(got.status == 2 and "is in the input tree" in got.stderr and not os.listdir(place.folder / "tree/sub"),
              f"--out behind a link inside the input: {got}")
    (place.folder / "only/_sdtool").mkdir(parents=True)
    shutil.copy(first / "_sdtool/run.json", place.folder / "only/_sdtool/run.json")
    got = place.run(place.out(), ["convert"], ["only"])
    count.add(got.status == 2 and "no regular file but those of runs" in got.stderr, f"records alone: {got}")
    got = place.run(place.out(), ["convert"], ["/proc/version"])
    count.add(got.status == 2 and "does not tell its size" in got.stderr, f"a file without a size: {got}")


def test_packed(count, place):
    """Compressed files: what they are, and all that is in them."""
    plain = LINE * 500 + b"zz\n"
    place.write("plain", plain)
    two = {"gz": gzip.compress(plain[:99]) + gzip.compress(plain[99:]) + b"\0" * 512,
           "bz2": bz2.compress(plain[:99]) + bz2.compress(plain[99:]),
           "xz": lzma.compress(plain[:99]) + b"\0" * 8 + lzma.compress(plain[99:])}
    place.tree({f"good/{kind}.{kind}": data for kind, data in two.items()})
    place.tree({"good/no suffix": two["gz"], "good/upper.GZ": two["gz"]})
    out = place.out()
    got = place.run(out, ["convert"], ["good"])
    right = place.wanted(["convert"], "plain")[0]
    is_right = (got.status == 1 and runs.answers_in(out) == dict.fromkeys(["gz", "bz2", "xz", "no suffix",
                                                                           "upper"], right))
    count.add(is_right, f"streams one behind the other: {sorted(runs.answers_in(out))} {got}")
    bad = {f"{kind} {what}.{kind}": data for kind, whole in two.items() for what, data in {
        "with rubbish behind": whole + b"rubbish", "with a later stream that is cut": whole + whole[:20],
        "with a later stream that is damaged": whole.rstrip(b"\0") + whole[:20] + b"\xff\0\xff" + whole[23:],
        "empty": b"", "no such file": plain}.items()}
    place.tree({f"bad/{name}": data for name, data in bad.items()})
    place.tree({"bad/other.tgz": gzip.compress(plain), "bad/a.tar": b"x" * 300, "bad/zip": b"PK\3\4" + plain,
                "bad/seven": b"7z\xbc\xaf\x27\x1c" + plain,
                "bad/tar": b"\0" * 257 + b"ustar" + plain, "bad/good": LINE})
    out = place.out()
    got = place.run(out, ["convert"], ["bad"], ["--retries", "0"])
    named = [f"bad/{name}" for name in [*bad, "other.tgz", "a.tar", "zip", "seven", "tar"]]
    judge(count, place, "damaged files", got, out, {"good": "bad/good"}, named)
    place.write("frame.zst", b"\x28\xb5\x2f\xfd" + plain)
    place.write("skipped", b"\x50\x2aM\x18\4\0\0\0data\x28\xb5\x2f\xfd" + plain)  # RFC 8878, 3.1.2
    place.write("hidden/zstandard/__init__.py", b"raise ImportError('not here')")
    out = place.out()
    python = {"PYTHONPATH": f"{place.folder}/hidden:{place.modules}"}
    got = place.run(out, ["convert"], ["frame.zst", "skipped", "plain"], ["--retries", "0"], python)
    judge(count, place, "zstd without its package", got, out, {"plain": "plain"}, ["frame.zst", "skipped"])
    count.add("python3-zstandard" in got.stderr, f"the package is named: {got}")


# Files of others.

def test_parts(count, place):
    """Files that a user put beside parts, and parts that change."""
    place.write("x", LINE * 100)
    out = place.out()
    place.run(out, ["convert"], ["x"], ["--parts"])
    own = ["counterpart-9.txt", "part-000077.sorted", "my part-000001", "part-1"]
    for name in own:
        (out / "x" / name).write_text("mine")
    part = out / "x/part-000002"
    whole = part.read_bytes()
    part.write_bytes(whole[:-7])
    place.write("y", LINE)
    got = place.run(out, ["convert"], ["x"], ["--parts"])
    there = sorted(path.name for path in (out / "x").iterdir())
    count.add(got.status == 0 and part.read_bytes() == whole and set(own) <= set(there), f"parts again: {there} {got}")
    for options in ["--parts"], []:
        place.hold()
        out = place.out()
        child = place.start_run(out, ["convert"], ["x"], options, place.patched("waits", WAITS))
        parts = out / "x" if options else out / "_sdtool/inputs/x"
        wait_until(child, lambda: list(parts.glob("_sdtool-part-*.json")), "a part")
        for evidence in parts.glob("_sdtool-part-*.json"):
            (parts / evidence.stem.partition("-")[2]).write_bytes(whole[:5])
        place.go()
        got = runs.ended(child)
        answers = runs.answers_in(out)
        joined = b"".join(answers[name] for name in sorted(answers))
        count.add(got.status == 0 and joined == place.wanted(["convert"], "x")[0],
                  f"a part that is cut, {options}: {got}")


def test_files_of_others(count, place):
    place.tree({"one/x": LINE, "two/x": LINE * 2, "many/x": LINE * 3, "many/y": LINE * 4})
    out = place.out()
    place.run(out, ["convert"], ["one/x"])
    before = runs.answers_in(out)
    got = place.run(out, ["convert"], ["two/x"])
    count.add(got.status == 2 and "one/x" in got.stderr and runs.answers_in(out) == before,
              f"answers of another input: {got}")
    got = place.run(out, ["convert"], ["many"])
    is_kept = runs.answers_in(out)["x"] == before["x"] and "y" in runs.answers_in(out)
    count.add(got.status == 3 and is_kept and "many/x has no answers" in got.stderr,
              f"a folder with one such input: {got}")
    outside = place.folder / "outside"
    outside.mkdir()
    (outside / "part-000000").write_text("mine")
    out = place.out()
    (out / "_sdtool/inputs").mkdir(parents=True)
    os.symlink(outside, out / "_sdtool/inputs/x")
    got = place.run(out, ["convert"], ["one/x"])
    count.add(got.status == 2 and "behind a link" in got.stderr and os.listdir(outside) == ["part-000000"],
              f"a link below --out: {got}")
    out = place.out()
    out.mkdir()
    os.symlink("nowhere", out / "x")
    got = place.run(out, ["convert"], ["one/x"])
    count.add(got.status == 2 and os.path.islink(out / "x"), f"a dangling link at the place of answers: {got}")
    for first, second in ([], ["--parts"]), (["--parts"], []):
        out = place.out()
        place.run(out, ["convert"], ["one/x"], first)
        got = place.run(out, ["convert"], ["one/x"], second)
        count.add(got.status == 2 and "a run wrote with" in got.stderr, f"{first} and then {second}: {got}")
    out = place.out()
    (out / "x").parent.mkdir()
    (out / "x").write_text("mine")
    got = place.run(out, ["convert"], ["one/x"], ["--parts"])
    count.add(got.status == 2 and (out / "x").read_text() == "mine", f"--parts over a file: {got}")
    place.tree({"d/sub/x": LINE, "d/y": LINE})
    for options in [], ["--parts"]:
        out = place.out()
        out.mkdir()
        (out / "sub").write_text("mine")
        got = place.run(out, ["convert"], ["d"], options)
        (out / "sub").unlink()
        answers = {name.split("/")[0]: data for name, data in runs.answers_in(out).items()}
        judge(count, place, f"a file where a folder of answers has to be, {options}", got, out, {"y": "d/y"},
              ["d/sub/x"], answers=answers)


def stopped_run(place, out, at, options):
    """Begins a run whose one worker is stopped there, and ends the driver. Gives what lets the worker go on."""
    address, workers = place.cluster({**place.behind("stops", STOPS), "STOPS": at})
    (place.folder / "stop").touch()
    child = place.start_run(out, ["convert"], ["x"], ["--scheduler", address, *options])
    wait_until(child, (place.folder / "stopped").exists, "a worker that is stopped")
    is_stopped = child.poll() is None
    end(child)
    (place.folder / "stopped").unlink()

    def go_on():
        os.kill(workers[0].pid, signal.SIGCONT)
        time.sleep(3)
        return is_stopped
    return go_on


def test_stopped_in_tidy(count, place):
    """A worker that is stopped while it removes parts, and goes on behind a later run, removes none of that run."""
    place.write("x", LINE * 190)
    out, whole = place.out(), place.wanted(["convert"], "x")[0]
    place.run(out, ["convert"], ["x"], ["--parts"])
    go_on = stopped_run(place, out, "from part-000010", ["--parts", "--block", "4000"])
    got = place.run(out, ["convert"], ["x"], ["--parts"])
    is_stopped, answers = go_on(), runs.answers_in(out)
    joined = b"".join(answers[name] for name in sorted(answers))
    count.add(is_stopped and got.status == 0 and joined == whole and len(answers) == 13,
              f"a worker that was stopped: {sorted(answers)} {got}")


def test_stopped_before_write(count, place):
    """A worker that is stopped before its file has its name, and goes on behind a later run, changes no file of it."""
    for at, options in ("x", []), ("_sdtool.json", []), ("part-000003", []), ("part-000003", ["--parts"]):
        place.write("x", LINE * 100)
        out = place.out()
        go_on = stopped_run(place, out, f"to {at}", options)
        place.write("x", b"zz\n" * 2000)
        got = place.run(out, ["convert"], ["x"], options)
        before = {path: path.read_bytes() for path in out.rglob("*") if path.is_file()}
        is_stopped, answers = go_on(), runs.answers_in(out)
        after = {path: path.read_bytes() for path in out.rglob("*") if path.is_file()}
        joined = b"".join(answers[name] for name in sorted(answers))
        count.add(is_stopped and got.status == 1 and before == after and joined == place.wanted(["convert"], "x")[0],
                  f"a worker that was stopped before {at} {options}: {sorted(after.keys() ^ before.keys())} {got}")


def test_two_at_once(count, place):
    """Of two drivers that begin at once, one ends with 3 and the other one answers all."""
    place.write("x", LINE * 100)
    together = place.behind("two at once", TOGETHER)
    for options in [], ["--parts"]:
        for step in "begins0", "begins1", "owns0", "owns1":
            (place.folder / step).unlink(missing_ok=True)
        out = place.out()
        both = [place.start_run(out, ["convert"], ["x"], ["--wait", "60", *options], {**together, "LATER": later})
                for later in "01"]
        ends = [runs.ended(child) for child in both]
        answers = runs.answers_in(out)
        joined = b"".join(answers[name] for name in sorted(answers))
        count.add([got.status for got in ends] == [3, 0] and joined == place.wanted(["convert"], "x")[0],
                  f"two at once, {options}: {sorted(answers)}: {ends[0]} and {ends[1]}")
        count.add("another run has taken it over" in ends[0].stderr, f"the first of two at once, {options}: {ends[0]}")
    got = runs.ended(place.start([place.python, "-c", LOST], stdout=subprocess.PIPE, stderr=subprocess.PIPE))
    count.add(got.stdout == "['_sdtool'] []\n", f"what a worker writes when its run has lost the output: {got}")
    got = runs.ended(place.start([place.python, "-c", LOST_IN_MEMORY], stdout=subprocess.PIPE, stderr=subprocess.PIPE))
    is_right = "[3]" in got.stdout and "another run has taken it over" in got.stderr
    count.add(is_right, f"a run that another one takes over while it writes nothing: {got}")


def test_other_words_at_once(count, place):
    """Of two drivers with other words that begin at once, one is refused, wherever the other one is held."""
    place.tree({"x": LINE * 20, "y": LINE * 20})
    looked, together = place.behind("has looked", LOOKED), place.behind("look together", LOOK_TOGETHER)
    without = place.behind("without links", LOOK_TOGETHER + WITHOUT_LINKS)
    wanted = {"convert": {"x": place.wanted(["convert"], "x")[0]}, "explain": {"y": place.wanted(["explain"], "y")[0]}}
    place.hold()
    out = place.out()
    late = place.start_run(out, ["explain"], ["y"], (), looked)
    wait_until(late, (place.folder / "looked").exists, "a driver that has looked")
    first = place.run(out, ["convert"], ["x"])
    place.go()
    second = runs.ended(late)
    count.add((first.status, second.status) == (0, 3) and "has answers of 'sdtool convert'" in second.stderr
              and runs.answers_in(out) == wanted["convert"], f"other words, one is held: {first} and {second}")
    for what, environment, right in (("", together, ([0, 3], [3, 0])),
                                     (", without hard links", without, ([0, 3], [3, 0], [3, 3]))):
        for file in place.folder.glob("looks*"):
            file.unlink()
        out = place.out()
        both = [place.start_run(out, [command], [name], (), {**environment, "LATER": later})
                for command, name, later in (("convert", "x", "0"), ("explain", "y", "1"))]
        ends = [runs.ended(child) for child in both]
        answers = {}
        for got, command in zip(ends, wanted):
            answers.update(wanted[command] if got.status == 0 else {})
        count.add([got.status for got in ends] in right and runs.answers_in(out) == answers,
                  f"other words, both look at once{what}: {sorted(runs.answers_in(out))}: {ends[0]} and {ends[1]}")
    got = runs.ended(place.start([place.python, "-c", LOOKED_IN_MEMORY], stdout=subprocess.PIPE,
                                 stderr=subprocess.PIPE))
    count.add("0 [3] ['/out/x']" in got.stdout and "a run with other words begins there" in got.stderr,
              f"other words in memory: {got}")


def test_link_that_comes(count, place):
    """Behind a link that comes while a run goes on, nothing is written or removed, whenever it comes."""
    place.tree({"d/sub/a": LINE, "d/sub/x": LINE * 300, "d/y": LINE * 40, "outside/x/part-000099": b"mine"})
    outside = place.folder / "outside"

    def judge_outside(what):
        files = {str(path.relative_to(outside)): path.read_bytes() for path in outside.rglob("*") if path.is_file()}
        count.add(files == {"x/part-000099": b"mine"}, f"{what}: files behind the link: {files}")

    for options in [], ["--parts"]:
        address, _ = place.cluster(place.patched("waits", WAITS))
        place.hold()
        out = place.out()
        child = place.start_run(out, ["convert"], ["d"], ["--scheduler", address, "--block", "1500", *options])
        wait_until(child, lambda: (out / "sub/a").exists(), "answers")
        os.rename(out / "sub", out / "kept")
        os.symlink(outside, out / "sub")
        place.go()
        got = runs.ended(child)
        count.add(got.status == 3 and "d/sub/x has no answers" in got.stderr and "behind a link" in got.stderr
                  and "/d/y" in got.stdout, f"a link that comes, {options}: {got}")
        judge_outside(f"a link that comes, {options}")
    address, _ = place.cluster(place.behind("links", LINKS))
    place.run(place.folder / "linked", ["convert"], ["d"], ["--scheduler", address])
    count.add(os.path.islink(place.folder / "linked/sub"), "a link that comes at the last step")
    judge_outside("a link that comes at the last step")


def test_another_meanwhile(count, place):
    """Another run begins and ends while one looks for its inputs: answers to other words stay as they are, and parts of
    other blocks do not stay."""
    place.write("late/x", LINE * 10)
    place.hold()
    out = place.out()
    child = place.start_run(out, ["explain"], ["late"], (), place.behind("lists late", LISTS_LATE))
    wait_until(child, (place.folder / "listing").exists, "a listing")
    place.run(out, ["convert"], ["late"])
    place.go()
    got = runs.ended(child)
    answers = runs.answers_in(out)
    count.add(got.status == 3 and "has answers of 'sdtool convert'" in got.stderr
              and answers == {"x": place.wanted(["convert"], "late/x")[0]}, f"other words meanwhile: {answers} {got}")
    place.write("x", LINE * 100)
    got = runs.ended(place.start([place.python, "-c", LISTED_BEFORE], stdout=subprocess.PIPE, stderr=subprocess.PIPE))
    count.add(got.stdout.partition("--")[2].encode() == place.wanted(["convert"], "x")[0],
              f"parts of other blocks meanwhile: {got}")


def test_file_that_comes(count, place):
    """A file that somebody puts at the place of answers while they are made stays there."""
    place.write("x", LINE * 300)
    address, _ = place.cluster(place.patched("waits", WAITS))
    place.hold()
    out = place.out()
    child = place.start_run(out, ["convert"], ["x"], ["--scheduler", address, "--block", "1500", "--retries", "0"])
    wait_until(child, lambda: has_parts(out / "_sdtool/inputs/x"), "a part")
    (out / "x").write_text("mine")
    place.go()
    judge(count, place, "a file that comes", runs.ended(child), out, {}, ["x"], answers={})
    count.add((out / "x").read_text() == "mine", "the file that came is kept")


def test_records(count, place):
    """Records that somebody has changed, and ones of another type."""
    place.write("x", LINE * 40 + b"zz\n")
    right = place.wanted(["convert"], "x")[0]
    out = place.out()
    place.run(out, ["convert"], ["x"])
    manifest = out / "_sdtool/inputs/x/_sdtool.json"
    record = json.loads(manifest.read_bytes())
    record["errors"] = 0
    record["blocks"] = [{**block, "errors": 0} for block in record["blocks"]]
    manifest.write_text(json.dumps(record))
    got = place.run(out, ["convert"], ["x"])
    count.add(got.status == 1 and " 1 errors" in got.stdout, f"counts that were changed: {got}")
    for what in b"null", b"5", b"[1]", b'"x"', b"{}", b'{"blocks": 5}', b'{"blocks": [5]}', b"[" * 100_000, b"\xff":
        manifest.write_bytes(what)
        if b"blocks" not in what:
            (out / "x").unlink()
        got = place.run(out, ["convert"], ["x"])
        count.add(got.status == 1 and runs.answers_in(out) == {"x": right} and "Traceback" not in got.stderr,
                  f"a manifest {what[:20]}: {got}")
        (out / "_sdtool/run.json").write_bytes(what)
        got = place.run(out, ["convert"], ["x"])
        count.add(got.status == 1 and runs.answers_in(out) == {"x": right} and "Traceback" not in got.stderr,
                  f"a run.json {what[:20]}: {got}")
    (out / "_sdtool/run.json").unlink()
    os.mkfifo(out / "_sdtool/run.json")
    got = place.run(out, ["convert"], ["x"])
    count.add(got.status == 1 and runs.answers_in(out) == {"x": right}, f"a FIFO as run.json: {got}")
    out = place.out()
    got = place.run(out, ["convert"], ["x"], ["--parts"])
    evidence = out / "x/_sdtool-part-000001.json"
    for what in b"null", b"5", b"[1]", b'{"digest": 5}':
        evidence.write_bytes(what)
        got = place.run(out, ["convert"], ["x"], ["--parts"])
        answers = runs.answers_in(out)
        count.add(got.status == 1 and b"".join(answers[name] for name in sorted(answers)) == right,
                  f"evidence {what}: {got}")


# Workers.

def test_other_modules(count, place):
    """A worker with the same library and other files of the module, or of this tool."""
    place.write("x", LINE * 2000)
    for changed in "_runs.py", "distributed/packed.py":
        package = place.folder / f"changed {os.path.basename(changed)}"
        shutil.copytree(place.modules / "sdtool", package / "sdtool", ignore=shutil.ignore_patterns("__pycache__"))
        with open(package / "sdtool" / changed, "a") as file:
            file.write("\n# changed\n")
        address, _ = place.cluster({"PYTHONPATH": str(package)}, place.stub("slow"))
        place.hold()
        out = place.out()
        child = place.start_run(out, ["convert"], ["x"], ["--scheduler", address])
        wait_until(child, lambda: "module is not the driver's" in said_by(child), "the worker with another module")
        place.go()
        got = runs.ended(child)
        judge(count, place, f"another {changed}", got, out, {"x": "x"})
        count.add(got.stderr.count("module is not the driver's") == 1, f"another {changed}: {got}")
    shutil.rmtree(package / "sdtool/distributed")
    place.write("x", LINE * 200)
    address, _ = place.cluster({"PYTHONPATH": str(package)}, {})
    out = place.out()
    judge(count, place, "a module without this tool", place.run(out, ["convert"], ["x"], ["--scheduler", address]),
          out, {"x": "x"})


def test_newer_module(count, place):
    """A worker has a module from before its files were replaced by those that the driver has."""
    place.write("x", LINE * 20)
    package = place.folder / "newer"
    shutil.copytree(place.modules / "sdtool", package / "sdtool", ignore=shutil.ignore_patterns("__pycache__"))
    newer = {"PYTHONPATH": str(package)}
    address, _ = place.cluster(newer)
    for turn, status in enumerate((0, 3)):
        out = place.out()
        got = place.run(out, ["convert"], ["x"], ["--scheduler", address, "--wait", "20"], newer)
        count.add(got.status == status and ("module is not the driver's" in got.stderr) == bool(turn),
                  f"a module {('that is the same', 'from before')[turn]}: {got}")
        with open(package / "sdtool/_runs.py", "a") as file:
            file.write("\n# newer\n")


def test_failing_worker(count, place):
    """One worker fails at everything, at once. It costs no input, whatever the retries, and also where the other one is
    fit only later."""
    place.tree({"d/x": FAILS + LINE * 40, "d/y": LINE * 20, "d/z": FAILS + LINE})
    for what, other in ("fit", place.patched("waits for failure", WAITS_FOR_FAILURE)), ("late",
                                                                                        place.behind("late", LATE)):
        address, _ = place.cluster(place.patched("refuses", REFUSES), other)
        for retries in "0", "3":
            (place.folder / "failed").unlink(missing_ok=True)
            out = place.out()
            got = place.run(out, ["convert"], ["d"], ["--scheduler", address, "--retries", retries])
            judge(count, place, f"a worker that fails, {what}, --retries {retries}", got, out,
                  {name: f"d/{name}" for name in "xyz"})
            count.add(got.stderr.count("is left out: ValueError: this worker fails") == 1,
                      f"the worker is named, {what}: {got}")


def test_failed_read(count, place):
    """A worker at which one read fails does other blocks of the same input."""
    place.write("x", LINE * 1000)
    address, _ = place.cluster(place.patched("fails once", FAILS_ONCE), place.patched("sleeps", "time.sleep(0.1)"))
    out = place.out()
    got = place.run(out, ["convert"], ["x"], ["--scheduler", address])
    judge(count, place, "a read that fails", got, out, {"x": "x"})
    log = place.folder / "fails once.log"
    count.add(log.exists() and len(log.read_text().split()) > 3, f"the worker is not out for good: {got}")


def test_retired(count, place):
    """Workers that are retired while they do a task did not die of it."""
    place.write("x", LINE * 10)
    holds, log = place.patched("holds", HOLDS), place.folder / "holds.log"
    address, workers = place.cluster(holds)
    place.hold()
    out = place.out()
    child = place.start_run(out, ["convert"], ["x"], ["--scheduler", address, "--retries", "0"])

    def has_begun(worker):
        return log.exists() and str(worker.pid) in log.read_text().split()

    for _ in range(3):
        wait_until(child, lambda: has_begun(workers[-1]), "a task of the worker")
        workers.append(place.start_worker(address, holds))
        place.wait_for_workers(address, 2)
        place.asked(address,
                    "import os\nclient.retire_workers([address for address, pid in client.run(os.getpid).items() if "
                    f"pid == {workers[-2].pid}])")
    wait_until(child, lambda: has_begun(workers[-1]), "a task of the last worker")
    place.go()
    got = runs.ended(child)
    judge(count, place, "workers that are retired", got, out, {"x": "x"})


def test_scheduler_of_dask(count, place):
    """Without --scheduler, a scheduler that Dask is told of by its variable."""
    place.write("x", LINE * 100)
    address, _ = place.cluster(place.patched("tells", TELLS))
    out = place.out()
    got = place.run(out, ["convert"], ["x"], environment={"DASK_SCHEDULER_ADDRESS": address})
    judge(count, place, "DASK_SCHEDULER_ADDRESS", got, out, {"x": "x"})
    count.add((place.folder / "tells.log").exists(), f"its workers do the tasks: {got}")


# What a driver does for an input of many parts, without a cluster: blocks that are answered, compared and put together.
PARTS = """
import argparse, gc, time
gc.disable()  # which looks at all that Dask has, now and then
from sdtool.distributed.engine import Engine
from sdtool.distributed.work import Given

def seconds(blocks):
    given = Given(None, "/x", None, "/out/x", "/out/x", {"size": blocks, "ino": 1})
    wanted = argparse.Namespace(block=1, retries=0, wait=60, slowest=1)
    work = argparse.Namespace(is_parts=True)
    made, methods = Engine(work, [given], wanted, print), []
    made.begin(made.jobs[0])
    began = time.process_time()
    while made.waiting:
        task = made.waiting.popleft()
        methods.append(task.method)
        made.finished(task, {"start": 0, "end": 1, "bytes": 1})
    assert methods == ["answer"] * blocks + ["compare"] * blocks + ["finish"], methods[-5:]
    return time.process_time() - began

print(*(min(seconds(blocks) for _ in range(5)) for blocks in (8000, 16000)))
"""


def test_many_parts(count, place):
    """Twice as many parts take twice as long."""
    got = runs.ended(place.start([place.python, "-c", PARTS], stdout=subprocess.PIPE, stderr=subprocess.PIPE))
    one, two = map(float, got.stdout.split() or (0, 1))
    count.add(0 < two <= 2.6 * one, f"many parts, {one:.3f} s and {two:.3f} s for twice as many: {got}")


def test_killed_worker(count, place):
    """A worker that is killed at its first input costs none, whatever the retries."""
    place.tree({"d/x": KILLS + LINE * 40, "d/y": LINE * 20, "d/z": KILLS + LINE})
    address, _ = place.cluster(place.patched("dies once", DIES_ONCE),
                               place.patched("waits for failure", WAITS_FOR_FAILURE))
    out = place.out()
    got = place.run(out, ["convert"], ["d"], ["--scheduler", address, "--retries", "0"])
    judge(count, place, "a worker that is killed", got, out, {name: f"d/{name}" for name in "xyz"})


# Who may still do a task of which one worker has said that it failed, without a cluster: so it is the same each time.
HOPES = """
import argparse, time
from sdtool.distributed.engine import Engine, Sent, Task
from sdtool.distributed.work import Given

def engine(retries, **others):
    # An engine with the worker `one` and others, and a task of an input.
    given = Given(None, "/x", None, "/out/x", "/out/_sdtool/inputs/x", {"size": 1})
    given.__class__.url = "x"
    made = Engine(None, [given], argparse.Namespace(block=9, retries=retries, wait=60, slowest=1), lambda line: None)
    made.unbegun = iter(())
    made.workers = {name: {"status": "running", "nthreads": 1, **told} for name, told in {"one": {}, **others}.items()}
    made.require_ownership = lambda: None
    return made, Task(made.jobs[0], "answer_whole", (), 1)

def is_open(made):
    return made.jobs[0].came is None

def came(made, task, name, what, value):
    made.take_outcomes(Sent(None, [task]), name, [(what, value)])
    return is_open(made)

def failed(made, task, name="one"):
    return came(made, task, name, "failed", "it failed")

def hung(made, task, name="one"):
    return came(made, task, name, "hung", 30)

def killed(made, *tasks):
    made.suspect(Sent(None, list(tasks)))
    return is_open(made)

left_out, silent = engine(0, two={}), engine(0, two={})
left_out[0].leave_out("two", "it is no good")
silent[0].stuck.add("two")
time.sleep(0.01)
told = {
    "nobody else": failed(*engine(0)),
    "nobody else, a retry": failed(*engine(1)),
    "a fit one": failed(*engine(0, two={})),
    "one that was left out before": failed(*left_out),
    "one that is paused": failed(*engine(0, two={"status": "paused"})),
    "one that is silent": failed(*silent),
}
made, task = engine(0, two={})
failed(made, task)
made.leave_out("two", "it is no good")
told["one that is found unfit since"] = failed(made, task)
made, task = engine(0, two={})
failed(made, task)
task.failed_at -= 61
told["a fit one that does not come to it"] = failed(made, task)
made, task = engine(0, two={}, three={})
failed(made, task)
told["a third one"] = failed(made, task, "two")
made, task = engine(0)
told["a task whose workers died"] = killed(made, task)
told["a task whose workers died, also alone"] = killed(made, task)
made, task = engine(3, two={})
told["one that is fit, after two hangs"] = hung(made, task) and hung(made, task)
told["nobody, after hangs of two"] = hung(made, task, "two")
made, task = engine(0)
made.jobs[0].turn = 1
told["a task of an earlier turn that fails"] = failed(made, task)
told["a task of an earlier turn whose workers died"] = killed(made, task)
made, task = engine(0)
made.waiting.extend([*(Task(made.jobs[0], "answer", (), 1, turn=-1) for _ in range(5000)), task])
told["a task behind many that ended"] = made.next_tasks() == [task]
made, task = engine(0, two={})
came(made, task, "two", "done", {"lines": 1})
for what in "failed", "done", "unfit", "anew", "hung":
    came(made, task, "one", what, 30)
killed(made, task)
told["what comes of a task that was done"] = made.jobs[0].came == {"lines": 1} and not (
    made.later or made.waiting or made.suspects or made.left)
made, task = engine(3, two={})
new, beside = (Task(made.jobs[0], "answer_whole", (), 1) for _ in "12")
made.waiting.append(new)
killed(made, task, beside)
ones = [made.next_tasks() for _ in "12"]
made.sent["one"] = Sent(None, [task])
told["those that may have killed, behind all others, one by one"] = [*ones, made.next_tasks()] == [[new], [task], []]
for what, is_so in told.items():
    print(int(is_so), what)
"""
HOPED = {"nobody else": 0, "nobody else, a retry": 1, "a fit one": 1, "one that was left out before": 1,
         "one that is paused": 0, "one that is silent": 0, "one that is found unfit since": 0,
         "a fit one that does not come to it": 0, "a third one": 0, "a task whose workers died": 1,
         "a task whose workers died, also alone": 0, "one that is fit, after two hangs": 1,
         "nobody, after hangs of two": 0, "a task of an earlier turn that fails": 1,
         "a task of an earlier turn whose workers died": 1, "a task behind many that ended": 1,
         "what comes of a task that was done": 1, "those that may have killed, behind all others, one by one": 1}


def test_hopes(count, place):
    """An input is given up only when no other worker may still do it."""
    got = runs.ended(place.start([place.python, "-c", HOPES], stdout=subprocess.PIPE, stderr=subprocess.PIPE))
    told = {what: int(number) for number, _, what in (line.partition(" ") for line in got.stdout.splitlines())}
    for what, is_open in HOPED.items():
        count.add(told.get(what) == is_open, f"{what}: {told.get(what)}, not {is_open}: {got.stderr[-1000:]}")


def test_file_limit(count, place):
    place.write("x", LARGE * 3)
    _, address = place.start_scheduler()
    place.start_worker(address, before=["sh", "-c", "ulimit -f 100; exec \"$@\"", "sh"])
    place.start_worker(address, place.stub("slow"))
    place.wait_for_workers(address, 2)
    out = place.out()
    got = place.run(out, ["convert", "--to", "hex"], ["x"],
                    ["--scheduler", address, "--block", "1000000", "--retries", "0"])
    judge(count, place, "a worker with a limit on files", got, out, {"x": "x"}, words=["convert", "--to", "hex"])


def test_hanging(count, place):
    """A task that hangs goes to another worker."""
    place.tree({"x": SLEEPS + LINE * 20, "y": LINE * 20})
    address, _ = place.cluster(place.patched("hangs", HANGS), {})
    out = place.out()
    got = place.run(out, ["convert"], ["x", "y"], ["--scheduler", address, "--block", "100000", *SOON])
    judge(count, place, "a task that hangs", got, out, {"x": "x", "y": "y"})
    is_told = not (place.folder / "hung").exists() or "another one gets it" in got.stderr and "x" in got.stderr
    count.add(is_told, f"a task that hangs is told of: {got}")
    out = place.out()
    both = place.start_run(out, ["convert"], ["x", "y"], ["--block", "100000", *SOON], place.patched("hangs", HANGS))
    got = runs.ended(both)
    judge(count, place, "a task that hangs everywhere", got, out, {"y": "y"}, ["x"])


def test_long_packed(count, place):
    """A line tells of a compressed input that takes long, though it may have hours before it counts as hung. As long as
    its worker tells of it, the run waits, and no other worker gets it."""
    (place.folder / "x.gz").write_bytes(gzip.compress(SLEEPS + LINE * 20))
    address, _ = place.cluster(place.patched("hangs at packed", HANGS))
    child = place.start_run(place.out(), ["convert"], ["x.gz"], ["--scheduler", address, "--wait", "40"])
    wait_for(lambda: child.poll() is not None or "has had all of" in said_by(child), 240, "a line of a packed input")
    said = said_by(child)
    count.add(child.poll() is None and "x.gz" in said and "others get them" not in said,
              f"a packed input that hangs: {said}")
    end(child)


def test_deadly_input(count, place):
    """An input that kills its workers, which start again, costs no other one, and is named. The others wait behind it
    at the same workers, so that Dask gives some of them up with it."""
    dies = place.patched("dies of it", DIES_OR_SLEEPS)
    others = [f"other{number}" for number in range(30)]
    place.tree({"d/deadly": LINE * 5 + KILLS, **{f"d/{name}": LINE * (1 + at) for at, name in enumerate(others)}})
    _, address = place.start_scheduler()
    for _ in range(3):
        place.start_nanny(address, dies)
    place.wait_for_workers(address, 3)
    out = place.out()
    got = place.run(out, ["convert"], ["d"], ["--scheduler", address, "--retries", "0", "--block", "500"])
    judge(count, place, "a deadly input", got, out, {name: f"d/{name}" for name in others}, ["d/deadly"])
    count.add("worker after worker died that had all of" in got.stderr, f"a deadly input was tried alone: {got}")


def test_bound(count, place):
    """What one worker has failed at goes to the other one, and back if that one dies."""
    place.write("x", LINE * 100)
    address, workers = place.cluster(place.patched("fails once", FAILS_ONCE), place.patched("holds", HOLDS))
    place.hold()
    out, log = place.out(), place.folder / "fails once.log"
    child = place.start_run(out, ["convert"], ["x"], ["--scheduler", address, "--wait", "60"])
    wait_until(child, lambda: log.exists() and len(log.read_text().split()) > 3, "most blocks")
    end(workers[1])
    judge(count, place, "a worker that dies with what another one failed at", runs.ended(child), out, {"x": "x"})


def test_touched(count, place):
    """A file whose mode changes while it is read is answered, and one that vanishes costs no other."""
    place.tree({"x": LINE * 400, "y": LINE * 30, "z": LINE * 300})
    for what in "chmod", "an input that vanishes":
        waits = place.patched(f"waits in {what}", WAITS)
        address, _ = place.cluster(waits, waits)
        place.hold()
        out = place.out()
        names = ["x"] if what == "chmod" else ["x", "z", "y"]
        child = place.start_run(out, ["convert"], names, ["--scheduler", address, "--block", "3000"])
        wait_until(child, lambda: has_parts(out / "_sdtool/inputs/x"), "a part")
        if what == "chmod":
            os.chmod(place.folder / "x", 0o600)
            place.go()
            judge(count, place, what, runs.ended(child), out, {"x": "x"})
    os.remove(place.folder / "z")
    place.go()
    got = runs.ended(child)
    place.write("z", LINE)
    judge(count, place, "an input that vanishes", got, out, {"x": "x", "y": "y"}, ["z"])


def test_gone_output(count, place):
    """An output that is gone for two seconds costs nothing; one that is gone for good is told of."""
    place.write("x", LINE * 300)
    for is_back in True, False:
        waits = place.patched(f"waits, {is_back}", WAITS)
        address, _ = place.cluster(waits, waits)
        place.hold()
        out = place.out()
        ends = [] if is_back else ["--wait", "60"]
        child = place.start_run(out, ["convert"], ["x"], ["--scheduler", address, "--block", "1500", *ends])
        wait_until(child, lambda: has_parts(out / "_sdtool/inputs/x"), "a part")
        os.rename(out, place.folder / "away")
        place.go()
        if is_back:
            time.sleep(2)
            os.rename(place.folder / "away", out)
            got = runs.ended(child)
            judge(count, place, "an output that is gone for two seconds", got, out, {"x": "x"})
            count.add(len(got.stderr.splitlines()) < 20, f"it takes few lines: {got}")
        else:
            judge(count, place, "an output that is gone", runs.ended(child), out, {}, ["x"], status=3, answers={})


def test_waiting(count, place):
    """A line says what is waited for, and --wait ends it: threads that others hold, a stopped scheduler, no worker."""
    place.write("x", LINE * 20)
    scheduler, address = place.start_scheduler()
    place.start_worker(address)
    place.wait_for_workers(address, 1)
    code = (f"import time\nfrom distributed import Client\nc = Client({address!r})\nprint(c.submit(time.sleep, "
            "1000).result())")
    other = place.start([place.python, "-c", code], stdout=subprocess.DEVNULL, stderr=subprocess.DEVNULL)
    wait_for(lambda: "sleep" in place.asked(address, "print(client.processing())"), runs.SECONDS,
             "a task of another client")
    out = place.out()
    got = place.run(out, ["convert"], ["x"], ["--scheduler", address, "--wait", "60"])
    judge(count, place, "threads that others hold", got, out, {}, ["x"], status=3)
    count.add("tasks of others" in got.stderr, f"it is said what holds them: {got}")
    end(other)
    child = place.start_run(place.out(), ["convert"], ["x"], ["--scheduler", address, "--block", "100", "--wait", "60"])
    # its thread is still held
    wait_until(child, lambda: "and the run waits" in said_by(child), "a run that has connected")
    os.kill(scheduler.pid, signal.SIGSTOP)
    got = runs.ended(child)
    count.add(got.status == 3 and "the scheduler does not answer" in got.stderr and "x has no answers" in got.stderr,
              f"a stopped scheduler: {got}")
    out = place.out()
    got = place.run(out, ["convert"], ["x"], ["--scheduler", address, "--wait", "30"])
    judge(count, place, "a scheduler that is stopped before", got, out, {}, ["x"], status=3)
    count.add("the scheduler does not answer" in got.stderr, f"it is said what is waited for: {got}")
    os.kill(scheduler.pid, signal.SIGCONT)


def test_paused(count, place):
    """A worker that its memory limit pauses is named; another worker answers everything."""
    place.write("x", LINE * 20)
    _, address = place.start_scheduler()
    place.start_worker(address, memory="1MB")
    wait_for(lambda: "paused" in place.asked(
        address,
        "print(client.run_on_scheduler(lambda dask_scheduler: [w.status for w in dask_scheduler.workers.values()]))"))
    out = place.out()
    got = place.run(out, ["convert"], ["x"], ["--scheduler", address, "--wait", "60"])
    judge(count, place, "a paused worker", got, out, {}, ["x"], status=3)
    count.add("is paused" in got.stderr, f"it is said that the worker is paused: {got}")
    place.start_worker(address)
    place.wait_for_workers(address, 1)  # paused ones do not count
    out = place.out()
    got = place.run(out, ["convert"], ["x"], ["--scheduler", address])
    judge(count, place, "a paused worker beside another", got, out, {"x": "x"})


def test_paused_with_task(count, place):
    """What a paused worker has and does not do goes to an idle one."""
    place.write("x", LINE * 600)
    address, _ = place.cluster(place.patched("pauses", PAUSES), place.patched("sleeps", "time.sleep(0.1)"))
    out = place.out()
    got = place.run(out, ["convert"], ["x"], ["--scheduler", address, "--wait", "60"])
    judge(count, place, "a worker that pauses", got, out, {"x": "x"})


# A cluster that grows and shrinks. It says how many workers it has, until it has none again.
ADAPTIVE = """
import pathlib, sys, time
from distributed import LocalCluster
if __name__ == "__main__":
    cluster = LocalCluster(n_workers=0, threads_per_worker=1, processes=True, dashboard_address=None)
    cluster.adapt(minimum=0, maximum=3, interval="500ms", wait_count=4, target_duration="1s")
    pathlib.Path("adaptive").write_text(cluster.scheduler_address)
    most = 0
    while not (pathlib.Path("go").exists() and not cluster.scheduler.workers):
        most = max(most, len(cluster.scheduler.workers))
        time.sleep(0.1)
    print(most)
"""


def test_adaptive(count, place):
    """A cluster without a worker grows to its most for a run, and shrinks to none behind it. Nothing fails by that."""
    place.write("x", LINE * 1500)
    place.hold()
    (place.folder / "adaptive.py").write_text(ADAPTIVE)
    cluster = place.start([place.python, "adaptive.py"], place.patched("sleeps a while", "time.sleep(0.3)"),
                          stdout=subprocess.PIPE, stderr=subprocess.DEVNULL)
    file = place.folder / "adaptive"
    wait_for(lambda: file.exists() and file.read_text() or cluster.poll() is not None, what="an adaptive cluster")
    out = place.out()
    got = place.run(out, ["convert"], ["x"], ["--scheduler", file.read_text(), "--retries", "0"])
    judge(count, place, "an adaptive cluster", got, out, {"x": "x"})
    place.go()
    most = cluster.communicate(timeout=runs.SECONDS)[0]
    count.add(most.split() == [b"3"] and "left out" not in got.stderr, f"an adaptive cluster has had {most}: {got}")


BAR = "sdtool.distributed: [###                 ] 0 of 2 inputs, 2 of 12 blocks, 0.0 MB/s, workers: 2\n"


def test_bar(count, place):
    """Each ten seconds a line says what is done of all."""
    place.tree({"x": LINE * 80, "y": LINE * 80})
    waits = place.patched("waits for a bar", WAITS)
    address, _ = place.cluster(waits, waits)
    place.hold()
    out = place.out()
    child = place.start_run(out, ["convert"], ["x", "y"], ["--scheduler", address])
    wait_until(child, lambda: said_by(child).count(BAR) > 1, "two bars")
    keys = place.asked(address, "print(*(key for keys in client.processing().values() for key in keys), sep='\\n')")
    names = [key.partition(" ")[2] for key in keys.splitlines() if key.startswith("convert-sdtool-")]
    right = [f"block {number} of file://{place.folder}/{name}" for name in "xy" for number in range(6)]
    count.add(len(names) > 1 and set(names) <= set(right), f"names of the tasks that workers have: {names}")
    place.go()
    got = runs.ended(child)
    judge(count, place, "a run that takes long", got, out, {"x": "x", "y": "y"})
    count.add(got.stderr.count(BAR) > 1, f"a bar each ten seconds: {got}")


def test_hanging_calls(count, place):
    """The driver's calls of file systems hang: what hangs is named, and all else is answered."""
    folders = [f"d/hangs{number}" for number in range(4)]
    place.tree({"d/a": LINE * 3, **{f"{folder}/b": LINE for folder in folders}, "d/c/b": LINE * 2,
                "out1/_sdtool/inputs/x": b""})
    hangs = place.behind("hangs in ls", HANGS_IN_LS)
    out = place.out()
    got = place.run(out, ["convert"], ["d"], ["--wait", "10"], hangs)
    judge(count, place, "folders that hang", got, out, {"a": "d/a", "c/b": "d/c/b"}, folders)
    count.add(got.stderr.count("the listing of") == 4 and got.stderr.count("was not tried, since 3 such calls") == 1,
              f"folders that hang: {got}")
    got = runs.ended(place.start([place.python, "-c", HANGS_IN_MEMORY], stdout=subprocess.PIPE, stderr=subprocess.PIPE))
    hung, others = (got.stderr.count(what) for what in ("has taken more than 10 seconds", "was not tried, since 3"))
    is_right = got.stdout.endswith("\n3\n") and "/in/a\n" in got.stdout and hung + others == 1050 and hung < 40
    count.add(is_right, f"looks side by side that hang: {hung} do and {others} are not tried: {got}")
    out = place.folder / "hangs"
    got = place.run(out, ["convert"], ["d/a"], ["--wait", "5"], hangs)
    count.add(got.status == 3 and f"--out: {out}" in got.stderr and "d/a has no answers" in got.stderr,
              f"an output that hangs: {got}")
    server = runs.servers(place, place.folder)["sftp"]
    hung = server._replace(words=[word.replace("internal-sftp", "/bin/sleep 1000") for word in server.words])
    url = runs.started_server(place, hung)
    if url is None:
        print(f"skipped: no sftp (Debian: {server.package})")
        return
    home = {"HOME": str(place.folder / "home")}
    out = place.out()
    got = place.run(out, ["convert"], [f"{url}/d/a", "d/c/b"], ["--wait", "10"], home)
    judge(count, place, "a server of SFTP that hangs", got, out, {"b": "d/c/b"}, [f"{url}/d/a"])
    count.add("has taken more than 10 seconds" in got.stderr, f"a server of SFTP that hangs: {got}")
    address, _ = place.cluster({})
    out = place.out()
    got = place.run(f"{url}/out", ["convert"], ["d/a"], ["--wait", "10", "--scheduler", address], home)
    count.add(got.status == 3 and "has taken more than 10 seconds" in got.stderr, f"--out on such a server: {got}")


def test_restart(count, place):
    """Another client restarts the cluster, and a driver is killed: nothing of its run stays with the scheduler."""
    place.write("x", LINE * 6000)
    _, address = place.start_scheduler()
    for _ in range(2):
        place.start_nanny(address, place.stub("slow"))
    place.wait_for_workers(address, 2)
    place.hold()
    out = place.out()
    child = place.start_run(out, ["convert"], ["x"], ["--scheduler", address])
    wait_until(child, lambda: has_parts(out / "_sdtool/inputs/x"), "a part")
    place.asked(address, "client.restart()")
    count.add(child.poll() is None, "the run ended before the restart")
    place.go()
    judge(count, place, "another client's restart", runs.ended(child), out, {"x": "x"})
    place.hold()
    out = place.out()
    child = place.start_run(out, ["convert"], ["x"], ["--scheduler", address])
    wait_until(child, lambda: has_parts(out / "_sdtool/inputs/x"), "a part")
    end(child)
    code = ("print(client.run_on_scheduler(lambda dask_scheduler: (len(dask_scheduler.tasks), "
            "dict(dask_scheduler.resources), dict(dask_scheduler.worker_plugins))))")
    until = time.monotonic() + runs.SECONDS
    while (told := place.asked(address, code).strip()) != "(0, {}, {})" and time.monotonic() < until:
        time.sleep(0.5)
    count.add(told == "(0, {}, {})", f"what a killed run leaves with the scheduler: {told}")


# Words.

def test_words(count, place):
    place.write("x", LINE)
    wrong = {("--wait", "inf"): 2, ("--wait", "nan"): 2, ("--wait", "-1"): 2, ("--retries", "-1"): 2,
             ("--block", "x"): 2, ("--slowest", "0"): 2}
    for words, status in wrong.items():
        out = place.out()
        got = place.run(out, ["convert"], ["x"], words)
        is_right = (got.status == status and words[0] in got.stderr and "Traceback" not in got.stderr
                    and not out.exists())
        count.add(is_right, f"{words}: {got}")
    for url in "n21::x", "nosuch://x", "http://[::1/x":
        got = place.run(place.out(), ["convert"], [url])
        count.add(got.status in (2, 3) and "Traceback" not in got.stderr and got.stderr, f"{url}: {got}")
        got = place.run(url, ["convert"], ["x"])
        count.add(got.status in (2, 3) and "Traceback" not in got.stderr and got.stderr, f"--out {url}: {got}")
    start = [place.python, "-m", "sdtool.distributed", "convert"]
    for ends, status in ((">/dev/full", 3), (">&-", 3), ("2>&-", 0), (">&- 2>&-", 3), ("2>/dev/full", 0), ("<&-", 0)):
        out = place.out()
        command = f"{' '.join(start[:3])} --out {out} convert -- x {ends}"
        got = runs.ended(place.start(["sh", "-c", command], stdout=subprocess.PIPE, stderr=subprocess.PIPE))
        is_right = got.status == status and runs.answers_in(out) == {"x": place.wanted(["convert"], "x")[0]}
        count.add(is_right and "Traceback" not in got.stderr, f"{ends}: {got}")
    # What has no answers is said, and the status is right, whatever stream is full and whatever characters it has.
    place.tree({"d/x": LINE, "d/\u65e5": LINE})
    os.mkfifo(place.folder / "d/fifo")
    full = "exec \"$@\" {}"
    for through, files, status, said in (("2>/dev/full", ["d"], 3, ""), ("2>/dev/full", ["nosuch"], 2, ""),
                                         (">/dev/full", ["d"], 3, "d/fifo has no answers")):
        out = place.out()
        got = place.run(out, ["convert"], files, through=["sh", "-c", full.format(through), "sh"])
        is_right = got.status == status and said in got.stderr and "Traceback" not in got.stderr
        count.add(is_right and len(runs.answers_in(out)) == 2 * (files == ["d"]), f"{files} {through}: {got}")
    out = place.out()
    got = place.run(out, ["convert"], ["d"], environment={"PYTHONIOENCODING": "latin-1"})
    count.add(got.status == 3 and "d/\\u65e5\n" in got.stdout and "d/x\n" in got.stdout
              and "Traceback" not in got.stderr, f"a name that standard output has no characters for: {got}")
    loud, out = "e/\x1b[2Jloud\n", place.out()
    place.tree({loud: LINE, "e/x": LINE})
    out.mkdir()
    (out / os.path.basename(loud)).write_text("mine")
    got = place.run(out, ["convert"], ["e"])
    is_named = "%1B[2Jloud%0A has no answers" in got.stderr and "\x1b" not in got.stderr and "e/x" in got.stdout
    are_lines = all(line.startswith("sdtool.distributed: ") for line in got.stderr.splitlines())
    count.add(got.status == 3 and is_named and are_lines, f"a name with an escape: {got}")
    (place.folder / "file").write_text("no folder")
    got = place.run("file/below", ["convert"], ["x"])
    count.add(got.status == 3 and "x has no answers" in got.stderr and "Traceback" not in got.stderr,
              f"--out below a file: {got}")
    out = place.folder / "out[1]"
    got = place.run(out, ["convert"], ["x"])
    judge(count, place, "--out with a bracket", got, out, {"x": "x"})
    code = """
import fsspec
from sdtool import distributed
fsspec.filesystem("memory").pipe("/in/x", open("x", "rb").read())
for turn in range(2):
    status = distributed.main(["--out", "memory://o[1]*", "convert", "--", "memory://in/x"])
print(status, fsspec.filesystem("memory").cat_file("/o[1]*/x"))
"""
    got = runs.ended(place.start([place.python, "-c", code], stdout=subprocess.PIPE, stderr=subprocess.PIPE))
    wanted = f"0 {place.wanted(['convert'], 'x')[0]}"
    count.add(wanted in got.stdout, f"--out with a bracket in memory: {got}")
    code = ("import os\nfrom sdtool import distributed\ndel os.O_PATH\n"
            "print(distributed.main(['--out', 'mac', 'convert', '--', 'x']))")
    got = runs.ended(place.start([place.python, "-c", code], stdout=subprocess.PIPE, stderr=subprocess.PIPE))
    count.add(got.stdout == "2\n" and "need Linux" in got.stderr and not (place.folder / "mac").exists(),
              f"another system: {got}")


GROUPS = {
    "inputs": (test_no_inputs, test_files_that_go, test_without_versions, test_closed_folders, test_names_of_runs,
               test_packed, test_words),
    "others": (test_parts, test_files_of_others, test_stopped_in_tidy, test_stopped_before_write, test_two_at_once,
               test_other_words_at_once, test_another_meanwhile, test_link_that_comes, test_file_that_comes,
               test_records, test_touched),
    "workers": (test_other_modules, test_newer_module, test_failing_worker, test_failed_read, test_retired,
                test_scheduler_of_dask, test_killed_worker, test_hopes, test_many_parts, test_file_limit,
                test_deadly_input, test_bound, test_restart, test_adaptive),
    "lost": (test_hanging, test_hanging_calls, test_long_packed, test_gone_output),
    "waiting": (test_waiting, test_paused, test_paused_with_task, test_bar),
}


def main(count: preload.Count, wanted: preload.Given) -> None:
    with tempfile.TemporaryDirectory(ignore_cleanup_errors=True) as folder:
        os.chmod(folder, 0o755)
        python = dask_cluster.python_with_dask(folder)
        if python is None:
            return

        def run_group(name):
            counted, place = preload.Count(), Place(pathlib.Path(folder, name), python, wanted.program, preload.LIBRARY)
            try:
                for test in GROUPS[name]:
                    if preload.is_chosen(test):
                        place.folder = pathlib.Path(folder, name, test.__name__)
                        place.folder.mkdir()
                        runs.timed(test.__name__, test, counted, place)
            finally:
                place.end_all()
            return counted

        with concurrent.futures.ThreadPoolExecutor() as threads:
            for counted in threads.map(run_group, GROUPS):
                count.passed += counted.passed
                count.failed += counted.failed
