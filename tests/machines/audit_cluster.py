"""Tests sdtool-audit --scheduler over Dask clusters. These are processes on 127.0.0.1. Each question has to get the
bytes, the words and the status of --jobs 1, for each kind of source. Then workers come late, die, have another library,
another module or none, and the scheduler dies or is not there: a run ends with its status and the reason, or with the
whole report. It needs Dask and fsspec (Debian: python3-dask, python3-distributed, python3-fsspec), click and rich;
without them it says so and tests nothing.
"""
import concurrent.futures
import contextlib
import functools
import gzip
import io
import json
import os
import shutil
import signal
import subprocess
import tempfile
import zipfile

import dask_cluster
import preload
from dask_cluster import client_of, end, wait_for

SECONDS = 1200  # for one run
OBJECTS = 9_000  # of a source: some blocks of a table, and some chunks of other lists
DOMAIN = "S-1-5-21-1-2-3"
NO_WORKERS = {"DASK_DISTRIBUTED__SCHEDULER__NO_WORKERS_TIMEOUT": "4s"}
NOT_WHOLE = "sdtool-audit: the report isn't whole: "
# A package that is the real one, but for what reads descriptors.
STUB = """
import os, signal
__path__ = [{real!r}]
exec(compile(open({real!r} + "/__init__.py").read(), {real!r} + "/__init__.py", "exec"))
from sdtool import _library
def plain(*given):
    {body}
_library.plain = plain
"""
DIES, FAILS = "os.kill(os.getpid(), signal.SIGKILL)", "raise KeyError('the library fails')"


def descriptor(number):
    everyone = "(A;OICI;FA;;;WD)" if number % 10 == 0 else ""
    return f"O:BAG:SYD:AI{everyone}(A;OICI;0x1301bf;;;{DOMAIN}-{1000 + number})(A;OICIID;FA;;;BA)(A;OICIID;FA;;;SY)"


def name_of(number):
    return f"C:\\data\\{number // 100}\\plan {number}.txt" if number % 100 else f"C:\\data\\{number // 100}"


def rows():
    """Names and descriptors. Some are damaged, and some names have a line end."""
    for number in range(OBJECTS):
        text = "D:(A;;FA;;;Everyone)" if number % 997 == 5 else descriptor(number)
        yield name_of(number) + ("\nb" if number % 5003 == 7 else ""), text


def table():
    quoted = (f'"{name}","{text}"\r\n' for name, text in rows())
    return ('"Path","Sddl"\r\n' + "".join(quoted)).encode()


def icacls():
    return "".join(f"{name_of(number)}\n{descriptor(number)[len('O:BAG:SY'):]}\n" for number in range(OBJECTS)).encode()


def directory():
    entries = [f"dn: DC=example,DC=com\nobjectClass: domainDNS\nobjectSid: {DOMAIN}\n"
               f"nTSecurityDescriptor: O:DAG:DAD:(A;;GA;;;DA)\n"]
    entries += [f"dn: CN=user {number},DC=example,DC=com\nobjectClass: user\nobjectSid: {DOMAIN}-{1000 + number}\n"
                f"nTSecurityDescriptor: O:DAG:DAD:(A;;GA;;;DA)(A;;CR;;;{DOMAIN}-{2000 + number})\n"
                for number in range(6000)]
    return "\n".join(entries).encode()


def zipped(data):
    written = io.BytesIO()
    with zipfile.ZipFile(written, "w", zipfile.ZIP_DEFLATED) as archive:
        archive.writestr("inner.csv", data)
        archive.writestr("more.csv", b"Path,Sddl\na,O:BAD:(A;;FA;;;WD)\n")
    return written.getvalue()


def sources():
    """The kinds of sources, by their names."""
    of_table, texts = table(), [text for _, text in rows()]
    return {"table.csv": of_table, "cut.csv.gz": gzip.compress(of_table)[:-2000], "table.zip": zipped(of_table),
            "lines.sddl": "\n".join(texts).encode(), "listing.txt": icacls(), "directory.ldif": directory(),
            "lines.jsonl": "".join(json.dumps({"Path": name, "Sddl": text}) + "\n" for name, text in rows()).encode()}


class Ended(tuple):
    """Status, standard output and standard error of a run."""

    def __str__(self):
        return f"status {self[0]}\n  stdout {self[1][-600:]!r}\n  stderr {self[2][-1200:]!r}"


class Run(subprocess.Popen):
    """A run whose report goes to a file, since a pipe would hold it while nobody reads."""

    def __init__(self, words, **others):
        self.printed = tempfile.TemporaryFile()
        super().__init__(words, stdout=self.printed, **others)


class Place(dask_cluster.Processes):
    """A folder with sources, and the command in it."""

    def __init__(self, folder, python, library):
        super().__init__(folder, python, library, ignored=())
        self.environment["COLUMNS"] = "200"
        self.environment.pop("DASK_SCHEDULER_ADDRESS", None)

    def start_audit(self, *words, environment=None, stdin=subprocess.DEVNULL):
        return Run([self.python, "-m", "sdtool.audit", *words], cwd=self.folder, stdin=stdin, stderr=subprocess.PIPE,
                   start_new_session=True, env={**self.environment, **(environment or {})})

    def audit(self, *words, stdin=None, **others):
        child = self.start_audit(*words, stdin=subprocess.PIPE if stdin is not None else subprocess.DEVNULL, **others)
        return self.ended(child, stdin)

    def ended(self, child, stdin=None):
        try:
            _, stderr = child.communicate(stdin, timeout=SECONDS)
        except subprocess.TimeoutExpired:
            end(child)
            return Ended((-1, b"", b"it took too long"))
        child.printed.seek(0)
        return Ended((child.returncode, child.printed.read(), stderr))

    def stub(self, name, body):
        package = self.folder / f"stub {name}" / "sdtool"
        package.mkdir(parents=True)
        (package / "__init__.py").write_text(STUB.format(real=str(self.modules / "sdtool"), body=body))
        return {"PYTHONPATH": str(package.parent)}

    def other_module(self):
        """The package, of which one module of the audit has another text."""
        modules = self.folder / "other modules"
        shutil.copytree(self.modules, modules)
        with open(modules / "sdtool/audit/questions/who.py", "a") as file:
            file.write("# more\n")
        return {"PYTHONPATH": str(modules)}

    def page(self):
        path = self.folder / "page.html"
        path.write_text('<!DOCTYPE html>\n<script type="application/json" id="report"></script>\n')
        return {"SDTOOL_PAGE": str(path)}

    def look(self, address, see):
        """What the scheduler has, by a function of it."""
        with client_of(address, set_as_default=False) as client:
            return client.run_on_scheduler(see)

    def steps(self, address):
        """How many steps tasks of the scheduler have made."""
        return self.look(address, lambda dask_scheduler: dask_scheduler.transition_counter)


def test_bytes(count, place):
    """Each question and form over each kind of source."""
    _, address = place.start_scheduler()
    place.start_worker(address, threads=2)
    place.start_worker(address)
    place.wait_for_workers(address, 2)
    for name, data in sources().items():
        (place.folder / name).write_bytes(data)
    place.audit("risks", "table.csv", "--into", "kept.db", "--out", "one.csv", "--to", "csv")
    page = place.page()  # once, since several runs read it at once
    (place.folder / "accept.toml").write_text("[[accept]]\nrule = 'takeover'\nobject = '*1'\nreason = 'a test'\n")
    asked = [["risks", name, "--to", "csv"] for name in sources()]
    asked += [["who", "change", "table.csv", "--to", "jsonl"], ["who", "write", "kept.db"],
              ["who", "dcsync", "directory.ldif"], ["can", "WD", "delete", "table.csv"],
              ["can", "WD", "read", "lines.sddl", "--to", "csv"], ["risks", "kept.db", "--to", "sarif"],
              ["risks", "table.csv", "--each", "--list", "all", "--to", "html"],
              ["risks", "table.csv", "--accept", "accept.toml"], ["risks", "table.csv", "--baseline", "kept.db"],
              ["inherit", "table.csv", "--to", "csv"], ["diff", "table.csv", "lines.sddl", "--to", "csv"],
              ["risks", "-", "--to", "csv"]]

    def asking(*where):
        def ask(words):
            given = (place.folder / "table.csv").read_bytes() if "-" in words else None
            before = place.steps(address)
            return place.audit(*words, *where, stdin=given, environment=page), place.steps(address) - before
        return ask

    with concurrent.futures.ThreadPoolExecutor(os.cpu_count()) as threads:
        alone = list(threads.map(asking("--jobs", "1"), asked))
    for words, (one, _) in zip(asked, alone):
        many, steps = asking("--scheduler", address)(words)
        count.add(one == many and one[0] in (0, 1, 3) and len(one[1]) > 100, f"{words}: {many}\n  alone {one}")
        count.add(steps > 0, f"{words}: the cluster did nothing")
    with concurrent.futures.ThreadPoolExecutor(3) as threads:
        together = list(threads.map(asking("--scheduler", address), asked[:3]))
    count.add([one for one, _ in together] == [one for one, _ in alone[:3]], "three runs on the same workers")
    place.audit("risks", "table.csv", "--into", "far.db", "--scheduler", address)
    near, far = (place.audit("risks", name, "--jobs", "1", "--to", "csv") for name in ("kept.db", "far.db"))
    count.add(near == far, f"a database: {far}\n  alone {near}")
    named = {"DASK_SCHEDULER_ADDRESS": address}
    for words, is_used in (([], True), (["--jobs", "1"], False)):
        before = place.steps(address)
        ended = place.audit("risks", "table.csv", *words, environment=named)
        count.add((ended[0], place.steps(address) > before) == (3, is_used), f"DASK_SCHEDULER_ADDRESS {words}: {ended}")
    ended = place.audit("risks", "table.csv", "--jobs", "2", "--scheduler", address)
    count.add(ended[0] == 2 and b"give one" in ended[2] and not ended[1], f"both options: {ended}")
    place.end_all()


def judge_end(count, what, ended, status, *words):
    """A run that ends with a sentence, and with nothing in its output but what is whole."""
    told = ended[2].decode().splitlines()
    is_all = all(line.startswith(("sdtool-audit: ", "the administrators of every domain are trusted: "))
                 for line in told)
    count.add(ended[0] == status and told and is_all and all(word in told[-1] for word in words), f"{what}: {ended}")


def feeding(place, address, wanted, **others):
    """A run that has read a part of its source, and the rest."""
    child = place.start_audit("risks", "-", "--to", "csv", "--out", "late.csv", "--scheduler", address,
                              stdin=subprocess.PIPE, **others)
    data = (place.folder / "table.csv").read_bytes()
    child.stdin.write(data[:-1000])
    child.stdin.flush()
    wait_for(lambda: child.poll() is not None or place.steps(address) > wanted, SECONDS, "a task")
    return child, data[-1000:]


def test_faults(count, place):
    (place.folder / "table.csv").write_bytes(table())
    wanted = place.audit("risks", "table.csv", "--to", "csv", "--jobs", "1")
    ask = functools.partial(place.audit, "risks", "table.csv", "--to", "csv", "--scheduler")

    def left():
        return place.look(address, lambda dask_scheduler: len(dask_scheduler.tasks))

    short = {"DASK_DISTRIBUTED__COMM__TIMEOUTS__CONNECT": "2s"}
    for address in ("tcp://127.0.0.1:9", "nonsense://x", "tcp://no.such.host.invalid:8786"):
        ended = ask(address, environment=short)
        judge_end(count, address, ended, 2, "--scheduler", address)
        count.add(not ended[1], f"{address}: {ended}")
    scheduler, address = place.start_scheduler()
    child = place.start_audit("risks", "table.csv", "--to", "csv", "--scheduler", address)
    wait_for(lambda: place.steps(address) > 0, SECONDS, "a task")
    first = place.start_worker(address)  # behind the run
    count.add(place.ended(child) == wanted, "a worker that comes late")
    with open(place.folder / "late.csv", "wb"):
        pass
    second = place.start_worker(address)
    place.wait_for_workers(address, 2)
    child, rest = feeding(place, address, place.steps(address))
    end(second)
    ended = place.ended(child, rest)
    count.add(ended[0] == wanted[0] and (place.folder / "late.csv").read_bytes().replace(b"stdin", b"table.csv")
              == wanted[1], f"a worker that dies: {ended}")
    for number in signal.SIGINT, signal.SIGTERM:
        os.remove(place.folder / "late.csv")
        child, _ = feeding(place, address, place.steps(address))
        child.send_signal(number)
        ended = place.ended(child)
        judge_end(count, f"interrupted by {number}", ended, 3, "interrupted")
        count.add(not (place.folder / "late.csv").exists(), "a report that was interrupted")
        (place.folder / "late.csv").touch()
    with contextlib.suppress(TimeoutError):
        wait_for(lambda: not left(), 60, "the end of all tasks")
    count.add(not left(), f"{left()} tasks stay on the cluster")
    end(first)
    judge_end(count, "no worker", ask(address, environment=NO_WORKERS), 3, NOT_WHOLE, "the scheduler has no worker")
    for what, environment, words in (
            ("another library", place.other_library(), ("worker tcp://", "another version")),
            ("another module", place.other_module(), ("worker tcp://", "another version")),
            ("no module", {"PYTHONPATH": ""}, ("sdtool",)),
            ("a library that fails", place.stub("fails", FAILS), ("the library fails",)),
            ("a library that kills", place.stub("kills", DIES), ("worker",))):
        workers = [place.start_worker(address, environment) for _ in range(5 if "kills" in what else 1)]
        place.wait_for_workers(address, len(workers))
        judge_end(count, what, ask(address), 3, NOT_WHOLE, *words)
        for worker in workers:
            end(worker)
    place.start_worker(address)
    place.wait_for_workers(address, 1)
    child, rest = feeding(place, address, place.steps(address), environment=short)
    end(scheduler)
    judge_end(count, "a scheduler that dies", place.ended(child, rest), 3, NOT_WHOLE, "the scheduler is lost")
    stopped, address = place.start_scheduler()
    child = place.start_audit("risks", "table.csv", "--scheduler", address, environment=NO_WORKERS)
    wait_for(lambda: place.steps(address) > 0, SECONDS, "a task")
    os.kill(stopped.pid, signal.SIGSTOP)
    judge_end(count, "a scheduler that is stopped", place.ended(child), 3, NOT_WHOLE, "the scheduler")
    place.end_all()


def main(count: preload.Count) -> None:
    python = preload.python_with(*dask_cluster.PACKAGES, "click", "rich")
    if python is None:
        print("skipped: no Python here has dask, distributed, fsspec, click and rich (Debian: python3-dask, "
              "python3-distributed, python3-fsspec, python3-click, python3-rich)")
        return
    preload.go_on_in(python)
    with tempfile.TemporaryDirectory(ignore_cleanup_errors=True) as name:
        place = Place(name, python, preload.LIBRARY)
        try:
            for test in filter(preload.is_chosen, (test_bytes, test_faults)):
                test(count, place)
        finally:
            place.end_all()
