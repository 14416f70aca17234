"""Runs `python3 -m sdtool.distributed` over Dask clusters, and in one process. The clusters are processes on 127.0.0.1.
Whatever happens, an answer file that is there has to be what the program writes. The commands run on hostile lines, cut
into blocks of 1 KB. Then workers have another library, see other files, come late, are stopped, killed or all gone; the
scheduler dies; the library answers wrongly; disks are full; runs are interrupted and done again after inputs, answers,
parts, records or the library have changed. It needs Dask and fsspec (Debian: python3-dask, python3-distributed,
python3-fsspec); without them it says so and tests nothing. Servers of files need openssh-server, python3-paramiko,
python3-aiohttp and python3-requests, and the one of S3 a python3 on the PATH with moto and boto3.
"""
import bz2
import concurrent.futures
import contextlib
import gzip
import json
import lzma
import os
import pathlib
import pwd
import random
import re
import shutil
import signal
import socket
import subprocess
import sys
import tempfile
import time
from typing import NamedTuple

import compare
import dask_cluster
import preload
from dask_cluster import end, wait_for

TOP = pathlib.Path(__file__).resolve().parents[2]
SECONDS = 1200  # for one run
WAIT = "600"  # seconds for any progress, where a test does not say otherwise
# Bytes a second: where a test does not say otherwise, no task is too slow, though a busy machine or disk may hold it
# for minutes.
SLOWEST = "1"
MANY_BLOCKS = 400  # that last longer than it takes to start some workers on a busy machine, one after the other
TRIES = 5  # to start a server, which may lose its port to another program
BLOCK = 1000  # bytes
SMALL_OBJECTS = 40
HEX_BYTES, SDDL_BYTES = 120_000, 80_000
DOMAIN = ["--domain", "S-1-5-21-1-2-3"]
CHECK = ["check", "--token", "WD,!BA,SY", "--maximum"]
DERIVE = ["derive", "--kind", "container", "--owner", "BA", "--group", "SY"]
OVER_HEX = [["convert"], ["explain", *DOMAIN], CHECK, DERIVE]
OVER_SDDL = [["explain"], ["convert", "--to", "base64", *DOMAIN]]
LINE = b"0100008014000000000000000000000000000000010100000000000512000000\n"
MARK = b"MARK\n"  # a line at which some of the libraries below fail
# What is odd about files, beside their lines.
ODD_FILES = {
    "empty": b"", "one LF": b"\n", "three LF": b"\n\n\n", "CR LF": b"\r\n", "CR at the end": b"\n\r",
    "no LF": LINE[:-1], "no LF, CR": LINE + LINE[:-1] + b"\r", "one line": LINE,
    "CR CR LF": LINE[:-1] + b"\r\r\n" + LINE, "block ends at LF": b"0" * 999 + b"\n" + LINE,
    "CR | LF": b"0" * 999 + b"\r\n" + LINE,
}
LONG_FILES = {
    "long line": b"0" * 3_000_000 + b"\n" + LINE, "long last line": LINE + b"\n" + b"0" * 5_000_000,
    "long line, CR LF": LINE + b"z" * 6_200_000 + b"\r\n" + LINE, "longest line": b"0" * 262_452 + b"\r\n" + LINE,
}
# Lines of a run that a machine is too slow for.
WAITING = re.compile("^sdtool[.]distributed: (the scheduler does not answer|.*and the run waits|worker .* is silent; )")
# A package that is the real one, but for what its library answers.
STUB = """
import itertools, os, signal, time
numbers = itertools.count()
__path__ = [{real!r}]
exec(compile(open({real!r} + "/__init__.py").read(), {real!r} + "/__init__.py", "exec"))
from sdtool import _library
right = _library.run
def answer(words, data):
    status, answers, message = right(words, data)
    if data:
{body}
    return status, answers, message
_library.run = answer
"""
# A test that waits for something while a run goes on has slow workers until it says `go`.
STUBS = {
    "slow": """open({log!r}, 'a').write(f'{{os.getpid()}}\\n')
        for _ in range(40):
            if not os.path.exists({go!r}): time.sleep(0.05)""",
    "fails": "if b'MARK' in data: raise ValueError('the library fails')",
    "cuts": "answers = answers[:len(answers) // 3].rpartition(b'end\\n')[0] + b'end\\n'",
    "drops": "if b'MARK' in data: status, answers = 1, answers.partition(b'\\n')[2]",
    "tears": "if b'MARK' in data: answers = answers[:-1]",
    "lies": "if b'MARK' in data: status = 0",
    "stops": "if b'MARK' in data: status, message = 3, b'sdtool: error 61 write'",
    "dies": "if b'MARK' in data: os.kill(os.getpid(), signal.SIGKILL)",
}


class Ended(NamedTuple):
    status: int
    stdout: str
    stderr: str

    def __str__(self):
        return f"status {self.status}\n  stdout {self.stdout[-800:]!r}\n  stderr {self.stderr[-1500:]!r}"


class Place(dask_cluster.Processes):
    """A folder for the tests, the processes that they start there, and the files that they make."""

    def __init__(self, folder, python, program, library):
        super().__init__(folder, python, library)
        self.program, self.outs = program, 0

    def write(self, name, data):
        path = self.folder / name
        path.parent.mkdir(parents=True, exist_ok=True)
        path.write_bytes(data)
        return name

    def stub(self, name):
        """The environment in which the library answers as the stub says."""
        package = self.folder / f"stub {name}" / "sdtool"
        package.mkdir(parents=True, exist_ok=True)
        places = {"folder": self.folder, "log": self.folder / f"{name}.log", "go": self.folder / "go"}
        body = STUBS[name].format(**{place: str(path) for place, path in places.items()})
        text = STUB.format(real=str(self.modules / "sdtool"), body=f"        {body}")
        (package / "__init__.py").write_text(text)
        return {"PYTHONPATH": str(package.parent)}

    def hold(self):
        """From now on, slow workers are slow."""
        (self.folder / "go").unlink(missing_ok=True)

    def go(self):
        """Slow workers are as quick as others."""
        (self.folder / "go").touch()

    def out(self):
        self.outs += 1
        return self.folder / f"out{self.outs}"

    def start_run(self, out, words, files, options=(), environment=None, through=(), **others):
        """Starts a run. What it says goes to a file, so that a test can read it while the run goes on."""
        given = [*through, self.python, "-m", "sdtool.distributed", "--out", out, "--block", str(BLOCK), "--wait", WAIT,
                 "--slowest", SLOWEST]
        said = self.folder / f"said{self.started}"
        with open(said, "wb") as file:
            child = self.start([*given, *options, *words, "--", *files], environment,
                               **{"stdout": subprocess.PIPE, "stderr": file, **others})
        child.said = said
        return child

    def run(self, *arguments, **others):
        return ended(self.start_run(*arguments, **others))

    def wanted(self, words, name):
        """What one program writes, and its status."""
        with open(self.folder / name, "rb") as given:
            alone = subprocess.run([self.program, *words], stdin=given, stdout=subprocess.PIPE, timeout=SECONDS)
        return alone.stdout, alone.returncode


def ended(child):
    try:
        stdout, stderr = child.communicate(timeout=SECONDS)
    except subprocess.TimeoutExpired:
        end(child)
        return Ended(-1, "", f"it took more than {SECONDS} seconds")
    return Ended(child.returncode, (stdout or b"").decode(errors="replace"),
                 said_by(child) if hasattr(child, "said") else (stderr or b"").decode(errors="replace"))


def said_by(child):
    """What a run has said so far."""
    return child.said.read_text(errors="replace")


def wait_until(child, is_so, what):
    """Waits for something while a run goes on, or for the run's end."""
    wait_for(lambda: child.poll() is not None or is_so(), SECONDS, what)


def has_parts(folder):
    return folder.exists() and any(name.startswith("part-") for name in os.listdir(folder))


def is_answer(name):
    """Whether a file of an output has answers."""
    return not name.startswith("_sdtool/") and not re.search(r"(^|/)_sdtool(-part-\d+)?\.json$", name)


def answers_in(out):
    """The answer files below the folder, by their names in it."""
    names = {str(path.relative_to(out)): path for path in out.rglob("*") if path.is_file()}
    return {name: path.read_bytes() for name, path in names.items() if is_answer(name)}


def counts_of(answers, words, data):
    """Lines and faulty lines, by a program's answers alone."""
    errors = sum(line.startswith(b"error ") for line in answers.splitlines())
    return data.count(b"\n") + (data[-1:] not in (b"", b"\n")), errors


def says_only(got):
    """Whether each line of standard error is one of the run. Neither Dask nor Python says anything beside them."""
    return all(line.startswith("sdtool.distributed: ") for line in got.stderr.splitlines())


def judge_run(count, place, got, out, words, names, what, answers=None):
    """Whether status, answer files and counts are those of one program for each file."""
    statuses, rows = [], []
    answers = answers_in(out) if answers is None else answers
    for name in names:
        wanted, status = place.wanted(words, name)
        lines, errors = counts_of(wanted, words, (place.folder / name).read_bytes())
        statuses.append(status)
        rows.append(f"{lines:15,} lines {errors:15,} errors  file://{place.folder}/{name}")
        count.add(answers.get(os.path.basename(name)) == wanted,
                  f"{what}: {name}: other answers than one program's: {got}")
    is_right = got.status == max(statuses) and got.stdout.splitlines() == rows and len(answers) == len(names)
    count.add(is_right and says_only(got), f"{what}: {rows} are wanted, {sorted(answers)}: {got}")


def judge_failed(count, got, out, text, done, what, status=3):
    """Whether a run failed with the text, and only what is done has an answer file."""
    is_right = got.status == status and text in got.stderr and set(answers_in(out)) == set(done)
    count.add(is_right and says_only(got), f"{what}: {text!r} is wanted, {sorted(answers_in(out))}: {got}")


def random_lines(line, maker, size):
    """Random lines; the last one lacks its LF and has a CR."""
    lines, length = [], 0
    while length < size:
        lines += [line() + maker.end(), maker.chance.choice([b"", b"", b"\n", b"\r\n"])]
        length += len(lines[-2]) + len(lines[-1])
    return b"".join(lines) + LINE[:-1] + b"\r"


# Answers.

def test_commands(count, place, address):
    maker = compare.Lines(random.Random(1))
    names = [place.write("lines.hex", random_lines(maker.line, maker, HEX_BYTES))]
    sddl_names = [place.write("lines.sddl", random_lines(maker.sddl_line, maker, SDDL_BYTES))]
    jobs = [*((words, names) for words in OVER_HEX), *(([*words, "--from", "sddl"], sddl_names) for words in OVER_SDDL)]
    for at, (words, files) in enumerate(jobs):
        options = [["--scheduler", address], []][at % 2]
        out = place.out()
        judge_run(count, place, place.run(out, words, files, options), out, words, files, f"{words} {options}")
    out = place.out()
    got = place.run(out, ["explain"], names, ["--scheduler", address, "--parts"])
    parts = [out / "lines.hex" / name for name in sorted(os.listdir(out / "lines.hex")) if name.startswith("part-")]
    joined = {"lines.hex": b"".join(part.read_bytes() for part in parts)}
    judge_run(count, place, got, out, ["explain"], names, "--parts", joined)
    manifest = json.loads((out / "lines.hex" / "_sdtool.json").read_bytes())
    count.add(len(parts) == len(manifest["blocks"]) == -(-(place.folder / names[0]).stat().st_size // BLOCK) and
              manifest["bytes"] == len(joined["lines.hex"]), f"--parts: {len(parts)} parts, {str(manifest)[:300]}")
    place.write("lines.hex", LINE * 40)
    got = place.run(out, ["explain"], names, ["--scheduler", address, "--parts"])
    parts = [out / "lines.hex" / name for name in sorted(os.listdir(out / "lines.hex")) if name.startswith("part-")]
    joined = {"lines.hex": b"".join(part.read_bytes() for part in parts)}
    judge_run(count, place, got, out, ["explain"], names, "--parts of an input that is shorter now", joined)


def test_odd_files(count, place, address):
    odd = [place.write(f"odd/{name}", data) for name, data in ODD_FILES.items()]
    odd.append(place.write("odd/" + "n" * 255, LINE * 30))
    odd += [place.write(f"odd/{name}", LINE * number)
            for number, name in enumerate((".x.unfinished", "x", "a[1]", "part-000000"), 1)]
    for words, options in (["convert"], ["--scheduler", address]), (["explain"], []):
        out = place.out()
        judge_run(count, place, place.run(out, words, odd, options), out, words, odd, f"odd files, {words}")
    long = [place.write(f"odd/{name}", data) for name, data in LONG_FILES.items()]
    out = place.out()
    got = place.run(out, ["convert"], long, ["--scheduler", address, "--block", "500000"])
    judge_run(count, place, got, out, ["convert"], long, "long lines")
    name = os.fsdecode(b"odd/not \xff utf-8")
    place.write(name, LINE * 20)
    out = place.out()
    got = place.run(out, ["convert"], [name], ["--scheduler", address])
    count.add(got.status == 0 and answers_in(out) == {os.path.basename(name): place.wanted(["convert"], name)[0]},
              f"{got}")


def test_places(count, place, address):
    """Folders, patterns, and files that are compressed."""
    tree = {"in/one/same": LINE * 30, "in/two/same": LINE * 20 + b"zz\n", "in/_sdtool/run.json": b"{}",
            "in/two/_other": LINE,
            "in/two/_sdtool.json": LINE, "in/_sdtool2": LINE * 2, "in/two/_sdtool-part": LINE * 3}
    for name, data in tree.items():
        place.write(name, data)
    # No run wrote these two: one has answers, and the other one would have them where the run has its own record.
    wanted = {name[3:]: place.wanted(["convert"], name)[0] for name in tree if name != "in/_sdtool/run.json"}
    own = wanted.pop("two/_sdtool.json")
    for given in "in", f"file://{place.folder}/in":
        out = place.out()
        got = place.run(out, ["convert"], [given], ["--scheduler", address])
        is_named = "in/_sdtool/run.json has no answers" in got.stderr and (out / "two/_sdtool.json").read_bytes() == own
        count.add(got.status == 3 and is_named and answers_in(out) == wanted,
                  f"a folder: {sorted(answers_in(out))} {got}")
    out = place.out()
    got = place.run(out, ["convert"], ["in/*/_o*"])
    count.add(got.status == 0 and answers_in(out) == {"_other": wanted["two/_other"]}, f"a pattern: {got}")
    plain = LINE * 30 + b"zz\n" + LINE * 3000
    packed = {"gz": gzip.compress(plain[:5000]) + gzip.compress(plain[5000:]), "bz2": bz2.compress(plain),
              "xz": lzma.compress(plain)}
    if shutil.which("zstd"):
        zstd = ["zstd", "-q", "-c"]
        packed["zst"] = b"".join(subprocess.run(zstd, input=data, stdout=subprocess.PIPE, check=True).stdout
                                 for data in (plain[:5000], plain[5000:]))
    place.write("plain", plain)
    names = [place.write(f"packed/{kind}.{kind}", data) for kind, data in packed.items()]
    out = place.out()
    got = place.run(out, ["convert"], names, ["--scheduler", address])
    if "zst" in packed and "zstandard" in got.stderr + "".join(got.stdout) or "read here" in got.stderr:
        print("skipped: fsspec reads no .zst here (Debian: python3-zstandard)")
        del packed["zst"]
        names.pop()
        got = place.run(out, ["convert"], names, ["--scheduler", address])
    right = place.wanted(["convert"], "plain")[0]
    count.add(got.status == 1 and answers_in(out) == dict.fromkeys(packed, right),
              f"packed: {sorted(answers_in(out))} {got}")
    names = [place.write(f"cut/{kind}.{kind}", data[:-5]) for kind, data in packed.items()]
    out = place.out()
    got = place.run(out, ["convert"], ["plain", *names], ["--scheduler", address, "--retries", "0"])
    is_told = all(f"cut/{kind}.{kind} has no answers" in got.stderr for kind in packed)
    count.add(got.status == 3 and is_told and answers_in(out) == {"plain": right},
              f"cut files: {sorted(answers_in(out))} {got}")


def test_memory(count, place):
    """Inputs and output in the memory of the process."""
    place.write("some", LINE * 30 + b"zz\n" + LINE * 300)
    code = """
import fsspec, sys
from sdtool import distributed
data = open("some", "rb").read()
memory = fsspec.filesystem("memory")
memory.pipe("/in/one", data)
memory.pipe("/in/two.hex", data[5:])
for turn in range(2):
    status = distributed.main(["--out", "memory://out", "--block", "1000", "convert", "--", "memory://in/one",
                               "memory://in/*.hex"])
sys.stdout.flush()
sys.stdout.buffer.write(b"%d " % status + memory.cat("/out/one") + b"--" + memory.cat("/out/two.hex"))
"""
    got = ended(place.start([place.python, "-c", code], stdout=subprocess.PIPE, stderr=subprocess.PIPE))
    wanted = place.wanted(["convert"], "some")[0].decode()
    place.write("other", (place.folder / "some").read_bytes()[5:])
    wanted = f"1 {wanted}--{place.wanted(['convert'], 'other')[0].decode()}"
    count.add(got.status == 0 and got.stdout.endswith(wanted), f"memory://: {wanted[:100]} is wanted: {got}")


# Servers.

FILES_OVER_HTTP = """
import sys
from aiohttp import web
served = web.Application()
served.router.add_static("/", sys.argv[1])
web.run_app(served, host="127.0.0.1", port=int(sys.argv[2]))
"""
HTTP_NEEDS = "aiohttp, requests", "python3-aiohttp, python3-requests"


class Server(NamedTuple):
    """A server of a folder, as Debian has it."""

    url: str  # of the folder, but for the port
    words: list  # which start it, but for the port
    module: str  # of Python, for server or client; or more than one
    package: str


def servers(place, folder):
    keys = place.folder / "home/.ssh"
    keys.mkdir(parents=True)
    sshd = shutil.which("sshd", path=f"{os.environ['PATH']}:/usr/sbin") or "sshd"
    if shutil.which(sshd):
        for name in "id_ed25519", "host":
            subprocess.run(["ssh-keygen", "-q", "-t", "ed25519", "-N", "", "-f", keys / name], check=True)
        if os.getuid() == 0:
            os.makedirs("/run/sshd", exist_ok=True)  # it does not start without
    settings = ["ListenAddress=127.0.0.1", "UsePAM=no", "StrictModes=no", "PidFile=none",
                "Subsystem=sftp internal-sftp", f"HostKey={keys}/host", f"AuthorizedKeysFile={keys}/id_ed25519.pub"]
    options = [word for setting in settings for word in ("-o", setting)]
    user = pwd.getpwuid(os.getuid()).pw_name
    return {
        "sftp": Server(f"sftp://{user}@127.0.0.1:%d{folder}",
                       [sshd, "-D", "-f", "/dev/null", *options, "-p"], "paramiko", "openssh-server, python3-paramiko"),
        "http": Server("http://127.0.0.1:%d", [place.python, "-c", FILES_OVER_HTTP, folder], *HTTP_NEEDS),
        "http without ranges": Server("http://127.0.0.1:%d", [
            place.python, "-m", "http.server", "--bind", "127.0.0.1", "--directory", folder], *HTTP_NEEDS)}


def started_server(place, server):
    """The URL of its folder, or None where its packages are missing."""
    is_there = subprocess.run([place.python, "-c", f"import {server.module}"],
                              stderr=subprocess.DEVNULL).returncode == 0
    if not is_there or not shutil.which(server.words[0]):
        return None
    for _ in range(TRIES):
        port = free_port()
        child = place.start([*server.words, port], stdout=subprocess.DEVNULL, stderr=subprocess.DEVNULL)

        def listens():
            with contextlib.suppress(OSError), socket.create_connection(("127.0.0.1", port), 10):
                return True
            return child.poll() is not None

        wait_for(listens, what=str(server.words))
        if child.poll() is None:
            return server.url % port
    return None


def free_port():
    """A port of 127.0.0.1 that the system gives to nobody who asks for any port, so it stays free until a server has
    it."""
    first = int(pathlib.Path("/proc/sys/net/ipv4/ip_local_port_range").read_text().split()[0])
    while True:
        port = random.SystemRandom().randrange(first // 2, first)
        with socket.socket() as held, contextlib.suppress(OSError):
            held.bind(("127.0.0.1", port))
            return port


def test_remote(count, place):
    """Inputs and outputs on servers: workers and driver share nothing else."""
    served, environment = place.folder / "served", {"HOME": str(place.folder / "home")}
    name = place.write("served/in/below/one", LINE * 300 + b"zz\n")
    wanted, _ = place.wanted(["convert"], name)
    small = {str(number): LINE * (number + 1) for number in range(30)}
    for number, data in small.items():
        place.write(f"served/small/{number}", data)
    _, address = place.start_scheduler()
    for _ in range(2):
        place.start_worker(address, environment)
    place.wait_for_workers(address, 2)
    for kind, server in servers(place, served).items():
        url = started_server(place, server)
        if url is None:
            print(f"skipped: no {kind} (Debian: {server.package})")
            continue

        def run(out, given, what, words=()):
            got = place.run(out, ["convert"], [given], ["--scheduler", address, "--retries", "1", *words], environment)
            count.add("Traceback" not in got.stderr, f"{kind}, {what}: {got}")
            return got

        out = place.out()
        got = run(out, f"{url}/in/below/one", "an input")
        if kind == "http without ranges":
            judge_failed(count, got, out, "in place of those", [], kind)
            continue
        host = url.partition("://")[0] + "://127.0.0.1"
        is_right = got.status == 1 and answers_in(out) == {"one": wanted} and host in got.stdout
        count.add(is_right, f"{kind}: an input: {answers_in(out).keys()} {got}")
        if kind == "http":
            continue
        for turn, data in enumerate((LINE * 300 + b"zz\n", LINE * 300 + b"zz\n", LINE * 70)):
            place.write("served/in/below/one", data)
            got = run(f"{url}/{kind}", f"{url}/in", "a folder")
            answers = {"below/one": place.wanted(["convert"], name)[0]}
            is_right = got.status == int(turn < 2) and answers_in(served / kind) == answers
            count.add(is_right, f"{kind}, turn {turn}: {answers_in(served / kind).keys()} {got}")
        got = run(f"{url}/{kind}-small", f"{url}/small", "small files")
        answers = {number: place.wanted(["convert"], f"served/small/{number}")[0] for number in small}
        is_right = got.status == 0 and answers_in(served / f"{kind}-small") == answers
        count.add(is_right and "another one gets it" not in got.stderr, f"{kind}, small files: {got}")
        place.write("served/in/below/one", LINE * 300 + b"zz\n")
        got = place.run(f"{url}/{kind}-threads", ["convert"], [f"{url}/in/below/one"],
                        ["--wait", "120", "--slowest", "500000"], environment)
        is_right = got.status == 1 and answers_in(served / f"{kind}-threads") == {"one": wanted}
        count.add(is_right, f"{kind}, threads of one process: {got}")
        got = run(f"{url}/{kind}-parts", f"{url}/in/below/*", "parts", ["--parts"])
        parts = answers_in(served / f"{kind}-parts")
        is_right = got.status == 1 and b"".join(parts[name] for name in sorted(parts)) == wanted and len(parts) > 5
        count.add(is_right, f"{kind}, parts: {sorted(parts)} {got}")


class ObjectStore:
    """A bucket of an S3 server, moto. Where the Python with Dask has no boto3, it is lent that of the Python with
    moto."""
    MODULES = ("boto3", "botocore", "s3transfer", "jmespath", "dateutil", "urllib3", "six")

    def __init__(self, place):
        self.place, self.environment = place, None
        code = (f"import importlib, moto.server\nfor name in {self.MODULES}: "
                "print(importlib.import_module(name).__file__)")
        found = subprocess.run([sys.executable, "-c", code], stdout=subprocess.PIPE,
                               stderr=subprocess.DEVNULL, text=True)
        if found.returncode:
            return
        lent = place.folder / "lent"
        lent.mkdir()
        for path in map(pathlib.Path, found.stdout.splitlines()):
            path = path.parent if path.name == "__init__.py" else path
            (lent / path.name).symlink_to(path)
        url = started_server(place, Server("http://127.0.0.1:%d",
                                           [sys.executable, "-m", "moto.server", "-p"], "sys", ""))
        self.environment = {"FSSPEC_S3_ENDPOINT_URL": url,
                            "PYTHONPATH": f"{place.modules}:{TOP}/tests/machines/object_store:{lent}"}
        self.ask("fs.client.create_bucket(Bucket='bucket')")

    def ask(self, code):
        code = f"import fsspec, json\nfs = fsspec.filesystem('s3')\n{code}"
        return ended(self.place.start([self.place.python, "-c", code], self.environment, stdout=subprocess.PIPE)).stdout

    def put(self, path, name, data):
        self.place.write(name, data)
        self.ask(f"fs.pipe_file({path!r}, open({name!r}, 'rb').read())")

    def answers(self, out):
        told = self.ask(f"print(json.dumps({{path: fs.cat_file(path).decode() for path in fs.find({out!r})}}))")
        answers = {path[len(out) + 1:]: text.encode() for path, text in json.loads(told).items()}
        return {name: text for name, text in answers.items() if is_answer(name)}


def test_object_store(count, place):
    """Inputs and answers in an S3 server: what has the same ETag is kept, and large answers go there in several
    parts."""
    store = ObjectStore(place)
    if store.environment is None:
        print("skipped: no S3 server (moto and boto3)")
        return
    _, address = place.start_scheduler()
    for _ in range(2):
        place.start_worker(address, store.environment)
    place.wait_for_workers(address, 2)

    def run(out, given, *options, words=("convert",)):
        got = place.run(f"s3://{out}", words, [given], ["--scheduler", address, *options], store.environment)
        count.add("Traceback" not in got.stderr, f"S3, {out}: {got}")
        return got, store.answers(out)

    kept = []
    for data in LINE * 300 + b"zz\n", None, LINE.replace(b"12", b"13", 1) * 300 + b"zz\n":
        if data:
            store.put("bucket/in/below/one", "one", data)
        got, answers = run("bucket/out", "s3://bucket/in")
        count.add(got.status == 1 and answers == {"below/one": place.wanted(["convert"], "one")[0]},
                  f"S3: {answers.keys()} {got}")
        kept.append(store.ask("print(fs.info('bucket/out/below/one')['LastModified'])"))
        time.sleep(1)  # which the server's times tell apart
    count.add(kept[0] == kept[1] != kept[2], f"S3: answers that are kept have their time: {kept}")
    got, answers = run("bucket/parts", "s3://bucket/in/below/*", "--parts")
    joined = b"".join(answers[name] for name in sorted(answers))
    count.add(joined == place.wanted(["convert"], "one")[0] and len(answers) > 5, f"S3, parts: {sorted(answers)} {got}")
    store.put("bucket/large", "large", LINE * 100_000)
    got, answers = run("bucket/whole", "s3://bucket/large", "--block", "4000000", words=("convert", "--to", "hex"))
    count.add(answers == {"large": place.wanted(["convert", "--to", "hex"], "large")[0]}, f"S3, large answers: {got}")
    test_requests(count, place, store)
    got, _ = run("bucket/nothing", "s3://bucket/nothing")
    count.add(got.status == 2 and "no regular file" in got.stderr, f"S3, no such object: {got}")


def test_requests(count, place, store):
    """How often driver and worker ask an object store: for small objects, and for the blocks of a large one. The driver
    asks once for each object, and some times for all."""
    _, address = place.start_scheduler()
    place.start_worker(address, {**store.environment, "S3_LOG": str(place.folder / "worker log"), "S3_SECONDS": "0.02"})
    place.wait_for_workers(address, 1)
    driver = {**store.environment, "S3_LOG": str(place.folder / "driver log"), "S3_SECONDS": "0.02"}
    for number in range(SMALL_OBJECTS):
        place.write(f"small/{number}", LINE * (number + 1))
    store.ask(f"""for number in map(str, range({SMALL_OBJECTS})):
    fs.pipe_file("bucket/small/" + number, open("small/" + number, "rb").read())""")
    store.put("bucket/blocks", "blocks", LINE * 40_000)
    for given, block, made, most in (("small", 64_000_000, SMALL_OBJECTS, (1.5, 8)), ("blocks", 260_000, 10, (2, 8))):
        for log in "worker log", "driver log":
            (place.folder / log).unlink(missing_ok=True)
        got = place.run(f"s3://bucket/asked {given}", ["convert"], [f"s3://bucket/{given}"],
                        ["--scheduler", address, "--block", str(block)], driver)
        asked = [len((place.folder / log).read_text().splitlines()) / made for log in ("driver log", "worker log")]
        answers = store.answers(f"bucket/asked {given}")
        names = {os.path.basename(name): name for name in answers}
        files = {name: f"small/{name}" if given == "small" else name for name in names}
        is_right = all(answers[names[name]] == place.wanted(["convert"], file)[0] for name, file in files.items())
        count.add(got.status == 0 and is_right and len(answers) == (made if given == "small" else 1),
                  f"S3, {given}: {sorted(answers)} {got}")
        print(f"S3, {given}: requests of driver and worker for each: {asked}")
        count.add(all(0 < number <= limit for number, limit in zip(asked, most)),
                  f"S3, {given}: requests of driver and worker for each: {asked}, not more than {most}")


# Workers.

def started(place):
    """The workers that a slow library told of, each as often as it answered a piece."""
    log = place.folder / "slow.log"
    return log.read_text().split() if log.exists() else []


def start_slow_run(place, address, name, blocks, options=()):
    """Starts a run whose blocks take two seconds until the test says `go`, and waits until parts are there."""
    place.write(name, LINE * (16 * blocks - 8) + b"zz\n")
    place.hold()
    out = place.out()
    child = place.start_run(out, ["convert"], [name], ["--scheduler", address, *options])
    wait_until(child, lambda: has_parts(out / "_sdtool/inputs" / name), "a part")
    count_there = (out / name).exists()
    return child, out, count_there


def test_wrong_workers(count, place):
    """Workers with another library, without one, and with other files under the same names."""
    _, address = place.start_scheduler()
    slow = place.stub("slow")
    place.start_worker(address, slow)
    place.start_worker(address, {**slow, **place.other_library()})
    place.start_worker(address, {**slow, "SDTOOL_LIBRARY": "/nowhere/libsdtool.so"})
    place.write("broken/fsspec/__init__.py", b"raise ImportError('fsspec is broken')")
    place.start_worker(address, {"PYTHONPATH": f"{place.folder}/broken:{place.modules}"})
    name = place.write("told", LINE * 1300 + b"zz\n")
    place.write("elsewhere/told", LINE[:2] * 2 + LINE[4:] * 1300 + b"zz\n")
    apart = ["unshare", "--user", "--map-root-user", "--mount", "sh", "-c"]
    is_apart = ended(place.start([*apart, f"mount --bind elsewhere/told {name}"], stderr=subprocess.PIPE)).status == 0
    if is_apart:
        place.start_worker(address, slow, [*apart, f'mount --bind elsewhere/told {name} && exec "$@"', "sh"])
        (place.folder / "nothing").mkdir()
        (place.folder / "out1").mkdir()
        place.start_worker(address, slow, [*apart, 'mount --bind nothing out1 && exec "$@"', "sh"])
    else:
        print("skipped: no file can be mounted here, so no worker sees another one")
    place.wait_for_workers(address, 6 if is_apart else 4)
    told = {"library is not the driver's": 1, "/nowhere/libsdtool.so": 1, "is another file here": int(is_apart),
            "another output here": int(is_apart), "is left out": 5 if is_apart else 3, "fsspec is broken": 1}

    def are_told(said):
        return all(sum(text in line for line in said.splitlines()) == times for text, times in told.items())

    place.hold()
    out = place.out()
    child = place.start_run(out, ["convert"], [name], ["--scheduler", address])
    wait_until(child, lambda: are_told(said_by(child)), "all wrong workers")
    place.go()
    got = ended(child)
    judge_run(count, place, got, out, ["convert"], [name], "wrong workers")
    count.add(are_told(got.stderr) and len(set(started(place))) == 1,
              f"wrong workers: {told}: {set(started(place))} {got}")


def test_late_workers(count, place):
    """A right worker and a wrong one come while a run goes on, and then the first one goes."""
    _, address = place.start_scheduler()
    slow = place.stub("slow")
    first = place.start_worker(address, slow)
    child, out, is_early = start_slow_run(place, address, "late", MANY_BLOCKS)
    count.add(not is_early, "an answer file has its name before it is whole")
    wrong = place.start_worker(address, {**slow, **place.other_library()})
    right = place.start_worker(address, slow)
    wait_until(child, lambda: str(right.pid) in started(place) and "is left out" in said_by(child), "the late workers")
    end(first)
    place.go()
    got = ended(child)
    judge_run(count, place, got, out, ["convert"], ["late"], "late workers")
    is_right = str(right.pid) in started(place) and str(wrong.pid) not in started(place)
    count.add(is_right and got.stderr.count("is left out") == 1, f"late workers: {set(started(place))} {got}")


def test_dead_workers(count, place):
    """Workers die one after the other, more of them than Dask tries a task, and new ones come after each."""
    _, address = place.start_scheduler()
    slow = place.stub("slow")
    workers = [place.start_worker(address, slow) for _ in range(2)]
    place.wait_for_workers(address, 2)
    child, out, _ = start_slow_run(place, address, "dead", MANY_BLOCKS)
    for _ in range(5):
        before = started(place).count(str(workers[0].pid))
        wait_until(child, lambda: started(place).count(str(workers[0].pid)) > before, "a block")
        end(workers.pop(0))
        workers.append(place.start_worker(address, slow))
    count.add(child.poll() is None, "the run ended before its workers did")
    place.go()
    got = ended(child)
    judge_run(count, place, got, out, ["convert"], ["dead"], "dead workers")


def test_stopped_workers(count, place):
    """A worker is stopped before a run, and another one in it."""
    _, address = place.start_scheduler()
    slow = place.stub("slow")
    workers = [place.start_worker(address, slow) for _ in range(3)]
    place.wait_for_workers(address, 3)
    os.kill(workers[0].pid, signal.SIGSTOP)
    child, out, _ = start_slow_run(place, address, "stopped", MANY_BLOCKS)
    before = started(place).count(str(workers[1].pid))
    wait_until(child, lambda: started(place).count(str(workers[1].pid)) > before, "a block")
    os.kill(workers[1].pid, signal.SIGSTOP)
    count.add(child.poll() is None, "the run ended before a worker was stopped")
    place.go()
    got = ended(child)
    judge_run(count, place, got, out, ["convert"], ["stopped"], "stopped workers")
    os.kill(workers[1].pid, signal.SIGCONT)  # which still has a part to write
    time.sleep(1)
    count.add(answers_in(out) == {"stopped": place.wanted(["convert"], "stopped")[0]},
              "a worker that goes on late writes answers")


def test_gone(count, place):
    """All workers go, a new one comes; then all go for good; then the scheduler goes."""
    scheduler, address = place.start_scheduler()
    slow = place.stub("slow")
    worker = place.start_worker(address, slow)
    child, out, _ = start_slow_run(place, address, "gone", 20)
    end(worker)
    count.add(child.poll() is None, "the run ended before its worker did")
    place.go()
    worker = place.start_worker(address, slow)
    judge_run(count, place, ended(child), out, ["convert"], ["gone"], "all workers are new")
    child, out, _ = start_slow_run(place, address, "gone", MANY_BLOCKS, ["--wait", "60"])
    end(worker)
    judge_failed(count, ended(child), out, "no worker has been fit for 60 seconds", [], "no worker")
    place.start_worker(address, slow)
    # The client tries to connect for so long.
    child, out, _ = start_slow_run(place, address, "gone", MANY_BLOCKS, ["--wait", "60"])
    end(scheduler)
    judge_failed(count, ended(child), out, "the scheduler is lost", [], "no scheduler")


def test_wrong_answers(count, place):
    """Libraries that fail, die, or do not answer each line."""
    good, bad = place.write("good", LINE * 100), place.write("bad", LINE * 40 + MARK + LINE * 40)
    texts = {"fails": "ValueError: the library fails", "drops": "lines have", "tears": "lines have", "lies": "status 0",
             "stops": "status 3 sdtool: error 61 write"}
    for name, text in texts.items():
        out = place.out()
        got = place.run(out, ["convert"], [good, bad], ["--retries", "1"], environment=place.stub(name))
        judge_failed(count, got, out, text, [good], name)
        count.add("bad has no answers" in got.stderr and got.stdout.count("good") == 1, f"{name}: {got}")
    out = place.out()
    got = place.run(out, ["explain"], [good], environment=place.stub("cuts"))
    judge_failed(count, got, out, "lines have", [], "explanations that are cut")
    _, address = place.start_scheduler()
    for _ in range(2):
        place.start_worker(address)
    dies = place.stub("dies")
    keeper = (f"while :; do {place.python} -m distributed.cli.dask_worker {address} --nthreads 1 --no-nanny "
              "--no-dashboard; done")
    place.start(["sh", "-c", keeper], dies, stdout=subprocess.DEVNULL, stderr=subprocess.DEVNULL)
    place.wait_for_workers(address, 3)
    out = place.out()
    judge_run(count, place, place.run(out, ["convert"], [good, bad], ["--scheduler", address]), out, ["convert"],
              [good, bad], "a worker that dies of a block which others answer")


# Runs that are done again.

def test_resumed(count, place):
    words, options = ["convert"], ["--retries", "0"]
    # Some blocks of the second one may be under way when the last one fails.
    first, second = place.write("first", LINE * 50 + b"zz\n"), place.write("second", LINE * 300 + MARK)
    names, out = [first, second], place.out()
    got = place.run(out, words, names, options, environment=place.stub("fails"))
    judge_failed(count, got, out, "second has no answers", [first], "the second file fails")
    parts = out / "_sdtool/inputs/second"
    kept = sorted(name for name in os.listdir(parts) if name.startswith("part-"))
    made = {name: (parts / name).stat().st_mtime_ns for name in kept}
    # Another run leaves these as they are, but for what is not whole.
    (parts / kept[0]).write_bytes((parts / kept[0]).read_bytes().replace(b"SY", b"BA", 1))
    (parts / f"_sdtool-{kept[1]}.json").write_bytes(b'{"library": "ab')
    before = (out / first).stat()
    got = place.run(out, words, names)
    judge_run(count, place, got, out, words, names, "resumed")
    after = (out / first).stat()
    count.add(len(made) > 2 and (before.st_ino, before.st_mtime_ns) == (after.st_ino, after.st_mtime_ns),
              f"kept: {made} {got}")

    def changed(what, *arguments, **others):
        got = place.run(out, words, names, *arguments, **others)
        judge_run(count, place, got, out, words, names, what)

    told = os.stat(place.folder / first)
    place.write(first, LINE.replace(b"12", b"13", 1) * 50 + b"zz\n")
    os.utime(place.folder / first, ns=(told.st_atime_ns, told.st_mtime_ns))
    changed("an input has changed, not its size and time")
    (out / first).write_bytes((out / first).read_bytes().replace(b"SY", b"WD"))
    changed("answers have changed, not their size")
    (out / first).write_bytes((out / first).read_bytes() + b"O:WD\n")
    changed("answers have more lines")
    os.remove(out / second)
    changed("answers are gone")
    (out / "_sdtool/inputs/first/_sdtool.json").write_bytes(b'{"blocks": [{')
    os.remove(out / first)
    (out / "_sdtool/run.json").write_bytes(b'{"run"')
    changed("records are torn")
    changed("blocks have another length", ["--block", "700"])
    (out / first).write_bytes((out / first).read_bytes())
    manifest = out / "_sdtool/inputs/first/_sdtool.json"
    library = json.loads(manifest.read_bytes())["library"]
    changed("the library is another one", environment=place.other_library())
    other = json.loads(manifest.read_bytes())["library"]
    count.add(other != library, f"another library: {other} {library}")
    got = place.run(out, ["convert", "--to", "hex"], names)
    is_kept = answers_in(out)[first] == place.wanted(words, first)[0]
    count.add(got.status == 2 and "has answers of 'sdtool convert'" in got.stderr and is_kept, f"other words: {got}")


def test_interrupted(count, place):
    words, slow = ["convert"], place.stub("slow")
    names = [place.write("long first", LINE * 1500), place.write("then", LINE * 40 + b"zz\n")]
    for sent, status in (signal.SIGTERM, -15), (signal.SIGINT, 130), (signal.SIGKILL, -9):
        out = place.out()
        child = place.start_run(out, words, names, environment=slow)
        wait_until(child, lambda: has_parts(out / "_sdtool/inputs/long first"), "a part")
        child.send_signal(sent)
        got = ended(child)
        is_clean = "long first" not in answers_in(out) and "Traceback" not in got.stderr
        count.add(got.status == status and is_clean, f"signal {sent}: {sorted(answers_in(out))}: {got}")
        judge_run(count, place, place.run(out, words, names), out, words, names, f"after signal {sent}")
        folders = [path for path in (out / "_sdtool").iterdir() if path.name not in ("inputs", "run.json")]
        count.add(not folders, f"what an earlier run had not finished, after signal {sent}: {folders}")
    # A second run takes the output over, and the first one ends. It has work for minutes, so it is not done before.
    names[0] = place.write("long first", LINE * 10_000)
    out = place.out()
    child = place.start_run(out, words, names, environment=slow)
    wait_until(child, lambda: has_parts(out / "_sdtool/inputs/long first"), "a part")
    judge_run(count, place, place.run(out, words, names), out, words, names, "the second of two runs")
    got = ended(child)
    count.add(got.status == 3 and "another run has taken it over" in got.stderr, f"the first of two runs: {got}")
    judge_run(count, place, Ended(1, place.run(out, words, names).stdout, ""), out, words, names, "after two runs")


def test_changing_input(count, place):
    """An input changes while it is read, in its size or only in its bytes. The other one is answered."""
    for name, change in (("shrinks", lambda file: file.truncate(500)),
                         ("changes", lambda file: file.write(LINE.replace(b"12", b"13", 1) * 400))):
        place.hold()
        names = [place.write(name, LINE * 400), place.write("stays", LINE * 30)]
        out = place.out()
        child = place.start_run(out, ["convert"], names, ["--block", "100"], environment=place.stub("slow"))
        wait_until(child, lambda: has_parts(out / f"_sdtool/inputs/{name}"), "a part")
        with open(place.folder / name, "r+b") as file:
            change(file)
        place.go()
        judge_failed(count, ended(child), out, f"{name} has no answers", ["stays"], f"an input that {name}")
    names = [place.write("cut", LINE * 2 + LINE[:20]), place.write("whole", LINE * 2)]
    out = place.out()
    got = place.run(out, ["convert"], names, ["--block", "1"])
    judge_run(count, place, got, out, ["convert"], names, "blocks of one byte")


def test_full_disk(count, place):
    names = [place.write("small", LINE * 10), place.write("large", LINE * 3000)]
    out = place.out()
    got = place.run(out, ["convert", "--to", "hex"], names, ["--block", "64000000", "--retries", "0"],
                    through=["sh", "-c", "ulimit -f 100; exec \"$@\"", "sh"])  # 51 or 102 KB, as the shell counts
    judge_failed(count, got, out, "large has no answers: OSError: [Errno 27] File too large", ["small"],
                 "a limit on files")
    apart = ["unshare", "--user", "--map-root-user", "--mount", "sh", "-c"]
    for size in "64k", "4k":
        (place.folder / "full").mkdir(exist_ok=True)
        mount = f"mount -t tmpfs -o size={size} tmpfs full"
        if ended(place.start([*apart, mount], stderr=subprocess.PIPE)).status:
            print("skipped: no file system can be mounted here, so none is full")
            return
        command = f"{place.python} -m sdtool.distributed --out full --retries 0 convert --to hex -- {' '.join(names)}"
        got = ended(place.start([*apart, f"{mount} && {{ {command}; echo $?; find full -maxdepth 1 -type f; }}"],
                                stdout=subprocess.PIPE, stderr=subprocess.PIPE))
        is_right = ("No space left on device" in got.stderr and "\n3\n" in f"\n{got.stdout}"
                    and "large" not in got.stdout)
        count.add(is_right and "Traceback" not in got.stderr, f"a full disk of {size}: {got}")


# Words.

def test_words(count, place, address):
    name = place.write("some", LINE * 3)
    place.write("again/some", LINE)
    place.write("taken/some", b"somebody's own")
    place.write("tree/a", LINE)
    place.write("flat/a/b", LINE)
    place.write("packed.zip", LINE)
    place.write("_sdtool", LINE)
    os.mkfifo(place.folder / "fifo")
    out = place.out()
    wrong = [
        (["--out", out, "convert", "--to", "xml", "--", name], "sdtool: usage: --to\n"),
        (["--scheduler", address, "--out", out, "check", "--token", "WD", "--", name],
         "sdtool: error 50 empty-request\n"),
        (["convert", "--", name], "are required: --out"),
        (["--out", out, "convert", name], "inputs stand behind --"),
        (["--out", out, "convert", "--"], "inputs stand behind --"),
        (["--out", out, "print", "--", name], "invalid choice"),
        (["--out", out, "--block", "0", "convert", "--", name], "--block: invalid number value: '0'"),
        (["--out", out, "--bloc", "9", "convert", "--", name], "invalid choice: '9'"),
        (["--out", out, "convert", "--", "nowhere"], "nowhere: no regular file"),
        (["--out", out, "convert", "--", "nowhere/*"], "nowhere/*: no regular file"),
        (["--out", out, "convert", "--", "fifo"], "fifo is not a regular file"),
        (["--out", out, "convert", "--", "/dev/null"], "/dev/null is not a regular file"),
        (["--out", out, "convert", "--", "packed.zip"], "packed.zip is compressed"),
        (["--out", out, "convert", "--", "_sdtool"], "_sdtool has a name that is kept"),
        (["--out", out, "convert", "--", name, "again/some"], "again/some has the answers of another input"),
        (["--out", out, "convert", "--", name, name], "some has the answers of another input"),
        (["--out", out, "convert", "--", "tree/a", "flat"], "flat/a/b has the answers of another input"),
        (["--out", "again", "convert", "--", "again/some"], "which no run wrote"),
        (["--out", "flat/answers", "convert", "--", "flat"], "flat/answers is in the input flat"),
        (["--out", "taken", "convert", "--", name], "which no run wrote"),
    ]
    for given, text in wrong:
        got = ended(place.start([place.python, "-m", "sdtool.distributed", *given], stdout=subprocess.PIPE,
                                stderr=subprocess.PIPE))
        is_right = got.status == 2 and got.stderr.count(text) == 1 and not got.stdout and "Traceback" not in got.stderr
        count.add(is_right and not out.exists(), f"{given}: {text!r} is wanted: {got}")
    count.add((place.folder / "taken/some").read_bytes() == b"somebody's own", "a file of somebody else is overwritten")
    got = place.run(out, ["convert", "--help"], [name])
    count.add(got.status == 0 and "Usage: sdtool convert" in got.stdout and not out.exists(), f"help: {got}")
    got = place.run(name, ["convert"], [name])
    count.add(got.status == 3 and "Traceback" not in got.stderr, f"--out is a file: {got}")
    got = place.run(place.out(), ["convert"], [name], ["--scheduler", "tcp://127.0.0.1:1", "--wait", "1"])
    is_said = "tcp://127.0.0.1:1" in got.stderr and "Traceback" not in got.stderr
    count.add(got.status == 3 and is_said, f"no scheduler: {got}")
    closed = subprocess.Popen(["true"], stdin=subprocess.PIPE)
    closed.wait()
    got = place.run(place.out(), ["convert"], [name], stdout=closed.stdin)
    # A busy machine may be slow, and what a run then waits for it says.
    others = [line for line in got.stderr.splitlines() if not WAITING.search(line)]
    count.add(got.status in (0, -signal.SIGPIPE) and not others, f"standard output is closed: {got}")


def over_answers(count, place):
    _, address = place.start_scheduler()
    for _ in range(2):
        place.start_worker(address)
    timed("commands", test_commands, count, place, address)
    timed("odd files", test_odd_files, count, place, address)
    timed("folders and compressed files", test_places, count, place, address)
    timed("memory://", test_memory, count, place)
    timed("servers", test_remote, count, place)
    timed("an object store", test_object_store, count, place)
    timed("words", test_words, count, place, address)


def over_workers(count, place):
    for what, test in (("wrong workers", test_wrong_workers), ("late workers", test_late_workers)):
        timed(what, test, count, place)


def over_dead_workers(count, place):
    for what, test in (("dead workers", test_dead_workers), ("stopped workers", test_stopped_workers)):
        timed(what, test, count, place)


def over_lost(count, place):
    for what, test in (("lost workers", test_gone), ("wrong answers", test_wrong_answers)):
        timed(what, test, count, place)


def over_files(count, place):
    for what, test in (("resumed runs", test_resumed), ("interrupted runs", test_interrupted),
                       ("inputs that change", test_changing_input), ("a full disk", test_full_disk)):
        timed(what, test, count, place)


def timed(name, test, count, place, *arguments):
    """Runs a test, and ends what it has started."""
    began, before = time.monotonic(), len(place.children)
    try:
        test(count, place, *arguments)
    except (OSError, TimeoutError, ValueError, KeyError, subprocess.SubprocessError) as error:
        count.add(False, f"{name}: {type(error).__name__} {error}")
    finally:
        place.end_all(before)
    print(f"{name}: {time.monotonic() - began:.1f} s", flush=True)


def in_a_place(tests, name, *tools):
    """Runs some tests in a folder of their own, and counts."""
    count, place = preload.Count(), Place(name, *tools)
    try:
        tests(count, place)
    finally:
        place.end_all()
    return count


def main(count: preload.Count, wanted: preload.Given) -> None:
    with tempfile.TemporaryDirectory(ignore_cleanup_errors=True) as folder:
        python = dask_cluster.python_with_dask(folder)
        if python is None:
            return
        tools = python, wanted.program, preload.LIBRARY
        with concurrent.futures.ThreadPoolExecutor() as threads:
            all_tests = [tests for tests in (over_dead_workers, over_files, over_lost, over_answers, over_workers)
                         if preload.is_chosen(tests)]
            for counted in [threads.submit(in_a_place, tests, pathlib.Path(folder, tests.__name__), *tools)
                            for tests in all_tests]:
                count.passed += counted.result().passed
                count.failed += counted.result().failed
