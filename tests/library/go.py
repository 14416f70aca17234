"""Tests the package of go/ against the library.

  tools    gofmt, vet, and Go's tests; without cgo the compiler says in words what is missing
  checked  random requests where each pointer that goes to C is looked at, from eight goroutines under the race detector
  static   the same to a program that is linked statically
  time     a check takes at most 1.3 times what it takes in C, and an empty call

Without Debian's packages it is skipped.
"""
import pathlib
import tempfile

import language_requests
import preload

GO = preload.TOP / "go"
TOOLS = (("go", "golang-go"), ("gofmt", "golang-go"), ("cc", "gcc"))
NEEDS_CGO = "sdtool needs cgo"
CHECKED = {"GODEBUG": "cgocheck=2"}


class Go:
    """The command go, which fetches nothing and writes into a folder alone."""

    def __init__(self, count, folder):
        self.count, self.folder = count, pathlib.Path(folder)
        self.surroundings = {
            "GOFLAGS": "-mod=readonly", "GOPROXY": "off", "GOPATH": str(self.folder / "path"), "CGO_ENABLED": "1",
            "GOCACHE": str(self.folder / "cache"), "CGO_CFLAGS": f"-O2 -I{preload.TOP / 'include'}",
            "CGO_LDFLAGS": f"-L{language_requests.LIBRARIES}"}

    def run(self, *words, **others):
        return language_requests.judge_run(self.count, ["go", *words], GO, {**self.surroundings, **others})

    def way(self, name, *words):
        path = self.folder / name
        self.run("build", "-o", path, *words, "./internal/requests")
        return language_requests.Way([path], False)


def judge_tools(go):
    said, _ = language_requests.ran(["gofmt", "-l", "."], GO, {})
    go.count.add(not said, f"make format changes {said}")
    go.run("vet", "./...")
    go.run("test", "./...", GODEBUG="cgocheck=2")
    said, status = language_requests.ran(["go", "build", "."], GO, {**go.surroundings, "CGO_ENABLED": "0"})
    go.count.add(status and NEEDS_CGO in said and len(said.splitlines()) == 2, f"without cgo: {said}")


def main(count: preload.Count) -> None:
    missing = language_requests.missing(TOOLS)
    if missing:
        print(f"Go: {missing}")
        return
    with tempfile.TemporaryDirectory() as folder:
        go = Go(count, folder)
        if preload.is_chosen(judge_tools):
            judge_tools(go)
        if preload.is_chosen("checked"):
            way = go.way("race", "-race")._replace(surroundings=CHECKED, threads=8)
            language_requests.judge_requests(count, [way], 100, "checked")
        if preload.is_chosen("static"):
            way = go.way("static", "-ldflags", "-extldflags -static")
            way = way._replace(surroundings=language_requests.NO_LIBRARY)
            language_requests.judge_requests(count, [way], 100, "static")
            said, _ = language_requests.ran(["ldd", *way.words], None, {})
            count.add("not a dynamic executable" in said, f"a static program: {said}")
        if preload.is_chosen(language_requests.judge_time):
            language_requests.judge_time(count, go.way("requests"))
