"""Tests the crates of rust/ against the library.

  tools     Cargo's tests, documents and clippy without a warning, with the feature serde and without
  static    random requests to a program that is linked statically, from eight threads
  time      a check takes at most 1.3 times what it takes in C, and an empty call

Without Debian's packages it is skipped.
"""
import pathlib
import re
import shutil
import tempfile

import language_requests
import preload

RUST = preload.TOP / "rust"
REGISTRY = "/usr/share/cargo/registry"
SERDE = next(map(str, pathlib.Path(REGISTRY).glob("serde-1.*")), f"{REGISTRY}/serde-1")
TOOLS = (("cargo", "cargo"), ("cargo-clippy", "rust-clippy"), (SERDE, "librust-serde-dev"))
CONFIG = f"""[source.crates-io]
replace-with = "debian"
[source.debian]
directory = "{REGISTRY}"
"""


class Cargo:
    """Cargo with what Debian has, in a copy of the crates."""

    def __init__(self, count, folder):
        self.count, self.folder = count, pathlib.Path(folder)
        shutil.copytree(RUST, self.folder / "rust", ignore=shutil.ignore_patterns("target"))
        shutil.copy(preload.TOP / "LICENSE", self.folder)
        (self.folder / "home").mkdir()
        (self.folder / "home/config.toml").write_text(CONFIG, encoding="utf-8")
        self.surroundings = {
            "CARGO_HOME": str(self.folder / "home"), "CARGO_NET_OFFLINE": "true",
            "CARGO_TARGET_DIR": str(self.folder / "out"), "SDTOOL_LIB_DIR": str(language_requests.LIBRARIES),
            "RUSTDOCFLAGS": "-D warnings"}

    def run(self, *words, **others):
        name, *more = words
        return language_requests.judge_run(self.count, ["cargo", name, "--locked", *more], self.folder / "rust",
                                           {**self.surroundings, **others})

    def way(self, **others):
        self.run("build", "--release", "--package", "requests", **others)
        return language_requests.Way([self.folder / "out/release/requests"], True)


def judge_tools(cargo):
    header = (preload.TOP / "include/sdtool.h").read_text(encoding="utf-8")
    version = re.search(r'SDTOOL_VERSION_TEXT "(.*)"', header)[1]
    for crate in ("sdtool", "sdtool-sys"):
        manifest = (RUST / crate / "Cargo.toml").read_text(encoding="utf-8")
        cargo.count.add(f'\nversion = "{version}"\n' in manifest, f"{crate} has another version than the header")
    for features in ([], ["--features", "sdtool/serde"]):
        said = cargo.run("test", "--workspace", *features)
        cargo.count.add(re.search(r"test result: ok\. [1-9]", said), f"cargo test: {said[-500:]}")
        cargo.run("clippy", "--workspace", "--all-targets", *features, "--", "-D", "warnings")
    cargo.run("doc", "--workspace", "--no-deps", "--features", "sdtool/serde")


def main(count: preload.Count) -> None:
    missing = language_requests.missing(TOOLS)
    if missing:
        print(f"Rust: {missing}")
        return
    with tempfile.TemporaryDirectory() as folder:
        cargo = Cargo(count, folder)
        if preload.is_chosen(judge_tools):
            judge_tools(cargo)
        if preload.is_chosen(language_requests.judge_time):
            language_requests.judge_time(count, cargo.way())
        if preload.is_chosen("static"):
            way = cargo.way(SDTOOL_STATIC="1")._replace(surroundings=language_requests.NO_LIBRARY, threads=8)
            language_requests.judge_requests(count, [way], 300, "static")
