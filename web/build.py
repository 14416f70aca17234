#!/usr/bin/env python3
"""build.py MODULE PAGE

Puts the page together: one file, PAGE, of web/page.html, web/page.css, the ES modules of web/ from main.mjs on with
that of the library, and the file MODULE (sdtool.wasm), compressed and in base64. Debian's esbuild bundles and minifies
the modules. The script is no module, since browsers refuse modules in workers of a page from a disk; so it has no
import.meta. What the page never calls of the module is left out by binaryen's wasm-metadce. Then binaryen's wasm-opt
keeps one of functions that are alike, joins blocks, lets functions share locals, and takes out what sets a local or
branches in vain. The page's policy allows this script and this style alone, by their hashes.
"""
import argparse
import base64
import gzip
import hashlib
import json
import pathlib
import re
import shutil
import subprocess
import tempfile

FOLDER = pathlib.Path(__file__).resolve().parent
FIRST = "main.mjs"
MOST = 1_000_000  # bytes of the page
MOST_PACKED = 350_000
# What the page calls of the module, by way of the library.
CALLED = ["memory", "allocate", "release"] + [
    f"sdtool_{name}"
    for name in ("version to_sddl from_sddl sid_to_text sid_from_text sid_size normalize parts next_ace build check "
                 "reasons derive derive_origins place sddl_place run fault_text describe edit order").split()
]
FEATURES = ["--enable-sign-ext", "--enable-mutable-globals", "--enable-bulk-memory", "--enable-simd"]
# The page runs as a script, and has the module inside.
BUNDLE = ("esbuild", "--bundle", "--format=iife", "--minify", "--charset=utf8", "--log-level=warning",
          "--external:node:*", "--define:import.meta.url=location.href")


def packed_style(text):
    """A style sheet without the blanks that mean nothing in it. None of its texts has a sign that ends one of its
    parts."""
    text = re.sub(r"\s*\n\s*", " ", text)
    return re.sub(r":[ ]+", ":", re.sub(r" ?([{};,]) ?", r"\1", text)).replace(";}", "}")


def bundle():
    """The script of the page: the modules from the first one on."""
    return subprocess.run([*BUNDLE, FOLDER / FIRST], check=True, stdout=subprocess.PIPE).stdout.decode()


def hash_of(text):
    return "'sha256-" + base64.b64encode(hashlib.sha256(text.encode()).digest()).decode() + "'"


def policy(script, style):
    return "; ".join(
        [
            "default-src 'none'",
            f"script-src {hash_of(script)} 'wasm-unsafe-eval'",
            f"style-src {hash_of(style)}",
            "worker-src blob:",
            "base-uri 'none'",
            "form-action 'none'",
            "webrtc 'block'",
            "require-trusted-types-for 'script'",
            "trusted-types worker",
        ]
    )


def reduced(module):
    """The module with what the page calls, and no more, in functions that share locals and do nothing in vain."""
    names = [name for name in CALLED if name.encode() in module]
    graph = [{"name": "page", "root": True, "reaches": names}, *({"name": name, "export": name} for name in names)]
    with tempfile.TemporaryDirectory() as name:
        folder = pathlib.Path(name)
        (folder / "graph.json").write_text(json.dumps(graph))
        (folder / "module.wasm").write_bytes(module)
        words = ["wasm-metadce", *FEATURES, "module.wasm", "--graph-file=graph.json", "-o", "reduced.wasm"]
        subprocess.run(words, cwd=folder, check=True, stdout=subprocess.DEVNULL)
        passes = ["--duplicate-function-elimination", "--remove-unused-brs", "--merge-blocks"]
        passes += ["--rse", "--vacuum", "--coalesce-locals", "--reorder-locals"]
        words = ["wasm-opt", *FEATURES, *passes, "reduced.wasm", "-o", "packed.wasm"]
        subprocess.run(words, cwd=folder, check=True)
        return (folder / "packed.wasm").read_bytes()


def page(module):
    script = bundle()
    style = packed_style((FOLDER / "page.css").read_text(encoding="utf-8"))
    if re.search(r"</(?:script|style)|<!--", script + style, re.I):
        raise SystemExit("a script or the style has a text that would end it")
    if shutil.which("wasm-metadce"):
        module = reduced(module)
    packed = base64.b64encode(gzip.compress(module, 9, mtime=0)).decode()
    parts = {"POLICY": policy(script, style), "STYLE": style, "MODULE": packed, "SCRIPT": script}
    template = (FOLDER / "page.html").read_text(encoding="utf-8")
    return re.sub(r"@([A-Z]+)@", lambda found: parts[found[1]], template).encode()


def main():
    parser = argparse.ArgumentParser(description=__doc__.split("\n\n")[1])
    parser.add_argument("module", type=pathlib.Path)
    parser.add_argument("page", type=pathlib.Path)
    given = parser.parse_args()
    if not shutil.which("esbuild"):
        raise SystemExit("there is no command esbuild (Debian: esbuild)")
    built = page(given.module.read_bytes())
    packed = len(gzip.compress(built, 9))
    if len(built) > MOST or packed > MOST_PACKED:
        raise SystemExit(f"the page has {len(built)} bytes, {packed} packed: more than {MOST} or {MOST_PACKED}")
    given.page.parent.mkdir(parents=True, exist_ok=True)
    given.page.write_bytes(built)
    print(f"{given.page}: {len(built)} bytes, {packed} packed")


if __name__ == "__main__":
    main()
