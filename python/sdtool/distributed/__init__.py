"""Answers large files on a Dask cluster: python3 -m sdtool.distributed [..] --out URL COMMAND [OPTIONS] -- INPUT..

A task answers a block, which has the lines that begin in a range of bytes, and writes a part and its evidence. Another
task for each input checks the parts and puts them together. docs/DISTRIBUTED.md describes runs and what they write.

    bounded.py    calls that may hang
    packed.py     compressed files
    inputs.py     finds the inputs, and refuses what is none
    work.py       what a worker does
    engine.py     what Dask gets to do, and what follows a failure
    __main__.py   the command line and the report
"""
from typing import List


def main(words: List[str]) -> int:
    """Runs the command line. Gives the exit status."""
    from .__main__ import main as run
    return run(words)
