#!/usr/bin/env python3
"""ask.py PROGRAM TOKEN

Asks PROGRAM, which is sdtool, one line of SDDL at a time whether the token may change anything of that file or folder,
and prints each answer before it asks for the next one: yes, no, or unknown and why.
"""
import os
import re
import subprocess
import sys

CHANGES = 0xD0156  # each right that changes something: --want would need all of them at once


def said(line: bytes, answer: str) -> str:
    verdict, _, mask = answer.partition(" ")
    if verdict == "error":
        return f"unknown: {answer}"
    if not line.strip():
        return "unknown: no descriptor"
    if re.search(rb"\(O[AD];", line, re.I):
        return "unknown: an ACE is for an object type"  # it needs a question of its own, with --object
    return {"granted": "yes" if int(mask, 16) & CHANGES else "no", "denied": "no"}[verdict]


def main() -> int:
    os.set_blocking(sys.stdin.fileno(), True)  # else Python takes no line yet for the end
    command = [sys.argv[1], "check", "--from", "sddl", "--token", sys.argv[2], "--maximum"]
    # Without a buffer each line goes out at once; else both sides would wait.
    with subprocess.Popen(command, bufsize=0, stdin=subprocess.PIPE, stdout=subprocess.PIPE) as sdtool:
        assert sdtool.stdin and sdtool.stdout
        for line in sys.stdin.buffer:
            line = line.rstrip(b"\r\n")  # a line that keeps its end would be two
            try:
                sdtool.stdin.write(line + b"\n")
            except BrokenPipeError:
                return 2
            answer = sdtool.stdout.readline().decode()
            if not answer:
                return 2  # sdtool has said why
            print(said(line, answer.strip()), flush=True)
    return 0


if __name__ == "__main__":
    sys.exit(main())
