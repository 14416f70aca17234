#!/usr/bin/env bash
# describe.sh HEADER OBJECT [TOOLS]: writes an object that says in CTF what calls a header declares, and has no code. In
# a shared library that is linked with it, abidiff and gdb know the types of calls, since what is proved is compiled
# without debug information. TOOLS is in front of the commands for another system. Of compilers without CTF, such as
# clang, the object is empty.
set -euo pipefail
cc=${3:+${3}gcc}
cc=${cc:-${CC:-cc}}
# The bodies are never linked. A compiler that reads no file names none.
if sed 's/);$/) { __builtin_trap(); }/' "$1" | (cd / && "$cc" -gctf -x c -c -o "$2" -) 2> /dev/null; then
    "${3-}objcopy" --only-section=.ctf --only-section=.note.GNU-stack "$2"
else
    echo "$cc writes no CTF: abidiff sees no types"
    "$cc" -x c -c -o "$2" /dev/null
fi
