#!/usr/bin/env bash
# build.sh SYSTEM: builds the proved program and library for a system, in out/systems/SYSTEM, with the C of systems/c.
# SYSTEM: linux-x86_64, linux-aarch64, windows-x86_64 or wasm. 'make systems' calls it with each of them.
set -euo pipefail
cd "$(dirname "$0")/.."
system=$1
compiled=out/systems/compiled
out=out/systems/$system
clang=$(dirname "$(dirname "$(readlink -f "$(command -v rt)")")")/toolchain/bin/clang
work=$(mktemp -d)
trap 'rm -rf "$work"' EXIT
major=$(sed -n 's/^major=//p' packaging/library.sh)
mkdir -p "$out"

# Compiles C files into the folder of work, each into NAME.o, with a compiler and its flags.
compile_c() {
    local compiler=("${@:2}") file
    for file in $1; do
        "${compiler[@]}" -std=c11 -O2 -Wall -Wextra -Werror -ffunction-sections -c "systems/c/$file.c" -o "$work/$file.o"
    done
}

# Compiles the compiler's own form for another system: without what it says of the system that it was made for, its
# data layout, its triple, and the attributes of functions that match the pattern.
compile_ir() {
    "$clang" -x ir "$1" -S -emit-llvm -Xclang -disable-llvm-passes -o - |
        sed -e '/^target /d' -e "/^attributes /s/ \"\\($3\\)\"=\"[^\"]*\"//g" -e 's/@main(/@rattle_main(/' > "$work/module.ll"
    "$clang" -Wno-override-module -x ir "$work/module.ll" -O3 -ffunction-sections -c "${@:4}" -o "$2"
}

# Links a shared and a static library of one object: of both only symbols that begin with sdtool_ can be linked to.
link_libraries() {
    local tools=$1
    packaging/describe.sh include/sdtool.h "$work/calls.o" "$tools"
    "${tools}gcc" -shared -Wl,-soname,"libsdtool.so.$major" -Wl,--version-script=packaging/library.map -Wl,--no-undefined \
        -Wl,-z,relro,-z,now -Wl,--whole-archive "$compiled/$system/libsdtool_c.a" -Wl,--no-whole-archive "$work/heap.o" "$work/libc_heap.o" \
        "$work/calls.o" -o "$work/libsdtool.so.$major"
    "${tools}strip" --strip-unneeded "$work/libsdtool.so.$major"
    "${tools}ld" -r --whole-archive "$compiled/$system/libsdtool_c.a" "$work/heap.o" "$work/libc_heap.o" -o "$work/sdtool.o"
    "${tools}objcopy" --wildcard --keep-global-symbol='sdtool_*' "$work/sdtool.o"
    "${tools}ar" rcsD "$work/libsdtool.a" "$work/sdtool.o"
    mv "$work/libsdtool.so.$major" "$work/libsdtool.a" "$out"
    ln -sfn "libsdtool.so.$major" "$out/libsdtool.so"
}

# A program that needs no library of the system that it runs on.
link_static() {
    "$1gcc" -static -Wl,--gc-sections -s "$work"/{program,linux,libc_heap,heap}.o -o "$out/sdtool"
}

linux_x86_64() {
    compile_linux x86_64-unknown-linux-gnu ''
    link_static ''
    cp -P out/lib/* "$out"
}

linux_aarch64() {
    compile_linux aarch64-unknown-linux-gnu aarch64-linux-gnu-
    link_static aarch64-linux-gnu-
    link_libraries aarch64-linux-gnu-
}

compile_linux() {
    "$clang" --target="$1" -Wno-override-module -x ir systems/heap.ll -O2 -fPIC -c -o "$work/heap.o"
    compile_c 'linux libc_heap' "$2gcc" -fPIC
    "$2objcopy" --redefine-sym main=rattle_main "$compiled/$system/sdtool.o" "$work/program.o"
}

windows() {
    local tools=x86_64-w64-mingw32- target=--target=x86_64-w64-windows-gnu
    local linker=("${tools}gcc" -nostdlib -Wl,--gc-sections -Wl,--no-insert-timestamp -s)
    # Windows has a probe of its own, which the compiler calls where a frame has more than a page: so the pages of the stack
    # are touched in order, and the system commits them.
    compile_ir "$compiled/sdtool.bc" "$work/program.o" 'probe-stack\|stack-probe-size' $target
    compile_ir "$compiled/libsdtool_c.bc" "$work/library.o" 'probe-stack\|stack-probe-size' $target
    "$clang" $target -Wno-override-module -x ir systems/heap.ll -O2 -c -o "$work/heap.o"
    compile_c 'windows windows_library windows_heap memory' "${tools}gcc" -ffreestanding -fno-builtin \
        -fno-tree-loop-distribute-patterns
    # The main thread has as much stack as on Linux.
    "${linker[@]}" -Wl,-e,start -Wl,--stack,8388608 "$work"/{program,windows,windows_heap,heap,memory}.o \
        -lkernel32 -lshell32 -lgcc -o "$out/sdtool.exe"
    { echo 'LIBRARY sdtool.dll' && echo EXPORTS && calls | sed 's/^/    /'; } > "$out/sdtool.def"
    "${linker[@]}" -shared -Wl,-e,start_library -Wl,--out-implib,"$work/libsdtool.dll.a" "$out/sdtool.def" \
        "$work"/{library,windows_library,windows_heap,heap,memory}.o -lkernel32 -lgcc -o "$out/sdtool.dll"
    "${tools}dlltool" -D sdtool.dll -d "$out/sdtool.def" -l "$out/libsdtool.dll.a"
    cp include/sdtool.h "$out"
}

# The calls that the header declares.
calls() {
    grep -oE '\bsdtool_[a-z0-9_]+\(' include/sdtool.h | tr -d '(' | sort -u
}

# Links a module of a 64-bit memory, and lowers it to a 32-bit one, vectors too. The stack is in front of the data, so a stack that is
# too deep leaves the memory and ends the call, and overwrites nothing.
link_wasm() {
    local objects=("${@:2}")
    (exec -a wasm-ld "$clang" -mwasm64 --no-entry --gc-sections --strip-all --stack-first -z stack-size=1048576 \
        "${objects[@]/#/$work/}" -o "$work/linked.wasm")
    systems/drop_table.py "$work/linked.wasm" "$work/plain.wasm"
    systems/lower_memory.py "$work/plain.wasm" "$out/$1"
}

wasm() {
    local flags=(--target=wasm64-unknown-unknown -msimd128 -mno-bulk-memory -mno-bulk-memory-opt -mno-multivalue
        -mno-reference-types -mno-nontrapping-fptoint)
    local of_x86='probe-stack\|stack-probe-size\|target-cpu'
    compile_ir "$compiled/libsdtool_c.bc" "$work/library.o" "$of_x86" "${flags[@]}"
    compile_ir "$compiled/sdtool.bc" "$work/program.o" "$of_x86" "${flags[@]}"
    "$clang" "${flags[@]}" -Wno-override-module -x ir systems/heap.ll -O2 -c -o "$work/heap.o"
    # The toolchain's clang has no headers of its own; gcc's for a system without a C library serve as well.
    compile_c 'wasm wasi wasm_heap memory' "$clang" "${flags[@]}" -ffreestanding -fno-builtin -nostdlibinc \
        -isystem "$(gcc -print-file-name=include)"
    link_wasm sdtool.wasm {library,wasm,wasm_heap,heap,memory}.o
    link_wasm sdtool-wasi.wasm {program,wasi,wasm_heap,heap,memory}.o
    cp javascript/{sdtool.mjs,sdtool.d.ts,package.json,wasi.mjs} "$out"
    # One file that has all: the module is in it.
    {
        sed '/^const EMBEDDED = ""/,$d' javascript/sdtool.mjs
        echo "const EMBEDDED = \"$(base64 -w 0 "$out/sdtool.wasm")\";"
        sed '1,/^const EMBEDDED = ""/d' javascript/sdtool.mjs
    } > "$out/sdtool.single.mjs"
}

case $system in
linux-x86_64) linux_x86_64 ;;
linux-aarch64) linux_aarch64 ;;
windows-x86_64) windows ;;
wasm) wasm ;;
*)
    echo "there is no system $system" >&2
    exit 2
    ;;
esac
echo "$out"
