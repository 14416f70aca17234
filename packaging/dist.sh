#!/usr/bin/env bash
# dist.sh [SYSTEM..]: makes an archive for each system that 'make systems' built, or for those that are named, in out/dist, and
# out/dist/SHA256SUMS of all that is there. Without a word it makes Debian's packages too, where Debian's tools are. The same
# tree gives the same bytes.
#   linux-x86_64, linux-aarch64   the tree of `make install`, with a program that needs no C library; .tar.gz
#   windows-x86_64                program, library and what a C compiler needs to use it; .zip
#   wasm                          the JavaScript module, and the program for WASI; .tar.gz
# Without a word it also makes the NuGet package and the PowerShell module, where mcs is.
set -euo pipefail
shopt -s nullglob
cd "$(dirname "$0")/.."
. packaging/surroundings.sh
version=$(sed -n 's/^Version: //p' packaging/control)
dist=$PWD/out/dist
work=$(mktemp -d)
trap 'rm -rf "$work"' EXIT

# What each archive has besides program and library: the man page as text, the licences, and a page on what is in it.
add_documents() {
    local system=${2%-*}
    MANWIDTH=100 man --local-file docs/sdtool.1 | col -bx > "$1/sdtool.txt"
    install -m 644 LICENSE "$1/LICENSE.txt"
    install -m 644 packaging/copyright "$1/COPYRIGHT.txt"
    install -m 644 "packaging/readme/$system.txt" "$1/README.txt"
    [[ ! -f out/sdtool.html ]] || install -m 644 out/sdtool.html "$1/sdtool.html"
}

# The tree of make install, which can be moved anywhere, with the program and the library of the system.
fill_linux() {
    "${MAKE:-make}" --no-print-directory install PREFIX= DESTDIR="$1" > /dev/null
    sed -i 's|^prefix=.*|prefix=${pcfiledir}/../..|' "$1/lib/pkgconfig/sdtool.pc"
    local soname
    soname=$(cd "out/systems/$2" && echo libsdtool.so.?)
    install -m 755 "out/systems/$2/sdtool" "$1/bin/sdtool"
    install -m 644 "out/systems/$2/libsdtool.a" "$1/lib/libsdtool.a"
    install -m 644 "out/systems/$2/$soname" "$1/lib/libsdtool.so.$version"
    sed "s|@VERSION@|$version|" packaging/meson.build > "$1/meson.build"
    install -d "$1/python"
    # Programs that run from the tree may write what is left out here, at any time.
    tar -C python -c --exclude=__pycache__ --exclude='*.so' . | tar -C "$1/python" -x
    [[ ! -f out/sdtool.html ]] || install -m 644 out/sdtool.html "$1/python/sdtool/audit" # reports of audits go into it
}

fill() {
    case $2 in
    linux-*) fill_linux "$1" "$2" ;;
    *) cp out/systems/"$2"/* "$1" ;;
    esac
    add_documents "$1" "$2"
    chmod -R u=rwX,go=rX "$1"
    (cd "$1" && find . -type f ! -name SHA256SUMS -print0 | sort -z | xargs -0 sha256sum > SHA256SUMS)
    find "$1" -exec touch --no-dereference --date="@$SOURCE_DATE_EPOCH" {} +
}

# Packs a folder: names in order, no owner, and the time of the last commit.
pack() {
    if [[ $1 == *windows* ]]; then
        rm -f "$dist/$1.zip"
        (cd "$work" && find "$1" | sort | zip -q -X -9 "$dist/$1.zip" -@)
        echo "out/dist/$1.zip"
    else
        tar --sort=name --owner=0 --group=0 --numeric-owner --mtime="@$SOURCE_DATE_EPOCH" -C "$work" -c "$1" | gzip -9n > "$dist/$1.tar.gz"
        echo "out/dist/$1.tar.gz"
    fi
}

mkdir -p "$dist"
systems=("$@")
if (($# == 0)); then
    rm -f "$dist"/*
    for system in wasm windows-x86_64 linux-aarch64 linux-x86_64; do
        [[ ! -d out/systems/$system ]] || systems+=("$system")
    done
fi
for system in "${systems[@]}"; do
    name=sdtool-$version-$system
    mkdir "$work/$name"
    fill "$work/$name" "$system"
    [[ $system == wasm ]] || packaging/wheels.py "$system"
    pack "$name"
done
if (($# == 0)) && command -v mcs > /dev/null; then
    packaging/nuget.py
fi
if (($# == 0)) && command -v dpkg-deb > /dev/null && command -v dpkg-architecture > /dev/null; then
    packaging/deb.sh amd64 out/dist
    [[ ! -d out/systems/linux-aarch64 ]] || packaging/deb.sh arm64 out/dist
fi
(cd "$dist" && sha256sum -- *.tar.gz *.zip *.whl *.nupkg *.deb > SHA256SUMS)
