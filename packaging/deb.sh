#!/usr/bin/env bash
# Builds Debian packages from what `make install` installs, the program with its man page, documents and completions, the
# shared library, and what a C compiler needs to use it; and from the Python module and its command for audits.
# deb.sh [ARCHITECTURE [FOLDER]]: out/PACKAGE_VERSION_ARCHITECTURE.deb, or in another folder. For arm64 those of program,
# library and module, with what 'make linux-aarch64' built. The module's extension is compiled for the same architecture. The
# same tree gives the same bytes.
set -euo pipefail
cd "$(dirname "$0")/.."
. packaging/surroundings.sh
version=$(sed -n 's/^Version: //p' packaging/control)
here=$(dpkg --print-architecture)
architecture=${1:-$here}
libraries=usr/lib/$(dpkg-architecture -a "$architecture" -qDEB_HOST_MULTIARCH 2> /dev/null)
packages=${2:-out}
work=$(mktemp -d)
trap 'rm -rf "$work"' EXIT
program=$work/sdtool
library=$work/libsdtool0
development=$work/libsdtool-dev
modules=$work/python3-sdtool/usr/lib/python3/dist-packages

# Moves what the second package has from the tree of the first.
move() {
    for path in "${@:3}"; do
        mkdir -p "$2/$(dirname "$path")"
        mv "$1/$path" "$2/$path"
    done
}

# The control file of a package: the first paragraph of packaging/control and the package's own. The file, if there is
# one, names the versions of the C library that the package needs.
control() {
    local depends=
    if [[ -n ${2-} ]]; then
        depends="libc6 (>= $(grep -aoE 'GLIBC_[0-9.]+' "$2" | sort -Vu | tail -n 1 | cut -d_ -f2))"
    fi
    awk -v RS= -v ORS='\n' -v package="$1" 'NR == 1 || $2 == package' packaging/control |
        sed -e "s/^Architecture: any/Architecture: $architecture/" -e "s/\${shlibs:Depends}/$depends/" \
            -e "s/\${binary:Version}/$version/" -e '/^Depends: *$/d'
}

# The changes in the form that Debian's tools read.
changelog() {
    echo "sdtool ($version) unstable; urgency=medium"
    echo
    sed -n 's/^ *- //p' CHANGELOG.md | while read -r change; do
        fold -sw 74 <<< "$change" | sed -e 's/ *$//' -e '1s/^/  * /' -e '2,$s/^/    /'
    done
    echo
    echo " -- $(sed -n 's/^Maintainer: //p' packaging/control)  $(git log -1 --format=%cD)"
}

# Builds a package. The file, if there is one, links to the C library.
build() {
    local package=$1 tree=$work/$1 documents=$work/$1/usr/share/doc/$1
    install -d "$documents" "$tree/DEBIAN"
    cp packaging/copyright "$documents"
    changelog | gzip -9n > "$documents/changelog.gz"
    control "$package" "${2-}" > "$tree/DEBIAN/control"
    (cd "$tree" && find usr -type f -print0 | sort -z | xargs -0 md5sum > DEBIAN/md5sums)
    chmod -R u=rwX,go=rX "$tree"
    find "$tree" -exec touch --no-dereference --date="@$SOURCE_DATE_EPOCH" {} +
    dpkg-deb --root-owner-group --build "$tree" \
        "$packages/${package}_${version}_$(sed -n 's/^Architecture: //p' "$tree/DEBIAN/control").deb"
}

"${MAKE:-make}" --no-print-directory install PREFIX=/usr LIBDIR="/$libraries" DESTDIR="$program" > /dev/null
rm "$program/usr/share/doc/sdtool/LICENSE"
if [[ $architecture == "$here" ]]; then
    strip "$program/usr/bin/sdtool"
else
    install -m 755 out/systems/linux-aarch64/sdtool "$program/usr/bin/sdtool"
    install -m 644 out/systems/linux-aarch64/libsdtool.a "$program/$libraries/libsdtool.a"
    install -m 644 out/systems/linux-aarch64/libsdtool.so.? "$program/$libraries/libsdtool.so.$version"
fi
gzip -9n "$program/usr/share/man/man1/sdtool.1" "$program"/usr/share/man/man3/*.3
# Debian's zsh looks for the completions of packages in a folder of its own.
mv "$program/usr/share/zsh/site-functions" "$program/usr/share/zsh/vendor-completions"
move "$program" "$library" "$libraries"
move "$library" "$development" "$libraries"/{libsdtool.a,libsdtool.so,pkgconfig,cmake}
move "$program" "$development" usr/include usr/share/man/man3
rmdir "$program/usr/lib"
install -d "$modules"
tar -C python -c --exclude=__pycache__ --exclude='*.so' sdtool | tar -C "$modules" -x
extension=$modules/sdtool/_native.abi3.so
# Where it cannot be compiled, a line says why, and the module's calls go through ctypes.
packaging/extension.py "linux-$(dpkg-architecture -a "$architecture" -qDEB_HOST_GNU_CPU 2> /dev/null)" "$extension" || extension=
rm "$modules/sdtool/_native.c"
# Other Python packages ask here which version is there.
install -d "$modules/sdtool-$version.dist-info"
(cd python && python3 -B -c 'import build_wheel; print(end=build_wheel.METADATA)') > "$modules/sdtool-$version.dist-info/METADATA"
[[ -z $extension ]] || chmod 644 "$extension"

audit=$work/sdtool-audit
move "$work/python3-sdtool" "$audit" usr/lib/python3/dist-packages/sdtool/audit
# Reports of audits go into the page, where it is built.
[[ ! -f out/sdtool.html ]] || install -m 644 out/sdtool.html "$audit/usr/lib/python3/dist-packages/sdtool/audit"
install -d "$audit/usr/bin" "$audit/usr/share/man/man1"
install -m 755 packaging/sdtool-audit "$audit/usr/bin"
install -D -m 644 packaging/sdtool-collect.ps1 "$audit/usr/share/sdtool-audit/sdtool-collect.ps1"
gzip -9n < docs/sdtool-audit.1 > "$audit/usr/share/man/man1/sdtool-audit.1.gz"

# What other packages that link to the library depend on, by its names too, and that the system finds the library.
install -d "$library/DEBIAN"
soname=$(basename "$library/$libraries"/libsdtool.so.?)
echo "libsdtool ${soname##*.} libsdtool0 (>= $version)" > "$library/DEBIAN/shlibs"
DEB_HOST_ARCH="$architecture" dpkg-gensymbols -q -a"$architecture" -plibsdtool0 -v"$version" -P"$library" -O"$library/DEBIAN/symbols"
[[ -s "$library/DEBIAN/symbols" ]] # which the tools of another system leave empty
echo 'activate-noawait ldconfig' > "$library/DEBIAN/triggers"

mkdir -p "$packages"
# The program for arm64 has the C library in it.
build sdtool "$([[ $architecture != "$here" ]] || echo "$program/usr/bin/sdtool")"
build libsdtool0 "$library/$libraries/$soname"
build libsdtool-dev
build python3-sdtool "$extension"
[[ $architecture != "$here" ]] || build sdtool-audit
