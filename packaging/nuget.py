#!/usr/bin/env python3
"""nuget.py [FOLDER]

Builds the assembly Sdtool, out/dotnet/Sdtool.dll, and in out/dist or another folder its NuGet package and the
PowerShell module. Both have the library for each system that 'make systems' built; without one there are no packages.
The same tree gives the same bytes.

The assembly refers to mscorlib 4.0 alone, so one file serves .NET Framework from 4.6.1 on, Mono and .NET from 5 on.
"""
import hashlib
import pathlib
import re
import struct
import subprocess
import sys
import xml.sax.saxutils
import zipfile
from typing import Dict, List, Tuple

TOP = pathlib.Path(__file__).resolve().parents[1]
SOURCES = TOP / "dotnet"
MSCORLIB = pathlib.Path("/usr/lib/mono/4.6.1-api/mscorlib.dll")
# The library of each system, and what .NET calls that.
LIBRARIES = {"linux-x64": "linux-x86_64/libsdtool.so.0", "linux-arm64": "linux-aarch64/libsdtool.so.0",
             "win-x64": "windows-x86_64/sdtool.dll"}
MODULE = ("Sdtool.psd1", "Sdtool.psm1", "Sdtool.Format.ps1xml")
FRAMEWORKS = ("net461", "netstandard2.0")
CLI_HEADER = 14  # its place among the directories of a PE file
Files = Dict[str, bytes]  # by their names in an archive


def version() -> str:
    found = re.search(r"^Version: (.*)$", (TOP / "packaging/control").read_text(encoding="utf-8"), re.M)
    assert found
    return found[1]


def compile_assembly(target: pathlib.Path) -> None:
    """Writes the assembly and, beside it, what its comments say."""
    target.parent.mkdir(parents=True, exist_ok=True)
    words = ["mcs", "-unsafe", "-optimize", "-warnaserror", "-nowarn:1591", "-noconfig", "-nostdlib",
             f"-reference:{MSCORLIB}", "-target:library", f"-out:{target}", f"-doc:{target.with_suffix('.xml')}",
             *map(str, sorted(SOURCES.glob("Sdtool/*.cs")))]
    if subprocess.run(words, check=False).returncode:
        sys.exit("mcs refuses the sources")
    target.write_bytes(without_chance(target.read_bytes()))
    target.chmod(0o644)


def without_chance(data: bytes) -> bytes:
    """The assembly without the time of its compilation, and with a number of its own that follows from its other bytes:
    mcs takes the time and a random number."""
    cells = bytearray(data)
    time, number = fields_of_chance(data)
    cells[time:time + 4] = bytes(4)
    cells[number:number + 16] = bytes(16)
    cells[number:number + 16] = hashlib.sha256(cells).digest()[:16]
    return bytes(cells)


def fields_of_chance(data: bytes) -> Tuple[int, int]:
    """Where a PE file has its time, and where its metadata (ECMA-335 II.24.2) has the module's number: it is the one
    GUID there is."""
    pe, = struct.unpack_from("<I", data, 0x3c)
    sections, optional_size = struct.unpack_from("<H12xH", data, pe + 6)
    optional = pe + 24
    magic, = struct.unpack_from("<H", data, optional)
    directories = optional + (96 if magic == 0x10b else 112)
    table = [struct.unpack_from("<8x4I", data, optional + optional_size + 40 * at) for at in range(sections)]

    def place_of(address: int) -> int:
        places: List[int] = [address - start + place for size, start, _, place in table
                             if start <= address < start + size]
        return places[0]

    header = place_of(*struct.unpack_from("<I", data, directories + 8 * CLI_HEADER))
    metadata = place_of(*struct.unpack_from("<I", data, header + 8))
    length, = struct.unpack_from("<I", data, metadata + 12)
    streams, = struct.unpack_from("<H", data, metadata + 18 + length)
    at = metadata + 20 + length
    for _ in range(streams):
        offset, size = struct.unpack_from("<II", data, at)
        name = data[at + 8:data.index(b"\0", at + 8)]
        if name == b"#GUID":
            assert size == 16
            return pe + 8, metadata + offset
        at += 8 + (len(name) // 4 + 1) * 4
    raise ValueError("the metadata has no GUID")


def libraries(systems: pathlib.Path) -> Files:
    """The library of each system that is built, where .NET looks for it."""
    found = {f"runtimes/{system}/native/{pathlib.Path(path).name}": systems / path
             for system, path in LIBRARIES.items()}
    return {name: path.read_bytes() for name, path in found.items() if path.exists()}


def documents() -> Files:
    return {"LICENSE.txt": (TOP / "LICENSE").read_bytes(),
            "COPYRIGHT.txt": (TOP / "packaging/copyright").read_bytes()}


def package_files(assembly: pathlib.Path, systems: pathlib.Path) -> Files:
    """The NuGet package: a zip archive by the rules of the Open Packaging Conventions."""
    files = {f"lib/{framework}/{path.name}": path.read_bytes() for framework in FRAMEWORKS
             for path in (assembly, assembly.with_suffix(".xml"))}
    files.update({**libraries(systems), **documents()})
    files["build/net461/Sdtool.targets"] = (SOURCES / "Sdtool.targets").read_bytes()
    nuspec = (SOURCES / "Sdtool.nuspec").read_text(encoding="utf-8").replace("@VERSION@", version())
    files["Sdtool.nuspec"] = nuspec.encode()
    kinds = sorted({path.suffix[1:] for path in map(pathlib.Path, files)})
    types = "".join(f'<Default Extension={xml.sax.saxutils.quoteattr(kind)} ContentType="application/octet"/>'
                    for kind in kinds)
    files["[Content_Types].xml"] = (
        '<?xml version="1.0" encoding="utf-8"?>\n'
        '<Types xmlns="http://schemas.openxmlformats.org/package/2006/content-types">'
        '<Default Extension="rels" ContentType="application/vnd.openxmlformats-package.relationships+xml"/>'
        f"{types}</Types>\n").encode()
    files["_rels/.rels"] = (
        b'<?xml version="1.0" encoding="utf-8"?>\n'
        b'<Relationships xmlns="http://schemas.openxmlformats.org/package/2006/relationships">'
        b'<Relationship Type="http://schemas.microsoft.com/packaging/2010/07/manifest" Target="/Sdtool.nuspec"'
        b' Id="R1"/>'
        b"</Relationships>\n")
    return files


def module_files(assembly: pathlib.Path, systems: pathlib.Path) -> Files:
    """The folder of the PowerShell module."""
    files = {name: (SOURCES / "PowerShell" / name).read_bytes() for name in MODULE}
    files.update({assembly.name: assembly.read_bytes(), **libraries(systems), **documents()})
    return {f"Sdtool/{name}": data for name, data in files.items()}


def write_archive(path: pathlib.Path, files: Files) -> None:
    """Writes a zip archive without times and owners."""
    with zipfile.ZipFile(path, "w", zipfile.ZIP_DEFLATED) as archive:
        for name in sorted(files):
            entry = zipfile.ZipInfo(name)
            entry.compress_type = zipfile.ZIP_DEFLATED
            entry.external_attr = 0o644 << 16
            archive.writestr(entry, files[name])


def build(folder: pathlib.Path, assembly: pathlib.Path, systems: pathlib.Path) -> List[pathlib.Path]:
    """Writes the assembly and, in a folder, the archives, if a system's library is built."""
    compile_assembly(assembly)
    if not libraries(systems):
        return []
    folder.mkdir(parents=True, exist_ok=True)
    package, module = folder / f"Sdtool.{version()}.nupkg", folder / f"sdtool-{version()}-powershell.zip"
    write_archive(package, package_files(assembly, systems))
    write_archive(module, module_files(assembly, systems))
    return [package, module]


def main(words: List[str]) -> None:
    folder = pathlib.Path(words[0]) if words else TOP / "out/dist"
    archives = build(folder, TOP / "out/dotnet/Sdtool.dll", TOP / "out/systems")
    for archive in archives:
        print(archive)
    if not archives:
        print("no packages: no system's library is built in out/systems")


if __name__ == "__main__":
    main(sys.argv[1:])
