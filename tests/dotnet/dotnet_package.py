"""Tests the assembly, its NuGet package and the PowerShell module as files.

  assembly    it refers to mscorlib 4.0 alone, and to no type that .NET Standard 2.0 lacks; its calls have no bool
  bytes       two builds have the same bytes
  package     its files, what says what they are, and that a program finds the library in them
  module      the PowerShell module, which is not run: its brackets, exports, help, formats, and that all that it names
              of the assembly is there
  sources     columns and tabs
"""
import itertools
import os
import pathlib
import re
import shutil
import tempfile
import xml.etree.ElementTree
import zipfile

import assembly
import nuget
import preload

FACADE = pathlib.Path("/usr/lib/mono/4.7.2-api/Facades/netstandard.dll")
SOURCES = preload.TOP / "dotnet"
COMMANDS = ["ConvertFrom-Sddl", "ConvertTo-Sddl", "Test-SddlAccess", "Get-SddlAccess", "Edit-Sddl"]
MADE_BY_MODULE = {"Sdtool.SddlAccess": {"IsGranted", "Mask", "Reasons", "InputObject"}}
PAIRS = {")": "(", "]": "[", "}": "{"}
# What does not close brackets: here-less strings, comments, and a character behind a backtick.
SKIPPED = re.compile(r"<#.*?#>|#[^\n]*|'(?:[^']|'')*'|\"(?:[^\"`]|`.)*\"|`.", re.S)
VERBS = {"ConvertFrom", "ConvertTo", "Test", "Get", "Edit"}


def assembled(path):
    """The text that ikdasm gives of an assembly."""
    return assembly.run(["ikdasm", str(path)])


def judge_assembly(count, folder):
    text = assembled(folder / "Sdtool.dll")
    references = re.findall(r"^\.assembly extern (?:/\*.*?\*/ )?(\S+)\s*\{(.*?)\}", text, re.M | re.S)
    count.add([name for name, _ in references] == ["mscorlib"] and ".ver 4:0:0:0" in references[0][1],
              f"the assembly refers to {references}")
    used = set(re.findall(r"\[mscorlib\]([\w.`]+(?:/[\w`]+)*)", text))
    forwarded = set(re.findall(r"^\.class extern forwarder ([\w.`]+)", assembled(FACADE), re.M))
    missing = {name for name in used if name.split("/")[0] not in forwarded}
    count.add(len(used) > 40 and not missing, f".NET Standard 2.0 has not {sorted(missing)} of {len(used)} types")
    native = (SOURCES / "Sdtool/Native.cs").read_text(encoding="utf-8")
    marshalled = re.findall(r"\b(?:bool|string|MarshalAs|\w+\[\])", native.replace("Func<string, IntPtr>", ""))
    count.add(not marshalled, f"Native.cs marshals {marshalled}")


def systems_in(folder):
    """Libraries for all systems, of which that of this one is the real one if it is built."""
    for path in nuget.LIBRARIES.values():
        target = pathlib.Path(folder, path)
        target.parent.mkdir(parents=True)
        target.write_bytes(b"a library\n")
    if os.path.exists(preload.LIBRARY):
        shutil.copy(preload.LIBRARY, pathlib.Path(folder, nuget.LIBRARIES["linux-x64"]))
    return pathlib.Path(folder)


def built(folder, name, systems):
    """The archives of one build."""
    return nuget.build(pathlib.Path(folder, name), pathlib.Path(folder, name, "Sdtool.dll"), systems)


def judge_bytes(count, folder, systems):
    one, other = (built(folder, name, systems) for name in ("one", "other"))
    for first, second in zip([*one, one[0].with_name("Sdtool.dll")], [*other, other[0].with_name("Sdtool.dll")]):
        count.add(first.read_bytes() == second.read_bytes(), f"two builds of {first.name} differ")
    count.add([path.name for path in one] == [f"Sdtool.{nuget.version()}.nupkg",
                                              f"sdtool-{nuget.version()}-powershell.zip"], f"the archives {one}")
    return one


def judge_package(count, folder, package):
    with zipfile.ZipFile(package) as archive:
        files = {name: archive.read(name) for name in archive.namelist()}
    expected = {*(f"lib/{name}/Sdtool.{kind}" for name in nuget.FRAMEWORKS for kind in ("dll", "xml")),
                *(f"runtimes/{name}/native/{path.split('/')[1]}" for name, path in nuget.LIBRARIES.items()),
                "Sdtool.nuspec", "[Content_Types].xml", "_rels/.rels", "build/net461/Sdtool.targets", "LICENSE.txt",
                "COPYRIGHT.txt"}
    count.add(files.keys() == expected, f"the package has {sorted(files.keys() ^ expected)}")
    kinds = {one.get("Extension") for one in xml.etree.ElementTree.fromstring(files["[Content_Types].xml"])}
    count.add({name.rsplit(".", 1)[1] for name in expected} - {"xml"} <= kinds, f"types of contents: {kinds}")
    space = "{http://schemas.microsoft.com/packaging/2013/05/nuspec.xsd}"
    told = xml.etree.ElementTree.fromstring(files["Sdtool.nuspec"])[0]
    count.add((told.findtext(f"{space}id"), told.findtext(f"{space}version")) == ("Sdtool", nuget.version()),
              f"Sdtool.nuspec: {files['Sdtool.nuspec']}")
    linked = "<Link>" + "runtimes\\win-x64\\native\\sdtool.dll"
    count.add(linked in files["build/net461/Sdtool.targets"].decode(), "Sdtool.targets does not copy the library")
    xml.etree.ElementTree.fromstring(files["lib/net461/Sdtool.xml"])
    if not os.path.exists(preload.LIBRARY):
        return
    app = pathlib.Path(folder, "app")
    for name, data in files.items():
        kept = name if name.startswith("runtimes/") else name.replace("lib/netstandard2.0/", "")
        path = app / kept
        path.parent.mkdir(parents=True, exist_ok=True)
        path.write_bytes(data)
    ended = assembly.ran(assembly.over_assembly(app, "Loading"))
    count.add(ended.stdout.startswith("loaded "), f"a program with the package: {ended.stdout} {ended.stderr}")


def unclosed(text):
    """The first bracket of a script that has no other one, or nothing."""
    opened = []
    for bracket in re.findall(r"[()\[\]{}]", SKIPPED.sub(" ", text)):
        if bracket not in PAIRS:
            opened.append(bracket)
        elif not opened or opened.pop() != PAIRS[bracket]:
            return bracket
    return opened


def parameters_of(body):
    """The parameters that a function declares in its first param block."""
    begin = body.index("param(")
    code = SKIPPED.sub(lambda found: " " * len(found[0]), body)
    depth, at = 0, begin + len("param")
    for at in itertools.count(at):
        depth += {"(": 1, ")": -1}.get(code[at], 0)
        if depth == 0:
            break
    return re.findall(r"^ {8}(?:\[[\w.\[\]]+\] )?\$(\w+)", code[begin:at], re.M)


def functions_of(text):
    """The functions of a script, by their names."""
    parts = re.split(r"^function ([\w-]+) \{$", text, flags=re.M)
    return dict(zip(parts[1::2], parts[2::2]))


def judge_function(count, name, body):
    help_text = body.partition("<#")[2].partition("#>")[0]
    count.add("[CmdletBinding(" in body and "[OutputType(" in body, f"{name} has no CmdletBinding or OutputType")
    parameters = parameters_of(body)
    told = re.findall(r"^    \.PARAMETER (\w+)$", help_text, re.M)
    count.add(parameters and told == parameters, f"{name} has parameters {parameters}, and help for {told}")
    count.add(all(f"\n    .{word}\n" in help_text for word in ("SYNOPSIS", "EXAMPLE")), f"{name} has no example")
    count.add("ConvertTo-SdtoolErrorRecord" in body and " catch {" in " ".join(body.split()),
              f"{name} has no error of its own")
    used = {word for word in re.findall(r"\$(\w+)", SKIPPED.sub(" ", body)) if word[0].islower()}
    clash = {word for word in used if word.lower() in {one.lower() for one in parameters}}
    count.add(not clash, f"{name} has variables {clash} that are parameters")


def judge_module(count, folder, archive):
    text = (SOURCES / "PowerShell/Sdtool.psm1").read_text(encoding="ascii")
    manifest = (SOURCES / "PowerShell/Sdtool.psd1").read_text(encoding="ascii")
    for name, script in (("Sdtool.psm1", text), ("Sdtool.psd1", manifest)):
        count.add(not unclosed(script), f"{name}: {unclosed(script)} is not closed")
    exported = re.findall(r"'([\w-]+)'", re.search(r"FunctionsToExport\s*= @\((.*?)\)", manifest, re.S)[1])
    members = re.search(r"^Export-ModuleMember -Function (.*)$", text, re.M)[1].split(", ")
    functions = functions_of(text)
    count.add(exported == members == COMMANDS and set(exported) <= functions.keys(), f"{exported} and {members}")
    count.add(all(f"{name}ToExport" in manifest for name in ("Cmdlets", "Variables", "Aliases")), "other exports")
    count.add({name.split("-")[0] for name in functions} <= VERBS, f"verbs of {sorted(functions)}")
    with zipfile.ZipFile(archive) as opened:
        names = opened.namelist()
    for name in re.findall(r"'(Sdtool\.(?:psm1|dll|Format\.ps1xml))'", manifest):
        count.add(f"Sdtool/{name}" in names, f"the archive lacks {name}")
    has_version = re.search(rf"^ *ModuleVersion *= '{re.escape(nuget.version())}'$", manifest, re.M)
    count.add(has_version, "the version of the module")
    known = {line.split()[0]: set(line.split()[1:]) for line in assembly.ran(
        assembly.over_assembly(folder, "Members", "System.Core.dll")).stdout.splitlines()}
    for name in exported:
        judge_function(count, name, functions[name])
    judge_names(count, text, known)
    judge_formats(count, known)


def judge_names(count, text, known):
    """All that the module names of the assembly is there."""
    types = set(re.findall(r"\[(Sdtool\.\w+?)(?:\[\])?\]", SKIPPED.sub(lambda found: found[0], text)))
    count.add(len(types) > 8 and types <= known.keys(), f"types of the module: {types - known.keys()}")
    named = set(re.findall(r"\[(Sdtool\.\w+)\]::(\w+)", text))
    count.add(len(named) > 6 and all(member in known[name] for name, member in named), f"members of types: {named}")
    everything = set().union(*known.values())
    for member in ("Descriptor", "GetSddlForm", "Check", "IsGranted", "Mask", "GetReasons", "Edit"):
        count.add(f".{member}" in text and member in everything, f"the module and the assembly with {member}")


def judge_formats(count, known):
    views = xml.etree.ElementTree.parse(SOURCES / "PowerShell/Sdtool.Format.ps1xml").iter("View")
    known = {**known, **MADE_BY_MODULE}
    for view in views:
        name = view.findtext("ViewSelectedBy/TypeName")
        shown = [one.text for one in view.iter("PropertyName")]
        shown += [re.match(r"\$_\.(\w+)", one.text)[1] for one in view.iter("ScriptBlock")]
        count.add(name in known and set(shown) <= known[name] and len(shown) > 1, f"the format of {name}: {shown}")
        columns = [len(list(view.iter(kind))) for kind in ("TableColumnHeader", "TableColumnItem")]
        count.add(columns[0] == columns[1], f"the columns of {name}: {columns}")


def judge_sources(count):
    for path in (*SOURCES.rglob("*.*"), *assembly.CS.glob("*.cs")):
        wrong = [f"{path.name}:{number}: {line}" for number, line
                 in enumerate(path.read_text(encoding="utf-8").splitlines(), 1)
                 if len(line) > 120 or "\t" in line or line != line.rstrip()]
        count.add(not wrong, "\n".join(wrong))


def main(count: preload.Count) -> None:
    judge_sources(count)
    if not assembly.is_ready("dotnet_package", needs_library=False):
        return
    with tempfile.TemporaryDirectory() as name:
        folder = pathlib.Path(name)
        nuget.compile_assembly(folder / "Sdtool.dll")
        judge_assembly(count, folder)
        package, module = judge_bytes(count, folder, systems_in(folder / "systems"))
        judge_package(count, folder, package)
        judge_module(count, folder, module)
