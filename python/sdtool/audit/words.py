"""The words that the commands have in common: those about sources, and those about reports."""
import codecs
import functools
import os
import sys
from typing import Any, Callable, Dict, List, NamedTuple, Optional, Sequence, Tuple

import click

from sdtool.audit import files, library, stopping
from sdtool.audit.directory.groups import read_names
from sdtool.audit.directory.machines import Machines
from sdtool.audit.live.access import Access
from sdtool.audit.live.address import address_of, is_address
from sdtool.audit.protocols import Context
from sdtool.audit.reports import outputs
from sdtool.audit.reports.shown import say
from sdtool.audit.sources import reading
from sdtool.audit.sources.opening import STANDARD_INPUT, OpeningFault
from sdtool.audit.sources.options import DEFAULT_ATTRIBUTES, SourceOptions
from sdtool.audit.store import cache
from sdtool.audit.windows import rights
from sdtool.audit.windows.names import Names

A_SOURCE = "a source"
_SCHEDULER = "DASK_SCHEDULER_ADDRESS"


class Common(NamedTuple):
    """What the words say that all questions have in common."""

    options: SourceOptions
    of_sources: Tuple[str, ...]  # the options about sources that were given
    context: Context
    jobs: Optional[int]
    scheduler: Optional[str]
    report: outputs.Form
    out: Optional[str]
    into: Optional[str]
    bar: bool
    domains: Tuple[str, ...]
    reads: Tuple[files.Named, ...]
    accounts: Dict[str, str] = {}  # SIDs of accounts without a fixed number that sources name
    machines: Optional[Machines] = None  # those that sources name
    access: Access = Access()  # who asks servers, and how
    said: Tuple[str, ...] = ()  # what decides about all answers beside the words, which each report says too

    def saying(self, *lines: str) -> "Common":
        """The same with more that is said, beside the report and in it."""
        say(*lines)
        return self._replace(said=(*self.said, *lines))


class _FormatChoice(click.Choice):
    """The name of a format, or 'help' for what each has."""

    def convert(self, value: Any, param: Optional[click.Parameter], ctx: Optional[click.Context]) -> Any:
        if value == "help" and ctx is not None:
            click.echo(reading.format_help())
            ctx.exit(0)
        return super().convert(value, param, ctx)


_SOURCE_OPTIONS = (
    click.option("--format", "source_format", type=_FormatChoice(reading.NAMES),
                 help="The format of the sources, if their "
                 "content doesn't show it. 'help' says what counts as an object in each, and what as none."),
    click.option("--encoding",
                 help="The encoding of text without a byte order mark, such as cp1252. Default: UTF-8 or UTF-16, "
                 "by its bytes."),
    click.option("--delimiter", help="Of a table: a character, or 'tab'."),
    click.option("--no-quotes", is_flag=True, help="Quotation marks in a table mean nothing."),
    click.option("--header/--no-header", default=None, help="Whether the first row of a table has titles."),
    click.option("--name-column", metavar="COLUMN",
                 help="The column or member with names: its title, or its number from 1."),
    click.option("--descriptor-column", metavar="COLUMN", help="The same of the descriptors."),
    click.option("--object-names", metavar="FILE",
                 help="A file with the names of plain lines, as many as the list has lines."),
    click.option("--type", "kind", type=click.Choice(rights.KINDS), metavar="KIND",
                 help="What the rights mean: those of "
                 f"{', '.join(rights.KINDS)}. Default: what a source tells, or file if the rights can be those "
                 "of a file."),
    click.option("--attribute", "attributes", metavar="NAME", multiple=True,
                 help="The extended attribute with the descriptor. Default: "
                 f"{' or '.join(DEFAULT_ATTRIBUTES)}."),
    click.option("--domain", "domains", metavar="SID", multiple=True,
                 help="The SID whose aliases, such as DA, are read. risks "
                 "trusts the administrators of this domain alone; given again it names further domains."),
    click.option("--sid-names", metavar="FILE",
                 help="A file with the names of SIDs: CSV, lines of SID and name, or LDIF."),
)
_SERVER_OPTIONS = (
    click.option("--credentials", metavar="FILE",
                 help="Who asks a server: a file of mode 0600 as smbclient -A has it. Default: Kerberos' ticket."),
    click.option("--user", metavar="NAME", help="The same by a name, also DOMAIN\\NAME. The password is asked for."),
    click.option("--timeout", type=click.FloatRange(1, 86_400), default=60, show_default=True, metavar="SECONDS",
                 help="How long a server may be silent. It is then asked again, twice."),
    click.option("--requests", type=click.FloatRange(0.01), metavar="N", help="At most so many requests a second."),
    click.option("--sacl", is_flag=True, help="Reads SACLs too, for which the server asks for a privilege."),
    click.option("--backup", is_flag=True, help="Opens files as a backup does, which the server logs as such."),
    click.option("--ca", metavar="FILE", help="The authorities of an ldaps server's certificate."),
)
# What a database has kept, so that these options come too late for it.
_LOST_ON_DATABASES = {"source_format": "--format", "encoding": "--encoding", "delimiter": "--delimiter",
                      "no_quotes": "--no-quotes",
                      "header": "--header", "name_column": "--name-column", "descriptor_column": "--descriptor-column",
                      "object_names": "--object-names", "kind": "--type", "attributes": "--attribute"}
_REPORT_OPTIONS = {
    "to": click.option("--to", type=click.Choice(tuple(outputs.OUTPUTS)), default="table", show_default=True,
                       help="The form of the report."),
    "out": click.option("--out", metavar="FILE", help="The file of the report. Default: standard output."),
    "lists": click.option("--list", "lists", type=click.Choice(["found", "all"]),
                          help="Whether the report lists objects with "
                          "nothing found. Default: all in csv and jsonl. Each report counts all."),
    "most": click.option("--most", type=click.IntRange(0), metavar="N", help=f"Rows of the table; 0 for all. Default: "
                         f"{outputs.TABLE_ROWS}."),
    "each": click.option("--each", is_flag=True,
                         help="Lists each object, and not the place where a permission is set with the "
                         "number of objects that inherit it."),
    "spreadsheet": click.option("--spreadsheet", is_flag=True,
                                help="CSV that is safe to open in a spreadsheet: what looks like a "
                                "formula begins with an apostrophe."),
    "into": click.option("--into", metavar="FILE",
                         help="A new file that keeps the objects, for the next question: name it as "
                         "a source."),
    "jobs": click.option("--jobs", type=click.IntRange(1, 512), metavar="N",
                         help="Processes that answer. Default: one for each "
                         "processor."),
    "scheduler": click.option("--scheduler", metavar="ADDRESS",
                              help="A Dask scheduler whose workers answer in place of processes, such as "
                              f"tcp://host:8786. Default without --jobs: {_SCHEDULER}."),
    "no_bar": click.option("--no-bar", is_flag=True, help="No progress bar."),
}
# What an option says that a command doesn't have.
_UNSAID: Dict[str, Any] = {
    "to": "table", "out": None, "lists": None, "most": None, "each": False, "spreadsheet": False, "into": None,
    "jobs": None, "scheduler": None,
    "no_bar": True}
OF_REPORTS = tuple(_UNSAID)


def with_common(*without: str) -> Callable[[Callable[..., int]], Callable[..., int]]:
    """The options of sources and of reports, but for some, gathered into one argument."""
    def decorated(command: Callable[..., int]) -> Callable[..., int]:
        @functools.wraps(command)
        def run(**words: Any) -> int:
            words = {**_UNSAID, **words}
            return command(_common(words), **words)

        for option in reversed([*_SOURCE_OPTIONS, *_SERVER_OPTIONS,
                                *(one for name, one in _REPORT_OPTIONS.items() if name not in without)]):
            run = option(run)
        return run
    return decorated


def _common(given: Dict[str, Any]) -> Common:
    """Takes the common words out of all words."""
    of_sources = tuple(option for name, option in _LOST_ON_DATABASES.items() if given[name] not in (None, False, ()))
    if given["header"] is False:
        of_sources = tuple("--no-header" if option == "--header" else option for option in (*of_sources, "--header"))
    domains = tuple(library.sid_of_text(domain) for domain in given.pop("domains"))
    domain = domains[0] if domains else ""
    delimiter = given.pop("delimiter")
    delimiter = "\t" if delimiter in ("tab", "\\t") else delimiter
    if delimiter is not None and (len(delimiter) != 1 or delimiter in '"\r\n'):
        raise OpeningFault("--delimiter is one character, or 'tab'")
    encoding = given.pop("encoding")
    if encoding:
        try:
            is_text = isinstance(codecs.getincrementaldecoder(encoding)("strict").decode(b""), str)
        except Exception as error:  # each codec has faults of its own
            raise OpeningFault(f"--encoding: {encoding!r} is no encoding of text") from error
        if not is_text:
            raise OpeningFault(f"--encoding: {encoding!r} is no encoding of text")
    sid_names = given.pop("sid_names")
    object_names = given.pop("object_names")
    options = SourceOptions(
        given.pop("source_format"), encoding, delimiter, not given.pop("no_quotes"), given.pop("header"),
        given.pop("name_column"), given.pop("descriptor_column"), object_names, given.pop("kind"),
        given.pop("attributes") or DEFAULT_ATTRIBUTES)
    lists, to, out, most = given.pop("lists"), given.pop("to"), given.pop("out"), given.pop("most")
    is_each, is_for_spreadsheets = given.pop("each"), given.pop("spreadsheet")
    if most is not None and to not in ("table", "markdown"):
        raise OpeningFault(f"--most is for tables, and a report in {to} has all rows")
    if is_for_spreadsheets and to != "csv":
        raise OpeningFault("--spreadsheet is for --to csv")
    if to == "html":
        outputs.page_around()  # a page that is missing is told before anything is read
    if out is None and isinstance(sys.stdout, stopping.ClosedOutput):
        raise OpeningFault("standard output is closed: name a file with --out")
    form = outputs.Form(to, None if lists is None else lists == "all",
                        outputs.TABLE_ROWS if most is None else most, is_each, is_for_spreadsheets)
    # Rows that come on a terminal leave no place for a bar.
    bar = not given.pop("no_bar") and (to == "table" or out is not None or not sys.stdout.isatty())
    reads = (*files.named("--sid-names", sid_names), *files.named("--object-names", object_names))
    into, jobs, scheduler = given.pop("into"), given.pop("jobs"), given.pop("scheduler")
    if jobs and scheduler:
        raise OpeningFault("--jobs is about processes of this machine, and --scheduler about a cluster: give one")
    if not jobs:
        scheduler = scheduler or os.environ.get(_SCHEDULER) or None
    files.refuse(reads, [*files.named("--out", out), *files.named("--into", into)])
    names = Names(read_names(sid_names, domain) if sid_names else None)
    access = Access(*(given.pop(name)
                    for name in ("credentials", "user", "timeout", "requests", "sacl", "backup", "ca")))
    return Common(options, of_sources, Context(domain, names), jobs, scheduler, form, out, into, bar, domains, reads,
                  access=access)


def paths_of(given: Sequence[str], common: Common) -> List[str]:
    """The sources; without any, standard input if it is no terminal. Refuses options that a database comes too late
    for."""
    if not given:
        if sys.stdin is None or sys.stdin.isatty():
            raise OpeningFault("name a source, such as export.csv")
        return [STANDARD_INPUT]
    if list(given).count(STANDARD_INPUT) > 1:
        raise OpeningFault("standard input can be named once")
    if STANDARD_INPUT in given and sys.stdin is None:
        raise OpeningFault("standard input is closed")
    for path in given:
        if is_address(path):
            address_of(path)
            if common.of_sources:
                raise OpeningFault(f"{path}: a server isn't read by {', '.join(common.of_sources)}")
            continue
        if path != STANDARD_INPUT and not os.path.exists(path):
            raise OpeningFault(f"{path}: no such file or folder")
        if common.of_sources and is_database(path):
            raise OpeningFault(f"{path} keeps its objects as they were read, so {', '.join(common.of_sources)} can't "
                               "be honoured: say so when --into makes it")
    return list(given)


def is_database(path: str) -> bool:
    """Whether a source is a file that --into made. A pipe is not looked at, since it can be read only once."""
    return path != STANDARD_INPUT and os.path.isfile(path) and reading.is_database(path)


def check_files(common: Common, paths: Sequence[str], read: Sequence[files.Named] = (),
                written: Sequence[files.Named] = ()) -> None:
    """Refuses words that name a file twice, if that would write over it, and a database that is there."""
    is_asking = any(map(is_address, paths))
    outputs_ = [*files.named("--out", common.out), *files.named("--into", common.into), *written]
    reads = [*(files.Named(A_SOURCE, path) for path in paths), *common.reads, *read]
    files.refuse(reads, outputs_)
    files.refuse_standard_output(reads)
    if common.into is not None and os.path.lexists(common.into):
        is_begun = os.path.isfile(common.into) and (  # which may have been before the first byte
            not os.path.getsize(common.into) or cache.sources_asked(common.into) == list(paths))
        if not is_asking or not is_begun:
            raise OpeningFault(f"--into {common.into}: the file exists; name a new one" +
                               ", or the sources of the run that has begun it" * is_asking)
