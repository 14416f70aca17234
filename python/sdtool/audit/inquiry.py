"""A question that is asked of all objects of the sources, and its report."""
import contextlib
import functools
import io
import os
import sys
import tempfile
import time
from typing import Any, Callable, Dict, Iterable, Iterator, List, NamedTuple, Optional, Sequence, TextIO, Tuple, Union

from sdtool.audit import files, pool, stopping
from sdtool.audit.directory import asking
from sdtool.audit.directory.folders import Folders
from sdtool.audit.directory.forest import Forest, Told
from sdtool.audit.engine import Answered, Engine, Held, workers_of
from sdtool.audit.findings import Rule
from sdtool.audit.live.address import address_of, is_address
from sdtool.audit.live.reading import Reading, Rest, reading_of
from sdtool.audit.live.talking import SAID, SAID_OF_OBJECTS, Fact, known
from sdtool.audit.progress import Bar
from sdtool.audit.protocols import Context, ListQuestion, Question
from sdtool.audit.reports import outputs
from sdtool.audit.reports.accepting import Accepted
from sdtool.audit.reports.baseline import Baseline
from sdtool.audit.reports.reporting import Report, Tables, split
from sdtool.audit.reports.shown import say
from sdtool.audit.reports.summing import SOME_UNKNOWN, is_listed
from sdtool.audit.sources import reading
from sdtool.audit.sources.frame import Account
from sdtool.audit.sources.items import Item, unreadable
from sdtool.audit.sources.opening import AS_THEY_CAME, STANDARD_INPUT, OpeningFault
from sdtool.audit.sources.reading import Table
from sdtool.audit.store import cache
from sdtool.audit.windows.names import Names
from sdtool.audit.words import Common, is_database


class Inquiry(NamedTuple):
    """What is asked of whom, and what counts."""

    question: Question
    title: str
    paths: Sequence[str]
    accepted: Optional[Accepted] = None
    places: Union[Forest, Folders, None] = None
    baseline: Optional[Baseline] = None
    fail_on: Optional[str] = None


@contextlib.contextmanager
def opened(out: Optional[str]) -> Iterator[TextIO]:
    """Where a report goes."""
    if out is not None:
        with files.whole("--out", out) as file:
            yield file
        return
    if isinstance(sys.stdout, io.TextIOWrapper):
        sys.stdout.reconfigure(encoding="utf-8", errors=AS_THEY_CAME, newline="\n")
    yield sys.stdout
    sys.stdout.flush()


def informed(common: Common, paths: Sequence[str], sids: Sequence[str] = ()) -> Tuple[Common, List[str]]:
    """What the words say, with what sources say themselves, and the sources. Addresses are read now: where there is
    one, a database with the objects of all sources stands for these. Servers name these SIDs too."""
    if not any(map(is_address, paths)):
        return _informed(common, paths), list(paths)
    common, path = _gathered(common, paths)
    told = [path, *(one for one in paths if not is_address(one))]
    common = _informed(common, told, {path: ", ".join(filter(is_address, paths))})
    return _named(common, path, paths, sids), [path]


def _named(common: Common, path: str, paths: Sequence[str], sids: Sequence[str] = ()) -> Common:
    """Asks servers for the names of SIDs that nothing else names."""
    before = common.context.names
    found, said = asking.names_of(path, before, common.context.domain, list(map(address_of, filter(is_address, paths))),
                                  common.access, sids)
    names = Names(before.given, {**before.of_sources, **found}, before.types)
    return common.saying(*said)._replace(context=common.context._replace(names=names))


def informed_each(common: Common, paths: Sequence[str]) -> Tuple[Common, List[str]]:
    """The same, with a database for each address."""
    if any(map(is_address, paths)):
        common = common._replace(access=known(common.access, next(filter(is_address, paths))))
    found = [_gathered(common, [path])[1] if is_address(path) else path for path in paths]
    common = _informed(common, found, dict(zip(found, paths)))
    for database, path in zip(found, paths):
        common = _named(common, database, [path]) if is_address(path) else common
    return common, found


def _gathered(common: Common, paths: Sequence[str]) -> Tuple[Common, str]:
    """Reads all sources into the database that --into names, or into one for this run. Nothing is read before each
    server has answered."""
    access = known(common.access, next(filter(is_address, paths)))
    target = common.into or files.part_of(os.path.join(tempfile.gettempdir(), "sdtool"))
    if not common.into:
        stopping.unfinished.add(target)
        os.close(os.open(target, os.O_WRONLY | os.O_CREAT | os.O_EXCL, 0o600))
    asking = cache.Asking(target, paths, access.asked)
    if asking.is_new:
        stopping.unfinished.add(target)
    stopping.close_early(asking.close)
    bar = Bar(paths, common.bar)
    try:
        waiting = asking.waiting()
        readings = {path: reading_of(path, access, functools.partial(asking.has, path))
                    for path in waiting if is_address(path)}
        if common.into:
            stopping.unfinished.discard(target)
        for path in waiting:
            _gather(common, path, readings.get(path), asking, bar)
        asking.end_all()
    finally:
        bar.stop()
        asking.close()
    return common._replace(into=None, access=access), target


_KEPT_AFTER = 2.0  # seconds


def _gather(common: Common, path: str, reading: Optional[Reading], asking: cache.Asking, bar: Bar) -> None:
    """Keeps the objects of a source: those of a server as they come, and those of a file together."""
    if reading is None:
        for item in bar.count(items_of(common, [path], bar)):
            asking.add(item)
        asking.end_source(path)
        return
    reason, kept = None, time.monotonic()
    for found in reading.items():
        if isinstance(found, Rest):
            reason = found.item.text
        elif isinstance(found, Fact):
            asking.add_fact(path, found.kind, found.key, found.value)
        else:
            asking.add(found)
            bar.advance(1)
        if time.monotonic() > kept + _KEPT_AFTER:
            asking.keep()
            kept = time.monotonic()
    asking.end_source(path, reason)


def _informed(common: Common, paths: Sequence[str], shown: Optional[Dict[str, str]] = None) -> Common:
    """What the words say, with what LDIF and directories say themselves: the domain and names of SIDs. Words win over
    sources, and two domains leave none. Standard input and pipes can be read only once. shown has what stands in words
    for a database."""
    if common.options.format not in (None, "ldif"):
        return common
    paths = [path for path in paths if path != STANDARD_INPUT and files.can_be_read_again(path)]
    told = Told(paths)
    common = common.saying(*dict.fromkeys(line for path in paths if is_database(path)
                                          for kind in (SAID, SAID_OF_OBJECTS) for line, _ in cache.facts(path, kind)))
    if not told.paths:
        return common
    context, domains = common.context, common.domains
    source = ", ".join((shown or {}).get(path, path) for path in told.paths)
    if not domains and len(told.heads) == 1:
        domains = tuple(told.heads)
        common = common.saying(f"the domain is {domains[0]}, as {source} says: --domain names another one, and "
                               "--forest-root that of Enterprise Admins")
    elif not domains and told.heads:
        common = common.saying(f"{source}: the heads of {len(told.heads):,} domains, {', '.join(sorted(told.heads))}: "
                               "name the one of aliases with --domain")
    names = Names(context.names.given, told.names, told.types)
    common = common.saying(f"the names of {len(names.of_sources):,} SIDs are those of {source}: those of --sid-names "
                           "and of Windows win")
    context = context._replace(domain=domains[0] if domains else "", names=names)
    return common._replace(context=context, domains=domains, accounts=told.accounts, machines=told.machines)


def begin_all(common: Common, paths: Sequence[str]) -> None:
    """Reads the first object of each file where columns are named: a table without such a column is told before the
    report."""
    options = common.options
    if options.name_column or options.descriptor_column or options.names:
        for path in paths:
            if os.path.isfile(path) and not is_database(path):
                next(reading.read(path, options), None)


def _units(common: Common, path: str, bar: Bar, tables: bool, is_first: bool = False) -> Iterator[Any]:
    """The objects of a source, and perhaps tables of them. What ends it early is an object that can't be read. The
    first reading of two says nothing."""
    accounts: List[Account] = []
    try:
        if is_database(path):
            yield from cache.items(path)
        elif tables:
            yield from reading.read_tables(path, common.options, bar.read, True, accounts)
        else:
            yield from reading.read(path, common.options, bar.read, accounts)
    except OpeningFault as error:
        yield unread(path, error)
    for account in accounts if not is_first else ():
        for note, count in account.notes.items():
            say(f"{account.label}: {note} ({count:,})")


def unread(path: str, error: Exception) -> Item:
    """What stands for a source, or for the rest of one, that isn't what it should be."""
    return unreadable(f"{path}: the rest", path, 0, str(error), "look at the source, or name its format with --format")


def items_of(common: Common, paths: Sequence[str], bar: Bar, is_first: bool = False) -> Iterator[Item]:
    """The objects of all sources, one after the other."""
    for path in paths:
        yield from _units(common, path, bar, False, is_first)


def _make_output(context: Context, form: outputs.Form, rules: Sequence[Rule], title: str,
                 file: TextIO) -> outputs.Output:
    # What the page needs to show a descriptor as the answers do.
    about = {"domain": context.domain, "names": list(context.names.all.items())}
    return outputs.output_of(form, file, rules, title, about)


def _report_of_block(context: Context, form: outputs.Form, rules: Sequence[Rule], title: str,
                     accepted: Optional[Accepted]) -> Report:
    return Report(_make_output(context, form, rules, title, io.StringIO()), accepted, form.is_each)


@contextlib.contextmanager
def _reported(common: Common, inquiry: Inquiry) -> Iterator[Report]:
    """A report that is written and ended."""
    with opened(common.out) as file:
        output = _make_output(common.context, common.report, inquiry.question.rules, inquiry.title, file)
        output.begin()
        report = Report(output, inquiry.accepted, common.report.is_each, common.said)
        yield report
        ended = report.end()
    if common.report.to != "table" or common.out is not None:
        told = report.summary.severity_text(ended.places)
        for line in filter(None, (told, report.summary.text())):
            say(line)
    for entry in inquiry.accepted.expired if inquiry.accepted else ():
        say(f"accepted until {entry.until}, which is over: {entry.rule}, {entry.name}")
    for entry in inquiry.accepted.unused() if inquiry.accepted else ():
        say(f"accepted and not found: {entry.rule}, {entry.name}")


def _status(report: Report, inquiry: Inquiry) -> int:
    """The exit status, once what was read and what was answered are compared."""
    if report.seen != report.summary.total:
        say(f"sdtool-audit: the report isn't whole: {report.seen:,} objects were read, and {report.summary.total:,} "
            "are in it")
        return SOME_UNKNOWN
    return report.summary.status(inquiry.fail_on)


def report_of(common: Common, inquiry: Inquiry, question: ListQuestion, bar: Bar,
              answered: Callable[[], Iterable[Answered]]) -> int:
    """Writes a report of answers that a question gives by itself, and gives the exit status."""
    with _reported(common, inquiry) as report:
        report.add(answered())
        report.seen = question.seen
        bar.stop()
    return _status(report, inquiry)


def ask(common: Common, inquiry: Inquiry) -> int:
    """Asks a question of every object of the sources, and gives the exit status."""
    begin_all(common, inquiry.paths)
    bar = Bar(inquiry.paths, common.bar)
    # Processes get no more of the words: these have databases and passwords, which stay here.
    report_of_block = functools.partial(_report_of_block, common.context, common.report, inquiry.question.rules,
                                        inquiry.title, inquiry.accepted)
    workers = workers_of(common.jobs, common.scheduler, Held(inquiry.question, report_of_block))
    try:
        with _reported(common, inquiry) as report:
            _fill(common, inquiry, report, Engine(inquiry.question, workers), workers, bar)
            bar.stop()
        return _status(report, inquiry)
    finally:
        bar.stop()
        workers.close()


def _fill(common: Common, inquiry: Inquiry, report: Report, engine: Engine, workers: pool.Pool, bar: Bar) -> None:
    """Reports every object, in the way that is the fastest for the sources."""
    paths = inquiry.paths
    if inquiry.baseline is not None or common.into or workers.jobs < 2 or inquiry.places:
        with cache.kept(common.into) as keep:
            items: Iterable[Item] = keep(bar.count(items_of(common, paths, bar)))
            items = inquiry.places.placed(items) if inquiry.places else items
            if inquiry.baseline is None:
                report.answer(engine, items)
            else:
                report.add(inquiry.baseline.compared(engine.answer(items)))
                report.seen = engine.seen + inquiry.baseline.gone
        return
    if len(paths) == 1 and is_database(paths[0]) and not report.output.lists_all:
        of_database = cache.AnsweredDatabase(paths[0], engine)
        if of_database.is_fit():
            report.add(of_database.answered(is_listed, report.count))
            report.summary.note_all(of_database.notes())
            report.seen = of_database.objects
            return
    tables = Tables(report, engine, workers, bar.advance)
    for path in paths:
        _fill_from(path, common, report, engine, tables, bar)


def _fill_from(path: str, common: Common, report: Report, engine: Engine, tables: Tables, bar: Bar) -> None:
    """Reports the objects of a source. A fault of a table ends it alone."""
    for unit in split(_units(common, path, bar, True)):
        if not isinstance(unit, Table):
            report.answer(engine, bar.count(unit))
            continue
        try:
            tables.add(unit)
        except OpeningFault as error:
            report.answer(engine, [unread(unit.label, error)])
