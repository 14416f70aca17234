"""The command line: sdtool-audit."""
import functools
import gc
import os
import sys
from typing import Any, List, Optional, Sequence, Tuple

import click

import sdtool
from sdtool.audit import files, inquiry, library, stopping
from sdtool.audit.directory import asking, forest
from sdtool.audit.directory.folders import Folders
from sdtool.audit.directory.groups import read_groups
from sdtool.audit.directory.machines import Machines
from sdtool.audit.directory.tokens import in_words, is_spelled, read_token
from sdtool.audit.engine import engine_of
from sdtool.audit.findings import SEVERITIES
from sdtool.audit.inquiry import Inquiry
from sdtool.audit.library import WordsFault
from sdtool.audit.live.address import address_of, is_address, refuse_secret
from sdtool.audit.live.talking import known
from sdtool.audit.progress import Bar
from sdtool.audit.questions import risks
from sdtool.audit.questions.can import Can
from sdtool.audit.questions.differences import Differences
from sdtool.audit.questions.having import Having
from sdtool.audit.questions.inheritance import Inheritance
from sdtool.audit.questions.who import Listing, Who
from sdtool.audit.reports import describing
from sdtool.audit.reports.accepting import read_accepted
from sdtool.audit.reports.baseline import Baseline, read_report
from sdtool.audit.reports.shown import say
from sdtool.audit.sources.items import WITHOUT_OWNER
from sdtool.audit.sources.opening import STANDARD_INPUT, OpeningFault
from sdtool.audit.sources.places import through_of
from sdtool.audit.store import cache
from sdtool.audit.windows import names, rights
from sdtool.audit.windows.names import Names
from sdtool.audit.words import OF_REPORTS, Common, check_files, is_database, paths_of, with_common

FOUND_NOTHING, WRONG_WORDS = 0, 2
_FAULTS = (OpeningFault, WordsFault, rights.RightsFault)


class _Group(click.Group):
    """The commands. Click would end with Python's own status, 1, where a pipe is closed."""

    def main(self, *given: Any, **more: Any) -> Any:
        try:
            return super().main(*given, **more)
        except SystemExit as error:
            raise BrokenPipeError(0, "whoever reads the report has closed it") from error


@click.group(cls=_Group, context_settings={"help_option_names": ["-h", "--help"], "max_content_width": 120})
@click.version_option(sdtool.version(), prog_name="sdtool-audit")
def cli() -> None:
    """Asks questions about the permissions of named objects.

    \b
    who RIGHT.. SOURCE..         who gets a right
    can TOKEN RIGHT.. SOURCE..   what a user gets
    risks SOURCE..               what is risky
    diff OLD NEW                 what changed
    inherit SOURCE..             what isn't as its folder hands it on
    show SOURCE.. [--name NAME]  objects in words

    RIGHT is change, write, delete, permissions, owner, read, another word of 'sdtool-audit rights', a name of SDDL or a
    mask. SOURCE is a file, a folder, a file that --into made, or '-': CSV, JSON, XML, YAML, what Get-Acl, icacls,
    secedit, reg, sc, wevtutil, ldapsearch, smbcacls, samba-tool or getfattr wrote, or lines of SDDL, hex or base64, in
    any encoding, compressed or not; or the address of a server: smb://SERVER/SHARE, ldap://SERVER, reg://SERVER/HKLM,
    svc://SERVER.

    An object that can't be read is in every report as unknown, with the reason.

    For example, in PowerShell and then here:

    \b
    Get-ChildItem D:\\Data -Recurse | Get-Acl | Select-Object Path,Sddl | Export-Csv -Encoding UTF8 acls.csv
    sdtool-audit who change acls.csv

    Exit status: 0 nothing found, 1 something found, 2 wrong words, 3 some are unknown.
    """


def _rights_first(given: Sequence[str], common: Common) -> Tuple[rights.Wanted, List[str]]:
    """Words for rights, up to the first that is none; the rest are sources."""
    taken: List[str] = []
    for word in given:
        try:
            rights.wanted([word])
        except rights.RightsFault:
            break
        taken.append(word)
    if not taken:
        first = f"{given[0]!r} is no right" if given else "no right is named"
        raise OpeningFault(f"{first}: name at least one, such as change, before the sources; "
                           f"the words are {', '.join((*rights.WORDS, rights.FULL_WORD))}")
    return rights.wanted(taken), paths_of(given[len(taken):], common)


def _abilities_first(given: Sequence[str], common: Common) -> Tuple[Tuple[str, ...], List[str]]:
    """Words for what somebody can do with a directory object, up to the first that is none; the rest are sources."""
    known = Having.names()
    count = next((at for at, word in enumerate(given) if word.lower() not in known), len(given))
    return tuple(word.lower() for word in given[:count]), paths_of(given[count:], common) if count else []


@cli.command(short_help="Who gets any of the rights: RIGHT.. SOURCE..")
@click.argument("words", nargs=-1, metavar="RIGHT.. SOURCE..")
@click.option("--groups", metavar="FILE",
              help="Who is in which group: an LDIF, lines of GROUP,MEMBER,.., a directory that is a source too, or a "
              "database with one; groups are then expanded.")
@click.option("--most-members", default=1000, type=click.IntRange(0), show_default=True, metavar="N",
              help="A group with more "
              "members isn't expanded.")
@click.option("--trusted", metavar="SID", multiple=True,
              help="SIDs that are left to a count, beside System, Administrators, "
              "TrustedInstaller and the administrators of a domain.")
@click.option("--all-trustees", is_flag=True, help="Trusted trustees are listed too.")
@with_common()
def who(common: Common, words: Sequence[str], groups: Optional[str], most_members: int, trusted: Sequence[str],
        all_trustees: bool) -> int:
    """Who gets any of the rights: RIGHT.. SOURCE..

    Each trustee that an ACE names, and the owner, is checked with its own SID, Everyone and Authenticated Users.
    Trustees that an ACE names and a deny stops are listed too. Of a directory, RIGHT can be what somebody can do, such
    as dcsync.
    """
    abilities, paths = _abilities_first(words, common)
    wanted, paths = (None, paths) if abilities else _rights_first(words, common)
    asks_groups = groups is not None and is_address(groups)
    if asks_groups and groups not in paths:
        raise OpeningFault(f"--groups {groups}: name the directory as a source too")
    check_files(common, paths, () if asks_groups else files.named("--groups", groups))
    common, paths = inquiry.informed(common, paths)
    groups = paths[0] if asks_groups else groups
    trust = names.Trust(_sids(trusted, common.context.domain), common.domains)
    known = read_groups(groups, common.context.domain) if groups else None
    common = common.saying(*(f"--groups: {group} is not whole: the file has a range of its members"
                             for group in (known.cut if known else ())))
    if known:
        named = Names(common.context.names.given, {**common.context.names.of_sources, **known.names},
                      common.context.names.types)
        common = common._replace(context=common.context._replace(names=named))
    listed = Listing(known, most_members, trust, all_trustees)
    if wanted is None:
        if known:
            raise OpeningFault("--groups expands who gets rights, and not what somebody can do with a directory object")
        title = f"Who can: {', '.join(abilities)}"
        return inquiry.ask(common, Inquiry(Having(common.context, abilities, listed), title, paths))
    return inquiry.ask(common, Inquiry(Who(common.context, wanted, listed), f"Who gets: {wanted.words}", paths))


@cli.command(short_help="What a user gets of the rights: TOKEN RIGHT.. SOURCE..")
@click.argument("token")
@click.argument("words", nargs=-1, metavar="RIGHT.. SOURCE..")
@click.option("--level", type=click.IntRange(0, 2**32 - 1), help="The integrity level of the token, such as 8192.")
@click.option("--self", "principal_self", metavar="SID", default="", help="The SID that Principal Self stands for.")
@click.option("--exact", is_flag=True, help="The token has the SIDs that are listed and no others.")
@with_common()
def can(common: Common, token: str, words: Sequence[str], level: Optional[int], principal_self: str,
        exact: bool) -> int:
    """What a user gets of the rights: TOKEN RIGHT.. SOURCE..

    TOKEN is a file that 'whoami /all', 'id' or a directory's tokenGroups made, a file with a SID in each line, or SIDs
    with commas between them; '!' before one makes it deny-only. A user's SID brings Everyone and Authenticated Users.
    Where a source is the address of a server, TOKEN can be an account: NAME@DOMAIN or DOMAIN\\NAME.
    'delete' asks the folder of a file too, whose right to delete what is in it is enough.
    """
    wanted, paths = _rights_first(words, common)
    check_files(common, paths, [files.Named("the token", token)])
    account = None
    if asking.is_account(token) and not os.path.isfile(token):
        common, account = _account_of(common, token, paths)
    is_asked = any(map(is_address, paths))
    common, paths = inquiry.informed(common, paths, account.sids if account else ())
    holder = account or read_token(token, common.context.domain, exact)
    if account:
        asking.keep(paths if is_asked else (), token, account)
        holder = account._replace(missing="") if exact else account
    if level is not None:
        holder = holder._replace(level=level)
    if principal_self:
        holder = holder._replace(principal_self=library.sid_of_text(principal_self, common.context.domain))
    library.granted("sddl", ["D:"], holder, "file", 1)  # wrong words are told before the first object
    in_full = in_words(holder, common.context.names)
    say(f"the token: {in_full}")
    common = common.saying(*holder.notes)
    named = token if not account and is_spelled(token, holder, common.context.domain) else f"{token} ({in_full})"
    title = f"What {named} gets of: {wanted.words}"
    found = _folders(common, paths) if wanted.deletes else None
    return inquiry.ask(common, Inquiry(Can(common.context, holder, wanted), title, paths, places=found))


def _account_of(common: Common, name: str, paths: Sequence[str]) -> Tuple[Common, library.Token]:
    """The token of an account: of the server that the sources are of, or as a database keeps it."""
    asked = list(filter(is_address, paths))
    known_of = [source for path in filter(is_database, paths) for source in cache.sources_of(path)]
    addresses = list(map(address_of, (*asked, *filter(is_address, known_of))))
    if len({address.server.casefold() for address in addresses}) > 1:
        raise OpeningFault(f"{name} may have other groups on each server: name sources of one server")
    for address in addresses[:1] if asked else ():
        common = common._replace(access=known(common.access, address.text))
        return common, asking.token_of(name, address, common.access)
    kept = asking.kept(paths, name)
    if kept is None:
        raise OpeningFault(f"{name} is an account, whose server has to be asked: name a source such as ldap://SERVER, "
                           "or the SIDs of its token")
    return common, kept


def _folders(common: Common, paths: Sequence[str]) -> Optional[Folders]:
    """The objects of file systems among the sources, read a first time, if all can be read again."""
    if not all(path != STANDARD_INPUT and (files.can_be_read_again(path) or os.path.isdir(path)) for path in paths):
        return None
    found = Folders()
    found.read(inquiry.items_of(common, paths, Bar(paths, False), True))
    return found


def _sids(given: Sequence[str], domain: str) -> Tuple[str, ...]:
    """SIDs that were listed, each by itself or with commas."""
    return tuple(library.sid_of_text(one, domain) for word in given for one in word.split(","))


def _rule_names(given: str) -> Tuple[str, ...]:
    """The rules of a list, or all that are on but those of a list that begins with '-'."""
    named = [name.strip() for name in given.lstrip("-").split(",")]
    for name in named:
        if name not in risks.RULE_NAMES:
            raise OpeningFault(f"{name!r} is no rule: the rules are {', '.join(risks.RULE_NAMES)}")
    if given.startswith("-"):
        return tuple(name for name in risks.DEFAULT_RULES if name not in named)
    return tuple(name for name in risks.RULE_NAMES if name in named)


@cli.command("risks", short_help="What is risky: SOURCE..")
@click.argument("given", nargs=-1, metavar="SOURCE..")
@click.option("--trusted", metavar="SID", multiple=True,
              help="SIDs that may have any right, beside System, Administrators, "
              "TrustedInstaller and the administrators of a domain.")
@click.option("--owner", "owners", metavar="SID", multiple=True, help="SIDs that may own an object, beside the same.")
@click.option("--forest-root", metavar="SID",
              help="The domain of the forest's own groups, such as Enterprise Admins, if it isn't "
              "one of --domain.")
@click.option("--schema", metavar="FILE",
              help="An LDIF of the directory's schema: its classes then say which ACEs are Windows' own. A directory "
              "that is asked itself tells its schema.")
@click.option("--rules", metavar="NAME,..",
              help="The rules to use, with commas; with '-' before the first, all but these.")
@click.option("--accept", metavar="FILE", help="A TOML file with findings that are accepted.")
@click.option("--min-severity", type=click.Choice(SEVERITIES), default=SEVERITIES[-1],
              help="The slightest findings that are "
              "reported. Default: all.")
@click.option("--fail-on", type=click.Choice(SEVERITIES[:-1]),
              help="The slightest findings that make the exit status 1. "
              "Default: all that are reported, but notes.")
@click.option("--baseline", metavar="FILE",
              help="A database of --into, or a report in JSON lines: only what is new, changed or "
              "mended since then is reported.")
@with_common()
def ask_risks(common: Common, given: Sequence[str], trusted: Sequence[str], owners: Sequence[str],
              forest_root: Optional[str], schema: Optional[str], rules: Optional[str], accept: Optional[str],
              min_severity: str, fail_on: Optional[str], baseline: Optional[str]) -> int:
    """What is risky about objects.

    'sdtool-audit rules' lists the rules. unknown-sid needs --sid-names. readable is used if --rules names it.
    """
    root = library.sid_of_text(forest_root) if forest_root else ""
    named = _rule_names(rules) if rules else risks.DEFAULT_RULES
    paths = paths_of(given, common)
    read = [one for option, path in (("--accept", accept), ("--schema", schema), ("--baseline", baseline))
            for one in files.named(option, path)]
    check_files(common, paths, read)
    for one in read:
        files.require(one)
    common, paths = inquiry.informed(common, paths)
    domain = common.context.domain
    trust = names.Trust(_sids(trusted, domain), common.domains, root)
    options = risks.RiskOptions(trust, _sids(owners, domain), named, severity=min_severity)
    accepted = read_accepted(accept, risks.RULE_NAMES) if accept else None
    known = forest.read_schema(schema, domain) if schema else forest.told_schema(paths, domain)
    common = common.saying(*(known.faults if known else ()))
    if not common.domains:
        say("the administrators of every domain are trusted: --domain SID trusts those of one domain alone")
    before = _baseline(common, baseline, options, known) if baseline else None
    question, found = _risks(common, paths, options, known)
    return inquiry.ask(common, Inquiry(question, "Risks", paths, accepted, found, before, fail_on))


def _risks(common: Common, paths: Sequence[str], options: risks.RiskOptions,
           schema: Optional[forest.Schema]) -> Tuple[risks.Risks, Optional[forest.Forest]]:
    """The question what is risky about sources. The objects of directories among them are read a first time."""
    found = _forest(common, paths, options.trust)
    if schema:
        options = options._replace(of_classes=tuple(schema.of_classes), named_types=schema.named_types)
    options = options._replace(accounts={**forest.accounts_of(common.context.names.given), **common.accounts},
                               heirs=found.heirs if found else {})
    return risks.Risks(common.context, options), found


def _baseline(common: Common, path: str, options: risks.RiskOptions, schema: Optional[forest.Schema]) -> Baseline:
    """What a kept report or database has found."""
    asked = SEVERITIES[:SEVERITIES.index(options.severity) + 1]
    baseline = Baseline(lambda rule, severity: rule in options.rules and severity in ("", *asked))
    if not is_database(path):
        baseline.fill(read_report(path))
        return baseline
    cache.require_whole(path)
    question, found = _risks(common, [path], options, schema)
    items = cache.items(path)
    with engine_of(question, common.jobs, common.scheduler) as engine:
        baseline.fill(engine.answer(found.placed(items) if found else items))
    return baseline


def _forest(common: Common, paths: Sequence[str], trust: names.Trust) -> Optional[forest.Forest]:
    """The objects of directories among the sources, read a first time. Standard input and pipes can be read only
    once."""
    found = None
    for path in paths:
        if path == STANDARD_INPUT or not files.can_be_read_again(path):
            continue
        items = inquiry.items_of(common, [path], Bar([path], False), True)
        first = next((item for item in items if item.form and item.kind not in rights.RULE_OF), None)
        if first is not None and through_of(first.place)[0] not in ("", WITHOUT_OWNER):
            found = found or forest.Forest(common.context.domain, trust, common.machines or Machines())
            found.read(inquiry.items_of(common, [path], Bar([path], False), True))
    return found


@cli.command(short_help="What changed between two lists of the same objects: OLD NEW")
@click.argument("old")
@click.argument("new")
@click.option("--old-root", metavar="TEXT",
              help="The beginning of the old names that is left out when names are compared, such "
              "as a snapshot's folder. Of a folder it is the folder.")
@click.option("--new-root", metavar="TEXT", help="The same of the new names.")
@with_common("into")
def diff(common: Common, old: str, new: str, old_root: Optional[str], new_root: Optional[str]) -> int:
    """What changed between two lists of the same objects: OLD NEW."""
    paths = paths_of([old, new], common)
    check_files(common, paths)
    common, paths = inquiry.informed_each(common, paths)
    question = Differences(common.context)
    inquiry.begin_all(common, paths)
    bar = Bar(paths, common.bar)
    with engine_of(question, common.jobs, common.scheduler) as engine:
        for table, path, word, root in zip(("old", "new"), paths, (old, new), (old_root, new_root)):
            question.read(table, inquiry.items_of(common, [path], bar), files.root_of(word) if root is None else root)
        try:
            return inquiry.report_of(common, Inquiry(question, f"Changes from {old} to {new}", paths), question, bar,
                                     functools.partial(question.answered, engine))
        finally:
            bar.stop()


@cli.command(short_help="What isn't as its folder hands it on: SOURCE..")
@click.argument("given", nargs=-1, metavar="SOURCE..")
@click.option("--fix", metavar="FILE",
              help="A file for what would have to be written: CSV with name and SDDL. Nothing else is changed.")
@with_common()
def inherit(common: Common, given: Sequence[str], fix: Optional[str]) -> int:
    """Objects whose inherited ACEs are not those that their folder hands on."""
    paths = paths_of(given, common)
    check_files(common, paths, (), files.named("--fix", fix))
    common, paths = inquiry.informed(common, paths)
    question = Inheritance(common.context)
    inquiry.begin_all(common, paths)
    bar = Bar(paths, common.bar)
    with cache.kept(common.into) as keep, question.fixing(fix), engine_of(
            question, common.jobs, common.scheduler) as engine:
        items = keep(bar.count(inquiry.items_of(common, paths, bar)))
        try:
            return inquiry.report_of(common, Inquiry(question, "Inheritance", paths), question, bar,
                                     functools.partial(question.answered, items, engine))
        finally:
            bar.stop()


@cli.command(short_help="Objects in words: SOURCE..")
@click.argument("given", nargs=-1, metavar="SOURCE..")
@click.option("--name", help="The name of the object; * stands for any text. Default: all objects.")
@with_common(*(option for option in OF_REPORTS if option != "out"))
def show(common: Common, given: Sequence[str], name: Optional[str]) -> int:
    """Objects in words."""
    paths = paths_of(given, common)
    check_files(common, paths)
    common, paths = inquiry.informed(common, paths)
    inquiry.begin_all(common, paths)
    with inquiry.opened(common.out) as file:
        return describing.show(inquiry.items_of(common, paths, Bar(paths, False)), name, common.context, file)


@cli.command("rights")
def list_rights() -> int:
    """The words for rights, with their masks."""
    for word, masks in rights.WORDS.items():
        told = ", ".join(f"{kind} {masks[kind]:#x} ({rights.text(masks[kind], kind)})" for kind in rights.KINDS
                         if masks[kind])
        click.echo(f"{word}: {told}")
    return FOUND_NOTHING


@cli.command("rules")
def list_rules() -> int:
    """The rules of risks, with their reasons."""
    for rule in risks.RULES:
        click.echo(f"{rule.name}: {rule.reason}")
    return FOUND_NOTHING


def status() -> int:
    """Does what the words say, and gives the exit status."""
    # Objects and answers have no cycles, and looking for some takes a fifth of the time.
    gc.set_threshold(200_000)
    try:
        for word in sys.argv[1:]:
            refuse_secret(word)  # wherever it stands, before anything repeats it
        # Windows would take the names of other files for those with [1] or %X%. Without a status of its own a command
        # has shown help or a version.
        return cli.main(prog_name="sdtool-audit", standalone_mode=False, windows_expand_args=False) or FOUND_NOTHING
    except click.ClickException as error:
        say(*_usage(error))
        return WRONG_WORDS
    except _FAULTS as error:
        say(f"sdtool-audit: {error}")
        return WRONG_WORDS
    except click.Abort as error:
        raise stopping.Stopped from error
    except MemoryError:
        say("sdtool-audit: out of memory, so the report isn't whole")
    except Exception as error:  # whatever it is, the status must not be the one for something found
        say(f"sdtool-audit: the report isn't whole: {_reason(error)}")
    return stopping.NOT_WHOLE


def _usage(error: click.ClickException) -> List[str]:
    """What click says about wrong words, in lines."""
    context = error.ctx if isinstance(error, click.UsageError) else None
    hint = ([*context.get_usage().split("\n"), f"Try '{context.command_path} --help' for help.", ""]
            if context is not None else [])
    return [*hint, f"Error: {error.format_message()}"]


def _reason(error: Exception) -> str:
    if isinstance(error, OSError):
        return error.strerror if error.strerror and error.filename is None else str(error)
    if type(error).__name__ == "BrokenProcessPool":
        return "a process that answers was ended from outside"
    return f"{type(error).__name__}: {error}"
