"""Tries out/sdtool.html in real browsers, as a person would: it types, pastes, chooses and presses keys, and reads what
is shown. Answers have to be those of the program: every worked row through the page, the cells of the grid for random
descriptors, the reasons, a file of 100 MB. No request may leave the page, and no text may become markup. No text round
a descriptor is dropped without a word, and no answer is seen beside a newer text. A line of a megabyte takes at most a
second, and a hostile text or field at most the page's limit of two. A worker that is silent or breaks is replaced. A
link sets only what the view shows, a table of many lines does not stop the page, and a report of sdtool-audit keeps
each object. Each control has a name, is in reach of keys and is not faint. With `--descriptors 10000` the grid takes
ten minutes. It needs chromium, chromium-driver and python3-selenium for Chromium, and firefox-esr for Firefox; a
browser that is not there is skipped in a line.
"""
import concurrent.futures
import pathlib
import sys
import time
import traceback

import browsers
import page_answers
import page_edits
import page_limits
import page_people
import page_report
import page_safety
import page_size
import page_texts
import page_verdicts
import preload
from page_driver import TOP, Page, Site, each_view


def test_file(count, page, given):
    """The page from a disk, as most will open it."""
    local = Page(page.browser, page.site, given.page.as_uri())
    local.open()
    shown = local.see("O:BAD:(A;;FA;;;WD)")
    count.add("Everyone" in shown and "full control" in shown, f"from a disk: {shown[:200]}")
    ready = local.do("return document.body.dataset.ready;")
    count.add(ready == "worker", f"from a disk the answers come from the {ready}")


def test_without_vectors(count, page, given):
    """A browser without WebAssembly's vectors says what it lacks, and waits for no worker before."""
    word = page.browser.WITHOUT_VECTORS
    if word is None:
        return
    old, said = browsers.started(type(page.browser), word), None
    try:
        old.run_before("window.workers = 0; "
                       "window.Worker = class extends Worker { constructor(...given) { super(...given); window.workers "
                       "+= 1; } };")
        one = Page(old, page.site)
        try:
            one.open()
        except RuntimeError as error:
            said = str(error)
        count.add(said and "WebAssembly with vectors" in said, f"a browser without vectors says {said}")
        workers = one.do("return window.workers;")
        count.add(workers == 0, f"a browser without vectors starts {workers} workers")
    finally:
        old.end()


def make_pictures(page, given):
    folder = given.pictures
    folder.mkdir(parents=True, exist_ok=True)
    for width, theme, name in ((1280, "light", ""), (1280, "dark", "-dark"), (390, "light", "-phone")):
        page.browser.size(width, 900)
        for view in each_view(page):
            if view == "edit":
                page.do("byId('edit-take').click(); await until(isIdle); await pause(500);")
            page.do(
                "byId('more-options').open = false; document.documentElement.dataset.theme = given[0]; "
                "scrollTo(0, 0); await pause(100);",
                theme,
            )
            page.browser.picture(folder / f"{view}{name}.png")
        if page_report.missing() is None:
            page_report.picture(page, given, theme, folder / f"report{name}.png")
    page.browser.size(1280, 900)


TESTS = [
    test_file,
    test_without_vectors,
    page_answers.test_rows,
    page_answers.test_grid,
    page_answers.test_reasons,
    page_answers.test_ask,
    page_answers.test_token,
    page_answers.test_inherit,
    page_answers.test_long_inherit,
    page_answers.test_compare,
    page_verdicts.test_verdicts,
    page_edits.test_edit_by_keys,
    page_edits.test_take,
    page_edits.test_edit_quick,
    page_edits.test_edit_states,
    page_edits.test_edit_fields,
    page_edits.test_edit_faults,
    page_edits.test_edit_shown,
    page_edits.test_random_edits,
    page_texts.test_language,
    page_texts.test_forms,
    page_texts.test_several,
    page_texts.test_faults,
    page_texts.test_warnings,
    page_texts.test_kinds,
    page_texts.test_open_kinds,
    page_texts.test_unknown_commands,
    page_texts.test_kind_of_text,
    page_texts.test_guids,
    page_texts.test_wrong_texts,
    page_texts.test_hostile_texts,
    page_texts.test_selected,
    page_texts.test_wrong_bytes,
    page_safety.test_network,
    page_safety.test_markup,
    page_safety.test_addresses,
    page_limits.test_hostile_texts,
    page_limits.test_hostile_fields,
    page_limits.test_large_comparison,
    page_limits.test_stopped,
    page_limits.test_several_stopped,
    page_limits.test_copies_without_answer,
    page_limits.test_broken,
    page_limits.test_working,
    page_limits.test_many_rows,
    page_limits.test_links,
    page_limits.test_long_links,
    page_limits.test_long_fields_are_told,
    page_limits.test_long_copies,
    page_limits.test_long_names,
    page_limits.test_command_characters,
    page_limits.test_going,
    page_size.test_long_line,
    page_size.test_long_fields,
    page_size.test_tangles,
    page_size.test_big_file,
    page_size.test_many_pastes,
    page_size.test_many_lines,
    page_size.test_late_lines,
    page_size.test_filter_of_type,
    page_size.test_stop,
    page_people.test_keyboard,
    page_people.test_buttons,
    page_people.test_names,
    page_people.test_as_markdown,
    page_people.test_first_line,
    page_people.test_several_verdicts,
    page_people.test_many_trustees,
    page_people.test_alike,
    page_people.test_more,
    page_people.test_find,
    page_people.test_print,
    page_people.test_share,
    page_people.test_address,
    page_people.test_accessible,
    page_people.test_screen_reader,
    page_people.test_order_of_keys,
    page_people.test_narrow,
    page_report.test_report,
]


def judge(kind, given):
    """The counts of all tests in a browser, which has a server of its own."""
    count, site, browser = preload.Count(), Site(given.page), browsers.started(kind)
    try:
        browser.size(1280, 900)
        page = Page(browser, site)
        for test in filter(preload.is_chosen, TESTS):
            began = time.monotonic()
            try:
                test(count, page, given)
            except Exception as error:  # one test that ends early must not hide the others
                count.add(False, f"{browser.name}: {test.__name__}: {error!r} {traceback.format_exc(limit=-3)}")
            print(f"{browser.name}: {test.__name__}: {time.monotonic() - began:.1f} s", flush=True)
        if given.pictures:
            make_pictures(page, given)
    finally:
        browser.end()
        site.end()
    return count


def chosen_browsers(name):
    """The browsers that are here, of all or of one name; a line for each that is not."""
    for kind in browsers.BROWSERS:
        if name in (None, kind.name):
            missing = kind.missing()
            if missing:
                print(f"skipped: {kind.name} (Debian: {missing})")
            else:
                yield kind


def start_again():
    """Debian's Python sees Debian's selenium; another one may not."""
    preload.go_on_in(preload.python_with("selenium") or sys.executable)


def add_options(parser):
    parser.add_argument("--page", type=pathlib.Path, default=TOP / "out/sdtool.html")
    parser.add_argument(
        "--descriptors", type=int, default=1000, help="random descriptors for the grid, in each browser"
    )
    parser.add_argument("--edits", type=int, default=500, help="random steps of edits, in each browser")
    parser.add_argument("--megabytes", type=int, default=100)
    parser.add_argument("--lines", type=int, default=100_000, help="of the table")
    parser.add_argument(
        "--idle", action="store_true", help="hold the page to its times; else to ten times as long, for a busy machine"
    )
    parser.add_argument("--seed", type=int, default=1)
    parser.add_argument("--browser", choices=[kind.name for kind in browsers.BROWSERS])
    parser.add_argument("--pictures", type=pathlib.Path, help="a folder for pictures of the views")


def main(count: preload.Count, given: preload.Given) -> None:
    given.page = given.page.resolve()
    start_again()
    if not given.page.exists():
        print(f"skipped: {given.page} is not built (make page)")
        return
    kinds = list(chosen_browsers(given.browser))
    with concurrent.futures.ThreadPoolExecutor(max(1, len(kinds))) as threads:
        for kind, judged in [(kind, threads.submit(judge, kind, given)) for kind in kinds]:
            if judged.exception():  # the browser did not start, or was lost
                count.add(False, f"{kind.name}: {judged.exception()!r}")
            else:
                count.passed += judged.result().passed
                count.failed += judged.result().failed
