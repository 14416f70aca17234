#!/usr/bin/env python3
"""usual_texts.py [--check | --find]

Writes the tables of whole texts of flags and masks: crates/sd_kinds/src/flag_texts.rt and
crates/sd_rights/src/mask_texts.rt. For reading, the constant SPREAD of crates/sd_text/src/usual.rt gives each text its
row. For printing, MASK_SPREAD of crates/sd_rights/src/rights.rt gives each mask its row, and flags below 0x20 are their
own row. A row without a text of its own repeats the first text. With --check it writes nothing, and fails if one of the
files is stale; the last line is then 'N passed, M failed'. With --find it prints both constants, so that no two texts
of a table, and no two masks, have one row. A text that is added may need others. The check of a crate refuses a row
whose value is not that of its text. A text in a wrong row is only never found.
"""
import argparse
import functools
import pathlib
import random
import re
import sys
import textwrap
from typing import NamedTuple

sys.dont_write_bytecode = True
sys.path.append(str(pathlib.Path(__file__).resolve().parent.parent / "tests/shared"))
import preload  # noqa: E402
import name_cells  # noqa: E402

USUAL = name_cells.CRATES / "sd_text" / "src" / "usual.rt"
# Where each constant is.
CONSTANTS = {"SPREAD": USUAL, "MASK_SPREAD": name_cells.CRATES / "sd_rights" / "src" / "rights.rt"}
ROWS = 64
WORD = 1 << 64
LONG = 11  # of a cell with its comma
# At most eight bytes each: which children inherit, with inherit-only, inherited or no-propagate, and what is audited.
FLAGS = ["", "ID",
         *(onward + rest for onward in ("OI", "CI", "OICI") for rest in ("", "IO", "ID", "IOID", "NP")),
         *(onward + audited for onward in ("", "CI", "OICI") for audited in ("SA", "FA", "SAFA"))]
# At most eight bytes each, as Windows prints them for files, keys, services and objects of a directory.
MASKS = ["FA", "FR", "FW", "FX", "GA", "GR", "GW", "GX", "GXGR", "GRGX", "KA", "KR", "RP", "WP", "RPWP",
         "CR", "SW", "CC", "DC", "CCDC", "LC", "RC", "SD", "WD", "LCRPLORC", "RPLCLORC", "NW",
         "0x1f01ff", "0x1301bf", "0x1200a9", "0x1200a0", "0x100116", "0x120116"]
TEXT = """\
//! The {what} that most ACEs have. `make figures` writes this file by `tools/usual_texts.py`.

use sd_sink::FRONT;
use sd_text::USUAL_ROWS;
{more}
/// The key of each text.
pub static {name}_KEYS: [u64; USUAL_ROWS] = [
{keys}
];

/// The size of each text in bytes.
pub static {name}_SIZES: [u8; USUAL_ROWS] = [
{sizes}
];

/// What each text means.
pub static {name}_VALUES: [{type}; USUAL_ROWS] = [
{values}
];
"""
PRINTED_FLAGS = """
/// The text of the flags of each number below 0x20, in cells that have blanks behind it.
pub static PRINTED_FLAG_TEXTS: [[u8; FRONT]; FLAG_ROWS] = [
{texts}
];

/// The size of each of these texts in bytes.
pub static PRINTED_FLAG_SIZES: [u8; FLAG_ROWS] = [
{sizes}
];
"""
PRINTED_MASKS = """
/// The mask of each row when it is printed.
pub static PRINTED_MASKS: [u32; USUAL_ROWS] = [
{numbers}
];

/// The text of each of these masks, in cells that have blanks behind it.
pub static PRINTED_MASK_TEXTS: [[u8; FRONT]; USUAL_ROWS] = [
{texts}
];

/// The size of each of these texts in bytes.
pub static PRINTED_MASK_SIZES: [u8; USUAL_ROWS] = [
{sizes}
];
"""
FRONT = 16  # of sd_sink
FLAG_ROWS = 32
FLAGS_HEAD = """
/// The rows of the texts that are printed: flags below 0x20 are their own row.
pub const FLAG_ROWS: usize = 32;
"""
# Texts that are read but not printed: another text of the same number is.
NOT_PRINTED = {"GRGX", "RPLCLORC", "NW", "0x1f01ff", "0x1200a0", "0x120116"}


class Table(NamedTuple):
    crate: str
    names: str
    file: str
    name: str
    what: str
    type: str
    texts: list


ALL = [Table("sd_kinds", "flags.rt", "flag_texts.rt", "USUAL_FLAG", "flags", "u8", FLAGS),
       Table("sd_rights", "rights_table.rt", "mask_texts.rt", "USUAL_MASK", "access masks", "u32", MASKS)]


def path_of(table):
    return name_cells.CRATES / table.crate / "src" / table.file


def spread(constant):
    pattern = rf"^const {constant}: u64 = (0x[0-9a-f_]+);$"
    return int(re.search(pattern, CONSTANTS[constant].read_text(encoding="utf-8"), re.M)[1], 16)


def key_of(text):
    """The bytes as a word, the first one lowest, and the last one at the high end."""
    return int.from_bytes(text.encode().rjust(8, b"\0"), "little")


def row_of(key, by):
    return key * by % WORD * ROWS // WORD


@functools.cache
def bits_of_names(table):
    source = (name_cells.CRATES / table.crate / "src" / table.names).read_text(encoding="utf-8")
    constants = dict(name_cells.CONSTANT.findall(source))
    return {first + second: int(constants.get(mask, mask), 16)
            for first, second, mask in name_cells.NAMED.findall(source)}


def value_of(text, table):
    if text.startswith("0x"):
        return int(text, 16)
    names = bits_of_names(table._replace(texts=()))
    return functools.reduce(lambda bits, name: bits | names[name], textwrap.wrap(text, 2), 0)


def rows_of(texts, key, by, what):
    """The text of each row."""
    rows = [None] * ROWS
    for text in texts:
        row = row_of(key(text), by)
        if rows[row] is not None:
            sys.exit(f"{what}: {text or 'no text'} and {rows[row]} have one row: --find finds other constants")
        rows[row] = text
    return [texts[0] if text is None else text for text in rows]


def cells(texts):
    """As `rt fmt` lays them out: it gives each of some long ones a line, and the last one may be a byte further out."""
    texts = [text + "," for text in texts]
    if max(map(len, texts)) > LONG:
        return "\n".join("    " + text for text in texts)
    *lines, last = textwrap.wrap(" ".join(texts), 99, initial_indent="    ", subsequent_indent="    ")
    if lines and len(lines[-1]) + len(last) - 3 <= 100:
        last = f"{lines.pop()} {last.strip()}"
    return "\n".join([*lines, last])


def printed_masks(table):
    """The masks that are printed by their rows, each with its text."""
    return [text for text in table.texts if text not in NOT_PRINTED]


def texts_of_flags(table):
    """The text of the flags of each number below 0x20: the names of its bits, in the table's order."""
    names = bits_of_names(table._replace(texts=()))
    return ["".join(name for name, bit in names.items() if flags & bit) for flags in range(FLAG_ROWS)]


def padded(texts):
    return "\n".join(f'    *b"{text:{FRONT}}",' for text in texts)


def sizes_of(texts):
    return cells(str(len(text)) for text in texts)


def written(table):
    """The file as it has to be."""
    value = functools.partial(value_of, table=table)
    rows = rows_of(table.texts, key_of, spread("SPREAD"), table.file)
    is_flags = table.name == "USUAL_FLAG"
    text = TEXT.format(
        what=table.what, name=table.name, type=table.type, keys=cells(f"0x{key_of(text):x}" for text in rows),
        sizes=sizes_of(rows), values=cells(f"0x{value(text):x}" for text in rows), more=FLAGS_HEAD if is_flags else "",
    )
    if is_flags:
        texts = texts_of_flags(table)
        return text + PRINTED_FLAGS.format(texts=padded(texts), sizes=sizes_of(texts))
    told = rows_of(printed_masks(table), value, spread("MASK_SPREAD"), table.file)
    numbers = cells(f"0x{value(text):x}" for text in told)
    return text + PRINTED_MASKS.format(numbers=numbers, texts=padded(told), sizes=sizes_of(told))


def spreads(by, texts, key):
    return len({row_of(key(text), by) for text in texts}) == len(texts)


def find(is_found):
    chance = random.Random(1)
    while True:
        by = chance.getrandbits(64) | 1
        if is_found(by):
            return by


def find_both():
    """Words that spread the texts of each table, and the masks, over the rows."""
    yield find(lambda by: all(spreads(by, table.texts, key_of) for table in ALL))
    masks = ALL[1]
    yield find(lambda by: spreads(by, printed_masks(masks), functools.partial(value_of, table=masks)))


def main():
    parser = argparse.ArgumentParser(description="Writes the tables of usual texts.")
    parser.add_argument("--check", action="store_true", help="writes nothing, and fails if a file is stale")
    parser.add_argument("--find", action="store_true", help="prints constants that give no two texts one row")
    given = parser.parse_args()
    if given.find:
        for constant, by in zip(CONSTANTS, find_both()):
            print(f"const {constant}: u64 = 0x{by:_x};")
        return 0
    if not given.check:
        for table in ALL:
            path_of(table).write_text(written(table), encoding="utf-8")
        return 0
    count = preload.Count(most_shown=10)
    for table in ALL:
        count.add(path_of(table).read_text(encoding="utf-8") == written(table),
                  f"{table.file} is stale: run make figures")
    return count.end()


if __name__ == "__main__":
    sys.exit(main())
