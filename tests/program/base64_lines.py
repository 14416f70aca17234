"""Base64 lines for compare.py, of which the most are nearly right."""
import itertools
import string

import reference

SYMBOLS = (string.ascii_letters + string.digits + "+/").encode()
# Bytes that stand in base64 or in another alphabet of it, their neighbours, and bytes that stand nowhere in it.
TELLING_BYTES = b"AQgw9+/=-_.,@[`{:~ \t\r\0\x0b\x80\xa0\xff"


def line_of(data):
    return reference.to_base64(data).encode()


def last_groups():
    """Every last symbol before one `=`, before two and before none, and short texts of telling bytes."""
    for pair in itertools.product(SYMBOLS, repeat=2):
        yield bytes(pair) + b"=="
        yield b"A" + bytes(pair) + b"="
        yield b"AQ" + bytes(pair)
    for length in range(6):
        yield from (bytes(text) for text in itertools.product(b"AQg=/- ", repeat=length))


def changed_everywhere(line):
    """Each byte dropped, doubled, and each telling byte in its place and before it; and each front of the line."""
    for at in range(len(line)):
        front, rest = line[:at], line[at + 1:]
        yield front
        yield front + rest
        yield front + line[at:at + 1] * 2 + rest
        for byte in TELLING_BYTES:
            yield front + bytes([byte]) + rest
            yield front + bytes([byte]) + line[at:]


def fixed_lines(headers, data):
    """Lines that leave no character of a few places to chance: of the headers, and of a descriptor with everything."""
    yield from last_groups()
    for header in headers:
        line = line_of(header)
        yield from changed_everywhere(line)
        for at, byte in itertools.product((0, 1, 2, 3, *range(len(line) - 4, len(line))), range(256)):
            if byte != ord("\n"):
                yield line[:at] + bytes([byte]) + line[at + 1:]
    line = line_of(data)
    yield from (line[:length] for length in range(len(line) + 1))
    yield from (line_of(data[:length]) for length in range(len(data) + 1))


def long_lines(datas):
    """Lines round the limit: what they hold, and how far they go."""
    yield from map(line_of, datas)
    limit = reference.LINE_LIMITS["base64"]
    for byte, more in itertools.product((b"A", b"!", b"="), (-2, -1, 0, 1, 2, 4)):
        yield byte * (limit + more)
    for padding in range(5):
        yield b"A" * (limit - padding) + b"=" * padding
        yield b"A" * (limit - padding) + b"\r" * padding
    yield b"A" * (3 * limit)


def any_line(chance, data):
    """The data as base64, now and then with a change or a few."""
    text = bytearray(line_of(data))
    for _ in range(chance.choice([0, 0, 0, 0, 1, 1, 2, 4])):
        at = chance.randrange(len(text) + 1)
        if chance.random() < 0.5:  # (most faults of the padding are at the end)
            at = max(0, len(text) - chance.randrange(5))
        end = at + chance.choice([0, 1, 1, chance.randrange(5)])
        others = [b"", b"=", text[at:end] * 2, chance.choices(TELLING_BYTES), chance.choices(SYMBOLS)]
        text[at:end] = chance.choice(others)
    return bytes(text)
