"""Bytes spelled as text."""
import base64
import binascii

from .parts import Fault

HEX_DIGITS = b"0123456789abcdefABCDEF"


def from_hex(line):
    if len(line) % 2:
        raise Fault(3, "hex-odd")
    if line.strip(HEX_DIGITS):
        raise Fault(2, "hex-digit")
    return bytes.fromhex(line.decode("ascii"))


def from_base64(line):
    """The bytes whose base64 (RFC 4648, section 4) the line is."""
    try:
        data = base64.b64decode(line, validate=True)
    except binascii.Error:
        raise Fault(4, "base64") from None
    if base64.b64encode(data) != line:  # (Python's decoder takes other lines as well)
        raise Fault(4, "base64")
    return data


def to_base64(data):
    return base64.b64encode(data).decode("ascii")
