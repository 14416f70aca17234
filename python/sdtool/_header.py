# `make figures` writes this file from include/sdtool.h.
from ctypes import POINTER, Structure, c_bool, c_char_p, c_size_t, c_uint8, c_uint16, c_uint32, c_uint64, c_void_p
from typing import Any, Sequence, Tuple

# Those that are asked for.
OK = 0
ARGUMENT = 70
TOO_SMALL = 71
NO_MEMORY = 72
ARGUMENT_SID = 12
ARGUMENT_OFFSETS = 21
NO_PART = 0
DACL = 4
DENY_ONLY = 1
MOST_BYTES = 131226
MOST_TEXT = 1049872
MOST_SIDS = 1024
MOST_MESSAGE = 64
HAS_LEVEL = 1
SECURITY = 2
TAKE_OWNERSHIP = 4
MAXIMUM = 1
MOST_DERIVED_ACES = 4095
ACL_ABSENT = 0
ACL_NULL = 1
ACL_LIST = 2
CONVERT_TO_SDDL = 0
CONVERT_FROM_SDDL = 1
REASON_NO_DACL = 2
REASON_OWNER = 3
REASON_PRIVILEGE = 4
REASON_GRANTED = 5
RIGHTS = 25
NO_PLACE = 65535
STATUS_STOPPED = 3
STATUS_NO_MEMORY = 4
AT_END = 4294967295
BY_ORDER = 4294967294
NO_ACE = 4294967295
TOKEN_WORDS_FIRST = 2
TOKEN_WORDS_EACH = 20


class Outcome(Structure):
    _fields_ = [("fault", c_uint32), ("part", c_uint32), ("other_part", c_uint32), ("argument", c_uint32),
                ("entry", c_size_t), ("length", c_size_t)]


class Asker(Structure):
    _fields_ = [("mapping", c_uint32), ("level", c_uint32), ("options", c_uint32)]


class Request(Structure):
    _fields_ = [("asker", Asker), ("wanted", c_uint32), ("options", c_uint32)]


class Verdict(Structure):
    _fields_ = [("outcome", Outcome), ("mask", c_uint32), ("granted", c_uint8)]


class Origin(Structure):
    _fields_ = [("place", c_uint16), ("from_creator", c_uint8), ("inherit_only", c_uint8)]


class Origins(Structure):
    _fields_ = [("outcome", Outcome), ("sacl_count", c_size_t), ("dacl_count", c_size_t)]


class Place(Structure):
    _fields_ = [("offset", c_size_t), ("size", c_size_t)]


class AclPlace(Structure):
    _fields_ = [("state", c_uint32), ("ace_count", c_uint32), ("place", Place)]


class Contents(Structure):
    _fields_ = [("outcome", Outcome), ("control", c_uint16), ("resource_manager", c_uint8), ("owner", Place),
                ("group", Place), ("sacl", AclPlace), ("dacl", AclPlace)]


class FaultPlace(Structure):
    _fields_ = [("fault", c_uint32), ("part", c_uint32), ("ace", c_uint32), ("field", c_uint32), ("place", Place)]


class Ace(Structure):
    _fields_ = [("fault", c_uint32), ("mask", c_uint32), ("number", c_uint32), ("kind", c_uint8), ("flags", c_uint8),
                ("place", Place), ("object_type", Place), ("inherited_object_type", Place), ("sid", Place)]


class Number(Structure):
    _fields_ = [("outcome", Outcome), ("number", c_uint32)]


class Bytes(Structure):
    _fields_ = [("bytes", c_char_p), ("size", c_size_t)]


class Column(Structure):
    _fields_ = [("data", Bytes), ("offsets", POINTER(c_uint32)), ("offset_count", c_size_t)]


class LargeColumn(Structure):
    _fields_ = [("data", Bytes), ("offsets", POINTER(c_uint64)), ("offset_count", c_size_t)]


class ColumnCheck(Structure):
    _fields_ = [("descriptors", Column), ("sids", Bytes), ("entries", Bytes), ("object", Bytes),
                ("principal_self", Bytes), ("request", Request)]


class LargeColumnCheck(Structure):
    _fields_ = [("descriptors", LargeColumn), ("sids", Bytes), ("entries", Bytes), ("object", Bytes),
                ("principal_self", Bytes), ("request", Request)]


class Conversion(Structure):
    _fields_ = [("data", Bytes), ("offsets", POINTER(c_uint32)), ("offset_count", c_size_t), ("domain", Bytes),
                ("begin", c_size_t), ("kind", c_uint32), ("options", c_uint32)]


class LargeConversion(Structure):
    _fields_ = [("data", Bytes), ("offsets", POINTER(c_uint64)), ("offset_count", c_size_t), ("domain", Bytes),
                ("begin", c_size_t), ("kind", c_uint32), ("options", c_uint32)]


class Creation(Structure):
    _fields_ = [("creator", Bytes), ("owner", Bytes), ("group", Bytes), ("kind", c_uint32), ("mapping", c_uint32)]


class Derivation(Structure):
    _fields_ = [("parents", Column), ("creation", Creation), ("begin", c_size_t)]


class LargeDerivation(Structure):
    _fields_ = [("parents", LargeColumn), ("creation", Creation), ("begin", c_size_t)]


class Reason(Structure):
    _fields_ = [("kind", c_uint16), ("place", c_uint16)]


class NewAce(Structure):
    _fields_ = [("sid", Bytes), ("object_type", Bytes), ("inherited_object_type", Bytes), ("mask", c_uint32),
                ("kind", c_uint8), ("flags", c_uint8)]


class NewAcl(Structure):
    _fields_ = [("aces", POINTER(NewAce)), ("ace_count", c_size_t), ("state", c_uint32)]


class NewDescriptor(Structure):
    _fields_ = [("owner", Bytes), ("group", Bytes), ("sacl", NewAcl), ("dacl", NewAcl), ("control", c_uint16),
                ("resource_manager", c_uint8)]


class Change(Structure):
    _fields_ = [("kind", c_uint32), ("part", c_uint32), ("place", c_uint32), ("compare", c_uint32), ("mask", c_uint32),
                ("set_mask", c_uint32), ("clear_mask", c_uint32), ("set_control", c_uint16),
                ("clear_control", c_uint16), ("ace_kind", c_uint8), ("flags", c_uint8), ("flags_mask", c_uint8),
                ("set_flags", c_uint8), ("clear_flags", c_uint8), ("state", c_uint8), ("object_type_use", c_uint8),
                ("inherited_object_type_use", c_uint8), ("object_type", c_uint8 * 16),
                ("inherited_object_type", c_uint8 * 16), ("sid", c_uint8 * 68), ("set_sid", c_uint8 * 68)]


class AclOrder(Structure):
    _fields_ = [("outcome", Outcome), ("sacl", c_uint32), ("dacl", c_uint32)]


class Ending(Structure):
    _fields_ = [("status", c_uint32), ("length", c_size_t), ("message_length", c_size_t)]


# Bytes that are read, and room for some that are written.
IN, OUT = (c_char_p, c_size_t), (c_void_p, c_size_t)
# Each call, what it takes, and what it gives.
CALLS: Tuple[Tuple[str, Sequence[Any], Any], ...] = (
    ("version", (*OUT,), Outcome),
    ("version_number", (), c_uint32),
    ("to_sddl", (*IN, *IN, c_bool, *OUT), Outcome),
    ("explain", (*IN, *IN, c_bool, *OUT), Outcome),
    ("normalize", (*IN, *OUT), Outcome),
    ("from_sddl", (*IN, *IN, *OUT), Outcome),
    ("check", (*IN, *IN, *IN, *IN, *IN, POINTER(Request)), Verdict),
    ("derive", (*IN, *IN, *IN, *IN, c_uint32, c_uint32, *OUT), Outcome),
    ("derive_origins", (*IN, *IN, *IN, *IN, c_uint32, c_uint32, POINTER(Origin), c_size_t, POINTER(Origin),
                        c_size_t), Origins),
    ("sid_from_text", (*IN, *IN, *OUT), Outcome),
    ("sid_to_text", (*IN, *IN, c_bool, *OUT), Outcome),
    ("sid_size", (*IN,), c_size_t),
    ("parts", (*IN,), Contents),
    ("place", (*IN,), FaultPlace),
    ("sddl_place", (*IN, *IN), FaultPlace),
    ("describe", (POINTER(Outcome), POINTER(FaultPlace), *OUT), Outcome),
    ("next_ace", (*IN, POINTER(Ace)), c_bool),
    ("ace_read", (*IN,), Ace),
    ("ace_from_text", (*IN, *IN, *OUT), Outcome),
    ("ace_to_text", (*IN, *IN, c_bool, *OUT), Outcome),
    ("rights_from_text", (*IN,), Number),
    ("rights_to_text", (c_uint32, c_bool, *OUT), Outcome),
    ("flags_from_text", (*IN,), Number),
    ("flags_to_text", (c_uint32, *OUT), Outcome),
    ("guid_from_text", (*IN, *OUT), Outcome),
    ("guid_to_text", (*IN, *OUT), Outcome),
    ("check_many", (POINTER(Bytes), c_size_t, *IN, *IN, *IN, *IN, POINTER(Request), POINTER(Verdict),
                    c_size_t), Outcome),
    ("check_column", (POINTER(ColumnCheck), POINTER(Verdict), c_size_t), Outcome),
    ("check_column_large", (POINTER(LargeColumnCheck), POINTER(Verdict), c_size_t), Outcome),
    ("convert_many", (POINTER(Conversion), *OUT, POINTER(c_uint32), c_size_t, POINTER(Outcome), c_size_t), Outcome),
    ("convert_many_large", (POINTER(LargeConversion), *OUT, POINTER(c_uint64), c_size_t, POINTER(Outcome),
                            c_size_t), Outcome),
    ("derive_many", (POINTER(Derivation), *OUT, POINTER(c_uint32), c_size_t, POINTER(Outcome), c_size_t), Outcome),
    ("derive_many_large", (POINTER(LargeDerivation), *OUT, POINTER(c_uint64), c_size_t, POINTER(Outcome),
                           c_size_t), Outcome),
    ("token_read", (*IN, *IN, POINTER(c_uint32), c_size_t), Outcome),
    ("check_with", (*IN, POINTER(c_uint32), c_size_t, *IN, *IN, POINTER(Request)), Verdict),
    ("reasons", (*IN, *IN, *IN, *IN, *IN, POINTER(Asker), POINTER(Reason)), Outcome),
    ("reasons_with", (*IN, POINTER(c_uint32), c_size_t, *IN, *IN, POINTER(Asker), POINTER(Reason)), Outcome),
    ("build", (POINTER(NewDescriptor), *OUT), Outcome),
    ("edit", (*IN, POINTER(Change), c_size_t, POINTER(c_uint32), c_size_t, *OUT), Outcome),
    ("order", (*IN,), AclOrder),
    ("run", (*IN, *IN, *OUT, *OUT), Ending),
    ("fault_text", (c_uint32, *OUT), Outcome),
)
