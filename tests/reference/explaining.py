"""A descriptor explained, a line for each thing that it has."""
from .parts import ACL_NAMES, LABEL_TYPE
from .sddl_printing import aliases_under, guid_sddl, names_of, rights_sddl
from .tables import ACE_FLAGS, ACL_FLAGS, CONTROL_CODES, KINDS


def sid_words(sid, settings):
    """The SID's text, and its alias where it has one and numbers alone are not asked for."""
    if sid is None:
        return "none"
    alias = None if settings.numeric else aliases_under(settings.domain).get(sid)
    return f"{sid.text()} {alias}" if alias else sid.text()


def ace_words(ace, settings):
    words = [KINDS[ace.type], "flags", names_of(ace.flags, ACE_FLAGS) or "none", "mask", f"0x{ace.mask:08x}",
             "rights", rights_sddl(ace.mask, ace.type == LABEL_TYPE)]
    for name, guid in (("object", ace.object_type), ("inherited", ace.inherited_object_type)):
        words += [name, guid_sddl(guid)] if guid is not None else []
    return " ".join([*words, "sid", sid_words(ace.sid, settings)])


def acl_lines(letter, acl, descriptor, settings):
    name = ACL_NAMES[letter]
    if not descriptor.control & ACL_FLAGS[letter][0]:
        return [f"{name} absent"]
    if acl is None:
        return [f"{name} null"]
    return [f"{name} list {len(acl.aces)}",
            *(f"{name} {number} {ace_words(ace, settings)}" for number, ace in enumerate(acl.aces, 1))]


def explanation(descriptor, settings):
    """A line for each thing that the descriptor has, without the last one's LF."""
    codes = [code for code, bit in CONTROL_CODES.items() if descriptor.control & bit]
    return "\n".join([" ".join([f"control 0x{descriptor.control:04x}", *codes]),
                      f"rm 0x{descriptor.resource_manager:02x}", f"owner {sid_words(descriptor.owner, settings)}",
                      f"group {sid_words(descriptor.group, settings)}",
                      *acl_lines("D", descriptor.dacl, descriptor, settings),
                      *acl_lines("S", descriptor.sacl, descriptor, settings), "end"])
