"""SDDL (MS-DTYP 2.5.1) as it is printed, and its fields."""
import functools
import struct

from .parts import LABEL_TYPE, Sid
from .tables import ACE_FLAGS, ACL_FLAGS, COMPOUND_RIGHTS, KINDS, LABEL_RIGHTS, OF_THE_DOMAIN, RIGHTS, WELL_KNOWN


@functools.lru_cache
def aliases_under(domain):
    """The alias of each SID that has one, under a domain or None."""
    aliases = {Sid(names[0], names[1:]): alias for alias, names in WELL_KNOWN.items()}
    if domain:
        authority, subs = domain
        aliases.update({Sid(authority, (*subs, last)): alias for alias, last in OF_THE_DOMAIN.items()})
    return aliases


def sid_sddl(sid, settings):
    """The SID's alias where it has one and numbers alone are not asked for, else its text."""
    return sid.text() if settings.numeric else aliases_under(settings.domain).get(sid) or sid.text()


def names_of(bits, names):
    """The names of the bits that are set, in the order of the names."""
    return "".join(name for name, bit in names.items() if bits & bit)


def rights_sddl(mask, is_label):
    compounds, singles = ({}, LABEL_RIGHTS) if is_label else (COMPOUND_RIGHTS, RIGHTS)
    for name, compound in compounds.items():
        if mask == compound:
            return name
    has_names = mask != 0 and mask & ~sum(singles.values()) == 0
    return names_of(mask, singles) if has_names else hex(mask)


def guid_sddl(guid):
    """Three little-endian numbers, and then the bytes as they stand."""
    if guid is None:
        return ""
    return "{:08x}-{:04x}-{:04x}-".format(*struct.unpack("<IHH", guid[:8])) + guid[8:10].hex() + "-" + guid[10:].hex()


def ace_sddl(ace, settings):
    fields = [KINDS[ace.type], names_of(ace.flags, ACE_FLAGS), rights_sddl(ace.mask, ace.type == LABEL_TYPE),
              guid_sddl(ace.object_type), guid_sddl(ace.inherited_object_type), sid_sddl(ace.sid, settings)]
    return f"({';'.join(fields)})"


def sddl(descriptor, settings):
    """Owner, group, DACL and SACL, those that stand."""
    text = ""
    for letter, sid in (("O", descriptor.owner), ("G", descriptor.group)):
        if sid is not None:
            text += f"{letter}:{sid_sddl(sid, settings)}"
    for letter, acl in (("D", descriptor.dacl), ("S", descriptor.sacl)):
        present, flags = ACL_FLAGS[letter]
        if descriptor.control & present:
            text += f"{letter}:{names_of(descriptor.control, flags)}"
            text += "NO_ACCESS_CONTROL" if acl is None else "".join(ace_sddl(ace, settings) for ace in acl.aces)
    return text
