"""The forms of a line and those of an answer, by their words."""
from .binary import layout, read
from .sddl_printing import sddl
from .sddl_reading import from_sddl
from .spelling import from_base64, from_hex, to_base64

# bytes of a line, without its LF and the CR before it
LINE_LIMITS = {"hex": 262_452, "base64": 174_968, "sddl": 1_049_872}

# what a line shows under a domain
READ = {
    "hex": lambda line, domain: read(from_hex(line)),
    "base64": lambda line, domain: read(from_base64(line)),
    "sddl": from_sddl,
}

# the text of a descriptor
PRINTED = {
    "hex": lambda found, settings: layout(found).hex(),
    "base64": lambda found, settings: to_base64(layout(found)),
    "sddl": sddl,
}
