"""Source texts: their images and listings, and their faults."""

import struct

import checks
import tool
from table import unescaped


def listed(source):
    """The listing of a source text's image; behind a `!` the text's fault, or that the listing means another image."""
    image = tool.asm(source)
    if image.startswith(b"!"):
        return image
    listing = tool.listing(image)
    return listing if tool.asm(listing) == image else b"!the image of another listing"


@checks.each("asm/bad_sources.tsv")
def is_refused(fields):
    fault, source = fields
    return f"!source {fault}".encode(), tool.asm(unescaped(source))


@checks.each("asm/sources.tsv")
def is_listed(fields):
    listing, source = fields
    return unescaped(listing), listed(unescaped(source))


@checks.each("asm/large_sources.tsv")
def has_sizes(fields):
    sizes, piece, source = fields
    image = tool.asm(unescaped(source))
    _, _, processors, _, _, _, words, cells = struct.unpack_from(">4sHHHIIII", image)
    listing = tool.listing(image)
    found = piece if unescaped(piece) in listing else "no such piece"
    again = "its image" if tool.asm(listing) == image else "another image"
    return (sizes, piece, "its image"), (f"{processors} {words} {cells}", found, again)


@checks.each("asm/images.tsv")
def is_assembled(fields):
    source, image = map(unescaped, fields)
    return image, tool.asm(source)
