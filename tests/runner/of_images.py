"""Image files: the images that bytes stand for, and their faults."""

import checks
import of_sources
import tool
from table import unescaped


@checks.each("list/images.tsv")
def is_read(fields):
    """A fault by its name and number; or the source of the image, which means the same listing and just these bytes."""
    digits, meant = fields
    data = bytes.fromhex(digits)
    if not meant.startswith("."):
        return f"!image fault {meant.split(' ')[-1]}".encode(), tool.listing(data)
    source = meant.replace(";", "\n").encode()
    return (data, of_sources.listed(source)), (tool.asm(source), tool.listing(data))


@checks.each("list/listings.tsv")
def is_listed(fields):
    data, listing = map(unescaped, fields)
    return listing, tool.listing(data)
