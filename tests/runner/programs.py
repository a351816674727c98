"""Pieces of the source texts that cases are run as."""

import tool


def literal(register, value):
    """The two lines that bring a general register to these 64 bits."""
    return [f"LIT {register}, 0x{value & 0xFFFFFFFF:X}", f"LITH {register}, 0x{value >> 32:X}"]


def data_line(value, tags):
    """The line of a data word."""
    return f".data 0x{value:X}, {tags}"


def assembled(lines):
    """The image of a source text of these lines."""
    image = tool.asm("".join(line + "\n" for line in lines).encode())
    if image.startswith(b"!"):
        raise ValueError(image.decode())
    return image
