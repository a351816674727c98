"""What is read in the texts that runs print."""


def text(lines):
    """The text of these lines, as bytes: of long ones the first line that differs is named."""
    return "".join(line + "\n" for line in lines).encode()


def cell_line(address, value, tags):
    """The world text's line of a word that is not as in the image."""
    return f"cell {address:012X} {value:016X} {tags:X}"


def values(printed):
    """The value of each word, by its address, that a world text prints as changed."""
    lines = [line.split() for line in printed.decode().splitlines() if line.startswith("cell ")]
    return {int(address, 16): int(value, 16) for _, address, value, _ in lines}
