"""Damaged images: each byte with each value, each prefix, two fields at once, and bytes behind the end."""

import os
import struct
from functools import partial

from program import Tally, read, write

# the places of the fields and their sizes, the entries among them; in version 2 the chain limit stands behind slim
FIELDS = [(0, 4), (4, 2), (6, 2), (8, 2), (10, 4), (14, 4), (18, 4), (22, 4), (26, 4), (30, 4), (34, 4)]
FIELDS_OF_TWO = [(0, 4), (4, 2), (6, 2), (8, 2), (10, 2), (12, 4), (16, 4), (20, 4), (24, 4), (28, 4)]
VALUES = [0, 1, 2, 3, 16, 17, 64, 65, 128, 129, 65_536, 65_537, 262_144, 262_145, 4_294_967_295]
# LIT r1, 1; FADD.N r1, r0, 0; STORE.S r1, r0, 1 with ADD r1, r1, 1; SKIP NE, 0, -3; QUIT
PROGRAM = [0x8010000000000001, 0x0684000000000000, 0x0584008A10840000, 0x00000000000088FD, 0x0000000000028000]
CELLS = [(0, 1), (0, 0), (0, 0)]


def three_processors():
    """The bytes of a valid image of three processors, by "Image files" of docs/FORMATS.md."""
    head = struct.pack(">4sHHHIIII", b"MTAP", 1, 3, 2, 1, 4, len(PROGRAM), len(CELLS))
    entries = struct.pack(">3I", 0, 1, 0)
    words = struct.pack(f">{len(PROGRAM)}Q", *PROGRAM)
    return head + entries + words + b"".join(struct.pack(">QB", *cell) for cell in CELLS)


def of_profile_two():
    """The bytes of a valid image of version 2: LIT r1, 9; PURGE r1, r0, 0; QUIT, with the chain limit 3."""
    head = struct.pack(">4sHHHHIIII", b"MTAP", 2, 1, 1, 3, 0, 0xFFFFFFFF, 3, 1)
    words = struct.pack(">3Q", 0x8010000000000009, 0x0C04000000000000, 0x0000000000028000)
    return head + struct.pack(">I", 0) + words + struct.pack(">QB", 5, 1)


class Header:
    """The numbers of an image's header, and the places behind it."""

    def __init__(self, data):
        self.version, self.processors, self.slim = struct.unpack(">HHH", data[4:10])
        place = 12 if self.version == 2 else 10
        self.chain = struct.unpack(">H", data[10:12])[0] if self.version == 2 else None
        self.retry, self.trap, self.program, self.cells = struct.unpack(">IIII", data[place:place + 16])
        self.entries_place = place + 16
        self.program_place = self.entries_place + 4 * self.processors
        self.cells_place = self.program_place + 8 * self.program
        self.size = self.cells_place + 9 * self.cells

    def is_within(self):
        """Whether its numbers keep their limits."""
        return (1 <= self.processors <= 16 and 1 <= self.slim <= 128 and (self.chain is None or self.chain <= 64)
                and 1 <= self.program <= 65536 and 1 <= self.cells <= 262144)

    def entries(self, data):
        return struct.unpack(f">{self.processors}I", data[self.entries_place:self.program_place])

    def settings(self):
        """The lines of the listing for them."""
        chain = [] if self.chain is None else [f".chain {self.chain}"]
        trap = [] if self.trap == 0xFFFFFFFF else [f".trap {self.trap}"]
        return [f".profile {self.version}", f".slim {self.slim}", *chain, f".retry {self.retry}", *trap]


def image_fault(data):
    """The fault of an image's bytes by the table of "Image files", docs/FORMATS.md; None where they are an image."""
    if len(data) < 26:
        return 1
    if data[:4] != b"MTAP":
        return 2
    version = int.from_bytes(data[4:6], "big")
    if version not in (1, 2):
        return 3
    if version == 2 and len(data) < 28:
        return 1
    header = Header(data)
    if not header.is_within():
        return 4
    if len(data) < header.size:
        return 1
    if any(entry >= header.program for entry in header.entries(data)):
        return 5
    if any(data[header.cells_place + 9 * k + 8] > 15 for k in range(header.cells)):
        return 6
    return 7 if len(data) > header.size else None


def fills(cells):
    """The lines of the listing for data words: one for each longest run of equal ones."""
    lines, count = [], 0
    for k, cell in enumerate(cells):
        count += 1
        if k + 1 == len(cells) or cells[k + 1] != cell:
            lines.append(f".fill {count}, 0x{cell[0]:016X}, {cell[1]}")
            count = 0
    return lines


def is_listing(data, out):
    """Whether a text is the listing of an image, but for the names of its instructions."""
    header = Header(data)
    words = struct.unpack(f">{header.program}Q", data[header.program_place:header.cells_place])
    head = header.settings() + [f".entry {entry}" for entry in header.entries(data)]
    tails = [f" ; {k:05d} {word:016X}" for k, word in enumerate(words)]
    places = [header.cells_place + 9 * k for k in range(header.cells)]
    data_lines = fills([struct.unpack(">QB", data[place:place + 9]) for place in places])
    lines = out.decode("ascii").split("\n")
    if len(lines) != len(head) + len(words) + len(data_lines) + 1 or lines.pop() != "":
        return False
    middle = lines[len(head):len(head) + len(words)]
    return (lines[:len(head)] == head and lines[len(head) + len(words):] == data_lines
            and all(line.endswith(tail) for line, tail in zip(middle, tails)))


def damaged(folder, data):
    """One image: its fault is the table's, or it is listed, and its listing is assembled to it."""
    tally = Tally()
    path = write(folder, f"damaged.{os.getpid()}", data)
    fault, what = image_fault(data), f"damaged image {data[:60].hex()}"
    if fault is not None:
        tally.refuses(what, ["list", path], f"image fault {fault}".encode())
        return tally
    listing = tally.does(what, ["list", path])
    tally.check(f"listing of {what}", is_listing(data, listing))
    again = path + ".again"
    tally.does(f"listing of {what}", ["asm", write(folder, f"listing.{os.getpid()}", listing), again])
    tally.check(f"image of the listing of {what}", read(again) == data)
    return tally


def two_fields(base, fields):
    """The image with each value in each two of its fields."""
    for first in fields:
        for second in fields:
            for one in VALUES:
                for other in VALUES if first < second else [one]:
                    data = bytearray(base)
                    for (place, size), value in ((first, one), (second, other)):
                        data[place:place + size] = (value % (1 << (8 * size))).to_bytes(size, "big")
                    yield bytes(data)


def cases(base, fields):
    """The damaged images, each once."""
    made = {base, base + b"\0", base + base, *(base[:k] for k in range(len(base)))}
    made |= {base[:k] + bytes([value]) + base[k + 1:] for k in range(len(base)) for value in range(256)}
    return made | set(two_fields(base, fields))


def part(pool, folder):
    """All of them."""
    tally = Tally()
    made = cases(three_processors(), FIELDS) | cases(of_profile_two(), FIELDS_OF_TWO)
    for one in pool.map(partial(damaged, folder), sorted(made), chunksize=100):
        tally.add(one)
    return tally
