"""Images that are made of program words, and the program words of images ("Image files" of docs/FORMATS.md)."""

import struct

NO_HANDLER = 0xFFFFFFFF
# in Profile 2 the image says it
CHAIN_LIMIT = 8


def image_of_words(words, profile):
    """The image of one processor over one full word 0, with this program."""
    chain = [CHAIN_LIMIT] if profile == 2 else []
    head = struct.pack(f">4s{3 + len(chain)}H", b"MTAP", profile, 1, 1, *chain)
    numbers = struct.pack(">5I", 0, NO_HANDLER, len(words), 1, 0)
    return head + numbers + struct.pack(f">{len(words)}Q", *words) + struct.pack(">QB", 0, 1)


def words_of_image(image):
    """The program of an image of one processor."""
    retry_limit_at = 12 if image[5] == 2 else 10
    (count,) = struct.unpack_from(">I", image, retry_limit_at + 8)
    return list(struct.unpack_from(f">{count}Q", image, retry_limit_at + 20))
