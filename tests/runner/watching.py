"""Which files of a folder are opened, in order, as the system tells it (inotify, of Linux)."""

import contextlib
import ctypes
import os
import struct

IN_OPEN, IN_NONBLOCK = 0x20, os.O_NONBLOCK
EVENT = struct.Struct("iIII")
LIBRARY = ctypes.CDLL(None, use_errno=True)


class Watch:
    """A folder that is watched."""

    def __init__(self, queue):
        self.queue = queue

    def opened(self):
        """The names of the files that were opened since the watch began; one that is opened twice in a row stands
        there once."""
        try:
            data = os.read(self.queue, 1 << 16)
        except BlockingIOError:
            return []
        names, place = [], 0
        while place < len(data):
            *_, length = EVENT.unpack_from(data, place)
            place += EVENT.size + length
            names.append(os.fsdecode(data[place - length:place].rstrip(b"\0")))
        return [name for name in names if name]


@contextlib.contextmanager
def watched(folder):
    queue = LIBRARY.inotify_init1(IN_NONBLOCK)
    if queue < 0 or LIBRARY.inotify_add_watch(queue, os.fsencode(folder), IN_OPEN) < 0:
        raise OSError(ctypes.get_errno(), "the folder can't be watched")
    try:
        yield Watch(queue)
    finally:
        os.close(queue)
