"""Requests of the memory and its replies as cases write them, the source lines that make them, and their lines in a
history. A request is the operation with the suffix of its access, then in hexadecimal digits the pointer, the value of
the operation's register, and the trap bits that the mask passes over (trap0 counts 1, trap1 2):
`STORE.S 1800000000000008 5 1`. A reply is `done VALUE`, `blocked ADDRESS` or `trap KIND ADDRESS`, also in such
digits."""

from programs import literal

ACCESSES = {"": 0, "N": 1, "F": 2, "S": 3}


class Request:
    """A request of a case."""

    def __init__(self, written):
        self.head, *numbers = written.split(" ")
        self.pointer, self.register, self.masked = (int(number, 16) for number in numbers)
        self.operation, _, self.suffix = self.head.partition(".")

    def source(self):
        """The lines that make it; r1 has the pointer and r2 the value. The last one is the reference."""
        mask = f"MASK {self.masked}"
        return [*literal("r1", self.pointer), *literal("r2", self.register), mask, f"{self.head} r2, r1, 0"]

    def value(self):
        """What it carries of the register ("Memory operations" of docs/MACHINE.md)."""
        if self.operation in ("LOAD", "TAGGET"):
            return 0
        return self.register % 16 if self.operation == "TAGSET" else self.register

    def asked(self):
        """Its part of a history line."""
        access = ACCESSES[self.suffix]
        return f"{self.operation:6} {self.pointer:016X} {access} {self.value():016X} {self.masked}"


def replied(reply):
    """The part of a history line that a reply has."""
    kind, *numbers = reply.split(" ")
    numbers = [int(number, 16) for number in numbers]
    if kind == "done":
        return f"DONE {numbers[0]:016X}"
    return f"BLOCKED {numbers[0]:012X}" if kind == "blocked" else f"TRAP {numbers[0]:02d} {numbers[1]:012X}"
