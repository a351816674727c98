"""The names of the assembler, by their kind, as its table of names has them (crates/asm_line/src/names.rt)."""

import pathlib
import re

ROOT = pathlib.Path(__file__).resolve().parents[2]
TABLE = ROOT / "crates/asm_line/src/names.rt"


def of_function(name):
    """The texts that a function of the table answers, without those that are empty."""
    text = TABLE.read_text(encoding="utf-8")
    body = re.search(rf"^pub fn {name}\(.*?^}}$", text, re.S | re.M)[0]
    return [it for it in re.findall(r'=> "([^"]*)"', body) if it]


class Names:
    """The names by their kind. LOAD, STORE and FADD may have an access after them."""

    def __init__(self):
        self.memory = [it for it in of_function("memory") if it in ("LOAD", "STORE", "FADD")]
        self.plain_memory = [it for it in of_function("memory") if it not in (*self.memory, "NOP")]
        self.access = [it.removeprefix(".") for it in of_function("access")]
        self.arithmetic = [it for it in of_function("arithmetic") if it != "NOP"]
        self.control = of_function("control")
        self.asking = ["SKIP", "JUMP"]
        self.wide = of_function("wide")
        self.conditions = of_function("condition")
        self.directives = [it.removeprefix(".") for it in of_function("directive")]
