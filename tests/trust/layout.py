"""Where things are: the crates from the lowest up, and the files of each crate's specs/ in the order of reading."""

import functools
import glob
import os
import re

os.chdir(os.path.join(os.path.dirname(os.path.abspath(__file__)), "..", ".."))

with open("crates.txt", encoding="utf-8") as listed:
    CRATES = re.findall(r"^(\w+).*:", listed.read(), re.M)


@functools.lru_cache(maxsize=None)
def spec_files(crate):
    """The files that Lib.antt names, in its order; one that it does not name comes last."""
    folder = f"crates/{crate}/specs"
    named = []
    if os.path.exists(f"{folder}/Lib.antt"):
        with open(f"{folder}/Lib.antt", encoding="utf-8") as lib:
            named = [f"{folder}/{name.replace('.', '/')}.antt" for name in re.findall(r"^pub mod (\S+)", lib.read(), re.M)]
    others = sorted(set(glob.glob(f"{folder}/**/*.antt", recursive=True)) - set(named) - {f"{folder}/Lib.antt"})
    return [file for file in named if os.path.exists(file)] + others


@functools.lru_cache(maxsize=None)
def passed_on(file):
    """The modules that a file of specs/ passes on, each by its name there."""
    if not os.path.exists(file):
        return {}
    with open(file, encoding="utf-8") as text:
        return {path.rsplit(".", 1)[1]: path for path in re.findall(r"^pub use (Rattle[\w.]+)$", text.read(), re.M)}


def origin(path):
    """The path of a module or definition in the crate whose own it is, where others pass it on."""
    parts = path.split(".")
    while len(parts) > 4 and parts[1] in CRATES and parts[2] == "specs":
        passed = passed_on(f"crates/{parts[1]}/specs/{parts[3]}.antt")
        if parts[4] not in passed:
            break
        parts = passed[parts[4]].split(".") + parts[5:]
    return ".".join(parts)


def all_spec_files():
    return [file for crate in CRATES for file in spec_files(crate)]


def source_files(crate):
    return sorted(glob.glob(f"crates/{crate}/src/**/*.rt", recursive=True))


def crate_of(file):
    return file.split("/")[1]


def place(file, line):
    """What files and lines are sorted by: crates from the lowest up, specs before src, files in the order of reading."""
    crate = crate_of(file)
    files = spec_files(crate)
    return CRATES.index(crate), files.index(file) if file in files else len(files), file, line
