#!/usr/bin/env python3
"""Tries the edits of crates. An edit gives a function a wrong meaning, and the prover has to refuse the crate with it.
A crate has its edits in two folders: must-fail/ has those that the gate tries each time, edits/ the others, in the
same form.

  edits.py [--jobs N] [CRATE..]   tries all edits of these crates, of all crates without any: half a minute an edit
  edits.py --gate                 tries those in must-fail/ alone, but none that was refused here over the same files
  edits.py --apply                says only which edits can't be applied: a second, and nothing is proved

Over a crate that is proved as it stands it is enough to prove the function that an edit changes: where its proof fails,
so does the crate's. Where it is still proved, its module is tried, and then the whole crate. An edit that shows only in
another function names that by a line `only: MODULE::FUNCTION`.

Edits of one crate share a process: each function that has no file of its own proof stands beside itself once more, under
another name, with the wrong meaning, so that its callers call the right one. One edit of another function goes with these.

It prints for each crate how many edits were refused, and each that was not. The last line is 'N passed, M failed'."""

import argparse
import hashlib
import os
import re
import shutil
import subprocess
import sys
import tempfile
import time
from concurrent.futures import ThreadPoolExecutor

ROOT = os.path.dirname(os.path.dirname(os.path.abspath(__file__)))
FOLDERS = ("must-fail", "edits")
# what a proof of a crate reads of it, and where rt puts the library
SOURCES = ("src", "specs", "proofs")
BUILT = "out/rlib"
# what the gate has seen refused: an edit's name and the sum of all that it stands on, a line each
KNOWN = f"{ROOT}/out/refused"
NAME = re.compile(r"[A-Za-z0-9_-][A-Za-z0-9_.-]*\.edit")
# what the prover says of the functions that it was asked for, of a crate, and of a function that is not there
ANSWER = re.compile(r"(?m)^only=(\d+) proved=(\d+)$")
NOT_PROVED = re.compile(r"(?m)^logic=not-proved")
NO_SUCH = re.compile("has no function|several functions are named")
# of one function; where another one in it is not proved, that says nothing of its own
REFUSED = re.compile(r"(?m)^fn (\S+): (?:not proved|no proof)\b(?!.*it calls `)")
FUNCTION = re.compile(r"( *)(?:pub(?:\([a-z]+\))? )?(?:const )?fn (\w+)")
IMPL = re.compile(r"impl(?:<.*?>)? (?:\S+ for )?(\w+)")


def crates():
    """The lines of crates.txt by the crate that each names, lowest first."""
    lines = [line for line in read(f"{ROOT}/crates.txt").splitlines() if re.match(r"\w", line)]
    return {re.match(r"\w+", line)[0]: line for line in lines}


def with_those_below(names, lines):
    """These crates and those of the repository that they stand on, in the order of crates.txt."""
    found = {*names}
    for name in reversed(lines):
        if name in found:
            found |= {*lines[name].partition(":")[2].split()}
    return [name for name in lines if name in found]


def edits_of(crate, folders=FOLDERS):
    """The paths of the crate's edits, below the repository's root."""
    folders = [f"crates/{crate}/{folder}" for folder in folders if os.path.isdir(f"{ROOT}/crates/{crate}/{folder}")]
    return [f"{folder}/{name}" for folder in folders for name in sorted(os.listdir(f"{ROOT}/{folder}"))]


def read(path):
    with open(path, encoding="utf-8", newline="") as file:
        return file.read()


def faults_of(crate):
    """Each edit of the crate that can't be tried, with the reason."""
    names = [os.path.basename(edit) for edit in edits_of(crate)]
    for edit in edits_of(crate):
        name = os.path.basename(edit)
        if not NAME.fullmatch(name):
            yield edit, "the name of an edit is of letters, digits, _, - and ., and ends in .edit"
        elif names.count(name) > 1:
            yield edit, f"{' and '.join(FOLDERS)} both have an edit of this name"
        else:
            try:
                Edit(f"{ROOT}/{edit}", f"{ROOT}/crates/{crate}")
            except ValueError as fault:
                yield edit, fault


class Edit:
    """An edit, as its text says: a line `file: PATH`, pairs of lines `old: TEXT` and `new: TEXT`, each old text once in
    the file, after the pairs before it; and before them a line `only: MODULE::FUNCTION`, where that is to be proved."""

    def __init__(self, path, folder):
        self.name, self.texts, self.asked, self.places = os.path.basename(path), {}, None, []
        self.folder = folder
        file = old = None
        for line in read(path).splitlines():
            if line.startswith("file: ") and old is None:
                file = line.removeprefix("file: ").strip()
                if not file.startswith(tuple(f"{it}/" for it in SOURCES)) or not os.path.isfile(f"{folder}/{file}"):
                    raise ValueError(f"the crate has no {file}")
                self.texts.setdefault(file, read(f"{folder}/{file}"))
            elif line.startswith("only: ") and not self.places:
                self.asked = line.removeprefix("only: ").strip()
            elif line.startswith("old: ") and file and old is None:
                old = line.removeprefix("old: ")
            elif line.startswith("new:") and old:
                self.change(file, old, line.removeprefix("new:").removeprefix(" "))
                old = None
            elif line.strip():
                raise ValueError(f"a line out of place: {line}")
        if not self.places or old is not None:
            raise ValueError("an old text without a new one, or no pair of them at all")

    def change(self, file, old, new):
        text = self.texts[file]
        if text.count(old) != 1:
            raise ValueError(f"{file} has its old text {text.count(old)} times, and not once: {old}")
        self.places.append((file, text[: text.index(old)].count("\n")))
        self.texts[file] = text.replace(old, new)

    def parts(self):
        """What is to be proved with the edit, the least first; the last is the whole crate."""
        if self.asked:
            return [self.asked, None]
        file, line = self.places[0]
        found = function_at(self.texts[file].splitlines(), line)
        own = "::".join(it for it in (self.home_of(found, file), found) if it)
        return [it for it in dict.fromkeys((own, module_of(file))) if it] + [None]

    def home_of(self, found, file):
        """The module whose function it is: a method is of its type's, wherever it is written."""
        of = (found or "").rpartition("::")[0]
        declared = re.compile(rf"(?m)^(?:pub(?:\([a-z]+\))? )?(?:struct|enum) {of}\b")
        files = sorted(f"{at}/{name}" for at, _, names in os.walk(f"{self.folder}/src") for name in names) if of else []
        homes = [it for it in files if declared.search(read(it))]
        return module_of(os.path.relpath(homes[0], self.folder) if len(homes) == 1 else file)

    def function(self):
        """The one function that the edit changes, as its file and the extent of it there; none where it changes anything
        else, or a function of a trait's impl, or is to be proved elsewhere."""
        (file, text), *others = self.texts.items()
        lines, before = text.splitlines(), read(f"{self.folder}/{file}").splitlines()
        found = None if self.asked or others or len(lines) != len(before) else extent_of(lines, self.places[0][1])
        changed = [at for at, (line, was) in enumerate(zip(lines, before)) if line != was]
        return (file, found) if found and changed and {*changed} <= {*found} else None

    def copy(self, number):
        """The changed function under a name with this number, as its file, the line behind its end and its lines; None
        where it has a file of its own proof."""
        own = self.parts()[0]
        if not self.function() or os.path.isdir(f"{self.folder}/proofs/{own.replace('::', '/')}"):
            return None
        file, extent = self.function()
        copied = self.texts[file].splitlines()[extent.start:extent.stop]
        head = next(at for at, line in enumerate(copied) if FUNCTION.match(line))
        copied[head] = re.sub(r"\bfn (\w+)", rf"fn \1_edited_{number}", copied[head], count=1)
        return file, extent.stop, ["", *copied]


def module_of(file):
    """The module that a file below src/ is."""
    return "::".join(it for it in file.removesuffix(".rt").split("/")[1:] if it not in ("lib", "main"))


def function_at(lines, number):
    """The function in which a line stands, with its type where it is a method; none where it stands in no function."""
    indent = len(lines[number]) - len(lines[number].lstrip())
    name = None
    for line in reversed(lines[: number + 1]):
        if name is None and (found := FUNCTION.match(line)) and len(found[1]) <= indent:
            indent, name = len(found[1]), found[2]
        elif name and indent and (found := IMPL.match(line)):
            return f"{found[1]}::{name}"
        elif name is None and line.startswith("}"):
            return None
        if name and not indent:
            return name
    return name


def extent_of(lines, number):
    """The lines of the function in which a line stands, with what is written above its head; None where it stands in no
    function, or in one of a trait's impl."""
    head = next((at for at in range(number, -1, -1) if FUNCTION.match(lines[at]) or lines[at].startswith("}")), 0)
    found = FUNCTION.match(lines[head])
    if not found:
        return None
    impl = next((it for it in reversed(lines[:head]) if it.startswith(("impl", "trait", "pub trait"))), "")
    begin, end = head, next((at for at in range(head, len(lines)) if lines[at] == f"{found[1]}}}"), head)
    while begin and lines[begin - 1].strip() and not lines[begin - 1].endswith("{"):
        begin -= 1
    is_own = not found[1] or impl.startswith("impl") and " for " not in impl
    is_whole = number <= end and not any(map(FUNCTION.match, lines[head + 1:end]))
    return range(begin, end + 1) if is_own and is_whole else None


class Proved:
    """Crates as they stand, proved, with their libraries."""

    def __init__(self, folder, lines):
        self.folder, self.lines = folder, lines

    def words(self, crate):
        """What the prover is called with for the crate; its libraries are named, those below them have their folders told."""
        kit = os.path.dirname(os.path.dirname(os.path.realpath(shutil.which("rt"))))
        built = f"{self.folder}/crates/{{0}}/{BUILT}"
        root = "main" if os.path.isfile(f"{self.folder}/crates/{crate}/src/main.rt") else "lib"
        words = [f"{kit}/bin/rattle", "check", "--jobs", "1", "--crate-name", crate, f"src/{root}.rt"]
        for name in ("std", *self.lines[crate].partition(":")[2].split()):
            library = f"{built.format(name)}/{name}.rlib" if name in self.lines else f"{kit}/rlibs/{name}.rlib"
            words += ["--extern", f"{name}={library}"]
        for folder in (f"{kit}/rlibs", *map(built.format, with_those_below([crate], self.lines)[:-1])):
            words += ["-L", f"dependency={folder}"]
        return words + ["--antt-project", f"{kit}/rattle/logic/antt-project.json", "--logic-built", f"{kit}/logic_built"]

    def faults_of(self, crate, edits):
        """By edit of the crate why it is not refused, or None. What one try has proved the next takes."""
        with tempfile.TemporaryDirectory(prefix="edits-") as room:
            for part in SOURCES:
                if os.path.isdir(f"{self.folder}/crates/{crate}/{part}"):
                    shutil.copytree(f"{self.folder}/crates/{crate}/{part}", f"{room}/{part}")
            made = {path: Edit(f"{ROOT}/{path}", room) for path in edits}
            refused = self.refused_together(room, crate, made)
            return {path: None if path in refused else self.fault_of(room, crate, made[path]) for path in edits}

    def refused_together(self, room, crate, edits):
        """Those of the crate's edits that are refused in one process, of each function with a file of its own proof one
        edit. Where one stands on another that is refused too, that says nothing of it. The others are to be tried alone."""
        asked, texts, behind = {}, {}, []
        for number, (path, edit) in enumerate(edits.items()):
            own, copy = edit.parts()[0], edit.copy(number)
            if copy:
                behind.append(copy)
                asked[f"{own}_edited_{number}"] = path
            elif edit.function() and own not in asked and not {*edit.texts} & {*texts}:
                texts.update(edit.texts)
                asked[own] = path
        if len(asked) < 2:
            return set()
        for file, end, lines in sorted(behind, key=lambda it: -it[1]):
            text = texts.get(file, read(f"{room}/{file}")).splitlines()
            texts[file] = "\n".join([*text[:end], *lines, *text[end:], ""])
        kept = {file: read(f"{room}/{file}") for file in texts}
        write(room, texts)
        try:
            said = self.asked_of(room, crate, asked)[1]
        finally:
            write(room, kept)
        refused = REFUSED.findall(said) if ANSWER.search(said) else []
        return {path for part, path in asked.items() if f"{crate}::{part}" in refused}

    def asked_of(self, room, crate, parts):
        """The status of the prover that looks at these parts of the crate in a folder, all of it without any, and what it
        says."""
        only = [f"--only={part}" for part in parts]
        return run(room, *self.words(crate), "--incremental", f"{room}/kept", *only)

    def fault_of(self, room, crate, edit):
        """Why the edit is not refused in this copy of the crate, if it is not."""
        kept = {file: read(f"{room}/{file}") for file in edit.texts}
        write(room, edit.texts)
        try:
            for part in edit.parts():
                ended, said = self.asked_of(room, crate, [part] if part else [])
                answer = ANSWER.search(said)
                if answer and int(answer[2]) < int(answer[1]) or not part and NOT_PROVED.search(said):
                    return None
                if ended and not answer and not NO_SUCH.search(said):
                    return f"not tried: {said[-600:]}"
            return "NOT REFUSED: the crate is still proved with it"
        finally:
            write(room, kept)

    def refused_of(self, edits, jobs):
        """Tries these edits, some crates at a time, says what was not refused, and returns what was."""
        by_crate = {}
        for edit in edits:
            by_crate.setdefault(crate_of(edit), []).append(edit)
        longest_first, refused = sorted(by_crate, key=lambda crate: -len(by_crate[crate])), []
        with ThreadPoolExecutor(jobs) as pool:
            tried = pool.map(lambda crate: (crate, self.faults_of(crate, by_crate[crate])), longest_first)
            for crate, faults in tried:
                for edit, fault in faults.items():
                    print(f"{edit}: {fault}\n" if fault else "", end="")
                refused += [edit for edit, fault in faults.items() if not fault]
                print(f"{crate}: {len({*refused} & {*faults})} of {len(faults)} refused", flush=True)
        return refused


def write(folder, texts):
    for file, text in texts.items():
        with open(f"{folder}/{file}", "w", encoding="utf-8", newline="") as out:
            out.write(text)


def crate_of(edit):
    return edit.split("/")[1]


def run(folder, *words):
    """The status of a command that is run in the folder, and what it printed."""
    ran = subprocess.run(words, cwd=folder, stdin=subprocess.DEVNULL, stdout=subprocess.PIPE, stderr=subprocess.STDOUT,
                         errors="replace", check=False)
    return ran.returncode, ran.stdout


def try_all(edits, lines, jobs):
    """Tries these edits over their crates, which are proved first in a folder of their own, and returns those that were
    refused. What the kit has kept of the crates is not proved again."""
    with tempfile.TemporaryDirectory(prefix="edits-") as room:
        subprocess.run([f"{ROOT}/tests/lay_out.sh", room, *with_those_below(map(crate_of, edits), lines)], check=True)
        ended, said = run(room, "rt", "ci")
        if ended:
            print(said, "the crates are not proved as they stand, so their edits tell nothing", sep="\n")
            return []
        return Proved(room, lines).refused_of(edits, jobs)


def sum_of(edit, lines):
    """The sum of all that a try of the edit stands on: the kit, the edit, the crate's files and those of all below it."""
    made = hashlib.sha256(run(ROOT, "rt", "version")[1].encode())
    folders = [f"crates/{it}/{part}" for it in with_those_below([crate_of(edit)], lines) for part in SOURCES]
    files = [f"{at}/{name}" for folder in folders for at, _, names in os.walk(f"{ROOT}/{folder}") for name in names]
    for path in (f"{ROOT}/{edit}", *sorted(files)):
        with open(path, "rb") as file:
            made.update(f"{os.path.relpath(path, ROOT)} {hashlib.sha256(file.read()).hexdigest()}\n".encode())
    return f"{edit} {made.hexdigest()}\n"


def gate(edits, lines, jobs):
    """Tries these edits over the crates as the gate has just proved them, but those that were refused here before over the
    same files; returns those that are refused."""
    known = set()
    if os.path.isfile(KNOWN) and not os.environ.get("ANEW"):
        known.update(read(KNOWN).splitlines(keepends=True))
    sums = {edit: sum_of(edit, lines) for edit in edits}
    kept = [edit for edit in edits if sums[edit] in known]
    print(f"{len(kept)} of {len(edits)} edits were refused here before, over the same files")
    refused = kept + Proved(ROOT, lines).refused_of([edit for edit in edits if edit not in kept], jobs)
    os.makedirs(os.path.dirname(KNOWN), exist_ok=True)
    with open(KNOWN, "w", encoding="utf-8") as file:
        file.writelines(sums[edit] for edit in refused)
    return refused


def main():
    parser = argparse.ArgumentParser(description=__doc__, formatter_class=argparse.RawDescriptionHelpFormatter)
    parser.add_argument("--apply", action="store_true", help="say which edits can't be applied, and try none")
    parser.add_argument("--gate", action="store_true", help="try those in must-fail/ alone")
    parser.add_argument("--jobs", type=int, default=os.cpu_count(), help="how many edits are tried at a time")
    parser.add_argument("crates", nargs="*", metavar="CRATE", help="crates with edits; all, where none is named")
    asked, lines = parser.parse_args(), crates()
    with_edits = [crate for crate in lines if edits_of(crate)]
    if unknown := {*asked.crates} - {*with_edits}:
        parser.error(f"no crate with edits: {', '.join(sorted(unknown))}")
    names = [crate for crate in with_edits if not asked.crates or crate in asked.crates]
    faults = [found for crate in names for found in faults_of(crate)]
    for edit, fault in faults:
        print(f"{edit}: {fault}")
    if asked.apply or faults:
        sys.exit(1 if faults else 0)
    edits = [edit for crate in names for edit in edits_of(crate, FOLDERS[:1] if asked.gate else FOLDERS)]
    begin = time.monotonic()
    refused = (gate if asked.gate else try_all)(edits, lines, asked.jobs)
    print(f"{len(edits)} edits in {(time.monotonic() - begin) / 60:.0f} minutes")
    print(f"{len(refused)} passed, {len(edits) - len(refused)} failed")
    sys.exit(0 if len(refused) == len(edits) else 1)


if __name__ == "__main__":
    main()
