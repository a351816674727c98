"""Where the pages come from: `mta_lab page`, where that is built; else page/build.py and the runs in samples, which a
plain simulator has made of the examples. With PROGRAM=draft in the environment the drafts are meant; MTA_LAB and MTA_SIM
name other programs than those that are built here. With PAGES=files a page has the program's data and the scripts and
styles as they are in page/: so a script is tried without a build."""

import functools
import json
import os
import pathlib
import re
import subprocess
import sys

import tally

ROOT = pathlib.Path(__file__).resolve().parent.parent.parent
EXAMPLES = ROOT / "examples"
SAMPLES = pathlib.Path(__file__).resolve().parent / "samples"
# after so many seconds a program has failed
PATIENCE = 120
RUN = re.compile(r'<script type="application/json" id="run">(.*?)</script>', re.DOTALL)
GRAPH = re.compile(r'<script type="application/json" id="graph-data">(.*?)</script>', re.DOTALL)

sys.path.insert(0, str(ROOT / "page"))
sys.path.append(str(ROOT / "tests"))
import build  # noqa: E402
import built  # noqa: E402


def program(name):
    """Where a program lies: one that is built here has to be built of the files that are here."""
    other = os.environ.get(name.upper())
    if other is None and (os.environ.get("PROGRAM") or os.path.exists(built.place(name))):
        built.ask(name)
    return pathlib.Path(other or built.place(name))


LAB, SIM = program("mta_lab"), program("mta_sim")


@functools.cache
def has_pages():
    """Whether the program makes pages."""
    if not os.access(LAB, os.X_OK):
        tally.skip("mta_lab is not built here: the runs are those in tests/pages/samples, and made ones")
        return False
    shown = subprocess.run([LAB, "--help"], capture_output=True, text=True, timeout=PATIENCE, check=False).stdout
    if not re.search(r"^\s*page\b", shown, re.MULTILINE):
        tally.skip("mta_lab makes no pages here: the runs are those in tests/pages/samples, and made ones")
        return False
    return True


def call(program, *words, given=None, patience=PATIENCE):
    """What a program prints; an error where it does not end well. A status of 3 and more tells how a run ended."""
    ended = subprocess.run([program, *words], input=given, capture_output=True, text=True, timeout=patience,
                           check=False)
    if ended.returncode in (1, 2):
        raise RuntimeError(f"{program} {words}: status {ended.returncode}: {ended.stderr}")
    return ended.stdout


def page_of(folder, program, *how):
    """The page that mta_lab makes of a program."""
    file = pathlib.Path(folder) / "made.html"
    call(LAB, "page", str(program), *map(str, how), "--out", str(file))
    text = file.read_text(encoding="utf-8")
    return taken(text, "pair" if '"object":"pair"' in text else "run", RUN)


def taken(page, kind, data):
    """A page as it is, or with the files in page/."""
    if os.environ.get("PAGES") != "files":
        return page
    return build.PAGES[kind].text(data.search(page).group(1))


def run_of(page):
    """The run that stands in a page."""
    return json.loads(RUN.search(page).group(1))


def files_of(name):
    """The source text and the schedule of an example: `lock.ends` is lock.asm by lock.ends.schedule."""
    return EXAMPLES / f"{name.split('.')[0]}.asm", EXAMPLES / f"{name}.schedule"


def example(folder, name):
    """The page of an example by its schedule."""
    if has_pages():
        return page_of(folder, *files_of(name))
    return build.PAGES["run"].text((SAMPLES / f"{name}.json").read_text(encoding="utf-8"))


def page(run):
    """The page of a run that a test has made."""
    return build.PAGES["run"].text(json.dumps(run, separators=(",", ":")))


def played(folder, source, *words):
    """The page of mta_lab play of a source text; None where the program makes no such pages."""
    if not has_pages():
        return None
    file = pathlib.Path(folder) / "played.html"
    call(LAB, "play", str(source), *words, "--out", str(file))
    return taken(file.read_text(encoding="utf-8"), "play", GRAPH)


def sample(name):
    """A run that a test may change."""
    return json.loads((SAMPLES / f"{name}.json").read_text(encoding="utf-8"))
