"""What the scripts of the pages say, by the tests of tests/pages that need no browser: of the steps of examples and of a
few random programs, of all schedules, of ends. They need Node; without it nothing is asked."""

import os
import shutil
import subprocess
import sys

import checks
import table

PAGES = os.path.join(table.ROOT, "tests", "pages")
PARTS = ("verdicts", "ends", "hints", "readme", "sentences", "page_sentences")
# random programs of a part; `make pages` has 300
PROGRAMS = "15"


@checks.others("pages/scripts")
def scripts():
    """Each part of the tests by itself."""
    for part in PARTS:
        yield part, lambda part=part: ((0, ""), told(part))


def told(part):
    """The status of a part, and the checks that do not hold."""
    if shutil.which("node") is None:
        return 0, ""
    ended = subprocess.run([sys.executable, PAGES, "--node", part], env={**os.environ, "SENTENCES": PROGRAMS},
                           capture_output=True, text=True, check=False)
    wrong = [line for line in ended.stdout.splitlines() if line.startswith("not so: ")]
    return ended.returncode, ended.stderr[-300:] + "; ".join(wrong[:3])
