#!/usr/bin/env python3
"""The pages in headless Chromium, in parts: their files, states, controls, access, pictures, sentences, hostile texts,
sizes, widths. Arguments name the parts to be run; without any all of them are. Needs Python 3 with selenium, chromium and
its driver, and says which of them is missing; nothing is installed. With --node first, the parts that ask what the
scripts say are run under Node, without a browser. The last line counts the checks."""

import importlib
import importlib.util
import os
import shutil
import sys
import time

sys.dont_write_bytecode = True

# where Debian's python3-selenium is found, whatever python3 comes first
SYSTEM_PYTHON = "/usr/bin/python3"
NEEDED = {"chromium": ("chromium", "chromium-browser", "google-chrome"), "chromium-driver": ("chromedriver",)}


def missing():
    """The packages, by Debian's names, that are not there."""
    found = [package for package, names in NEEDED.items() if not any(map(shutil.which, names))]
    return found + ([] if importlib.util.find_spec("selenium") else ["python3-selenium"])


def run(kind, names):
    """Runs the parts of these names, or all; the module `kind` has them and what opens a page. The answer is a status."""
    import counting

    module = importlib.import_module(kind)
    unknown = [name for name in names if name not in module.ALL]
    if unknown:
        print(f"no part is named {unknown[0]}; the parts: {', '.join(module.ALL)}")
        return 2
    return counting.run(module.ALL, module.opened, names or list(module.ALL), time.monotonic)


def main(names):
    if names[:1] == ["--node"]:
        return run("scripts", names[1:])
    lacking = missing()
    if lacking == ["python3-selenium"] and os.path.realpath(sys.executable) != os.path.realpath(SYSTEM_PYTHON):
        if os.access(SYSTEM_PYTHON, os.X_OK):
            os.execv(SYSTEM_PYTHON, [SYSTEM_PYTHON, os.path.dirname(os.path.abspath(__file__)), *names])
    if lacking:
        print(f"the tests of the page need what is not here: {', '.join(lacking)}")
        print(f"on Debian: apt-get install {' '.join(lacking)}; without a browser: python3 tests/pages --node")
        return 2
    return run("parts", names)


if __name__ == "__main__":
    sys.exit(main(sys.argv[1:]))
