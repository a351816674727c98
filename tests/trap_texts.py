#!/usr/bin/env python3
"""What a trap means is said in one text each: by view and explore, on the pages, and by explain. This compares the three."""

import os
import re
import sys

ROOT = os.path.dirname(os.path.dirname(os.path.abspath(__file__)))


def read(path):
    with open(f"{ROOT}/{path}", encoding="utf-8") as file:
        return file.read()


def of_runs():
    """Of each trap's name the text of view and explore."""
    text = read("crates/lab_texts/src/values.rt")
    names = dict(re.findall(r'TrapKind::(\w+) => "([A-Z0-9]+)",', text))
    words = re.findall(r'TrapKind::(\w+) => "([a-z][^"]*)",', text)
    return {names[kind]: said for kind, said in words}


def of_pages():
    """The same on the pages."""
    return dict(re.findall(r'^  "([A-Z0-9]+): ([^"]+)",$', read("page/values.js"), re.M))


def of_explain():
    """Of each trap's name the first sentence of explain."""
    return dict(re.findall(r"^Trap \d+, ([A-Z0-9]+): (.*?)\.(?: |$)", read("docs/words/outcomes.txt"), re.M))


def main():
    runs, pages, explained = of_runs(), of_pages(), of_explain()
    wrong = [f"trap {name}: view says '{said}', the pages '{pages.get(name)}', explain '{explained.get(name)}'"
             for name, said in runs.items() if pages.get(name) != said or explained.get(name) != said]
    if len(runs) != 10 or set(runs) != set(pages) or set(runs) != set(explained):
        wrong.append(f"not ten traps in each: {sorted(runs)}, {sorted(pages)}, {sorted(explained)}")
    if wrong:
        print("\n".join(wrong))
    return 1 if wrong else 0


if __name__ == "__main__":
    sys.exit(main())
