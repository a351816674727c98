#!/usr/bin/env python3
"""Puts a page together from the files in this folder: build.py run|pair|play DATA.json OUT.html

The program does the same by `mta_lab page` and `mta_lab play`. ORDER of a page's folder names the parts of its script,
a line each, in the order in which they are joined."""

import base64
import hashlib
import html
import json
import pathlib
import sys

HERE = pathlib.Path(__file__).resolve().parent


class Page:
    """The files of a page: where they lie, the template's name, the styles, and what in the template is the data."""

    def __init__(self, crate, folder, template, styles, place, title):
        self.crate, self.folder, self.template, self.styles = crate, HERE / folder, template, styles
        self.place, self.title = place, title

    def read(self, name):
        return (self.folder / name).read_text(encoding="utf-8")

    def order(self):
        return self.read("ORDER").split()

    def script(self):
        return "".join(self.read(name) for name in self.order())

    def style(self):
        return "".join(self.read(name) for name in self.styles)

    def text(self, data_text):
        """The page of some data. In its JSON each `<` is escaped: so no text of a program ends the element it is in."""
        parts = {
            "TITLE": html.escape(self.title(json.loads(data_text))),
            "STYLE": self.style(),
            "STYLE_HASH": hash_of(self.style()),
            "SCRIPT": self.script(),
            "SCRIPT_HASH": hash_of(self.script()),
            self.place: data_text.replace("<", "\\u003c"),
        }
        # Each place is filled once, from the template alone: what a program's text holds is never looked at again.
        pieces = self.read(self.template).split("@")
        return "".join(piece if i % 2 == 0 else parts[piece] for i, piece in enumerate(pieces))


PAGES = {
    "run": Page("replay_page", ".", "page.html.template", ["base.css", "page.css"], "RUN",
                lambda run: run["name"] + ", " + run["schedule"]),
    "pair": Page("replay_page", "pair", "../page.html.template", ["../base.css", "../page.css", "pair.css"], "RUN",
                 lambda pair: pair["name"] + ", " + pair["schedule"]),
    "play": Page("schedule_page", "play", "play.html.template", ["../base.css", "play.css", "lecture.css"], "GRAPH",
                 lambda graph: graph["name"] + ", you are the scheduler"),
    "gallery": Page("lab_gallery", "gallery", "gallery.html.template", ["../base.css", "gallery.css"], "GALLERY",
                    lambda gallery: "You are the scheduler"),
}


def hash_of(text):
    """The hash that the page's policy names: of just the bytes between the tags."""
    return "sha256-" + base64.b64encode(hashlib.sha256(text.encode()).digest()).decode()


if __name__ == "__main__":
    kind, data_file, out_file = sys.argv[1:]
    text = PAGES[kind].text(pathlib.Path(data_file).read_text(encoding="utf-8"))
    pathlib.Path(out_file).write_text(text, encoding="utf-8")
