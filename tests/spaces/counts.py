#!/usr/bin/env python3
"""counts.py SOURCE: how many worlds the program has and how many steps lead from one to another, by a search with the
machine of the tests' own, as the data of a page of `mta_lab play` have it."""

import sys

sys.dont_write_bytecode = True

import search
import sources

with open(sys.argv[1], encoding="utf-8") as source:
    space = search.Space(sources.read(source.read()), (), 200_000)
print(f'"counted":{{"states":{len(space.distance)},"steps":{space.steps()}}}')
