"""What grade prints as JUnit's XML, read by programs that others wrote: xmllint by the schema share/schema/junit.xsd, and the
Python library junitparser, each where it is there (Debian's packages libxml2-utils and python3-junitparser)."""

import json
import os
import shutil
import subprocess
import tempfile

import checks
import table
import tool
from of_grades import lab, made

SCHEMA = os.path.join(table.ROOT, "share/schema/junit.xsd")
# who may have the library: Debian's own Python has its packages, another one may not
PYTHONS = ("python3", "/usr/bin/python3")
# prints a list of suites: the name, the counts, and for each case its names and what it came to
READER = """
import json, sys
from junitparser import JUnitXml
suites = JUnitXml.fromfile(sys.argv[1])
print(json.dumps([[suite.name, suite.tests, suite.failures, suite.errors, suite.skipped,
                   [[case.classname, case.name, [[type(it).__name__, it.type] for it in case.result]] for case in suite]]
                  for suite in suites]))
"""
SUBMISSIONS = {
    "one.asm": b" .entry 0\n LIT r1, 1\n STORE.N r1, r0, 0\n QUIT\n .data 7\n",
    "two<&>\".asm": b" .entry 0\n LIT r1, 2\n STORE.N r1, r0, 0\n QUIT\n .data 7\n",
    "fault.asm": b" LOAD.N 5\n",
    "M\u00fcller.asm": b" .entry 0\n LOAD.N r1, r0, 9\n QUIT\n .data 7\n",
    "waits.asm": b" .entry 0\n LOAD.S r1, r0, 0\n LOAD.S r1, r0, 0\n QUIT\n .data 7\n",
}
# the cases of a submission, each with what it came to
WANTED = {
    "one.asm": [["first", []], ["second", [["Failure", "wrong"]]]],
    "two<&>\".asm": [["first", [["Failure", "wrong"]]], ["second", []]],
    "fault.asm": [["program", [["Error", "source fault"]]]],
    "M\u00fcller.asm": [["first", [["Failure", "trap"]]], ["second", [["Failure", "trap"]]]],
    "waits.asm": [["first", [["Failure", "deadlock"]]], ["second", [["Failure", "deadlock"]]]],
}


def class_in(folder, *words):
    """A class of all kinds, judged by two cases; the file with what grade printed."""
    for name, text in SUBMISSIONS.items():
        made(folder, name, text)
    for name, value in (("first", 1), ("second", 2)):
        made(folder, f"cases/{name}.data", b" .data 0\n")
        made(folder, f"cases/{name}.expect", f"points {value}\nword 0 {value}\n".encode())
    printed = lab("grade", "--cases", "cases", *words, "--format", "junit", *SUBMISSIONS, folder=folder).out
    made(folder, "report.xml", printed)
    return os.path.join(folder, "report.xml")


def reader():
    """A Python that has the library; None where none has."""
    for python in PYTHONS:
        try:
            subprocess.run([python, "-c", "import junitparser"], check=True, capture_output=True)
        except (OSError, subprocess.CalledProcessError):
            continue
        return python
    return None


@checks.others("grade/junit_by_schema")
def by_schema():
    """xmllint finds each report right by the schema, and one with another element wrong."""
    if not shutil.which("xmllint"):
        checks.passed_over("grade/junit_by_schema", "xmllint")
        return
    for words in ((), ("--explore",), ("--thorough",)):
        with tempfile.TemporaryDirectory(prefix="mta-case-") as folder:
            report = class_in(folder, *words)
            call = ["xmllint", "--noout", "--schema", SCHEMA]
            yield f"{words}", 0, subprocess.run([*call, report], capture_output=True, check=False).returncode
            text = tool.read(report).replace(b"<failure ", b"<failed ").replace(b"</failure>", b"</failed>")
            made(folder, "other.xml", text)
            ended = subprocess.run([*call, os.path.join(folder, "other.xml")], capture_output=True, check=False)
            yield f"{words}: another element", 3, ended.returncode


@checks.others("grade/junit_by_library")
def by_library():
    """The library reads the suites, their counts, and what each case came to."""
    python = reader()
    if python is None:
        checks.passed_over("grade/junit_by_library", "junitparser")
        return
    with tempfile.TemporaryDirectory(prefix="mta-case-") as folder:
        report = class_in(folder)
        said = subprocess.run([python, "-c", READER, report], capture_output=True, check=True).stdout
    suites = {suite[0]: suite[1:] for suite in json.loads(said)}
    yield "names", list(SUBMISSIONS), list(suites)
    for name, (tests, failures, errors, skipped, cases) in suites.items():
        kinds = [result[0][0] if result else "" for _, _, result in cases]
        counts = [len(cases), kinds.count("Failure"), kinds.count("Error"), kinds.count("Skipped")]
        yield f"counts of {name}", counts, [tests, failures, errors, skipped]
        yield f"cases of {name}", WANTED[name], [[case, result] for _, case, result in cases]
