"""Names of data words: an address by its name means in each command what its number means, and a comment names a word only
where the rules say so."""

import json
import os
import re
import tempfile

import adapters
import checks
import tool

# a comment that is a name, one with words behind a colon, a label, and a line of two words
SOURCE = b""" .entry a
 .entry b
 .data 0 ; total
 .data 7 ; number: what is added
box: .data 0, 0 ; the box
 .fill 2, 0, 1 ; ring
a: LOAD.N r1, r0, 0
 LOAD.N r2, r0, 1
 ADD r1, r1, r2
 STORE.N r1, r0, 0
 STORE.S r1, r0, 2
 STORE.N r1, r0, 4
 QUIT
b: LOAD.N r1, r0, 0
 LOAD.N r2, r0, 1
 ADD r1, r1, r2
 STORE.N r1, r0, 0
 LOAD.S r1, r0, 2
 QUIT
"""
ADDRESSES = {
    0: ("[0]", "0x0", "[0x0]", "total", "[total]", "total+0"), 8: ("[8]", "number", "[number]"), 16: ("[16]", "box", "[box]"),
    24: ("[24]", "ring", "[ring]"), 32: ("[32]", "ring+1", "[ring+1]"),
}
# lines of expectations and claims by numbers, and the same by names
EXPECTED = (
    ("word 0 14", "word total 14"), ("word 0 14", "word [total] 14"), ("word 0 14", "  word\t[total] 14"),
    ("words 24..32 0", "words ring..ring+1 0"), ("words 24..32 0", "words [ring]..32 0"), ("sum 0..32 35", "sum total..[ring+1] 35"),
    ("word 0 is word 8 + 7", "word total is word number + 7 # twice"), ("word 16 7 empty", "word box 7 empty"),
    ("always word 0 below 9", "always word total below 9"), ("never word 16 full", "never word [box] full"),
    ("some word 32 is 14", "some word ring+1 is 14"), ("finished\nword 0 14", "finished\nword total 14"),
)
NO_NAME = b"names need a source text with a comment that is a name, as .data 0 ; total"
KNOWN = b"the names are total, number, box, ring"
# what is no name, and what is said of it
UNKNOWN = (
    ("totl", b"no word is named totl: did you mean total?"), ("[Number]", b"no word is named Number: did you mean number?"),
    ("ring+2", b"ring names 2 words, and ring+2 is none of them"), ("total+1", b"total names 1 word, and total+1 is none of them"),
    ("a", b"no word is named a: " + KNOWN), ("[elsewhere]", b"no word is named elsewhere: " + KNOWN),
    ("\x1b[2K", b"no word is named \\x1b[2K: " + KNOWN),
)
# comments of two words of data, and the names that they get
LONG = "n" * 32
COMMENTS = (
    (" ; one", " ; two", ("one", "two")), (" ; one", " ; one", (None, None)), (" ; one", " ; One", ("one", "One")),
    (" ; 8", " ; 8x", (None, None)), (" ;", " ; ", (None, None)), ("", " ;\tlast \t", (None, "last")),
    (" ; go", " ; go on", (None, None)), (" ; r1", " ; _", ("r1", "_")), (" ; the sum", " ; word 1: the sum", (None, None)),
    (" ; sum: so far", " ; sum", (None, None)), (" ; sum : so far", " ; max; and more", (None, "max")),
    (f" ; {LONG}", f" ; {LONG}n", (LONG, None)), (" ; z\u00e4hler", " ; gr\u00f6\u00dfe: so", (None, None)),
    (" ; [one]", " ; one,", (None, None)), (" ; one:", " ; : one", ("one", None)),
)


def lab(folder, *words, given=b""):
    return tool.call(*words, given=given, folder=folder, program=tool.LAB)


def with_folder(check, **files):
    """Calls a check with a folder that has these files."""
    with tempfile.TemporaryDirectory(prefix="mta-names-") as folder:
        for name, data in files.items():
            tool.write(os.path.join(folder, name.replace("_", ".")), data)
        return check(folder)


def as_written(text, lines):
    """What is said of lines by numbers, with the same lines by names, without comment, in their place."""
    for plain, named in lines:
        if plain != named:
            text = text.replace(plain, b" ".join(named.split(b"#")[0].split()))
    return text


def told(ended):
    return ended.status, ended.out, ended.err


@checks.others("lab/names_of_words")
def words_shown():
    """`view --word` and `debug` by each way to say an address."""
    for address, ways in ADDRESSES.items():
        for way in ways:
            def check(folder, address=address, way=way):
                lines = "print {0}\nwatch {0}\nwatch {0} tags\nx/2 {0}\n"
                both = []
                for text, brackets in ((str(address), f"[{address}]"), (way, way)):
                    viewed = lab(folder, "view", "p.asm", "--seed", "1", "--word", text)
                    said = lab(folder, "debug", "p.asm", "--seed", "1", given=lines.format(brackets).encode())
                    both.append((told(viewed), told(said)))
                return both[0], both[1]
            yield f"{address} as {way}", lambda check=check: with_folder(check, p_asm=SOURCE)


@checks.others("lab/names_in_expectations")
def expectations():
    """Expectations and claims by names judge as those by numbers, and are repeated as they were written."""
    for plain, named in EXPECTED:
        def check(folder):
            calls = (("survey", "p.asm", "--seeds", "20"), ("explore", "p.asm"), ("survey", "p.asm", "--seeds", "3", "--json"))
            both = [[told(lab(folder, *words, "--expect", file)) for words in calls] for file in ("1.x", "2.x")]
            lines = list(zip(*(tool.read(os.path.join(folder, file)).split(b"\n") for file in ("1.x", "2.x"))))
            both[0] = [(status, as_written(out, lines), err) for status, out, err in both[0]]
            verdicts = [lab(folder, "grade", "--seeds", "20", "--expect", file, "p.asm").status for file in ("1.x", "2.x")]
            return (both[0], verdicts[0]), (both[1], verdicts[1])
        yield named, lambda check=check, plain=plain, named=named: with_folder(
            check, **{"p_asm": SOURCE, "1_x": plain.encode() + b"\n", "2_x": named.encode() + b"\n"})


@checks.others("lab/names_unknown")
def unknown():
    """Names of no word."""
    for name, said in UNKNOWN:
        def check(folder, name=name, said=said):
            viewed = told(lab(folder, "view", "p.asm", "--word", name))
            debugged = lab(folder, "debug", "p.asm", given=f"watch {name}\n".encode()).out.split(b"\n")[1]
            wanted = said if "\x1b" not in name else b"watch takes a word or a register, as [8], [8] tags or r2"
            return ((1, b"", b"mta_lab: --word: " + said + b"\n"), wanted), (viewed, debugged)
        yield name, lambda check=check: with_folder(check, p_asm=SOURCE)
    for name in ("totl", "[a]"):
        def check(folder, name=name):
            shown = name.strip("[]").encode()
            said = lab(folder, "explore", "p.asm", "--expect", "w.x")
            graded = lab(folder, "grade", "--seeds", "2", "--expect", "w.x", "p.asm")
            reason = b"no word is named totl: did you mean total?" if shown == b"totl" else b"no word is named a: " + KNOWN
            marked = f"    2 | word {name} 0\n      |      {'^' * len(name)}\n".encode()
            return ((1, b"", b"w.x:2:6: error: " + reason + b"\n" + marked), True, True), (
                told(said), b"\tnot judged\t" in graded.out, reason in graded.out)
        yield f"expected {name}", lambda check=check, name=name: with_folder(
            check, p_asm=SOURCE, w_x=f"finished\nword {name} 0\n".encode())

    def of_image(folder):
        made = lab(folder, "asm", "p.asm", "--out", "p.img").status
        return (0, 1, b"", b"mta_lab: --word: no word is named total: " + NO_NAME + b"\n"), (
            made, *told(lab(folder, "view", "p.img", "--word", "total")))
    yield "of an image", lambda: with_folder(of_image, p_asm=SOURCE)


@checks.others("lab/names_of_comments")
def comments():
    """Which comments name their words: `debug` shows the names, and `check` warns of those that two lines have."""
    for one, two, names in COMMENTS:
        def check(folder, names=names):
            said = lab(folder, "debug", "p.asm", given=b"print [0]\nprint [8]\n").out.decode().split("\n")[1:3]
            shown = tuple(line.removeprefix(f"[{at}]").removesuffix(" 0, full").strip() or None for at, line in zip((0, 8), said))
            return names, shown
        source = f" .entry go\n .data 0{one}\n .data 0{two}\ngo: QUIT\n".encode()
        yield f"{one} {two}", lambda check=check, source=source: with_folder(check, p_asm=source)
    twice = b" .entry go\n .data 0 ; go\n .data 0 ; one\n .data 0 ;   one: so\ngo: QUIT\n"

    def warned(folder):
        said = lab(folder, "check", "p.asm").err.decode().split("\n")
        found = [line for line in said if "warning" in line]
        return ["p.asm:2:12: warning: go names no word: line 5 has this name too (explain 114)",
                "p.asm:3:12: warning: one names no word: line 4 has this name too (explain 114)",
                "p.asm:4:14: warning: one names no word: line 3 has this name too (explain 114)"], found
    yield "warnings", lambda: with_folder(warned, p_asm=twice)


@checks.others("lab/names_in_editors")
def editors():
    """An editor shows the words by their names, and takes these for them; a register and a stream's parts go first."""
    def check(folder):
        path = os.path.join(folder, "p.asm")
        with adapters.adapter() as editor:
            editor.launched(path, None, steps=None)
            shown = [editor.body("evaluate", expression=name)["result"] for name in ("total", "[number]", "ring+1", "box", "a")]
            words = editor.body("variables", variablesReference=0x40000, start=0, count=5)["variables"]
            watched = [editor.body("dataBreakpointInfo", **it)["dataId"] for it in (
                {"name": "total"}, {"name": "[0] total", "variablesReference": 0x40000}, {"name": "totl"}, {"name": "r1"},
                {"name": "status", "variablesReference": 1})]
            points = editor.body("setDataBreakpoints", breakpoints=[{"dataId": it} for it in ("total", "box full/empty", "totl")])
            return shown, [(it["name"], it["value"]) for it in words], watched, [it["verified"] for it in points["breakpoints"]]
    names = [("[0] total", "0, full"), ("[8] number", "7, full   what is added"), ("[16] box", "0, empty   the box"),
             ("[24] ring", "0, full"), ("[32] ring+1", "0, full")]
    wanted = (["0, full", "7, full", "0, full", "0, empty", "a: LOAD.N r1, r0, 0"], names, ["total", "[0] total", None, None, None],
              [True, True, False])
    yield "words", lambda: (wanted, with_folder(check, p_asm=SOURCE))


# what JSON has of the names: the first address of a line, how many words it adds, its name
JSON_NAMES = [[0, 1, "total"], [8, 1, "number"], [16, 1, "box"], [24, 2, "ring"]]
# before the lanes of a picture: each word, and of its comment without the name as much as has room
PICTURED = [("[0] total", ""), ("[8] number", "what is adde\u2026"), ("[16] box", "the box"), ("[32] ring+1", "")]
LONG_NAMED = [("[0] a_name_of_many_l\u2026", "")]
WAITING = b" .entry 0\n .data 0, 0 ; a_name_of_many_letters: and more\n LOAD.S r1, r0, 0\n"


@checks.others("lab/names_in_pages")
def pages():
    """JSON, pages and pictures have the names, and `compare` shows them where states differ."""
    def data(folder):
        runs = [json.loads(lab(folder, "view", "p.asm", "--seed", "1", "--json").out.split(b"\n")[0])]
        for words in (("page", "p.asm", "--seed", "1"), ("page", "p.asm", "--seeds", "1", "2"), ("play", "p.asm")):
            lab(folder, *words, "--out", "made.html")
            text = tool.read(os.path.join(folder, "made.html")).decode()
            runs.append(json.loads(re.search(r'id="(?:run|graph-data)">(.*?)</script>', text, re.DOTALL).group(1)))
        return [JSON_NAMES] * 4, [run["names"] for run in runs]
    yield "data", lambda: with_folder(data, p_asm=SOURCE)

    def pictured(folder):
        both = []
        for name, how in (("p.asm", "--fair"), ("w.asm", "w.schedule")):
            lab(folder, "picture", name, how, "--out", "made.svg")
            both.append(tool.read(os.path.join(folder, "made.svg")).decode())
        lanes = [re.findall(r'class="name"[^>]*>(\[[^<]*)</text><text class="note"[^>]*>([^<]*)', one) for one in both]
        return ([PICTURED, LONG_NAMED], True), (lanes, ">waits for [0] a_name_of_ma\u2026 full<" in both[1])
    yield "pictures", lambda: with_folder(pictured, p_asm=SOURCE, w_asm=WAITING, w_schedule=b"0 0 1\n")

    def compared(folder):
        said = lab(folder, "compare", "p.asm", "1.schedule", "2.schedule").out.decode().split("\n")[1]
        return "position 4: 0.0.pc 4 | 3, 1.0.pc 7 | 8, [0] total 7 | 0", said
    yield "compare", lambda: with_folder(
        compared, **{"p_asm": SOURCE, "1_schedule": b"0 0 4\n", "2_schedule": b"0 0 3\n1 0 1\n"})


# a program that doubles [0] into [8], and names [0]; cells of a case, its expectations, the verdict and why
DOUBLES = b" .entry go\n .data 1 ; output\n .data 0\ngo: LOAD.N r1, r0, 0\n ADD r1, r1, r1\n STORE.N r1, r0, 1\n QUIT\n"
NAMED_CASES = (
    (b" .data 3 ; input\n .data 0 ; result: twice\n", b"word result 6\nword [input] 3\n", "right", ""),
    (b" .data 3 ; input\n .data 0 ; result: twice\n", b"never word result is 6\n", "wrong", "never word result is 6"),
    (b" .data 3\n .data 0 ; the double\n", b"word output 3\n", "right", ""),
    (b" .data 3 ; input\n .data 0\n", b"word output 6\n", "not judged", "no word is named output: the names are input"),
)


@checks.others("grade/names_of_cells")
def cells():
    """Names in a case's expectations are those of its cells, and where these have none, those of the submission."""
    for number, (data, wanted, verdict, why) in enumerate(NAMED_CASES):
        def check(folder, verdict=verdict, why=why):
            ways = (("--expect", "a.expect", "--given", "a.data"), ("--explore", "--expect", "a.expect", "--given", "a.data"))
            said = [lab(folder, "grade", *way, "p.asm").out.decode().split("\n")[-2] for way in ways]
            os.mkdir(os.path.join(folder, "cases"))
            for name in "a.data", "a.expect":
                os.rename(os.path.join(folder, name), os.path.join(folder, "cases", name))
            said.append(lab(folder, "grade", "--cases", "cases", "p.asm").out.decode().split("\n")[-2])
            return [("p.asm", verdict, True)] * 3, [(*one.split("\t")[:2], why in one) for one in said]
        yield f"{number}", lambda check=check, data=data, wanted=wanted: with_folder(
            check, p_asm=DOUBLES, a_data=data, a_expect=wanted)
