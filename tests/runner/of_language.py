"""Sessions of editors that ask of source texts: what each request is answered, and that diagnostics, layouts and other names
are those of `check`, `fmt` and the assembler."""

import glob
import json
import os
import random
import subprocess

import checks
import languages
import of_layouts
import of_slips
import table
import tool
from languages import URI, client, place_of, raw_client
from of_lab import EXAMPLES, lab

# how many damaged messages and changes there are; TIMES in the environment for more
TIMES = int(os.environ.get("TIMES", "1"))
DAMAGED, CHANGES = 1000 * TIMES, 10_000 * TIMES

CAPABILITIES = {
    "textDocumentSync": {"openClose": True, "change": 1}, "hoverProvider": True,
    "completionProvider": {"triggerCharacters": ["."]}, "definitionProvider": True, "referencesProvider": True,
    "documentSymbolProvider": True, "renameProvider": True, "documentFormattingProvider": True,
    "codeActionProvider": {"codeActionKinds": ["quickfix"]}}

# labels that are registers, conditions and operations too, used in each place that takes a label
TEXT = """        .entry again            ; Z\u00e4hler \U0001f600 here
        .trap LTU
        .data 5                 ; count: so often
box:    .fill 2, 0, 1
r5:     LIT r5, r5
again:  SUB.T r5, r5, 1 | SKIP LTU, 0, LTU
        LOAD.S r1, r0, -1
ADD:    ADD r1, r1, 1
        @2 SKIP NE, 0, ADD
        TLIT t0, again
LTU:    QUIT
"""

MARK = "\ufeff"


def paths():
    """The programs of the repository."""
    return sorted(glob.glob(os.path.join(table.ROOT, "examples", "**", "*.asm"), recursive=True)
                  + glob.glob(os.path.join(table.ROOT, "exercises", "**", "*.asm"), recursive=True))


def text_of(path):
    with open(path, encoding="utf-8") as file:
        return file.read()


def wanted(text):
    """The diagnostics of a text, by what check says of it."""
    found = []
    lines = text.encode().split(b"\n")
    for row in lab("check", "--json", "-", given=text.encode()).out.splitlines():
        it = json.loads(row)
        line = lines[it["line"] - 1] if it["line"] <= len(lines) else b""
        start, end = (languages.units(line[:at].decode(errors="replace")) for at in (it["column"] - 1, it["column"] - 1 + it["width"]))
        number = it["number"]
        found.append({
            "range": {side: {"line": it["line"] - 1, "character": at} for side, at in (("start", start), ("end", end))},
            "severity": 1 if it["severity"] == "error" else 2,
            **({"code": ("E" if it["severity"] == "error" else "") + str(number)} if number is not None else {}),
            "source": "mta_lab", "message": it["message"] + ("\n" + it["help"] if it["help"] else ""),
            **({"tags": [1]} if number == 101 else {}),
            **({"relatedInformation": [related(lines, other) for other in it["related"]]} if it["related"] else {})})
    return found


def related(lines, it):
    """Another place that a message is about, as the protocol has it."""
    line = lines[it["line"] - 1]
    start, end = (languages.units(line[:at].decode(errors="replace")) for at in (it["column"] - 1, it["column"] - 1 + it["width"]))
    return {"location": {"uri": URI, "range": {side: {"line": it["line"] - 1, "character": at}
                                               for side, at in (("start", start), ("end", end))}}, "message": it["message"]}


@checks.others("language/life")
def life():
    """The begin and the end of a session, and what is refused when."""
    with raw_client() as session:
        yield "before initialize", -32002, session.error("textDocument/hover", **place_of(0, 0))[0]
        session.opens("  QUITE\n")
        found = session.ask("initialize", capabilities={"general": {"positionEncodings": ["utf-8"]}})
        yield "capabilities", CAPABILITIES, found["capabilities"]
        yield "initialize again", -32600, session.error("initialize", capabilities={})[0]
        yield "no such method", -32601, session.error("textDocument/foldingRange", textDocument={"uri": URI})[0]
        yield "no such text", -32602, session.error("textDocument/hover", **place_of(0, 0))[0]
        session.notify("textDocument/nonsense", {})
        session.notify("textDocument/didChange", {"textDocument": {"uri": URI}, "contentChanges": [{"text": " QUITE\n"}]})
        session.say({"id": "a \u00e4\"", "method": "shutdown"})
        yield "shutdown", {"jsonrpc": "2.0", "id": "a \u00e4\"", "result": None}, session.response()
        yield "after shutdown", -32600, session.error("textDocument/hover", **place_of(0, 0))[0]
        session.notify("exit", {})
        yield "exit", (None, 0, []), (session.next(), session.process.wait(), session.kept)
    with client() as session:
        session.say({"id": 7, "method": "shutdown", "params": None})
        yield "shutdown with null", {"jsonrpc": "2.0", "id": 7, "result": None}, session.response()
        session.say({"method": "exit", "params": None})
        yield "exit with null", (None, 0), (session.next(), session.process.wait())
    with client() as session:
        session.notify("exit")
        yield "exit without shutdown", 1, session.process.wait()
    for words, status in (([], 1), (["shutdown"], 0)):
        with client() as session:
            for word in words:
                session.ask(word)
            session.process.stdin.close()
            yield f"the end of the input after {words}", status, session.process.wait()
    ended = subprocess.run([tool.LAB, "lsp", "more"], capture_output=True, timeout=tool.PATIENCE, check=False)
    yield "a word more", 2, ended.returncode


@checks.others("language/cancelled")
def cancelled():
    """A request that is cancelled is answered as any other, in its turn, and to the notification itself there is no answer."""
    def symbols(name):
        session.say({"id": name, "method": "textDocument/documentSymbol", "params": {"textDocument": {"uri": URI}}})

    with client(TEXT) as session:
        session.diagnostics()
        symbols("first")
        for params in ({"id": "first"}, {"id": 99}, None):
            session.notify("$/cancelRequest", params)
        symbols("second")
        found = [session.response() for _ in range(2)]
        yield ("each once", ([("first", 6), ("second", 6)], []),
               ([(it["id"], len(it["result"])) for it in found], session.kept))
        yield "and nothing more", (0, None), (session.ends(), session.next())


@checks.others("language/diagnostics")
def diagnostics():
    """The diagnostics of each program and of each slip are the messages of check."""
    for path in paths():
        yield os.path.relpath(path, table.ROOT), lambda path=path: same(text_of(path))
    for row in table.rows("lab_check/slips.tsv"):
        name, base, changed = row.fields[:3]
        yield name, lambda base=base, changed=changed: same(of_slips.program(base, changed).decode())
    yield "letters beyond ASCII", lambda: same(TEXT + " LIT r1 ; \u00e4 \U0001f600\n QUITE ; \U0001f600\n")
    yield "a letter of two units", lambda: same(" .data 0 ; x\U0001f600\u00e4\U0001f600 here\n QUIT\n")
    yield "no text", lambda: same("")


def same(text):
    with client(text) as session:
        return wanted(text), session.diagnostics()


def spans(first, last):
    """The parameters that name lines from one to another."""
    return {"range": {"start": {"line": first, "character": 0}, "end": {"line": last, "character": 0}}}


@checks.others("language/actions")
def actions():
    """Each fix of each slip, applied by the server's edit, gives fewer errors, or of a warning no error and fewer messages; the
    fixes are those of check. None is given where others are asked for, and on other lines."""
    for row in table.rows("lab_check/slips.tsv"):
        name, base, changed = row.fields[:3]
        yield name, lambda base=base, changed=changed: all_fixed(of_slips.program(base, changed).decode())
    yield "letters beyond ASCII", lambda: all_fixed(TEXT.replace("        LOAD.S", "        LOAD.X") + " QUITE ; \u00e4 \U0001f600\n")
    with client(" .entry 0\n .data 0\n        QUITE\n") as session:
        def titles(first, last, **context):
            return [it["title"] for it in session.of("codeAction", **spans(first, last), context={"diagnostics": [], **context})]

        yield "a fix", ["write QUIT"], titles(2, 2)
        yield "on its line", ["write QUIT"], titles(0, 9)
        yield "on another line", [], titles(1, 1)
        yield "quick fixes alone", ["write QUIT"], titles(2, 2, only=["refactor", "quickfix"])
        yield "no quick fixes", [], titles(2, 2, only=["source.organizeImports"])
        yield "no kind", [], titles(2, 2, only=[])
        yield "no lines", -32602, session.error("textDocument/codeAction", textDocument={"uri": URI}, context={})[0]


def all_fixed(text):
    """The fixes that check has for a text, and those of the server; and the titles of those that do not mend it."""
    told = [json.loads(row) for row in lab("check", "--json", "-", given=text.encode()).out.splitlines()]
    errors = sum(it["severity"] == "error" for it in told)
    with client(text) as session:
        found = session.of("codeAction", **spans(0, text.count("\n")), context={"diagnostics": []})
    failed = []
    for it in found:
        made = languages.edited(text, it["edit"]["changes"][URI])
        left = [json.loads(row)["severity"] for row in lab("check", "--json", "-", given=made.encode()).out.splitlines()]
        is_error = it["diagnostics"][0]["severity"] == 1
        if left.count("error") >= errors if is_error else "error" in left or len(left) >= len(told):
            failed.append(it["title"])
    titles = [fix["title"] for it in told for fix in it["fixes"]]
    return (titles, [], {"quickfix"} if titles else set()), ([it["title"] for it in found], failed, {it["kind"] for it in found})


@checks.others("language/line_ends")
def line_ends():
    """A text whose lines end with CR LF or CR has the diagnostics of the one whose lines end with LF."""
    text = TEXT + " QUITE\n"
    for end in ("\r\n", "\r"):
        with client(text.replace("\n", end)) as session:
            yield repr(end), wanted(text), session.diagnostics()
            session.changes(TEXT.replace("\n", end))
            edits = session.at("rename", 5, 1, newName="once")["changes"][URI]
            made = languages.edited(TEXT.replace("\n", end), edits)
            yield f"{end!r} renamed", TEXT.replace("again", "once").replace("\n", end), made


@checks.others("language/mark")
def mark():
    """A text that begins with a byte order mark: check's warning of it comes too, and the mark is one unit of the first line."""
    text = "again:  QUITE\n        SKIP ALWAYS, 0, again\n        .entry again\n        .data 0\n"
    with client(MARK + text) as session:
        found = session.diagnostics()
        warning, *rest = found
        yield "the warning", ("106", 2, "a byte order mark stands before the text"), (
            warning["code"], warning["severity"], warning["message"].partition("\n")[0])
        yield "the others", [moved(it) for it in wanted(text)], rest
        yield "as many as check has", len(lab("check", "--json", "-", given=(MARK + text).encode()).out.splitlines()), len(found)
        label = {side: {"line": 0, "character": at} for side, at in (("start", 1), ("end", 6))}
        yield "a label of the first line", label, session.at("definition", 1, 26)["range"]
        loose = text.replace("QUITE", " QUIT")
        session.changes(MARK + loose)
        edits = session.at("rename", 0, 1, newName="once")["changes"][URI]
        yield "another name", MARK + loose.replace("again", "once"), languages.edited(MARK + loose, edits)
        edits = session.of("formatting", options={"tabSize": 8, "insertSpaces": True})
        yield "the layout", MARK + text.replace("QUITE", "QUIT"), languages.edited(MARK + loose, edits)


def moved(diagnostic):
    """A diagnostic of the same text without the mark: on the first line all stands a unit further right."""
    return {**diagnostic, "range": {side: {**place, "character": place["character"] + (place["line"] == 0)}
                                    for side, place in diagnostic["range"].items()}}


def at(word, line):
    """The position of the first place of a word on a line of TEXT."""
    text = TEXT.splitlines()[line]
    return line, languages.units(text[:text.index(word)])


@checks.others("language/places")
def places():
    """Where labels stand and are used, also those that are called as something else."""
    wanted_places = {"again": [(5, 0, True), (0, 15, False), (9, 17, False)], "r5": [(4, 0, True), (4, 16, False)],
                     "LTU": [(10, 0, True), (1, 14, False), (5, 39, False)], "ADD": [(7, 0, True), (8, 23, False)]}
    with client(TEXT) as session:
        for name, spots in wanted_places.items():
            for line, character, is_label in spots:
                found = session.at("definition", line, character)
                yield f"{name} at {line}", (spots[0][:2]), place_in(found)
                found = session.at("references", line, character, context={"includeDeclaration": is_label})
                yield (f"uses of {name} at {line}", sorted(spot[:2] for spot in spots if is_label or not spot[2]),
                       [place_in(it) for it in found])
        for line, character in ((5, 25), (4, 8), (4, 12), (7, 8), (0, 40), (3, 30)):
            yield f"no label at {line}, {character}", (None, []), (
                session.at("definition", line, character), session.at("references", line, character))
        found = [(it["name"], it["detail"], it["kind"], it["range"]["start"]["line"]) for it in session.of("documentSymbol")]
        yield ("symbols", sorted([("r5", "0", 12, 4), ("again", "1", 12, 5), ("ADD", "3", 12, 7), ("LTU", "6", 12, 10),
                                  ("count", "[0]", 8, 2), ("box", "[8]", 8, 3)]), sorted(found))


def place_in(location):
    start = location["range"]["start"]
    return start["line"], start["character"]


@checks.others("language/hover")
def hover():
    """What is said of what stands at a place, in plain text; null in a comment."""
    with client(TEXT) as session:
        def said(word, line):
            found = session.at("hover", *at(word, line))
            return found and found["contents"]["value"]

        def explained(*words):
            return lab("explain", *words).out.decode().rstrip()

        yield "an operation with its access", explained("LOAD.S"), said("LOAD.S", 6)
        yield "a condition", explained("NE"), said("NE", 8)
        yield "a directive", "[0]: count\n\n" + explained(".data"), said(".data", 2)
        yield "words of data", "[8] to [16]: box\n\n" + explained(".fill"), said(".fill", 3)
        yield "a label", "again = 1, line 6; used on line 1, 10", said("again", 5)
        yield "its use", "ADD = 3, line 8; used on line 9", said("ADD", 8)
        yield "a number below 0", "-1 = 0xFFFFFFFFFFFFFFFF", said("-1", 6)
        yield "a number", "5 = 0x5", said("5 ", 2)
        yield "a register", None, said("r1", 6)
        yield "a comment", None, said("here", 0)
        kinds = session.at("hover", *at("QUIT", 10))["contents"]["kind"]
        yield "plain text", "plaintext", kinds
        yield "behind the end", True, session.at("hover", 10, 999)["contents"]["value"].startswith("QUIT")
    numbers = ((1, "9223372036854775807 = 0x7FFFFFFFFFFFFFFF"),
               (2, "9223372036854775808 = 0x8000000000000000, signed -9223372036854775808"),
               (3, "18446744073709551615 = 0xFFFFFFFFFFFFFFFF, signed -1"))
    with client(" .entry go\n .data 0x7FFFFFFFFFFFFFFF\n .data 0x8000000000000000\n .data 0xFFFFFFFFFFFFFFFF\n"
                "go: QUIT\n") as session:
        for line, words in numbers:
            yield words, words, session.at("hover", line, 9)["contents"]["value"]


@checks.others("language/completion")
def completion():
    """What may be written at a place, and which part of the line it takes the place of."""
    def labels(line, text=TEXT):
        with client(text + line) as session:
            items = session.at("completion", text.count("\n"), languages.units(line))["items"]
            if any(it["label"] != it["textEdit"]["newText"] for it in items):
                return "a label is not what is written"
            return sorted(it["label"] for it in items), replaced(items)

    def has(line, *names, span, without=(), text=TEXT):
        found, spans = labels(line, text)
        return ([], [], {span}), ([name for name in names if name not in found], [name for name in without if name in found], spans)

    yield "a statement", *has("        LO", "LOAD", "LOAD.S", "ADD.T", "QUIT", "LIT", span=(8, 10), without=("PURGE", ".data", "r1"))
    yield "behind a label", *has("x: ", "STORE.N", span=(3, 3))
    yield "behind a bar", *has("  LOAD.N r1, r0, 0 | AD", "ADD", span=(21, 23))
    yield "of Profile 2", *has("PU", "PURGE", span=(0, 2), text=".profile 2\n")
    yield "a directive", *has("        .da", ".data", ".entry", span=(8, 11), without=("LOAD", ".chain"))
    yield "a condition", *has("  SKIP N", "NE", "ALWAYS", span=(7, 8), without=("again", "r1"))
    yield "a label", *has("  SKIP NE, 0, ", "again", "ADD", "box", span=(14, 14), without=("r1", "NE"))
    yield "a register", *has("  ADD r1, ", "r0", "r31", span=(10, 10), without=("t0", "ADD"))
    yield "a target register", *has("  JUMP NE, 0, t", "t0", "t7", span=(14, 15), without=("r1", "t8"))
    yield "nothing in a comment", ([], set()), labels("  ADD r1, r1, r2 ; AD")
    # the letter takes the units 4 and 5: between them means before it
    with client("  LO\U0001f600\n") as session:
        for character, end in ((4, 4), (5, 4), (6, 6)):
            found = session.at("completion", 0, character)["items"]
            yield f"at a letter of two units, {character}", {(2, end)}, replaced(found)


def replaced(items):
    """The parts of a line that the items of a completion take the place of."""
    ranges = [it["textEdit"]["range"] for it in items]
    return {(it["start"]["character"], it["end"]["character"]) for it in ranges}


@checks.others("language/renamed")
def renamed():
    """Each label of each right program gets another name, and the image stays; so do labels that are called as something
    else."""
    for path in paths():
        if lab("check", path).status == 0:
            yield os.path.relpath(path, table.ROOT), lambda path=path: all_renamed(text_of(path))
    yield "labels that are something else", lambda: all_renamed(TEXT)
    yield "refused", lambda: refused_names()


def all_renamed(text):
    """All labels renamed, one after another: the image, and those whose renaming changed nothing."""
    image, made, kept = of_layouts.image_of(text.encode()), text, []
    with client(text) as session:
        names = [(it["name"], it["range"]["start"]) for it in session.of("documentSymbol") if it["kind"] == 12]
        for index, (name, start) in enumerate(names):
            found = session.at("rename", start["line"], start["character"], newName=f"other_{index}")
            before, made = made, languages.edited(made, found["changes"][URI])
            session.changes(made)
            kept += [name] if made == before else []
    return (True, image, []), (image is not None, of_layouts.image_of(made.encode()), kept)


def refused_names():
    """Names that are none, that stand already, a place without a label, and a text with an error."""
    def refusal(line, character, name):
        return session.error("textDocument/rename", **place_of(line, character), newName=name)[0]

    with client(TEXT) as session:
        found = [refusal(5, 0, name) for name in ("", "1x", "a b", "a" * 33, "\u00e4", "r5", "box")]
        found += [refusal(6, 8, "other"), refusal(0, 40, "other"), session.error("textDocument/rename", **place_of(5, 0))[0]]
        kept = session.at("rename", 5, 0, newName="NE")["changes"][URI]
        session.changes(TEXT + " QUITE\n")
        found.append(refusal(5, 0, "other"))
    return ([-32602] * 11, 3), (found, len(kept))


@checks.others("language/layouts")
def layouts():
    """The edits of a layout, applied, make what fmt writes, of each right program with random blanks. A text with an error has
    none."""
    for path in paths():
        if lab("check", path).status == 0:
            yield os.path.relpath(path, table.ROOT), lambda path=path: laid_out(loosened(text_of(path)))
    yield "without an end of the last line", lambda: laid_out(TEXT.rstrip("\n"))
    yield "CR LF", lambda: laid_out(loosened(TEXT).replace("\n", "\r\n"))
    yield "an error", lambda: ([], formatted(" QUITE\n"))


def formatted(text):
    with client(text) as session:
        return session.of("formatting", options={"tabSize": 8, "insertSpaces": True})


def laid_out(text):
    """What the edits make, and what fmt writes; and whether each edit stands on one line."""
    edits = formatted(text)
    made = languages.edited(text, edits).replace("\r\n", "\n")
    on_lines = all(it["range"]["start"]["line"] == it["range"]["end"]["line"] for it in edits)
    return (lab("fmt", "-", given=text.encode()).out.decode(), True), (made, on_lines)


def loosened(text):
    """A text with random blanks at its lines' begins and ends, and behind its commas."""
    chooser, lines = random.Random(text), []
    for line in text.splitlines():
        code, sign, comment = line.partition(";")
        lines.append(" " * chooser.randrange(4) + code.replace(", ", chooser.choice([",", ", ", " ,\t"])) + sign + comment
                     + " " * chooser.randrange(3))
    return "\n".join(lines) + "\n"


@checks.others("language/changes")
def many_changes():
    """After many changes in a row the last diagnostics are those of the last text, and of its version. Versions skip."""
    with client(TEXT) as session:
        for number in range(CHANGES):
            session.changes(TEXT + f" LIT r1, {number}\n QUITE\n")
        session.version += 5
        session.changes(TEXT + " QUITE\n QUITS\n")
        yield "changes", wanted(TEXT + " QUITE\n QUITS\n"), session.diagnostics(session.version)
        session.changes(" .entry 0\n .data 0\n        QUITE\n")
        found = session.of("codeAction", **spans(2, 2), context={"diagnostics": []})
        yield "asked at once", ["write QUIT"], [it["title"] for it in found]
        yield "and its diagnostics", wanted(" .entry 0\n .data 0\n        QUITE\n"), session.diagnostics(session.version)
        session.notify("textDocument/didClose", {"textDocument": {"uri": URI}})
        yield "closed", [], session.diagnostics()
        yield "and then not there", -32602, session.error("textDocument/hover", **place_of(0, 9))[0]
        yield "the end", 0, session.ends()


@checks.others("language/limits")
def limits():
    """A long text with many messages: so many are sent at most. So many texts at most are open."""
    text = "".join(" QUITE\n" if number % 8 == 0 else " LIT r1, 1 ; a, b: c [d] {e}\n" for number in range(65_536))
    with client(text) as session:
        found, full = session.diagnostics(), wanted(text)
        yield "so many messages", (501, full[:500]), (len(found), found[:500])
        yield "and one that counts the others", (f"{len(full) - 500} more messages: mta_lab check says all", 0), (
            found[500]["message"], found[500]["range"]["start"]["line"])
    with client(" .entry 0\n .data 0\n" + " QUITE\n" * 501) as session:
        yield "and one that counts one", "1 more message: mta_lab check says all", session.diagnostics()[-1]["message"]
    with client() as session:
        for number in range(101):
            session.opens(" QUITE\n", uri=f"file:///{number}.mta")
        session.ask("textDocument/documentSymbol", textDocument={"uri": "file:///99.mta"})
        yield "texts", -32602, session.error("textDocument/documentSymbol", textDocument={"uri": "file:///100.mta"})[0]
        found = {}
        while len(found) < 101:
            message = session.kept.pop(0) if session.kept else session.next()
            found[message["params"]["uri"]] = message["params"]["diagnostics"]
        yield "their diagnostics", wanted(" QUITE\n"), found["file:///99.mta"]
        yield ("one too many", ["100 texts are open already: mta_lab does not check this one"],
               [it["message"] for it in found["file:///100.mta"]])


def damaged(chooser, message):
    """A message that is none, or no request."""
    body = bytearray(message)
    kind = chooser.randrange(5)
    if kind == 0:
        return languages.framed(bytes(body[:chooser.randrange(len(body))]))
    if kind == 1:
        body[0] = chooser.choice(b"\xff\x00},:\"\\")
        return languages.framed(bytes(body))
    if kind == 2:
        return chooser.choice([b"Content-Length: nothing\r\n\r\n", b"Content-Type: text\r\n\r\n"])
    if kind == 3:
        return languages.framed(chooser.choice([b"", b"7", b"[]", b"[" * 3000, b"\"\\ud800\"", b"{}", b"null",
                                                b'{"id":1}', b'{"id":[1],"method":"shutdown"}', b'{"id":1,"method":7}']))
    return languages.framed(b"[" + b"1," * 30000 + b"1]")


@checks.others("language/damaged")
def damaged_messages():
    """Each damaged message is answered by one error with no id, and the session goes on behind it."""
    chooser, message = random.Random(78), b'{"jsonrpc":"2.0","id":7,"method":"textDocument/hover"}'
    with client() as session:
        found = []
        for _ in range(DAMAGED):
            session.send(damaged(chooser, message))
            answer = session.response()
            found.append((answer["id"], answer["error"]["code"] in (-32700, -32600)))
        session.send(b"Content-Length: 8388609\r\n\r\n" + b" " * 8388609)
        found.append((session.response()["id"], True))
        yield "damaged", ([(None, True)] * (DAMAGED + 1), 0), (found, session.ends())


@checks.others("language/parameters")
def parameters():
    """Wrong parameters are refused with a sentence, and a notification that has some changes nothing."""
    wrong = [{}, {"textDocument": {}}, {"textDocument": {"uri": 7}}, {"textDocument": {"uri": URI}, "position": {}},
             {"textDocument": {"uri": URI}, "position": {"line": -1, "character": 0}},
             {"textDocument": {"uri": URI}, "position": {"line": 0, "character": 1.5}},
             {"textDocument": {"uri": URI}, "position": {"line": 999, "character": 0}}]
    with client(TEXT) as session:
        session.diagnostics()
        for params in wrong:
            for method in ("hover", "completion", "definition", "references", "rename"):
                code, words = session.error(f"textDocument/{method}", **params)
                yield f"{method} {params}", (-32602, True), (code, " " in (words or ""))
        for params in wrong[:3]:
            session.notify("textDocument/didOpen", params)
            session.notify("textDocument/didChange", params)
        session.notify("textDocument/didChange", {"textDocument": {"uri": URI, "version": 9}, "contentChanges": [
            {"range": {"start": {"line": 0, "character": 0}, "end": {"line": 0, "character": 0}}, "text": "x"}]})
        yield "unchanged", 6, len(session.of("documentSymbol"))
        yield "nothing is sent", [], session.kept


@checks.others("language/unreadable_input")
def unreadable_input():
    """Input that can't be read ends the session with status 1 and a word."""
    folder = os.open("/", os.O_RDONLY)
    ended = subprocess.run([tool.LAB, "lsp"], stdin=folder, capture_output=True, timeout=tool.PATIENCE, check=False)
    os.close(folder)
    yield ("a folder", (1, b"", b"mta_lab: -: read failed: Is a directory (os error 21)\n"),
           (ended.returncode, ended.stdout, ended.stderr))
