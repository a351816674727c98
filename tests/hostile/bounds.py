"""What `--memory`, `--seconds` and the number of messages bound: all that a process takes, its machines too, all searches of
`grade` together and those of `--thorough` one after the other, claims and endless waits after a search, and files of a
million bad lines. And what ten thousand messages as JSON take, and writing over many files."""

import os
import re
import subprocess

from program import LAB, ROOT, Tally, run, write

MEGABYTE = 1_000_000
# what a process takes at most beside what is bounded: its program and its texts
BESIDE = 12 * MEGABYTE
# by how much a bound of memory may be exceeded, and how many seconds a bound of time
MORE, LATE = 1.2, 1.5
# the most megabytes without --memory
USUAL = 2000
BAD_LINES = 1_000_000
# the most errors of a file, and the most warnings beside that of all comments; nearly the most lines of data of a text
SHOWN, DATA_LINES = 10_000, 262_000
# how many lines a long text has, and how many names of data are taken of one
LINES, NAMES = 180_000, 4096
# how many files are written over
FILES = 2000
# how many words a long program has
LONG = 16_000
# how many states the eight philosophers of bench/search_programs.sh have where something is claimed of each word, which take 280
# megabytes; fewer megabytes than that, and more. Without these claims, which hold always, far fewer states would do
# (LAB_REFERENCE.md, "Every schedule")
PHILOSOPHERS, TOO_FEW, ENOUGH = 734_871, 200, 800
CLAIMS = b"".join(b"always word %d is 0\n" % fork for fork in range(0, 64, 8))


def lab(*words, **how):
    return run(list(words), tool=LAB, **how)


def growing(processors, words, slim):
    """A program of ever new states, whose machines have so many words and so much room for streams."""
    lines = [f" .slim {slim}", *[" .entry a"] * processors, f" .fill {words}, 0, 1", "a: TGET r5, t0", " ADD r1, r1, 1",
             " FADD r2, r0, 0", " FADD r2, r0, 1", " STORE.N r1, r0, 3", " SKIP ALWAYS, 0, a"]
    return "\n".join(lines).encode() + b"\n"


def of_memory(tally, folder):
    """A search that --memory ends, or that nothing bounds."""
    for shape, sizes in (((2, 10, 1), (50, 100)), ((8, 1000, 1), (50, 200)), ((8, 1000, 128), (50, 200)),
                         ((16, 20_000, 4), (50, 200)), ((16, 260_000, 128), (200, 500, None))):
        path = write(folder, "grows.asm", growing(*shape))
        for size in sizes:
            bound = () if size is None else ("--memory", str(size))
            ended = lab("explore", path, *bound, "--states", "1000000000")
            tally.runs += 1
            tally.check(f"{shape} by {size} MB: {ended}", ended.status == 5 and b"ended by --memory" in ended.out)
            most = (size or USUAL) * MEGABYTE * MORE + BESIDE
            tally.check(f"{shape} by {size} MB takes {ended.peak // MEGABYTE} MB", ended.peak <= most)


def philosophers(count, meals):
    """A program of philosophers at a table, whose states are many and small."""
    lines = [" .slim 1", *(f" .entry p{at}" for at in range(count)), *[" .data 0"] * count]
    for at in range(count):
        forks = (at, (at + 1) % count)
        lines += [f"p{at}: LIT r3, {meals}", f"q{at}: LOAD.S r1, r0, {forks[0]}", f" LOAD.S r2, r0, {forks[1]}",
                  *(f" STORE.S r1, r0, {fork}" for fork in forks), " SUB.T r3, r3, 1", f" SKIP NE, 0, q{at}", " QUIT"]
    return "\n".join(lines).encode() + b"\n"


def of_waits(tally, folder):
    """Who can wait forever is looked for after a search that fits: what that takes stays below the bound too."""
    few = philosophers(5, 1)
    large = philosophers(4, 2).replace(b" .slim 1", b" .slim 16").replace(b"\np0:", b"\n .fill 1000, 0, 1\np0:")
    for what, text, size in (("small machines", few, 15), ("large machines", large, 40)):
        ended = lab("explore", write(folder, "waits.asm", text), "--waiting", "--memory", str(size))
        tally.runs += 1
        tally.check(f"waits of {what} by {size} MB: {ended}", ended.status == 4 and b", complete\n" in ended.out
                    and ended.out.count(b"fair by words: ") == text.count(b".entry") and b"not decided" not in ended.out)
        tally.check(f"waits of {what} by {size} MB take {ended.peak // MEGABYTE} MB",
                    ended.peak <= size * MEGABYTE * MORE + BESIDE)


def streams(count):
    """A program of two processors, each of so many streams that add forever."""
    return b"\n".join((b" .slim %d" % count, b" .entry a\n .entry a\n .data 0\n .data 0", b"a: LIT r2, %d" % (count - 1),
                       b" RESERVE r3, r2\n TLIT t1, w", b"m: SUB.T r3, r3, 1 | CREATE t1, r3\n SKIP NE, 0, m",
                       b"w: LIT r1, 1\n FADD.N r1, r0, 0\n ADD r4, r4, r1\n FADD.N r4, r0, 1\n SKIP ALWAYS, 0, w\n"))


def of_grade(tally, folder):
    """Searches side by side share the megabytes."""
    for what, text, claims, sizes in (("large machines", growing(8, 1000, 128), b"", (300, 1000)),
                                     ("philosophers", philosophers(12, 3), CLAIMS, (200,)),
                                     ("32 streams", streams(32), b"", (200, 1000))):
        expected = write(folder, "any.expect", b"word 0 123456789\n" + claims)
        # (submissions of the same bytes are judged once)
        paths = [write(folder, f"grows{number}.asm", text + b"; %d\n" % number) for number in range(8)]
        for size, jobs in ((size, jobs) for size in sizes for jobs in ("1", "4")):
            ended = lab("grade", "--explore", "--memory", str(size), "--jobs", jobs, "--states", "1000000000", "--seeds", "1",
                        "--steps", "100", "--expect", expected, *paths)
            tally.runs += 1
            tally.check(f"{what} by {size} MB: {ended}", ended.out.count(b"ended by --memory") == len(paths))
            tally.check(f"{what} by {size} MB with {jobs} jobs takes {ended.peak // MEGABYTE} MB",
                        ended.peak <= size * MEGABYTE * MORE + BESIDE)


def of_thorough(tally, folder):
    """Searches with more and more megabytes: up to too few of them a right program is not decided, up to enough it is right."""
    script = os.path.join(ROOT, "bench/search_programs.sh")
    path = write(folder, "eight.asm", subprocess.run([script, "philosophers"], capture_output=True, check=True).stdout)
    expected = write(folder, "eight.expect", b"word 64 8\nfinished\nalways word 64 below 9\n" + CLAIMS)
    for size, status, row in ((TOO_FEW, 5, rb"not decided\tsome schedules, \d+ states, ended by --memory, and 1 seed"),
                              (ENOUGH, 0, b"right\tevery schedule, %d states, and 1 seed" % PHILOSOPHERS)):
        ended = lab("grade", "--explore", "--thorough", "--memory", str(size), "--jobs", "1", "--seeds", "1", "--expect", expected,
                    path)
        tally.runs += 1
        found = re.search(rb"eight\.asm\t" + row + rb"\n$", ended.out)
        tally.check(f"--thorough by {size} MB: {ended}, {ended.out[-200:]}", ended.status == status and found)
        tally.check(f"--thorough by {size} MB takes {ended.peak // MEGABYTE} MB", ended.peak <= size * MEGABYTE * MORE + BESIDE)


def winding(words):
    """A program of so many words, in which ways lead back from each eighth one, and much is computed and never read."""
    at = range(words)
    lines = [f"l{it}: " + (f"SKIP NE, 0, l{max(0, it - 31)}" if it % 8 == 7 else
                           f"FADD.N r{1 + it % 30}, r0, 0" if it % 8 == 5 else
                           f"{'SUB.T' if it % 8 == 3 else 'ADD'} r{1 + it % 30}, r{1 + it * 5 % 30}, r{1 + it * 11 % 30}")
             for it in at]
    return "\n".join([" .slim 1", " .entry l0", " .entry l0", " .data 0", " .data 0", " .data 0", *lines, " QUIT", ""]).encode()


def leaping(words):
    """A program of so many words, of which each second one leads to where a target register says."""
    pairs = words // 2
    lines = [f"l{it}: TLIT t{it % 8}, l{it * 7919 % pairs}\n JUMP NE, 0, t{(it + 3) % 8}" for it in range(pairs)]
    return "\n".join([" .slim 1", " .entry l0", " .entry l0", " .data 0", " .data 0", " .data 0", *lines, " QUIT", ""]).encode()


def of_time(tally, folder):
    """A search that --seconds ends, of programs whose ways are looked at before it, and whose states are after it, for
    claims."""
    counts = write(folder, "counts.asm", growing(1, 4, 1))
    winds, leaps = write(folder, "winds.asm", winding(LONG)), write(folder, "leaps.asm", leaping(LONG))
    claims = write(folder, "claims.expect", b"always word 8 is 0\nnever word 16 above 7\nsome word 0 is 1\n")
    for what, words in (("claims", (counts, "--expect", claims)),
                        ("claims of all states", (counts, "--plain", "--expect", claims)),
                        ("a long program", (winds,)), ("claims of a long program", (winds, "--expect", claims)),
                        ("claims of all states of a long program", (winds, "--plain", "--expect", claims)),
                        ("jumps of a long program", (leaps,)),
                        ("claims of jumps of a long program", (leaps, "--expect", claims))):
        ended = lab("explore", *words, "--seconds", "4", "--states", "1000000000")
        tally.runs += 1
        tally.check(f"{what} in 4 seconds: {ended}", ended.status in (0, 3, 5))
        tally.check(f"{what} in 4 seconds takes {ended.seconds:.1f}", ended.seconds <= 4 + LATE)


def of_messages(tally, folder):
    """A million bad lines: no more messages are made than are shown."""
    expected = write(folder, "one.expect", b"word 0 0\n")
    source = write(folder, "bad.asm", b".entry 0\n" + b"QUITE r1\n" * BAD_LINES + b".data 0\n")
    lines, turns = write(folder, "bad.expect", b"wrod 0 0\n" * BAD_LINES), write(folder, "bad.schedule", b"9 0 x\n" * BAD_LINES)
    for words in (("check", source), ("check", "--json", source), ("check", lines), ("check", turns),
                  ("grade", "--expect", expected, source)):
        ended = lab(*words)
        tally.runs += 1
        shown = max(ended.err.count(b": error: "), ended.out.count(b'"object":"message"'), ended.out.count(b"source fault"))
        name, status = " ".join(os.path.basename(word) for word in words), 3 if words[0] == "grade" else 1
        tally.check(f"{name}: {ended}", ended.status == status and 1 <= shown <= SHOWN + 1)
        tally.check(f"{name} takes {ended.seconds:.1f} s", ended.seconds <= 6)


def of_names(tally, folder):
    """Ten thousand names of data that no word has, beside the most names that there are, all as long as names may be."""
    known = "".join(f".data 0 ; {'n' * 27}{at:05d}\n" for at in range(NAMES))
    source = write(folder, "named.asm", b" .entry 0\n QUIT\n" + known.encode())
    lines = write(folder, "named.expect", "".join(f"word {'m' * 27}{at:05d} 0\n" for at in range(SHOWN)).encode())
    ended = lab("check", lines, "--program", source)
    tally.runs += 1
    tally.check(f"{SHOWN} unknown names: {ended}", ended.status == 1 and ended.err.count(b": error: ") == SHOWN)
    tally.check(f"{SHOWN} unknown names take {ended.seconds:.1f} s", ended.seconds <= 6)


def of_warnings(tally, folder):
    """A million lines with warnings: as many are made as are shown. Comments that are not ASCII have one together."""
    comments = "; \u00FC\n".encode()
    data = b"".join(b"l%d: .data 0\n" % number for number in range(DATA_LINES))
    for what, text, shown in (("comments", comments * BAD_LINES, 1),
                              ("labels of data", data + comments * (BAD_LINES - DATA_LINES), SHOWN + 1)):
        source = write(folder, "warned.asm", b" .entry 0\n QUIT\n .data 0\n" + text)
        ended = lab("check", source)
        tally.runs += 1
        tally.check(f"{what}: {ended}", ended.status == 0 and 1 <= ended.err.count(b": warning: ") <= shown)
        tally.check(f"{what} take {ended.seconds:.1f} s", ended.seconds <= 6)


def of_labels(tally, folder):
    """Many messages as JSON, each of which may have a fix and another place of the text: it takes little longer than as text."""
    labels, names = range(SHOWN), [f"d{at % NAMES}" for at in range(SHOWN)]
    many = [f"x{at}: QUIT" for at in range(LINES)]
    for what, lines in (
            ("labels twice", [f"l{at}: QUIT" for at in (*labels, *labels)] + many),
            ("named data", many + [f"LOAD.N r1, {name}, 0" for name in names] + [f".data 0 ; d{at}" for at in range(NAMES)]),
            ("labels of data", [f"x{at}: .data 0" for at in range(LINES)])):
        source = write(folder, "labels.asm", "\n".join([" .entry x0", *lines, " QUIT", " .data 0", ""]).encode())
        plain, ended = lab("check", source), lab("check", "--json", source)
        tally.runs += 2
        tally.check(f"{what}: {plain}, {ended}", plain.status == ended.status)
        tally.check(f"{what} take {ended.seconds:.1f} s as JSON, and {plain.seconds:.1f} s as text",
                    ended.seconds <= 4 * plain.seconds + 2)


def of_files(tally, folder):
    """Texts for a class that are written over those of an earlier call take as long as those, and little more: no file is
    compared with each submission by asking the system."""
    expected = write(folder, "one.expect", b"word 0 1\n")
    texts, room = os.path.join(folder, "texts"), os.path.join(folder, "class")
    os.mkdir(room)
    paths = [write(room, f"{number}.asm", b" .slim 1\n .entry 0\n QUIT\n .data 1\n") for number in range(FILES)]
    first, second = (lab("grade", "--expect", expected, "--seeds", "1", "--jobs", "1", "--feedback", texts, *paths)
                     for _ in range(2))
    tally.runs += 2
    tally.check(f"{FILES} texts: {first}, {second}", first.is_done() and second.is_done() and len(os.listdir(texts)) == FILES)
    tally.check(f"{FILES} texts over others take {second.seconds:.1f} s, and new ones {first.seconds:.1f}",
                second.seconds <= 2 * first.seconds + 1)


def part(_, folder):
    """All of them."""
    tally = Tally()
    of_memory(tally, folder)
    of_waits(tally, folder)
    of_grade(tally, folder)
    of_thorough(tally, folder)
    of_time(tally, folder)
    of_messages(tally, folder)
    of_names(tally, folder)
    of_warnings(tally, folder)
    of_labels(tally, folder)
    of_files(tally, folder)
    return tally
