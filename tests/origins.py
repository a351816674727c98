"""A second reading of docs/LAB_REFERENCE.md ("Why a value is there"): of each step of a run in a page the locations that
it wrote, and those that it read for each of them, from its instruction and its outcome alone."""

ARITHMETIC = set("ADD SUB MUL AND OR XOR ANDN SHL SHR SAR TALLY LTS LTU PTR".split())
REGISTERS = [f"r{number}" for number in range(1, 32)]
TARGETS = [f"t{number}" for number in range(8)]


def named(operands):
    """The registers and target registers among some operands, each once. r0 is none: nothing writes it."""
    are = [one for one in operands if one != "r0" and one[:1] in ("r", "t") and one[1:].isdigit()]
    return list(dict.fromkeys(are))


def of_operation(name, operands, word):
    """What an operation writes into registers, with what it reads for that; `word` is that of the step's reference."""
    first, rest = named(operands[:1]), named(operands[1:])
    if name in ("LOAD", "FADD", "TAGGET"):
        reads = [word]
    elif name in ARITHMETIC or name in ("TSET", "TGET"):
        reads = rest
    elif name == "LITH":
        reads = first
    elif name == "CALL":
        first, reads = rest, []
    elif name in ("LIT", "TLIT", "XGET", "XCHG", "RESERVE"):
        reads = []
    else:
        return {}
    return {one: reads for one in first}


def for_word(name, operands, word):
    """What an operation of the memory reads for what it leaves in its word."""
    along = named(operands[:1])
    return {"LOAD": [word], "STORE": along, "PURGE": along}.get(name, [word, *along])


def operations(run, step):
    """The operations of a step's instruction, each with its operands."""
    for part in run["program"][step["pc"]][2].split("|"):
        name, _, rest = part.strip().partition(" ")
        yield name.split(".")[0], [one.strip() for one in rest.split(",")]


def is_emptied(step, word):
    """Whether a step leaves its word empty, which was full."""
    return any(place == f"{word}.tags" and (was ^ now) & 1 for place, was, now in step["ch"])


def writes_of(run, step):
    """What a step wrote, by the names in the page's data, with what it read for each: a stream's name alone stands for its
    registers that are not named."""
    own, writes, name = f"{step['p']}.{step['s']}", {}, ""
    if step["o"].startswith("trapped"):
        return {"t0": []}
    if step["o"] != "done":
        return {}
    word = f"[{step['ref'][3]}]" if "ref" in step else ""
    for name, operands in operations(run, step):
        if name in ("QUIT", "QUITP"):
            writes = {own: []}
        writes |= of_operation(name, operands, word)
        if name == "CREATE":
            given, begun = named(operands[1:]), started(step)
            writes |= {f"{begun}.r1": given, f"{begun}.t0": ["t0"], begun: []}
    for name, operands in operations(run, step):
        if word and (name in ("STORE", "FADD", "TAGSET", "PURGE") or name == "LOAD" and is_emptied(step, word)):
            writes[word] = for_word(name, operands, word)
    return writes


def started(step):
    """The stream that a step started."""
    return next(place.removesuffix(".status") for place, was, _ in step["ch"] if place.endswith(".status") and was == "idle")


def parts(stream):
    """The registers of a stream."""
    return [f"{stream}.{part}" for part in REGISTERS + TARGETS]


def full(name, own):
    """The place of a location, whose stream's name is left out where it is the step's own."""
    return name if "[" in name or "." in name else f"{own}.{name}"


def deeds(run):
    """Of each step, by the full names of places, what it wrote, with what it read for each."""
    for step in run["steps"]:
        own, told = f"{step['p']}.{step['s']}", {}
        for name, reads in writes_of(run, step).items():
            places = parts(name) if name[0] != "[" and name.count(".") == 1 else [full(name, own)]
            for place in places:
                told.setdefault(place, [full(one, own) for one in reads])
        yield told


def why(run):
    """The field `why` of a run."""
    last, out = {}, []
    for number, (step, told) in enumerate(zip(run["steps"], deeds(run), strict=True), 1):
        own, lists = f"{step['p']}.{step['s']}", []
        for name, reads in writes_of(run, step).items():
            lists.append([name] + [part for one in reads for part in (one, last.get(full(one, own), 0))])
        out.append(lists)
        last.update(dict.fromkeys(told, number))
    return out
