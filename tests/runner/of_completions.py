"""The completions of mta_lab: in each shell the commands and options that its help names, and no others; and what is
offered for a value. fish is asked if it is installed; of zsh the text is read."""

import json
import os
import re
import shutil
import subprocess
import tempfile

import checks
import table
from of_lab import lab

FOLDER = os.path.join(table.ROOT, "share/completions")
# the object of an end in JSON, whose kinds are goals of play
END_SCHEMA = os.path.join(table.ROOT, "share/schema/search_end.schema.json")


def read(name):
    with open(os.path.join(FOLDER, name), encoding="utf-8") as file:
        return file.read()


def commands_of_help():
    """The commands, but for `help`, which says what `--help` does."""
    listed = lab("--help").out.decode().partition("Commands:")[2].partition("\n\n")[0]
    return [command for command in re.findall(r"(?m)^  ([a-z]+)  +\S", listed) if command != "help"]


def options_of_help(command):
    return {*re.findall(r"(?m)^ +(?:-\w, )?--([a-z-]+)", lab(command, "--help").out.decode())}


def said_by(*command, folder=FOLDER):
    """The lines that a command prints."""
    said = subprocess.run(command, cwd=folder, capture_output=True, text=True, check=True, stdin=subprocess.DEVNULL)
    return said.stdout.splitlines()


def by_bash(*words, folder=FOLDER):
    """What bash offers for the last of these words after mta_lab. It takes --option=value as three words, or as two if
    there is no value yet."""
    words = [piece for word in words for piece in ([word] if "=" not in word else re.findall("[^=]+|=", word))]
    script = ". \"$0\"; COMP_WORDS=(mta_lab \"$@\"); COMP_CWORD=$#; _mta_lab; printf '%s\\n' \"${COMPREPLY[@]}\""
    return {*said_by("bash", "-c", script, os.path.join(FOLDER, "mta_lab.bash"), *words, folder=folder)} - {""}


def by_fish(*words, folder=FOLDER):
    """The same of fish, which marks folders and says more after a tab."""
    script = f'source "{FOLDER}/mta_lab.fish"; complete -C "mta_lab {" ".join(words)}"'
    said = said_by("fish", "--no-config", "-c", script, folder=folder)
    return {line.split("\t")[0].removesuffix("/") for line in said}


def options_of_bash(command):
    return {it.removeprefix("--") for it in by_bash(command, "--")}


def options_of_zsh(command):
    [block] = re.findall(rf"(?ms)^        {command}\)\n(.*?)^          ;;$", read("_mta_lab"))
    return {*re.findall(r"'--([a-z-]+)\[", block)}


def options_of_fish(command):
    condition = r"(?: -n '__fish_seen_subcommand_from ([a-z ]+)')?"
    lines = re.findall(rf"(?m)^complete -c mta_lab{condition} -l ([\w-]+)", read("mta_lab.fish"))
    return {option for names, option in lines if not names or command in names.split()}


def values_of_help(command):
    """The words that an option takes and no others, as the parser of the command line lists them, by the option."""
    text = re.sub(r"\s+", " ", lab(command, "--help").out.decode())
    return {option: {*words.split(", ")} for option, words in
            re.findall(r"--([a-z-]+) <\w+> (?:(?! --[a-z]).)*?\[possible values: ([^]]+)\]", text)}


@checks.others("lab/completions")
def completions():
    commands = commands_of_help()
    yield "commands are there", True, {"check", "view", "explore", "grade"} <= {*commands}
    yield "commands, bash", {*commands}, {it for it in by_bash("") if not it.startswith("-")}
    yield "commands, zsh", {*commands}, {*re.findall(r"(?m)^    '([a-z]+):", read("_mta_lab"))}
    yield "commands, fish", {*commands}, {*re.findall(r"__fish_use_subcommand -a (\w+)", read("mta_lab.fish"))}
    for command in commands:
        wanted = options_of_help(command)
        for shell, options in ("bash", options_of_bash), ("zsh", options_of_zsh), ("fish", options_of_fish):
            yield f"{command}, {shell}", wanted, options(command)
        for option, words in values_of_help(command).items():
            yield f"{command} --{option}", words, by_bash(command, f"--{option}", "")
    with open(END_SCHEMA, encoding="utf-8") as file:
        kinds = json.load(file)["properties"]["end"]["enum"]
    yield "play --goal", {"right", "wrong", *kinds} - {"finished"}, by_bash("play", "--goal", "")


@checks.others("lab/explained_words")
def explained_words():
    """The words that are offered for `explain`: all that it lists, and each has a page."""
    offered = by_bash("explain", "")
    listed = {*re.findall(r"\S+", lab("explain").out.decode())}
    yield "offered words that are not listed", set(), {word for word in offered if word not in listed}
    for word in sorted(offered):
        yield word, lambda word=word: (0, lab("explain", word).status)


@checks.each("lab/completions.tsv")
def offered_values(fields):
    typed, wanted, shells = fields
    words = typed.removesuffix("_").split(" ")
    with tempfile.TemporaryDirectory() as folder:
        os.mkdir(os.path.join(folder, "sub"))
        for name in ("race.asm", "race.image", "race.schedule", "race.expect", "notes"):
            with open(os.path.join(folder, name), "wb"):
                pass
        offered = [by_bash(*words, folder=folder)]
        if shells == "all" and shutil.which("fish"):
            offered.append(by_fish(*words, folder=folder))
    return [{*wanted.split()}] * len(offered), offered
