"""Program words: which spell an instruction, which none, and in which profile."""

import checks
import tool
from image_words import image_of_words, words_of_image
from printed import text
from programs import assembled

# what `words` prints of a word that spells no instruction: the trap is 2, ILLEGAL
ILLEGAL = "Stopped 02 ssw 0000000000000000 xr 0000000000000002 retries 0\nt0 00000000FFFFFFFF\n"
# what `run` prints of its one step
STOPPED = "      1   0   0 00000000 STOPPED 02\nprocessor 0 scur 1 sres 1\nstream 0 0\n" + ILLEGAL


def assembled_words(instructions, profile):
    """The word that each instruction is assembled to. Where one of them is refused each is assembled alone."""
    try:
        image = assembled([f".profile {profile}", ".entry 0", *instructions, ".data 0"])
        return [f"{word:016X}" for word in words_of_image(image)]
    except ValueError as fault:
        if len(instructions) == 1:
            return [str(fault)]
        return [word for one in instructions for word in assembled_words([one], profile)]


def listed(words, profile):
    """The listing's lines of these words."""
    lines = tool.listing(image_of_words([int(word, 16) for word in words], profile)).decode().splitlines()
    return [line for line in lines if " ; " in line]


def listing_line(instruction, place, word):
    """The listing's line of a word at this place, by its instruction."""
    return f"{instruction} ; {place:05d} {word}"


def spell(rows):
    """All instructions are assembled to their words, which are listed as they are in both profiles."""
    words, instructions = zip(*rows)
    lines = [listing_line(instruction, place, word) for place, (word, instruction) in enumerate(rows)]
    wanted = zip(words, lines, lines)
    got = zip(assembled_words(instructions, 1), listed(words, 1), listed(words, 2), strict=True)
    return [(text(one), text(other)) for one, other in zip(wanted, got, strict=True)]


checks.whole("list/instruction_words.tsv")(spell)
checks.whole("list/listed_words.tsv")(spell)


def in_profile_one(word):
    """What is wanted and got of a word that spells nothing in Profile 1: its line of the listing, and its run alone."""
    wanted = [listing_line(f".word 0x{word}", 0, word), ILLEGAL]
    return wanted, [*listed([word], 1), tool.words(word.encode()).decode()]


@checks.each("words/not_instructions.tsv")
def spells_nothing(fields):
    word, _ = fields
    wanted, got = in_profile_one(word)
    return text(wanted), text(got)


@checks.each("list/profile_two.tsv")
def spells_in_profile_two(fields):
    """In Profile 2 a PURGE is assembled to its word and listed; a word of no instruction is run there too."""
    word, instruction = fields
    wanted, got = in_profile_one(word)
    got += listed([word], 2)
    if instruction == "none":
        wanted += [wanted[0], STOPPED]
        got.append(tool.trace(image_of_words([int(word, 16)], 2), b"0 0 1\n").decode())
    else:
        wanted += [listing_line(instruction, 0, word), word]
        got += assembled_words([instruction], 2)
    return text(wanted), text(got)
