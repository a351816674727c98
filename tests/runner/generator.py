"""Xoshiro256++ with the seeding of `seed_from_u64`, which is SplitMix64, by their published definitions."""

import itertools

MASK = (1 << 64) - 1


def seeding_words(at):
    """The words of SplitMix64 from a state on."""
    while True:
        at = (at + 0x9E3779B97F4A7C15) & MASK
        z = ((at ^ (at >> 30)) * 0xBF58476D1CE4E5B9) & MASK
        z = ((z ^ (z >> 27)) * 0x94D049BB133111EB) & MASK
        yield z ^ (z >> 31)


def words_of(seed):
    """The words of the generator with a seed."""
    state = [*itertools.islice(seeding_words(seed), 4)]
    while True:
        total = (state[0] + state[3]) & MASK
        yield (((total << 23) | (total >> 41)) + state[0]) & MASK
        shifted = (state[1] << 17) & MASK
        state[2] ^= state[0]
        state[3] ^= state[1]
        state[1] ^= state[2]
        state[0] ^= state[3]
        state[2] ^= shifted
        state[3] = ((state[3] << 45) | (state[3] >> 19)) & MASK
