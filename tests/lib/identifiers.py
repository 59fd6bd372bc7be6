"""The identifiers of queries to name servers, from the definition of the generator that gives them."""


def pcg_words(seed, stream):
    """The words of PCG32 (XSH RR) for a seed and a stream, by its definition."""
    most, more = 2**64 - 1, 2 * stream + 1
    state = ((seed + more) * 6364136223846793005 + more) & most
    while True:
        mixed, turn = ((state >> 18 ^ state) >> 27) & 0xFFFFFFFF, state >> 59
        yield (mixed >> turn | mixed << (32 - turn)) & 0xFFFFFFFF
        state = (state * 6364136223846793005 + more) & most


def first_identifiers(count):
    """The identifiers of the first queries of `play serve` or `play flight`, as digits. Each query takes the lower half of the next word,
    and nothing else draws a word. The programs have seed 1, stream 1."""
    words = pcg_words(1, 1)
    return [f"{next(words) & 0xFFFF:04x}" for _ in range(count)]
