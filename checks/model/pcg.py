"""The generator PCG32: 64 bits of state, XSH RR output.

It's made from one 64-bit number as the `rand_core` crate does it: four outputs of a second, fixed
PCG32 sequence, the state moved on before each, are the state and the increment.
"""

MULTIPLIER = 6364136223846793005
SEEDING_INCREMENT = 11634580027462260723
MASK = 2**64 - 1


def output(state):
    shifted = ((state >> 18 ^ state) >> 27) & 0xFFFFFFFF
    turn = state >> 59
    return (shifted >> turn | shifted << (32 - turn)) & 0xFFFFFFFF


def words(seed):
    """The words of the generator made from a seed, one after another."""
    state = seed
    parts = []
    for _ in range(4):
        state = (state * MULTIPLIER + SEEDING_INCREMENT) & MASK
        parts.append(output(state))
    first, increment = parts[0] | parts[1] << 32, parts[2] | parts[3] << 32 | 1
    state = ((first + increment) * MULTIPLIER + increment) & MASK
    while True:
        yield output(state)
        state = (state * MULTIPLIER + increment) & MASK
