"""The random words of a scenario: the generator PCG XSL RR 128/64, and how a seed of 64 bits makes its state.

M. E. O'Neill, PCG: A Family of Simple Fast Space-Efficient Statistically Good Algorithms for Random Number Generation,
2014. How a number becomes a seed is `seed_from_u64` of Rust's crate `rand_core`; how a seed becomes a state is `Pcg64`
of the crate `rand_pcg`. A step multiplies and adds, so many steps at once do the same, with other factors.
"""

import functools

MASK_32, MASK_64, MASK_128 = 2**32 - 1, 2**64 - 1, 2**128 - 1
# The multiplier of the step of 128 bits.
MULTIPLIER = 0x2360ED051FC65DA44385DF649FCCF645
# The step of PCG XSH RR 64/32, which stretches a number to a seed.
SEED_MULTIPLIER, SEED_INCREMENT = 6364136223846793005, 11634580027462260723
SEED_WORDS = 8


def rotated(word, by, bits):
    """A word of so many bits, rotated to the right."""
    return (word >> by | word << (bits - by)) & (2**bits - 1)


def stretched(number):
    """The 256 bits of a seed that a number of 64 bits stands for, the first word lowest."""
    seed = 0
    for place in range(SEED_WORDS):
        number = (number * SEED_MULTIPLIER + SEED_INCREMENT) & MASK_64
        word = ((number >> 18 ^ number) >> 27) & MASK_32
        seed |= rotated(word, number >> 59, 32) << 32 * place
    return seed


def output(state):
    """The word of a state."""
    return rotated((state >> 64 ^ state) & MASK_64, state >> 122, 64)


def following(state, increment, count):
    """The words of so many states that follow a state, each made when it is taken."""
    for _ in range(count):
        state = (state * MULTIPLIER + increment) & MASK_128
        yield output(state)


@functools.lru_cache(maxsize=None)
def factors(steps):
    """What the state and what the increment is multiplied by in so many steps at once, which adds both."""
    powers = [pow(MULTIPLIER, it, MASK_128 + 1) for it in range(steps + 1)]
    return powers.pop(), sum(powers)


class Pcg64:
    """The generator that a number makes; `next` answers its next word of 64 bits."""

    def __init__(self, number):
        seed = stretched(number)
        self.increment = seed >> 128 | 1
        self.state = (seed & MASK_128) + self.increment & MASK_128
        self.leap(1)

    def leap(self, steps):
        """Takes so many steps at once."""
        of_state, of_increment = factors(steps)
        self.state = (self.state * of_state + self.increment * of_increment) & MASK_128

    def next(self):
        """The next word."""
        self.leap(1)
        return output(self.state)

    def block(self, size):
        """The next so many words, each made when it is taken. The generator itself is behind them all at once."""
        words = following(self.state, self.increment, size)
        self.leap(size)
        return words
