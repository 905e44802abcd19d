"""The random numbers of the lists that are made here in Python."""

ONES = (1 << 64) - 1


class Draw:
    """A generator of 64-bit numbers of our own, so that a seed gives the same list everywhere."""

    def __init__(self, seed):
        self.state = seed * 2654435769 + 88172645463325252 & ONES

    def word(self):
        x = self.state
        x ^= x << 13 & ONES
        x ^= x >> 7
        x ^= x << 17 & ONES
        self.state = x
        return x * 0x2545F4914F6CDD1D & ONES

    def below(self, n):
        return (self.word() >> 16) % n

    def of(self, items):
        return items[self.below(len(items))]
