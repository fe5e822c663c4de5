"""A small generator of numbers that look random, the same on every Python."""


class Chance:
    """Linear congruential, 64 bits, the upper half of the state is handed out."""

    def __init__(self, seed):
        self.state = seed

    def bits32(self):
        self.state = (self.state * 6_364_136_223_846_793_005
                      + 1_442_695_040_888_963_407) % 2 ** 64
        return self.state // 2 ** 32

    def below(self, limit):
        """0 to limit - 1; even enough for test cases."""
        return (self.bits32() * 2 ** 32 + self.bits32()) % limit

    def between(self, first, last):
        return first + self.below(last - first + 1)

    def pick(self, choices):
        return choices[self.below(len(choices))]

    def with_bits(self, most):
        """A number of 0 to `most` bits, each count of bits as likely."""
        return self.below(2 ** self.below(most + 1))

    def octets(self, count):
        return bytes(self.below(256) for _ in range(count))
