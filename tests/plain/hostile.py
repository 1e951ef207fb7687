"""Octets that no side would send, once more: the generator of `lab_lines::hostile`, and lists of octets by its rules."""


class Generator:
    """The linear congruential generator of ISO C's example `rand`, with 32 bits."""

    def __init__(self, seed):
        self.seed = seed

    def below(self, bound):
        self.seed = (self.seed * 1103515245 + 12345) % 2 ** 32
        return (self.seed >> 16) % bound if bound else 0

    def octets(self, count):
        return bytes(self.below(256) for _ in range(count))

    def spoiled(self, frame):
        """A true frame with octets changed, cut or added."""
        octets = bytearray(frame)
        kind = self.below(3)
        if kind == 0:
            for _ in range(self.below(3) + 1):
                place, octet = self.below(len(octets)), self.below(256)
                if octets:
                    octets[place] = octet
        elif kind == 1:
            del octets[self.below(len(octets)):]
        else:
            octets += self.octets(self.below(4) + 1)
        return bytes(octets)

    def next(self, frame):
        if self.below(3) == 0:
            return self.spoiled(frame)
        return self.octets(self.below(301))


def lists(count, seed, frame):
    generator = Generator(seed)
    return [generator.next(frame) for _ in range(count)]
