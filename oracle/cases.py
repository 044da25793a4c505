"""What every set of cases needs: fixed chance, and a place to gather."""

import frames


class Chance:
    """xorshift64*: the same numbers from the same seed everywhere.

    Python's own generator is not used, as its numbers may change with the
    version and the stored files may not.
    """

    MASK = 2 ** 64 - 1

    def __init__(self, seed):
        self.state = seed * 0x9E3779B97F4A7C15 & self.MASK
        assert self.state != 0

    def next(self):
        x = self.state
        x ^= x >> 12
        x ^= x << 25 & self.MASK
        x ^= x >> 27
        self.state = x
        return x * 0x2545F4914F6CDD1D & self.MASK

    def apart(self):
        """Another generator; what it gives leaves what comes next here."""
        return Chance(self.state)

    def below(self, limit):
        return (self.next() >> 16) % limit

    def between(self, lowest, highest):
        return lowest + self.below(highest - lowest + 1)

    def pick(self, choices):
        return choices[self.below(len(choices))]

    def shuffled(self, things):
        things = list(things)
        for at in range(len(things) - 1, 0, -1):
            other = self.below(at + 1)
            things[at], things[other] = things[other], things[at]
        return things

    def bytes(self, length):
        words = [self.next().to_bytes(8, "big")
                 for _ in range((length + 7) // 8)]
        return b"".join(words)[:length]

    def nonzero_bytes(self, length):
        return bytes(self.between(1, 255) for _ in range(length))


class Cases:
    """The cases of one test program, in the order they were added."""

    def __init__(self, answer, kinds_of):
        self.answer = answer
        self.kinds_of = kinds_of
        self.payloads = []
        self.answers = []
        self.seen = set()

    def add(self, payload, want=None):
        """Add a case once.

        `want` is what whoever wrote the case expects the answer to begin
        with: it says by hand what the oracle must find out by the rules.
        Gives the answer, for who wants to look closer.
        """
        payload = bytes(payload)
        assert len(payload) <= 0xFFFF
        answer = self.answer(payload)
        if want is not None:
            words = answer.split(" ")
            wanted = want.split(" ")
            assert words[:len(wanted)] == wanted, (want, answer[:80])
        if payload not in self.seen:
            self.seen.add(payload)
            self.payloads.append(payload)
            self.answers.append(answer)
        return answer

    def stdin(self):
        return frames.framed(self.payloads)

    def stdout(self):
        return "".join(answer + "\n" for answer in self.answers).encode("ascii")

    def kinds(self):
        """How many cases there are of each kind of answer."""
        counts = {}
        for payload, answer in zip(self.payloads, self.answers):
            for kind in self.kinds_of(payload, answer):
                counts[kind] = counts.get(kind, 0) + 1
        return counts


def together(parts):
    """The cases of several parts, by name, as those of one program.

    Before a payload stands a byte: its part's number, from 1.
    """
    whole = Cases(None, lambda payload, answer: [
        parts[payload[0] - 1][0] + " " + kind
        for kind in parts[payload[0] - 1][1].kinds_of(payload[1:], answer)])
    for number, (_, cases) in enumerate(parts, 1):
        whole.payloads += [bytes([number]) + payload
                           for payload in cases.payloads]
        whole.answers += cases.answers
    return whole


def cycle(choices):
    """The choices over and over, for things that only need to vary."""
    while True:
        for choice in choices:
            yield choice


def changed(data, at, replacement):
    """A copy of data with other bytes from `at` on."""
    return data[:at] + bytes(replacement) + data[at + len(replacement):]
