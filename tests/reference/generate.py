#!/usr/bin/env python3
"""Writes a random scenario of some seventy calls, from a seed given as the argument."""

import random
import sys

LINES = 75
MEASURES = ["0", "-1", "+7", "250", "007", "2147483647", "-2147483648", "-0"]
BAD_MEASURES = ["2147483648", "-2147483649", "1.5", "--1", "+", "-", "12a", "٣"]
BAD_NUMBERS = ["-1", "x", "+", "1x", "18446744073709551616", "0x1", "1_0"]
LABELS = ["A", "HDG", "with", "put", "#", "~!", "ABCDEFGHIJKL", "0"]
BAD_LABELS = ["ABCDEFGHIJKLM", "é", "A\x7f", "A\x0bB", "\u00a0"]
BAD_WORDS = ["Put", "fetch", "puts", "with", "é", "7", "\u2003"]
# how many words a call has, without `with` and its number
LENGTHS = {"put": 5, "delete": 3, "get": 3, "send": 3, "deliver": 4, "save": 3}
BLANKS = [" ", " ", " ", "  ", "\t", " \t ", " \f"]


class Scenario:
    """A scenario in the making. It counts calls, and knows which gave a context or a frame of which key."""

    def __init__(self, seed):
        self.chance = random.Random(seed)
        self.seats = self.chance.sample(range(6), self.chance.randint(1, 6))
        self.keys = self.chance.sample(range(16), self.chance.randint(1, 2))
        self.seen = self.chance.choice([30, 60, 90])
        self.calls = 0
        self.gets = []
        self.sends = []
        self.lines = []

    def pick(self, items):
        return self.chance.choice(items)

    def odds(self, percent):
        return self.chance.randrange(100) < percent

    def seat(self):
        return self.pick([6, 7, 255, 256, 4294967296]) if self.odds(2) else self.pick(self.seats)

    def key(self):
        return self.pick([16, 17, 256, 18446744073709551615]) if self.odds(2) else self.pick(self.keys)

    def measure(self):
        return self.pick(MEASURES) if self.odds(30) else str(self.chance.randint(-999, 999))

    def label(self):
        return self.pick(LABELS) if self.odds(30) else f"L{self.calls}"

    def with_words(self, key, percent):
        if not self.odds(percent):
            return []
        fitting = [call for call, of in self.gets if of == key]
        if self.odds(5):
            return ["with", self.chance.randint(0, self.calls + 2)]
        if not fitting:
            return []
        return ["with", fitting[-1] if self.odds(60) else self.pick(fitting)]

    def put(self):
        key = self.key()
        return ["put", self.seat(), key, self.measure(), self.label()] + self.with_words(key, self.seen)

    def delete(self):
        key = self.key()
        return ["delete", self.seat(), key] + self.with_words(key, 85)

    def get(self):
        return ["get", self.seat(), self.key()]

    def send(self):
        return ["send", self.seat(), self.key()]

    def deliver(self):
        key = self.key()
        fitting = [call for call, of in self.sends if of == key]
        if self.odds(6):
            others = [self.chance.randint(0, self.calls + 2)]
            others += [call for call, of in self.gets[-1:]] + [call for call, of in self.sends if of != key][-1:]
            return ["deliver", self.seat(), key, self.pick(others)]
        if not fitting:
            return ["send", self.seat(), key]
        return ["deliver", self.seat(), key, fitting[-1] if self.odds(60) else self.pick(fitting)]

    def save(self):
        return ["save", self.seat(), self.key()]

    def spoil(self, words):
        """One fault more in the words of a call."""
        words = list(words)
        way = self.chance.randrange(5)
        if way == 0:
            words[0] = self.pick(BAD_WORDS)
        elif way == 1:
            del words[self.pick([at for at in range(1, len(words)) if at != LENGTHS[words[0]]]) :]
        elif way == 2:
            words.append(self.pick(["x", "with", "0"]))
        elif way == 3:
            words[self.chance.randrange(1, 3)] = self.pick(BAD_NUMBERS)
        elif words[0] == "put" and self.odds(50):
            words[4] = self.pick(BAD_LABELS)
        elif words[0] == "put":
            words[3] = self.pick(BAD_MEASURES)
        else:
            words[-1] = self.pick(BAD_NUMBERS)
        return words

    def write(self, words):
        """The words as a line, now and then with blanks in odd places."""
        texts = [str(word) for word in words]
        at = self.chance.randrange(len(texts))
        if self.odds(15) and texts[at].isdigit():
            texts[at] = self.pick(["+", "0", "+00"]) + texts[at]
        line = texts[0]
        for text in texts[1:]:
            line += (self.pick(BLANKS) if self.odds(10) else " ") + text
        if self.odds(3):
            line = self.pick(BLANKS) + line
        if self.odds(3):
            line += self.pick(BLANKS)
        if self.odds(3):
            line += "\r"
        self.lines.append(line)

    def made(self, words):
        """Whether the call that the words name, if any, is there."""
        named = (words[-1], words[2])
        if words[0] == "deliver":
            return named in self.sends
        return len(words) == LENGTHS[words[0]] or named in self.gets

    def call(self):
        makers = [self.put, self.delete, self.get, self.send, self.deliver, self.save]
        words = self.chance.choices(makers, [34, 7, 22, 15, 22, 8])[0]()
        if self.odds(6):
            self.write(self.spoil(words))
            return
        self.write(words)
        if self.made(words):
            self.calls += 1
            if words[1] < 6 and words[2] < 16 and words[0] in ["get", "send"]:
                given = self.gets if words[0] == "get" else self.sends
                given.append((self.calls, words[2]))

    def text(self):
        while len(self.lines) < LINES:
            if self.odds(3):
                self.lines.append(self.pick(["", "   ", "\t", "\r", "# a note", "#", "#  é  ", " # no note"]))
            self.call()
        ending = "" if self.odds(10) else "\n"
        return "\n".join(self.lines) + ending


def scenario(seed):
    return Scenario(seed).text()


def main():
    sys.stdout.buffer.write(scenario(int(sys.argv[1])).encode("utf-8"))


if __name__ == "__main__":
    main()
