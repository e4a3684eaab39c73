#!/usr/bin/env python3
"""A second replay of scenarios, by sets of events.

Each seat has for each key the set of the events that it knows. An event is an
accepted put or delete, and covers the writes that its context holds. What a seat
holds of a key are the known writes that no known event covers. A send gives the set,
and a delivery adds it to the receiver's. A save keeps the set in the seat's medium.
Frames and contexts in bytes are made from the sets, to be printed, and are never read
back.

Reads a scenario from standard input and prints what each call answers.
"""

import re
import sys

SEATS = 6
KEYS = 16
LAST_COUNTER = 999_999
MOST_OWN = 4
SLOTS_LEFT = 1760


class BadLine(Exception):
    """A line that is no call."""


class Refused(Exception):
    """A call that is refused, with the number of its kind."""


class Event:
    """An accepted put (with a dot and a value) or delete (with neither)."""

    def __init__(self, covers, dot=None, value=None):
        self.covers = covers
        self.dot = dot
        self.value = value


def writes(events):
    return frozenset(event for event in events if event.dot is not None)


def held(known):
    covered = set()
    for event in known:
        covered |= event.covers
    return writes(known) - covered


def tops(known):
    highest = {}
    for event in writes(known):
        column, counter = event.dot
        highest[column] = max(highest.get(column, 0), counter)
    return highest


class Cockpit:
    """What the seats know of the keys, and what they saved of them; all are in their first life."""

    def __init__(self):
        self.known = {(seat, key): frozenset() for seat in range(SEATS) for key in range(KEYS)}
        self.media = [{} for _ in range(SEATS)]

    def check(self, seat, key):
        if (seat, key) not in self.known:
            raise Refused(10)

    def put(self, seat, key, value, context):
        self.check(seat, key)
        known = self.known[seat, key]
        own = 4 * seat
        top = tops(known).get(own, 0)
        if top == LAST_COUNTER:
            raise Refused(8)
        left = [event for event in held(known) - context if event.dot[0] == own]
        if len(left) == MOST_OWN:
            raise Refused(7)
        event = Event(writes(context), (own, top + 1), value)
        self.known[seat, key] = known | context | {event}
        return event.dot

    def delete(self, seat, key, context):
        self.check(seat, key)
        event = Event(writes(context))
        self.known[seat, key] = self.known[seat, key] | context | {event}

    def get(self, seat, key):
        self.check(seat, key)
        return self.known[seat, key]

    def send(self, seat, key):
        self.check(seat, key)
        return self.known[seat, key]

    def deliver(self, seat, key, sent):
        self.check(seat, key)
        self.known[seat, key] = self.known[seat, key] | sent

    def save(self, seat, key):
        self.check(seat, key)
        self.media[seat][key] = self.known[seat, key]
        return self.media[seat]


def field(tag, body):
    return bytes([tag]) + len(body).to_bytes(2, "big") + body


def setting(measure, label):
    return measure.to_bytes(4, "big", signed=True) + label.encode("ascii").ljust(12, b"\0")


def newest_first(known):
    """The writes that are held, by rising column, the newest first in each."""
    return sorted(held(known), key=lambda event: (event.dot[0], -event.dot[1]))


def frame(key, known):
    """The bytes of a state."""
    fields = field(1, bytes([key]))
    for column, top in sorted(tops(known).items()):
        standing = [event for event in newest_first(known) if event.dot[0] == column]
        # a frame does not tell the counters: those of the values go down from the top
        assert [event.dot[1] for event in standing] == list(range(top, top - len(standing), -1))
        values = b"".join(setting(*event.value) for event in standing)
        fields += field(2, bytes([column, len(standing)]) + top.to_bytes(4, "big") + values)
    return fields


def context_frame(key, known):
    """The bytes of a context."""
    fields = field(3, bytes([key]))
    for column, top in sorted(tops(known).items()):
        fields += field(4, bytes([column]) + top.to_bytes(4, "big"))
    return fields


def number(part, word, low, high, sign):
    if not re.fullmatch(sign + r"[0-9]+", word):
        raise BadLine(f"bad {part}: {word}")
    value = int(word)
    if not low <= value <= high:
        raise BadLine(f"bad {part}: {word}")
    return value


class Words:
    """The words of a line that are not read yet."""

    def __init__(self, line):
        self.rest = [word for word in re.split(r"[ \t\r\f\n]+", line) if word]

    def word(self, part):
        if not self.rest:
            raise BadLine(f"the {part} is missing")
        return self.rest.pop(0)

    def number(self, part):
        return number(part, self.word(part), 0, 2**64 - 1, r"\+?")

    def measure(self):
        return number("measure", self.word("measure"), -(2**31), 2**31 - 1, r"[+-]?")

    def label(self):
        word = self.word("label")
        if not re.fullmatch(r"[!-~]{1,12}", word):
            raise BadLine(f"bad label: {word}")
        return word

    def context(self):
        if self.rest and self.rest[0] == "with":
            self.rest.pop(0)
            return self.number("call number")
        return None

    def end(self):
        if self.rest:
            raise BadLine(f"a word too many: {self.rest[0]}")


class Replay:
    """A scenario in the course of being played."""

    def __init__(self):
        self.cockpit = Cockpit()
        self.calls = 0
        self.gets = {}
        self.sends = {}

    def seen(self, call, key):
        if call is None:
            return frozenset()
        if (call, key) not in self.gets:
            raise BadLine(f"call {call} is no earlier get of key {key}")
        return self.gets[call, key]

    def sent(self, call, key):
        if (call, key) not in self.sends:
            raise BadLine(f"call {call} is no earlier send of key {key}")
        return self.sends[call, key]

    def put(self, words):
        seat = words.number("seat")
        key = words.number("key")
        measure = words.measure()
        label = words.label()
        call = words.context()
        words.end()
        context = self.seen(call, key)
        said = f"put {seat} {key} {measure} {label}" + with_words(call)

        def run():
            column, counter = self.cockpit.put(seat, key, (measure, label), context)
            return f"column {column} counter {counter}"

        return said, run

    def delete(self, words):
        seat = words.number("seat")
        key = words.number("key")
        call = words.context()
        words.end()
        context = self.seen(call, key)

        def run():
            self.cockpit.delete(seat, key, context)
            return "done"

        return f"delete {seat} {key}" + with_words(call), run

    def get(self, words):
        seat = words.number("seat")
        key = words.number("key")
        words.end()

        def run():
            known = self.cockpit.get(seat, key)
            self.gets[self.calls, key] = known
            return reading(key, known)

        return f"get {seat} {key}", run

    def send(self, words):
        seat = words.number("seat")
        key = words.number("key")
        words.end()

        def run():
            known = self.cockpit.send(seat, key)
            self.sends[self.calls, key] = known
            return "\n    ".join(dump(frame(key, known)))

        return f"send {seat} {key}", run

    def deliver(self, words):
        seat = words.number("seat")
        key = words.number("key")
        call = words.number("call number")
        words.end()
        sent = self.sent(call, key)

        def run():
            self.cockpit.deliver(seat, key, sent)
            return "done"

        return f"deliver {seat} {key} {call}", run

    def save(self, words):
        seat = words.number("seat")
        key = words.number("key")
        words.end()

        def run():
            return holding(self.cockpit.save(seat, key))

        return f"save {seat} {key}", run

    def play(self, line):
        words = Words(line)
        if not words.rest:
            return None
        readers = {
            "put": self.put,
            "delete": self.delete,
            "get": self.get,
            "send": self.send,
            "deliver": self.deliver,
            "save": self.save,
        }
        name = words.rest.pop(0)
        if name not in readers:
            raise BadLine(f"no such call: {name}")
        said, run = readers[name](words)
        self.calls += 1
        try:
            answer = run()
        except Refused as refusal:
            answer = f"refused {refusal}"
        return f"{self.calls} {said}: {answer}"


def with_words(call):
    return "" if call is None else f" with {call}"


def dump(data):
    """How many bytes, then the bytes, sixteen to a line."""
    rows = [data[at : at + 16] for at in range(0, len(data), 16)]
    return [f"{len(data)} bytes"] + [row.hex(" ").upper() for row in rows]


def reading(key, known):
    siblings = newest_first(known)
    counts = {0: "no values", 1: "1 value"}
    lines = [counts.get(len(siblings), f"{len(siblings)} values")]
    for event in siblings:
        column, counter = event.dot
        measure, label = event.value
        lines.append(f"column {column} counter {counter}: {measure} {label}")
    length, *rows = dump(context_frame(key, known))
    return "\n    ".join(lines + [f"context: {length}"] + rows)


def holding(medium):
    """What a seat's medium holds after a save."""
    lines = ["done"]
    for key in sorted(medium):
        length, *rows = dump(frame(key, medium[key]))
        lines += [f"key {key}: {length}"] + rows
    return "\n    ".join(lines + [f"left: {SLOTS_LEFT} bytes"])


def play(text):
    """What is printed for the text of a scenario."""
    replay = Replay()
    lines = text.split("\n")
    if lines[-1] == "":
        lines.pop()
    out = []
    for at, line in enumerate(lines, 1):
        if line.endswith("\r"):
            line = line[:-1]
        if line.startswith("#"):
            out.append(line)
            continue
        try:
            answer = replay.play(line)
        except BadLine as bad:
            answer = f"line {at}: {bad}"
        if answer is not None:
            out.append(answer)
    return "".join(line + "\n" for line in out)


def main():
    text = sys.stdin.buffer.read().decode("utf-8")
    sys.stdout.buffer.write(play(text).encode("utf-8"))


if __name__ == "__main__":
    main()
