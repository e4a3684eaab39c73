#!/usr/bin/env python3
"""The plain machine of docs/MACHINE.md, by Python's sets; its bytes by docs/FRAMES.md.

It prints crates/history/specs/Scenarios.antt: lists of calls, each with the answer
that this program worked out. The check proves that the machine and the clocks of the
crate give the same answers. Values are single bytes.
"""
from collections import namedtuple

SEATS, KEYS, LIVES, COLUMNS, MOST, LAST = 6, 16, 4, 24, 4, 999_999

Event = namedtuple("Event", "step write covers")  # write: (column, counter, value) or None


def dots(events):
    return {e.write[:2] for e in events if e.write}


def held(events):
    gone = set().union(*(e.covers for e in events))
    return {e.write for e in events if e.write and e.write[:2] not in gone}


def top(events, column):
    return max((n for c, n in dots(events) if c == column), default=0)


def field(tag, body):
    return bytes([tag]) + len(body).to_bytes(2, "big") + body


def frame(key, events):
    out = field(1, bytes([key]))
    for c in range(COLUMNS):
        if top(events, c):
            values = [v for d, n, v in sorted(held(events), reverse=True) if d == c]
            out += field(2, bytes([c, len(values)]) + top(events, c).to_bytes(4, "big") + bytes(values))
    return out


def context(key, events):
    out = field(3, bytes([key]))
    for c in range(COLUMNS):
        if top(events, c):
            out += field(4, bytes([c]) + top(events, c).to_bytes(4, "big"))
    return out


class Machine:
    def __init__(self):
        self.life = [0] * SEATS
        self.known, self.kept = {}, {}  # (seat, key) -> set of events
        self.seen, self.sent = {}, {}  # call -> (key, set of events)
        self.owed = {}  # (seat, key) -> call of the put whose receipt is not spent
        self.calls = 0

    def call(self, name, seat, *rest):
        answer = "misnamed"
        if seat < SEATS and (name == "restart" or rest[0] < KEYS):
            answer = getattr(self, name)(seat, *rest)
        self.calls += 1
        return answer

    def knows(self, seat, key):
        return self.known.get((seat, key), frozenset())

    def context_of(self, key, seen):
        """The set that a put or a delete has seen, None if the call names none."""
        if seen is None:
            return frozenset()
        k, events = self.seen.get(seen, (None, None))
        return events if k == key else None

    def get(self, seat, key):
        events = self.knows(seat, key)
        self.seen[self.calls] = (key, events)
        return ("got", sorted(held(events), key=lambda w: (w[0], -w[1])), context(key, events))

    def send(self, seat, key):
        events = self.knows(seat, key)
        self.sent[self.calls] = (key, events)
        return ("sent", frame(key, events))

    def put(self, seat, key, seen, value):
        ctx = self.context_of(key, seen)
        if ctx is None or self.life[seat] >= LIVES:
            return "misnamed"
        events = self.knows(seat, key)
        column = 4 * seat + self.life[seat]
        if top(events, column) == LAST:
            return ("refused_by", "CounterExhausted")
        if len({w for w in held(events) if w[0] == column and w[:2] not in dots(ctx)}) == MOST:
            return ("refused_by", "TooManySiblings")
        counter = top(events, column) + 1
        event = Event(self.calls, (column, counter, value), frozenset(dots(ctx)))
        self.known[seat, key] = events | ctx | {event}
        self.owed[seat, key] = self.calls
        return ("wrote", column, counter)

    def delete(self, seat, key, seen):
        ctx = self.context_of(key, seen)
        if ctx is None:
            return "misnamed"
        self.known[seat, key] = self.knows(seat, key) | ctx | {Event(self.calls, None, frozenset(dots(ctx)))}
        return "done"

    def deliver(self, seat, key, sent):
        k, events = self.sent.get(sent, (None, None))
        if k != key:
            return "misnamed"
        self.known[seat, key] = self.knows(seat, key) | events
        return "done"

    def save(self, seat, key, receipt, left):
        if receipt is not None and self.owed.get((seat, key)) != receipt:
            return "misnamed"
        if len(frame(key, self.knows(seat, key))) + 4 > left:
            return ("refused_by", "MediumFull")
        self.kept[seat, key] = self.knows(seat, key)
        if receipt is not None:
            del self.owed[seat, key]
        return "done"

    def restart(self, seat):
        self.life[seat] = min(self.life[seat] + 1, LIVES)
        for key in range(KEYS):
            self.known[seat, key] = self.kept.get((seat, key), frozenset())
            self.owed.pop((seat, key), None)
        return "live" if self.life[seat] < LIVES else "mute"


def scenario(name, about, *calls):
    return (name, about, calls)


SCENARIOS = [
    scenario(
        "two_writers", "two seats write at once; one hears of both, and puts in place of both",
        ("put", 0, 3, None, 10), ("put", 1, 3, None, 20), ("send", 1, 3), ("deliver", 0, 3, 2), ("get", 0, 3), ("put", 0, 3, 4, 30), ("get", 0, 3),
    ),
    scenario(
        "late_frame", "a frame that comes late and twice, and what was never saved",
        ("put", 0, 2, None, 65), ("put", 1, 2, None, 66), ("send", 0, 2), ("deliver", 1, 2, 2), ("get", 1, 2), ("put", 0, 2, None, 68), ("put", 1, 2, 4, 67),
        ("save", 1, 2, 6, 1760), ("send", 1, 2), ("deliver", 0, 2, 8), ("deliver", 1, 2, 2), ("get", 1, 2), ("put", 1, 2, None, 69), ("restart", 1), ("put", 1, 2, None, 72), ("get", 1, 2), ("get", 0, 2),
    ),
    scenario(
        "four_siblings", "four writes that nothing has seen, and no fifth; but one that has seen the first",
        ("put", 2, 0, None, 1), ("get", 2, 0), ("put", 2, 0, None, 2), ("put", 2, 0, None, 3), ("put", 2, 0, None, 4), ("put", 2, 0, None, 5), ("put", 2, 0, 1, 6), ("get", 2, 0),
    ),
    scenario(
        "deletes", "a delete removes what it has seen, and not what it has not",
        ("put", 3, 7, None, 1), ("get", 3, 7), ("put", 3, 7, None, 2), ("delete", 3, 7, 1), ("get", 3, 7), ("delete", 3, 7, None), ("get", 3, 7), ("delete", 4, 7, 6), ("get", 4, 7), ("send", 4, 7),
    ),
    scenario(
        "seen_elsewhere", "a context of another seat brings its events along",
        ("put", 0, 1, None, 1), ("get", 0, 1), ("put", 5, 1, 1, 2), ("get", 5, 1), ("put", 0, 1, None, 3), ("send", 5, 1), ("deliver", 0, 1, 5), ("get", 0, 1),
    ),
    scenario(
        "full_medium", "a save that just fits, and one that does not",
        ("save", 5, 15, None, 8), ("save", 5, 15, None, 7), ("put", 5, 15, None, 1), ("save", 5, 15, 2, 17), ("save", 5, 15, 2, 18), ("put", 5, 15, None, 2), ("save", 5, 15, None, 18), ("restart", 5), ("get", 5, 15),
    ),
    scenario(
        "receipts", "a receipt is spent once, by its own seat and key, and not after a newer put or a restart",
        ("put", 0, 4, None, 1), ("save", 1, 4, 0, 99), ("save", 0, 5, 0, 99), ("save", 0, 4, 0, 9), ("save", 0, 4, 0, 99), ("save", 0, 4, 0, 99),
        ("put", 0, 4, None, 2), ("put", 0, 4, None, 3), ("save", 0, 4, 6, 99), ("save", 0, 4, None, 99), ("restart", 0), ("save", 0, 4, 7, 99),
    ),
    scenario(
        "last_life", "four restarts, and the seat is mute: it puts no more, and all else goes on",
        ("restart", 4), ("put", 4, 9, None, 1), ("save", 4, 9, 1, 99), ("restart", 4), ("restart", 4), ("put", 4, 9, None, 2), ("restart", 4), ("put", 4, 9, None, 3), ("get", 4, 9), ("delete", 4, 9, 8), ("send", 4, 9), ("restart", 4), ("get", 4, 9),
    ),
    scenario(
        "misnamed_calls", "calls that name no seat, no key, or nothing that was given",
        ("put", 6, 0, None, 1), ("put", 0, 16, None, 1), ("get", 0, 16), ("restart", 6), ("put", 0, 0, None, 1), ("get", 0, 0), ("send", 0, 0),
        ("put", 0, 0, 6, 2), ("put", 0, 1, 5, 2), ("delete", 0, 0, 99), ("deliver", 1, 0, 5), ("deliver", 1, 1, 6), ("deliver", 1, 0, 12), ("save", 0, 0, 5, 99), ("get", 1, 0),
    ),
]

HEADER = """-- Lists of calls with the answers that a second program worked out: tests/machine writes this file. Assumes nothing.
use Rattle.std.specs.Prelude.{◌≡◌, ℕ, List, [], ◌∷◌, map}
use Rattle.refusals.specs.declared.Refusal.TheVariants.{TooManySiblings, MediumFull}
use Rattle.dvvset.specs.declared.writes.Dot.{Dot}
use Rattle.dvvset.specs.declared.writes.Sibling.{Sibling}
use Rattle.history.specs.Calls.{blind, seen_at, no_receipt, receipt_of, Call, get, put, delete, send, deliver, save, restart, Answer, wrote, got, sent, done, live, mute, refused_by, misnamed}
use Rattle.history.specs.Machine.{answers, start}
use Rattle.history.specs.Clocks.{clock_answers, clock_start}

abbrev pub dot : ℕ → ℕ → Dot
dot c n = record { column = c; counter = n }

abbrev pub at : ℕ → ℕ → ℕ → Sibling ℕ
at c n v = record { dot = dot c n; value = v }

pub record Turn : Type 0 where
  pub asked : Call ℕ
  pub answered : Answer ℕ

abbrev pub turn : Call ℕ → Answer ℕ → Turn
turn c a = record { asked = c; answered = a }
"""

FOOTER = """-- The machine gives these answers, and so do the clocks; a value is one byte.
pub record Scenarios : Type 0 where
  pub by_machine : map (λ turns. answers (λ v. v ∷ []) start (map (λ t. t.asked) turns)) scenarios ≡ map (λ turns. map (λ t. t.answered) turns) scenarios
  pub by_clocks : map (λ turns. clock_answers (λ v. v ∷ []) clock_start (map (λ t. t.asked) turns)) scenarios ≡ map (λ turns. map (λ t. t.answered) turns) scenarios
"""


def listed(items):
    return "(" + " ∷ ".join([*map(str, items), "[]"]) + ")" if items else "[]"


def call_text(name, seat, *rest):
    rest = list(rest)
    if name in ("put", "delete"):
        rest[1] = "blind" if rest[1] is None else f"(seen_at {rest[1]})"
    if name == "save":
        rest[1] = "no_receipt" if rest[1] is None else f"(receipt_of {rest[1]})"
    return " ".join(map(str, ["(" + name, seat, *rest])) + ")"


def answer_text(answer):
    if isinstance(answer, str):
        return answer
    kind, *rest = answer
    if kind == "wrote":
        return f"(wrote (dot {rest[0]} {rest[1]}))"
    if kind == "got":
        return f"(got {listed([f'at {c} {n} {v}' for c, n, v in rest[0]])} {listed(rest[1])})"
    if kind == "sent":
        return f"(sent {listed(rest[0])})"
    return f"(refused_by {rest[0]})"


def main():
    print(HEADER)
    for name, about, calls in SCENARIOS:
        machine = Machine()
        turns = [f"turn {call_text(*c)} {answer_text(machine.call(*c))}" for c in calls]
        print(f"-- {about}\nabbrev pub {name} : List Turn\n{name} =")
        print("    " + "\n    ∷ ".join([*turns, "[]"]) + "\n")
    print("abbrev pub scenarios : List (List Turn)")
    print("scenarios = " + " ∷ ".join([*(s[0] for s in SCENARIOS), "[]"]) + "\n")
    print(FOOTER, end="")


if __name__ == "__main__":
    main()
