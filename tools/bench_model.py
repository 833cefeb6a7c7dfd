#!/usr/bin/env python3
"""Says what the program bench is to write, by the model of the documents.

    tools/bench_model.py < commands > lines

The commands and the lines are those of crates/bench/README.md; what they answer is tools/model.py's. tools/bench_compare.py holds the program to it.
"""
import sys

import model
from maker import COUNTED_MOST, ROOM_MOST, SLOTS

HOLD_MOST = 65536
REFUSALS = range(1, 19)


class Bad(Exception):
    """A command that ends the run."""


def walk_lines(slots, records, ending):
    return [f"walk {len(records)} {ending}", *records, f"kept {slots - len(records)}"]


def weighed(numbers):
    """The sum of numbers or bytes, each times its place counted from 1."""
    return sum(x * i for i, x in enumerate(numbers, 1)) % 2 ** 32


def pairs_lines(shape, is_marker):
    return ["pairs " + " ".join(f"{id}:{size}" for id, size in shape.table)] if is_marker else []


def fed_lines(walker, taken, answer, hold_sum, stands_sum, is_marker):
    """The lines of a feed or a close; the walker is that after the call, and the sums are those of the hold and of where its registers stand."""
    shape = walker.shape
    return [f"fed {taken} held {walker.held} total {walker.total} kind {shape.kind} count {shape.count} {answer}", f"hold {hold_sum % 2 ** 32}",
            *pairs_lines(shape, is_marker), f"stands {stands_sum % 2 ** 32}"]


def pattern(n):
    """What a buffer of so many bytes has before it is written to."""
    return bytes((7 * i + 3) % 251 for i in range(n))


def item(items, index, data):
    """What a reader says at an index; `items` gives the list."""
    try:
        found = items(data)
    except model.No as no:
        return no.answer()
    return found[index] if index < len(found) else "nothing"


def text(length, data):
    try:
        return f"text 0+{length(data)}"
    except model.No as no:
        return no.answer()


class Bench:
    """A walker and a hold, a writer's state, and what the commands do with them. `run` may be called again, with more commands."""

    def __init__(self):
        self.fresh()
        self.written = model.Shape()

    def fresh(self):
        self.walker, self.hold = model.Walker(), bytearray(model.RECORD_MOST)
        return []

    def take(self, n):
        if self.at + n > len(self.commands):
            raise Bad
        self.at += n
        return self.commands[self.at - n:self.at]

    def number(self, n, most=None):
        x = model.num(self.take(n), 0, n)
        if most is not None and x > most:
            raise Bad
        return x

    def counted(self):
        return self.take(self.number(4, COUNTED_MOST))

    def shape(self):
        kind, count = self.number(1, 2), self.number(8)
        return model.Shape(kind, [(self.number(2), self.number(2)) for _ in range(16)], count)

    def account(self):
        counts = [self.number(4) for _ in range(24)]
        return model.Account(counts, [self.number(4) for _ in range(96)])

    def made_up(self):
        held, total, shape, account = self.number(8), self.number(8), self.shape(), self.account()
        kept, number, a, b = self.number(1, 2), self.number(1), self.number(8), self.number(8)
        if kept == 2 and number not in REFUSALS:
            raise Bad
        answer = (None, model.closed(a, 0, b), model.refused(number, a))[kept]
        self.walker = model.Walker(held, total, shape, account, answer)
        return []

    def sized(self):
        size = self.number(4, HOLD_MOST)
        self.hold = bytearray(self.take(self.number(4, size)).ljust(size, b"\0"))
        return []

    def fed(self, taken, answer):
        is_marker = answer.inside is not None and answer.inside.word == "marker"
        return fed_lines(self.walker, taken, answer, weighed(self.hold), weighed(self.walker.account.numbers), is_marker)

    def wrote(self):
        form, register, event, room = self.number(1, 1), self.number(4), self.number(4), self.number(4, ROOM_MOST)
        entry, was = model.Entry(form, register, event, self.counted(), self.counted()), self.written.kind
        answer, self.written, buffer = model.write(self.written, entry, pattern(room))
        return [f"{answer} kind {self.written.kind} count {self.written.count}", f"buffer {weighed(buffer)}",
                *pairs_lines(self.written, was < self.written.kind == model.AGILE)]

    def write_command(self, letter):
        if letter == b"S":
            self.written = model.Shape()
            return []
        if letter == b"M":
            self.written = self.shape()
            return []
        if letter == b"E":
            return self.wrote()
        raise Bad

    def command(self):
        letter = self.take(1)
        if letter == b"L":
            slots = self.number(4, SLOTS)
            return walk_lines(slots, *model.walk(self.counted(), slots))
        if letter == b"N":
            return self.fresh()
        if letter == b"W":
            return self.made_up()
        if letter == b"H":
            return self.sized()
        if letter in b"Ff":
            return self.fed(*self.walker.feed(self.hold, self.counted()))
        if letter in b"Cc":
            return self.fed(0, self.walker.close(self.hold))
        if letter == b"P":
            return [item(model.path_nodes, self.number(4), self.counted())]
        if letter == b"G":
            return [item(lambda b: model.gpt_parts(b)[1], self.number(4), self.counted())]
        if letter == b"U":
            return [text(model.utf8_length, self.counted())]
        if letter == b"X":
            return [text(model.wide_length, self.counted())]
        return self.write_command(letter)

    def run(self, commands):
        """The lines, up to the end or a bad command."""
        self.commands, self.at = commands, 0
        while self.at < len(commands):
            start = self.at
            try:
                yield from (str(line) for line in self.command())
            except Bad:
                yield f"bad command at {start}"
                return


def main():
    if len(sys.argv) > 1:
        sys.exit(__doc__)
    for line in Bench().run(sys.stdin.buffer.read()):
        print(line)


if __name__ == "__main__":
    main()
