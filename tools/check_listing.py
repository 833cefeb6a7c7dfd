#!/usr/bin/env python3
"""Runs the listing on logs of every kind and compares what it prints with the model of document 01.

    tools/check_listing.py COMMAND [WORD ...]

COMMAND with its words starts the listing, which reads the log on standard input. To be run from the top of the repository. It ends with 1 where they
differ. The logs: both sides of the limit and what is far past it, registers that come again, markers with pairs of every sort, each kind of contents in each
kind of log, GPT data with and without a count and with another sum, records that are refused or cut, tails, and the sample of real firmware, whole and damaged,
with the sum of its GPT header mended in every second copy. Some come a few bytes a read as well. They are the same in every run."""
import contextlib
import random
import socket
import subprocess
import sys

import model
from maker import (ACTION, AGAIN, BLOB, END, FRAMES, GPT, IMAGE, KNOWN_PAIRS, MOST_PAIRS, SEPARATOR, SHA1, SHA256, TEXT, VARIABLE, WIDE_TEXT, agile,
                   cut_or_changed, entry, every_second_mended, framed, gpt, image, marker, named, pairs, sha1, u64, variable, wide)
from oracle import lines_text, run

SHORTEST = sha1(0, b"")
LONGEST = SHORTEST * (model.LOG_MOST // len(SHORTEST))
BORDERS = (
    *((f"{n} bytes", bytes(n)) for n in range(5)),
    ("document 01's example", sha1(SEPARATOR, bytes(4)) + b"\7"),
    ("the greatest numbers", sha1(0xFFFFFFFF, b"", register=0xFFFFFFFF)),
    *((f"registers that come again, {kind}", log) for kind, log in AGAIN.items()),
    ("sixteen pairs", marker(*pairs(16)) + agile(ACTION, [(id, bytes(size)) for id, size in KNOWN_PAIRS], b"")),
    ("seventeen pairs", marker(*pairs(17))),
    ("an id twice", marker((SHA256, 32), (SHA256, 20)) + agile(ACTION, [(SHA256, bytes(20))], b"")),
    ("an id twice, the second time in the seventeenth pair", marker(*pairs(17, {0: (SHA1, 20), 16: (SHA1, 20)}))),
    ("an id twice, the second time in the last pair that fits", marker(*pairs(MOST_PAIRS, {0: (SHA1, 20), MOST_PAIRS - 1: (SHA1, 20)}))),
    ("a size that is not the id's own", named(SHA256, 1)),
    ("a GPT with a count of none", sha1(GPT, gpt())),
    ("a GPT with 254 entries", sha1(GPT, gpt(entries=[entry("x")] * 254))),
    ("a GPT without a count", sha1(ACTION, b"x") + sha1(GPT, gpt(220, count=b""))),
    ("a GPT whose count wraps", sha1(GPT, gpt(count=(1 << 57) + 1, entries=[entry("x")]))),
    ("a GPT with a header size of 0", sha1(GPT, gpt(200, size=0))),
    ("a GPT with an entry size of 384", sha1(GPT, gpt(entry_size=384))),
    ("a GPT with another sum", sha1(ACTION, b"x") + sha1(GPT, gpt(sum=0))),
    ("a GPT with another sum and a faulty entry", sha1(GPT, gpt(entries=[entry(b"\0\xD8")], sum=0))),
    ("a GPT with another sum and no count", sha1(GPT, gpt(220, count=b"", sum=0))),
    ("65,535 bytes", LONGEST[:-1]),
    ("65,536 bytes", LONGEST),
    ("65,537 bytes", LONGEST + bytes(1)),
    ("200,000 bytes", LONGEST + bytes(200_000 - len(LONGEST))),
)
INSIDE = ((ACTION, b"x"), (TEXT, b"text"), (WIDE_TEXT, wide("text")), (VARIABLE, variable("name", b"data")), (IMAGE, image(END)),
          (GPT, gpt(entries=[entry("first")])), (BLOB, u64(1) + u64(2)), (SEPARATOR, bytes(4)), (SEPARATOR, b"\xFF" * 4))
FEW = 37  # bytes a read


def run_few(command, log):
    """What is printed where a read gives a few bytes: a socket of packets hands over one packet a read."""
    ours, theirs = socket.socketpair(type=socket.SOCK_SEQPACKET)
    with subprocess.Popen(command, stdin=theirs, stdout=subprocess.PIPE) as started:
        theirs.close()
        with ours, contextlib.suppress(ConnectionError):  # it may have ended before
            for at in range(0, len(log), FEW):
                ours.send(log[at:at + FEW])
        return started.stdout.read().decode()


def framed_logs():
    """Each kind of contents, with a tail of none to three, and a record that is refused and one that is cut: in each frame."""
    for frame in FRAMES:
        for tail, (event, data) in enumerate(INSIDE):
            yield f"{frame}, type {event}", framed(frame, event, data) + bytes(tail % 4)
        yield f"{frame}, refused", framed(frame, TEXT, b"text\x80")
        yield f"{frame}, cut", framed(frame, TEXT, b"text")[:-1]


def listings(command):
    """Each log with its name, and what is printed of it."""
    with open("crates/list/stdin", "rb") as file:
        sample = file.read()
    damaged = ((f"the sample, copy {k}", copy) for k, copy in enumerate(every_second_mended(cut_or_changed(random.Random(7), sample, 48))))
    for name, log in (*BORDERS, *framed_logs(), ("the sample", sample), *damaged):
        yield name, log, run(command, log)
    for name, log in (*BORDERS, ("the sample", sample)):
        yield f"{name}, {FEW} a read", log, run_few(command, log)


def main(command):
    if not command:
        sys.exit(__doc__)
    wrong = seen = 0
    for name, log, printed in listings(command):
        seen += 1
        right = lines_text(model.listing(log))
        if printed != right:
            wrong += 1
            print(f"{name}: the model ends {right.splitlines()[-2:]}, the listing {printed.splitlines()[-2:]}")
    print(f"{seen} listings, {wrong} wrong")
    return 1 if wrong else 0


if __name__ == "__main__":
    sys.exit(main(sys.argv[1:]))
