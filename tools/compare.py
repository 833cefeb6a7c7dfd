#!/usr/bin/env python3
"""Holds our reader to the Rust over more than a million logs, field by field.

    tools/compare.py [FOLDER] [--bench COMMAND] [--list COMMAND] [--oracle DRIVER] [--only KIND]

FOLDER has the Rust source (docs/src) and logs of real firmware (logs); without it ../shared. COMMAND is what starts our programs `bench` and
`list`: without it they are built, by tools/native.sh. DRIVER is a built oracle; without it
oracle/build.sh is run, unless target/oracle/driver is there. To be run from the top of the repository.

Every log of tools/compare_logs.py is walked by the bench over 64 slots and by the oracle, and the lines of all records and the last line must
be the same. A sample is also fed in pieces, by value and where the walker lies; of another the nodes and entries are read by index; and ten thousand
go through the listing. tools/oracle.py says what ours must be, also where the Rust has no answer, where it takes a marker that Req 04 refuses, and where it reads
GPT data that Req 05 or Req 06 refuses. Of such markers some are gone on with, by a made-up walker that has the marker's pairs.

It prints how many were compared, by kind and by the last line of the Rust, and every difference; it ends with 1 if there is one. Logs whose marker Req 04 refuses
are counted by themselves, those with an id twice and those with another size than an id's own; and so are those with GPT data that Req 05 refuses, by its four tests,
and those with another sum, which Req 06 refuses.
"""
import collections
import itertools
import multiprocessing
import random
import sys

import compare_logs
from model import LOG_MOST
from oracle import (OTHER_SUM, UNCOUNTED, arguments, ask, drawn_pieces, driver_of, fed, fed_behind, goes_on, last_words, listed, lists_of, program, read, run,
                    rust_words, said, walked)

FED, MADE_UP, READ, LISTED = 60, 5, 12, 125  # one log of so many is fed, fed to a made-up walker (of those that Req 04 refuses), read, listed
FED_OF = {"document 01": 1, "limits": 10, "real logs": 10, "registers": 10}
MADE_UP_OF = {"document 01": 1, "limits": 1}
READ_OF = {"document 01": 1}


def differences(what, command, cases):
    """Cases are (log, input, lines that ours must be). Where they differ, halves are run again until one log is left; ten are enough."""
    ours = run(command, b"".join(given for _, given, _ in cases))
    if ours == "".join(text for _, _, text in cases):
        return []
    if len(cases) > 1:
        first = differences(what, command, cases[:len(cases) // 2])
        return first + (differences(what, command, cases[len(cases) // 2:]) if len(first) < 10 else [])
    [(log, _, text)] = cases
    for must, line in itertools.zip_longest(text.split("\n"), ours.split("\n"), fillvalue=""):
        if must != line:
            return [(len(log), f"{what}, {len(log)} bytes, {log[:400].hex()}: must be {must!r}, is {line!r}")]


def part(task):
    kind, number, folder, *programs = task
    logs, r = compare_logs.make(kind, number, folder), random.Random(f"pieces {kind} {number}")
    counts, found = collections.Counter(), []
    for first in range(0, len(logs), 3000):
        found += compare(kind, logs[first:first + 3000], first + number, r, programs, counts)
    return kind, counts, found


def compare(kind, logs, turn, r, programs, counts):
    """All these logs by the walk, and some of them in the other ways; `turn` says which."""
    driver, bench, listing = programs
    says = [said(log, answer) for log, answer in zip(logs, ask(driver, logs))]
    for one in says:
        counts[last_words(one)] += 1
        counts["records"] += len(one.records)
        if one.without:
            counts["the marker", last_words(one.without)] += 1
        if one.why in UNCOUNTED:
            counts["GPT data", rust_words(one)] += 1
        if one.why == OTHER_SUM:
            counts["the sum", rust_words(one)] += 1
    counts["logs"] += len(logs)
    found = differences(kind + ", walked", bench, [(log, *walked(log, one)) for log, one in zip(logs, says)])

    def every(step):
        return [i for i in range(turn % step, len(logs), step) if len(logs[i]) <= LOG_MOST]

    some = every(FED_OF.get(kind, FED))
    cases = [(logs[i], *fed(logs[i], says[i], *drawn_pieces(logs[i], r))) for i in some]
    counts["fed"] += len(some)
    counts["calls"] += sum(text.count("fed ") for _, _, text in cases)
    found += differences(kind + ", fed", bench, cases)

    step = MADE_UP_OF.get(kind, MADE_UP)
    some = [i for i in every(1) if goes_on(says[i])][turn % step::step]
    cases = [(logs[i], *fed_behind(logs[i], says[i], *drawn_pieces(logs[i], r))) for i in some]
    counts["made up"] += len(some)
    counts["calls"] += sum(text.count("fed ") for _, _, text in cases)
    found += differences(kind + ", fed to a made-up walker", bench, cases)

    some = every(READ_OF.get(kind, READ))
    answers = ask(driver, [logs[i] for i in some], "--parts")
    cases = [(logs[i], *pair) for i, answer in zip(some, answers) for pair in read(lists_of(logs[i], answer, says[i]))]
    counts["read"] += len(cases)
    found += differences(kind + ", read", bench, cases)

    for i in range(turn % LISTED, len(logs), LISTED):
        counts["listed"] += 1
        found += differences(kind + ", listed", listing, [(logs[i], logs[i], listed(says[i]))])
    return found


def report(counts, found):
    columns = ("logs", "records", "fed", "made up", "calls", "read", "listed")
    everything = sum(counts.values(), collections.Counter())
    print("| kind | " + " | ".join(columns) + " |")
    print("|---" * (len(columns) + 1) + "|")
    for kind in (*(x for x in compare_logs.PARTS if x in counts), "all"):
        row = everything if kind == "all" else counts[kind]
        print("| " + " | ".join([kind, *(f"{row[x]:,}" for x in columns)]) + " |")
    there = {x: everything.pop(x) for x in [x for x in everything if isinstance(x, tuple)]}
    print("last lines of the Rust:", ", ".join(f"{x} {n:,}" for x, n in sorted(everything.items()) if x not in columns))
    for req, what in (("Req 04", "the marker"), ("Req 05", "GPT data"), ("Req 06", "the sum")):
        print(f"where {req} refuses {what} they were:", ", ".join(f"{x[1]} {n:,}" for x, n in sorted(there.items()) if x[0] == what))
    for _, text in sorted(found):
        print("difference in", text)
    print(f"{everything['logs']:,} logs, {len(found)} differences")
    return 1 if found else 0


def main():
    ways = arguments(__doc__)
    ways.add_argument("--bench", metavar="COMMAND")
    ways.add_argument("--list", metavar="COMMAND")
    ways.add_argument("--only", metavar="KIND", choices=compare_logs.PARTS)
    given = ways.parse_args()
    programs = driver_of(given), program("bench", given.bench), program("list", given.list)
    tasks = [(kind, i, given.folder, *programs) for kind, n in compare_logs.PARTS.items() for i in range(n) if given.only in (None, kind)]
    counts, found = collections.defaultdict(collections.Counter), []
    with multiprocessing.Pool(2) as pool:
        for done, (kind, some, more) in enumerate(pool.imap_unordered(part, tasks), 1):
            counts[kind] += some
            found += more
            print(f"\r{done} of {len(tasks)} parts", end="\n" if done == len(tasks) else "", file=sys.stderr)
    return report(counts, found)


if __name__ == "__main__":
    sys.exit(main())
