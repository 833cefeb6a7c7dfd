#!/usr/bin/env python3
"""Prints every GPT event of the logs of real firmware: its numbers, whether its sum is right, and the entries that the Rust and our reader find in its data.

    tools/gpt_events.py [FOLDER] [--oracle DRIVER] [--bench COMMAND]

FOLDER, DRIVER and COMMAND are as in tools/compare.py. To be run from the top of the repository. The data of each event are read by themselves, by the Rust as a
log of one record and by `G` of the bench index by index, so that what else is in its log does not count: a record may be of any length, and a marker of 32-bit
firmware does not end its log. The lines of the entries must be the same, unless ours are refused. It ends with 1 where they are not. The last line says how many have
a right sum: of all, of the distinct ones, and of those that a walk of their log comes to.
"""
import re
import sys

import cases
import model
from maker import G, GPT, header_sum, real_logs, sha1
from oracle import arguments, ask, driver_of, program, run


def is_right(data):
    return model.num(data, 16, 4) == header_sum(data)


def reached(log):
    """The GPT data that a walk of the log comes to, sound or not."""
    ending = model.walk(log)[1]
    return [log[met.data.start:met.data.end] for met in model.split(log) if met.event == GPT and met.data.start <= ending.value("at")]


def sums(folder, every):
    """How many have a right sum, of each sort how many there are."""
    come_to = [data for log in real_logs(folder).values() if len(log) <= model.LOG_MOST for data in reached(log)]
    sorts = (("all", every), ("distinct", set(every)), ("that a walk comes to", come_to))
    return "right sums: " + ", ".join(f"{sum(map(is_right, some))} of {len(some)} {word}" for word, some in sorts)


def main():
    ways = arguments(__doc__)
    ways.add_argument("--bench", metavar="COMMAND")
    given = ways.parse_args()
    driver, bench = driver_of(given), program("bench", given.bench)
    every, differ, kept = [(name, data) for name, _, event, data in cases.real_records(given.folder) if event == GPT], 0, 0
    print("| log | L | s | e | count | sum | the Rust | ours |\n" + "|---" * 8 + "|")
    for (name, data), answer in zip(every, ask(driver, [sha1(GPT, data) for _, data in every], "--parts", "--no-limits")):
        theirs = re.findall(r"^entry .*", answer, re.M)
        ours = run(bench, b"".join(G(i, data) for i in range(len(theirs) + 1))).splitlines()
        is_refused = ours[0].startswith("refused")
        if not is_refused:
            differ += ours != [*theirs, "nothing"]
            kept += len(theirs)
        s, e = model.num(data, 12, 4), model.num(data, 84, 4)
        numbers = f"{len(data):,} | {s} | {e} | {model.num(data, s, 8):,} | {'right' if is_right(data) else 'another'}"
        print(f"| `{name.removesuffix('.bin')}` | {numbers} | {len(theirs)} | {ours[0] if is_refused else len(theirs)} |")
    print(f"{len(every)} events, {len({data for _, data in every})} distinct, {kept} entries by ours, {differ} differ")
    print(sums(given.folder, [data for _, data in every]))
    return 1 if differ else 0


if __name__ == "__main__":
    sys.exit(main())
