#!/usr/bin/env python3
"""Makes what crates/write_logs is run on, and holds the writer to every log of tools/compare_logs.py and to the Rust.

    tools/write_logs.py gate|check [FOLDER]           writes crates/write_logs/stdin and stdout, the run in the gate, or compares them
    tools/write_logs.py again [FOLDER] [--program COMMAND] [--only KIND]
    tools/write_logs.py rust [FOLDER] [--program COMMAND] [--oracle DRIVER] [--rounds N]

To be run from the top of the repository. FOLDER, COMMAND and DRIVER are as in tools/compare.py; COMMAND starts our program write_logs.

`gate` puts the entries of tools/entries.py and some real logs into the commands of crates/write_logs/README.md; the lines are those of tools/model.py, and our
program is not asked. `again` has every log that tools/compare.py compares written again. `rust` has the writer make logs, of tools/entries.py and drawn ones, and
the Rust read them: each record must have its entry's register, type, digests with their ids, and data.
"""
import collections
import multiprocessing
import random
import re
import sys

import compare_logs
import entries
import model
from bench_model import weighed
from maker import KNOWN_PAIRS, edited, half_mended, listed, real_logs, sample, u8, u32
from model import LOG_MOST
from oracle import arguments, ask, driver_of, lines_text, program, run, said

ALL_LEFT = 0xFFFFFFFF
SIZES = (1, 7, 100, 4096, 65536)  # of the pieces that a log is fed in
REAL_MOST, BATCH = 2500, 3000  # the most bytes of a real log in the gate; logs of one run of the program


# ---------------------------------------------------------------- commands and lines

def entry_bytes(one, room):
    """Form 1, register 4, type 4, room 4, the lengths of digests and data 4 each, and these."""
    return u8(one.form) + u32(one.register) + u32(one.event) + u32(ALL_LEFT if room is None else room) + u32(len(one.digests)) + u32(len(one.data)) + one.digests + one.data


def made_command(log, letter=b"W"):
    block = b"".join(entry_bytes(*one) for one in log.entries)
    return letter + u32(len(log.tail)) + log.tail + u32(len(block)) + block


def again_command(log):
    return b"A" + u32(len(log)) + log


def written(log):
    """The bytes of a log without its tail, the answers, and the entries that were written, by the model."""
    out, shape, answers = b"", model.Shape(), []
    for one, room in log.entries:
        left, most = LOG_MOST - len(out), 16 + len(one.digests) + len(one.data)
        answer, shape, buffer = model.write(shape, one, bytes(min(left, most if room is None else room)))
        answers.append(answer)
        if answer.word == "wrote":
            out += buffer[:answer.value("")]
    return out, answers, [one for (one, _), answer in zip(log.entries, answers) if answer.word == "wrote"]


def calls(whole, ends):
    """How many calls feed a log in pieces of each size: one for each record, one where a piece's last bytes complete none, and one to close."""
    def of(a, b):
        return sum(a < end <= b for end in ends) + (b not in ends)

    return sum(sum(of(a, min(a + size, len(whole))) for a in range(0, len(whole), size)) + 1 for size in SIZES)


class Lines:
    """The lines that the program is to write, and its totals."""

    def __init__(self):
        self.lines, self.totals = [], collections.Counter()

    def made(self, log):
        out, answers, good = written(log)
        whole = out + log.tail
        records, ending = model.walk(whole)
        assert len(records) == len(good) and str(ending) == f"end at {len(out)} tail {len(log.tail)}", ending
        self.lines += [f"entry {i} {answer}" for i, answer in enumerate(answers) if answer.word != "wrote"]
        told = dict(entries=len(answers), written=len(good), bytes=len(whole), sum=weighed(whole), tail=len(log.tail),
                    calls=calls(whole, {one.value("data").end for one in records}))
        self.tell("made", told)

    def again(self, log):
        records, ending = model.walk(log)
        end = len(log) if ending.word == "end" else records[-1].value("data").end if records else 0
        self.tell("again", dict(records=len(records), bytes=end, sum=weighed(log[:end])), f" {ending}")
        self.totals["again"] += len(records)

    def tell(self, word, told, rest=""):
        self.lines.append(f"{word} {self.totals['commands']} " + " ".join(f"{name} {n}" for name, n in told.items()) + rest)
        self.totals.update(told)
        self.totals["commands"] += 1

    def text(self):
        t = self.totals
        return lines_text([*self.lines, "commands {commands} entries {entries} written {written} calls {calls} again {again} differ 0".format_map(t)])


# ---------------------------------------------------------------- the run in the gate

def again_logs(folder):
    """Logs that are written again: short real ones, a damaged copy of each, and small ones of every kind."""
    r = random.Random("again")
    real = [log for log in real_logs(folder).values() if len(log) <= REAL_MOST]
    small = [log for log in compare_logs.bases() if len(log) < 400]
    return [b"", b"\1\2\3", *real, *(half_mended(r, edited(r, log)) for log in real), *r.sample(small, 60)]


def gate(folder):
    """The bytes of stdin and stdout."""
    made, again, lines = entries.all_logs(), again_logs(folder), Lines()
    for log in made:
        lines.made(log)
    for log in again:
        lines.again(log)
    return b"".join([*map(made_command, made), *map(again_command, again)]), lines.text().encode()


def gate_files(folder, is_check):
    for name, must in zip(("stdin", "stdout"), gate(folder)):
        with open("crates/write_logs/" + name, "rb" if is_check else "wb") as file:
            if not is_check:
                file.write(must)
            elif file.read() != must:
                sys.exit(f"crates/write_logs/{name} is another")
        print(name, len(must), "bytes")


# ---------------------------------------------------------------- every log of the comparison, written again

def again_part(task):
    kind, number, folder, command = task
    logs, counts, found = [log for log in compare_logs.make(kind, number, folder) if len(log) <= LOG_MOST], collections.Counter(), []
    for first in range(0, len(logs), BATCH):
        some = logs[first:first + BATCH]
        lines = run(command, b"".join(map(again_command, some))).splitlines()
        told = [line for line in lines if line.startswith("again ")]
        counts["logs"] += len(told)
        counts["accepted"] += sum(" end at " in line for line in told)
        counts["records"] += sum(int(line.split()[3]) for line in told)
        found += [f"{kind} {number}: {line}" for line in lines if "differs" in line]
        if len(told) != len(some) or not lines[-1].endswith(" differ 0"):
            found.append(f"{kind} {number}, from {first} on: {lines[-1:]}")
    return kind, counts, found


def again(given):
    command = program("write_logs", given.program)
    tasks = [(kind, i, given.folder, command) for kind, n in compare_logs.PARTS.items() for i in range(n) if given.only in (None, kind)]
    counts, found = collections.defaultdict(collections.Counter), []
    with multiprocessing.Pool(2) as pool:
        for kind, some, more in pool.imap_unordered(again_part, tasks):
            counts[kind] += some
            found += more
    everything = sum(counts.values(), collections.Counter())
    for kind in (*counts, "all"):
        row = everything if kind == "all" else counts[kind]
        print(f"| {kind} | {row['logs']:,} | {row['accepted']:,} | {row['records']:,} |")
    print("\n".join([*found[:20], f"{everything['logs']:,} logs, {len(found)} differences"]))
    return 1 if found else 0


# ---------------------------------------------------------------- logs that the writer made, read by the Rust

def drawn_log(r):
    """A log of either form, with digests of several tables; of the entries some are refused, at times a marker that Req 04 refuses before one that is written."""
    sizes = dict(r.sample([*KNOWN_PAIRS, (0x12, 5), (0, 0)], r.randrange(1, 5)))
    is_agile, out = r.random() < .7, []
    if is_agile:
        if r.randrange(10) == 0:
            out.append(entries.marker(*r.choice((*entries.REFUSED_TABLES, [*sizes.items()] * 2))))
        out.append(entries.marker(*sizes.items(), vendor=sample(r.choice((0, 3)))))
    for _ in range(r.randrange(12)):
        event, data = r.choice(entries.TYPES)
        if r.randrange(20) == 0:
            data = half_mended(r, edited(r, data))
        some = [id for id in sizes if id in model.KNOWN_IDS or r.randrange(50) == 0]
        ids = r.choices(some, k=r.choice((0, 1, 1, 2, 3)) if some else 0) if is_agile else [4]
        digests = listed(*((id, r.randbytes(sizes[id] if is_agile else 20)) for id in ids))
        out.append((entries.agile if is_agile else entries.sha1)(event, data, edited(r, digests) if r.randrange(30) == 0 else digests, r.randrange(1 << 32)))
    return entries.Log(entries.roomy(*out), sample(r.randrange(4)))


def digests_at(log, place, one):
    """What lies at a record's digest place, as the list of the entry that it is to be of."""
    found = []
    for item in model.items(one.digests):
        id, place = (model.num(log, place, 2), place + 2) if one.form == model.AGILE_FORM else (4, place)
        found.append((id, log[place:place + len(item.digest)]))
        place += len(item.digest)
    return listed(*found), place


def rust_differences(log, good, whole, answer):
    """What the Rust says of a log that the writer made, against the entries that were written."""
    one = said(whole, answer)
    if len(one.records) != len(good) or one.rust != f"end at {len(whole) - len(log.tail)} tail {len(log.tail)}":
        return [f"{len(one.records)} records of {len(good)}, {one.rust}: {whole.hex()[:400]}"]
    found = []
    for line, entry in zip(one.records, good):
        register, event, place, count, d, n = map(int, re.match(r"at \d+ pcr (\d+) type (\d+) place (\d+) digests (\d+) data (\d+)\+(\d+)", line).groups())
        digests, end = digests_at(whole, place, entry)
        met = (register, event, digests, whole[d:d + n], count, end + 4)
        if met != (entry.register, entry.event, entry.digests, entry.data, len(list(model.items(entry.digests))), d):
            found.append(f"{line}: {entry}")
    return found


def rust(given):
    command, driver, r = program("write_logs", given.program), driver_of(given), random.Random("rust")
    found, counts = [], collections.Counter()
    for turn in range(given.rounds + 1):
        logs = entries.all_logs() if turn == 0 else [drawn_log(r) for _ in range(BATCH)]
        lines = run(command, b"".join(made_command(log, b"H") for log in logs)).splitlines()
        made = [bytes.fromhex(line[6:]) for line in lines if line.startswith("bytes ")]
        found += [line for line in lines if "differs" in line or "changed" in line] + ([] if len(made) == len(logs) else [lines[-1]])
        for log, whole, answer in zip(logs, made, ask(driver, made)):
            good = written(log)[2]
            found += rust_differences(log, good, whole, answer)
            counts.update(logs=1, entries=len(log.entries), records=len(good))
    print("\n".join([*found[:20], f"{counts['logs']:,} logs, {counts['entries']:,} entries, {counts['records']:,} records, {len(found)} differences"]))
    return 1 if found else 0


def main():
    ways = arguments(__doc__, what=dict(choices=("gate", "check", "again", "rust")))
    ways.add_argument("--program", metavar="COMMAND")
    ways.add_argument("--only", metavar="KIND", choices=compare_logs.PARTS)
    ways.add_argument("--rounds", metavar="N", type=int, default=10)
    given = ways.parse_args()
    if given.what in ("gate", "check"):
        return gate_files(given.folder, given.what == "check")
    return again(given) if given.what == "again" else rust(given)


if __name__ == "__main__":
    sys.exit(main())
