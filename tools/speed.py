#!/usr/bin/env python3
"""Measures our reader against the Rust, and our writer against our reader, and prints the tables of docs/SPEED.md.

    tools/speed.py [FOLDER] [--speed COMMAND] [--write COMMAND] [--oracle DRIVER] [--only-write | --only-markers]
    tools/speed.py [FOLDER] --before COMMAND [--only-markers]
                                                       our reader against itself as it was: COMMAND starts the program `speed` of an earlier commit
    tools/speed.py --gate                              writes crates/speed/stdin, and crates/write_speed/stdin and stdout

FOLDER has the Rust source (docs/src) and logs of real firmware (logs); without it ../shared. COMMAND is what starts our program `speed` or `write_speed`:
without it it is built, by tools/native.sh. DRIVER is a built oracle; without it
oracle/build.sh is run, unless target/oracle/driver is there. To be run from the top of the repository.

A time is the processor time of a process that reads one log so many times over, less that of one that reads it no times, divided by the
times. The processes to be compared run by turns, five times each, and the least of each counts. Before it is timed a log must give the
records and the sum of all their numbers that the oracle's lines have, with the serials (tools/oracle.py), and so must the stored run of crates/speed.

It ends with 1 if a bound is missed: the walk takes over twice the time of the Rust on a real log or on small records, or longer than the Rust
on text of one byte a character; a feed in one piece over twice the time of the walk; a digest of 1,488 over 1.3 times the time of one of
372; a marker of as many pairs as fit a record over 2.4 times the time of one of half the length; writing a log's records over twice the time of the walk of
them, where there are contents to judge; and against itself as it was, the walk over 1.1 times the time, 1.4 times where every third character has two bytes,
over the time itself on short texts, or 1.2 times on a marker of the four known ids alone.
"""
import os
import re
import struct
import subprocess
import sys
import tempfile

import compare_logs
import entries
from bench_model import weighed
from maker import (ACTION, GPT, KNOWN_PAIRS, MOST_PAIRS, SEPARATOR, SHA1, SHA256, SMALLEST, TEXT, WIDE_TEXT, WITH_TWO, agile, entry, gpt, marker, pairs,
                   real_logs, sample, sha1, wide)
from model import LOG_MOST
from oracle import arguments, ask, driver_of, program, run, said, serials_of
from write_logs import entry_bytes

ROUNDS, SECONDS = 5, 0.35
WALK, ONE_PIECE = 0, LOG_MOST
TWO_REAL = ("qemu-b-ovmf2022-gptdisk-grub206-crb-sha1+sha256.bin", "pkg-goeventlog-tpm-ubuntu-2404-amd-sevsnp.bin")


# ---------------------------------------------------------------- the logs

def filled(head, one):
    """As many of one record after the head as a log may have."""
    return head + one * ((LOG_MOST - len(head)) // len(one))


def texts(event, text):
    """Two records that fill a log with a text over and over; letters stand where it no longer fits."""
    return 2 * sha1(event, (text * (32736 // len(text))).ljust(32736, b"a"))


def short_texts():
    """A log of texts of 8 to 60 bytes, one length after the other."""
    records = b"".join(sha1(TEXT, (b"abcdefghijkl" * 5)[:n]) for n in range(8, 61))
    return filled(b"", records)


SMALL = {
    "agile, no digest, no data": filled(SMALLEST, agile(ACTION, [], b"")),
    "SHA-1, no data": filled(b"", sha1(ACTION, b"")),
    "agile, two digests, 4 bytes of data": filled(WITH_TWO, agile(SEPARATOR, [(SHA1, sample(20)), (SHA256, sample(32))], bytes(4))),
}
PLAIN, THIRD, SHORT = "UTF-8, one byte a character", "UTF-8, every third character of two bytes", "UTF-8, texts of 8 to 60 bytes"
TEXTS = {
    PLAIN: texts(TEXT, b"abcdefghijkl"),
    "UTF-8, every 50th character of two bytes": texts(TEXT, (49 * "a" + "\u00e9").encode()),
    THIRD: texts(TEXT, "aa\u00e9".encode()),
    "UTF-8, two to four bytes a character": texts(TEXT, ("\u20ac\u4e2d\U0001F600\U00020000" + 9 * "\u00e9").encode()),
    SHORT: short_texts(),
    "wide text": texts(WIDE_TEXT, wide("abcdef")),
}

# As many entries as fit a record, and as many records of two entries as fit a log.
TABLES = {
    "GPT, 254 entries": 2 * sha1(GPT, gpt(entries=[entry("EFI system", salt=i) for i in range(254)])),
    "GPT, two entries": filled(b"", sha1(GPT, gpt(entries=[entry("EFI system"), entry("Linux")]))),
}

# Logs that are a marker and no more. Those of many pairs have no id twice, and are refused with 11; or the last pair has the first one's id, and it is 9.
FOUR, SIXTEEN = "a marker of the four known ids", "a marker of sixteen pairs"
MARKERS = {FOUR: marker(*KNOWN_PAIRS), SIXTEEN: marker(*pairs(16))}
HALF = (16384 - 61) // 4
MANY = {
    f"{HALF:,} pairs": marker(*pairs(HALF)),
    f"{MOST_PAIRS:,} pairs": marker(*pairs(MOST_PAIRS), vendor=b"ven"),
    f"{MOST_PAIRS:,} pairs, the last with the first one's id": marker(*pairs(MOST_PAIRS, {0: (SHA256, 32), MOST_PAIRS - 1: (SHA256, 32)}), vendor=b"ven"),
}

# How many times the time of before a walk may take, where it is not 1.1. That of THIRD was set after it was measured (docs/SPEED.md). For SIXTEEN none is asked.
SLOWER = {SHORT: 1, THIRD: 1.4, FOUR: 1.2, SIXTEEN: float("inf")}

# Data without contents: a writer copies what a walk passes over.
OPAQUE = {"no contents, 32,736 bytes of data": 2 * sha1(ACTION, sample(32736))}


def digests(count, id=SHA1, size=20):
    """A record of so many digests; those of SHA-1 are the most fields to its bytes. With another size than the id's own the marker is refused."""
    return marker((id, size)) + agile(SEPARATOR, [(id, sample(size))] * count, bytes(4))


def long_logs(folder, driver):
    """The real logs of at most 65,536 bytes of which more than 16 KiB are read."""
    return {name[:-4]: log for name, log in real_logs(folder).items() if len(log) <= LOG_MOST and read_to(driver, log) > 16384}


# ---------------------------------------------------------------- the stored run

def task(size, times, log):
    return struct.pack("<III", size, times, len(log)) + log


def stored_logs():
    """A real log, one with every kind of contents, a refused one, small ones."""
    with open("crates/list/stdin", "rb") as f:
        real = f.read()
    every = WITH_TWO + b"".join(agile(event, [(SHA1, sample(20))], data) for event, data in compare_logs.SOUND) + b"\1\2"
    refused = sha1(ACTION, b"abc") + sha1(SEPARATOR, b"\xff" * 4) + sha1(*compare_logs.FAULTY[12])
    return real, every, refused, sha1(SEPARATOR, bytes(4)) + b"\7", digests(20, SHA256, 0), digests(20), bytes(3), b""


def stored_tasks():
    """Those logs, walked and fed; and at the end a task that is too long."""
    real = stored_logs()[0]
    for log in stored_logs():
        for size in (WALK, ONE_PIECE, 16, 1):
            yield task(size, 1, log)
    yield task(WALK, 3, real) + task(256, 2, real) + task(WALK, 0, real)
    yield struct.pack("<III", WALK, 1, LOG_MOST + 1)


def write_task(times, log):
    block = b"".join(entry_bytes(one, None) for one in entries.of_log(log))
    return struct.pack("<II", times, len(block)) + block


def wrote_line(times, log):
    """The line of our writer on the entries of a log."""
    own = entries.of_log(log)
    end = sum(map(entries.length, own)) if times else 0
    return f"wrote times {times} records {times * len(own)} bytes {end} sum {weighed(log[:end])}"


def stored_writes():
    """The logs of the stored run, each once, three times and no times: the tasks and the lines."""
    given = [(times, log) for log in stored_logs() for times in (1, 3, 0)]
    return b"".join(write_task(*one) for one in given), "".join(wrote_line(*one) + "\n" for one in given).encode()


def check_stored(driver):
    with open("crates/speed/stdin", "rb") as f:
        given = f.read()
    with open("crates/speed/stdout") as f:
        lines = iter(f.read().splitlines())
    at = 0
    while at + 12 < len(given):
        size, times, n = struct.unpack_from("<III", given, at)
        at += 12 + n
        check(driver, given[at - n:at], size, times, next(lines))


# ---------------------------------------------------------------- what a line must say

def lines_of(driver, log):
    return run([driver, "detail"], log).splitlines()


def read_to(driver, log):
    """Where the log ends or is refused; 0 if it leaves the domain that we share with the Rust."""
    last = re.match(r"(?:end|refused \d+) at (\d+)", lines_of(driver, log)[-1])
    return int(last[1]) if last else 0


def records_and_sums(driver, log):
    """How many records the oracle's lines have, the sum of the numbers in them (the word `bios` counts 1), that of their serials, and how many bytes GPT headers
    had reserved before Req 05 and have no more. A marker that Req 04 refuses ends the log, and so do GPT data that Req 05 or Req 06 refuses."""
    lines = said(log, run([driver, "detail"], log)).records
    serials = sum(serials_of(lines))
    told = sum(int(n) for line in lines for n in re.findall(r"\d+", line)) + sum(line.endswith("bios") for line in lines)
    return len(lines), told - serials, serials, 8 * sum(" gpt " in line for line in lines)


def check(driver, log, size, times, line, is_before=False):
    """Holds a line of our program to the oracle; gives the records of one walk. As it was before Req 05, its sum has the bytes of the counts; before it had
    serials, it is without them."""
    records, told, serials, more = records_and_sums(driver, log)
    word = f"pieces of {size}" if size else "walk"
    calls = str((records + 1) * times) if size == WALK else r"\d+"
    must = f"{word} bytes {len(log)} times {times} calls {calls} records {records * times} sum"
    sums = (told + serials, told + serials + more, told + more) if is_before else (told + serials,)
    if not any(re.fullmatch(f"{must} {n * times % 2**64}", line) for n in sums):
        sys.exit(f"speed: {line}\nthe oracle has {records} records and the sum {sums[0]}")
    return records


# ---------------------------------------------------------------- times

def spent(command, given):
    """Seconds of processor time, and what was written."""
    with tempfile.TemporaryFile() as f:
        f.write(given)
        f.seek(0)
        process = subprocess.Popen(command, stdin=f, stdout=subprocess.PIPE)
        written = process.stdout.read().decode().strip()
        _, status, usage = os.wait4(process.pid, 0)
        process.returncode = status
    if status:
        sys.exit(f"speed: {' '.join(command)} ended with {status}")
    return usage.ru_utime + usage.ru_stime, written


class Ours:
    """Our program on a log, by pieces of a size or whole."""

    def __init__(self, command, driver, log, size, is_before=False):
        self.command, self.log, self.size = command, log, size
        self.records = check(driver, log, size, 1, self.run(1)[1], is_before)

    def run(self, times):
        return spent(self.command, task(self.size, times, self.log))


class Writer:
    """Our writer on the entries of a log, which are made before."""

    def __init__(self, command, log):
        self.command, self.given = command, write_task(0, log)[4:]
        must, line = wrote_line(1, log), self.run(1)[1]
        if line != must:
            sys.exit(f"speed: {line}, and must be {must}")

    def run(self, times):
        return spent(self.command, struct.pack("<I", times) + self.given)


class Rust:
    """The oracle on a log. It gives a marker's record to nobody."""

    def __init__(self, driver, log):
        self.driver, self.log = driver, log
        given = sum(" marker " not in line for line in lines_of(driver, log)[1:-1])
        written = self.run(1)[1]
        if written != f"records {given}":
            sys.exit(f"speed: the oracle says {written}, and its lines are {given}")

    def run(self, times):
        return spent([self.driver, "time", str(times)], self.log)


def times_for(reader):
    """How often a log is read in about SECONDS."""
    times = 1
    while True:
        took = reader.run(times)[0]
        if took > 0.04:
            return max(1, round(times * SECONDS / took))
        times *= 4


def measured(*readers):
    """Microseconds for one reading, of each reader."""
    times = [times_for(reader) for reader in readers]
    full, none = [], []
    for _ in range(ROUNDS):
        full.append([reader.run(n)[0] for reader, n in zip(readers, times)])
        none.append([reader.run(0)[0] for reader in readers])
    return [(min(a) - min(b)) / n * 1e6 for a, b, n in zip(zip(*full), zip(*none), times)]


# ---------------------------------------------------------------- the tables

def table(title, *heads):
    print(f"\n{title}\n\n| " + " | ".join(heads) + " |\n" + "|---" * len(heads) + "|", flush=True)


def row(*cells):
    print("| " + " | ".join(cells) + " |", flush=True)


def us(time):
    return f"{time:,.0f}" if time >= 100 else f"{time:.1f}" if time >= 1 else f"{time:.3f}"


def whole_row(name, read, records, took):
    rust, walk, piece = took
    row(name, read, records, us(rust), us(walk), f"{walk / rust:.2f}", us(piece), f"{piece / walk:.2f}")


def whole(ours, driver, title, logs, missed, bounds):
    """The walk against the Rust, each log with its bound, and a feed in one piece against the walk; gives the times of all logs together."""
    table(title, "log", "read up to", "records", "Rust, µs", "walk, µs", "walk : Rust", "one piece, µs", "one piece : walk")
    sums = [0, 0, 0]
    for name, log in logs.items():
        walk, piece = Ours(ours, driver, log, WALK), Ours(ours, driver, log, ONE_PIECE)
        took = measured(Rust(driver, log), walk, piece)
        whole_row(name, f"{read_to(driver, log):,}", f"{walk.records:,}", took)
        if name in bounds and took[1] > bounds[name] * took[0]:
            missed.append(f"the walk of {name}")
        if took[2] > 2 * took[1]:
            missed.append(f"one piece of {name}")
        sums = [a + b for a, b in zip(sums, took)]
    return sums


def many_digests(ours, driver, missed):
    table("One record of digests of 20 bytes", "digests", "in one piece, µs", "a digest, ns", "one byte at a time, ms")
    each = []
    for count in (372, 744, 1488):
        log = digests(count)
        piece, single = measured(Ours(ours, driver, log, ONE_PIECE), Ours(ours, driver, log, 1))
        each.append(piece / count)
        row(f"{count:,}", us(piece), f"{1000 * each[-1]:.1f}", f"{single / 1000:,.0f}")
    if each[-1] > 1.3 * each[0]:
        missed.append("many digests in one piece")


def many_pairs(ours, driver, missed):
    """The walk of a marker of many pairs, which is refused when all of them were looked at."""
    table("Markers of many pairs", "marker", "bytes", "refused with", "walk, µs", "of the first")
    took = measured(*(Ours(ours, driver, log, WALK) for log in MANY.values()))
    for (name, log), one in zip(MANY.items(), took):
        [answer] = ask(driver, [log])
        row(name, f"{len(log):,}", said(log, answer).last.split()[1], us(one), f"{one / took[0]:.2f}")
    if max(took[1:]) > 2.4 * took[0]:
        missed.append("markers of many pairs")


def by_pieces(ours, driver, folder):
    """Pieces of several sizes over two real logs, and how many times the time of one piece that is."""
    logs = [real_logs(folder)[name] for name in TWO_REAL]
    table("Two real logs by pieces", "pieces of", *(f"{name[:-4]}, {len(log):,} bytes, µs" for name, log in zip(TWO_REAL, logs)))
    sizes = (ONE_PIECE, 4096, 256, 16, 1)
    columns = [measured(*(Ours(ours, driver, log, size) for size in sizes)) for log in logs]
    for size, *took in zip(sizes, *columns):
        row(f"{size:,}", *(f"{us(one)}, {one / column[0]:.2f} times one piece" for one, column in zip(took, columns)))


def reading(ours, driver, folder, real, missed):
    check_stored(driver)
    together = whole(ours, driver, "Real logs", real, missed, dict.fromkeys(real, 2))
    whole_row("all together", "", "", together)
    whole(ours, driver, "Small records", SMALL, missed, dict.fromkeys(SMALL, 2))
    whole(ours, driver, "Text", TEXTS, missed, {PLAIN: 1})
    whole(ours, driver, "Partition tables", TABLES, missed, {})
    many_digests(ours, driver, missed)
    many_pairs(ours, driver, missed)
    by_pieces(ours, driver, folder)


def as_it_was(before, ours, driver, title, logs, missed):
    """The walk as it was, against the walk."""
    table(title, "log", "before, µs", "after, µs", "after : before")
    for name, log in logs.items():
        took = measured(Ours(before, driver, log, WALK, is_before=True), Ours(ours, driver, log, WALK))
        row(name, us(took[0]), us(took[1]), f"{took[1] / took[0]:.2f}")
        if took[1] > SLOWER.get(name, 1.1) * took[0]:
            missed.append(f"{name}, slower than before")


def writing(ours, writer, driver, logs, missed):
    """Writing the records of a log, from entries that are there, against the walk of it."""
    table("Writing", "log", "bytes", "records", "walk, µs", "write, µs", "write : walk")
    for name, log in logs.items():
        walk = Ours(ours, driver, log, WALK)
        took = measured(walk, Writer(writer, log))
        row(name, f"{len(log):,}", f"{walk.records:,}", us(took[0]), us(took[1]), f"{took[1] / took[0]:.2f}")
        if took[1] > 2 * took[0] and name not in OPAQUE:
            missed.append(f"writing {name}")


def main():
    ways = arguments(__doc__)
    ways.add_argument("--write", metavar="COMMAND")
    ways.add_argument("--only-write", action="store_true")
    ways.add_argument("--only-markers", action="store_true")
    ways.add_argument("--speed", metavar="COMMAND")
    ways.add_argument("--before", metavar="COMMAND")
    ways.add_argument("--gate", action="store_true")
    given = ways.parse_args()
    if given.gate:
        with open("crates/speed/stdin", "wb") as f:
            f.write(b"".join(stored_tasks()))
        for name, must in zip(("stdin", "stdout"), stored_writes()):
            with open("crates/write_speed/" + name, "wb") as f:
                f.write(must)
        return 0
    ours, driver, missed = program("speed", given.speed), driver_of(given), []
    real = long_logs(given.folder, driver)
    if given.before:
        before = program("speed", given.before)
        if not given.only_markers:
            as_it_was(before, ours, driver, "Before and after", {**real, **SMALL, **TEXTS, **TABLES}, missed)
        as_it_was(before, ours, driver, "A marker alone, before and after", MARKERS, missed)
    elif given.only_markers:
        many_pairs(ours, driver, missed)
    else:
        if not given.only_write:
            reading(ours, driver, given.folder, real, missed)
        writing(ours, program("write_speed", given.write), driver, {**real, **SMALL, **TEXTS, **TABLES, **OPAQUE}, missed)
    print("".join(f"\nmissed: {bound}" for bound in missed))
    return 1 if missed else 0


if __name__ == "__main__":
    sys.exit(main())
