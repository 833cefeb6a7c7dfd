#!/usr/bin/env python3
"""Holds the program bench to the model of the documents over random commands.

    tools/bench_compare.py PROGRAM RUNS [SEED]

PROGRAM is the command, in one string, that runs crate bench. A run is some forty commands and, at its end, often one that is bad:
logs made of the records of tools/bench_sample.py, whole, damaged, cut and mixed; the same in pieces, to walkers that are fresh,
fed or made up; walkers whose counts or tallies are about to pass their total; paths, GPT data and texts, damaged; entries to write, from
states that are fresh, written or made up. The lines are compared whole. Two calls with one SEED (default 1) try the same.
"""
import collections
import random
import shlex
import sys

import bench_sample as sample
import model
from bench_model import REFUSALS, Bench
from maker import C, E, F, G, H, L, M, N, P, S, U, W, X, agile, bank, c, edited, f, half_mended, listed, pairs, summed, u16, u32, u64, variable, wide, with_sum
from oracle import run

SIZES = {4: 20, 0xB: 32, 0xC: 48}
SOUND = [
    (1, b"abc\0"), (0xD, b""), (0x80000007, "Ünï€𝄞".encode()), (8, wide("a\0")), (8, b""), (4, bytes(4)), (4, b"\xFF" * 4), (4, b"abc"),
    (3, sample.spec_id()), (5, b""), (0x12, b"abc"), (0x80000009, bytes(16)), (0x80000008, bytes(16)), (0x80000001, bytes(32)),
    (0x800000E0, variable("db", b"x")), (0x80000003, sample.image(sample.PATH, b"x")), (0x80000005, sample.image()),
    (0x80000006, sample.TWO_ENTRIES), (0x80000006, sample.header() + bytes(8)), (0xFFFFFFFF, b"?"),
]

OFTEN = (0, 4, 23)  # registers that many records name

SOME = model.Entry(0, 0, 5, b"", b"")


def damaged(r, b):
    """Most often as it is. Of GPT headers that are damaged every second has its sum mended."""
    return half_mended(r, edited(r, b)) if r.randrange(4) == 0 else b


def a_register(r):
    return r.choice((*OFTEN, *OFTEN, *OFTEN, 24, r.randrange(24), r.randrange(1 << 32)))


def a_record(r, is_agile):
    """A sound one; of fifteen one has another event's data, and one of a hundred digests an id that is not declared."""
    event, data = r.choice(SOUND)
    if r.randrange(15) == 0:
        data = r.choice(SOUND)[1]
    register = a_register(r)
    if not is_agile:
        return sample.sha1(event, data, register)
    ids = r.choices((4, 0xB, 0xC, 0xD, 0x12), (98, 98, 98, 3, 3), k=r.randrange(4))
    return agile(event, [(id, bytes(SIZES.get(id, 0))) for id in ids], data, register)


def some_pairs(r):
    """Those of SIZES, often with others beside them, at times more than sixteen; of ten one has an id twice, and one a known id with another size."""
    out = [*SIZES.items(), *pairs(r.choice((0, 0, 0, 1, 5, 13)) if r.randrange(12) else r.choice((14, 17, 60)), {})]
    r.shuffle(out)
    if r.randrange(10) == 0:
        out.insert(r.randrange(len(out) + 1), (r.choice(out)[0], r.choice((0, 5, 20, 32, 48))))
    if r.randrange(10) == 0:
        out[r.randrange(len(out))] = (0xD, r.choice((0, 20, 63, 64, 64, 65, 65535)))
    return out


def a_log(r):
    is_agile = r.random() < 0.7
    start = sample.marker(*some_pairs(r), vendor=b"v" * r.randrange(3), uintn=r.choice((2,) * 39 + (1,)))
    start = damaged(r, start) if is_agile else b""
    rest = [a_record(r, is_agile) for _ in range(r.choice((0, 1, 2, 3, 5, 66)))]
    return damaged(r, start + b"".join(half_mended(r, edited(r, x)) if r.random() < 0.02 else x for x in rest) + bytes(r.randrange(5)))


def some_numbers(r, often, n, total):
    """Some of n counts or tallies, or none: at the total, below it, and at times above it."""
    def one():
        return r.choice((total, total, max(total - 1, 0), r.randrange(total + 1))) if r.randrange(12) else r.choice((total + 1, total + 2, (1 << 32) - 1))

    return {place: one() for place in r.choices((*often, r.randrange(n)), k=r.choice((0, 0, 1, 2, 5)))}


def some_counts(r, total):
    return some_numbers(r, OFTEN, 24, total)


def some_tallies(r, total):
    return some_numbers(r, [bank(register, id) for register in OFTEN for id in SIZES], 96, total)


def a_walker(r, front):
    """A made-up walker, most often in range, whose hold starts with what may be a record."""
    held = r.choice((0, 3, 4, 35, 36, 37, 100, 32768, 32769, *[len(front)] * 5))
    pairs = [(r.choice((4, 0xB)), r.choice((0, 4, 20, 32))) for _ in range(r.randrange(4))]
    kept = r.choice((0, 0, 0, 0, 1, 2))
    total = max(0, r.choice((held, held, held + 100, 65535, 65536, 65537, held - 1)))
    return W(held, total, r.randrange(3), pairs, r.choice((None, None, 2, 16, 17)), some_counts(r, total), some_tallies(r, total), kept, r.choice(REFUSALS),
             r.randrange(99), 3)


def piece_of(r, log):
    return log[:r.choice((0, 1, 2, 4, 8, 20, 28, 32, 36, 60, len(log), len(log), r.randrange(len(log) + 1)))]


def fed(r):
    """A walker and a log in pieces: what a feed leaves is fed again, as the model tells."""
    out, log, bench = [N], a_log(r), Bench()
    if r.random() < 0.4:
        front = r.choice((sample.SEPARATOR, sample.AGILE[:100], sample.sha1(8, b"abc"), bytes(200), agile(5, [(4, bytes(20))], b""), a_record(r, False),
                          a_record(r, True)))
        out += [H(r.choice((32767, 32768, 40000, 65536)), front), a_walker(r, front)]
    list(bench.run(b"".join(out)))
    for _ in range(r.choice((*range(12), 40))):
        out.append(r.choice((F, f))(piece_of(r, log)) if r.random() < 0.93 else r.choice((C, c)))
        told = next(bench.run(out[-1]))
        log = log[int(told.split()[1]):]
    return out + [r.choice((C, c)) for _ in range(r.randrange(3))]


def passed(r):
    """A walker of each kind whose held bytes complete a record, or all but the last do; a count or a tally of the record's register is at the total, or near it."""
    out = [N]
    for kind in range(3):
        register, ids = a_register(r), r.choices(list(SIZES), k=r.choice((1, 1, 2, 3)))
        event, data = r.choice(((5, b"x"), (5, b""), (1, b"abc"), (3, sample.spec_id())))
        record = agile(event, [(id, b"") for id in ids], data, register) if kind == 2 else sample.sha1(event, data, register)
        held = len(record) - r.choice((0, 0, 0, 1))
        total, own = held + r.choice((0, 0, 100)), register if register < 24 else 23
        near = r.choice((total, total, total, total - 1, total - 2, total + 1))
        stands = r.choice((dict(counts={own: near}), dict(tallies={bank(own, ids[0] if kind == 2 else 4): near})))
        out += [H(32768, record), W(held, total, kind, [(id, 0) for id in SIZES], **stands)]
        out += [r.choice((F(record[held:]), f(record[held:]), F(record[held:] + b"x"), C, c)) for _ in range(3)]
    return out


def an_entry(r, is_agile):
    """Most often of the right form and with digests as long as those of MARKER's ids; its data damaged at times."""
    form = is_agile if r.randrange(20) else 1 - is_agile
    ids = r.choices((4, 0xB, 0xC, 0xD, 0x12), (90, 90, 90, 3, 3), k=r.choice((0, 1, 2, 3, 5))) if form else [4] * r.choice((1,) * 20 + (0, 2))
    digests = listed(*((id, bytes(SIZES.get(id, 0) + (r.randrange(60) == 0))) for id in ids))
    event, data = r.choice(SOUND)
    return model.Entry(form, r.randrange(24), event, edited(r, digests) if r.randrange(15) == 0 else digests, damaged(r, data))


def written(r):
    """A state and some entries; the first is often a marker."""
    kind, table = r.randrange(3), [(id, r.choice((size, size, 0, 1, 65535))) for id, size in r.choices(list(SIZES.items()), k=r.randrange(17))]
    is_made, is_agile = r.random() < 0.3, r.random() < 0.6
    out = [M(kind, table, r.choice((None, None, 2, 16, 17, (1 << 64) - 1))) if is_made else S]
    if is_agile and not is_made:
        data = damaged(r, sample.spec_id(some_pairs(r), b"v" * r.randrange(3)))
        out.append(E(model.Entry(0, 0, 3, listed((4, bytes(20))), data), 400))
    agile_next = kind == 2 if is_made else is_agile
    return out + [E(an_entry(r, int(agile_next)), r.choice((0, 32, 37, 100, 400, 2000, 65536))) for _ in range(r.randrange(8))]


def a_table(r):
    """GPT data, most often with the right count, the right sum and an entry size and a header size that may be."""
    n, e, s = r.randrange(4), r.choice((128, 128, 128, 256, 130, 384)), r.choice((92, 92, 96, 93))
    count = n if r.randrange(4) else r.choice((n + 1, n + (1 << 57), n << 8, 0))
    entries = b"".join(sample.entry(r.choice(("a", "", u16(0xD800))), e, rest=bytes(e - 128)) for _ in range(n))
    table = summed(sample.header(size=s, entry_size=e) + bytes(s - 92) + u64(count) + entries)
    return table if r.randrange(8) else with_sum(table, model.num(table, 16, 4) ^ 1 << r.randrange(32))


def read(r):
    path, table = damaged(r, sample.PATH), damaged(r, r.choice((sample.TWO_ENTRIES, a_table(r))) + bytes(r.choice((0, 0, 0, 1, 128))))
    text = r.choice((b"abc\0", "Ünï€𝄞\0".encode(), wide("𝄞a\0"), b"\xED\x9F\xBF", u16(0xD800) + u16(0xDFFF)))
    return [P(r.choice((0, 1, 3, 9, 10)), path), G(r.randrange(3), table), U(damaged(r, text)), X(damaged(r, text))]


def bad(r):
    """A command that is unknown, cut short, or has a field outside its values; sometimes none."""
    return r.choice((
        b"", b"Z", b"\0", L(65, b""), L(64, b"abc")[:-1], L(64, b"")[:-1], W()[:-1], W()[:400], W(kind=3), W(kept=3), W(kept=2), W(kept=2, number=19),
        H(65537, b""), H(2, b"abc"), H(9, b"abc")[:-1], F(b"abc")[:-2], f(b"abc")[:3], F(bytes(131073)), P(0, b"abc")[:-1],
        G(0, b"abc")[:-1], M()[:-1], M(kind=3), E(SOME, 65537), E(SOME, 9)[:-1], E(SOME._replace(form=2), 9), E(SOME._replace(data=bytes(131073)), 9), U(b"abc")[:-1], X(b"abc")[:-1], b"P", b"U" + u32(0xFFFFFFFF), F(bytes(131072)), U(bytes(131072)),
    ))


def main():
    if not 3 <= len(sys.argv) <= 4:
        sys.exit(__doc__)
    program, runs, r = shlex.split(sys.argv[1]), int(sys.argv[2]), random.Random(int(sys.argv[3]) if len(sys.argv) > 3 else 1)
    seen, differ = collections.Counter(), 0
    for number in range(runs):
        commands = b"".join([L(r.randrange(65), a_log(r)) for _ in range(5)] + fed(r) + read(r) + fed(r) + passed(r) + written(r) + written(r)) + bad(r)
        ours, theirs = run(program, commands).splitlines(), list(Bench().run(commands))
        seen.update(int(line.split("refused ")[1].split()[0]) for line in theirs if "refused " in line)
        seen["lines"] += len(theirs)
        if ours != theirs:
            differ += 1
            at = next((i for i, pair in enumerate(zip(ours, theirs)) if pair[0] != pair[1]), min(len(ours), len(theirs)))
            print(f"run {number}, line {at}: ours {ours[at:at + 1]}, the model's {theirs[at:at + 1]}")
    print(f"{runs} runs, {seen.pop('lines')} lines, {differ} differ; refused " + ", ".join(f"{k}: {n}" for k, n in sorted(seen.items())))
    return 1 if differ else 0


if __name__ == "__main__":
    sys.exit(main())
