#!/usr/bin/env python3
"""Makes what crates/sum_answers is run on: texts in parts, with the CRC-32 that Python's zlib has for them.

    tools/sums.py sample                writes crates/sum_answers/stdin and stdout, the run in the gate
    tools/sums.py make N SEED > FILE    writes sums of N parts in all, drawn, and says on standard error what the program must print
    tools/sums.py line N SEED           says the same alone

To be run from the top of the repository. The input is a sequence of parts: 1 where a sum starts with the part and else 0, four bytes; zlib's sum up to the part's
end, four bytes; the part's length, four bytes, up to 65,536; and its bytes; all little-endian. Our program is not asked, so stdout is the line by which it says that
none differs. Of the drawn parts most are short, some are empty, and few are long, so that a million take some 100 MB. Two runs write the same bytes.
"""
import itertools
import os
import random
import sys
import zlib

from maker import gpt, header_sum, sample, u32, u64

PART_MOST = 65536
DIGITS, DIGITS_SUM = b"123456789", 0xCBF43926  # the text that CRC-32 is known by


def sums_of(parts):
    """The sum up to the end of each part."""
    return list(itertools.accumulate(parts, lambda before, part: zlib.crc32(part, before), initial=0))[1:]


def sum_bytes(parts):
    return b"".join(u32(i == 0) + u32(so_far) + u32(len(part)) + part for i, (part, so_far) in enumerate(zip(parts, sums_of(parts))))


def line_of(sums):
    """What the program must print of these sums."""
    many = parts = n = 0
    for one in sums:
        many, parts, n = many + 1, parts + len(one), n + sum(map(len, one))
    return f"parts {parts} sums {many} bytes {n} differ 0"


def cut(text, places):
    """A text in parts, cut at these places in rising order."""
    return [text[a:b] for a, b in zip((0, *places), (*places, len(text)))]


# ---------------------------------------------------------------- drawn sums

def a_length(r):
    """Most often below 64; one of five thousand may be any."""
    chance = r.random()
    most = 8 if chance < .3 else 64 if chance < .7 else 300 if chance < .95 else 1000 if chance < .9998 else PART_MOST
    return r.randrange(most + 1)


def a_part(r):
    """Bytes as they come; of eight two are a run of zeros, of ones or of one byte, and one is bytes within zeros."""
    n, sort = a_length(r), r.randrange(8)
    if sort == 0:
        return bytes([r.choice((0, 0xFF, r.randrange(256)))]) * n
    if sort == 1:
        return r.choice((b"\0", b"\xff")) * n
    if sort == 2:
        return (bytes(r.randrange(n + 1)) + r.randbytes(min(n, 5))).ljust(n, b"\0")[:n]
    return r.randbytes(n)


def drawn(parts, seed):
    """Sums of so many parts in all."""
    r = random.Random(f"sums {seed}")
    while parts:
        one = [a_part(r) for _ in range(min(parts, r.choice((1, 1, 1, 2, 2, 3, 4, 8, 20))))]
        parts -= len(one)
        yield one


# ---------------------------------------------------------------- the sample

def digits():
    """The known text in all its cuts."""
    for cuts in range(1 << len(DIGITS) - 1):
        one = cut(DIGITS, [at for at in range(1, len(DIGITS)) if cuts >> at - 1 & 1])
        assert sums_of(one)[-1] == DIGITS_SUM
        yield one


def headers():
    """GPT headers, whole and as the reader has them: what stands before the sum, four zeros, and what stands behind it."""
    for s in (92, 93, 100, 512):
        whole = gpt(size=s)[:s]
        one = [whole[:16], bytes(4), whole[20:]]
        assert sums_of(one)[-1] == header_sum(whole)
        yield from (one, [b"".join(one)], [whole])


def lengths():
    """Lengths around powers of two: bytes, zeros and ones, in one part and in two."""
    for n in (*range(10), *(m + d for m in (16, 64, 256, 1024) for d in (-2, -1, 0, 1, 2))):
        yield from ([text] for text in (sample(n), bytes(n), b"\xff" * n))
        yield from (cut(sample(n), [at]) for at in (0, n // 2, n))


def sample_sums():
    yield from ([b""], [b""] * 2, [b""] * 9)
    yield from digits()
    yield from ([bytes([byte])] for byte in range(256))
    yield from ([u64(1 << bit)] for bit in range(64))
    yield from headers()
    yield from lengths()
    yield from (cut(sample(64), [at]) for at in range(65))
    yield from ([b"", DIGITS], [DIGITS, b""], [DIGITS[:4], b"", b"", DIGITS[4:]])
    yield from ([sample(PART_MOST)], cut(sample(PART_MOST), [1, 255, 256, 257, 32768, PART_MOST - 1]))
    yield from drawn(400, "sample")


def write_sample():
    some = list(sample_sums())
    for name, must in (("stdin", b"".join(map(sum_bytes, some))), ("stdout", f"{line_of(some)}\n".encode())):
        with open("crates/sum_answers/" + name, "wb") as file:
            file.write(must)
        print(name, len(must), "bytes")


def write_drawn(parts, seed):
    for one in drawn(parts, seed):
        sys.stdout.buffer.write(sum_bytes(one))
    print(line_of(drawn(parts, seed)), file=sys.stderr)


def main():
    words = sys.argv[1:]
    if words == ["sample"]:
        write_sample()
    elif len(words) == 3 and words[0] == "make":
        write_drawn(int(words[1]), words[2])
    elif len(words) == 3 and words[0] == "line":
        print(line_of(drawn(int(words[1]), words[2])))
    else:
        sys.exit(__doc__)


if __name__ == "__main__":
    main()
