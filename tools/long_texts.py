#!/usr/bin/env python3
"""Holds the check of UTF-8 to Python's own decoder, over texts that are longer than those of crates/text_answers.

    tools/long_texts.py [--bench COMMAND]

COMMAND is what starts our program `bench`: without it it is built, by tools/native.sh. To be
run from the top of the repository.

The check passes bytes below 0x80 sixty-four, eight and one at a time. So of each length up to 200 there is a text of letters alone, one with zeros
behind it, and one for each place and each of eleven sequences, sound and faulty, that is put in there; and 200,000 texts are drawn, with few or
many characters of two to four bytes, three of ten with a byte changed. Each goes through `U` of the bench. It ends with 1 where an answer differs.
"""
import argparse
import random
import struct
import sys

from oracle import program, run

LONGEST, DRAWN, AT_ONCE = 200, 200000, 20000
PUT_IN = (b"\x00", b"\x7f", b"\x80", b"\xbf", b"\xff", b"\xc2", b"\xc2\x80", b"\xe1\x80\x80", b"\xed\xa0\x80", b"\xf4\x8f\xbf\xbf", b"\xf4\x90\x80\x80")


def placed():
    for n in range(LONGEST + 1):
        letters = (b"abcdefghijklm" * LONGEST)[:n]
        yield letters
        yield letters + bytes(n % 11)
        for at in range(n + 1):
            for one in PUT_IN:
                yield letters[:at] + one + letters[at:]


def drawn():
    draw = random.Random(11)
    for _ in range(DRAWN):
        share = draw.choice((0, 1, 2, 5, 20, 60))
        text = "".join(draw.choice("\u00e9\u00df\u20ac\u4e2d\U0001F600") if draw.random() * 100 < share else chr(draw.randrange(128)) for _ in range(draw.randrange(2 * LONGEST)))
        text = bytearray(text.encode())
        if text and draw.random() < 0.3:
            text[draw.randrange(len(text))] = draw.randrange(128, 256)
        yield bytes(text)


def must(text):
    try:
        text.decode("utf-8")
    except UnicodeDecodeError:
        return "refused 10 at 0"
    return f"text 0+{len(text.rstrip(bytes(1)))}"


def differences(bench, texts):
    lines = run(bench, b"".join(b"U" + struct.pack("<I", len(text)) + text for text in texts)).splitlines()
    if len(lines) != len(texts):
        sys.exit(f"long_texts: {len(texts)} texts, and {len(lines)} lines")
    return [(text, line) for text, line in zip(texts, lines) if line != must(text)]


def main():
    ways = argparse.ArgumentParser(description=__doc__, formatter_class=argparse.RawDescriptionHelpFormatter)
    ways.add_argument("--bench", metavar="COMMAND")
    bench = program("bench", ways.parse_args().bench)
    texts = [*placed(), *drawn()]
    differ = [one for at in range(0, len(texts), AT_ONCE) for one in differences(bench, texts[at:at + AT_ONCE])]
    for text, line in differ[:10]:
        print(f"{text.hex()}: {line}, and must be {must(text)}")
    print(f"{len(texts):,} texts, {sum(must(text).startswith('refused') for text in texts):,} of them refused, {len(differ)} differ")
    return 1 if differ else 0


if __name__ == "__main__":
    sys.exit(main())
