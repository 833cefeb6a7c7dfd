#!/usr/bin/env python3
"""Makes what crates/cut_logs is run on.

    tools/cut_logs.py gate [FOLDER]                writes crates/cut_logs/stdin, the input of the run in the gate
    tools/cut_logs.py all DAMAGED [FOLDER]         writes the long run's input to standard output

To be run from the top of the repository. FOLDER has the logs of real firmware in logs (default: ../shared). DAMAGED is how many damaged copies of
each log the long run has beside it.

The input is a sequence of logs, each a length of 4 bytes, little-endian, and so many bytes. The logs of document 01's bench are made here field by
field, each named by its point. Two runs write the same bytes.
"""
import functools
import random
import sys

import maker
import model
from compare_logs import digests_of
from maker import (ACTION, AGAIN, BLOB, END, GPT, IMAGE, MOST_PAIRS, SEPARATOR, SHA1, SHA256, SHA384, SHA512, TEXT, VARIABLE, WIDE_TEXT, WITH_TWO, cut,
                   every_second_mended, front_changed, marker, named, node, packed, pairs, real_logs, sha1, spec_id, u16, u32, u64, wide)
from model import LOG_MOST, NO_ACTION

image = functools.partial(maker.image, head=u64(0x1000) + u64(0x200) + u64(0))
drive = functools.partial(maker.drive, head=u32(1) + u64(2048) + u64(4096) + bytes(16))
variable = functools.partial(maker.variable, guid=bytes(16))
gpt = functools.partial(maker.gpt, fill=bytes(92))


def agile(event, sizes, data):
    """An agile record: of each digest the id and the size, its bytes all the id's."""
    return maker.agile(event, [(id, bytes([id]) * n) for id, n in sizes], data)


def first_records(log, records, tail=0):
    """The first records of a log, and so many bytes of the next."""
    return log[:list(model.split(log))[records - 1].data.end + tail]


# ---------------------------------------------------------------- the bench of document 01

LISTING = sha1(SEPARATOR, u32(0)) + b"\7"

STARRED = {
    "empty": b"",
    "three_bytes": bytes(3),
    "four_zeros": bytes(4),
    "listing": LISTING,
    "size_32737_no_data": sha1(SEPARATOR, b"", size=32737),
    "size_100_data_99": sha1(ACTION, bytes(99), size=100),
    "spec_id_29_no_pairs": marker(),
    "a_doubled_id": marker((SHA256, 32), (SHA256, 20)) + agile(SEPARATOR, [(SHA256, 20)], u32(0)),
    "path_of_an_end_node": sha1(IMAGE, image(END)),
    "fault_in_the_second_node": sha1(IMAGE, image(node(1, 1, bytes(3)) + drive(3))),
    "variable_of_zeros": sha1(VARIABLE, variable()),
    "gpt_a_count_of_two": sha1(GPT, gpt(356, count=2)),
    "gpt_220": sha1(GPT, gpt(220, count=b"")),
    "utf8_c0_80": sha1(TEXT, b"\xC0\x80"),
    "wide_d800_alone": sha1(WIDE_TEXT, u16(0xD800)),
    "wide_three_bytes": sha1(WIDE_TEXT, b"a\0b"),
}

UNSTARRED = {
    "spec_id_28": sha1(NO_ACTION, spec_id()[:28]),
    "uintn_1": marker(uintn=1),
    "id_0012": marker((SHA256, 32)) + agile(SEPARATOR, [(0x0012, 32)], u32(0)),
    "node_length_3": sha1(IMAGE, image(node(0x7F, 0xFF, length=3))),
    "node_length_5": sha1(IMAGE, image(node(0x7F, 0xFF, length=5))),
    "variable_31": sha1(VARIABLE, bytes(31)),
    "variable_units_2_63": sha1(VARIABLE, variable(units=1 << 63)),
    "gpt_header_size_0": sha1(GPT, gpt(200, 0, count=b"")),
}

# ---------------------------------------------------------------- what the bench has not

BANKS = ((SHA1, 20), (SHA256, 32))

# The bench's record of size 32,736 is here twice: a log of 65,536 bytes. Where a size is not the id's own the marker is refused since Req 04; the stored run of
# crates/bench has such digests behind made-up walkers.
OURS = {
    "size_0": sha1(ACTION, b"") + sha1(SEPARATOR, bytes([255] * 4), register=7),
    "digests_of_size_0": marker((SHA256, 0)) + agile(SEPARATOR, [(SHA256, 0)] * 5, u32(0)) + b"\1\2",
    "no_digests": marker(*BANKS) + agile(SEPARATOR, [], u32(0)) + agile(SEPARATOR, BANKS, b"") + b"\1",
    "digest_too_far": marker((SHA256, 32767)) + agile(SEPARATOR, [(SHA256, 3)], b""),
    "second_id_undeclared": marker((SHA256, 32)) + agile(SEPARATOR, [(SHA256, 32), (SHA1, 20)], b""),
    "count_cut": marker((SHA256, 32)) + u32(0) + u32(SEPARATOR) + b"\1\0",
    "signature_02": marker(signature=b"Spec ID Event02\0"),
    "blob_17": marker(*BANKS) + agile(SEPARATOR, BANKS, u32(0)) + agile(BLOB, BANKS, bytes(17)),
    "text_after_text": sha1(TEXT, b"ab\0\0") + sha1(WIDE_TEXT, wide("å1\0")) + sha1(TEXT, b"\xED\xA0\x80"),
    "size_32736_twice": 2 * sha1(ACTION, bytes(range(256)) * 127 + bytes(224)),
    "200_digests_of_size_0": marker((SHA256, 0)) + agile(SEPARATOR, [(SHA256, 0)] * 200, u32(0)) + b"\1",
    "registers_again": AGAIN["SHA-1"] + b"\1\2\3",
    "registers_again_digests_of_size_1": named(SHA256, 1),
}

# What those of OURS were about that Req 04 refuses, with sizes of their own; and the refusals of pairs.
PAIRS = {
    "five_digests": marker((SHA1, 20)) + agile(SEPARATOR, [(SHA1, 20)] * 5, u32(0)) + b"\1\2",
    "100_digests": marker((SHA1, 20)) + agile(SEPARATOR, [(SHA1, 20)] * 100, u32(0)) + b"\1",
    "registers_again_agile": AGAIN["agile"],
    "registers_again_agile_few": first_records(AGAIN["agile"], 7),
    "sixteen_pairs": marker(*pairs(16)) + agile(SEPARATOR, [(SHA512, 64), (SHA384, 48)], u32(0)) + b"\1",
    "seventeen_pairs": marker(*pairs(17)),
    "unknown_ids_of_any_size": marker((0x0012, 65535), (0, 0), (SHA256, 32), vendor=b"v") + agile(SEPARATOR, [(SHA256, 32)], u32(0)),
    "a_doubled_unknown_id": marker((0x0012, 5), (0x0012, 5)) + b"\1",
    "the_first_and_the_seventeenth_id": marker(*pairs(17, {0: (SHA1, 20), 16: (SHA1, 20)}), vendor=b"ven"),
    "an_odd_size": marker((SHA1, 20), (SHA512, 63)),
    "300_pairs_and_the_last_doubled": marker(*pairs(300, {0: (SHA256, 32), 299: (SHA256, 32)})),
}

# What Req 05 and Req 06 take and what they refuse, and the faults of entries.
GPTS = {
    "gpt_a_count_of_none": sha1(GPT, gpt()) + b"\1",
    "gpt_a_longer_header": sha1(GPT, gpt(size=101)) + sha1(SEPARATOR, u32(0)),
    "gpt_an_entry_of_256": marker(*BANKS) + maker.agile(GPT, [], gpt(size=94, entry_size=256, entries=[maker.entry("x", 256)])) + b"\1",
    "gpt_header_size_91": sha1(GPT, gpt(size=91)),
    "gpt_entry_size_384": sha1(GPT, gpt(entry_size=384)),
    "gpt_count_cut": sha1(GPT, gpt(99)),
    "gpt_one_entry_more": sha1(GPT, gpt(count=0, entries=[maker.entry("x")])),
    "gpt_a_count_that_wraps": sha1(GPT, gpt(count=(1 << 57) + 1, entries=[maker.entry("x")])),
    "gpt_an_odd_header": sha1(SEPARATOR, u32(0)) + sha1(GPT, gpt(size=93, entries=[maker.entry("x")])),
    "gpt_a_name_in_the_second": sha1(GPT, gpt(entries=[maker.entry("x"), maker.entry(u16(0xDC00)), maker.entry(u16(0xD800))])),
    "gpt_another_sum": sha1(GPT, gpt(sum=0)),
}

# For the long run alone. What is at the limits is long, and the digests of a record are read again at each byte; a marker of more than sixteen pairs takes its time
# too, and two of them are above.
LONG = {
    "seventeen_like_pairs": marker(*[(SHA256, 32)] * 17),
    "an_odd_size_in_the_seventeenth": marker(*pairs(17, {16: (SHA384, 64)})),
    "200_digests": marker((SHA1, 20)) + agile(SEPARATOR, [(SHA1, 20)] * 200, u32(0)) + b"\1",
    "digest_too_far": marker((SHA512, 64)) + maker.agile(SEPARATOR, [(SHA512, bytes(64))] * 496, b"", count=497)[:-4] + u16(SHA512) + bytes(3),
    "size_32737": sha1(ACTION, bytes(32737)),
    "1488_digests": marker((SHA1, 20)) + agile(SEPARATOR, [(SHA1, 20)] * 1488, bytes(16)) + b"\1",
    "1489_digests": marker((SHA1, 20)) + agile(SEPARATOR, [(SHA1, 20)] * 1489, b""),
    "digests_to_the_limit": WITH_TWO + maker.agile(ACTION, digests_of(32752), b"") + b"\1\2\3",
    "digests_past_the_limit": WITH_TWO + maker.agile(ACTION, digests_of(32754), b""),
    "most_pairs": marker(*pairs(MOST_PAIRS), vendor=b"ven"),
    "most_pairs_and_the_last_doubled": marker(*pairs(MOST_PAIRS, {0: (SHA256, 32), MOST_PAIRS - 1: (SHA256, 32)})),
    "2000_digests_of_size_0": marker((SHA256, 0)) + agile(SEPARATOR, [(SHA256, 0)] * 2000, u32(0)),
    "70_digests_of_size_510": marker((SHA256, 510)) + agile(SEPARATOR, [(SHA256, 510)] * 70, b""),
    "zeros_to_the_limit": bytes(LOG_MOST),
    "digest_32750": marker((SHA512, 32750)) + agile(ACTION, [(SHA512, 32750)], b"") + b"\1\2\3",
    "digest_32751": marker((SHA512, 32751)) + agile(ACTION, [(SHA512, 32751)], b""),
}


# ---------------------------------------------------------------- the two inputs

def damaged(log, r):
    """A copy that is cut somewhere, or changed near its front."""
    return cut(r, log) if not log or r.randrange(12) < 4 else front_changed(r, log)


def gate_logs(folder):
    r, real = random.Random(7), real_logs(folder)
    logs = [*STARRED.values(), *UNSTARRED.values(), *OURS.values(), *PAIRS.values(), *GPTS.values()]
    logs += every_second_mended(damaged(log, r) for log in logs if 60 < len(log) < 1000)
    return logs + [
        first_records(real["pkg-rust-uefi-0.37-test_event_log_v2.bin"], 3, 3),
        first_records(real["qemu-e-ovmf2022-direct-tpm12-tis.bin"], 4, 30),
        first_records(real["qemu-b-ovmf2022-gptdisk-grub206-crb-sha1+sha256.bin"], 12, 1),
    ]


def all_logs(folder, copies):
    """The one real log over the limit is cut there."""
    r = random.Random(11)
    logs = [*STARRED.values(), *UNSTARRED.values(), *OURS.values(), *PAIRS.values(), *GPTS.values(), *LONG.values()]
    logs += [log[:LOG_MOST] for log in real_logs(folder).values()]
    return logs + every_second_mended(damaged(log, r) for log in logs for _ in range(copies))


def main():
    words = sys.argv[1:]
    least = {"gate": 1, "all": 2}.get(words[0] if words else "", 9)
    if not least <= len(words) <= least + 1:
        sys.exit(__doc__)
    folder = words[least] if least < len(words) else "../shared"
    if words[0] == "gate":
        with open("crates/cut_logs/stdin", "wb") as file:
            file.write(packed(gate_logs(folder)))
    else:
        sys.stdout.buffer.write(packed(all_logs(folder, int(words[1]))))


if __name__ == "__main__":
    main()
