"""The maker of logs: records, their data, damage, the commands of the bench, and the logs of real firmware.

Every function writes what its arguments say, sound or not: a length, a count or a size that is left out is the true one. What no answer depends on
(`head`, `fill`, `digest`, `guid`) can be given, where the bytes should be others. Two runs make the same bytes.
"""
import functools
import os
import struct
import zlib

from model import KNOWN_IDS, NO_ACTION, OWN_SIZES, PAIRS_MOST, RECORD_MOST, num

SHA1, SHA256, SHA384, SHA512 = KNOWN_IDS
KNOWN_PAIRS = tuple(OWN_SIZES.items())
# An event type of each kind; ACTION has nothing inside.
TEXT, SEPARATOR, ACTION, WIDE_TEXT, VARIABLE, IMAGE, GPT, BLOB = 1, 4, 5, 8, 0x80000001, 0x80000003, 0x80000006, 0x80000008


def u8(n):
    return struct.pack("<B", n)


def u16(n):
    return struct.pack("<H", n)


def u32(n):
    return struct.pack("<I", n)


def u64(n):
    return struct.pack("<Q", n)


def given(value, default):
    return default if value is None else value


@functools.cache
def sample(n):
    """So many bytes, no two neighbours alike."""
    return bytes((17 * i + 3) % 251 for i in range(n))


def wide(text):
    """Wide text; bytes stay as they are."""
    return text if isinstance(text, bytes) else text.encode("utf-16-le", "surrogatepass")


def units(*numbers):
    return b"".join(u16(n) for n in numbers)


# ---------------------------------------------------------------- data

SIGNATURE = b"Spec ID Event03\0"


def spec_id(pairs=(), vendor=b"", uintn=2, signature=SIGNATURE, head=b"\0\0\0\0\0\2\0", count=None, vendor_length=None):
    """Signature 16, class 4, minor, major and errata 1 (`head`), uintn 1, how many pairs 4, the pairs, vendor length 1, vendor."""
    listed = b"".join(u16(id) + u16(size) for id, size in pairs)
    return signature + head + u8(uintn) + u32(given(count, len(pairs))) + listed + u8(given(vendor_length, len(vendor))) + vendor


MOST_PAIRS = (RECORD_MOST - 32 - 29) // 4  # that fit a marker's record


def pairs(n, some=None):
    """So many pairs, no id twice: unknown ids of several sizes, and some by their places; if none are given, the four known ones at the front."""
    some = dict(enumerate(KNOWN_PAIRS)) if some is None else some
    return [some.get(i, (0x0100 + i, (0, 1, 20, 65535, 32, 300)[i % 6])) for i in range(n)]


def variable(name=b"", data=b"", units=None, length=None, guid=bytes(range(16))):
    """GUID 16, name units 8, data length 8, name, data."""
    name = wide(name)
    return guid + u64(given(units, len(name) // 2)) + u64(given(length, len(data))) + name + data


def image(path=b"", extra=b"", length=None, head=u64(0x7E5DD018) + u64(1 << 40 | 1234) + u64((1 << 64) - 1)):
    """Location, length and link address 8 each (`head`), path length 8, path, extra."""
    return head + u64(given(length, len(path))) + path + extra


def node(kind, subtype, body=b"", length=None):
    """Type 1, subtype 1, length 2, body."""
    return u8(kind) + u8(subtype) + u16(given(length, len(body) + 4)) + body


END = node(0x7F, 0xFF)


def drive(form=2, signature_type=2, head=sample(36)):
    """Number 4, start 8, size 8, signature 16 (`head`), format 1, signature type 1."""
    return node(4, 1, head + u8(form) + u8(signature_type))


def header_sum(data):
    """The sum of the header that GPT data begin with: over its stated size, its own four bytes at 16 taken as zero."""
    return zlib.crc32(data[:16] + bytes(4) + data[20:num(data, 12, 4)])


def with_sum(data, sum):
    """GPT data with this sum at 16."""
    return data[:16] + u32(sum) + data[20:]


def summed(data):
    """GPT data with the right sum; as they are where they end before their header does, or it before its sum."""
    return with_sum(data, header_sum(data)) if 20 <= num(data, 12, 4) <= len(data) else data


def header(size=92, entry_size=128, signature=b"EFI PART", revision=0x10000, fill=sample(92), sum=None):
    """A GPT header: the fields that are looked at, in a header whose other fields are those of `fill`. The sum is the right one where the size is not above 92."""
    b = signature + u32(revision) + u32(size) + fill[16:84] + u32(entry_size) + fill[88:]
    return summed(b) if sum is None else with_sum(b, sum)


def entry(name, size=128, salt=0, head=None, rest=None):
    """Type and own GUID 16 each, first, last and attributes 8 each (`head`, else by `salt`), name 72, the rest. Cut at its size."""
    head = given(head, bytes((salt + 7 * i + 1) % 256 for i in range(56)))
    return (head + wide(name)[:72].ljust(72, b"\0") + given(rest, sample(max(size - 128, 0))))[:size]


def gpt(length=None, size=92, entry_size=128, entries=(), count=None, reserved=None, sum=None, **fields):
    """A header, what is reserved up to its size, how many entries 8, the entries; with a length, cut there or filled up with zeros. A count may be any bytes, or
    none. The sum is that of the header then."""
    reserved = given(reserved, sample(size - 92) if 92 < size <= RECORD_MOST else b"")
    count = given(count, len(entries))
    b = header(size, entry_size, **fields) + reserved + (count if isinstance(count, bytes) else u64(count)) + b"".join(entries)
    b = b if length is None else b[:length].ljust(length, b"\0")
    return summed(b) if sum is None else with_sum(b, sum)


# ---------------------------------------------------------------- records

def sha1(event, data, register=0, digest=bytes(20), size=None):
    """Register 4, type 4, digest 20, size 4, data."""
    return u32(register) + u32(event) + digest + u32(given(size, len(data))) + data


def agile(event, digests, data, register=0, count=None, size=None):
    """Register 4, type 4, how many digests 4, each an id 2 and its bytes, size 4, data."""
    listed = b"".join(u16(id) + digest for id, digest in digests)
    return u32(register) + u32(event) + u32(given(count, len(digests))) + listed + u32(given(size, len(data))) + data


def listed(*digests):
    """A list of digests, as a writer takes it: of each an id 2, a length 2, and its bytes."""
    return b"".join(u16(id) + u16(len(digest)) + digest for id, digest in digests)


def marker(*pairs, **fields):
    return sha1(NO_ACTION, spec_id(pairs, **fields))


SMALLEST, WITH_PAIR, WITH_TWO = marker(), marker((SHA256, 32)), marker((SHA256, 32), (SHA1, 20))
# Where a record may stand: what is before it, and the digests that it has; None in a SHA-1 log.
FRAMES = {
    "first": (b"", None),
    "later": (sha1(0, b""), None),
    "second": (sha1(ACTION, b"x"), None),
    "agile": (SMALLEST, []),
    "one digest": (WITH_PAIR, [(SHA256, sample(32))]),
    "two digests": (WITH_TWO, [(SHA1, sample(20)), (SHA256, sample(32))]),
}


def framed(frame, event, data):
    """A log whose last record has these data."""
    before, digests = FRAMES[frame]
    return before + (sha1(event, data) if digests is None else agile(event, digests, data))


# Records by register and type: registers come again, the last that is counted and the first that is not, with type 3 among them.
NAMED = ((4, ACTION), (23, TEXT), (4, NO_ACTION), (4, SEPARATOR), (24, ACTION), (23, ACTION), (23, NO_ACTION), (24, TEXT), (4, TEXT))


def named(id, size):
    """An agile log of them. The records have no, one or two digests of one id."""
    return marker((id, size)) + b"".join(agile(event, [(id, sample(size))] * (i % 3), b"", register) for i, (register, event) in enumerate(NAMED))


AGAIN = {"SHA-1": b"".join(sha1(event, b"", register) for register, event in NAMED), "agile": named(SHA1, 20)}


# ---------------------------------------------------------------- damage

def cut(r, data):
    return data[:r.randrange(len(data) + 1)]


def truncations(data):
    return [data[:n] for n in range(len(data))]


def every_byte(data, changes=(lambda b: b ^ 1, lambda b: b ^ 0x80, lambda b: 0, lambda b: 255)):
    """A copy for each byte and each change of it."""
    for i in range(len(data)):
        for change in changes:
            yield data[:i] + bytes([change(data[i])]) + data[i + 1:]


def front_changed(r, log):
    """One or two bytes of the first 4,000 changed."""
    copy = bytearray(log)
    for _ in range(r.choice([1, 1, 2])):
        i = r.randrange(min(len(copy), 4000))
        copy[i] = r.choice([0, 1, 0xFF, copy[i] ^ (1 << r.randrange(8)), r.randrange(256)])
    return bytes(copy)


def cut_or_changed(r, log, copies):
    """Of twelve copies five are cut, and the others changed near their front."""
    return [cut(r, log) if k % 12 < 5 else front_changed(r, log) for k in range(copies)]


def edited(r, data):
    """One to three edits: a byte set, a bit turned, bytes taken out, put in or doubled, a beginning kept."""
    b = bytearray(data)
    for _ in range(r.randrange(1, 4)):
        at = r.randrange(len(b) + 1)
        kind = r.randrange(7)
        if kind < 3 and at < len(b):
            b[at] = r.choice((0, 1, 2, 4, 0x7F, 0xD8, 0xDC, 0xFF, r.randrange(256)))
        elif kind == 3 and at < len(b):
            b[at] ^= 1 << r.randrange(8)
        elif kind == 4:
            del b[at:at + r.randrange(1, 5)]
        elif kind == 5:
            b[at:at] = b[at:at + r.randrange(1, 5)] or bytes(r.randrange(1, 4))
        elif r.random() < .4:
            del b[at:]
    return bytes(b)


def mended(log):
    """The right sum in every GPT header of a log, or of a record's data, as far as its signature shows where it is."""
    at = log.find(b"EFI PART")
    while at >= 0:
        log = log[:at] + summed(log[at:])
        at = log.find(b"EFI PART", at + 8)
    return log


def half_mended(r, log):
    """Every second one mended, drawn: what was damaged is then met by the tests behind the sum too."""
    return mended(log) if r.random() < .5 else log


def every_second_mended(logs):
    """Damaged copies, every second one mended."""
    return [mended(log) if i % 2 else log for i, log in enumerate(logs)]


# ---------------------------------------------------------------- commands of the bench

SLOTS = 64  # the most that a walk is lent
ROOM_MOST = 65536  # the most that a buffer has
COUNTED_MOST = 131072  # the most bytes that a command has


def command(letter):
    """A command by its letter: numbers of 32 bits, and bytes with their length before them."""
    return lambda *numbers_and_bytes: letter + b"".join(u32(n) for n in numbers_and_bytes[:-1]) + u32(len(numbers_and_bytes[-1])) + numbers_and_bytes[-1]


N, C, c = b"N", b"C", b"c"
L, H, F, f, P, G, U, X = (command(letter) for letter in (b"L", b"H", b"F", b"f", b"P", b"G", b"U", b"X"))


def state(kind, pairs, count):
    """What comes next, how many pairs count, and sixteen of them."""
    table = b"".join(u16(id) + u16(size) for id, size in [*pairs, *[(0, 0)] * (PAIRS_MOST - len(pairs))])
    return u8(kind) + u64(given(count, len(pairs))) + table


def numbers(n, some):
    """So many numbers of 32 bits: some by their places, the others 0."""
    some = dict(some)
    return b"".join(u32(some.get(i, 0)) for i in range(n))


def bank(register, id):
    """The place of a tally: that of a register's digests with this id."""
    return 4 * register + KNOWN_IDS.index(id)


def W(held=0, total=0, kind=0, pairs=(), count=None, counts=(), tallies=(), kept=0, number=0, a=0, b=0):
    """A made-up walker; counts and tallies by their places."""
    stands = numbers(24, counts) + numbers(96, tallies)
    return b"W" + u64(held) + u64(total) + state(kind, pairs, count) + stands + u8(kept) + u8(number) + u64(a) + u64(b)


S = b"S"


def M(kind=0, pairs=(), count=None):
    """A made-up writer's state."""
    return b"M" + state(kind, pairs, count)


def E(entry, room):
    """An entry that is written into a buffer of so many bytes."""
    return b"E" + u8(entry.form) + u32(entry.register) + u32(entry.event) + u32(room) + u32(len(entry.digests)) + entry.digests + u32(len(entry.data)) + entry.data


# ---------------------------------------------------------------- logs of real firmware

@functools.cache
def real_logs(folder):
    """Those of FOLDER/logs by their file names, in the order of the names."""
    logs = {}
    for name in sorted(os.listdir(os.path.join(folder, "logs"))):
        if name.endswith(".bin"):
            with open(os.path.join(folder, "logs", name), "rb") as file:
                logs[name] = file.read()
    return logs


def packed(logs):
    """Logs one after the other, each behind its length: what the oracle's batch and cut_logs read."""
    return b"".join(u32(len(log)) + log for log in logs)
