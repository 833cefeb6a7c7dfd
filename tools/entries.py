"""The entries that the writer is tried on: every event type, every refusal and every border, in logs by name.

A log is a list of entries, each with the room that its record is given (None: as much as is left), and a tail. Those that are refused stand between others, since
they are to leave the log and the state as they were. A log's entries go in from a fresh state on.
"""
import collections

import compare_logs
import model
from maker import END, KNOWN_PAIRS, SHA1, SHA256, SHA384, SHA512, drive, entry, gpt, image, listed, node, pairs, sample, spec_id, u16, units, wide
from model import AGILE_FORM, NO_ACTION, SHA1_FORM

UNKNOWN = (0x13, 0x7FFFFFFF, 0x80000000, 0x8000000A, 0x80000010, 0x800000DF, 0x800000E1, 0xFFFFFFFF)
TYPES = compare_logs.SOUND + [(t, sample(5)) for t in (*model.KNOWN_TYPES, *UNKNOWN) if t not in dict(compare_logs.SOUND)]
ALL_LEFT = None
Log = collections.namedtuple("Log", "entries tail", defaults=(b"",))

ONE, TWO = (SHA1, sample(20)), (SHA256, sample(32))
SHA1_LIST, BOTH = listed(ONE), listed(ONE, TWO)


def sha1(event, data, digests=SHA1_LIST, register=0):
    return model.Entry(SHA1_FORM, register, event, digests, data)


def agile(event, data, digests=BOTH, register=0):
    return model.Entry(AGILE_FORM, register, event, digests, data)


def marker(*pairs, **fields):
    return sha1(NO_ACTION, spec_id(pairs, **fields))


MARKER = marker((SHA256, 32), (SHA1, 20))
FAR = 32768
PLAIN, SOUND = sha1(5, b"plain", register=7), agile(5, b"sound", register=8)


def length(one):
    """How long an entry's record is."""
    return len(model.record_bytes(one, list(model.items(one.digests))))


def roomy(*entries):
    """Entries that have all the room that is left."""
    return [(one, ALL_LEFT) for one in entries]


def chunks(some, n):
    return [some[i:i + n] for i in range(0, len(some), n)]


# ---------------------------------------------------------------- what is written

def of_types():
    """Every event type, as a first record, later ones, and agile ones with no, one and two digests."""
    firsts = [(t, b) for t, b in TYPES if t != NO_ACTION]
    logs = [Log(roomy(sha1(t, b, register=i), PLAIN), sample(i % 4)) for i, (t, b) in enumerate(firsts)]
    for some in chunks(TYPES, 20):
        logs.append(Log(roomy(PLAIN, *(sha1(t, b, listed((SHA1, sample(40)[i:i + 20])), i) for i, (t, b) in enumerate(some))), b"\1"))
        logs.append(Log(roomy(MARKER, *(agile(t, b, (BOTH, listed(TWO), b"")[i % 3], 0xFFFFFFFF - i) for i, (t, b) in enumerate(some))), b"\1\2"))
    return logs


# Tables of none to sixteen pairs, with unknown ids of any size.
TABLES = ((), ((SHA256, 32),), KNOWN_PAIRS, KNOWN_PAIRS[::-1], ((SHA1, 20), (0x12, 32)), ((0x12, 0), (SHA512, 64), (5, 65535), (SHA384, 48), (0, 1)), pairs(16),
          pairs(16, {15: (SHA1, 20)}))
# Tables that have an id twice, or a known id with another size than its own. No marker gives them: a state that is made up has them, and the last size of an id
# counts.
REFUSED_TABLES = (((SHA256, 32), (SHA256, 20)), ((SHA256, 0),), ((SHA1, 1), (0x12, 32)), ((SHA256, 32),) * 16,
                  ((0x12, 9), (SHA512, 64), (SHA512, 0), (SHA384, 300)), ((SHA1, 20), (SHA1, 21)) * 8, ((0x12, 5), (0x12, 6), (SHA1, 20)),
                  (*KNOWN_PAIRS[:3], (SHA512, 48)))


def behind(table):
    """Entries with digests of what a table declares, the last size of an id counting."""
    some = [(id, sample(size)) for id, size in dict(table).items() if id in model.KNOWN_IDS]
    return [agile(4, bytes(4), listed(*some)), agile(5, b"", b"", 1), agile(1, b"ab", listed(*some[:1] * 2), 2), agile(3, spec_id(), listed(*some * 4))]


def of_markers():
    """Each table, and behind it digests of what it declares. Where the marker is refused they are 18, and the log goes on with one that is not."""
    for i, table in enumerate((*TABLES, *REFUSED_TABLES)):
        more = roomy(marker(*table, vendor=b"v" * (i % 3)), *behind(table))
        yield Log(more + (roomy(MARKER, SOUND) if table in REFUSED_TABLES else []), sample(i % 4))
    sixteen = [(id, bytes([id]) * size) for id, size in ((SHA1, 20), (SHA256, 32)) * 8]
    yield Log(roomy(MARKER, agile(5, b"sixteen", listed(*sixteen)), agile(5, b"", listed(*sixteen, ONE))), b"\1\2\3")
    yield Log(roomy(marker((SHA256, 0)), agile(5, b"none", listed(*[(SHA256, b"")] * 16)), agile(8, b"", listed((SHA256, b"")))))  # 9, and 18


def of_borders():
    """Records of 32,768 bytes and of one more, in both forms; buffers that are exact, one byte short, and of no bytes."""
    yield Log(roomy(sha1(5, sample(FAR - 32)), sha1(5, sample(FAR - 31)), PLAIN))
    yield Log(roomy(MARKER, agile(5, sample(FAR - 16 - 22), listed(ONE)), agile(5, sample(FAR - 16 - 21), listed(ONE)), agile(1, b"\xFF", b"")))
    full = listed(*[ONE] * 1488)  # 32,736 bytes of digests with their ids
    yield Log(roomy(MARKER, agile(5, sample(16), full), agile(5, sample(17), full), agile(5, b"", full + listed(ONE))))
    yield Log(roomy(marker((SHA512, 32750)), agile(5, b"", listed((SHA512, sample(32750))))))  # 9, and 18
    for one, before in ((PLAIN, []), (PLAIN, [PLAIN]), (MARKER, []), (SOUND, [MARKER]), (agile(5, b"", b""), [MARKER])):
        rooms = [(one, room) for room in (length(one) - 1, 0, 1, length(one), length(one) - 1, length(one) + 1)]
        yield Log(roomy(*before) + (rooms if one != MARKER else rooms[:4] + [(SOUND, length(SOUND))]), b"\1")


# ---------------------------------------------------------------- what is refused

def lists_refused(form):
    """Lists of digests for which a record of that form is refused: with 4, with 16, and with 4 before 16."""
    whole = SHA1_LIST if form == SHA1_FORM else BOTH
    yield from (whole[:n] for n in range(len(whole)) if form == SHA1_FORM or n not in (0, 24))  # cut at every byte of an entry
    yield from (listed((SHA1, sample(n))) for n in (0, 19, 21, 255, 256, 276))
    yield from (listed(ONE, (SHA1, sample(n))) for n in (19, 21))
    yield from (listed((SHA1, sample(n)), ONE) for n in (19, 21))
    yield from (listed((id, sample(20))) for id in (0, 3, 5, 0x12, 0x104, 0x0400, SHA512, 0xFFFF))
    yield from (listed(ONE, (id, b"")) for id in (5, SHA512))
    yield listed((SHA1, sample(19)), (5, sample(20)))  # 4 at the second, and not 16 at the first
    yield listed((SHA1, sample(19)), ONE, (5, b""), (6, b""))
    yield listed(ONE) + u16(5)  # an id that is whole, and no more
    yield listed(ONE) + u16(5)[:1]  # half an id is none
    yield listed(ONE) + u16(SHA1)
    yield listed(ONE) + u16(SHA1) + u16(20)
    yield listed(ONE) + u16(SHA1) + u16(0xFFFF) + sample(20)
    yield listed((SHA1, b"")) + b"\4"


def contents_refused(is_first):
    """Data that are refused, at 0 and at places past it; as a first record also a type 3 that is no Spec ID."""
    yield from compare_logs.FAULTY
    nodes = node(1, 1, b"ab") + node(1, 1, b"abc") + END
    yield from ((0x80000003, image(nodes)), (0x80000004, image(nodes + drive(3))), (0x80000005, image(END + node(4, 4, units(0xD800)))),
                (0x80000003, image(END + node(1, 1, b"", length=3))), (0x80000003, image(END * 3 + node(1, 1, b"", length=9))))
    yield from ((0x80000006, data) for data in (gpt(entries=[entry("x"), entry("y"), entry(units(0xDC00))]), gpt(220, count=b""),
                                                gpt(entries=[entry("x")], count=(1 << 57) + 1), gpt(size=101, sum=0xFFFFFFFF),
                                                gpt(entries=[entry(units(0xDC00))], sum=0), gpt(99, sum=0)))
    yield 8, wide("a") + b"\0"
    if is_first:
        yield from ((NO_ACTION, data) for data in (b"", b"no Spec ID", spec_id()[:28], spec_id(signature=b"Spec ID Event02\0"), spec_id(uintn=1), spec_id(uintn=0), spec_id() + b"x",
                                                   spec_id([(SHA256, 32)] * 17), spec_id(vendor_length=1), spec_id([(SHA1, 20)], count=2), spec_id(pairs(17)),
                                                   spec_id([(0x12, 1)] * 2), spec_id([(SHA1, 21)]), spec_id(pairs(17, {0: (0x12, 1), 16: (0x12, 1)})),
                                                   spec_id(pairs(17, {16: (SHA512, 0)})), spec_id([(SHA1, 21)] * 2, uintn=1)))


def of_forms():
    """18: agile before any marker and after a SHA-1 record, SHA-1 after the marker; whatever else is wrong."""
    wrong = [sha1(1, b"\xFF", listed((5, b"abc"))), sha1(5, b"", b"")]
    return [Log(roomy(SOUND, agile(5, b"", b""), PLAIN, SOUND, PLAIN)), Log(roomy(MARKER, PLAIN, MARKER, *wrong, SOUND), b"\7"),
            Log([(SOUND, 0), (PLAIN, ALL_LEFT), (agile(1, b"\xFF", listed((5, b"abc"))), 0)], b"\7\7")]


def of_lists():
    """4 and 16, in both forms."""
    yield Log(roomy(*(sha1(5, b"data", some) for some in (b"", BOTH, listed(ONE, ONE), listed(ONE, ONE, ONE), *lists_refused(SHA1_FORM))), PLAIN, PLAIN))
    yield Log(roomy(MARKER, *(agile(5, b"data", some) for some in (*lists_refused(AGILE_FORM), listed(ONE, TWO, (SHA384, sample(48))))), SOUND))
    for undeclared in (marker((SHA256, 32), (0x12, 5)), marker((SHA256, 0), (0x12, 5))):  # the second: 9, and 18
        lists = listed((0x12, sample(5))), SHA1_LIST, listed((SHA256, b"x")), listed((SHA256, b""), (SHA256, b"x")), listed(TWO, (SHA256, b"x"))
        yield Log(roomy(undeclared, *(agile(5, b"", some) for some in lists)))


def of_contents():
    for is_first in (True, False):
        some = [sha1(t, b, register=i) for i, (t, b) in enumerate(contents_refused(is_first))]
        yield Log(roomy(*([] if is_first else [PLAIN]), *some, PLAIN), b"\1\2\3")
    yield Log(roomy(MARKER, *(agile(t, b, register=i) for i, (t, b) in enumerate(contents_refused(False))), SOUND), b"\1")
    yield Log(roomy(PLAIN, sha1(3, b"a later type 3"), sha1(3, spec_id(uintn=1))))
    yield Log(roomy(*(sha1(3, spec_id([(SHA256, 32)] * n)) for n in (17, 16))))  # 9 twice
    yield Log(roomy(*(sha1(3, spec_id(pairs(n))) for n in (17, 16))))  # 11, and written


def of_order():
    """Of an entry with several faults the first in the order is told: each time one fault less."""
    bad, far = b"\xFF", b"\xFF" * FAR
    unknown, short = listed((5, b"abc")), listed((SHA1, b"abc"))
    yield Log([(sha1(1, data, digests), 0) for digests, data in ((unknown, bad), (short, far), (SHA1_LIST, bad), (SHA1_LIST, b"text"))] + roomy(PLAIN))
    yield Log(roomy(MARKER) + [(agile(1, data, digests), 0) for digests, data in ((unknown, bad), (short, bad), (BOTH, far), (BOTH, bad), (BOTH, b"text"))])


def all_logs():
    some = (of_types(), of_markers(), of_borders(), of_forms(), of_lists(), of_contents(), of_order())
    return [Log([]), Log([], b"\1\2\3"), *(log for kind in some for log in kind)]


# ---------------------------------------------------------------- a log's own entries

def digests_in(log, shape, place, count):
    """The list of a record's digests, which lie in the log from a place on."""
    found = []
    for _ in range(count):
        id, place = (model.num(log, place, 2), place + 2) if shape.kind == model.AGILE else (SHA1, place)
        size = shape.size(id) if shape.kind == model.AGILE else 20
        found.append((id, log[place:place + size]))
        place += size
    return listed(*found)


def of_log(log):
    """The entries that the records of a log are, up to its end or refusal."""
    shape, out = model.Shape(), []
    for record in model.walk(log)[0]:
        register, event, place, count, data = (record.value(name) for name in ("pcr", "type", "place", "digests", "data"))
        body = log[data.start:data.end]
        out.append(model.Entry(int(shape.kind == model.AGILE), register, event, digests_in(log, shape, place, count), body))
        shape = shape.after(event, body)
    return out
