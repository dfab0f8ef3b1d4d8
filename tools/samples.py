#!/usr/bin/env python3
"""Makes the sample volumes that the sample programs read, and what the programs must print of them.

The answers come from the small reader and writer below, which are written from the rules alone and share nothing with the
library.
Run it from the top of the repository after a change to the list of samples; the files it writes are kept in the repository.
"""
import pathlib
import re
import struct
import typing
import zlib

LIMIT = 16_777_216
MAGIC = bytes.fromhex("D3484452 46530D0A 1A0A0048 44524653 00".replace(" ", ""))
TOP = 2**64 - 1


# ---- images, field by field

def sealed(body):
    return body + struct.pack("<I", zlib.crc32(body))


def header(sequence=0, previous=bytes(32), ident=bytes(range(16)), version=0, crc=0, hash_=0, magic=MAGIC):
    return sealed(magic + bytes([version]) + ident + bytes([crc, hash_]) + struct.pack("<Q", sequence) + previous)


def inode(time, mode, rest=b"", size=70, number=7):
    fields = struct.pack("<QQHHHQQQQQQ", number, time, mode, 1, 2, 3, 4, 5, 6, size, len(rest))
    return sealed(b"\x01" + fields + rest)


def link(time, name, ident=2, child=8, parent=1):
    return sealed(bytes([ident]) + struct.pack("<QQQH", time, child, parent, len(name)) + name)


def xattr(time, name, value, number=7):
    return sealed(b"\x04" + struct.pack("<QQBH", time, number, len(name), len(value)) + name + value)


def removed(time, name, number=7):
    return sealed(b"\x05" + struct.pack("<QQB", time, number, len(name)) + name)


def data(time, payload):
    return sealed(b"\x06" + struct.pack("<QQ", time, len(payload)) + payload)


def rename(time, old, new):
    return sealed(b"\x07" + struct.pack("<QHH", time, len(old), len(new)) + old + new)


def table(links, count=None):
    """A count that is not that of the links makes a block that no reader takes."""
    body = b"".join(struct.pack("<QQH", child, parent, len(name)) + name for child, parent, name in links)
    return sealed(b"\x08" + struct.pack("<Q", len(links) if count is None else count) + body)


def extent(volume=0, start=0, size=0, multiplicity=67, count=1, pre=0, post=0, logical=0):
    return struct.pack("<QQQBQQQQ", volume, start, size, multiplicity, count, pre, post, logical)


# ---- an independent reader

# The characters of RFC 3629, a line for each line of its grammar. The first byte of a character settles which line it is of, so
# the longest match of many characters is the longest well-formed beginning, whatever a decoder would make of what follows.
CHARACTERS = re.compile(
    rb"(?:[\x00-\x7F]"
    rb"|[\xC2-\xDF][\x80-\xBF]"
    rb"|\xE0[\xA0-\xBF][\x80-\xBF]|[\xE1-\xEC][\x80-\xBF]{2}|\xED[\x80-\x9F][\x80-\xBF]|[\xEE-\xEF][\x80-\xBF]{2}"
    rb"|\xF0[\x90-\xBF][\x80-\xBF]{2}|[\xF1-\xF3][\x80-\xBF]{3}|\xF4[\x80-\x8F][\x80-\xBF]{2})*")


def well_formed_len(raw):
    return CHARACTERS.match(raw).end()


def first_bad(texts):
    """Which of the texts is the first that is not UTF-8 and where in it the fault begins, or None."""
    for i, text in enumerate(texts):
        start = well_formed_len(text)
        if start < len(text):
            return i, start
    return None


class Refusal(typing.NamedTuple):
    """A number, 0 where nothing is refused. The other two are for a text that is not UTF-8, and 0 at every other number."""
    number: int
    text: int = 0
    start: int = 0

    def __bool__(self):
        return self.number != 0

    def __str__(self):
        """As the programs print it: with all three where they say something, or where they should not."""
        more = f" text {self.text} start {self.start}" if self.number == 10 or self.text or self.start else ""
        return f"refused {self.number}{more}"


ACCEPTED = Refusal(0)


def header_fault(v):
    if len(v) > LIMIT:
        return 1
    if len(v) < 80:
        return 2
    if v[:17] != MAGIC:
        return 3
    if v[17] or v[34] or v[35]:
        return 4
    if zlib.crc32(v[:76]) != int.from_bytes(v[76:80], "little"):
        return 5
    if int.from_bytes(v[36:44], "little") == 0 and any(v[44:76]):
        return 6
    return 0


def extent_fault(raw):
    """11 and 12 over a list of extents, all of 11 first."""
    kept = []
    for i in range(0, len(raw), 57):
        volume, p, s, m, c, pre, post, q = struct.unpack("<QQQBQQQQ", raw[i:i + 57])
        if m not in (67, 82):
            return 11
        whole = s * c
        if whole > TOP or pre + post > TOP or pre + post > whole:
            return 11
        length = whole - pre - post
        footprint = whole if m == 67 else s
        if q + length > TOP or p + footprint > TOP:
            return 11
        if length:
            kept.append((q, q + length))
    kept.sort()
    return 12 if any(a[1] > b[0] for a, b in zip(kept, kept[1:])) else 0


FIXED = {1: 71, 2: 27, 3: 27, 4: 20, 5: 18, 6: 17, 7: 13, 8: 9}


def read_block(v, offset, due, last):
    """(refusal, None, None), or no refusal with the end offset and the time; 'end' has neither of them."""
    if len(v) > LIMIT:
        return Refusal(1), None, None
    if offset < 80:
        return Refusal(8), None, None
    if offset == len(v) and not due:
        return ACCEPTED, None, None
    if offset >= len(v):
        return Refusal(2), None, None
    b = v[offset:]
    kind = b[0]
    if kind not in FIXED:
        return Refusal(7), None, None
    if due != (kind == 8):
        return Refusal(8), None, None
    fixed = FIXED[kind]
    if len(b) < fixed:
        return Refusal(2), None, None

    def number(at, width):
        return int.from_bytes(b[at:at + width], "little")

    time = None if kind == 8 else number(9 if kind == 1 else 1, 8)
    links, texts, lengths = [], [], []
    if kind == 1:
        lengths = [number(63, 8)]
        if number(17, 2) // 4096 == 8 and lengths[0] > 58368:
            return Refusal(9), None, None
    elif kind in (2, 3):
        lengths = [number(25, 2)]
    elif kind == 4:
        lengths = [number(17, 1), number(18, 2)]
    elif kind == 5:
        lengths = [number(17, 1)]
    elif kind == 6:
        lengths = [number(9, 8)]
    elif kind == 7:
        lengths = [number(9, 2), number(11, 2)]
    else:
        if number(1, 8) > 4096:
            return Refusal(9), None, None
        at = 9
        for _ in range(number(1, 8)):
            if len(b) < at + 18 or len(b) < at + 18 + number(at + 16, 2):
                return Refusal(2), None, None
            m = number(at + 16, 2)
            links.append((number(at + 8, 8), b[at + 18:at + 18 + m]))
            at += 18 + m
        lengths = [at - 9]
    end = fixed + sum(lengths)
    if len(b) < end + 4:
        return Refusal(2), None, None
    if zlib.crc32(b[:end]) != number(end, 4):
        return Refusal(5), None, None
    parts, at = [], fixed
    for n in lengths:
        parts.append(b[at:at + n])
        at += n
    file_type = number(17, 2) // 4096 if kind == 1 else None
    if kind == 1:
        texts = parts if file_type == 10 else []
    elif kind in (2, 3, 5, 7):
        texts = parts
    elif kind == 4:
        texts = parts[:1]
    elif kind == 8:
        texts = [name for _, name in links]
    bad = first_bad(texts)
    if bad:
        return Refusal(10, *bad), None, None
    if kind == 1:
        size, n = number(55, 8), lengths[0]
        if file_type == 8:
            fault = 11 if n % 57 else extent_fault(parts[0])
        elif file_type == 10:
            fault = 0 if size == 70 + n else 11
        else:
            fault = 0 if n == 0 and size == 70 else 11
        if fault:
            return Refusal(fault), None, None
    if len(set(links)) != len(links):
        return Refusal(13), None, None
    # an equal time may follow; only a lower one is refused
    if time is not None and last is not None and time < last:
        return Refusal(14), None, None
    return ACCEPTED, offset + end + 4, time


class Mark(typing.NamedTuple):
    """A bookmark; the last time is None where there was none."""
    offset: int
    due: bool
    last: int | None
    number: int

    def __str__(self):
        due = ", table due" if self.due else ""
        last = "no last time" if self.last is None else f"last time {self.last}"
        return f"{self.offset}{due}, {last}, number {self.number}"


def first_mark(v):
    return Mark(80, v[36:44] != bytes(8), None, 0)


def next_mark(mark, end, time):
    """After a block nothing is due, and it is counted; a table has no time and leaves the last one as it was."""
    return Mark(end, False, mark.last if time is None else time, mark.number + 1)


def read(v, mark):
    """The refusal, and the bookmark after the block; None at a refusal and at the end. The number is looked at last."""
    refusal, end, time = read_block(v, mark.offset, mark.due, mark.last)
    if end is None:
        return refusal, None
    if mark.number == TOP:
        return Refusal(9), None
    return ACCEPTED, next_mark(mark, end, time)


def walk(v, mark):
    """Each bookmark from this one on, with what reading there gives, until the end or a refusal."""
    while mark:
        refusal, after = read(v, mark)
        yield mark, refusal, after
        mark = after


def check(v):
    fault = header_fault(v)
    if fault:
        return f"{Refusal(fault)} at 0 after 0 blocks"
    for mark, refusal, after in walk(v, first_mark(v)):
        if refusal:
            return f"{refusal} at {mark.offset} after {mark.number} blocks"
        if after is None:
            return f"accepted, volume {int.from_bytes(v[36:44], 'little')}, end {mark}"


def listed(v):
    """The lines of the listing of a volume whose header is sound. Its last line has the number of a refusal alone."""
    yield "offset id length"
    for mark, refusal, after in walk(v, first_mark(v)):
        if refusal:
            yield f"refused {refusal.number} at {mark.offset}"
        elif after is None:
            yield f"end {mark.offset} blocks {mark.number}"
        else:
            yield f"{mark.offset} {v[mark.offset]} {after.offset - mark.offset}"


# ---- an independent writer

TOO_LONG = b""  # stands for a block with a length that its field can't hold, of which there is no image


def append(buf, mark, image):
    """The refusal, and the next bookmark: after a refusal, the same again. The image is written if nothing refuses it."""
    if mark.offset < 80 or mark.due != (image[:1] == b"\x08"):
        return Refusal(8), mark
    if mark.number == TOP or image == TOO_LONG:
        return Refusal(9), mark
    # The reader judges the image by itself. A call has no cut block and no wrong checksum: where the reader finds one, a table
    # has more or fewer bytes than its links.
    refusal, _, time = read_block(bytes(80) + image, 80, mark.due, mark.last)
    if refusal:
        return Refusal(11) if refusal.number in (2, 5) else refusal, mark
    end = mark.offset + len(image)
    if end > LIMIT:
        return Refusal(1), mark
    if end > len(buf):
        return Refusal(17), mark
    buf[mark.offset:end] = image
    return ACCEPTED, next_mark(mark, end, time)


# ---- an independent lookup, position by position

def extents(v, offset):
    n = int.from_bytes(v[offset + 63:offset + 71], "little")
    raw = v[offset + 71:offset + 71 + n]
    return [struct.unpack("<QQQBQQQQ", raw[i:i + 57]) for i in range(0, n, 57)]


def kept(e):
    volume, p, s, m, c, pre, post, q = e
    return s * c - pre - post


def lookup_refusal(v, offset, lengths):
    if len(lengths) % 8 or len(lengths) > 8 * 4096:
        return Refusal(9)
    refusal, end, _ = read_block(v, offset, False, None)
    if refusal or end is None:
        return refusal or Refusal(2)
    if v[offset] != 1 or int.from_bytes(v[offset + 17:offset + 19], "little") // 4096 != 8:
        return Refusal(15)
    for e in extents(v, offset):
        volume, p, s, m, c, pre, post, q = e
        if kept(e) == 0:
            continue
        if volume >= len(lengths) // 8:
            return Refusal(16)
        if p + (s if m == 82 else s * c) > int.from_bytes(lengths[8 * volume:8 * volume + 8], "little"):
            return Refusal(16)
    return ACCEPTED


def stored(v, offset, position):
    """(extent, copy, volume, offset), or None for a hole."""
    for i, e in enumerate(extents(v, offset)):
        volume, p, s, m, c, pre, post, q = e
        if q <= position < q + kept(e):
            r = pre + position - q
            return (i, r // s, volume, p + r % s) if m == 82 else (i, 0, volume, p + r)
    return None


def size_of(v, offset):
    return int.from_bytes(v[offset + 55:offset + 63], "little")


def position(v, offset, lengths, at):
    refusal = lookup_refusal(v, offset, lengths)
    if refusal:
        return str(refusal)
    if at >= size_of(v, offset):
        return "past end"
    place = stored(v, offset, at)
    return "hole" if place is None else f"volume {place[2]} offset {place[3]}"


def runs(v, offset, lengths, a, b, room):
    """The answer, and what a list of nines then holds."""
    refusal = lookup_refusal(v, offset, lengths)
    if refusal:
        return str(refusal), [9] * room
    found, label = [], None
    for at in range(a, min(b, size_of(v, offset))):
        place = stored(v, offset, at)
        if found and label == (place and place[:2]):
            found[-1][1] += 1
        else:
            found.append([at, 1, 0, 0, 0] if place is None else [at, 1, 1, *place[2:]])
            label = place and place[:2]
        if 5 * len(found) > room:
            return str(Refusal(17)), [9] * room
    numbers = [n for run in found for n in run]
    return f"{len(found)} runs", numbers + [9] * (room - len(numbers))


def fetch(first, second, number, offset, n):
    fault = header_fault(first) or header_fault(second)
    if fault:
        return f"{fault} []"
    for v in (first, second):
        if int.from_bytes(v[36:44], "little") == number:
            return "16 []" if offset + n > len(v) else f"0 [{v[offset:offset + n].decode()}]"
    return "16 []"


# ---- the samples

def damaged(v, at, value):
    return v[:at] + bytes([value]) + v[at + 1:]


def wrong_sum(v):
    return damaged(v, len(v) - 1, v[-1] ^ 1)


REGULAR, LINK, FOLDER = 0o100644, 0o120777, 0o040755
V = header() + data(7, b"1,5")
EIGHT = (header(1, bytes([9] * 32)) + table([(8, 1, b"gauge"), (9, 1, b"log")])
         + inode(1, REGULAR, extent(0, 97, 3) + extent(0, 97, 3, 82, 3, 1, 1, 4), 14)
         + inode(2, LINK, b"gauge", 75) + inode(3, FOLDER) + link(4, b"gauge") + link(5, b"log", 3)
         + xattr(6, b"unit", b"m\xFF") + removed(7, b"unit") + data(8, b"1,5") + rename(9, b"gauge", b"p\xC3\xA9gel"))


# the files of the lookups: A, A with post 2, B, a folder, two that are not there, one that keeps nothing, one of 2^63 copies
A_AT, POST_AT, B_AT, FOLDER_AT, BEYOND_AT, OTHER_AT, NOTHING_AT, COPIES_AT, GAUGE_END = 104, 236, 368, 500, 575, 707, 839, 971, 1103
GAUGE = (V + inode(8, REGULAR, extent(0, 97, 3), 3) + inode(9, REGULAR, extent(0, 97, 3, post=2), 3)
         + inode(10, REGULAR, extent(0, 97, 3, 82, 3, 1, 1, 4), 14) + inode(11, FOLDER)
         + inode(12, REGULAR, extent(0, 102, 3), 3) + inode(13, REGULAR, extent(1, 97, 3), 3)
         + inode(14, REGULAR, extent(9, TOP, 0, 82, TOP), 3)
         + inode(15, REGULAR, extent(0, 97, 1, 82, 2**63), TOP))
LATER = header(1, bytes([9] * 32)) + table([]) + data(1, b"2,5")


def many_extents(n):
    return header() + inode(1, REGULAR, b"".join(extent(0, 0, 1, 67, 1, 0, 0, (i * 617) % n) for i in range(n)), n)


# a path of 40,010 bytes
LONG = b"a" * 39_999 + b"\xFF" + b"a" * 10

# texts that are not UTF-8: the first of a block and where its fault begins, bytes that are no text, and what comes before and after
BAD_TEXTS = [
    ("link_bad", header() + link(1, b"a\xFFb")),
    ("unlink_bad", header() + link(1, b"\xE2\x28", 3)),
    ("xattr_bad", header() + xattr(1, b"un\xE2\x28", b"\xFF")),
    ("xattr_value_not_text", header() + xattr(1, b"unit", b"\xFF")),
    ("removed_xattr_bad", header() + removed(1, b"\xF0\x9F\x92")),
    ("target_bad", header() + inode(1, LINK, b"ab\xED\xA0\x80", 75)),
    ("new_path_bad", header() + rename(1, b"gauge", b"x\xC0\x80")),
    ("both_paths_bad", header() + rename(1, b"ab\x80", b"\xFF")),
    ("long_old_path_bad", header() + rename(1, LONG, b"gauge")),
    ("long_new_path_bad", header() + rename(1, b"gauge", LONG)),
    ("two_names_bad", header(1) + table([(8, 1, b"ok"), (9, 1, b"\xC3\xA9\x80"), (10, 1, b"\xFF")])),
    # before 13, 11 and 14
    ("link_twice_bad", header(1) + table([(8, 1, b"\xFF"), (9, 1, b"\xFF")])),
    ("target_bad_of_another_size", header() + inode(1, LINK, b"ab\xED\xA0\x80", 76)),
    ("link_bad_at_lower_time", header() + data(9, b"") + link(1, b"ab\xFF")),
    # other refusals, of bytes that are no text, and before 10
    ("folder_with_byte_ff", header() + inode(1, FOLDER, b"\xFF")),
    ("link_bad_with_wrong_sum", wrong_sum(header() + link(1, b"a\xFFb"))),
]

SAMPLES = [
    # sound volumes
    ("sound_header_0", header()),
    ("v", V),
    ("all_kinds", EIGHT),
    ("extents_1024", many_extents(1024)),
    ("gauge", GAUGE),
    ("later", LATER),
    ("empty_names", header() + link(1, b"") + removed(2, b"") + rename(3, b"", b"") + xattr(4, b"", b"") + data(5, b"")),
    ("empty_table", header(1) + table([])),
    ("ranges_touch", header() + inode(1, REGULAR, extent(0, 0, 3) + extent(0, 0, 2, logical=3), 5)),
    ("kept_nothing", header() + inode(1, REGULAR, extent(0, 0, 0, 67, TOP) + extent(0, 0, 3, logical=0), 3)),
    ("same_name_other_parent", header(1) + table([(8, 1, b"a"), (8, 2, b"a")])),
    ("same_time", header() + data(7, b"1,5") + data(7, b"1,5")),
    ("same_time_0", header() + data(0, b"1,5") + data(0, b"1,5")),
    ("same_time_latest", header() + data(TOP, b"1,5") + data(TOP, b"1,5")),
    ("link_and_inode_at_once", header() + link(5, b"a") + inode(5, FOLDER)),
    ("time_0_after_table", header(1) + table([]) + data(0, b"")),
    # each number that reading gives, in the order of their list
    ("cut_header", header()[:79]),
    ("nothing", b""),
    ("table_missing", header(1)),
    ("cut_fields", header() + data(7, b"1,5")[:16]),
    ("cut_rest", V[:-1]),
    ("length_near_2_64", header() + b"\x06" + struct.pack("<QQ", 7, TOP - 16) + b"1,5"),
    ("wrong_magic", damaged(header(), 16, 1)),
    ("other_version", header(version=1)),
    ("other_checksum_kind", header(crc=1)),
    ("other_hash_kind", header(hash_=1)),
    ("wrong_header_sum", wrong_sum(header())),
    ("wrong_block_sum", damaged(V, 98, ord("."))),
    ("hash_in_volume_0", header(0, bytes(31) + b"\x01")),
    ("id_0", header() + bytes(21)),
    ("id_9", header() + sealed(b"\x09" + bytes(16))),
    ("table_in_volume_0", header() + table([])),
    ("data_where_table_due", header(1) + data(7, b"1,5")),
    ("second_table", header(1) + table([]) + table([])),
    ("extents_1025", many_extents(1025)),
    ("links_4097", header(1) + b"\x08" + struct.pack("<Q", 4097)),
    ("name_not_text", header() + link(1, b"a\xC0\x80")),
    ("second_path_not_text", header() + rename(1, b"a", b"\xED\xA0\x80")),
    ("target_not_text", header() + inode(1, LINK, b"\xFF", 71)),
    ("table_name_not_text", header(1) + table([(8, 1, b"a"), (9, 1, b"\x80")])),
    ("extents_cut", header() + inode(1, REGULAR, extent()[:56], 0)),
    ("product_over", header() + inode(1, REGULAR, extent(0, 0, 2**32, 67, 2**32), 0)),
    ("cuts_over", header() + inode(1, REGULAR, extent(0, 0, 3, 67, 1, TOP, 1), 0)),
    ("cuts_beyond", header() + inode(1, REGULAR, extent(0, 0, 3, 67, 1, 2, 2), 0)),
    ("end_over", header() + inode(1, REGULAR, extent(0, 0, 3, 67, 1, 0, 0, TOP - 2), 0)),
    ("place_over", header() + inode(1, REGULAR, extent(0, TOP - 2, 3), 0)),
    ("unknown_multiplicity", header() + inode(1, REGULAR, extent(0, 0, 3, 66), 0)),
    ("target_size", header() + inode(1, LINK, b"gauge", 74)),
    ("folder_with_bytes", header() + inode(1, FOLDER, b"x", 70)),
    ("folder_size", header() + inode(1, FOLDER, b"", 71)),
    ("ranges_overlap", header() + inode(1, REGULAR, extent(0, 0, 3) + extent(0, 0, 3, logical=2), 5)),
    ("link_twice", header(1) + table([(8, 1, b"a"), (9, 2, b"a"), (9, 1, b"a")])),
    ("lower_time", header() + data(7, b"1,5") + data(6, b"1,5")),
    ("time_0_after_latest", header() + data(TOP, b"1,5") + data(0, b"1,5")),
    ("earlier_time", header(1) + table([]) + data(7, b"1,5") + inode(6, FOLDER)),
    *BAD_TEXTS,
]
VOLUMES = dict(SAMPLES)


LISTED = ["same_time", "lower_time", "new_path_bad"]
# where readings begin: at a header's bookmark, and at some that are made up
READ_FROM = [
    ("all_kinds", [first_mark(EIGHT)]),
    # a table at 80, which has no time, and data at time 7 behind it
    ("earlier_time", [Mark(80, True, None, 0), Mark(80, True, 7, 0), Mark(80, True, 8, 0)]),
    # data at time 7 alone, where the number of blocks is the last or the one before it
    ("v", [Mark(80, False, None, TOP), Mark(104, False, 7, TOP), Mark(80, False, None, TOP - 1), Mark(80, False, 8, TOP),
           Mark(80, True, None, TOP), Mark(79, False, None, TOP), Mark(105, False, None, TOP)]),
    ("wrong_block_sum", [Mark(80, False, 8, TOP)]),
    # a link at time 1: the place comes before its name, the time and the number of blocks after it
    ("link_bad", [Mark(80, False, None, 0), Mark(80, True, None, 0), Mark(79, False, None, 0), Mark(80, False, 2, TOP)]),
    *((name, [first_mark(volume)]) for name, volume in BAD_TEXTS[1:]),
]
KINDS = {1: "inode", 2: "link", 3: "unlink", 4: "xattr", 5: "removed xattr", 6: "data", 7: "rename"}


def volume_rows():
    for name, volume in SAMPLES:
        yield f"{name}.vol: {check(volume)}"
    for name in LISTED:
        yield f"{name}.vol, listed:"
        yield from listed(VOLUMES[name])
    for name, marks in READ_FROM:
        yield f"{name}.vol, read:"
        for mark in marks:
            yield from read_rows(VOLUMES[name], mark)


def read_rows(v, first):
    for mark, refusal, after in walk(v, first):
        if refusal:
            yield f"read at {mark}: {refusal}"
        elif after is None:
            yield f"read at {mark}: end"
        else:
            kind = v[mark.offset]
            block = "table" if kind == 8 else f"{KINDS[kind]} at time {after.last}"
            yield f"read at {mark}: block {mark.number}, {block}, next {after}"


# ---- the lookups that the program makes, in its order

ONE = struct.pack("<Q", 104)
POSITIONS = [(A_AT, ONE, 0), (A_AT, ONE, 2), (A_AT, ONE, 3), (POST_AT, ONE, 0), (POST_AT, ONE, 1),
             (B_AT, ONE, 3), (B_AT, ONE, 4), (B_AT, ONE, 6), (B_AT, ONE, 10), (B_AT, ONE, 11), (B_AT, ONE, TOP),
             (FOLDER_AT, ONE, 0), (80, ONE, 0), (BEYOND_AT, ONE, 0), (BEYOND_AT, ONE, 9), (OTHER_AT, ONE, 0),
             (NOTHING_AT, ONE, 2), (COPIES_AT, ONE, 2**63 - 1), (COPIES_AT, ONE, 2**63),
             (GAUGE_END, ONE, 0), (79, ONE, 0), (A_AT, b"", 0), (A_AT, ONE[:7], 0), (FOLDER_AT, ONE + b"\0", 0)]
RANGES = [(A_AT, ONE, 0, 3, 6), (POST_AT, ONE, 0, 3, 11), (B_AT, ONE, 0, 14, 25), (B_AT, ONE, 0, 14, 24), (B_AT, ONE, 0, 14, 26),
          (B_AT, ONE, 5, 10, 16), (B_AT, ONE, 13, TOP, 5), (B_AT, ONE, 14, 20, 1), (B_AT, ONE, 7, 7, 1), (B_AT, ONE, 9, 4, 1),
          (NOTHING_AT, ONE, 0, 3, 5), (COPIES_AT, ONE, 0, TOP, 30), (COPIES_AT, ONE, 5, 8, 15),
          (BEYOND_AT, ONE, 9, 9, 3), (FOLDER_AT, ONE, 0, 0, 0)]
FETCHES = [(GAUGE, LATER, 0, 97, 3), (GAUGE, LATER, 1, 110, 3), (LATER, GAUGE, 0, 97, 3), (GAUGE, LATER, 2, 97, 3),
           (GAUGE, LATER, 0, GAUGE_END, 0), (GAUGE, LATER, 0, GAUGE_END, 1), (GAUGE, LATER, 0, TOP, TOP),
           (GAUGE, V, 0, 1000, 0), (V, GAUGE, 0, 1000, 0), (GAUGE, damaged(header(), 16, 1), 0, 97, 3),
           (b"", damaged(header(), 16, 1), 0, 97, 3)]

# at 80, both lookups: a text comes after the lengths and the block's checksum and before what kind of block it is
BAD_LOOKUPS = [("link_bad", ONE), ("link_bad", bytes(9)), ("target_bad", ONE), ("new_path_bad", ONE), ("xattr_value_not_text", ONE),
               ("folder_with_byte_ff", ONE), ("link_bad_with_wrong_sum", ONE), ("two_names_bad", ONE)]


def position_row(v, offset, lengths, at):
    return f"inode at {offset}, position {at}: {position(v, offset, lengths, at)}"


def runs_row(v, offset, lengths, a, b, room):
    answer, numbers = runs(v, offset, lengths, a, b, room)
    return f"inode at {offset}, {a} to {b}, room {room}: {answer}" + "".join(f" {n}" for n in numbers)


def lookup_rows():
    for asked in POSITIONS:
        yield position_row(GAUGE, *asked)
    for asked in RANGES:
        yield runs_row(GAUGE, *asked)
    for first, second, number, offset, n in FETCHES:
        yield f"fetch {n} at {offset} of volume {number}: {fetch(first, second, number, offset, n)}"
    for name, lengths in BAD_LOOKUPS:
        yield f"{name}.vol, {len(lengths)} bytes of lengths:"
        yield position_row(VOLUMES[name], 80, lengths, 0)
        yield runs_row(VOLUMES[name], 80, lengths, 0, 3, 3)


# ---- the volumes that the program writes: each call with the image that it asks for, and its own bookmark where it has one

LINKS = [(8, 1, b"gauge"), (9, 1, b"log")]
EXTENTS = extent(0, 97, 3) + extent(0, 97, 3, 82, 3, 1, 1, 4)
OVERLAPPING = extent(0, 97, 3) + extent(0, 97, 3, 82, 3, 1, 1, 2)
# headers of which there is no image, or no room for it, with the number that refuses them
NO_HEADERS = [("header, ID of 15 bytes", 11), ("header, hash of 33 bytes", 11), ("header of volume 0 with a hash", 6), ("header in 79 bytes", 17)]
WRITTEN = [("data where a table is due", data(1, b"1,5")), ("table of 4,097 links", table(LINKS, 4097)),
           ("table with one link more", table(LINKS, 1)), ("table with one link less", table(LINKS, 3)),
           ("table, link twice", table([(8, 1, b"a"), (9, 1, b"a")])),
           ("table", table(LINKS)), ("second table", table(LINKS)),
           ("inode of 1,025 extents", inode(1, REGULAR, bytes(57 * 1025), 14)), ("inode, 56 bytes", inode(1, REGULAR, bytes(56), 14)),
           ("inode, multiplicity 0", inode(1, REGULAR, bytes(57), 14)), ("inode, ranges overlap", inode(1, REGULAR, OVERLAPPING, 14)),
           ("inode", inode(1, REGULAR, EXTENTS, 14)),
           ("target of another size", inode(2, LINK, b"gauge", 76)),
           ("symbolic link", inode(2, LINK, b"gauge", 75)),
           ("folder with a byte", inode(3, FOLDER, b"\xFF")), ("folder at a lower time", inode(1, FOLDER)), ("folder", inode(3, FOLDER)),
           ("link, name of 65,536 bytes", TOO_LONG), ("link", link(4, b"gauge")),
           ("unlink", link(5, b"log", 3)),
           ("xattr, name of 256 bytes", TOO_LONG), ("xattr", xattr(6, b"unit", b"m\xFF")), ("removed xattr", removed(7, b"unit")),
           ("data", data(8, b"1,5")), ("rename", rename(9, b"gauge", b"p\xC3\xA9gel")), ("data without room", data(10, b"")),
           ("data", data(1, b"1,5"), Mark(79, False, None, 0)), ("table", table([]), Mark(LIMIT - 20, False, None, 0)),
           ("data over the limit at a lower time", data(TOP - 1, b"1,5"), Mark(LIMIT - 20, False, TOP, 0)),
           ("data over the limit at the same time", data(TOP, b"1,5"), Mark(LIMIT - 20, False, TOP, 0)),
           ("data past the limit", data(1, b"1,5"), Mark(TOP, False, None, 0))]

# the last of these would make lower_time.vol
TWICE = [("data", data(7, b"1,5")), ("data at the same time", data(7, b"1,5")),
         ("data at a lower time", data(6, b"1,5"), Mark(104, False, 7, 1))]

# behind V: the last block that can be counted, one more, and calls in the place of the one that was written
LAST = Mark(104, False, 7, TOP - 1)
FULL = next_mark(LAST, 128, 7)
COUNTED = [("data", data(7, b"1,5"), LAST), ("data without room", data(7, b""), FULL)]
UNCOUNTED = [("data", data(7, b"2,5"), Mark(104, False, 7, TOP)), ("data", data(7, b"2,5"), Mark(104, True, 7, TOP)),
             ("data at a lower time", data(6, b"2,5"), Mark(104, False, 7, TOP)),
             ("link, name not text", link(7, b"\xFF"), Mark(104, False, 7, TOP)),
             ("table with one link more", table([(8, 1, b"a")], 0), Mark(104, True, 7, TOP))]

# texts that are not UTF-8, each with the bookmark where it is appended in a block of every kind, into a buffer with room for it
ROOM = 65_700
FIRST = Mark(80, False, None, 0)
DUE = Mark(80, True, None, 0)
REFUSED = [(b"a\xFFb", FIRST), (b"x\xC0\x80", FIRST), (b"ab\x80", FIRST), (b"\xF0\x9F\x92", FIRST), (b"un\xE2\x28", FIRST),
           (b"ab\xED\xA0\x80", FIRST), (LONG, FIRST), (b"\xFF" * 65_536, FIRST), (b"a\xFFb", DUE), (b"a\xFFb", Mark(80, False, None, TOP)),
           *((b"ab\xFF", Mark(offset, False, 9, 0)) for offset in (80, ROOM - 10, LIMIT - 20))]
BAD_LINKS = [(8, 1, b"ok"), (9, 1, b"\xC3\xA9\x80"), (10, 1, b"\xFF")]
BAD_TABLES = [("table", table(BAD_LINKS)), ("table with one link more", table(BAD_LINKS, 2)),
              ("table, link twice", table([(8, 1, b"\xFF"), (9, 1, b"\xFF")]))]


def call_of(name, image, *parts):
    """A call with the image that it asks for, of which there is none where a length doesn't fit its field."""
    try:
        return name, image(1, *parts)
    except struct.error:
        return name, TOO_LONG


def calls_of(text):
    return [call_of("link", link, text), call_of("unlink", link, text, 3), call_of("xattr", xattr, text, b"\xFF"),
            call_of("removed xattr", removed, text), call_of("rename to it", rename, b"gauge", text),
            call_of("rename of it", rename, text, b"\xFF"), call_of("symbolic link", inode, LINK, text, 75)]


def call_rows(buf, mark, calls):
    """Calls in a row, each at the bookmark that the one before it gave, or at one of its own, which is shown."""
    for call, image, *own in calls:
        refusal, after = append(buf, own[0] if own else mark, image)
        at = f"at {own[0]}: " if own else ""
        yield f"{at}write {call}: " + (f"{refusal}" if refusal else f"next {after}")
        mark = mark if own else after


def volume_of(buf, head, calls):
    buf[:80] = head
    yield f"write header: next {first_mark(head)}"
    yield from call_rows(buf, first_mark(head), calls)


def same_as(buf, name):
    assert buf == VOLUMES[name]
    yield f"written: the bytes of {name}.vol"


def written_rows():
    buf = bytearray(len(EIGHT))
    for call, fault in NO_HEADERS:
        yield f"write {call}: {Refusal(fault)}"
    yield from volume_of(buf, header(1, bytes([9] * 32)), WRITTEN)
    yield from same_as(buf, "all_kinds")
    yield from listed(EIGHT)
    buf = bytearray(128)
    yield from volume_of(buf, header(), TWICE)
    yield from same_as(buf, "same_time")
    buf = bytearray(V + bytes(24))
    yield "v.vol, appended to:"
    yield from call_rows(buf, None, COUNTED)
    yield from read_rows(buf, FULL)
    yield from call_rows(buf, None, UNCOUNTED)
    yield from same_as(buf, "same_time")


def kind_rows(buf, mark, text):
    """Every call with this text, each at this bookmark."""
    yield f"at {mark}:"
    for call in calls_of(text):
        yield from call_rows(buf, mark, [call])


def text_rows():
    buf = bytearray([9] * ROOM)
    for text, mark in REFUSED:
        yield from kind_rows(buf, mark, text)
    yield f"at {DUE}:"
    yield from call_rows(buf, DUE, BAD_TABLES)
    assert buf == bytes([9] * ROOM)
    yield "written: nothing"
    yield from kind_rows(buf, FIRST, b"unit")


CRATES = pathlib.Path("crates")


def keep(crate, names, lines):
    """The volumes that a program reads, and what it must print."""
    folder = CRATES / crate / "data"
    for old in folder.glob("*.vol"):
        old.unlink()
    for name in names:
        folder.mkdir(exist_ok=True)
        (folder / f"{name}.vol").write_bytes(VOLUMES[name])
    (CRATES / crate / "stdout").write_text("\n".join(lines) + "\n")


def main():
    # the lines before those of the volumes are kept: vectors from outside, and the listing of a volume that is too long
    lines = (CRATES / "samples/stdout").read_text().splitlines()
    first = next(i for i, line in enumerate(lines) if ".vol: " in line)
    keep("samples", VOLUMES, [*lines[:first], *volume_rows()])
    (CRATES / "samples/args").write_text("".join(f"{name}.vol\n" for name in VOLUMES))
    keep("lookup_samples", ["gauge", "later", "v", "wrong_magic", *(name for name, _ in BAD_LOOKUPS)], lookup_rows())
    keep("writing_samples", ["all_kinds", "same_time", "v"], written_rows())
    keep("text_samples", [], text_rows())


if __name__ == "__main__":
    main()
