#!/usr/bin/env python3
"""Builds the three volumes of the gauge's archive from the layouts, by other means than the library.

    tools/gauge.py        writes tests/gauge/expected.csv, what extracting the gauge's file has to give
    tools/gauge.py DIR    compares DIR/0.vol, DIR/1.vol and DIR/2.vol with the volumes that it builds

Run it from the top of the repository.
"""
import hashlib
import pathlib
import sys

from samples import LINK, REGULAR, check, data, extent, header, inode, link, rename, size_of, stored, table, xattr

EXPECTED = pathlib.Path("tests/gauge/expected.csv")
GAUGE, OLD_NAME, FOLDER = 7, 8, 1


def lines(*rows):
    return b"".join(b"2026-01-01 %s\n" % row for row in rows)


def begin(sequence, previous=None):
    """The header, with the hash of the volume before; the first has none before it, and zeros."""
    digest = bytes(32) if previous is None else hashlib.sha256(previous).digest()
    return header(sequence, digest, b"gauge at a river")


def volumes():
    early = b"time;m\n" + lines(b"00:00;1,25", b"00:15;1,27", b"00:30;1,30", b"00:45;1,34")
    later = lines(b"00:45;1,34", b"01:00;1,38", b"01:15;1,41", b"01:30;1,43", b"01:45;9,99")
    last = lines(b"03:45;1,48", b"04:00;1,5")[:-1]
    first = (begin(0) + data(1, early) + data(2, b"\n-;")
             + inode(3, REGULAR, extent(0, 97, 95), 95, GAUGE)
             + link(4, b"gauge.csv", child=GAUGE, parent=FOLDER) + xattr(5, b"unit", b"m", GAUGE))
    second = (begin(1, first) + table([(GAUGE, FOLDER, b"gauge.csv")]) + data(6, later)
              + rename(7, b"gauge.csv", b"river.csv") + inode(8, LINK, b"river.csv", 79, OLD_NAME)
              + link(9, b"gauge.csv", child=OLD_NAME, parent=FOLDER))
    third = (begin(2, second) + table([(GAUGE, FOLDER, b"river.csv"), (OLD_NAME, FOLDER, b"gauge.csv")])
             + data(10, last))
    current = (extent(0, 97, 95) + extent(0, 213, 3, 82, 8, 1, 2, 161) + extent(1, 137, 22, 67, 5, 22, 22, 95)
               + extent(2, 164, 42, logical=204))
    return [first, second, third + inode(11, REGULAR, current, 246, GAUGE)], len(third)


def extracted(archive, offset):
    """The bytes of the file whose inode block stands at an offset of the last volume; those of a hole are zero."""
    places = [stored(archive[-1], offset, position) for position in range(size_of(archive[-1], offset))]
    return bytes(0 if place is None else archive[place[2]][place[3]] for place in places)


def main(words):
    archive, offset = volumes()
    for volume in archive:
        assert check(volume).startswith("accepted"), check(volume)
    if not words:
        EXPECTED.parent.mkdir(parents=True, exist_ok=True)
        EXPECTED.write_bytes(extracted(archive, offset))
        return 0
    names = [pathlib.Path(words[0]) / f"{i}.vol" for i in range(3)]
    others = [name for name, volume in zip(names, archive) if name.read_bytes() != volume]
    print("\n".join(f"{name}: other bytes than the layouts give" for name in others) or "all three volumes as the layouts give them")
    return 1 if others else 0


if __name__ == "__main__":
    sys.exit(main(sys.argv[1:]))
