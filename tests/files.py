"""Tables, indexes and code files made byte by byte, as docs/FORMATS.md lays them out."""

import struct


def table(columns, records, end=b"\x1a"):
    """A table's file. A column is a name, a letter, a width and decimals; a record has its mark in front."""
    width = 1 + sum(column[2] for column in columns)
    out = bytes((3, 84, 12, 31)) + struct.pack("<IHH", len(records), 32 * len(columns) + 33, width) + bytes(20)
    for name, letter, wide, decimals in columns:
        out += name.encode().ljust(11, b"\0") + letter.encode() + bytes(4) + bytes((wide, decimals)) + bytes(14)
    return out + b"\r" + b"".join(records) + end


def texts(name, width, values):
    """The file of a table of one field of texts; none of its records is marked."""
    return table([(name, "C", width, 0)], [b" " + value.encode().ljust(width) for value in values])


def index_head(expression, length, root, pages):
    """Page 0 of an index file."""
    size = 8 + (length + 3) // 4 * 4
    out = struct.pack("<IIIHHHHB", root, pages, 0, length, 504 // size, 0, size, 0)
    return (out.ljust(24, b"\0") + expression.encode()).ljust(512, b"\0")


def index_page(length, entries, last):
    """Another page: entries are a child, a record and a key."""
    wide = (length + 3) // 4 * 4
    body = b"".join(struct.pack("<II", child, record) + key.ljust(wide, b"\0") for child, record, key in entries)
    return (struct.pack("<I", len(entries)) + body + struct.pack("<I", last)).ljust(512, b"\0")


def index(expression, length, pairs):
    """The file of an index with full leaves, and a root above them where there are several. A pair is a record and a
    key."""
    most = 504 // (8 + (length + 3) // 4 * 4)
    pairs = sorted(pairs, key=lambda it: (it[1], it[0]))
    leaves = [pairs[first:first + most] for first in range(0, len(pairs), most)] or [[]]
    pages = [index_page(length, [(0, record, key) for record, key in leaf], 0) for leaf in leaves]
    if len(leaves) > 1:
        above = [(number + 1, 0, leaf[-1][1]) for number, leaf in enumerate(leaves[:-1])]
        pages.append(index_page(length, above, len(leaves)))
    return index_head(expression, length, len(pages), len(pages) + 1) + b"".join(pages)
