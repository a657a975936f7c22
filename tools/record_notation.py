"""A record, or a page header, by its fields.

    record manager N [info HEX] [xid N] [part HEX] [block ..] [origin N] [top X] [main HEX|long-main HEX]
           [behind HEX] [length N]
    block ID [of SPACE/DATABASE/FILE] [number N] [fork N] [init] [data HEX] [image HEX [hole N] [bits HEX] [left N]]
          [same|not-same] [claims N] [flagged|not-flagged] [image-length N]

`same` says that the block's relation is that of the block before it, `claims` is a length of the block's data that
is not the true one, `flagged` that data stand there though none do, `left` how many bytes a compressed image's hole
leaves out. `part` has part headers and `behind` bytes behind main data, as they stand. HEX is two digits a byte,
parts between dots, each of which may be repeated: `0a.00*31`; `a..b` are the bytes from a to b.

    header info N timeline N at L remaining N [system N segments N] [blocks N] [magic HEX]
"""
import struct

from wal_bytes import MAGIC, PAGE, Block, Body, pos

TABLE = (1663, 16384, 16385)


def bytes_of(text):
    """The bytes that HEX writes."""
    if text == "-":
        return b""
    out = b""
    for part in text.split("."):
        digits, _, count = part.partition("*")
        first, to, last = digits.partition("-")
        piece = bytes(range(int(first, 16), int(last, 16) + 1)) if to else bytes.fromhex(digits)
        out += piece * int(count or 1)
    return out


def fields_of(words, flags):
    """{name: word behind it}, and True for a name that stands alone."""
    out, at = {}, 0
    while at < len(words):
        name = words[at]
        out[name] = True if name in flags else words[at + 1]
        at += 1 if name in flags else 2
    return out


def block_of(id, words):
    has = fields_of(words, ("init", "same", "not-same", "flagged", "not-flagged"))
    rel = tuple(map(int, has["of"].split("/"))) if "of" in has else TABLE
    return Block(
        rel, int(has.get("number", "0")), bytes_of(has.get("data", "-")), "init" in has,
        bytes_of(has["image"]) if "image" in has else None, int(has.get("hole", "0")),
        int(has["bits"], 16) if "bits" in has else None, int(has.get("left", "0")),
        int(has.get("fork", "0")), int(id),
        int(has["claims"]) if "claims" in has else None,
        True if "flagged" in has else False if "not-flagged" in has else None,
        int(has["image-length"]) if "image-length" in has else None,
        True if "same" in has else False if "not-same" in has else None)


OUTER = ("manager", "info", "xid", "part", "block", "origin", "top", "main", "long-main", "behind",
         "length")


def record_of(words):
    """The record that the words behind `record` describe."""
    has, blocks, at = {}, [], 0
    while at < len(words):
        name, end = words[at], at + 2
        if name == "block":
            while end < len(words) and words[end] not in OUTER:
                end += 1
            blocks.append(block_of(words[at + 1], words[at + 2:end]))
        elif name in OUTER:
            has[name] = words[at + 1]
        else:
            raise ValueError("unknown field of a record: " + name)
        at = end
    main = has.get("main", has.get("long-main", "-"))
    return Body(
        int(has["manager"]), int(has.get("info", "0"), 16), int(has.get("xid", "700")), bytes_of(main),
        blocks, int(has["origin"]) if "origin" in has else None, int(has["top"]) if "top" in has else None,
        "long-main" in has, bytes_of(has.get("part", "-")), bytes_of(has.get("behind", "-")),
        int(has["length"]) if "length" in has else None)


def header_of(words):
    """The page header that the words behind `header` describe."""
    has = fields_of(words, ())
    at = int(has["at"], 16) if "/" not in has["at"] else pos(has["at"])
    out = struct.pack("<HHIQII", int(has.get("magic", "%X" % MAGIC), 16), int(has["info"]),
                      int(has["timeline"]), at, int(has["remaining"]), 0)
    if "segments" in has:
        out += struct.pack("<QII", int(has["system"]), int(has["segments"]), int(has.get("blocks", PAGE)))
    return out
