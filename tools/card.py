"""Bytes on a card, from the rules of documents 01 and 02 alone: what the samples and the tests are made with.

Nothing here calls the project's own code, and the checksum is Python's: `binascii.crc_hqx` started with 0xffff is
CRC-16/IBM-3740. So a file made here is an independent check of the programs that read it.
"""
import binascii

LINE = 16
HEADER_LENGTH = 4096
LARGEST_LENGTH = 65535
LONGEST_ENTRY = 10 + 2 * LARGEST_LENGTH
SIGNATURE = bytes.fromhex("4C4F434B44415431")
INSERT, UPDATE, TOMBSTONE, UNKNOWN = 0, 1, 2, 3


def number(value, width):
    return value.to_bytes(width, "little")


def checksum(data):
    return binascii.crc_hqx(data, 0xFFFF)


def aligned(n):
    return (n + LINE - 1) // LINE * LINE


def mark(offset, version=1, ordinal=0):
    """In version 2 the ordinal is added (document 02, request 10)."""
    return (offset // LINE + 0x5A17C0 + (ordinal if version == 2 else 0)) % 2**24


def header(ordinal, version=1, signature=SIGNATURE):
    """signature 8, version 4, zero 4, ordinal 8, zero 4,072"""
    return signature + number(version, 4) + bytes(4) + number(ordinal, 8) + bytes(4072)


def entry(offset, kind, namespace, key, value=b"", version=1, ordinal=0):
    """One entry as it stands at `offset`, without its filling. A tombstone has no value and no value length."""
    word = number(mark(offset, version, ordinal) + (namespace << 24) + (kind << 30), 4)
    if kind == TOMBSTONE:
        covered = word + number(len(key), 2) + key
    else:
        covered = word + number(len(key), 2) + number(len(value), 2) + value + key
    return covered + number(checksum(covered), 2)


def filled(data):
    """Filled up to the next line with 0xff, as the writer does."""
    return data + b"\xff" * (aligned(len(data)) - len(data))


def region(*entries, version=1, ordinal=0):
    """Entries one behind the other from offset 0 on, each given as (kind, namespace, key, value)."""
    data = b""
    for kind, namespace, key, value in entries:
        data += filled(entry(len(data), kind, namespace, key, value, version, ordinal))
    return data


def data_file(*entries, ordinal, version=1):
    """A whole file: its header, and its entries under the header's version and ordinal."""
    return header(ordinal, version) + region(*entries, version=version, ordinal=ordinal)


def furthest(offset, end, version=1, ordinal=0):
    """The word and the lengths of the longest entry that fits between `offset` and `end`, at least eight bytes: it ends at `end`, or as far as two
    lengths of 65,535 reach. With fewer than ten bytes only a tombstone has room."""
    length = min(end - offset, LONGEST_ENTRY)
    word = mark(offset, version, ordinal)
    if length < 10:
        return number(word + (TOMBSTONE << 30), 4) + number(length - 8, 2)
    klen = min(length - 10, LARGEST_LENGTH)
    return number(word, 4) + number(klen, 2) + number(length - 10 - klen, 2)


def hostile(length, version=1, ordinal=0):
    """The region of this length that holds a boot the longest: every line has its mark and the longest entry that fits behind it, and no checksum
    agrees. All entries end with the region, so that they share their checksum's place, and a number that is no line's sum stands there."""
    assert 8 <= length <= LONGEST_ENTRY, "in a longer region not every entry reaches its end"
    lines = range(0, length - 7, LINE)
    data = b"".join(furthest(at, length, version, ordinal).ljust(LINE, b"\xff") for at in lines)
    data = data.ljust(length, b"\xff")[: length - 2]
    sums = {checksum(data[at:]) for at in lines}
    return data + number(max(set(range(2**16)) - sums), 2)
