"""What the tests of the programs that read a card share: rules of document 01 that the models need, document 01's sample, cards by chance, changed
bytes, runs of a program and how their cases are counted. Nothing here calls the project's own code."""
import binascii
import os
import random
import subprocess
import sys
from pathlib import Path

ROOT = Path(__file__).resolve().parent.parent

sys.path.insert(0, str(ROOT / "tools"))
from card import INSERT, TOMBSTONE, UNKNOWN, UPDATE, entry, filled, furthest, header, mark, number, region

# document 01's sample: its header, its three entries and their region
HEAD = header(7)
ENTRIES = (INSERT, 1, b"A7", b"9"), (UPDATE, 1, b"A7", b"10"), (TOMBSTONE, 1, b"A7", b"")
THREE = region(*ENTRIES)

# the most data that `./locker effort` and `./locker counts` take
LARGEST_DATA = 1048576

# ---- rules of document 01


def little(run):
    return int.from_bytes(run, "little")


def up(n):
    return (n + 15) // 16 * 16


def used_bound(s):
    """ "one past the last nonzero byte, rounded up to a line, but at most N; 0 if all are zero" """
    return min(up(len(s.rstrip(b"\0"))), len(s))


def tried(s, added, bound):
    """The walk from 0 on: of each line whose mark is compared its place, its word, its entry's length and whether it verifies. The word is None
    where the mark is wrong, and the length where the entry doesn't lie within N. A line of type 3 is the last. `added` is what the file's version
    adds to every mark."""
    p = 0
    while p < bound and len(s) - p >= 8:
        word, length, verifies = little(s[p : p + 4]), None, False
        if word % 2**24 != (p // 16 + 0x5A17C0 + added) % 2**24:
            word = None
        elif word >> 30 != 3:
            length = 8 + little(s[p + 4 : p + 6]) if word >> 30 == 2 else 10 + little(s[p + 4 : p + 6]) + little(s[p + 6 : p + 8])
            if p + length > len(s):
                length = None
            else:
                verifies = binascii.crc_hqx(s[p : p + length - 2], 0xFFFF) == little(s[p + length - 2 : p + length])
        yield p, word, length, verifies
        if word is not None and word >> 30 == 3:
            return
        p = up(p + length) if verifies else p + 16


def of_card(card, told):
    """The line of the refusal that a card gets before it is walked, or what `told` gives of its data, of what its version adds to every mark, and
    of its used bound."""
    if len(card) > 4096 + LARGEST_DATA:
        return "refused 3\n"
    if len(card) < 4096:
        return "refused 1\n"
    version, ordinal = little(card[8:12]), little(card[16:24])
    if card[:8] != b"LOCKDAT1" or version not in (1, 2):
        return "refused 2\n"
    s = card[4096:]
    return told(s, ordinal % 2**24 if version == 2 else 0, used_bound(s))


# ---- cards


def changed(run, at, to):
    """The run with other bytes at a place."""
    return run[:at] + to + run[at + len(to) :]


def turned(run, at):
    """The run with the lowest bit of one byte turned."""
    return changed(run, at, bytes([run[at] ^ 1]))


def flush_with_zero():
    """An entry of 17 bytes whose last byte is 0: the used bound of a region that ends there is 16."""
    for last in range(256):
        run = entry(0, INSERT, 1, b"key", b"1" * 3 + bytes([last]))
        if run[-1] == 0:
            return run
    raise AssertionError("no value gives a checksum that ends in 0")


def refused_headers():
    """Cards that get 1 or 2, and the line."""
    yield "no input", b"", "refused 1\n"
    yield "4,095 bytes with a wrong signature: 1 comes first", turned(HEAD[:-1], 0), "refused 1\n"
    yield "a wrong signature", turned(HEAD, 7) + THREE, "refused 2\n"
    for version in (0, 3, 0x00000101, 0x01000002):
        yield f"version 0x{version:08x}", header(7, version) + THREE, "refused 2\n"


ORDINALS = 0, 7, 8, 2**24 + 7, 0xA5E83F, 2**64 - 1


def written(dice, at, file):
    """A whole entry; its value may hold other entries, at lines of their own."""
    kind = dice.choice([INSERT, INSERT, UPDATE, TOMBSTONE])
    key, value = dice.randbytes(dice.choice([0, 2, 30])), dice.randbytes(dice.choice([0, 1, 7, 90]))
    if kind == TOMBSTONE:
        return entry(at, kind, dice.randrange(64), key, **file)
    if dice.randrange(4) == 0:
        value = bytes(8) + filled(written(dice, at + 16, file)) + value
    return entry(at, kind, dice.randrange(64), key, value, **file)


def bare(dice, at, end, file):
    """A line with its mark, and lengths as they come: the entry ends with the region or close by, or anywhere."""
    head = furthest(at, end, **file) if end - at >= 8 else number(mark(at, **file), 4) + b"\xff" * 4
    if dice.randrange(2):
        head = changed(head, 4, number(max(0, little(head[4:6]) + dice.choice([-17, -16, -1, 1, 16])) % 2**16, 2))
    if dice.randrange(4) == 0:
        head = changed(head, 4, dice.choice([bytes(4), b"\xff" * 4, dice.randbytes(4), number(dice.randrange(60), 2) + bytes(2)])[: len(head) - 4])
    head = changed(head, 3, bytes([head[3] | dice.choice([0, 0x3F, 0x40])]))
    return head.ljust(16, dice.choice([b"\0", b"\xff", b"v"]))


def by_chance(seed, count):
    """Cards of both versions and of any length: whole and damaged entries, entries of other files, marks without entries, type 3, noise. They are
    the same at each run."""
    dice = random.Random(seed)
    for n in range(count):
        file = {"version": dice.choice([1, 2]), "ordinal": dice.choice(ORDINALS)}
        length = dice.choice([dice.randrange(80), dice.randrange(700), dice.randrange(3000)])
        hostility, unknown, data = dice.randrange(10), dice.choice([0, 0, 1]), b""
        while len(data) < length:
            at, chance = len(data), dice.randrange(10)
            if chance < hostility:
                data += bare(dice, at, length, file)
            elif chance < 7:
                data += filled(written(dice, at, file))
            elif chance == 7:
                whole = filled(written(dice, at, file))
                data += turned(whole, dice.randrange(len(whole)))
            elif chance == 8:
                data += filled(written(dice, at, {"version": dice.choice([1, 2]), "ordinal": dice.choice(ORDINALS)}))
            elif unknown and dice.randrange(3) == 0:
                data += number(mark(at, **file) + (UNKNOWN << 30), 4) + dice.randbytes(12)
            else:
                data += dice.choice([bytes(16), bytes(48), b"\xff" * 16, dice.randbytes(32)])
        data = data[:length]
        if length >= 40 and dice.randrange(4) == 0:
            # the last lines are an entry that ends with the region, whole or with one byte turned
            at = dice.randrange(0, length - 24, 16)
            last = entry(at, UPDATE, 5, b"key", dice.randbytes(length - at - 13), **file)
            data = data[:at] + (last if dice.randrange(2) else turned(last, dice.randrange(8, len(last))))
        yield f"a card by chance, number {n}", header(**file) + data + bytes(dice.choice([0, 0, 0, 5, 40])), None


# ---- runs


class Program:
    """A program of the repository, built from its sources, and how many of its cases passed and failed."""

    def __init__(self, name):
        self.name = name
        self.path = subprocess.run([ROOT / "tools/built", name], stdout=subprocess.PIPE, text=True).stdout.strip()
        if not self.path:
            sys.exit(f"{name}: the program was not built")
        self.passed = self.failed = 0

    def compare(self, name, expected, wrote):
        if wrote == expected:
            self.passed += 1
            return
        self.failed += 1
        print(f"FAILED: {name}\n  expected {expected[-300:]!r}\n  but was  {wrote[-300:]!r}")

    def wrote(self, card):
        """All that the program writes of a card."""
        run = subprocess.run([self.path], input=card, capture_output=True, timeout=60)
        return (run.stdout + run.stderr).decode()

    def wrote_in_pieces(self, card, size):
        """What the program writes if its input comes through a pipe in small pieces."""
        with subprocess.Popen([self.path], stdin=subprocess.PIPE, stdout=subprocess.PIPE) as run:
            for at in range(0, len(card), size):
                run.stdin.write(card[at : at + size])
                run.stdin.flush()
            run.stdin.close()
            return run.stdout.read().decode()

    def wrote_unreadable(self):
        """What the program writes where its input can't be read, here a folder: nothing, and a line on standard error."""
        folder = os.open(ROOT, os.O_RDONLY)
        run = subprocess.run([self.path], stdin=folder, capture_output=True, timeout=60)
        os.close(folder)
        return run.stdout.decode() + ("and a line of reasons" if run.stderr.count(b"\n") == 1 else "and no reason")

    def finish(self):
        """Says how many cases passed and failed; exit status 1 if one failed."""
        print(f"{self.name}: {self.passed} passed, {self.failed} failed")
        sys.exit(1 if self.failed else 0)
