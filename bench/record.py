#!/usr/bin/env python3
"""Makes recordings to measure on: python3 bench/record.py MIB FOLDER [KIND...]

Each kind goes to FOLDER/KIND, and has MIB mebibytes, or a little less where it ends with a whole ensemble. The
recordings are made up, not measured, and have the same bytes each time. One that is there already is left alone.
"""
import os
import random
import struct
import sys

MARK = b"\x7f\x7f"
CELLS = 30


def section(identification, size, rng=None):
    """A section of a size, filled with zeros or at random."""
    rest = rng.randbytes(size - 2) if rng else bytes(size - 2)
    return struct.pack("<H", identification) + rest


def fixed_leader(cells, size=59, rng=None):
    leader = bytearray(section(0x0000, size, rng))
    leader[9] = cells
    return bytes(leader)


def ensemble(sections):
    offset = 6 + 2 * len(sections)
    table = b""
    for one in sections:
        table += struct.pack("<H", offset)
        offset += len(one)
    counted = struct.pack("<2sHBB", MARK, offset + 2, 0, len(sections)) + table + b"".join(sections) + bytes(2)
    return counted + struct.pack("<H", sum(counted) % 65536)


def small(rng):
    """Two sections, one cell, 131 bytes, all zeros where nothing is asked."""
    return ensemble([fixed_leader(1, 52), section(0x0080, 65)])


def usual(rng):
    """Seven sections, thirty cells, 841 bytes."""
    return ensemble([
        fixed_leader(CELLS, 59, rng),
        section(0x0080, 65, rng),
        section(0x0100, 2 + 8 * CELLS, rng),
        section(0x0200, 2 + 4 * CELLS, rng),
        section(0x0300, 2 + 4 * CELLS, rng),
        section(0x0400, 2 + 4 * CELLS, rng),
        section(0x0600, 85, rng),
    ])


def longest(rng):
    """Two leaders and an unnamed section, 4,096 bytes."""
    table = 6 + 2 * 3
    return ensemble([
        fixed_leader(1, 59, rng),
        section(0x0080, 65, rng),
        section(0x3000, 4096 - table - 59 - 65 - 4, rng),
    ])


class Numbered:
    """Ensembles whose numbers count up from 0.

    They are made 256 at a time: within such a block only the low byte of the number differs, so that the rest of the
    number is set, and the checksums are made to agree, for the whole block at once.
    """

    def __init__(self, make, rng):
        ensembles = [bytearray(make(rng)) for _ in range(256)]
        self.length = len(ensembles[0])
        variable_leader = struct.unpack_from("<H", ensembles[0], 8)[0]
        self.low, self.high, self.over = variable_leader + 2, variable_leader + 3, variable_leader + 11
        self.sums = []
        for number, one in enumerate(ensembles):
            one[self.low], one[self.high], one[self.over] = number, 0, 0
            self.sums.append(sum(one[:-2]))
        self.bytes = bytearray(b"".join(ensembles))

    def block(self, index):
        """The ensembles with the numbers from 256 * index to 256 * index + 255."""
        high, over = index % 256, index // 256 % 256
        sums = [one + high + over for one in self.sums]
        self.bytes[self.high::self.length] = bytes([high]) * 256
        self.bytes[self.over::self.length] = bytes([over]) * 256
        self.bytes[self.length - 2::self.length] = bytes([one % 256 for one in sums])
        self.bytes[self.length - 1::self.length] = bytes([one // 256 % 256 for one in sums])
        return bytes(self.bytes)

    def blocks(self):
        index = 0
        while True:
            yield self.block(index)
            index += 1

    def each(self):
        for block in self.blocks():
            for begin in range(0, len(block), self.length):
                yield block[begin:begin + self.length]


def write_first(file, pieces, left):
    """Writes the first bytes of endless pieces."""
    for piece in pieces:
        file.write(piece[:left])
        left -= len(piece)
        if left <= 0:
            return


def clean(make):
    """Ensembles back to back, the last one whole."""
    def write(file, size, rng):
        numbered = Numbered(make, rng)
        write_first(file, numbered.blocks(), size // numbered.length * numbered.length)
    return write


def cut(pieces):
    """Pieces up to just the wanted size: such a recording may end within an ensemble."""
    def write(file, size, rng):
        write_first(file, pieces(rng), size)
    return write


def damaged(rng):
    """As clean, but one ensemble of ten is damaged."""
    for one in Numbered(usual, rng).each():
        if rng.randrange(10) == 0:
            damage = rng.randrange(3)
            at = rng.randrange(len(one))
            if damage == 0:
                one = one[:at] + bytes([one[at] ^ rng.randrange(1, 256)]) + one[at + 1:]
            elif damage == 1:
                one = one[:at] + one[at + rng.randrange(1, 200):]
            else:
                one += rng.randbytes(rng.randrange(1, 300))
        yield one


def noise(rng):
    while True:
        yield rng.randbytes(1 << 20)


def among(make_field):
    """A field of false headers over and over, cut at random places, with an ensemble of the usual kind at each."""
    def pieces(rng):
        field = make_field(rng)
        for one in Numbered(usual, rng).each():
            begin = rng.randrange(len(field) - 65536)
            yield field[begin:begin + rng.randrange(16384, 65536)]
            yield one
    return pieces


def false_headers(rng):
    """A header with a likely size and number of sections every 16 bytes or so, and random bytes between.

    Each must be waited for, but its table of offsets is not one.
    """
    field = bytearray()
    while len(field) < 1 << 20:
        counted = rng.randrange(256, 4095)
        field += struct.pack("<2sHBB", MARK, counted, 0, rng.randrange(2, 17)) + rng.randbytes(rng.randrange(6, 15))
    return bytes(field)


def false_sums(rng):
    """A header with a table of two offsets and both leaders every 64 bytes or so: only the checksum does not agree.

    Each header has its Fixed Leader right behind it, overlapping the headers that follow. Behind the bytes that matter
    of the Fixed Leader stands the beginning of a Variable Leader, which headers in front of this one point to.
    """
    to_variable = 20
    begins = [0]
    while begins[-1] < 1 << 20:
        begins.append(begins[-1] + rng.randrange(48, 81))
    field = bytearray(rng.randbytes(begins[-1] + 128))
    for index, begin in enumerate(begins):
        # One header on there is space for the 52 bytes of a Fixed Leader, and forty headers on there is still space
        # for the 65 bytes of a Variable Leader. The last headers point behind the field.
        ahead = rng.randrange(1, 40)
        target = begins[index + ahead] if index + ahead < len(begins) else begin + 64 * ahead
        variable_leader = target - begin + to_variable
        counted = rng.randrange(max(2048, variable_leader + 67), 4095)
        struct.pack_into("<2sHBBHHH", field, begin, MARK, counted, 0, 2, 10, variable_leader, 0x0000)
        field[begin + 19] = rng.randrange(1, 129)
        struct.pack_into("<H", field, begin + to_variable, 0x0080)
    return bytes(field)


KINDS = {
    "clean-small": clean(small),
    "clean": clean(usual),
    "clean-long": clean(longest),
    "damaged": cut(damaged),
    "noise": cut(noise),
    "false-headers": cut(among(false_headers)),
    "false-sums": cut(among(false_sums)),
}


def record(kind, size, path):
    """Writes a recording of a kind, of at most so many bytes, unless it is there."""
    if os.path.exists(path):
        return
    # Under another name until it is whole.
    part = path + ".part"
    with open(part, "wb") as file:
        KINDS[kind](file, size, random.Random("PD0 " + kind))
    os.replace(part, path)


def main(arguments):
    if len(arguments) < 2 or not arguments[0].isdecimal() or int(arguments[0]) == 0:
        sys.exit(__doc__.splitlines()[0])
    mib, folder, kinds = int(arguments[0]), arguments[1], arguments[2:] or list(KINDS)
    for kind in kinds:
        if kind not in KINDS:
            sys.exit("no kind %s: there are %s" % (kind, ", ".join(KINDS)))
    os.makedirs(folder, exist_ok=True)
    for kind in kinds:
        record(kind, mib << 20, os.path.join(folder, kind))


if __name__ == "__main__":
    main(sys.argv[1:])
