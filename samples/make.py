#!/usr/bin/env python3
"""Writes the samples that the programs are run on.

They are made up, not measured, with plausible numbers and the same bytes each time: for `inspect` one
ensemble of seven sections and thirty cells, for `listing` a recording of some of these with noise and
damage among them. Run it in the repository's root; it is not needed to build or check.
"""
import math
import struct

CELLS = 30
BAD = -32768


def fixed_leader():
    return struct.pack(
        "<H2BH4BHHH4BH4Bhh2BHH2B2BH8sHBBIB",
        0x0000,
        51, 40,  # firmware version and revision
        0x41CA,  # 300 kHz, convex, down-facing, 20 degrees, four beams
        0, 13, 4, CELLS,  # real data, lag length, beams, cells
        50, 400, 176,  # pings, cell length and blank in cm
        1, 64, 5, 0,  # mode, least correlation, code repetitions, least percent-good
        2000,  # error velocity threshold in mm/s
        0, 1, 20,  # time between pings: minutes, seconds, hundredths
        0x1F,  # earth coordinates, tilts, three-beam solutions, bin mapping
        0, 0,  # heading alignment and bias
        0x7D, 0x3D,  # sensors used and there
        616, 444,  # middle of cell 1 and transmit length in cm
        1, 5, 50, 0,  # reference layer, false target threshold, spare
        98,  # lag distance in cm
        bytes([0x6F, 0, 0, 4, 0x4B, 0xD4, 0xA1, 9]),  # CPU board
        0, 255, 0, 10931, 20,  # bandwidth, power, spare, serial number, beam angle
    )


def variable_leader(number=4711):
    b = bytearray(65)
    b[0:2] = b"\x80\x00"
    struct.pack_into("<H", b, 2, number % 65536)
    b[4:11] = bytes([26, 11, 17, 9, 30, 0, 0])
    b[11] = number // 65536
    struct.pack_into("<HHHhhHh", b, 14, 1497, 118, 22750, -85, 140, 35, 1180)
    b[28:31] = bytes([0, 0, 0])
    b[34:42] = bytes([103, 90, 0, 0, 0, 0, 0, 0])
    struct.pack_into("<I", b, 48, 11830)
    b[57:65] = bytes([20, 26, 11, 17, 9, 30, 0, 0])
    return bytes(b)


def velocity(cell, component):
    if cell >= 27 or (cell == 25 and component == 3):
        return BAD
    depth = cell / CELLS
    return [
        round(320 * math.exp(-2 * depth) + 9 * math.sin(3 * cell)),
        round(-140 * math.cos(4 * depth) + 7 * math.sin(5 * cell)),
        round(6 * math.sin(2 * cell)),
        round(11 * math.cos(7 * cell)),
    ][component]


def per_cell(identification, form, value):
    samples = [value(cell, component) for cell in range(CELLS) for component in range(4)]
    return struct.pack("<H%d%s" % (len(samples), form), identification, *samples)


def bottom_track():
    b = bytearray(85)
    b[0:2] = b"\x00\x06"
    struct.pack_into("<HH", b, 2, 50, 0)
    b[6:10] = bytes([220, 30, 0, 5])
    struct.pack_into("<H", b, 10, 1000)
    struct.pack_into("<4H4h", b, 16, 11820, 11790, 11930, 11860, 412, -1033, 8, 3)
    b[32:44] = bytes([254, 255, 254, 253, 72, 74, 71, 75, 100, 100, 100, 100])
    return bytes(b)


def ensemble(sections, spare=0, reserved=b"\x00\x00"):
    offset = 6 + 2 * len(sections)
    table = b""
    for section in sections:
        table += struct.pack("<H", offset)
        offset += len(section)
    counted = struct.pack("<2sHBB", b"\x7f\x7f", offset + 2, spare, len(sections)) + table + b"".join(sections) + reserved
    return counted + struct.pack("<H", sum(counted) % 65536)


def seven_sections(number=4711):
    return ensemble([
        fixed_leader(),
        variable_leader(number),
        per_cell(0x0100, "h", velocity),
        per_cell(0x0200, "B", lambda cell, component: max(12, 128 - 3 * cell - component)),
        per_cell(0x0300, "B", lambda cell, component: max(40, 190 - 5 * cell + component)),
        per_cell(0x0400, "B", lambda cell, component: 0 if cell >= 27 else [2, 0, 1, 97][component]),
        bottom_track(),
    ])


def small():
    """Two leaders of their least sizes and one cell; all else is zero."""
    return ensemble([bytes(9) + b"\x01" + bytes(42), b"\x80\x00" + bytes(63)])


def recording():
    """Ensembles as a noisy line delivers them, whose numbers step over 65,535."""
    damaged = bytearray(seven_sections(65535))
    damaged[400] ^= 0x10  # a flipped bit: the checksum no longer agrees
    cut = seven_sections(65537)
    return b"".join([
        b"\x00\xff\x7fnoise\x7f\x7f",  # chatter, and a false start
        seven_sections(65534),
        bytes(damaged),
        seven_sections(65536),
        cut[:300] + cut[500:],  # a burst of 200 bytes lost
        seven_sections(65538),
        small(),
        seven_sections(65539),
        cut[:500],  # the recording stops inside an ensemble
    ])


if __name__ == "__main__":
    with open("crates/inspect/stdin", "wb") as f:
        f.write(seven_sections())
    with open("crates/listing/stdin", "wb") as f:
        f.write(recording())
