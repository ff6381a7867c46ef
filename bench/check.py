#!/usr/bin/env python3
"""Checks a finder against a slow, simple one: python3 bench/check.py PROGRAM...

The simple finder below has no receiver: it judges the whole rest of a recording at every byte. The programs must print
the same list as it does, on small recordings of every kind (see bench/record.py), on ensembles that keep or just miss
each of the rule's limits, and on the same recordings when they arrive in odd pieces.
"""
import os
import random
import struct
import subprocess
import sys
import tempfile
import threading

import record

LEAST = {0x0000: 52, 0x0080: 65, 0x0600: 81}
PER_CELL = {0x0100: 8, 0x0200: 4, 0x0300: 4, 0x0400: 4, 0x0500: 4}


def number(run, offset):
    return run[offset] + 256 * run[offset + 1]


def is_ensemble(frame):
    """Whether a whole run, not only its front, is an ensemble."""
    if len(frame) < 6 or frame[:2] != b"\x7f\x7f":
        return False
    counted, count = number(frame, 2), frame[5]
    if not 2 <= count <= 16 or not 8 + 2 * count <= counted <= 4094 or len(frame) != counted + 2:
        return False
    if sum(frame[:counted]) % 65536 != number(frame, counted):
        return False
    offsets = [number(frame, 6 + 2 * index) for index in range(count)]
    if offsets[0] != 6 + 2 * count or offsets[-1] > counted - 4:
        return False
    if any(after < before + 2 for before, after in zip(offsets, offsets[1:])):
        return False
    sections = [frame[begin:end] for begin, end in zip(offsets, offsets[1:] + [counted - 2])]
    kinds = [number(section, 0) for section in sections]
    if kinds[:2] != [0x0000, 0x0080] or len(sections[0]) < 52:
        return False
    named = [kind for kind in kinds if kind in LEAST or kind in PER_CELL]
    if len(set(named)) != len(named):
        return False
    cells = sections[0][9]
    if not 1 <= cells <= 128:
        return False
    return all(len(section) >= LEAST.get(kind, 2 + PER_CELL.get(kind, 0) * cells)
               for kind, section in zip(kinds, sections))


def simple_list(recording):
    lines, at = [], 0
    while at < len(recording):
        length = number(recording, at + 2) + 2 if len(recording) - at >= 6 else 0
        frame = recording[at:at + length]
        if is_ensemble(frame):
            leader = number(frame, 8)
            lines.append("%d %d %d\n" % (number(frame, leader + 2) + 65536 * frame[leader + 11], length, frame[5]))
            at += length
        else:
            at += 1
    return "".join(lines).encode()


def near_ensemble(rng):
    """An ensemble whose sizes and numbers are at the rule's limits or one off, mostly with a checksum that agrees."""
    def off(value):
        return max(2, value + rng.choice([0] * 12 + [-1, 1]))

    cells = rng.choice([1, 1, 2, 5, 30, 127, 128] * 3 + [0, 129, 255])
    kinds = [0x0000, 0x0080] + rng.sample([0x0100, 0x0200, 0x0300, 0x0400, 0x0500, 0x0600], rng.randrange(7))
    kinds += [rng.choice([0x3000, 0x0001, 0x0081, 0x0700, 0xFFFF])] * rng.choice([0, 0, 0, 1, 2, 8, 9, 10, 13, 14, 15])
    change = rng.randrange(24)
    if change == 0:
        kinds.append(rng.choice(kinds))
    elif change == 1:
        kinds[rng.randrange(len(kinds))] = rng.choice(kinds)
    elif change == 2:
        kinds[0:2] = rng.choice([[0x0080, 0x0000], [0x0000], [0x0000, 0x0100, 0x0080]])
    sections = []
    for kind in kinds:
        size = off(LEAST.get(kind, 2 + PER_CELL.get(kind, 0) * cells))
        section = bytearray(record.section(kind, size, rng))
        if kind == 0x0000 and size > 9:
            section[9] = cells
        sections.append(bytes(section))
    if rng.randrange(4) == 0:
        # So that the counted bytes are 4,094 or one off.
        rest = off(4094) - 8 - 2 * len(sections) - sum(map(len, sections[:-1]))
        if rest > len(sections[-1]):
            sections[-1] += bytes(rest - len(sections[-1]))
    whole = bytearray(record.ensemble(sections))
    change = rng.randrange(24)
    if change == 0:
        struct.pack_into("<H", whole, 2, rng.choice([0, 4, 8 + 2 * len(sections), 4094, 4095, len(whole) - 3]))
    elif change == 1:
        whole[5] = rng.choice([0, 1, 2, whole[5] - 1, whole[5] + 1, 16, 17])
    elif change == 2:
        at = 6 + 2 * rng.randrange(len(sections))
        struct.pack_into("<H", whole, at, max(0, number(whole, at) + rng.choice([-60, -2, -1, 1, 2, 60])))
    elif change == 3:
        at = 6 + 2 * rng.randrange(len(sections))
        struct.pack_into("<H", whole, at, rng.choice([0, len(whole) - 7, len(whole) - 6, len(whole) - 5, 65535]))
    elif change == 4:
        whole[rng.randrange(2)] ^= 1 << rng.randrange(8)
    struct.pack_into("<H", whole, len(whole) - 2, sum(whole[:-2]) % 65536)
    if rng.randrange(16) == 0:
        whole[-1 - rng.randrange(2)] ^= 1 << rng.randrange(8)
    if rng.randrange(16) == 0:
        del whole[rng.randrange(len(whole)):]
    return bytes(whole)


def near_ensembles(rng, count):
    pieces = []
    for _ in range(count):
        pieces.append(near_ensemble(rng))
        if rng.randrange(4) == 0:
            pieces.append(rng.choice([b"\x7f", b"\x7f\x7f", b"\x7f\x7f\xfe\x0f\x00\x02", rng.randbytes(9)]))
    return b"".join(pieces)


def recordings():
    """Names and bytes."""
    smallest = record.small(None)
    yield "nothing", b""
    yield "the small ensemble", smallest
    yield "the small ensemble, a byte cut", smallest[:-1]
    yield "a mark and the small ensemble", b"\x7f" + smallest
    yield "marks only", b"\x7f" * 10000
    yield "a false header at the end", smallest + b"\x7f\x7f\xfe\x0f\x00\x02" + smallest
    with tempfile.TemporaryDirectory() as folder:
        for kind in record.KINDS:
            for size in (5000, 300000):
                path = os.path.join(folder, "%s-%d" % (kind, size))
                record.record(kind, size, path)
                with open(path, "rb") as file:
                    yield "%s, %d bytes" % (kind, size), file.read()
    for seed in range(40):
        yield "near ensembles %d" % seed, near_ensembles(random.Random(seed), 150)


def list_at_once(program, recording):
    """What a program prints about a recording: nothing at all if it does not end well."""
    done = subprocess.run([program], input=recording, stdout=subprocess.PIPE, stderr=subprocess.DEVNULL)
    return done.stdout if done.returncode == 0 else None


def list_in_pieces(program, recording, rng):
    """The same when the recording comes over a pipe in pieces of odd sizes."""
    process = subprocess.Popen([program], stdin=subprocess.PIPE, stdout=subprocess.PIPE, stderr=subprocess.DEVNULL,
                               bufsize=0)
    answer = []
    reader = threading.Thread(target=lambda: answer.append(process.stdout.read()))
    reader.start()
    at = 0
    try:
        while at < len(recording):
            size = rng.choice([1, 2, 5, 6, 7, 100, 131, 840, 841, 4095, 4096, 4352, 4353, 9000])
            at += process.stdin.write(recording[at:at + size])
    except BrokenPipeError:
        pass  # The program has ended too early, which its status or its list tells.
    process.stdin.close()
    reader.join()
    process.stdout.close()
    return answer[0] if process.wait() == 0 else None


def main(programs):
    if not programs:
        sys.exit(__doc__.splitlines()[0])
    programs = [os.path.abspath(program) for program in programs]
    rng = random.Random("pieces")
    count = ensembles = wrong = 0
    for name, recording in recordings():
        wanted = simple_list(recording)
        count += 1
        ensembles += wanted.count(b"\n")
        for program in programs:
            for way, answer in (("at once", list_at_once(program, recording)),
                                ("in pieces", list_in_pieces(program, recording, rng))):
                if answer != wanted:
                    wrong += 1
                    print("WRONG: %s on %s, read %s" % (os.path.basename(program), name, way))
    print("%d recordings with %d ensembles, %d wrong lists" % (count, ensembles, wrong))
    return 1 if wrong else 0


if __name__ == "__main__":
    sys.exit(main(sys.argv[1:]))
