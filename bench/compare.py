#!/usr/bin/env python3
"""Times two finders on recordings: python3 bench/compare.py LISTING FINDER FOLDER

For each recording in FOLDER (see bench/record.py) it compares the lists that the two programs print, byte by byte, then
runs each of them several times in turns and takes its least time. It prints a table, and ends with status 1 if any two
lists differ, and with 2 if a program fails.
"""
import filecmp
import os
import subprocess
import sys
import time

from record import KINDS

RUNS = 6


class Failed(Exception):
    """A program that did not end well."""


def run(program, recording, output):
    """The seconds that a program takes on a recording."""
    with open(recording, "rb") as file:
        begin = time.perf_counter()
        done = subprocess.run([os.path.abspath(program)], stdin=file, stdout=output, stderr=subprocess.DEVNULL)
        seconds = time.perf_counter() - begin
    if done.returncode != 0:
        raise Failed("%s ended with status %d on %s" % (program, done.returncode, recording))
    return seconds


def is_same(programs, recording):
    """Whether the programs print the same list. The lists are left there if they do not."""
    lists = [recording + ".listing.txt", recording + ".finder.txt"]
    for program, path in zip(programs, lists):
        with open(path, "wb") as output:
            run(program, recording, output)
    same = filecmp.cmp(*lists, shallow=False)
    if same:
        for path in lists:
            os.remove(path)
    return same


def least_seconds(programs, recording):
    """The least time of each program.

    They run in turns, so that a slow moment of the machine meets both, and each is as often the first of the two.
    """
    least = [float("inf")] * len(programs)
    order = list(range(len(programs)))
    for _ in range(RUNS):
        for index in order:
            least[index] = min(least[index], run(programs[index], recording, subprocess.DEVNULL))
        order.reverse()
    return least


def main(arguments):
    if len(arguments) != 3:
        sys.exit(__doc__.splitlines()[0])
    programs, folder = arguments[:2], arguments[2]
    print("%-14s %7s %10s %10s %6s %12s %12s  %s"
          % ("kind", "MiB", "listing s", "finder s", "ratio", "listing MB/s", "finder MB/s", "lists"))
    differing = []
    for kind in KINDS:
        recording = os.path.join(folder, kind)
        size = os.path.getsize(recording)
        # The comparison comes first: it also brings the recording into memory.
        same = is_same(programs, recording)
        listing, finder = least_seconds(programs, recording)
        print("%-14s %7.1f %10.4f %10.4f %6.2f %12.0f %12.0f  %s"
              % (kind, size / 2**20, listing, finder, finder / listing, size / listing / 1e6, size / finder / 1e6,
                 "same" if same else "DIFFERENT"), flush=True)
        if not same:
            differing.append(recording)
    for recording in differing:
        print("The lists differ: see %s.listing.txt and %s.finder.txt" % (recording, recording))
    return 1 if differing else 0


if __name__ == "__main__":
    try:
        sys.exit(main(sys.argv[1:]))
    except Failed as failed:
        print(failed, file=sys.stderr)
        sys.exit(2)
