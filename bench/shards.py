#!/usr/bin/env python3
"""Time of appends to a shard and of mounts of it on disks in memory, and the bytes on disk for a publish.

Run at the top of the repository: python3 bench/shards.py
It builds the program where it is missing, and prints the ratio of N to 2N appends of groups of 1 and of 64 messages with 100
bytes of payload, of mounts of a shard after N and 2N appends, and the bytes that a publish takes on disk beside its 100.
It ends with 1 where a ratio is above 2.3. Times are processor time. What is compared is run in turn, five times, and the
least time of each counts; what a run needs before what is timed is taken off. The sizes are such that a shard is larger than
the caches in either run.
"""
import subprocess
import sys

from timing import Program, ratio

ALONE = 16000
TOGETHER = 250
TIMES = 50
RECORDS = 8000
MOUNTS = 200


def is_right(words, text):
    name, count, _, times = words
    if name == "bytes":
        return text.endswith(" done\n")
    return text == f"{int(count) * int(times) if name == 'appends' else int(times)} done\n"


def bytes_of(program, count):
    """The bytes on the disk of a shard's slot after so many appends of one message."""
    done = subprocess.run([program.path, "bytes", str(count), "1", "1"], stdout=subprocess.PIPE, check=True)
    return int(done.stdout.split()[0])


def main():
    program = Program("shard_bench", "appends", 1, 1, 1)
    alone, alone2 = program.least(is_right, ("appends", ALONE, 1, TIMES), ("appends", 2 * ALONE, 1, TIMES))
    good = ratio(f"{ALONE} and {2 * ALONE} appends of one message", alone, alone2, 2.3)
    together, together2 = program.least(is_right, ("appends", TOGETHER, 64, TIMES), ("appends", 2 * TOGETHER, 64, TIMES))
    good &= ratio(f"{TOGETHER} and {2 * TOGETHER} appends of 64 messages", together, together2, 2.3)
    before, mounts, before2, mounts2 = program.least(
        is_right, ("mounts", RECORDS, 1, 0), ("mounts", RECORDS, 1, MOUNTS), ("mounts", 2 * RECORDS, 1, 0), ("mounts", 2 * RECORDS, 1, MOUNTS)
    )
    good &= ratio(f"mounts of {RECORDS} and of {2 * RECORDS} records", mounts - before, mounts2 - before2, 2.3)
    few, many = bytes_of(program, 100), bytes_of(program, 200)
    print(f"a publish of 100 bytes takes {(many - few) / 100:.0f} bytes on disk")
    return 0 if good else 1


if __name__ == "__main__":
    sys.exit(main())
