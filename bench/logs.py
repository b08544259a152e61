#!/usr/bin/env python3
"""Time of commits, of mounting and of reading in a log of 1 KiB records on a disk in memory, by three ratios.

Run at the top of the repository: python3 bench/logs.py [N]
It builds the program where it is missing, and prints the ratio of N to 2N commits, of mounting N to 2N records, and of
reading the first to the last of N records. It ends with 1 where one of them is above 2.5. With no N the commits are as
many, of 50, 100, 200 and so on, as take less than a third of a second, so that what is timed stands out, and 1000 are
made before mounting and reading: what a mount of 2000 reads stays in a processor's caches, and the ratio tells of the
program and not of them. Times are processor time. What is compared is run in turn, five times, and the least time of
each counts.
"""
import sys

from timing import Program, ratio

MOST = 1000000
FEW = 1000
RATIO = 2.5


def is_right(words, text):
    return text.startswith(words[1] + " records")


def count_to_take(program, seconds):
    count = 50
    while 4 * count <= MOST and program.seconds(("commits", 2 * count), is_right) < seconds:
        count *= 2
    return count


def mounts_to_take(program, count):
    [alone], mounts = program.least(is_right, ("mounts", count, 0)), 1000
    while 4 * mounts <= MOST and program.seconds(("mounts", count, mounts), is_right) - alone < 0.5:
        mounts *= 4
    return mounts


def commits(program, asked):
    count = asked or count_to_take(program, 1 / 3)
    first, second = program.least(is_right, ("commits", count), ("commits", 2 * count))
    return ratio(f"{count} and {2 * count} commits", first, second, RATIO)


def mounting(program, asked):
    count = asked or FEW
    mounts = mounts_to_take(program, count)
    calls = [("mounts", records, times) for records in (count, 2 * count) for times in (mounts, 0)]
    first, alone, second, second_alone = program.least(is_right, *calls)
    return ratio(f"{mounts} mounts of {count} and of {2 * count} records", first - alone, second - second_alone, RATIO)


def reading(program, asked):
    count = asked or FEW
    calls = [("entries", count, entry, times) for entry in (0, count - 1) for times in (MOST, 0)]
    first, alone, last, last_alone = program.least(is_right, *calls)
    return ratio(f"{MOST} readings of the first and of the last of {count} records", first - alone, last - last_alone, RATIO)


def main():
    asked = int(sys.argv[1]) if len(sys.argv) > 1 else None
    program = Program("log_bench", "commits", 1)
    good = [measure(program, asked) for measure in (commits, mounting, reading)]
    return 0 if all(good) else 1


if __name__ == "__main__":
    sys.exit(main())
