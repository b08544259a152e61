#!/usr/bin/env python3
"""Time of commits, mounts and snapshots of a worker's sessions on disks in memory, and the memory of an idle session.

Run at the top of the repository: python3 bench/sessions.py
It builds the program where it is missing, and prints the ratio of N commits of one acknowledgement with at most 500
unfinished deliveries to those with at most 10, of mounting N to 2N records, of writing snapshots of N to 2N sessions, and
the bytes that a session keeps which began and did nothing. It ends with 1 where the first is above 1.5, or one of the
others above 2.3. Times are processor time. What is compared is run in turn, five times, and the least time of each counts;
what a run needs before what is timed is taken off. The memory is that which the program needs at least, found by halves.
"""
import resource
import subprocess
import sys

from timing import Program, ratio

COMMITS = 200000
RECORDS = 4000
MOUNTS = 100
SESSIONS = 2000
SNAPSHOTS = 2000


def is_right(words, text):
    return text.endswith(" done\n")


def is_enough(program, limit, *words):
    """Whether the program does what the words ask with so many bytes of memory."""
    words = [str(word) for word in words]
    done = subprocess.run(
        [program.path, *words],
        stdout=subprocess.PIPE,
        stderr=subprocess.DEVNULL,
        preexec_fn=lambda: resource.setrlimit(resource.RLIMIT_DATA, (limit, limit)),
    )
    return done.returncode == 0


def bytes_needed(program, *words):
    low, high = 0, 1 << 28
    while high - low > 4096:
        middle = (low + high) // 2
        if is_enough(program, middle, *words):
            high = middle
        else:
            low = middle
    return high


def main():
    program = Program("session_bench", "commits", 1, 1)
    few, many = program.least(is_right, ("commits", COMMITS, 10), ("commits", COMMITS, 500))
    good = ratio("commits with 10 and with 500 unfinished", few, many, 1.5)
    alone, mounts, alone2, mounts2 = program.least(
        is_right, ("mounts", RECORDS, 0), ("mounts", RECORDS, MOUNTS), ("mounts", 2 * RECORDS, 0), ("mounts", 2 * RECORDS, MOUNTS)
    )
    good &= ratio(f"mounts of {RECORDS} and of {2 * RECORDS} records", mounts - alone, mounts2 - alone2, 2.3)
    alone, written, alone2, written2 = program.least(
        is_right, ("snapshots", SESSIONS, 0), ("snapshots", SESSIONS, SNAPSHOTS), ("snapshots", 2 * SESSIONS, 0), ("snapshots", 2 * SESSIONS, SNAPSHOTS)
    )
    good &= ratio(f"snapshots of {SESSIONS} and of {2 * SESSIONS} sessions", written - alone, written2 - alone2, 2.3)
    few, many = bytes_needed(program, "snapshots", SESSIONS, 0), bytes_needed(program, "snapshots", 2 * SESSIONS, 0)
    print(f"an idle session: {(many - few) / SESSIONS:.0f} bytes, {few} for {SESSIONS} and {many} for {2 * SESSIONS}")
    return 0 if good else 1


if __name__ == "__main__":
    sys.exit(main())
