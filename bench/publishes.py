#!/usr/bin/env python3
"""Time and peak memory of replay at N and 2N publishes to one subscriber's topic, with a pump after every hundred.

Run at the top of the repository, after ./broker has built the program: python3 bench/publishes.py [N]
Prints both runs and the two ratios, and ends with 1 where one of them is above 2.5.
"""
import os
import resource
import subprocess
import sys
import tempfile
import time

PROGRAM = os.path.join("crates", "broker_main", "out", "broker_main")
CONNECT = "101300044D5154540500003C051100000E100001"
SUBSCRIBE = "82090001000003612F6201"
PUBLISH = "326C0003612F62000700" + "61" * 100


def script(count):
    yield "open 1\nsend 1 " + CONNECT + "61\nsend 1 " + SUBSCRIBE + "\n"
    yield "open 2\nsend 2 " + CONNECT + "70\n"
    for number in range(count):
        yield "send 2 " + PUBLISH + "\n"
        if number % 100 == 99:
            yield "pump 1\n"


def run(count):
    with tempfile.TemporaryFile("w+") as source, tempfile.TemporaryFile() as text:
        source.writelines(script(count))
        source.flush()
        source.seek(0)
        begun = time.monotonic()
        child = subprocess.Popen([PROGRAM, "replay"], stdin=source, stdout=text)
        _, status, usage = os.wait4(child.pid, 0)
        taken = time.monotonic() - begun
        text.seek(0, os.SEEK_END)
        if os.waitstatus_to_exitcode(status) != 0:
            sys.exit(f"{count} publishes: status {os.waitstatus_to_exitcode(status)}")
        print(f"{count} publishes: {taken:.2f} s, {usage.ru_maxrss} KiB, {text.tell()} bytes of text")
        return taken, usage.ru_maxrss


def main():
    count = int(sys.argv[1]) if len(sys.argv) > 1 else 20000
    run(count)
    first, second = run(count), run(2 * count)
    times, memory = second[0] / first[0], second[1] / first[1]
    print(f"ratio of the times {times:.2f}, of the peak memory {memory:.2f}")
    return 1 if times > 2.5 or memory > 2.5 else 0


if __name__ == "__main__":
    sys.exit(main())
