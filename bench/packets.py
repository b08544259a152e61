#!/usr/bin/env python3
"""Time of framing and of reading packets of 100 bytes, by the ratio of N to 2N of them.

Run at the top of the repository: python3 bench/packets.py [N]
It builds `packet_lines` where it is missing or older than its sources, and runs it on N and on 2N packets: on one
`feed` line whose pieces are cut within the packets, and on a `read` line for each packet. It prints both times, their
ratio, and how many packets a second one processor takes, with the digits that a line spells them by. It ends with 1
where a ratio is above 2.3. With no N it takes as many packets, of 1000, 2000, 4000 and so on, as take a tenth of a
second, so that what is timed stands out, and no more: far beyond that the ratio tells how the system hands out memory,
since the program holds all that it reads and prints. Times are processor time. What is compared is run in turn, ten
times, and the least time of each counts. Each run has to print exactly the packets that it was given.
"""
import os
import subprocess
import sys
import tempfile

CRATE = os.path.join("crates", "packet_lines")
PROGRAM = os.path.join(CRATE, "out", "packet_lines")
SUFFIXES = (".rt", ".antt", "crates.txt")
FEW = 1000
RUNS = 10
MOST = 1 << 20
CUT = 130


def sources():
    yield "crates.txt"
    for folder, folders, names in os.walk("crates"):
        folders[:] = [name for name in folders if name != "out"]
        yield from (os.path.join(folder, name) for name in names if name.endswith(SUFFIXES))


def build():
    built = os.path.getmtime(PROGRAM) if os.path.exists(PROGRAM) else 0
    if any(built < os.path.getmtime(source) for source in sources()):
        subprocess.run(["rt", "run"], cwd=CRATE, stdin=subprocess.DEVNULL, stdout=sys.stderr, check=True)


def packet(number):
    """A PUBLISH of QoS 0 with a topic of 7 bytes, no properties and a payload of 88 bytes."""
    return b"\x30\x62" + b"\x00\x07bench/t" + b"\x00" + b"%088d" % number


def fed(count):
    stream = b"".join(packet(number) for number in range(count))
    pieces = " ".join(stream[at : at + CUT].hex() for at in range(0, len(stream), CUT))
    packets = "".join(packet(number).hex() + " " for number in range(count))
    return f"feed 65535 {pieces}\n", f"{packets}rest\n"


def read(count):
    packets = [packet(number).hex() for number in range(count)]
    return "".join(f"read {digits}\n" for digits in packets), "".join(f"ok {digits}\n" for digits in packets)


def run(lines, wanted):
    with tempfile.TemporaryFile() as source, tempfile.TemporaryFile() as sink:
        source.write(lines.encode())
        source.seek(0)
        child = subprocess.Popen([PROGRAM], stdin=source, stdout=sink)
        _, status, usage = os.wait4(child.pid, 0)
        child.returncode = os.waitstatus_to_exitcode(status)
        sink.seek(0)
        if child.returncode != 0 or sink.read() != wanted.encode():
            sys.exit(f"{lines[:40]}..: status {child.returncode}, or another text than that of the packets")
    return usage.ru_utime + usage.ru_stime


def count_to_take(command, seconds):
    count = FEW
    while 2 * count <= MOST and run(*command(count)) < seconds:
        count *= 2
    return count


def ratio(name, command, asked):
    count = asked or count_to_take(command, 0.1)
    calls = [command(count), command(2 * count)]
    first, second = [min(times) for times in zip(*([run(*call) for call in calls] for _ in range(RUNS)))]
    if first <= 0:
        sys.exit(f"{name}: too short to be timed")
    print(f"{count} and {2 * count} packets {name}: {first:.3f} s, {second:.3f} s, ratio {second / first:.2f}, "
          f"{2 * count / second:,.0f} packets a second", flush=True)
    return second / first


def main():
    asked = int(sys.argv[1]) if len(sys.argv) > 1 else None
    build()
    ratios = [ratio(name, command, asked) for name, command in (("framed", fed), ("read", read))]
    return 1 if max(ratios) > 2.3 else 0


if __name__ == "__main__":
    sys.exit(main())
