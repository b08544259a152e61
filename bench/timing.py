"""Processor time of a program of the repository, for the scripts beside this one."""
import os
import subprocess
import sys


class Program:
    """A crate's program, which is built by a first run with these words where it is missing."""

    def __init__(self, crate, *first_run):
        self.folder = os.path.join("crates", crate)
        self.path = os.path.join(self.folder, "out", crate)
        if not os.path.exists(self.path):
            words = [str(word) for word in first_run]
            subprocess.run(["rt", "run", "--", *words], cwd=self.folder, stdout=sys.stderr, check=True)

    def seconds(self, words, is_right):
        """Processor seconds of one run, whose text has to be right."""
        words = [str(word) for word in words]
        child = subprocess.Popen([self.path, *words], stdout=subprocess.PIPE)
        text = child.stdout.read().decode()
        _, status, usage = os.wait4(child.pid, 0)
        child.returncode = os.waitstatus_to_exitcode(status)
        if child.returncode != 0 or not is_right(words, text):
            sys.exit(f"{' '.join(words)}: status {child.returncode}, {text.strip()!r}")
        return usage.ru_utime + usage.ru_stime

    def least(self, is_right, *calls):
        """The least time of each of these calls, which are run in turn, five times."""
        return [min(times) for times in zip(*([self.seconds(call, is_right) for call in calls] for _ in range(5)))]


def ratio(name, first, second, most):
    """Prints the ratio of two times, and gives whether it is at most so much."""
    if min(first, second) <= 0:
        sys.exit(f"{name}: too short to be timed")
    print(f"{name}: {first:.3f} s, {second:.3f} s, ratio {second / first:.2f}, at most {most}", flush=True)
    return second / first <= most
