#!/usr/bin/env python3
"""Times the program on systems of many classes, with one worker and with four.

Each system has so many plain classes, one in a file, which a list names. Where the time is linear in the number of
classes, the last column is near 2. Further rows time a chain of classes that inherit from one another, in groups of 200,
and so many classes that all inherit from one. The program must end with the status that is named.
Usage, at the top of the repository: python3 bench/systems.py
"""
import os
import subprocess
import sys
import tempfile
import time

import timing

COUNTS = [2048, 4096, 8192]


def plain(i):
    return "class C%d create make feature make do make end end" % i


def chained(i):
    parent = "" if i % 200 == 0 else " inherit C%d" % (i - 1)
    return "class C%d%s end" % (i, parent)


def fanned(i):
    return "class C%d%s end" % (i, "" if i == 0 else " inherit C0")


SYSTEMS = {"plain classes": (plain, 0), "chains of 200 classes": (chained, 1), "heirs of one class": (fanned, 1)}


def seconds(text_of, count, workers, status):
    """The least time of three runs on so many classes."""
    with tempfile.TemporaryDirectory() as folder:
        names = ["c%d.e" % i for i in range(count)]
        for i, name in enumerate(names):
            with open(os.path.join(folder, name), "w") as out:
                out.write(text_of(i))
        with open(os.path.join(folder, "list.txt"), "w") as out:
            out.write("\n".join(names))
        best = float("inf")
        for _ in range(3):
            start = time.perf_counter()
            run = subprocess.run(
                [timing.PROGRAM, "--root", "c0.make", "--workers", str(workers), "--list", "list.txt"],
                stdout=subprocess.PIPE,
                check=False,
                cwd=folder,
            )
            best = min(best, time.perf_counter() - start)
            if run.returncode != status:
                sys.exit("status %d on %d files" % (run.returncode, count))
        return best


def main():
    timing.build()
    print("%-24s %7s %10s %10s %10s %8s" % ("system of", "workers", *COUNTS, "ratio"))
    for label, (text_of, status) in SYSTEMS.items():
        for workers in (1, 4):
            times = [seconds(text_of, count, workers, status) for count in COUNTS]
            row = " ".join("%8.0fms" % (1000 * t) for t in times)
            print("%-24s %7d %s %8.2f" % (label, workers, row, times[2] / times[1]))


main()
