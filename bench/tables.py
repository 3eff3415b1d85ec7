#!/usr/bin/env python3
"""Times the program on the features of classes, with one worker.

The systems of the first two rows have many paths to an ancestor, and many names in each of a chain of classes. Of the others
there is one of a size and one of twice that size: where the time is linear in the size, the last column is near 2. A class
may have 2,048 names, three of which are those of ANY. The program must end with the status that is named. Usage, at the top
of the repository: python3 bench/tables.py
"""
import os
import subprocess
import sys
import tempfile
import time

import timing

APP = "class APP create make feature make do end end"


def doubled(count):
    """So many classes, of which each inherits twice from the one before."""
    heirs = ["class D%d inherit D%d D%d end" % (i + 1, i, i) for i in range(count)]
    return [APP, "class D0 feature f do end end", *heirs]


def wide(count):
    """A class of 2,048 names, and so many heirs in a chain."""
    names = ", ".join("f%d" % i for i in range(2045))
    heirs = ["class Q%d inherit Q%d end" % (i + 1, i) for i in range(count)]
    return [APP, "class Q0 feature %s: INTEGER end" % names, *heirs]


def calling(count):
    """A plain class of so many procedures, of which each calls the next."""
    calls = ["make do f0 end"] + ["f%d do f%d end" % (i, i + 1) for i in range(count - 2)]
    return ["class APP create make feature %s f%d do end end" % (" ".join(calls), count - 2)]


def fanned(count):
    """So many heirs of one class, each with a version of its own."""
    heir = "class H%d inherit C redefine f end feature f do g end h%d do end end"
    return [APP, "class C feature f do end g do end end", *[heir % (i, i) for i in range(count)]]


SYSTEMS = {
    "paths to an ancestor": (doubled, [40], 1),
    "heirs with 2,048 names": (wide, [30], 1),
    "procedures of a class": (calling, [1000, 2000], 0),
    "heirs of one class": (fanned, [2048, 4096], 1),
}


def seconds(texts, status):
    """The least time of three runs on these class texts."""
    with tempfile.TemporaryDirectory() as folder:
        names = ["c%d.e" % i for i in range(len(texts))]
        for name, text in zip(names, texts):
            with open(os.path.join(folder, name), "w") as out:
                out.write(text)
        with open(os.path.join(folder, "list.txt"), "w") as out:
            out.write("\n".join(names))
        best = float("inf")
        for _ in range(3):
            start = time.perf_counter()
            run = subprocess.run(
                [timing.PROGRAM, "--root", "app.make", "--list", "list.txt"],
                stdout=subprocess.PIPE,
                check=False,
                cwd=folder,
            )
            best = min(best, time.perf_counter() - start)
            if run.returncode != status:
                sys.exit("status %d on %d files" % (run.returncode, len(texts)))
        return best


def table(systems):
    """Prints the time on each system, at each of its sizes."""
    timing.build()
    print("%-26s %14s %12s %12s %8s" % ("system of", "sizes", "time", "time", "ratio"))
    for label, (texts_of, sizes, status) in systems.items():
        times = [seconds(texts_of(size), status) for size in sizes]
        row = " ".join("%10.0fms" % (1000 * t) for t in times)
        ratio = "%8.2f" % (times[1] / times[0]) if len(times) == 2 else ""
        print("%-26s %14s %s %s" % (label, ", ".join(map(str, sizes)), row, ratio))


if __name__ == "__main__":
    table(SYSTEMS)
