"""Times the program on a text."""
import os
import resource
import subprocess
import sys
import tempfile
import time

TOP = os.path.dirname(os.path.dirname(os.path.abspath(__file__)))
PROGRAM = os.path.join(TOP, "crates", "cli", "out", "cli")
SIZES = [1 << 18, 1 << 19, 1 << 20]


def build():
    """Has the program built from the sources as they are."""
    subprocess.run([os.path.join(TOP, "eifcheck")], check=False)


def seconds(text, runs, stack):
    """The least time of some runs on the text, each in so many bytes of stack. Each must end with the status 1."""

    def limit():
        resource.setrlimit(resource.RLIMIT_STACK, (stack, stack))

    with tempfile.TemporaryDirectory() as folder:
        name = os.path.join(folder, "a.e")
        with open(name, "wb") as out:
            out.write(text)
        best = float("inf")
        for _ in range(runs):
            start = time.perf_counter()
            run = subprocess.run(
                [PROGRAM, "--root", "a.make", name],
                stdout=subprocess.PIPE,
                check=False,
                preexec_fn=limit,
            )
            best = min(best, time.perf_counter() - start)
            if run.returncode != 1:
                sys.exit("status %d on %r" % (run.returncode, text[:40]))
        return best


def table(texts, stack):
    """Prints the times on each text, which is made for a size, at a quarter, a half and all of a mebibyte."""
    build()
    print("%-24s %10s %10s %10s %8s" % ("text of", "256 KiB", "512 KiB", "1 MiB", "ratio"))
    for label, text in texts.items():
        times = [seconds(text(size), 5, stack) for size in SIZES]
        row = " ".join("%8.1fms" % (1000 * t) for t in times)
        print("%-24s %s %8.2f" % (label, row, times[2] / times[1]))
